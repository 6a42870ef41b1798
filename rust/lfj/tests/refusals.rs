//! Every kind of refusal, by a clause put together wrongly, and the builder's own errors.

use lfj::{Clause, ClauseError, Kind, Refusal};

/// Two goals over v0 and v1, both in the head.
fn clause() -> Clause {
    Clause::new(2).head([0, 1]).goal("half", [0]).goal("edge", [1])
}

/// How reading refuses the clause with this change.
fn refused(change: impl Fn(&mut Clause)) -> (Kind, u32) {
    let mut clause = clause();
    change(&mut clause);
    match clause.record() {
        Err(ClauseError::Refused(refusal)) => (refusal.kind(), refusal.place),
        other => panic!("{other:?}"),
    }
}

#[test]
fn the_header() {
    assert_eq!(lfj::read(b"").map_err(|refusal| refusal.kind()), Err(Kind::ShortRecord));
    assert_eq!(lfj::read(&[0; 24]).map_err(|refusal| refusal.kind()), Err(Kind::BadMark));
    assert_eq!(refused(|clause| clause.version = 3), (Kind::BadVersion, 3));
    assert_eq!(refused(|clause| clause.goals.clear()), (Kind::BadGoalCount, 5));
    assert_eq!(refused(|clause| clause.variables = 65), (Kind::BadVariableCount, 6));
    assert_eq!(refused(|clause| clause.head = 4), (Kind::BadHeaderSet, 8));
    let outside = refused(|clause| (clause.head, clause.ground) = (1, 2));
    assert_eq!(outside, (Kind::BadHeaderSet, 16));
}

#[test]
fn goals_and_pairs() {
    assert_eq!(refused(|clause| clause.goals[0].variables = 4), (Kind::BadGoalSet, 24));
    assert_eq!(refused(|clause| clause.goals[1].text = String::new()), (Kind::BadGoalText, 45));
    assert_eq!(refused(|clause| clause.goals[1].text = "a b".into()), (Kind::BadGoalText, 47));
    assert_eq!(refused(|clause| clause.independent = vec![(1, 0)]), (Kind::BadPair, 50));
    assert_eq!(refused(|clause| clause.independent = vec![(0, 1), (0, 1)]), (Kind::BadPair, 52));
    let bytes = clause().bytes().unwrap();
    let read = |bytes: &[u8]| lfj::read(bytes).map_err(|refusal| (refusal.kind(), refusal.place));
    assert_eq!(read(&bytes[..49]), Err((Kind::CutOff, 49)));
    assert_eq!(read(&[&bytes[..], b"!"].concat()), Err((Kind::LeftOver, 50)));
}

#[test]
fn facts_at_goals() {
    let wide = |change: fn(&mut Clause)| {
        refused(|clause| {
            clause.version = 2;
            change(clause);
        })
    };
    assert_eq!(wide(|clause| clause.ground = 1), (Kind::BadGroundSet, 32));
    assert_eq!(
        wide(|clause| (clause.head, clause.goals[0].ground) = (0, 1)),
        (Kind::BadGroundSet, 32)
    );
    assert_eq!(wide(|clause| clause.goals[1].ticks = 0), (Kind::BadTicks, 63));
    assert_eq!(wide(|clause| clause.goals[0].ticks = 60_001), (Kind::BadTicks, 40));
}

#[test]
fn operations() {
    let record = clause().record().unwrap();
    let kind = |refusal: Refusal| refusal.kind();
    assert_eq!(lfj::form(&record, &mut []).map_err(kind), Err(Kind::ShortBuffer));
    assert_eq!(lfj::after(&record, 3).map_err(kind), Err(Kind::NoGoal));
    assert_eq!(lfj::check(&record, b"").map_err(kind), Err(Kind::BadTextLength));
    assert_eq!(lfj::check(&record, b"1;2").map_err(kind), Err(Kind::BadGrammar));
    assert_eq!(lfj::check(&record, b"1").map_err(kind), Err(Kind::BadGoalUse));
    let four = Clause::new(4).head(0..4).goal("a", [0]).goal("b", [1]).goal("c", [2]);
    let four = four.goal("d", [3]).independent(0, 1).independent(3, 0).independent(2, 3);
    let refusal = lfj::form_tree(&four.record().unwrap()).unwrap_err();
    assert_eq!((refusal.kind(), refusal.goals), (Kind::NoForm, [1, 2, 3, 4]));
}

#[test]
fn each_half_in_words() {
    let words = |change: fn(&mut Clause)| {
        let mut clause = clause();
        change(&mut clause);
        let bytes = clause.bytes().unwrap();
        lfj::read(&bytes).unwrap_err().words(&bytes)
    };
    let text = words(|clause| clause.goals[1].text = "x".repeat(25));
    assert_eq!(
        text,
        "the text of goal 2 has length 25, byte 45 of the record; 1 to 24 is right (refusal 9)"
    );
    let text = words(|clause| clause.goals[1].text = "a\tb".into());
    assert_eq!(
        text,
        "the text of goal 2 has a byte of value 9, byte 47 of the record; 33 to 126 is right \
         (refusal 9)"
    );
    // In version 2 a goal's fixed part is longer.
    let text = words(|clause| (clause.version, clause.goals[1].text) = (2, String::new()));
    assert!(text.starts_with("the text of goal 2 has length 0, byte 65 "), "{text}");
    assert!(words(|clause| clause.head = 4).starts_with("the head set, bytes 8 to 15,"));
    assert!(words(|clause| clause.ground = 4).starts_with("the ground set, bytes 16 to 23,"));
    // With bytes that the refusal is not about, the words are the general ones.
    let refusal = Refusal { number: 9, place: 45, goals: [0; 4] };
    assert_eq!(refusal.words(b"LFJ"), refusal.to_string());
    let refusal = Refusal { number: 17, place: 45, goals: [0; 4] };
    assert_eq!(refusal.words(b"1,2"), refusal.to_string());
}

#[test]
fn counts_that_fit_no_byte() {
    let error = |clause: Clause| clause.bytes().unwrap_err().to_string();
    let many = (0..256).fold(Clause::new(0), |clause, _| clause.goal("a", []));
    assert_eq!(error(many), "a record cannot hold 256 goals, 255 is the most that a byte counts");
    let long = Clause::new(0).goal(&"x".repeat(256), []);
    assert!(error(long).starts_with("a record cannot hold 256 bytes of a goal's text"));
    let mut pairs = clause();
    pairs.independent = vec![(0, 1); 256];
    assert!(error(pairs).starts_with("a record cannot hold 256 independent pairs"));
}

#[test]
fn the_builder_keeps_what_belongs_together() {
    let built = Clause::new(3).goal("a", [2]).independent(2, 0).independent(0, 1).independent(0, 2);
    assert_eq!(built.independent, [(0, 1), (0, 2)]);
    // What is ground before the first goal is so at each, wherever it is said.
    let built = built.head([0, 1]).goal_with_facts("b", [], [2], 7).ground([1]).goal("c", [0]);
    assert_eq!(built.goals.iter().map(|goal| goal.ground).collect::<Vec<_>>(), [2, 6, 6]);
    assert_eq!((built.version, built.goals[1].ticks, built.goals[2].ticks), (2, 7, 1));
    assert_eq!(Clause::of(&built.record().unwrap()), Ok(built));
}

#[test]
fn version() {
    let numbers = env!("CARGO_PKG_VERSION").split('.').map(|part| part.parse::<u32>().unwrap());
    assert_eq!(lfj::version(), numbers.fold(0, |version, part| version * 100 + part));
}

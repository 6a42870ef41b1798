//! 01's drafts, 02's sentences and the settled readings, each by its sentence.

use compare::build::Parts;
use compare::cases::Reference;
use compare::{Refusal, Verdict};

fn refusal(number: u8, place: u32) -> Refusal {
    Refusal { number, place, goals: [0; 4] }
}

fn form_of(parts: &Parts) -> Result<String, Refusal> {
    let mut out = [0; 146];
    let length = compare::form(&parts.record(), &mut out)?;
    assert_eq!(compare::form_length(&parts.record()), Ok(length));
    Ok(String::from_utf8(out[..length as usize].to_vec()).unwrap())
}

fn mel_of(parts: &Parts) -> String {
    let mut out = vec![0; 200_000];
    let length = compare::mel(&parts.record(), &mut out).unwrap() as usize;
    assert_eq!(
        compare::mel(&parts.record(), &mut out[..length - 1]),
        Err(refusal(12, length as u32))
    );
    String::from_utf8(out[..length].to_vec()).unwrap()
}

/// Goals that wait, before closure.
fn waits(goals: usize, waits: &[(usize, usize)]) -> Parts {
    Parts::with_waits(goals, waits).unwrap()
}

fn check(parts: &Parts, text: &str) -> Result<Verdict, Refusal> {
    compare::check(&parts.record(), text.as_bytes())
}

#[test]
fn forms_of_the_drafts() {
    let form = |goals, pairs: &[(usize, usize)]| form_of(&waits(goals, pairs)).unwrap();
    assert_eq!(form(1, &[]), "1");
    assert_eq!(form(3, &[(1, 3)]), "(1,3)&2");
    assert_eq!(form(3, &[(1, 2), (2, 3)]), "1,2,3");
    assert_eq!(form(3, &[]), "1&2&3");
    assert_eq!(form(4, &[(1, 3), (2, 3), (2, 4), (3, 4)]), "(1&2),3,4");
    assert_eq!(form(3, &[(2, 3)]), "1&(2,3)");
    assert_eq!(form(5, &[(2, 5), (3, 4)]), "1&(2,5)&(3,4)");
    assert_eq!(form(4, &[(1, 3), (1, 4), (2, 4), (3, 4)]), "((1,3)&2),4");
}

#[test]
fn clauses_without_a_form() {
    let four = |pairs: &[(usize, usize)]| form_of(&waits(4, pairs)).unwrap_err();
    let none = |goals| Refusal { number: 13, place: 0, goals };
    assert_eq!(four(&[(1, 3), (2, 3), (2, 4)]), none([1, 2, 3, 4]));
    assert_eq!(four(&[(1, 3), (1, 4), (2, 4)]), none([2, 1, 4, 3]));
    let record = waits(4, &[(1, 3), (2, 3), (2, 4)]).record();
    assert_eq!(compare::form_length(&record), Err(none([1, 2, 3, 4])));
    // 13 comes before 12.
    assert_eq!(compare::form(&record, &mut []), Err(none([1, 2, 3, 4])));
    // Several of them: the first by a, then b, c, d.
    let several = waits(6, &[(1, 4), (2, 4), (2, 5), (3, 5), (3, 6)]);
    assert_eq!(form_of(&several), Err(none([1, 2, 4, 5])));
}

#[test]
fn goal_counts() {
    let mut record = waits(1, &[]).record();
    for count in [0, 33] {
        record[5] = count;
        assert_eq!(compare::read(&record), Err(refusal(4, 5)));
    }
}

#[test]
fn the_clause_of_document_003() {
    let mut parts = Parts::over(3, &[0b011, 0b101, 0b001, 0b110]);
    parts.head = 0b011;
    assert_eq!(form_of(&parts).unwrap(), "1,2,3,4");
    assert_eq!(mel_of(&parts), "(ground(v0)=>1&2),(indep(v0,v1),indep(v0,v2)=>3&4)");
}

#[test]
fn annotations() {
    // A shared ground variable is no wait.
    let mut parts = Parts::over(1, &[1, 1]);
    parts.ground = 1;
    assert_eq!(form_of(&parts).unwrap(), "1&2");
    assert_eq!(mel_of(&parts), "(1&2)");
    // Pairs are lower first, whichever goal holds the lower.
    assert_eq!(mel_of(&Parts::over(2, &[0b10, 0b01])), "(indep(v0,v1)=>1&2)");
    // A fresh variable: only MEL knows first occurrences.
    let mut parts = Parts::over(2, &[0b01, 0b10]);
    parts.head = 1;
    assert_eq!(form_of(&parts).unwrap(), "1,2");
    assert_eq!(mel_of(&parts), "(1&2)");
    // Variables sort as numbers.
    let parts = Parts::over(12, &[1 << 2, 1 << 10, 1 << 11]);
    assert_eq!(mel_of(&parts), "(indep(v2,v10),indep(v2,v11),indep(v10,v11)=>1&2&3)");
}

#[test]
fn checks() {
    let chain = waits(2, &[(1, 2)]);
    assert_eq!(check(&chain, "((1)),2"), Ok(Verdict::Same));
    assert_eq!(check(&chain, "2&1"), Ok(Verdict::Differs(1, 2)));
    assert_eq!(check(&chain, "1,,2"), Err(refusal(16, 2)));
    assert_eq!(check(&chain, "01"), Err(refusal(16, 0)));
    assert_eq!(check(&chain, "1,1"), Err(refusal(17, 2)));
    assert_eq!(check(&chain, "1"), Err(refusal(17, 1)));
    // 16 is decided over the whole text before 17.
    assert_eq!(check(&chain, "1,1,,"), Err(refusal(16, 4)));
    assert_eq!(check(&chain, "3,,"), Err(refusal(16, 2)));
    // Numbers.
    assert_eq!(check(&chain, "33"), Err(refusal(17, 0)));
    assert_eq!(check(&chain, "1,99,2"), Err(refusal(17, 2)));
    assert_eq!(check(&chain, "100"), Err(refusal(16, 2)));
    assert_eq!(check(&chain, "0"), Err(refusal(16, 0)));
    assert_eq!(check(&chain, "10,20"), Err(refusal(17, 0)));
    // The text stops early.
    assert_eq!(check(&chain, "1,"), Err(refusal(16, 2)));
    assert_eq!(check(&chain, "(1"), Err(refusal(16, 2)));
    assert_eq!(check(&chain, "("), Err(refusal(16, 1)));
    assert_eq!(check(&chain, "1)"), Err(refusal(16, 1)));
    assert_eq!(check(&chain, "()"), Err(refusal(16, 1)));
    assert_eq!(check(&chain, "(1)2"), Err(refusal(16, 3)));
    assert_eq!(check(&chain, "1 ,2"), Err(refusal(16, 1)));
    // i may be above j.
    assert_eq!(check(&waits(2, &[]), "2,1"), Ok(Verdict::Differs(2, 1)));
    // A clause without a form is compared like any other.
    let none = waits(4, &[(1, 3), (2, 3), (2, 4)]);
    assert_eq!(check(&none, "(1&2),(3&4)"), Ok(Verdict::Differs(1, 4)));
}

#[test]
fn open_parentheses_and_lengths() {
    let one = waits(1, &[]);
    let nested = |deep: usize| "(".repeat(deep) + "1" + &")".repeat(deep);
    assert_eq!(check(&one, &nested(32)), Ok(Verdict::Same));
    assert_eq!(check(&one, &nested(33)), Err(refusal(16, 32)));
    assert_eq!(check(&one, &("(".repeat(40) + "x")), Err(refusal(16, 32)));
    assert_eq!(check(&one, ""), Err(refusal(15, 0)));
    assert_eq!(check(&one, &"(".repeat(513)), Err(refusal(15, 0)));
    let ten = waits(10, &[]);
    let text = |length| compare::generate::padded(b"1&2&3&4&5&6&7&8&9&10", length);
    for length in [510, 512] {
        assert_eq!(text(length).len(), length);
        assert_eq!(compare::check(&ten.record(), &text(length)), Ok(Verdict::Same));
    }
    let mut above = text(512);
    above.push(b')');
    assert_eq!(compare::check(&ten.record(), &above), Err(refusal(15, 0)));
}

#[test]
fn goal_texts() {
    let mut parts = waits(2, &[]);
    parts.goals[0].1 = vec![b'x'; 24];
    assert_eq!(compare::goal_text(&parts.record(), 1), Ok((33, 24)));
    assert_eq!(compare::goal_text(&parts.record(), 2), Ok((66, 2)));
    for goal in [0, 3, 33, 256, 257, u32::MAX] {
        assert_eq!(compare::goal_text(&parts.record(), goal), Err(refusal(14, 0)));
        assert_eq!(compare::after(&parts.record(), goal), Err(refusal(14, 0)));
    }
    for length in [25, 40, 41, 255] {
        parts.goals[0].1 = vec![b'x'; length];
        assert_eq!(compare::read(&parts.record()), Err(refusal(9, 32)));
    }
    // A cut text is 7 even if a byte of it is bad; a bad length is 9 even at the end.
    parts.goals[0].1 = vec![b' '; 24];
    assert_eq!(compare::read(&parts.record()[..50]), Err(refusal(7, 50)));
    assert_eq!(compare::read(&parts.record()), Err(refusal(9, 33)));
    parts.goals[0].1 = vec![];
    assert_eq!(compare::read(&parts.record()[..33]), Err(refusal(9, 32)));
    for byte in 0..=255u8 {
        for (length, at) in [(1, 0), (7, 6), (8, 0), (9, 8), (24, 17), (24, 23)] {
            let mut text = vec![b'~'; length];
            text[at] = byte;
            parts.goals[0].1 = text;
            let good = (33..=126).contains(&byte);
            let bad = Err(refusal(9, 33 + at as u32));
            assert_eq!(compare::read(&parts.record()), if good { Ok(2) } else { bad });
        }
    }
}

#[test]
fn the_whole_case() {
    let mut parts = Parts::over(3, &[1, 6, 5]);
    parts.head = 3;
    for (goal, text) in parts.goals.iter_mut().zip(["half", "edge", "join"]) {
        goal.1 = text.as_bytes().to_vec();
    }
    parts.pairs = vec![(0, 1), (0, 2)];
    assert_eq!(parts.record().len(), 67);
    let sheet = "goals 3\n1 half\n2 edge\n3 join\nform (1&2),3\nmel (1&2),3\n";
    assert_eq!(compare::sheet(&Reference, &parts.record()), sheet.as_bytes());
}

#[test]
fn the_longest_form() {
    let form = form_of(&Parts::longest_form()).unwrap();
    assert_eq!(form.len(), 146);
    assert!(form.starts_with("1,(2&(3,(4&(5,"));
}

#[test]
fn long_annotations() {
    let joining: Vec<u8> = (49..64).collect();
    assert_eq!(mel_of(&Parts::in_stages(64, &[2; 16], &joining, false)).len(), 188_354);
    assert_eq!(mel_of(&Parts::longest_mel()).len(), 192_127);
}

#[test]
fn without_a_form_at_every_size() {
    for goals in 4..=32u8 {
        let four = [goals - 3, goals - 2, goals - 1, goals];
        let none = Refusal { number: 13, place: 0, goals: four };
        assert_eq!(form_of(&Parts::without_form(goals)), Err(none));
    }
}

#[test]
fn a_refusal_changes_no_byte_and_a_text_only_its_own() {
    let parts = waits(3, &[(1, 3)]);
    let mut out = [7; 12];
    assert_eq!(compare::form(&parts.record(), &mut out[..6]), Err(refusal(12, 7)));
    assert_eq!(out, [7; 12]);
    assert_eq!(compare::form(&parts.record(), &mut out), Ok(7));
    assert_eq!(&out, b"(1,3)&2\x07\x07\x07\x07\x07");
}

/// 02, request 1: "a pair of goals is judged by the ground set at its earlier goal, and a MEL
/// stage by that at its first goal".
#[test]
fn facts_at_each_goal() {
    let known = |grounds: &[u64]| Parts::over(1, &[1, 1, 1]).knowing(grounds);
    assert_eq!(form_of(&known(&[0, 0, 0])).unwrap(), "1,2,3");
    assert_eq!(form_of(&known(&[0, 0, 1])).unwrap(), "1,2,3");
    assert_eq!(form_of(&known(&[0, 1, 1])).unwrap(), "1,(2&3)");
    assert_eq!(form_of(&known(&[1, 1, 1])).unwrap(), "1&2&3");
    assert_eq!(mel_of(&known(&[0, 1, 1])), "(ground(v0)=>1&2&3)");
    assert_eq!(mel_of(&known(&[1, 1, 1])), "(1&2&3)");
    assert_eq!(check(&known(&[0, 1, 1]), "1,2,3"), Ok(Verdict::Differs(2, 3)));
    // Two stages: the second begins with goal 2.
    let stages = |grounds: &[u64]| {
        let parts = Parts::over(3, &[0b010, 0b011, 0b101]);
        mel_of(&Parts { head: 0b101, ..parts }.knowing(grounds))
    };
    assert_eq!(stages(&[0, 2, 2]), "1,(ground(v0)=>2&3)");
    assert_eq!(stages(&[0, 0, 2]), "1,(ground(v0),indep(v1,v2)=>2&3)");
}

/// 02, request 1: "Version 1 is still read: every goal has the header's ground set and 1 tick."
#[test]
fn version_2_with_the_facts_of_version_1() {
    let mut parts = Parts::over(2, &[0b11, 0b01, 0b10]);
    parts.ground = 0b01;
    let wide = parts.clone().knowing(&[]);
    assert_eq!(wide.record().len(), parts.record().len() + 30);
    assert_eq!(form_of(&wide), form_of(&parts));
    assert_eq!(mel_of(&wide), mel_of(&parts));
    assert_eq!(Parts::of(&wide.record()), Ok(wide.clone()));
    for version in [0, 3, 255] {
        let mut record = wide.record();
        record[4] = version;
        assert_eq!(compare::read(&record), Err(refusal(3, 3)));
    }
}

#[test]
fn refusals_of_version_2() {
    let read = |parts: &Parts| compare::read(&parts.record());
    let clause = Parts::over(2, &[0b01, 0b10]).knowing(&[0b00, 0b01]);
    assert_eq!(read(&clause), Ok(2));
    // "lacks a variable of the previous one (the header's for goal 1)"
    assert_eq!(read(&Parts { ground: 0b10, ..clause.clone() }), Err(refusal(18, 32)));
    let mut lacking = clause.clone();
    lacking.facts[0].ground = 0b10;
    assert_eq!(read(&lacking), Err(refusal(18, 53)));
    // "or has one outside the head and earlier goals": a goal's own variables are not earlier.
    let head = |head| Parts { head, ..clause.clone() };
    assert_eq!(read(&head(0b00)), Ok(2));
    let mut own = head(0b00);
    own.facts[0].ground = 0b01;
    assert_eq!(read(&own), Err(refusal(18, 32)));
    own.facts[0].ground = 0;
    own.facts[1].ground = 0b10;
    assert_eq!(read(&own), Err(refusal(18, 53)));
    // A ground bit at or above v is 18, never 8.
    own.facts[1].ground = 1 << 63;
    assert_eq!(read(&own), Err(refusal(18, 53)));
    // "19, after 18, ticks outside 1 to 60,000"
    for ticks in [0, 1, 60_000, 60_001, 65_535] {
        let mut timed = clause.clone();
        timed.facts[1].ticks = ticks;
        let wanted = if (1..=60_000).contains(&ticks) { Ok(2) } else { Err(refusal(19, 61)) };
        assert_eq!(read(&timed), wanted);
        timed.facts[1].ground = 0b11;
        timed.goals[1].0 = 0b11;
        assert_eq!(read(&timed), wanted);
        timed.head = 0b01;
        assert_eq!(read(&timed), Err(refusal(18, 53)));
        timed.goals[1].0 = 0b100;
        assert_eq!(read(&timed), Err(refusal(8, 45)));
    }
    // "The fixed part of a version 2 goal is 19 bytes for refusal 7."
    let record = clause.record();
    for length in 24..record.len() {
        assert_eq!(compare::read(&record[..length]), Err(refusal(7, length as u32)));
    }
    let mut record = clause.record();
    record[41] = 0;
    assert_eq!(compare::read(&record[..42]), Err(refusal(7, 42)));
    assert_eq!(compare::read(&record[..43]), Err(refusal(19, 40)));
    assert_eq!(Parts::longest_wide_record().record().len(), 1910);
    assert_eq!(read(&Parts::longest_wide_record()), Ok(32));
}

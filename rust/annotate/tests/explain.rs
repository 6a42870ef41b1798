//! The explanations: three samples as printed, and all records of the kit and the samples held
//! against the proved library.

use annotate::explain::causes::{between, causes, direct_waits};
use annotate::explain::passes::passes;
use annotate::explain::places::{Part, field_at};
use annotate::explain::{explain, mel, new_facts, new_waits, split};
use annotate::view::View;
use annotate::{hex, input};
use lfj::{Clause, ClauseError, Expr, Kind, Refusal, Verdict};
use std::collections::BTreeSet;
use std::fs;
use std::path::{Path, PathBuf};

fn root() -> PathBuf {
    Path::new(env!("CARGO_MANIFEST_DIR")).join("../..")
}

fn sample(name: &str) -> View {
    let file = root().join(format!("samples/{name}.txt"));
    let input = input::read(&file.display().to_string()).unwrap();
    View::new(&input.name, input.record, input.names)
}

/// The files of a folder with this ending.
fn files(folder: &str, ending: &str) -> Vec<PathBuf> {
    let files = fs::read_dir(root().join(folder)).unwrap().map(|file| file.unwrap().path());
    files.filter(|path| path.extension().is_some_and(|end| end == ending)).collect()
}

/// The lines of the kit, question and answer.
fn cases() -> Vec<(String, String)> {
    let files = [files("kit/cases", "txt"), files("kit/vectors", "txt")].concat();
    let texts: Vec<String> = files.iter().map(|file| fs::read_to_string(file).unwrap()).collect();
    let lines = texts.iter().flat_map(|text| text.lines()).filter(|line| !line.starts_with('#'));
    let cases = lines.filter_map(|line| line.split_once(" = "));
    cases.map(|(question, answer)| (question.to_string(), answer.to_string())).collect()
}

/// The bytes of every question of the kit, records or not, and the samples.
fn records() -> BTreeSet<Vec<u8>> {
    let cases = cases();
    let words = cases.iter().flat_map(|(question, _)| question.split(' '));
    let mut records: BTreeSet<Vec<u8>> = words.filter_map(|word| hex::unhex(word).ok()).collect();
    records.extend(files("samples", "lfj").iter().map(|file| fs::read(file).unwrap()));
    records
}

/// Those that are accepted.
fn views() -> Vec<View> {
    let views = records().into_iter().map(|record| View::new("clause", record, Vec::new()));
    let views: Vec<View> = views.filter(|view| view.clause.is_ok()).collect();
    assert!(views.len() > 2000, "{} accepted records", views.len());
    views
}

/// Those without a form, with their clause and the four goals.
fn without_form() -> Vec<(View, Clause, [u32; 4])> {
    let views = views().into_iter().filter_map(|view| {
        let four = view.form.as_ref().err()?.goals.map(u32::from);
        let clause = view.clause.clone().ok()?;
        Some((view, clause, four))
    });
    let views: Vec<_> = views.collect();
    assert!(views.len() > 500, "{} clauses without a form", views.len());
    views
}

/// Those that are refused.
fn refused() -> Vec<(Vec<u8>, Refusal)> {
    let refused = records().into_iter().filter_map(|record| {
        let refusal = lfj::read(&record).err()?;
        Some((record, refusal))
    });
    let refused: Vec<_> = refused.collect();
    for number in (1..=11).chain([18, 19]) {
        assert!(refused.iter().any(|(_, refusal)| refusal.number == number), "no case of {number}");
    }
    refused
}

fn has(rows: &[u32], one: u32, other: u32) -> bool {
    rows[one as usize - 1] >> (other - 1) & 1 == 1
}

/// The pairs of different goals.
fn pairs(goals: u32) -> impl Iterator<Item = (u32, u32)> {
    (1..=goals).flat_map(move |one| (1..=goals).map(move |other| (one, other)))
}

/// The order that an expression induces, row by row, over all goals of the clause.
fn induced(expression: &Expr, rows: &mut [u32]) {
    let (Expr::Sequence(members) | Expr::Parallel(members)) = expression else { return };
    for (at, member) in members.iter().enumerate() {
        induced(member, rows);
        if let Expr::Sequence(_) = expression {
            let later = members[at + 1..].iter().flat_map(Expr::goals);
            let later = later.fold(0, |set, goal| set | 1 << (goal - 1));
            member.goals().iter().for_each(|goal| rows[*goal as usize - 1] |= later);
        }
    }
}

/// No sequence directly in a sequence, no group directly in a group, and the members of a group
/// ascend by their smallest goal.
fn is_in_house_form(expression: &Expr) -> bool {
    let smallest = |member: &Expr| member.goals().into_iter().min();
    match expression {
        Expr::Goal(_) => true,
        Expr::Sequence(members) => {
            members.iter().all(|part| is_in_house_form(part) && !matches!(part, Expr::Sequence(_)))
        }
        Expr::Parallel(members) => {
            members.is_sorted_by_key(smallest)
                && members
                    .iter()
                    .all(|part| is_in_house_form(part) && !matches!(part, Expr::Parallel(_)))
        }
    }
}

const HALF_MOTIF: &str = r"half-motif: 3 goals, 3 variables, a record of version 1.

What is known
  In the head: Left and Right.
  Ground from the start: none.
  Known to be independent: Left and Right, Left and Thread.
  The goals and their variables:
    1 half: Left
    2 edge: Right and Thread
    3 join: Left and Thread

The form
  (1&2),3
  (half & edge), join
  First 1 half and 2 edge side by side, then 3 join.

Who waits for whom
  1 half waits for no goal.
  2 edge waits for no goal.
  3 join waits for
    - 1 half: both have Left, which is not ground at 1 half
    - 2 edge: both have Thread, which is not ground at 2 edge

How the waits are closed to the order
  In 1 pass: no chain of two waits gives a further one.

The MEL annotation
  (half & edge), join
  2 stages, one after another.
  Stage 1: 1 half and 2 edge side by side, without a check.
  Stage 2: 3 join alone.
";

const NO_FORM: &str = r"no-form: 4 goals, 4 variables, a record of version 1.

What is known
  In the head: A, B, C and D.
  Ground from the start: none.
  Known to be independent: A and B, A and D, C and D.
  The goals and their variables:
    1 trim(A): A
    2 picot(B): B
    3 braid(C): C
    4 close(D): D

The form
  No fork-join expression has this order. Four goals show it:
  - 3 braid(C) waits for 1 trim(A): A and C are not known to be independent
  - 3 braid(C) waits for 2 picot(B): B and C are not known to be independent
  - 4 close(D) waits for 2 picot(B): B and D are not known to be independent
  - no order between 1 trim(A) and 2 picot(B); 1 trim(A) and 4 close(D); 3 braid(C) and 4 close(D)
  An expression that keeps these three waits always has at least one more among the four. MEL runs
  the clause anyway; its annotation stands below.

What a designer can do
  Take a wait away by facts, if they are true; what is ground from a goal on is so just left of it
  already:
    so that 3 braid(C) does not wait for 1 trim(A):
      - if A and C are independent: the form is 1&(2,(3&4)).
      - if A is ground at every goal: the form is 1&(2,(3&4)).
      - if C is ground at every goal: the form is 1&(2,4)&3.
    so that 3 braid(C) does not wait for 2 picot(B):
      - if B and C are independent: the form is (1,3)&(2,4).
      - if B is ground from 2 picot(B) on: the form is (1,3)&2&4, in a record of version 2.
      - if C is ground from 2 picot(B) on: the form is (1,3)&(2,4), in a record of version 2.
    so that 4 close(D) does not wait for 2 picot(B):
      - if B and D are independent: the form is ((1&2),3)&4.
      - if B is ground from 2 picot(B) on: the form is (1,3)&2&4, in a record of version 2.
      - if D is ground from 2 picot(B) on: the form is ((1&2),3)&4, in a record of version 2.
  Or use an expression that keeps every wait and adds to them; each wait more is two goals that no
  longer run side by side:
    - 2,((1,3)&4): 1 wait more, 1 trim(A) for 2 picot(B)
    - (1&2),(3&4): 1 wait more, 4 close(D) for 1 trim(A)
    - (1&(2,4)),3: 1 wait more, 3 braid(C) for 4 close(D)
  Or split the clause; then every goal behind the split waits for all goals before it:
    - behind 1 trim(A): 1 and then 2,(3&4)
    - behind 2 picot(B): 1&2 and then 3&4
    - behind 3 braid(C): (1&2),3 and then 4

Who waits for whom
  1 trim(A) waits for no goal.
  2 picot(B) waits for no goal.
  3 braid(C) waits for
    - 1 trim(A): A and C are not known to be independent
    - 2 picot(B): B and C are not known to be independent
  4 close(D) waits for
    - 2 picot(B): B and D are not known to be independent

How the waits are closed to the order
  In 1 pass: no chain of two waits gives a further one.

The MEL annotation
  (indep(A,C), indep(B,C), indep(B,D) => trim(A) & picot(B) & braid(C) & close(D))
  1 stage. The checks of a stage are made at run time, before it starts: if all of them hold, its
  goals run side by side, else in sequence.
  Stage 1: 1 trim(A), 2 picot(B), 3 braid(C) and 4 close(D), 3 checks: A and C, B and C, B and D are
           independent.
";

const REFUSED_CUT: &str = r"refused-cut: refused 7 61.

What is wrong
  Byte 61 would be the 3rd byte of the text of goal 3, bytes 59 to 62; it is past the end, the
  record has 61 bytes. The text of goal 3 has 4 bytes by its length byte, byte 58; `jo` is there,
  and 2 bytes are missing.

The bytes around it
    32  04 68 61 6c 66 00 00 00 00 00 00 00 06 04 65 64  .half.........ed
    48  67 65 00 00 00 00 00 00 00 05 04 6a 6f           ge.........jo
                                               ^^ byte 61
";

const DOCUMENT_003: &str = r"document-003: 4 goals, 3 variables, a record of version 1.

What is known
  In the head: X and Y.
  Ground from the start: none.
  Known to be independent: no two variables.
  The goals and their variables:
    1 p(X,Y): X and Y
    2 q(X,Z): X and Z
    3 r(X): X
    4 s(Y,Z): Y and Z

The form
  1,2,3,4
  p(X,Y), q(X,Z), r(X), s(Y,Z)
  First 1 p(X,Y), then 2 q(X,Z), then 3 r(X), then 4 s(Y,Z).

Who waits for whom
  1 p(X,Y) waits for no goal.
  2 q(X,Z) waits for
    - 1 p(X,Y): both have X, which is not ground at 1 p(X,Y); besides, Y and Z are not known to be
      independent
  3 r(X) waits for
    - 1 p(X,Y): both have X, which is not ground at 1 p(X,Y)
    - 2 q(X,Z): both have X, which is not ground at 2 q(X,Z)
  4 s(Y,Z) waits for
    - 1 p(X,Y): both have Y, which is not ground at 1 p(X,Y); besides, X and Z are not known to be
      independent
    - 2 q(X,Z): both have Z, which is not ground at 2 q(X,Z); besides, X and Y are not known to be
      independent
    - 3 r(X): X and Y are not known to be independent, nor is 1 pair more

How the waits are closed to the order
  In 1 pass: no chain of two waits gives a further one.

The MEL annotation
  (ground(X) => p(X,Y) & q(X,Z)), (indep(X,Y), indep(X,Z) => r(X) & s(Y,Z))
  2 stages, one after another. The checks of a stage are made at run time, before it starts: if all
  of them hold, its goals run side by side, else in sequence.
  Stage 1: 1 p(X,Y) and 2 q(X,Z), 1 check: X is ground.
  Stage 2: 3 r(X) and 4 s(Y,Z), 2 checks: X and Y, X and Z are independent.
";

const DURATIONS: &str = r"durations: 4 goals, 2 variables, a record of version 2.

What is known
  In the head: Left and Right.
  Ground from the start: none.
  Known to be independent: Left and Right.
  The goals and their variables:
    1 spool: none; 40 ticks
    2 half(Left): Left; 1200 ticks
    3 half(Right): Right; 900 ticks
    4 finish(Left,Right): Left and Right; 60000 ticks
  The goals take 62140 ticks in all.

The form
  1&((2&3),4)
  spool & ((half(Left) & half(Right)), finish(Left,Right))
  side by side:
    - 1 spool
    - first side by side:
        - 2 half(Left)
        - 3 half(Right)
      then 4 finish(Left,Right)

Who waits for whom
  1 spool waits for no goal.
  2 half(Left) waits for no goal.
  3 half(Right) waits for no goal.
  4 finish(Left,Right) waits for
    - 2 half(Left): both have Left, which is not ground at 2 half(Left)
    - 3 half(Right): both have Right, which is not ground at 3 half(Right)

How the waits are closed to the order
  In 1 pass: no chain of two waits gives a further one.

The MEL annotation
  (ground(Left), ground(Right) => spool & half(Left) & half(Right) & finish(Left,Right))
  1 stage. The checks of a stage are made at run time, before it starts: if all of them hold, its
  goals run side by side, else in sequence.
  Stage 1: 1 spool, 2 half(Left), 3 half(Right) and 4 finish(Left,Right), 2 checks: Left and Right
           are ground.
";

#[test]
fn as_printed() {
    let printed = [
        ("half-motif", HALF_MOTIF),
        ("document-003", DOCUMENT_003),
        ("durations", DURATIONS),
        ("no-form", NO_FORM),
        ("refused-cut", REFUSED_CUT),
    ];
    for (name, words) in printed {
        assert_eq!(explain(&sample(name)), words);
    }
}

#[test]
fn where_a_variable_gets_ground_is_told_once() {
    let words = explain(&sample("ground-on-the-way"));
    let line = "    2 wind(Length,Left): Length and Left; 1 tick; ground from here on: Length\n";
    assert!(words.contains(line), "{words}");
    assert_eq!(words.matches("ground from here on").count(), 1, "{words}");
}

#[test]
fn direct_waits_closed_are_the_order_and_every_wait_has_a_reason() {
    for view in views() {
        let clause = view.clause.as_ref().unwrap();
        let direct = direct_waits(clause);
        for (one, other) in pairs(view.order.len() as u32) {
            let waits = one < other && causes(clause, one, other).is_some();
            assert_eq!(waits, has(&direct, one, other));
            let chain = between(&direct, one, other);
            assert_eq!(
                waits || !chain.is_empty(),
                has(&view.order, one, other),
                "{one} {other} {clause:?}"
            );
            let links = [vec![one], chain.clone(), vec![other]].concat();
            let linked = links.windows(2).all(|two| has(&direct, two[0], two[1]));
            assert_eq!(waits || !chain.is_empty(), linked);
        }
    }
}

#[test]
fn causes_are_all_that_the_facts_leave() {
    for view in views() {
        let facts = lfj::facts(&view.record).unwrap();
        let has = |set: u64, variable: u8| set >> variable & 1 == 1;
        for (one, other) in pairs(facts.goals).filter(|(one, other)| one < other) {
            let [a, b] = [one, other].map(|goal| facts.sets[goal as usize - 1]);
            let ground = facts.ground[one as usize - 1];
            let open = |set: u64| (0..64).filter(move |x| has(set, *x) && !has(ground, *x));
            let shared: Vec<u8> = open(a & b).collect();
            let pairs = open(a)
                .filter(|x| !has(b, *x))
                .flat_map(|x| open(b).filter(move |y| !has(a, *y)).map(move |y| (x, y)));
            let unlisted = pairs.filter(|(x, y)| !has(facts.listed[*x as usize], *y));
            let pairs: Vec<(u8, u8)> = unlisted.collect();
            let causes = causes(view.clause.as_ref().unwrap(), one, other);
            let causes = causes.map_or((vec![], vec![]), |causes| (causes.shared, causes.pairs));
            assert_eq!(causes, (shared, pairs));
        }
    }
}

/// The goals, called g1, g2, .., that a text names.
fn named_goals(text: &str) -> BTreeSet<u32> {
    let words = text.split_whitespace();
    let words = words.map(|word| word.trim_end_matches([':', ',', ';', '.']));
    words.filter_map(|word| word.strip_prefix('g')?.parse().ok()).collect()
}

/// What an explanation says of each goal's waits: the goal, and a line with those it waits for.
fn told_waits(explained: &str) -> Vec<(u32, String)> {
    let told = explained.split("\nWho waits for whom\n").nth(1).unwrap();
    let told = told.split("\n\nHow the waits are closed").next().unwrap();
    let (mut goal, mut items) = (0, Vec::new());
    for line in told.lines() {
        if let Some(item) = line.strip_prefix("    - ") {
            items.push((goal, item.to_string()));
        } else if line.starts_with("      ") {
            items.last_mut().unwrap().1 += &format!(" {}", line.trim());
        } else {
            goal += 1;
            assert!(line.starts_with(&format!("  {goal} g{goal} waits for")), "{line}");
        }
    }
    items
}

#[test]
fn the_waits_that_are_told_are_the_order() {
    for view in views() {
        let mut clause = view.clause.unwrap();
        for (goal, number) in clause.goals.iter_mut().zip(1..) {
            goal.text = format!("g{number}");
        }
        let (mut direct, mut through) = (BTreeSet::new(), BTreeSet::new());
        let view = View::new("clause", clause.record().unwrap(), Vec::new());
        for (goal, item) in told_waits(&explain(&view)) {
            let alone = item.ends_with("through others alone");
            let set = if alone { &mut through } else { &mut direct };
            set.extend(named_goals(&item).into_iter().map(|earlier| (earlier, goal)));
        }
        let rows = direct_waits(&clause);
        for (one, other) in pairs(view.order.len() as u32) {
            let chained = has(&view.order, one, other) && !has(&rows, one, other);
            assert_eq!(direct.contains(&(one, other)), has(&rows, one, other));
            assert_eq!(through.contains(&(one, other)), chained);
        }
    }
}

#[test]
fn of_many_waits_those_that_no_chain_gives_are_told_in_full() {
    // Eight goals, one after another: each waits for all before it.
    let clause = (1..=8).fold(Clause::new(1), |clause, goal| clause.goal(&format!("g{goal}"), [0]));
    let view = View::new("clause", clause.record().unwrap(), Vec::new());
    let last: Vec<String> = told_waits(&explain(&view))
        .into_iter()
        .filter(|(goal, _)| *goal == 8)
        .map(|(_, item)| item)
        .collect();
    let reason =
        |goal: u32| format!("{goal} g{goal}: both have v0, which is not ground at {goal} g{goal}");
    let mut told: Vec<String> = [1, 2, 3, 4, 7].map(reason).to_vec();
    told.push("for like reasons 5 g5 (v0) and 6 g6 (v0)".to_string());
    assert_eq!(last, told);
}

/// A chain of goals, each of which waits for the one before it alone.
fn chain(goals: u8) -> View {
    let mut clause = Clause::new(goals);
    for goal in 0..goals {
        clause = clause.goal(&format!("g{}", goal + 1), [goal]);
        clause = (0..goal.saturating_sub(1)).fold(clause, |c, other| c.independent(other, goal));
    }
    View::new("clause", clause.record().unwrap(), Vec::new())
}

/// What an explanation says of the passes.
fn told_passes(view: &View) -> String {
    let explained = explain(view);
    let told = explained.split("\nHow the waits are closed to the order\n").nth(1).unwrap();
    told.split("\n\nThe MEL annotation\n").next().unwrap().to_string()
}

#[test]
fn passes_in_words() {
    let closed = "  In 1 pass: no chain of two waits gives a further one.";
    assert_eq!(told_passes(&chain(1)), closed);
    assert_eq!(told_passes(&chain(2)), closed);
    let words = r"  In 3 passes; each adds what a chain of two waits standing at its start gives:
    - pass 1 adds 1 g1 before 3 g3, 2 g2 before 4 g4 and 3 g3 before 5 g5
    - pass 2 adds 1 g1 before 4 g4, 1 g1 before 5 g5 and 2 g2 before 5 g5
    - pass 3 adds nothing";
    assert_eq!(told_passes(&chain(5)), words);
    let words = told_passes(&chain(22));
    assert!(words.starts_with("  In 6 passes;"), "{words}");
    let third = "pass 3 adds 1 g1 before 6 g6, 1 g1 before 7 g7, 1 g1 before 8 g8, 1 g1 before 9 g9 \
                 and 58 more";
    assert_eq!(words.lines().filter(|line| line.contains("- pass")).count(), 6, "{words}");
    assert!(words.replace("\n      ", " ").contains(third), "{words}");
    let one = "  In 2 passes; each adds what a chain of two waits standing at its start gives:";
    assert!(told_passes(&sample("side-by-side")).starts_with(one));
}

#[test]
fn passes_are_those_of_the_library() {
    for view in views() {
        let direct = direct_waits(view.clause.as_ref().unwrap());
        let passes = passes(&direct);
        assert_eq!(passes.len() as u32, view.passes, "{:?}", view.clause);
        let mut rows = direct;
        for added in &passes {
            rows.iter_mut().zip(added).for_each(|(row, more)| *row |= more);
        }
        assert_eq!(rows, view.order, "{:?}", view.clause);
        let adds = |added: &Vec<u32>| added.iter().any(|row| *row != 0);
        assert!(passes[..passes.len() - 1].iter().all(adds), "{:?}", view.clause);
    }
}

#[test]
fn direct_waits_are_those_of_the_kit() {
    let mut compared = 0;
    for (question, answer) in cases() {
        let words: Vec<&str> = question.split(' ').collect();
        let Some(at) = words.iter().position(|word| *word == "waits") else { continue };
        let Some(rows) = answer.strip_prefix("ok ") else { continue };
        let clause = Clause::of(&hex::unhex(words[at + 2]).unwrap()).unwrap();
        let row = |row: &str| u32::from_str_radix(row, 16).unwrap();
        let rows: Vec<u32> = rows.split(' ').skip(1).map(row).collect();
        assert_eq!(direct_waits(&clause), rows, "{question}");
        compared += 1;
    }
    assert!(compared > 200, "{compared} cases");
}

#[test]
fn stages_are_those_of_the_annotation() {
    for view in views() {
        let goals = |stage: &mel::Stage| {
            let goals: Vec<String> = stage.goals.iter().map(u32::to_string).collect();
            goals.join("&")
        };
        let checks = |stage: &mel::Stage| {
            let ground = stage.ground.iter().map(|x| format!("ground(v{x})"));
            let pairs = stage.independent.iter().map(|(x, y)| format!("indep(v{x},v{y})"));
            ground.chain(pairs).collect::<Vec<_>>().join(",")
        };
        let stages = mel::stages(&view.mel);
        let text = stages.iter().map(|stage| match (stage.goals.len(), checks(stage)) {
            (1, _) => goals(stage),
            (_, checks) if checks.is_empty() => format!("({})", goals(stage)),
            (_, checks) => format!("({checks}=>{})", goals(stage)),
        });
        assert_eq!(text.collect::<Vec<_>>().join(","), view.mel);
    }
}

#[test]
fn new_facts_take_the_wait_away() {
    let mut tried = 0;
    for (view, clause, [a, b, c, d]) in without_form() {
        for (from, to) in [(a, c), (b, c), (b, d)] {
            let (statable, _) = new_facts::ways(&clause, &view.order, from, to);
            for facts in statable {
                let record = match facts.added_to(&clause).record() {
                    Err(ClauseError::Count { .. }) => continue,
                    record => record.unwrap(),
                };
                let row = lfj::after(&record, from).unwrap();
                assert!(row >> (to - 1) & 1 == 0, "{facts:?} {clause:?}");
                tried += 1;
            }
        }
    }
    assert!(tried > 2000, "{tried} tried");
}

#[test]
fn facts_that_are_left_out_are_refused() {
    let mut refused = 0;
    for (view, clause, [a, b, c, d]) in without_form() {
        for (from, to) in [(a, c), (b, c), (b, d)] {
            let (_, not_statable) = new_facts::ways(&clause, &view.order, from, to);
            for facts in not_statable {
                let record = facts.added_to(&clause).bytes().unwrap();
                let refusal = lfj::read(&record).unwrap_err();
                assert!(matches!(refusal.kind(), Kind::BadHeaderSet | Kind::BadGroundSet));
                refused += 1;
            }
        }
    }
    assert!(refused > 0);
}

#[test]
fn offered_expressions_keep_every_wait() {
    for (view, clause, four) in without_form() {
        let offers = new_waits::offers(&view.order, four);
        for (stricter, form) in &offers {
            let mut rows = vec![0; clause.goals.len()];
            induced(form, &mut rows);
            assert_eq!(rows, stricter.rows);
            assert!(is_in_house_form(form), "{form}");
            assert!(rows.iter().zip(&view.order).all(|(row, less)| row & less == *less));
            let verdict = lfj::check(&view.record, format!("{form:#}").as_bytes()).unwrap();
            let Verdict::Differs(i, j) = verdict else { panic!("the clause has no form") };
            assert!(stricter.beyond(&view.order).contains(&(i as u32, j as u32)));
        }
        assert!(!offers.is_empty());
    }
}

#[test]
fn parts_of_a_split_have_the_order_of_the_clause() {
    for (view, clause, _) in without_form() {
        let goals = clause.goals.len();
        let few = split::in_few(&clause);
        let two = split::in_two(&clause);
        assert_eq!(two.is_empty(), few.len() > 2);
        for parts in two.into_iter().map(Vec::from).chain([few]) {
            let mut next = 1;
            for (from, to, form) in parts {
                assert_eq!(from, next);
                next = to + 1;
                let inside = |goal: usize| (from..=to).contains(&goal);
                let all = (from..=to).fold(0u32, |set, goal| set | 1 << (goal - 1));
                let mut rows = vec![0; goals];
                induced(&form, &mut rows);
                for goal in (1..=goals).filter(|goal| inside(*goal)) {
                    assert_eq!(rows[goal - 1], view.order[goal - 1] & all);
                }
            }
            assert_eq!(next, goals + 1);
        }
    }
}

#[test]
fn a_few_parts_are_each_as_long_as_can_be() {
    for (_, clause, _) in without_form() {
        let few = split::in_few(&clause);
        for (from, to, _) in &few[..few.len() - 1] {
            assert!(split::form_of(&clause, *from, to + 1).is_none());
        }
    }
}

#[test]
fn an_order_that_no_record_lists_is_not_tried() {
    // The first four goals have no form; beside them stand 14 pairs of goals, all independent.
    let mut clause = Clause::new(18).head(0..18);
    for variable in 0..4 {
        clause = clause.goal("four", [variable]);
    }
    for variable in 4..18 {
        clause = clause.goal("front", [variable]).goal("behind", [variable]);
    }
    for (one, other) in (0..18).flat_map(|one| (one + 1..18).map(move |other| (one, other))) {
        if ![(0, 2), (1, 2), (1, 3)].contains(&(one, other)) {
            clause = clause.independent(one, other);
        }
    }
    let view = View::new("clause", clause.record().unwrap(), Vec::new());
    assert_eq!(view.form.as_ref().unwrap_err().goals, [1, 2, 3, 4]);
    assert!(new_waits::offers(&view.order, [1, 2, 3, 4]).is_empty());
    assert!(explain(&view).contains("not tried: a record cannot list so many"));
}

/// The record with a byte changed.
fn with(record: &[u8], place: usize, value: usize) -> Vec<u8> {
    let mut changed = record.to_vec();
    changed[place] = value as u8;
    changed
}

/// The first count, at this byte, with which the record is refused so.
fn first_count(record: &[u8], place: usize, refusal: Refusal) -> usize {
    let all = record[place] as usize;
    let refused = |count: &usize| lfj::read(&with(record, place, *count)) == Err(refusal);
    (1..=all).find(refused).unwrap()
}

/// Where a goal starts, by what the library says of a record with so many goals.
fn start_of(record: &[u8], goal: usize) -> usize {
    match goal {
        1 => 24,
        _ => match lfj::read(&with(record, 5, goal - 1)) {
            Ok(_) => record.len(),
            Err(refusal) => refusal.place as usize,
        },
    }
}

/// The part of a refused record that the library means, and words that have to name it.
fn meant(record: &[u8], refusal: Refusal) -> (Part, String) {
    // Without pairs, so that they cannot hide where a goal is refused.
    let no_pairs = if record.len() > 7 { with(record, 7, 0) } else { Vec::new() };
    let goal = || first_count(&no_pairs, 5, refusal);
    let at = |part: fn(u32) -> Part, goal: usize| part(goal as u32);
    let place = refusal.place as usize;
    match refusal.kind() {
        Kind::BadMark => (Part::Mark, "byte of the mark".into()),
        Kind::BadVersion => (Part::Version, "byte of the version".into()),
        Kind::BadGoalCount => (Part::GoalCount, "is the goal count".into()),
        Kind::BadVariableCount => (Part::VariableCount, "is the variable count".into()),
        Kind::BadHeaderSet if place == 8 => (Part::Head, "of the head set".into()),
        Kind::BadHeaderSet => (Part::Ground, "of the ground set, bytes 16 to 23".into()),
        Kind::BadGoalSet => (at(Part::Set, goal()), format!("variable set of goal {}", goal())),
        Kind::BadGroundSet => {
            (at(Part::GroundAt, goal()), format!("byte of the ground set of goal {}", goal()))
        }
        Kind::BadTicks => (at(Part::Ticks, goal()), format!("ticks of goal {}", goal())),
        // 97 is no length, but a byte of a text.
        Kind::BadGoalText => match lfj::read(&with(record, place, 97)) == Err(refusal) {
            true => (at(Part::Length, goal()), format!("is the length byte of goal {}", goal())),
            false => (at(Part::Text, goal()), format!("byte of the text of goal {}", goal())),
        },
        Kind::BadPair => {
            let pair = first_count(record, 7, refusal);
            (at(Part::Pair, pair), format!("is the first variable of pair {pair}"))
        }
        Kind::LeftOver => (Part::LeftOver, "the first behind the last field".into()),
        kind => panic!("{kind:?} has a place past the end"),
    }
}

/// An explanation on one line.
fn explained(record: &[u8]) -> String {
    let explained = explain(&View::new("record", record.to_vec(), Vec::new()));
    explained.split_whitespace().collect::<Vec<_>>().join(" ")
}

#[test]
fn the_field_of_a_refused_byte_is_named() {
    let refused = refused().into_iter();
    let past_the_end = |kind| matches!(kind, Kind::ShortRecord | Kind::CutOff);
    for (record, refusal) in refused.filter(|(_, refusal)| !past_the_end(refusal.kind())) {
        let place = refusal.place as usize;
        let (part, words) = meant(&record, refusal);
        assert_eq!(field_at(&record, place).unwrap().part, part, "{refusal} {record:?}");
        let explained = explained(&record);
        assert!(explained.contains(&words), "{words} {explained}");
        let value = format!("its value is {0}, hexadecimal {0:02x}.", record[place]);
        assert!(explained.contains(&value), "{value} {explained}");
    }
}

#[test]
fn a_short_record_says_where() {
    let refused = refused().into_iter();
    for (record, _) in refused.filter(|(_, refusal)| refusal.kind() == Kind::ShortRecord) {
        let length = record.len();
        let (part, name) = match length {
            0..=2 => (Part::Mark, "byte of the mark"),
            3 | 4 => (Part::Version, "byte of the version"),
            5 => (Part::GoalCount, "the goal count"),
            6 => (Part::VariableCount, "the variable count"),
            7 => (Part::PairCount, "the pair count"),
            8..=15 => (Part::Head, "byte of the head set"),
            _ => (Part::Ground, "byte of the ground set"),
        };
        assert_eq!(field_at(&record, length).unwrap().part, part);
        let explained = explained(&record);
        let place = format!("Byte {length} would be the ");
        assert!(explained.contains(&place) && explained.contains(name), "{explained}");
    }
}

/// The field of a goal in which a record ends so many bytes behind the goal's start, and words
/// that have to name the half of 7. None past the fixed part.
fn in_fixed(version: u8, offset: usize, goal: u32) -> Option<(Part, String)> {
    let part = match (version, offset) {
        (_, 0..8) => Part::Set(goal),
        (2, 8..16) => Part::GroundAt(goal),
        (2, 16..18) => Part::Ticks(goal),
        (1, 8) | (2, 18) => Part::Length(goal),
        _ => return None,
    };
    Some((part, format!("The fixed part of goal {goal} of ")))
}

#[test]
fn a_cut_off_record_says_where() {
    let mut halves = BTreeSet::new();
    let refused = refused().into_iter();
    for (record, refusal) in refused.filter(|(_, refusal)| refusal.kind() == Kind::CutOff) {
        let no_pairs = with(&record, 7, 0);
        let (part, words) = if lfj::read(&no_pairs) == Err(refusal) {
            let goal = first_count(&no_pairs, 5, refusal);
            let offset = record.len() - start_of(&no_pairs, goal);
            let goal = goal as u32;
            let in_text = || (Part::Text(goal), format!("The text of goal {goal} has "));
            in_fixed(record[4], offset, goal).unwrap_or_else(in_text)
        } else {
            let pair = first_count(&record, 7, refusal) as u32;
            (Part::Pair(pair), format!("it ends at pair {pair},"))
        };
        assert_eq!(field_at(&record, record.len()).unwrap().part, part);
        let end = format!("it is past the end, the record has {} bytes.", record.len());
        let explained = explained(&record);
        assert!(explained.contains(&words) && explained.contains(&end), "{words} {explained}");
        halves.insert(words.split_whitespace().take(2).collect::<Vec<_>>().join(" "));
    }
    assert!(halves.iter().eq(["The fixed", "The text", "it ends"]), "{halves:?}");
}

/// The number in so many bytes of a record.
fn number(record: &[u8], place: usize, length: usize) -> u64 {
    record[place..place + length].iter().fold(0, |number, byte| number << 8 | *byte as u64)
}

/// What an explanation of a ground set has to say: what it lacks, or else has too much.
fn wrong_in_ground_set(record: &[u8], refusal: Refusal) -> String {
    let place = refusal.place as usize;
    let no_pairs = with(record, 7, 0);
    let goal = first_count(&no_pairs, 5, refusal);
    let before = match goal {
        1 => number(record, 16, 8),
        _ => number(record, start_of(&no_pairs, goal - 1) + 8, 8),
    };
    let met = (1..goal).map(|goal| number(record, start_of(&no_pairs, goal), 8));
    let met = met.fold(number(record, 8, 8), |met, set| met | set);
    let own = number(record, place, 8);
    let lowest = |set: u64| lfj::variables(set).next().unwrap();
    match before & !own {
        0 => format!("has v{}", lowest(own & !met)),
        lacking => format!("lacks v{}", lowest(lacking)),
    }
}

#[test]
fn what_is_wrong_is_named() {
    for (record, refusal) in refused() {
        let place = refusal.place as usize;
        let lowest = |set: u64| lfj::variables(set).next().unwrap();
        let too_high = |set: u64| lowest(set & (u64::MAX << record[6]));
        let words = match refusal.kind() {
            Kind::ShortRecord => format!("at least {} byte", 24 - place),
            Kind::BadVersion => format!("The version is {};", number(&record, 3, 2)),
            Kind::BadGoalCount => format!("would have {} goal", record[5]),
            Kind::BadVariableCount => format!("would have {} variable", record[6]),
            Kind::BadHeaderSet if place == 8 => format!("v{}", too_high(number(&record, 8, 8))),
            Kind::BadHeaderSet => {
                format!("v{}", lowest(number(&record, 16, 8) & !number(&record, 8, 8)))
            }
            Kind::BadGoalSet => format!("has v{}", too_high(number(&record, place, 8))),
            Kind::BadGroundSet => wrong_in_ground_set(&record, refusal),
            Kind::BadTicks => format!("are {};", number(&record, place, 2)),
            Kind::BadPair => match (record[place], record[place + 1]) {
                (one, other) if one == other => "has two different variables".into(),
                (one, other) if one > other => format!("has to come first, {other} {one}."),
                (_, other) if other >= record[6] => "have to be below it".into(),
                _ => "have to ascend".into(),
            },
            Kind::LeftOver => format!("{} byte", record.len() - place),
            _ => continue,
        };
        let explained = explained(&record);
        assert!(explained.contains(&words), "{words} {explained}");
    }
}

#[test]
fn each_refusal_has_a_sentence_of_its_own() {
    let sentences = [
        (1, vec!["The header alone has 24 bytes"]),
        (2, vec!["the letters LFJ, is right"]),
        (3, vec!["The version is"]),
        (4, vec!["goals; 1 to 32 is right"]),
        (5, vec!["variables; 0 to 64 is right"]),
        (6, vec!["The head has", "not in the head;"]),
        (7, vec!["The fixed part of", "by its length byte", "by its pair count"]),
        (8, vec![". Goal "]),
        (9, vec!["; 1 to 24 is right", "has to be 33 to 126"]),
        (10, vec![". Pair "]),
        (11, vec!["the record ends before it"]),
        (18, vec!["what is ground stays so", "in neither the head nor an earlier goal"]),
        (19, vec!["; 1 to 60000 is right"]),
    ];
    let mut met = BTreeSet::new();
    for (record, refusal) in refused() {
        let explained = explained(&record);
        for (number, phrases) in &sentences {
            let found = phrases.iter().filter(|phrase| explained.contains(**phrase));
            let own = refusal.number == *number;
            assert_eq!(found.clone().count(), own as usize, "{number} {explained}");
            met.extend(found);
        }
    }
    let all: BTreeSet<&str> = sentences.iter().flat_map(|(_, phrases)| phrases.clone()).collect();
    assert_eq!(met.into_iter().copied().collect::<BTreeSet<_>>(), all);
}

#[test]
fn the_place_is_marked_below_its_byte() {
    for (record, refusal) in refused() {
        let place = refusal.place as usize;
        let explained = explain(&View::new("record", record.clone(), Vec::new()));
        let lines: Vec<&str> = explained.lines().collect();
        let mark = lines.iter().position(|line| line.contains("^^")).unwrap();
        assert!(lines[mark].ends_with(&format!("^^ byte {place}")));
        let column = lines[mark].find("^^").unwrap();
        let above = lines[mark - 1].get(column..column + 2).unwrap_or("").trim();
        let byte = record.get(place).map(|byte| format!("{byte:02x}"));
        assert_eq!(above, byte.unwrap_or_default(), "{explained}");
    }
}

/// The record of each short sample, cut at every place and with each byte changed in a few ways.
fn damaged() -> Vec<Vec<u8>> {
    let mut damaged = Vec::new();
    let samples = files("samples", "lfj").into_iter().map(|file| fs::read(file).unwrap());
    for record in samples.filter(|record| record.len() < 200) {
        for place in 0..record.len() {
            damaged.push(record[..place].to_vec());
            let value = record[place] as usize;
            damaged.extend([0, 1, 255, value + 1, value ^ 4].map(|to| with(&record, place, to)));
        }
    }
    damaged
}

#[test]
fn every_record_is_explained() {
    for record in records().into_iter().chain(damaged()) {
        let explained = explain(&View::new("record", record, Vec::new()));
        for line in explained.lines() {
            let long = line.split(' ').any(|word| word.len() > 60);
            assert!(long || line.chars().count() <= 100, "{line}");
            assert!(line.chars().all(|sign| (' '..='~').contains(&sign)), "{line}");
            assert_eq!(line, line.trim_end());
        }
    }
}

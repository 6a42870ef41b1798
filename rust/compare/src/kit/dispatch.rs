//! The dispatcher: start, tick, refusal 20, whole runs.

use super::paper::whole_case;
use super::record::faulty_records;
use super::{Lines, among, every_order, waiting};
use crate::build::Parts;
use crate::cases::dispatched;
use crate::generate::{self, Random};
use crate::numbers::first_goals;
use crate::states::{Course, State};
use crate::{HEAD_LIMIT, Head, TICK_LIMIT};

/// A head: its goal and its ticks left.
type Pair = (u32, u32);

const IDLE: Pair = (0, 0);

fn row(heads: &[Pair]) -> Vec<Head> {
    heads.iter().map(|(goal, left)| Head { goal: *goal, left: *left }).collect()
}

impl Lines {
    fn tick_of(&mut self, parts: &Parts, ended: u32, heads: &[Pair]) -> String {
        self.tick(&parts.record(), ended, &row(heads))
    }

    /// A tick and the ended goals and the row that it leaves.
    fn accept(&mut self, parts: &Parts, ended: u32, heads: &[Pair], after: u32, left: &[Pair]) {
        let given = self.tick_of(parts, ended, heads);
        assert_eq!(given, dispatched(after, &row(left)), "{ended:b} {heads:?}");
    }

    /// A tick that 20 refuses.
    fn refuse(&mut self, parts: &Parts, ended: u32, heads: &[Pair]) {
        assert_eq!(self.tick_of(parts, ended, heads), "refused 20 0", "{ended:b} {heads:?}");
    }

    /// A run whose last working tick, total ticks and heaviest chain are known.
    fn expect_run(&mut self, parts: &Parts, heads: usize, [t, w, c]: [u32; 3]) {
        assert_eq!(self.run(parts, heads), format!("ok {t} {w} {c}"), "{heads} heads");
    }
}

/// Goals of which none waits.
fn apart(ticks: &[u16]) -> Parts {
    Parts::over(0, &vec![0; ticks.len()]).lasting(ticks)
}

/// Each goal waits for the one before it.
fn chain(ticks: &[u16]) -> Parts {
    Parts::over(1, &vec![1; ticks.len()]).lasting(ticks)
}

/// Goals 1 and 2 side by side, then 3, then 4, and 5 beside them all.
fn five() -> Parts {
    waiting(5, &[(1, 3), (2, 3), (3, 4)]).lasting(&[3, 2, 4, 1, 5])
}

/// The set of the goals.
fn set(goals: &[u32]) -> u32 {
    goals.iter().fold(0, |set, goal| set | 1 << (goal - 1))
}

/// A row of idle heads.
fn idle(heads: usize) -> Vec<Pair> {
    vec![IDLE; heads]
}

/// The row with one head changed.
fn with_head(heads: &[Pair], at: usize, head: Pair) -> Vec<Pair> {
    let mut changed = heads.to_vec();
    changed[at] = head;
    changed
}

pub(super) fn starts() -> Lines {
    let mut lines = Lines::new("start", "The dispatcher's start: all heads idle, no goal ended.");
    lines.note("rows", "1 to 8 heads are made idle, whatever is in the row; other numbers are 20");
    for heads in [0, 1, 2, 3, 4, 5, 6, 7, 8, 9, 10, 16, 17, 255, 256, 257, 264, 65_536, 65_537] {
        let given = lines.start(&five().record(), heads);
        let wanted = format!("ok 00000000 {heads}{}", " 0 0".repeat(heads));
        let good = (1..=HEAD_LIMIT).contains(&heads);
        assert_eq!(given, if good { wanted } else { "refused 20 0".to_string() });
    }
    lines.note("clauses", "one goal, 32 goals, version 1 and 2, with a form and without one");
    for parts in [
        apart(&[1]),
        Parts::over(1, &[1]),
        Parts::longest_record(),
        Parts::longest_wide_record(),
        Parts::without_form(4),
        Parts::without_form(32).lasting(&[7; 32]),
    ] {
        for heads in [0, 1, 8, 9] {
            lines.start(&parts.record(), heads);
        }
    }
    lines.note("record-first", "a refused record, with 0, 1, 8 and 9 heads: its refusal, not 20");
    for record in faulty_records() {
        for heads in [0, 1, 8, 9] {
            assert!(!lines.start(&record, heads).starts_with("refused 20"));
        }
    }
    lines
}

pub(super) fn ticks() -> Lines {
    let mut lines = Lines::new("tick", "The dispatcher's tick: who takes which goal, who works.");
    taking(&mut lines);
    ending(&mut lines);
    states_off_runs(&mut lines);
    tick_clauses(&mut lines);
    in_full(&mut lines);
    example_run(&mut lines);
    lines.note("seeded", "seeded clauses and states, of runs and not");
    let mut random = Random::new(31);
    for case in 0..260 {
        let (record, course) = seeded(&mut random, 700);
        let heads = random.between(1, HEAD_LIMIT);
        let state = match case % 2 {
            0 => course.on_a_run(&mut random, heads),
            _ => course.accepted(&mut random, heads),
        };
        assert!(lines.tick(&record, state.ended, &state.heads).starts_with("ok "));
    }
    lines
}

/// The example of FORMAT.md: goals 1 and 3 over one variable, 2 and 4 over another.
fn example() -> Parts {
    let mut parts = Parts::over(2, &[0b01, 0b10, 0b01, 0b10]).lasting(&[3, 1, 2, 1]);
    parts.pairs = vec![(0, 1)];
    parts
}

fn example_run(lines: &mut Lines) {
    lines.note("example", "the example of FORMAT.md, tick by tick");
    let rows: [(u32, [Pair; 2]); 7] = [
        (0, [IDLE, IDLE]),
        (set(&[2]), [(1, 2), IDLE]),
        (set(&[2, 4]), [(1, 1), IDLE]),
        (set(&[1, 2, 4]), [IDLE, IDLE]),
        (set(&[1, 2, 4]), [(3, 1), IDLE]),
        (set(&[1, 2, 3, 4]), [IDLE, IDLE]),
        (set(&[1, 2, 3, 4]), [IDLE, IDLE]),
    ];
    for states in rows.windows(2) {
        let [(ended, heads), (after, left)] = states else { continue };
        lines.accept(&example(), *ended, heads, *after, left);
    }
    lines.accept(&example(), set(&[2]), &[IDLE, (4, 1)], set(&[2, 4]), &[(1, 2), IDLE]);
    lines.note("example-refused", "the same clause: what FORMAT.md says is 20");
    for (ended, heads) in [
        (set(&[2]), [(3, 2), IDLE]),
        (set(&[2]), [(1, 1), (3, 2)]),
        (set(&[4]), [IDLE, IDLE]),
        (set(&[2]), [(1, 4), IDLE]),
        (set(&[2]), [(1, 0), IDLE]),
        (set(&[2]), [(0, 1), IDLE]),
        (set(&[2]), [(2, 1), IDLE]),
        (set(&[2]), [(1, 1), (1, 1)]),
        (set(&[2]), [(5, 1), IDLE]),
        (set(&[2, 5]), [IDLE, IDLE]),
    ] {
        lines.refuse(&example(), ended, &heads);
    }
}

/// A seeded clause whose record has at most so many bytes.
fn seeded(random: &mut Random, bytes: usize) -> (Vec<u8>, Course) {
    loop {
        let record = generate::clause(random).record();
        match Course::of(&record) {
            Ok(course) if record.len() <= bytes => return (record, course),
            _ => continue,
        }
    }
}

/// Idle heads take goals.
fn taking(lines: &mut Lines) {
    lines
        .note("lowest-goal", "an idle head takes the lowest goal that it may (wrong: the highest)");
    lines.accept(&apart(&[3, 3, 3]), 0, &[IDLE], 0, &[(1, 2)]);
    lines.accept(&apart(&[3, 3, 3]), 0b001, &[IDLE], 0b001, &[(2, 2)]);
    lines.accept(&apart(&[9, 3, 1]), 0b001, &[IDLE], 0b001, &[(2, 2)]);
    lines.note("lowest-head", "the lowest head first: it takes the lowest goal");
    let four = apart(&[5, 5, 5, 5]);
    lines.accept(&four, 0, &[IDLE, IDLE], 0, &[(1, 4), (2, 4)]);
    lines.accept(&four, 0, &[IDLE, (1, 3), IDLE], 0, &[(2, 4), (1, 2), (3, 4)]);
    lines.accept(&four, 0, &[(4, 2), IDLE, (2, 3), IDLE], 0, &[(4, 1), (1, 4), (2, 2), (3, 4)]);
    lines.note("two-goals", "heads of one tick take different goals, as many as there are");
    for heads in 1..=HEAD_LIMIT {
        let mut row = vec![(1, 4), (2, 4), (3, 4), (4, 4), IDLE, IDLE, IDLE, IDLE];
        row.truncate(heads);
        lines.accept(&four, 0, &idle(heads), 0, &row);
    }
    lines.note("not-on-a-head", "a goal on a head is not taken, on a lower or a higher one");
    let two = apart(&[5, 5]);
    lines.accept(&two, 0, &[(1, 5), IDLE], 0, &[(1, 4), (2, 4)]);
    lines.accept(&two, 0, &[IDLE, (1, 5)], 0, &[(2, 4), (1, 4)]);
    lines.accept(&two, 0, &[IDLE, (2, 5), IDLE], 0, &[(1, 4), (2, 4), IDLE]);
    lines.accept(&two, 0b10, &[IDLE, (1, 1)], 0b11, &[IDLE, IDLE]);
    lines.note("waiting", "a goal is taken when all goals before it have ended, not just one");
    let five = five();
    lines.accept(&five, 0b10011, &[IDLE, IDLE], 0b10011, &[(3, 3), IDLE]);
    lines.accept(&five, 0b10001, &[IDLE, IDLE], 0b10001, &[(2, 1), IDLE]);
    lines.accept(&five, 0b10010, &[IDLE, IDLE], 0b10010, &[(1, 2), IDLE]);
    lines.accept(&five, 0b00001, &[(2, 2), IDLE], 0b00001, &[(2, 1), (5, 4)]);
    lines.note("by-a-chain", "a goal that waits for another through a third one");
    let three = waiting(3, &[(1, 2), (2, 3)]).lasting(&[2, 2, 2]);
    lines.accept(&three, 0, &[IDLE, IDLE, IDLE], 0, &[(1, 1), IDLE, IDLE]);
    lines.accept(&three, 0b001, &[IDLE, IDLE], 0b001, &[(2, 1), IDLE]);
    lines.accept(&three, 0b011, &[IDLE, IDLE], 0b011, &[(3, 1), IDLE]);
}

/// Busy heads work, and goals end.
fn ending(lines: &mut Lines) {
    lines.note("works", "every busy head works one tick, one that has just taken its goal too");
    let two = apart(&[3, 300]);
    lines.accept(&two, 0, &[(2, 300), (1, 3)], 0, &[(2, 299), (1, 2)]);
    lines.accept(&two, 0, &[(2, 257), IDLE], 0, &[(2, 256), (1, 2)]);
    lines.note("ends", "at 0 left the goal has ended, and its head is idle with zeros");
    lines.accept(&two, 0, &[(2, 256), (1, 1)], 0b01, &[(2, 255), IDLE]);
    lines.accept(&two, 0b01, &[IDLE, (2, 1)], 0b11, &[IDLE, IDLE]);
    lines.accept(&two, 0, &[(1, 1), (2, 1)], 0b11, &[IDLE, IDLE]);
    lines.note("one-tick", "a goal of 1 tick ends in the tick in which it is taken");
    lines.accept(&apart(&[1, 1, 1]), 0, &[IDLE, IDLE], 0b011, &[IDLE, IDLE]);
    lines.accept(&apart(&[1, 2, 1]), 0, &[IDLE, IDLE, IDLE], 0b101, &[IDLE, (2, 1), IDLE]);
    lines.note("freed-head", "a head that gets idle takes its next goal in the next tick");
    let three = apart(&[2, 2, 2]);
    lines.accept(&three, 0, &[(1, 1)], 0b001, &[IDLE]);
    lines.accept(&three, 0b001, &[IDLE], 0b001, &[(2, 1)]);
    lines.accept(&three, 0, &[(1, 1), (2, 2)], 0b001, &[IDLE, (2, 1)]);
    lines.accept(&three, 0, &[(2, 2), (1, 1)], 0b001, &[(2, 1), IDLE]);
    lines.accept(&apart(&[1, 1]), 0, &[IDLE], 0b01, &[IDLE]);
    lines.note("freed-goal", "a goal that ends in a tick lets others start in the next tick");
    let pair = chain(&[2, 2]);
    lines.accept(&pair, 0, &[(1, 1), IDLE], 0b01, &[IDLE, IDLE]);
    lines.accept(&pair, 0, &[IDLE, (1, 1)], 0b01, &[IDLE, IDLE]);
    lines.accept(&pair, 0b01, &[IDLE, IDLE], 0b01, &[(2, 1), IDLE]);
    lines.accept(&chain(&[1, 1]), 0, &[IDLE, IDLE], 0b01, &[IDLE, IDLE]);
    lines.note("all-ended", "after all goals have ended a tick changes nothing");
    for heads in 1..=HEAD_LIMIT {
        lines.accept(&five(), 0b11111, &idle(heads), 0b11111, &idle(heads));
    }
    lines.accept(&apart(&[1; 32]), u32::MAX, &idle(8), u32::MAX, &idle(8));
    lines.note("60000", "goals of up to 60,000 ticks");
    let long = apart(&[TICK_LIMIT, 1, TICK_LIMIT - 1, 256]);
    lines.accept(&long, 0, &idle(4), 0b0010, &[(1, 59_999), IDLE, (3, 59_998), (4, 255)]);
    lines.accept(&long, 0b10, &[(1, 60_000), (3, 256)], 0b10, &[(1, 59_999), (3, 255)]);
    lines.accept(&long, 0b10, &[(1, 32_769), (3, 1)], 0b110, &[(1, 32_768), IDLE]);
}

/// States that a tick accepts, though the rule would not have left them.
fn states_off_runs(lines: &mut Lines) {
    lines.note("idle-beside-ready", "20 does not ask that heads be as the rule would leave them");
    let four = apart(&[5, 5, 5, 5]);
    lines.accept(&four, 0, &[(4, 5)], 0, &[(4, 4)]);
    lines.accept(&four, 0, &[(4, 5), (2, 1)], 0b0010, &[(4, 4), IDLE]);
    lines.accept(&four, 0b1000, &[(3, 1), IDLE], 0b1100, &[IDLE, (1, 4)]);
    lines.accept(&four, 0b1010, &[IDLE], 0b1010, &[(1, 4)]);
    lines.accept(&five(), 0b10000, &[IDLE, (2, 2)], 0b10000, &[(1, 2), (2, 1)]);
    lines.note("other-left", "any ticks left from 1 to the goal's");
    for left in 1..=5 {
        lines.tick_of(&four, 0, &[(1, 6 - left), (3, left)]);
    }
    lines.note("more-heads", "more heads than goals");
    lines.accept(&apart(&[2]), 0, &idle(8), 0, &with_head(&idle(8), 0, (1, 1)));
    lines.accept(
        &apart(&[2]),
        0,
        &with_head(&idle(8), 7, (1, 2)),
        0,
        &with_head(&idle(8), 7, (1, 1)),
    );
}

/// Versions, clauses without a form, 32 goals.
fn tick_clauses(lines: &mut Lines) {
    lines.note("version-1", "in version 1 every goal has 1 tick");
    let four = waiting(4, &[(1, 2), (3, 4)]);
    lines.accept(&four, 0, &idle(1), 0b0001, &idle(1));
    lines.accept(&four, 0, &idle(4), 0b0101, &idle(4));
    lines.accept(&four, 0b0101, &[(4, 1), IDLE], 0b1111, &idle(2));
    lines.note("facts", "version 2: the order is that of the ground sets at the goals");
    let mut known = Parts::over(1, &[1, 1, 1]).knowing(&[0, 1, 1]);
    known.facts.iter_mut().for_each(|facts| facts.ticks = 2);
    lines.accept(&known, 0, &idle(3), 0, &[(1, 1), IDLE, IDLE]);
    lines.accept(&known, 0b001, &idle(3), 0b001, &[(2, 1), (3, 1), IDLE]);
    lines.note("no-form", "clauses without a form can be dispatched too");
    let none = waiting(4, &[(1, 3), (2, 3), (2, 4)]).lasting(&[3, 1, 2, 2]);
    lines.accept(&none, 0, &idle(2), 0b0010, &[(1, 2), IDLE]);
    lines.accept(&none, 0b0010, &[(1, 2), IDLE], 0b0010, &[(1, 1), (4, 1)]);
    lines.accept(&none, 0b0010, &[(1, 1), (4, 1)], 0b1011, &idle(2));
    lines.accept(&none, 0b1011, &idle(2), 0b1011, &[(3, 1), IDLE]);
    let large = Parts::without_form(32);
    lines.tick_of(&large, first_goals(28), &idle(8));
    lines.tick_of(&large, first_goals(30), &idle(8));
    lines.note("each-goal", "each of 32 goals: taken when it alone is left, on a head, its bit");
    let many = apart(&[2; 32]);
    for goal in 1..=32 {
        let others = !set(&[goal]);
        lines.accept(&many, others, &[IDLE, IDLE], others, &[(goal, 1), IDLE]);
        lines.accept(&many, others, &[IDLE, (goal, 1)], u32::MAX, &idle(2));
        lines.tick_of(&many, 0, &[(goal, 2), IDLE, IDLE]);
    }
    lines.note("each-variable", "two goals that share one of 64 variables: the second waits");
    for variable in 0..64 {
        let two = Parts::over(64, &[1 << variable; 2]).lasting(&[2; 2]);
        lines.accept(&two, 0, &idle(2), 0, &[(1, 1), IDLE]);
    }
    lines.note("each-wait", "each goal that waits for goal 1, and each for which goal 32 waits");
    for goal in 2..=31 {
        let first = among(&[1, goal], &[(1, goal)]).lasting(&[2; 32]);
        let others = !set(&[1, goal as u32]);
        lines.accept(&first, others, &idle(2), others, &[(1, 1), IDLE]);
        let last = among(&[goal, 32], &[(goal, 32)]).lasting(&[2; 32]);
        let others = !set(&[goal as u32, 32]);
        lines.accept(&last, others, &idle(2), others, &[(goal as u32, 1), IDLE]);
    }
}

/// Every order of three goals with every set of ended goals, and every order of four.
fn in_full(lines: &mut Lines) {
    lines.note("orders-of-3", "every order of three goals, every set, two heads of every kind");
    for parts in every_order(3) {
        let record = parts.lasting(&[2, 2, 2]).record();
        for ended in 0..8 {
            for heads in [[IDLE, IDLE], [(2, 1), IDLE], [IDLE, (3, 1)], [(3, 2), (1, 2)]] {
                lines.tick(&record, ended, &row(&heads));
            }
        }
    }
    lines.note("orders-of-4", "every order of four goals, every set that a tick accepts");
    for parts in every_order(4) {
        let record = parts.lasting(&[2, 3, 1, 2]).record();
        let Ok(course) = Course::of(&record) else { continue };
        for ended in 0..16 {
            let state = State { ended, ..course.start(3) };
            if course.reasons(&state).is_empty() {
                lines.tick(&record, state.ended, &state.heads);
            }
        }
    }
}

pub(super) fn refused() -> Lines {
    let mut lines = Lines::new(
        "tick-refused",
        "Refusal 20 at a tick: each reason alone, beside states that are accepted.",
    );
    rows(&mut lines);
    goals_on_heads(&mut lines);
    ticks_left(&mut lines);
    ended_goals(&mut lines);
    predecessors(&mut lines);
    lines.note("record-first", "a refused record: its refusal, not 20, whatever the state");
    for record in faulty_records() {
        for (ended, heads) in [(0, vec![]), (0, idle(2)), (0, idle(9)), (u32::MAX, vec![(9, 0)])] {
            assert!(!lines.tick(&record, ended, &row(&heads)).starts_with("refused 20"));
        }
    }
    lines.note("seeded", "seeded clauses and states, damaged");
    let mut random = Random::new(37);
    for _ in 0..300 {
        let (record, course) = seeded(&mut random, 500);
        let heads = random.between(1, HEAD_LIMIT);
        let mut state = course.accepted(&mut random, heads);
        course.damage(&mut random, &mut state);
        lines.tick(&record, state.ended, &state.heads);
    }
    lines
}

/// The number of heads.
fn rows(lines: &mut Lines) {
    lines.note("heads", "a row of 0 or more than 8 heads, also where all goals have ended");
    for heads in [1, 2, 7, 8] {
        assert!(lines.tick_of(&five(), 0, &idle(heads)).starts_with("ok"));
    }
    for heads in [0, 9, 10, 16, 255, 256, 257, 264] {
        lines.refuse(&five(), 0, &idle(heads));
        lines.refuse(&five(), 0b11111, &idle(heads));
    }
    lines.refuse(&five(), 0, &with_head(&idle(9), 8, (1, 1)));
    lines.refuse(&five(), 0, &with_head(&idle(9), 0, (1, 1)));
}

/// Asks for a tick with the head at the first, the last and another place of rows of several
/// lengths, whose other heads are idle: all are accepted or all are refused.
fn at_each(lines: &mut Lines, parts: &Parts, ended: u32, head: Pair, good: bool) {
    for heads in [1, 2, 8] {
        for at in [0, heads / 2, heads - 1] {
            let given = lines.tick_of(parts, ended, &with_head(&idle(heads), at, head));
            let wanted = if good { "ok " } else { "refused 20 0" };
            assert!(given.starts_with(wanted), "{ended:b} {head:?} at {at} of {heads}: {given}");
        }
    }
}

/// A head's goal.
fn goals_on_heads(lines: &mut Lines) {
    lines.note("above-n", "a head's goal above n: n is accepted, n + 1 is not");
    for goals in [1, 2, 8, 31, 32] {
        let parts = apart(&vec![2; goals as usize]);
        at_each(lines, &parts, 0, (goals, 2), true);
        at_each(lines, &parts, 0, (goals + 1, 2), false);
    }
    for goal in
        [6, 7, 8, 31, 32, 33, 64, 255, 256, 257, 261, 65_537, 1 << 31, (1 << 31) + 1, u32::MAX]
    {
        at_each(lines, &five(), 0, (goal, 1), false);
    }
    lines.note(
        "two-heads",
        "a goal on two heads, any two of eight, with the same ticks left or not",
    );
    let many = apart(&[5; 9]);
    let full: Vec<Pair> = (1..=8).map(|goal| (goal, 3)).collect();
    assert!(lines.tick_of(&many, 0, &full).starts_with("ok"));
    for one in 0..8 {
        for other in one + 1..8 {
            lines.refuse(&many, 0, &with_head(&full, other, full[one]));
            lines.refuse(&many, 0, &with_head(&with_head(&idle(8), other, (9, 1)), one, (9, 5)));
        }
    }
    lines.refuse(&five(), 0, &[(1, 2), (1, 2)]);
    lines.accept(&five(), 0, &[(1, 2), (2, 2)], 0, &[(1, 1), (2, 1)]);
    lines.note("has-ended", "a goal on a head that has ended");
    for goal in [1, 2, 5] {
        at_each(lines, &five(), set(&[goal]), (goal, 1), false);
        at_each(lines, &five(), set(&[3 - goal.min(2)]), (goal, 1), true);
    }
    let last = apart(&[2; 32]);
    at_each(lines, &last, 1 << 31, (32, 1), false);
    at_each(lines, &last, 1 << 30, (32, 1), true);
}

/// Ticks left.
fn ticks_left(lines: &mut Lines) {
    lines.note("none-left", "0 ticks left on a busy head");
    for goal in [1, 2, 5] {
        at_each(lines, &five(), 0, (goal, 0), false);
        at_each(lines, &five(), 0, (goal, 1), true);
    }
    lines.note("too-many-left", "the goal's ticks are accepted, one more is not");
    let ticks = [1, 2, 255, 256, 32_768, TICK_LIMIT];
    let parts = apart(&ticks);
    for (goal, ticks) in (1..).zip(ticks.map(u32::from)) {
        at_each(lines, &parts, 0, (goal, ticks), true);
        for left in [ticks + 1, ticks + 256, ticks + 65_536, u32::MAX] {
            at_each(lines, &parts, 0, (goal, left), false);
        }
    }
    lines.refuse(&Parts::over(0, &[0, 0]), 0, &[(2, 2), IDLE]);
    lines.accept(&Parts::over(0, &[0, 0]), 0, &[(2, 1), IDLE], 0b11, &[IDLE, IDLE]);
    lines.refuse(&apart(&[9, 2]), 0, &[(1, 9), (2, 3)]);
    lines.accept(&apart(&[9, 2]), 0, &[(1, 9), (2, 2)], 0, &[(1, 8), (2, 1)]);
    lines.note("idle-left", "ticks left on an idle head");
    for left in [1, 2, 255, 256, 65_536, 1 << 31, u32::MAX] {
        at_each(lines, &five(), 0, (0, left), false);
        at_each(lines, &five(), 0b11111, (0, left), false);
    }
}

/// The set of ended goals.
fn ended_goals(lines: &mut Lines) {
    lines.note("ended-above-n", "an ended goal above n: each bit, alone and with all goals");
    for goals in [1u32, 5, 31] {
        let parts = apart(&vec![2; goals as usize]);
        assert!(lines.tick_of(&parts, 1 << (goals - 1), &idle(2)).starts_with("ok"));
        for bit in goals..32 {
            lines.refuse(&parts, 1 << bit, &idle(2));
            lines.refuse(&parts, first_goals(goals as usize) | 1 << bit, &idle(2));
        }
        lines.refuse(&parts, u32::MAX, &idle(1));
    }
    lines.note("ended-32", "goal 32, the highest bit");
    let many = apart(&[2; 32]);
    assert!(lines.tick_of(&many, 1 << 31, &idle(2)).starts_with("ok"));
    lines.refuse(&apart(&[2; 31]), 1 << 31, &idle(2));
}

/// Goals that are busy or have ended before one that is before them.
fn predecessors(lines: &mut Lines) {
    let five = five();
    lines.note("busy-early", "a busy goal with a predecessor that has not ended: waiting, or busy");
    at_each(lines, &five, 0b00011, (3, 4), true);
    for ended in [0b00000, 0b00001, 0b00010] {
        at_each(lines, &five, ended, (3, 4), false);
    }
    at_each(lines, &five, 0b00111, (4, 1), true);
    at_each(lines, &five, 0b00011, (4, 1), false);
    lines.refuse(&five, 0b00001, &[(2, 1), (3, 4)]);
    lines.refuse(&five, 0b00001, &[(3, 4), (2, 1)]);
    lines.refuse(&five, 0b00011, &[(3, 1), (4, 1)]);
    lines.accept(&five, 0b00011, &[(3, 1), (5, 1)], 0b10111, &[IDLE, IDLE]);
    lines.note("ended-early", "an ended goal with a predecessor that has not ended");
    for (ended, good) in
        [(0b00111, true), (0b00100, false), (0b00101, false), (0b00110, false), (0b01011, false)]
    {
        let given = lines.tick_of(&five, ended, &idle(2));
        assert_eq!(given.starts_with("ok"), good, "{ended:b}");
    }
    lines.refuse(&five, 0b00101, &[(2, 1), IDLE]);
    lines.refuse(&five, 0b00110, &[IDLE, (1, 1)]);
    lines.note("early-by-a-chain", "the predecessor is one through other goals; every set");
    let four = waiting(4, &[(1, 2), (2, 3), (3, 4)]).lasting(&[2; 4]);
    for ended in 0..16u32 {
        // In a chain the first goals end first.
        let good = ended & (ended + 1) == 0;
        assert_eq!(lines.tick_of(&four, ended, &idle(2)).starts_with("ok"), good);
        for goal in 1..=4 {
            let next = good && ended + 1 == 1 << (goal - 1);
            let given = lines.tick_of(&four, ended, &[IDLE, (goal, 1)]);
            assert_eq!(given.starts_with("ok"), next, "{ended:b} {goal}");
        }
    }
    lines.note("each-predecessor", "each goal that goal 32 waits for, and each that waits for 1");
    for goal in 2..=31 {
        let last = among(&[goal, 32], &[(goal, 32)]).lasting(&[2; 32]);
        lines.refuse(&last, 1 << 31, &idle(1));
        lines.refuse(&last, first_goals(31) & !(1 << (goal - 1)), &[(32, 1)]);
        let first = among(&[1, goal], &[(1, goal)]).lasting(&[2; 32]);
        lines.refuse(&first, 1 << (goal - 1), &idle(1));
        lines.refuse(&first, 0, &[(goal as u32, 1)]);
    }
}

pub(super) fn runs() -> Lines {
    let mut lines =
        Lines::new("run", "Runs from a start: the last working tick, all ticks, heaviest chain.");
    lines.note("one-goal", "one goal on 1 to 8 heads; 0 and 9 heads are 20");
    for heads in 1..=HEAD_LIMIT {
        lines.expect_run(&apart(&[7]), heads, [7, 7, 7]);
    }
    for heads in [0, 9, 255] {
        assert_eq!(lines.run(&apart(&[7]), heads), "refused 20 0");
    }
    lines.note("example", "the example of FORMAT.md");
    lines.expect_run(&example(), 2, [5, 7, 5]);
    lines.note("chain", "a chain: as many ticks as it has, whatever the heads");
    for heads in 1..=HEAD_LIMIT {
        lines.expect_run(&chain(&[3, 1, 4, 1, 5]), heads, [14, 14, 14]);
    }
    lines.note("side-by-side", "goals side by side, in the sequence of their numbers");
    for (heads, last) in (1..).zip([36, 20, 15, 12, 11, 10, 9, 8]) {
        lines.expect_run(&apart(&[1, 2, 3, 4, 5, 6, 7, 8]), heads, [last, 36, 8]);
    }
    lines.note("groups", "two groups in sequence, and a chain beside a goal");
    let groups = waiting(4, &[(1, 3), (1, 4), (2, 3), (2, 4)]).lasting(&[2, 5, 3, 1]);
    for (heads, last) in [(1, 11), (2, 8), (3, 8), (8, 8)] {
        lines.expect_run(&groups, heads, [last, 11, 8]);
    }
    for (heads, last) in [(1, 15), (2, 8), (3, 8), (8, 8)] {
        lines.expect_run(&five(), heads, [last, 15, 8]);
    }
    lines.note("no-form", "clauses without a form");
    let none = waiting(4, &[(1, 3), (2, 3), (2, 4)]).lasting(&[3, 1, 2, 2]);
    for (heads, last) in [(1, 8), (2, 5), (3, 5)] {
        lines.expect_run(&none, heads, [last, 8, 5]);
    }
    for heads in 1..=HEAD_LIMIT {
        lines.run(&Parts::without_form(32), heads);
        lines.run(&Parts::without_form(12).lasting(&[5, 1, 9, 2, 2, 7, 1, 3, 8, 4, 6, 2]), heads);
    }
    later_with_more(&mut lines);
    lines.note("version-1", "in version 1 every goal has 1 tick");
    for heads in 1..=HEAD_LIMIT {
        lines.run(&Parts::over(0, &[0; 32]), heads);
        lines.run(&whole_case(), heads);
        lines.run(&Parts::longest_form(), heads);
    }
    lines.note("32-goals", "32 goals of version 2 on 1 to 8 heads");
    let ticks: Vec<u16> = (0..32).map(|goal| 1 + goal * 7 % 11).collect();
    for heads in 1..=HEAD_LIMIT {
        lines.run(&apart(&ticks), heads);
        lines.run(&Parts::longest_form().lasting(&ticks), heads);
    }
    lines.note("long", "a goal of 60,000 ticks");
    lines.expect_run(&apart(&[TICK_LIMIT, 300]), 2, [60_000, 60_300, 60_000]);
    lines.note("orders-of-4", "every order of four goals on two heads");
    for parts in every_order(4) {
        lines.run(&parts.lasting(&[2, 3, 1, 4]), 2);
    }
    lines.note("record-first", "a refused record");
    for record in faulty_records() {
        for heads in [0, 2] {
            lines.ask(format!(
                "run {} {} {heads}",
                crate::cases::LANDED,
                crate::cases::hex(&record)
            ));
        }
    }
    lines.note("seeded", "seeded clauses with few ticks, 1 to 8 heads");
    let mut random = Random::new(41);
    for _ in 0..160 {
        let mut parts = generate::clause(&mut random);
        parts.goals.iter_mut().for_each(|goal| goal.1.truncate(2));
        generate::shorten(&mut random, &mut parts, 12);
        if parts.record().len() <= 600 {
            lines.run(&parts, random.between(1, HEAD_LIMIT));
        }
    }
    lines
}

/// More heads do not always finish earlier, and may finish later.
fn later_with_more(lines: &mut Lines) {
    lines.note("more-heads", "more heads finish no earlier, or later: nothing else is promised");
    let waits = [(1, 9), (4, 5), (4, 6), (4, 7), (4, 8)];
    let nine = waiting(9, &waits).lasting(&[3, 2, 2, 2, 4, 4, 4, 4, 9]);
    for (heads, last) in [(1, 34), (2, 17), (3, 12), (4, 15), (5, 12), (8, 12)] {
        lines.expect_run(&nine, heads, [last, 34, 12]);
    }
    lines.note("fewer-ticks", "the same with one tick less a goal, or fewer waits: later too");
    let less = waiting(9, &waits).lasting(&[2, 1, 1, 1, 3, 3, 3, 3, 8]);
    let looser = waiting(9, &[(1, 9), (4, 7), (4, 8)]).lasting(&[3, 2, 2, 2, 4, 4, 4, 4, 9]);
    for (parts, last, total, heaviest) in [(less, 13, 25, 10), (looser, 16, 34, 12)] {
        lines.expect_run(&parts, 3, [last, total, heaviest]);
    }
    lines.note("bound", "k T reaches W + (k - 1) C: the heaviest chain starts last");
    for heads in 2..=HEAD_LIMIT {
        let many = heads * (heads - 1);
        if many < 32 {
            let ticks: Vec<u16> = [vec![1; many], vec![heads as u16]].concat();
            let last = 2 * heads as u32 - 1;
            lines.expect_run(&apart(&ticks), heads, [last, (many + heads) as u32, heads as u32]);
        }
    }
}

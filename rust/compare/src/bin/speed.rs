//! How long each operation takes, proved and hand-written: both in this process, on the same
//! buffers, by turns.

use compare::about;
use compare::build::Parts;
use compare::generate::{Random, clause, padded};
use compare::states::{Course, State};
use compare::{HEAD_LIMIT, Head};
use lfj::c;
use lfj::dispatch::Head as LentHead;
use std::hint::black_box;
use std::time::{Duration, Instant};

const HELP: &str = "\
usage: speed [WORD..]                  only the lines that hold every word; all if none is given
       speed random [SEED [CLAUSES]]   the ratios over random clauses, 300 if no number is given
How long each operation takes, proved and hand-written, as a table.
";

/// How long one batch of calls should take, and how many batches each side has.
struct Effort {
    batch: Duration,
    batches: usize,
}

const LONG: Effort = Effort { batch: Duration::from_micros(400), batches: 60 };
const SHORT: Effort = Effort { batch: Duration::from_micros(60), batches: 24 };

/// What an operation is called with. Both sides write into the same buffer.
struct Input {
    record: Vec<u8>,
    text: Vec<u8>,
    goal: u32,
    out: Vec<u8>,
    rows: [u32; compare::GOAL_LIMIT],
    heads: Heads,
}

/// A row of heads for each side, and the state that a tick is called with: before each call the
/// row is made that of the state.
struct Heads {
    hand: Vec<Head>,
    hand_state: Vec<Head>,
    lent: Vec<LentHead>,
    lent_state: Vec<LentHead>,
    ended: u32,
    /// All goals of the clause.
    all: u32,
}

impl Heads {
    fn of(state: State, goals: usize) -> Heads {
        let lent_state: Vec<LentHead> = state.heads.iter().map(|head| (*head).into()).collect();
        Heads {
            hand: state.heads.clone(),
            hand_state: state.heads,
            lent: lent_state.clone(),
            lent_state,
            ended: state.ended,
            all: u32::MAX >> (compare::GOAL_LIMIT - goals),
        }
    }
}

/// An operation from both sides. Each call gives one number, made of its answer.
struct Operation {
    name: &'static str,
    proved: fn(&mut Input) -> u64,
    hand: fn(&mut Input) -> u64,
}

fn word<T: Into<u64>>(answer: Result<T, compare::Refusal>) -> u64 {
    match answer {
        Ok(value) => value.into(),
        Err(refusal) => (refusal.number as u64) << 56 | refusal.place as u64,
    }
}

// SAFETY of all calls below: the pointers are those of vectors and of an array, which are not
// null, and what is written to is a vector or an array of its own.
const READ: Operation = Operation {
    name: "read",
    proved: |i| unsafe { c::lfj_read(i.record.as_ptr(), i.record.len()) },
    hand: |i| word(compare::read(&i.record)),
};
/// The order as a whole, as the paper has it: every row into the same array.
const ORDER: Operation = Operation {
    name: "order",
    proved: |i| unsafe { c::lfj_order(i.record.as_ptr(), i.record.len(), &mut i.rows) },
    hand: |i| {
        word(compare::order(&i.record).map(|closed| {
            i.rows = closed.order.rows;
            closed.order.goals as u64
        }))
    },
};
const PASSES: Operation = Operation {
    name: "passes",
    proved: |i| unsafe { c::lfj_passes(i.record.as_ptr(), i.record.len()) },
    hand: |i| word(compare::passes(&i.record)),
};
/// The call of the library for its one row alone: the hand-written side leaves out the
/// goals left of it.
const AFTER: Operation = Operation {
    name: "after",
    proved: |i| unsafe { c::lfj_after(i.record.as_ptr(), i.record.len(), i.goal) },
    hand: |i| word(compare::after(&i.record, i.goal)),
};
const FORM: Operation = Operation {
    name: "form",
    proved: |i| unsafe {
        c::lfj_form(i.record.as_ptr(), i.record.len(), i.out.as_mut_ptr(), i.out.len())
    },
    hand: |i| word(compare::form(&i.record, &mut i.out)),
};
const LENGTH: Operation = Operation {
    name: "form_length",
    proved: |i| unsafe { c::lfj_form_length(i.record.as_ptr(), i.record.len()) },
    hand: |i| word(compare::form_length(&i.record)),
};
const MEL: Operation = Operation {
    name: "mel",
    proved: |i| unsafe {
        c::lfj_mel(i.record.as_ptr(), i.record.len(), i.out.as_mut_ptr(), i.out.len())
    },
    hand: |i| word(compare::mel(&i.record, &mut i.out)),
};
const TEXT: Operation = Operation {
    name: "goal_text",
    proved: |i| unsafe { c::lfj_goal_text(i.record.as_ptr(), i.record.len(), i.goal) },
    hand: |i| {
        let answer = compare::goal_text(&i.record, i.goal);
        word(answer.map(|(place, length)| place as u64 | (length as u64) << 32))
    },
};
const CHECK: Operation = Operation {
    name: "check",
    proved: |i| unsafe {
        c::lfj_check(i.record.as_ptr(), i.record.len(), i.text.as_ptr(), i.text.len())
    },
    hand: |i| {
        word(compare::check(&i.record, &i.text).map(|verdict| match verdict {
            compare::Verdict::Same => 0u64,
            compare::Verdict::Differs(i, j) => i as u64 | (j as u64) << 8,
        }))
    },
};

const START: Operation = Operation {
    name: "start",
    proved: |i| lent_start(i),
    hand: |i| word(compare::start(&i.record, &mut i.heads.hand)),
};
const TICK: Operation = Operation {
    name: "tick",
    proved: |i| {
        i.heads.lent.copy_from_slice(&i.heads.lent_state);
        lent_tick(i, i.heads.ended)
    },
    hand: |i| {
        i.heads.hand.copy_from_slice(&i.heads.hand_state);
        word(compare::tick(&i.record, &mut i.heads.hand, i.heads.ended))
    },
};
/// A start, and ticks until all goals have ended: how many. Its time is that of one of them.
const RUN: Operation = Operation {
    name: "run",
    proved: |i| {
        let mut ended = lent_start(i) as u32;
        let mut ticks = 0;
        while ended != i.heads.all {
            ended = lent_tick(i, ended) as u32;
            ticks += 1;
        }
        ticks
    },
    hand: |i| {
        let mut ended = word(compare::start(&i.record, &mut i.heads.hand)) as u32;
        let mut ticks = 0;
        while ended != i.heads.all {
            ended = word(compare::tick(&i.record, &mut i.heads.hand, ended)) as u32;
            ticks += 1;
        }
        ticks
    },
};

fn lent_start(i: &mut Input) -> u64 {
    let heads = &mut i.heads.lent;
    unsafe { c::lfj_start(i.record.as_ptr(), i.record.len(), heads.as_mut_ptr(), heads.len()) }
}

fn lent_tick(i: &mut Input, ended: u32) -> u64 {
    let (record, n, heads) = (i.record.as_ptr(), i.record.len(), &mut i.heads.lent);
    unsafe { c::lfj_tick(record, n, heads.as_mut_ptr(), heads.len(), ended) }
}

const ALL: [&Operation; 9] = [&READ, &ORDER, &FORM, &LENGTH, &MEL, &TEXT, &CHECK, &START, &TICK];

/// Nanoseconds a call, of `calls` calls.
#[inline(never)]
fn batch(side: fn(&mut Input) -> u64, input: &mut Input, calls: u32) -> f64 {
    let started = Instant::now();
    for _ in 0..calls {
        black_box(black_box(side)(black_box(input)));
    }
    started.elapsed().as_nanos() as f64 / calls as f64
}

/// The least of each side's batches, proved then hand-written.
fn measure(operation: &Operation, input: &mut Input, effort: &Effort) -> (f64, f64) {
    let mut calls = 1;
    while calls < 1 << 20
        && batch(operation.hand, input, calls) * (calls as f64) < effort.batch.as_nanos() as f64
    {
        calls *= 2;
    }
    let (mut proved, mut hand) = (f64::MAX, f64::MAX);
    for turn in 0..effort.batches {
        if turn % 2 == 0 {
            proved = proved.min(batch(operation.proved, input, calls));
            hand = hand.min(batch(operation.hand, input, calls));
        } else {
            hand = hand.min(batch(operation.hand, input, calls));
            proved = proved.min(batch(operation.proved, input, calls));
        }
    }
    (proved, hand)
}

/// A line of the table to be measured.
struct Line {
    operation: &'static Operation,
    goals: usize,
    clause: String,
    input: Input,
}

fn input(parts: &Parts, text: Option<&[u8]>, room: usize) -> Input {
    let record = parts.record();
    let goals = parts.goals.len();
    let mut form = [0; compare::FORM_LIMIT];
    let text = match (text, compare::form(&record, &mut form)) {
        (Some(text), _) => text.to_vec(),
        (None, Ok(length)) => form[..length as usize].to_vec(),
        // A clause without a form is held against its goals in sequence.
        (None, Err(_)) => {
            (1..=goals).map(|goal| goal.to_string()).collect::<Vec<_>>().join(",").into_bytes()
        }
    };
    let heads = Heads::of(half_way(&record, HEAD_LIMIT), goals);
    let rows = [0; compare::GOAL_LIMIT];
    Input { record, text, goal: goals as u32 / 2 + 1, out: vec![0; room], rows, heads }
}

/// The state of a run of so many heads behind the tick in which half of the goals have ended; that
/// of a start where the record is refused.
fn half_way(record: &[u8], heads: usize) -> State {
    let mut state = State { heads: vec![Head::default(); heads], ended: 0 };
    let Ok(course) = Course::of(record) else { return state };
    while let Ok((next, quiet)) = course.ticked(&state) {
        state = next;
        if 2 * state.ended.count_ones() as usize >= course.order.goals {
            break;
        }
        Course::later(&mut state, quiet);
    }
    state
}

/// A clause of 32 goals in four groups of eight, one group behind the other.
fn grouped() -> Parts {
    let pairs = (1..=32).flat_map(|i| (i + 1..=32).map(move |j| (i, j)));
    let waits: Vec<(usize, usize)> = pairs.filter(|(i, j)| (i - 1) / 8 < (j - 1) / 8).collect();
    Parts::with_waits(32, &waits).expect("few pairs")
}

/// A clause whose form nests: 1 waits for nobody, and so on inwards, as the longest form does.
fn nested(goals: u8) -> Parts {
    let mut parts = Parts::over(goals, &(0..goals).map(|goal| 1 << goal).collect::<Vec<u64>>());
    for goal in (2..goals).step_by(2) {
        parts.pairs.extend((goal + 1..=goals).map(|later| (goal - 1, later - 1)));
    }
    parts
}

/// The variables of every fourth goal up to this one, which is numbered from 0.
fn growing_ground(goal: usize) -> u64 {
    (3..=goal as u32).step_by(4).fold(0, |set, variable| set | 1 << variable)
}

fn lines() -> Vec<Line> {
    let typical = |operation: &'static Operation| {
        [3, 12, 32].into_iter().flat_map(move |goals| {
            // Three goals always have a form; the least clause without one has four.
            let without = Parts::without_form(goals.max(4));
            [(nested(goals), "with a form"), (without, "without a form")].map(|(parts, clause)| {
                Line {
                    operation,
                    goals: parts.goals.len(),
                    clause: clause.to_string(),
                    input: input(&parts, None, 1 << 16),
                }
            })
        })
    };
    let mut lines: Vec<Line> = ALL.into_iter().flat_map(typical).collect();
    let mut more = |operation, clause: &str, input: Input| {
        let goals = input.record[5] as usize;
        lines.push(Line { operation, goals, clause: clause.to_string(), input });
    };
    // The same clauses in version 2: with the header's facts at each goal, and with the variable
    // of every fourth goal ground from that goal on.
    let growing = |parts: Parts| {
        let grounds: Vec<u64> = (0..parts.goals.len()).map(growing_ground).collect();
        parts.knowing(&grounds)
    };
    for operation in ALL {
        more(operation, "version 2, with a form", input(&nested(32).knowing(&[]), None, 1 << 16));
        more(operation, "version 2, ground sets grow", input(&growing(nested(32)), None, 1 << 16));
    }
    let without = Parts::without_form(32).knowing(&[]);
    for operation in [&READ, &ORDER, &AFTER, &FORM, &MEL] {
        more(operation, "version 2, without a form", input(&without, None, 1 << 16));
    }
    // With ticks some heads are busy half-way through a run, and some idle.
    let ticks: Vec<u16> = (0..32).map(|goal| 1 + goal * 7 % 11).collect();
    for (parts, clause) in [
        (nested(32), "durations, with a form"),
        (grouped(), "durations, four groups"),
        (Parts::without_form(32), "durations, without a form"),
    ] {
        let parts = parts.lasting(&ticks);
        for operation in [&START, &TICK] {
            more(operation, &format!("version 2, {clause}"), input(&parts, None, 0));
        }
        for heads in [2, HEAD_LIMIT] {
            let state = State { heads: vec![Head::default(); heads], ended: 0 };
            let input = Input { heads: Heads::of(state, 32), ..input(&parts, None, 0) };
            more(&RUN, &format!("{heads} heads, {clause}"), input);
        }
    }
    let longest = Parts::longest_record();
    let wide = Parts::longest_wide_record();
    for operation in [&READ, &ORDER, &TEXT, &START, &TICK] {
        more(operation, "the longest record of version 1", input(&longest, None, 0));
        more(operation, "the longest record of version 2", input(&wide, None, 0));
    }
    let chain = |goal: u32| 3 << goal;
    let shared = Parts::over(64, &(0..32).map(chain).collect::<Vec<u64>>());
    for operation in [&ORDER, &FORM] {
        let wide = shared.clone().knowing(&[]);
        more(operation, "version 2, a chain, no facts listed", input(&wide, None, 160));
    }
    // The second half of the goals have the ground variable 63 alone, and wait for nobody.
    let half = |goal| if goal < 16 { chain(goal) } else { 1 << 63 };
    let mut beside = Parts::over(64, &(0..32).map(half).collect::<Vec<u64>>());
    beside.ground = 1 << 63;
    for operation in [&ORDER, &FORM, &LENGTH, &CHECK] {
        more(operation, "a chain, no facts listed", input(&shared, None, 160));
        more(operation, "a chain of 16 beside 16 goals", input(&beside, None, 160));
    }
    // The chain of 22 goals that takes six passes, and half of its length.
    for goals in [12, 22] {
        let waits: Vec<(usize, usize)> = (1..goals).map(|goal| (goal, goal + 1)).collect();
        let chain = Parts::with_waits(goals, &waits).expect("few pairs");
        for operation in [&ORDER, &PASSES, &FORM, &CHECK] {
            more(operation, "each waits for the one before", input(&chain, None, 160));
        }
    }
    more(&FORM, "buffer of 0 bytes", input(&Parts::longest_form(), None, 0));
    let long = Parts::longest_mel();
    more(&MEL, "192,127 bytes", input(&long, None, 192_127));
    more(&MEL, "192,127 bytes, buffer of 32,768", input(&long, None, 32_768));
    let one_stage = Parts::in_stages(64, &[32], &[], false);
    more(&MEL, "one stage, 64 variables", input(&one_stage, None, 32_768));
    let ten = Parts::with_waits(10, &[]).expect("few pairs");
    let text = padded(b"1&2&3&4&5&6&7&8&9&10", 512);
    more(&CHECK, "text of 512 bytes", input(&ten, Some(&text), 0));
    let deep = [vec![b'('; 32], b"1".to_vec(), vec![b')'; 32]].concat();
    let one = Parts::with_waits(1, &[]).expect("no pairs");
    more(&CHECK, "32 open parentheses", input(&one, Some(&deep), 0));
    lines.extend([&AFTER, &PASSES].into_iter().flat_map(typical));
    lines
}

impl Line {
    /// What the words of the command are held against.
    fn title(&self) -> String {
        format!("{} {} {}", self.operation.name, self.goals, self.clause)
    }
}

/// What the lines have of one kind, each once.
fn every(lines: &[Line], part: impl Fn(&Line) -> String) -> String {
    let mut all: Vec<String> = Vec::new();
    for found in lines.iter().map(part) {
        if !all.contains(&found) {
            all.push(found);
        }
    }
    all.join("; ")
}

/// The lines that hold every word. Ends the program if there is none.
fn chosen(words: &[String]) -> Vec<Line> {
    let (chosen, others): (Vec<Line>, Vec<Line>) =
        lines().into_iter().partition(|line| words.iter().all(|word| line.title().contains(word)));
    if chosen.is_empty() {
        eprintln!("speed: no line holds each of: {}", words.join("; "));
        eprintln!("A line has an operation: {}", every(&others, |l| l.operation.name.to_string()));
        eprintln!("then its goals: {}", every(&others, |l| l.goals.to_string()));
        eprintln!("then its clause: {}", every(&others, |l| l.clause.clone()));
        std::process::exit(2);
    }
    chosen
}

/// The ratios of each operation over random clauses, as a table. A ratio above 1.5 is measured
/// again and longer, since a short measurement can be disturbed.
fn spread(seed: u64, clauses: usize) {
    println!("The ratio proved / hand-written over {clauses} random clauses, seed {seed}.");
    println!();
    println!("| operation | median | nine in ten at most | highest | its goals and pairs |");
    println!("|---|---:|---:|---:|---|");
    let mut random = Random::new(seed);
    let mut drawn = Vec::new();
    while drawn.len() < clauses {
        let parts = clause(&mut random);
        if compare::read(&parts.record()).is_ok() {
            drawn.push(parts);
        }
    }
    for operation in ALL {
        let mut ratios = Vec::new();
        for clause in &drawn {
            let mut input = input(clause, None, 1 << 16);
            let (mut proved, mut hand) = measure(operation, &mut input, &SHORT);
            if proved > 1.5 * hand {
                let (again, by_hand) = measure(operation, &mut input, &LONG);
                (proved, hand) = (proved.min(again), hand.min(by_hand));
            }
            ratios.push((proved / hand, clause.goals.len(), clause.pairs.len()));
        }
        ratios.sort_by(|a, b| a.0.total_cmp(&b.0));
        let at = |part: usize| ratios[(part * ratios.len() / 10).min(ratios.len() - 1)].0;
        let (highest, goals, pairs) = ratios[ratios.len() - 1];
        println!(
            "| {} | {:.2}x | {:.2}x | {highest:.2}x | {goals}, {pairs}",
            operation.name,
            at(5),
            at(9)
        );
    }
}

fn main() {
    let words = about::words("speed", HELP);
    if words.first().is_some_and(|word| word == "random") {
        let number = |place: usize, usual: u64| match words.get(place).map(|word| word.parse()) {
            None => usual,
            Some(Ok(number)) if number > 0 => number,
            Some(_) => {
                eprintln!("usage: speed random [SEED [CLAUSES]], two numbers above 0");
                std::process::exit(2);
            }
        };
        return spread(number(1, 1), number(2, 300) as usize);
    }
    let chosen = chosen(&words);
    println!(
        "Nanoseconds a call: the least of {} batches a side, the sides by turns in one",
        LONG.batches
    );
    println!("process, on the same record and into the same buffer, which is not cleared between");
    println!(
        "calls. Both are release builds. The ratio is proved / hand-written. A tick is called on"
    );
    println!("a row of 8 heads half-way through a run; of a run the time of a tick is given.");
    println!();
    println!("| operation | goals | clause | proved | hand-written | ratio |");
    println!("|---|---:|---|---:|---:|---:|");
    let mut measured = Vec::new();
    for mut line in chosen {
        let proved = (line.operation.proved)(&mut line.input);
        let hand = (line.operation.hand)(&mut line.input);
        // With 13 the goals are left out here.
        let known = if proved >> 56 == 13 { u64::MAX << 56 } else { u64::MAX };
        if proved & known != hand & known {
            println!("{}: the answers differ, {proved:#x} and {hand:#x}", line.title());
            std::process::exit(1);
        }
        // A run answers with its number of ticks.
        let each = if line.operation.name == RUN.name { proved as f64 } else { 1.0 };
        let (proved, hand) = measure(line.operation, &mut line.input, &LONG);
        let (proved, hand) = (proved / each, hand / each);
        println!(
            "| {} | {} | {} | {proved:.1} | {hand:.1} | {:.2}x",
            line.operation.name,
            line.goals,
            line.clause,
            proved / hand
        );
        measured.push((line.operation.name, line.goals, line.clause, proved));
    }
    println!();
    println!("Growth of the proved side from 12 goals to 32:");
    println!();
    for (name, goals, clause, small) in &measured {
        let large =
            measured.iter().find(|(n, g, c, _)| (n, *g, c) == (name, 32, clause) && *goals == 12);
        if let Some((.., large)) = large {
            println!("{name}, {clause}: {:.1}", large / small);
        }
    }
}

//! The proved annotator against the hand-written one, on seeded records, texts and rows of heads,
//! valid and damaged, every operation, short buffers included.

use compare::about;
use compare::arrays::Arrays;
use compare::cases::{
    Annotator, LANDED, Reference, answer, hex, refused, row_in, row_words, unhex,
};
use compare::generate::{self, Random};
use compare::proved::{Proved, check_word, text_word, word};
use compare::states::{Course, REASONS, State};
use compare::{FORM_LIMIT, HEAD_LIMIT, Head, Refusal, Verdict};
use lfj::c;
use lfj::dispatch::Head as LentHead;
use std::fmt::Debug;
use std::process::ExitCode;
use std::time::Instant;

const HELP: &str = "\
usage: differences [CASES [SEED]]     200000 cases and seed 1 if not given
       differences --case 'LINE'      both answers to one question in the kit's format
The proved annotator against the hand-written one, on seeded cases.
Status 0 if there is no difference and every refusal, each reason of 20 alone, every verdict, form
and no form, each number of passes was met, and runs of the dispatcher.
";

/// Bytes on each side of a lent buffer that nobody may change.
const MARGIN: usize = 64;
/// Longer than every text an operation writes, `MARGIN`s included.
const BUFFER: usize = 1 << 18;
/// What stands on each side of a lent row of heads, and how many of it.
const BESIDE: LentHead = LentHead { goal: 0xa5a5_a5a5, left: 0x5a5a_5a5a };
const HEAD_MARGIN: usize = 8;
/// The most ticks of a run that is compared tick by tick; a longer one is compared in those ticks
/// in which something besides work may happen.
const WHOLE_RUN: u32 = 400;
/// The most passes that close a clause's waits.
const PASS_LIMIT: usize = lfj::PASS_LIMIT as usize;
/// After this many differences the run ends.
const ENOUGH: usize = 10;

/// An operation that writes into a lent buffer, from both sides.
struct Writer {
    name: &'static str,
    proved: fn(&[u8], &mut [u8]) -> Result<u32, Refusal>,
    /// The function of the library, for the whole answer word.
    raw: unsafe extern "C" fn(*const u8, usize, *mut u8, usize) -> u64,
    hand: fn(&[u8], &mut [u8]) -> Result<u32, Refusal>,
}

const FORM: Writer = Writer {
    name: "form",
    proved: |record, out| Proved.form(record, out),
    raw: c::lfj_form,
    hand: compare::form,
};

const MEL: Writer = Writer {
    name: "mel",
    proved: |record, out| Proved.mel(record, out),
    raw: c::lfj_mel,
    hand: compare::mel,
};

/// The arrays filled by the library: the answer word of each function.
fn by_library(arrays: &mut Arrays, record: &[u8]) -> [u64; 6] {
    let (start, n) = (record.as_ptr(), record.len());
    // SAFETY: a slice's pointer is not null and its bytes may be read; the arrays are lent by
    // `&mut`.
    unsafe {
        [
            c::lfj_order(start, n, &mut arrays.rows),
            c::lfj_head(start, n, &mut arrays.head),
            c::lfj_goal_sets(start, n, &mut arrays.sets),
            c::lfj_ground_sets(start, n, &mut arrays.grounds),
            c::lfj_ticks(start, n, &mut arrays.ticks),
            c::lfj_listed(start, n, &mut arrays.listed),
        ]
    }
}

/// How often each thing was met, by the hand-written annotator's answers.
#[derive(Default)]
struct Met {
    records: usize,
    accepted: usize,
    /// Accepted ones of version 2.
    wide: usize,
    refusals: [usize; 21],
    same: usize,
    differs: usize,
    form: usize,
    no_form: usize,
    /// Accepted records by their number of passes.
    passes: [usize; PASS_LIMIT],
    /// Ticks that are accepted, and those that 20 refuses for one reason alone.
    ticks: usize,
    reasons: [usize; REASONS.len()],
    /// Runs to their end, and those of them compared in every tick.
    runs: usize,
    whole_runs: usize,
}

impl Met {
    fn refusal<T>(&mut self, answer: &Result<T, Refusal>) {
        if let Err(refusal) = answer {
            self.refusals[refusal.number as usize] += 1;
        }
    }

    /// Prints all counts; gives the names of those that are 0.
    fn print(&self) -> Vec<String> {
        let mut all = vec![
            ("version 2".to_string(), self.wide),
            ("form".to_string(), self.form),
            ("no form".to_string(), self.no_form),
            ("same".to_string(), self.same),
            ("differs".to_string(), self.differs),
            ("ticks".to_string(), self.ticks),
            ("runs".to_string(), self.runs),
            ("runs tick by tick".to_string(), self.whole_runs),
        ];
        for (number, count) in (1..).zip(self.passes) {
            all.push((format!("passes {number}"), count));
        }
        for number in 1..self.refusals.len() {
            all.push((format!("refusal {number}"), self.refusals[number]));
        }
        for (reason, count) in REASONS.iter().zip(self.reasons) {
            all.push((format!("20: {reason}"), count));
        }
        println!("records {:>20}", self.records);
        let percent = 100 * self.accepted / self.records.max(1);
        println!("accepted {:>19}  ({percent} in 100)", self.accepted);
        for (name, count) in &all {
            println!("{name:<26} {count:>9}");
        }
        all.into_iter().filter(|(_, count)| *count == 0).map(|(name, _)| name).collect()
    }
}

struct Run {
    seed: u64,
    case: usize,
    differences: usize,
    met: Met,
    proved_buffer: Vec<u8>,
    hand_buffer: Vec<u8>,
}

impl Run {
    fn report(&mut self, question: String, proved: String, hand: String) {
        self.differences += 1;
        println!("difference in case {} of seed {}", self.case, self.seed);
        println!("  hand-written  {hand}");
        println!("  proved        {proved}");
        println!("  again         rust/compare.sh --case '{question}'");
    }

    fn hold<T: PartialEq + Debug>(
        &mut self,
        proved: Result<T, Refusal>,
        hand: Result<T, Refusal>,
        question: impl FnOnce() -> String,
    ) -> Result<T, Refusal> {
        self.met.refusal(&hand);
        if proved != hand {
            let say = |answer: &Result<T, Refusal>| match answer {
                Ok(value) => format!("{value:?}"),
                Err(refusal) => refused(*refusal),
            };
            self.report(question(), say(&proved), say(&hand));
        }
        hand
    }

    /// The library's answer word, unused bits included, against the one wanted.
    fn hold_word(&mut self, given: u64, wanted: u64, question: impl FnOnce() -> String) {
        if given != wanted {
            self.report(question(), format!("word {given:016x}"), format!("word {wanted:016x}"));
        }
    }

    /// Both writers into a buffer of `room` bytes; answers, texts and all other bytes.
    fn write(&mut self, writer: &Writer, record: &[u8], room: usize, byte: u8) {
        let all = room + 2 * MARGIN;
        self.proved_buffer[..all].fill(byte);
        self.hand_buffer[..all].fill(byte);
        let proved = (writer.proved)(record, &mut self.proved_buffer[MARGIN..MARGIN + room]);
        let hand = (writer.hand)(record, &mut self.hand_buffer[MARGIN..MARGIN + room]);
        let question = || format!("{} {LANDED} {} {room}", writer.name, hex(record));
        let answer = self.hold(proved, hand, question);
        let (start, n) = (record.as_ptr(), record.len());
        // SAFETY: the pointers are those of slices, and the buffer is a vector of its own.
        let given =
            unsafe { (writer.raw)(start, n, self.proved_buffer[MARGIN..].as_mut_ptr(), room) };
        self.hold_word(given, word(answer), question);
        let text = MARGIN..MARGIN + answer.unwrap_or(0) as usize;
        let (given, wanted) = (&self.proved_buffer[..all], &self.hand_buffer[..all]);
        let beside = given[..text.start].iter().chain(&given[text.end..]);
        if beside.into_iter().any(|kept| *kept != byte) {
            self.report(question(), "changed a byte beside the text".into(), "kept it".into());
        } else if proved == hand && given != wanted {
            let say = |bytes: &[u8]| hex(&bytes[text.clone()]);
            let (proved, hand) = (say(given), say(wanted));
            self.report(question(), proved, hand);
        }
    }

    fn case(&mut self, random: &mut Random) {
        let mut parts = match random.chance(1, 16) {
            true => generate::chained(random),
            false => generate::clause(random),
        };
        let record = match random.chance(3, 8) {
            true => generate::damaged(random, &parts),
            false => parts.record(),
        };
        let goals = parts.goals.len() as u32;
        let record = &record[..];
        let read = self.hold(Proved.read(record), Reference.read(record), || {
            format!("read {LANDED} {}", hex(record))
        });
        // SAFETY, here and below: a slice's pointer is not null and its bytes may be read.
        let (start, n) = (record.as_ptr(), record.len());
        let given = unsafe { c::lfj_read(start, n) };
        self.hold_word(given, word(read), || format!("read {LANDED} {}", hex(record)));
        self.met.records += 1;
        self.met.accepted += read.is_ok() as usize;
        self.met.wide += (read.is_ok() && record[4] == 2) as usize;
        self.passes(record);
        for _ in 0..3 {
            let goal = goal_number(random, goals);
            let question = |name: &str| format!("{name} {LANDED} {} {goal}", hex(record));
            let (proved, hand) = (Proved.after(record, goal), Reference.after(record, goal));
            let answer = self.hold(proved, hand, || question("after"));
            let given = unsafe { c::lfj_after(start, n, goal) };
            self.hold_word(given, word(answer), || question("after"));
            let (proved, hand) =
                (Proved.goal_text(record, goal), Reference.goal_text(record, goal));
            let answer = self.hold(proved, hand, || question("text"));
            let given = unsafe { c::lfj_goal_text(start, n, goal) };
            self.hold_word(given, text_word(answer), || question("text"));
        }
        self.arrays(record, random.word());
        self.dispatch(random, record);
        if random.chance(1, 8) {
            generate::shorten(random, &mut parts, 12);
            let record = parts.record();
            if let Ok(course) = Course::of(&record) {
                self.run(&record, &course, random.between(1, HEAD_LIMIT));
            }
        }
        let form = self.form(random, record);
        self.length(record);
        self.mel(random, record);
        for _ in 0..2 {
            let text = generate::text(random, goals as usize, &form);
            let (proved, hand) = (Proved.check(record, &text), Reference.check(record, &text));
            let question = || format!("check {LANDED} {} {}", hex(record), hex(&text));
            let answer = self.hold(proved, hand, question);
            let given = unsafe { c::lfj_check(start, n, text.as_ptr(), text.len()) };
            self.hold_word(given, check_word(answer), question);
            match answer {
                Ok(Verdict::Same) => self.met.same += 1,
                Ok(Verdict::Differs(..)) => self.met.differs += 1,
                Err(_) => (),
            }
        }
    }

    /// The number of passes, counted.
    fn passes(&mut self, record: &[u8]) {
        let question = || format!("passes {LANDED} {}", hex(record));
        let (proved, hand) = (Proved.passes(record), Reference.passes(record));
        let answer = self.hold(proved, hand, question);
        // SAFETY: a slice's pointer is not null and its bytes may be read.
        let given = unsafe { c::lfj_passes(record.as_ptr(), record.len()) };
        self.hold_word(given, word(answer), question);
        if let Ok(passes) = answer {
            self.met.passes[passes as usize - 1] += 1;
        }
    }

    /// What is lent to be filled whole, `value` everywhere before: the order and the facts.
    fn arrays(&mut self, record: &[u8], value: u64) {
        let (mut proved, mut hand) = (Arrays::of(value), Arrays::of(value));
        let question = || format!("order {LANDED} {}", hex(record));
        let words = by_library(&mut proved, record).into_iter().zip(hand.by_hand(record));
        for (given, wanted) in words {
            self.hold_word(given, wanted, question);
        }
        if proved != hand {
            self.report(question(), format!("{proved:x?}"), format!("{hand:x?}"));
        }
    }

    /// The dispatcher: a start, ticks of accepted and of damaged states, now and then a whole run.
    fn dispatch(&mut self, random: &mut Random, record: &[u8]) {
        let heads = random.between(0, HEAD_LIMIT + 1);
        let head = Head { goal: random.word() as u32, left: random.below(3) as u32 };
        self.lend(record, &State { heads: vec![head; heads], ended: 0 }, None);
        let Ok(course) = Course::of(record) else {
            // The record's refusals come first, whatever the state.
            let ended = random.word() as u32;
            self.lend(record, &State { heads: vec![head; heads], ended }, Some(ended));
            return;
        };
        let heads = random.between(1, HEAD_LIMIT);
        for of_a_run in [true, false] {
            let mut state = match of_a_run {
                true => course.on_a_run(random, heads),
                false => course.accepted(random, heads),
            };
            self.tick(record, &course, &state);
            course.damage(random, &mut state);
            self.tick(record, &course, &state);
        }
        if random.chance(1, 16) {
            self.run(record, &course, heads);
        }
    }

    /// A tick of the state, counted.
    fn tick(&mut self, record: &[u8], course: &Course, state: &State) {
        self.met.ticks += self.lend(record, state, Some(state.ended)) as usize;
        if let [reason] = course.reasons(state)[..] {
            self.met.reasons[reason] += 1;
        }
    }

    /// A run to the tick behind its last one.
    fn run(&mut self, record: &[u8], course: &Course, heads: usize) {
        let whole = course.ticks.iter().sum::<u32>() <= WHOLE_RUN;
        let mut state = course.start(heads);
        loop {
            self.tick(record, course, &state);
            let Ok((next, quiet)) = course.ticked(&state) else { return };
            if next == state {
                break;
            }
            state = next;
            if !whole {
                Course::later(&mut state, quiet);
            }
        }
        self.met.runs += 1;
        self.met.whole_runs += whole as usize;
    }

    /// A start, or a tick with these ended goals, of both sides from one row: the answer, its word
    /// with all bits, and the row with the heads around it. Says whether it is accepted.
    fn lend(&mut self, record: &[u8], state: &State, ended: Option<u32>) -> bool {
        let lent = || -> Vec<LentHead> {
            let row = state.heads.iter().map(|head| LentHead::from(*head));
            [vec![BESIDE; HEAD_MARGIN], row.collect(), vec![BESIDE; HEAD_MARGIN]].concat()
        };
        let (start, n, k) = (record.as_ptr(), record.len(), state.heads.len());
        let row = HEAD_MARGIN..HEAD_MARGIN + k;
        let (mut proved, mut raw, mut hand) = (lent(), lent(), state.heads.clone());
        let heads = raw[row.clone()].as_mut_ptr();
        // SAFETY of both calls: the pointers are those of slices, and the row is one of its own.
        let (given, answer, wanted) = match ended {
            None => (
                unsafe { c::lfj_start(start, n, heads, k) },
                Proved.start(record, &mut proved[row.clone()]),
                Reference.start(record, &mut hand),
            ),
            Some(ended) => (
                unsafe { c::lfj_tick(start, n, heads, k, ended) },
                Proved.tick(record, &mut proved[row.clone()], ended),
                Reference.tick(record, &mut hand, ended),
            ),
        };
        let question = || match ended {
            None => format!("start {LANDED} {} {k}", hex(record)),
            Some(ended) => {
                format!("tick {LANDED} {} {ended:08x} {}", hex(record), row_words(&state.heads))
            }
        };
        let wanted = self.hold(answer, wanted, question);
        self.hold_word(given, word(wanted), question);
        let mut left = lent();
        left[row].iter_mut().zip(&hand).for_each(|(head, by_hand)| *head = (*by_hand).into());
        for given in [proved, raw] {
            if given != left {
                self.report(question(), format!("left {given:?}"), format!("left {left:?}"));
            }
        }
        wanted.is_ok()
    }

    /// Gives the form, empty if there is none.
    fn form(&mut self, random: &mut Random, record: &[u8]) -> Vec<u8> {
        let mut text = [0; FORM_LIMIT];
        let answer = Reference.form(record, &mut text);
        match answer {
            Ok(_) => self.met.form += 1,
            Err(refusal) => self.met.no_form += (refusal.number == 13) as usize,
        }
        let length = answer.unwrap_or(0) as usize;
        let room = generate::room(random, length);
        let byte = random.word() as u8;
        self.write(&FORM, record, room, byte);
        text[..length].to_vec()
    }

    /// The form's length; a room of so many bytes suffices for the form, and one byte less does not.
    fn length(&mut self, record: &[u8]) {
        let question = || format!("length {LANDED} {}", hex(record));
        let (proved, hand) = (Proved.form_length(record), Reference.form_length(record));
        let answer = self.hold(proved, hand, question);
        // SAFETY: a slice's pointer is not null and its bytes may be read.
        let given = unsafe { c::lfj_form_length(record.as_ptr(), record.len()) };
        self.hold_word(given, word(answer), question);
        if let Ok(length) = answer {
            for room in [length as usize, length as usize - 1] {
                self.write(&FORM, record, room, 0xa5);
            }
        }
    }

    fn mel(&mut self, random: &mut Random, record: &[u8]) {
        let most = BUFFER - 2 * MARGIN;
        let length = Reference.mel(record, &mut self.hand_buffer[..most]).unwrap_or(0) as usize;
        let room = generate::room(random, length).min(most);
        let byte = random.word() as u8;
        self.write(&MEL, record, room, byte);
    }
}

/// Mostly a goal of the clause, sometimes none.
fn goal_number(random: &mut Random, goals: u32) -> u32 {
    match random.below(8) {
        0 => random.pick(&[0, goals + 1, 33, 256 + goals, u32::MAX, random.clone().word() as u32]),
        _ => random.between(1, goals as usize) as u32,
    }
}

fn run(cases: usize, seed: u64) -> ExitCode {
    println!("{cases} cases, seed {seed}");
    let mut run = Run {
        seed,
        case: 0,
        differences: 0,
        met: Met::default(),
        proved_buffer: vec![0; BUFFER],
        hand_buffer: vec![0; BUFFER],
    };
    let started = Instant::now();
    let mut said = 0;
    let mut random = Random::new(seed);
    for case in 0..cases {
        run.case = case;
        // Each case has its own generator, so that it does not depend on those before it.
        run.case(&mut Random::new(random.word()));
        if run.differences >= ENOUGH {
            println!("{ENOUGH} differences, this is enough");
            return ExitCode::FAILURE;
        }
        if started.elapsed().as_secs() / 5 > said {
            said = started.elapsed().as_secs() / 5;
            println!("{:>9} cases, {} differences", case + 1, run.differences);
        }
    }
    let missing = run.met.print();
    println!("{cases} cases, seed {seed}: {} differences", run.differences);
    if cases >= 10_000 && !missing.is_empty() {
        println!("never met: {}", missing.join(", "));
        return ExitCode::FAILURE;
    }
    if cases >= 10_000 && 2 * run.met.accepted < run.met.records {
        println!("fewer than half of the records were accepted");
        return ExitCode::FAILURE;
    }
    if run.differences == 0 { ExitCode::SUCCESS } else { ExitCode::FAILURE }
}

/// The answer words to a question, the library's and the one wanted.
fn words(question: &str) -> Option<(u64, u64)> {
    let fields: Vec<&str> = question.split(' ').collect();
    let record = unhex(fields.get(2)?).ok()?;
    let number = || fields.get(3)?.parse::<u32>().ok();
    let (start, n) = (record.as_ptr(), record.len());
    let room = if matches!(fields[0], "form" | "mel") { number()? } else { 0 };
    let mut out = vec![0u8; room as usize];
    // SAFETY of all calls: the pointers are those of vectors, and the buffer is one of its own.
    Some(match fields[0] {
        "read" => (unsafe { c::lfj_read(start, n) }, word(Reference.read(&record))),
        "passes" => (unsafe { c::lfj_passes(start, n) }, word(Reference.passes(&record))),
        "after" => {
            let goal = number()?;
            (unsafe { c::lfj_after(start, n, goal) }, word(Reference.after(&record, goal)))
        }
        "form" => (
            unsafe { c::lfj_form(start, n, out.as_mut_ptr(), out.len()) },
            word(Reference.form(&record, &mut out)),
        ),
        "length" => (unsafe { c::lfj_form_length(start, n) }, word(Reference.form_length(&record))),
        "mel" => (
            unsafe { c::lfj_mel(start, n, out.as_mut_ptr(), out.len()) },
            word(Reference.mel(&record, &mut out)),
        ),
        "text" => {
            let (goal, wanted) = (number()?, Reference.goal_text(&record, number()?));
            (unsafe { c::lfj_goal_text(start, n, goal) }, text_word(wanted))
        }
        "check" => {
            let text = unhex(fields.get(3)?).ok()?;
            let given = unsafe { c::lfj_check(start, n, text.as_ptr(), text.len()) };
            (given, check_word(Reference.check(&record, &text)))
        }
        "start" | "tick" => {
            let (mut hand, ended) = match fields[0] {
                "start" => (vec![Head::default(); number()? as usize], None),
                _ => (row_in(&fields).ok()?, Some(u32::from_str_radix(fields.get(3)?, 16).ok()?)),
            };
            let mut row: Vec<LentHead> = hand.iter().map(|head| (*head).into()).collect();
            let (heads, k) = (row.as_mut_ptr(), row.len());
            match ended {
                None => {
                    let given = unsafe { c::lfj_start(start, n, heads, k) };
                    (given, word(Reference.start(&record, &mut hand)))
                }
                Some(ended) => {
                    let given = unsafe { c::lfj_tick(start, n, heads, k, ended) };
                    (given, word(Reference.tick(&record, &mut hand, ended)))
                }
            }
        }
        _ => return None,
    })
}

/// Both answers to one question.
fn one(question: &str) -> ExitCode {
    let (proved, hand) = match (answer(&Proved, question), answer(&Reference, question)) {
        (Ok(proved), Ok(hand)) => (proved, hand),
        (Err(error), _) | (_, Err(error)) => {
            eprintln!("{error}");
            return ExitCode::from(2);
        }
    };
    println!("hand-written  {hand}\nproved        {proved}");
    let mut same = proved == hand;
    if let Some((given, wanted)) = words(question) {
        println!("word wanted   {wanted:016x}\nword given    {given:016x}");
        same &= given == wanted;
    }
    println!("{}", if same { "the same" } else { "a difference" });
    if same { ExitCode::SUCCESS } else { ExitCode::FAILURE }
}

fn usage() -> ExitCode {
    eprint!("{HELP}");
    ExitCode::from(2)
}

fn main() -> ExitCode {
    let words = about::words("differences", HELP);
    if words.first().is_some_and(|word| word == "--case") {
        let [_, question] = &words[..] else { return usage() };
        return one(question);
    }
    let number = |at: usize, default: u64| match words.get(at) {
        Some(word) => word.replace('_', "").parse().ok(),
        None => Some(default),
    };
    match (number(0, 200_000), number(1, 1), words.len()) {
        (Some(cases), Some(seed), 0..=2) => run(cases as usize, seed),
        _ => usage(),
    }
}

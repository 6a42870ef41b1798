//! The conformance kit's cases, file by file. The answers are the hand-written annotator's;
//! where the paper prints an answer, it is stated here too and the two are compared.

mod check;
mod dispatch;
mod order;
mod paper;
mod passes;
mod record;
mod texts;
mod version_2;

use crate::Head;
use crate::build::Parts;
use crate::cases::{LANDED, Reference, answer, hex, row_words};
use std::collections::HashSet;

pub use texts::at_the_limit;

/// The file of one group of cases.
pub struct File {
    pub name: &'static str,
    pub text: String,
    pub cases: usize,
}

/// Collects the lines of a file.
pub(crate) struct Lines {
    file: File,
    asked: HashSet<String>,
    groups: HashSet<String>,
}

impl Lines {
    fn new(name: &'static str, about: &str) -> Lines {
        let file = File { name, text: format!("# {about}\n"), cases: 0 };
        Lines { file, asked: HashSet::new(), groups: HashSet::new() }
    }

    /// The heading of a group, whose cases are called FILE/GROUP.1, FILE/GROUP.2 and so on, and
    /// what they test.
    fn note(&mut self, group: &str, words: &str) {
        assert!(self.groups.insert(group.to_string()), "two groups are called {group}");
        let plain = |sign: u8| sign.is_ascii_lowercase() || sign.is_ascii_digit() || sign == b'-';
        assert!(group.bytes().all(plain), "{group}");
        self.file.text += &format!("\n# {group}: {words}\n");
    }

    /// A case with the hand-written annotator's answer. The same question is asked once.
    fn ask(&mut self, question: String) -> String {
        let given = answer(&Reference, &question).expect("a question of the kit");
        if self.asked.insert(question.clone()) {
            self.file.text += &format!("{question} = {given}\n");
            self.file.cases += 1;
        }
        given
    }

    /// A case whose answer the paper or a settled reading prints.
    fn expect(&mut self, question: String, expected: &str) {
        let given = self.ask(question.clone());
        assert_eq!(given, expected, "{question}");
    }

    fn read(&mut self, record: &[u8]) -> String {
        self.ask(format!("read {LANDED} {}", hex(record)))
    }

    fn waits(&mut self, parts: &Parts) {
        self.ask(format!("waits {LANDED} {}", hex(&parts.record())));
    }

    fn order(&mut self, parts: &Parts) {
        self.ask(format!("order {LANDED} {}", hex(&parts.record())));
    }

    fn passes(&mut self, parts: &Parts) -> String {
        self.ask(format!("passes {LANDED} {}", hex(&parts.record())))
    }

    fn form(&mut self, parts: &Parts, room: usize) -> String {
        self.ask(format!("form {LANDED} {} {room}", hex(&parts.record())))
    }

    fn length(&mut self, parts: &Parts) {
        self.ask(format!("length {LANDED} {}", hex(&parts.record())));
    }

    fn mel(&mut self, parts: &Parts, room: usize) -> String {
        self.ask(format!("mel {LANDED} {} {room}", hex(&parts.record())))
    }

    fn goal_text(&mut self, parts: &Parts, goal: u32) {
        self.ask(format!("text {LANDED} {} {goal}", hex(&parts.record())));
    }

    fn check(&mut self, parts: &Parts, text: &[u8]) -> String {
        self.ask(format!("check {LANDED} {} {}", hex(&parts.record()), hex(text)))
    }

    fn sheet(&mut self, input: &[u8]) {
        self.ask(format!("sheet {LANDED} {}", hex(input)));
    }

    fn unread(&mut self, input: &[u8]) {
        self.ask(format!("unread {LANDED} {}", hex(input)));
    }

    fn start(&mut self, record: &[u8], heads: usize) -> String {
        self.ask(format!("start {LANDED} {} {heads}", hex(record)))
    }

    fn tick(&mut self, record: &[u8], ended: u32, heads: &[Head]) -> String {
        self.ask(format!("tick {LANDED} {} {ended:08x} {}", hex(record), row_words(heads)))
    }

    fn run(&mut self, parts: &Parts, heads: usize) -> String {
        self.ask(format!("run {LANDED} {} {heads}", hex(&parts.record())))
    }

    /// The text that a writer gives, with room enough.
    fn expect_form(&mut self, parts: &Parts, text: &str) {
        let question = format!("form {LANDED} {} 146", hex(&parts.record()));
        self.expect(question, &format!("ok {} {}", text.len(), hex(text.as_bytes())));
    }

    fn expect_mel(&mut self, parts: &Parts, text: &str) {
        let question = format!("mel {LANDED} {} 400", hex(&parts.record()));
        self.expect(question, &format!("ok {} {}", text.len(), hex(text.as_bytes())));
    }

    fn expect_check(&mut self, parts: &Parts, text: &str, expected: &str) {
        let question = format!("check {LANDED} {} {}", hex(&parts.record()), hex(text.as_bytes()));
        self.expect(question, expected);
    }

    fn expect_read(&mut self, record: &[u8], expected: &str) {
        self.expect(format!("read {LANDED} {}", hex(record)), expected);
    }
}

/// The pairs (i, j) with i < j of the goals 1 to `goals`.
fn all_pairs(goals: usize) -> Vec<(usize, usize)> {
    (1..=goals).flat_map(|i| (i + 1..=goals).map(move |j| (i, j))).collect()
}

/// One clause for each order on so many goals that waits can give.
pub fn every_order(goals: usize) -> Vec<Parts> {
    let mut seen = HashSet::new();
    let order = |parts: &Parts| crate::order(&parts.record()).expect("well formed").order;
    every_graph(goals).filter(|parts| seen.insert(order(parts).rows)).collect()
}

/// The waits of so many goals of which each waits for the one before it.
fn chain(goals: usize) -> Vec<(usize, usize)> {
    (1..goals).map(|i| (i, i + 1)).collect()
}

/// A clause for each graph of waits on so many goals.
pub fn every_graph(goals: usize) -> impl Iterator<Item = Parts> {
    let all = all_pairs(goals);
    (0..1u32 << all.len()).map(move |chosen| {
        let picked = all.iter().enumerate().filter(|(at, _)| chosen >> at & 1 == 1);
        waiting(goals, &picked.map(|(_, pair)| *pair).collect::<Vec<_>>())
    })
}

/// A clause in which just these goals wait.
fn waiting(goals: usize, waits: &[(usize, usize)]) -> Parts {
    Parts::with_waits(goals, waits).expect("few pairs")
}

/// A clause of 32 goals of which just the given ones, ascending, hold a variable, one each, and
/// just the listed ones wait.
fn among(goals: &[usize], waits: &[(usize, usize)]) -> Parts {
    let mut sets = [0; 32];
    for (variable, goal) in goals.iter().enumerate() {
        sets[goal - 1] = 1 << variable;
    }
    let mut parts = Parts::over(goals.len() as u8, &sets);
    for (x, y) in all_pairs(goals.len()) {
        if !waits.contains(&(goals[x - 1], goals[y - 1])) {
            parts.pairs.push((x as u8 - 1, y as u8 - 1));
        }
    }
    parts
}

/// Every file of the kit.
pub fn files() -> Vec<File> {
    let lines = vec![
        paper::readings(),
        record::header(),
        record::goals(),
        record::pairs(),
        record::which_first(),
        version_2::record(),
        version_2::facts(),
        order::two_goals(),
        order::closure(),
        passes::passes(),
        order::forms(),
        order::no_form(),
        order::length(),
        texts::mel_stages(),
        texts::mel_checks(),
        texts::mel_long(),
        texts::buffers(),
        texts::goal_texts(),
        check::grammar(),
        check::numbers(),
        check::verdicts(),
        texts::sheets(),
        dispatch::starts(),
        dispatch::ticks(),
        dispatch::refused(),
        dispatch::runs(),
        paper::samples(),
        paper::mixed(),
    ];
    lines.into_iter().map(|lines| lines.file).collect()
}

//! What a chart shows of a clause that runs on several heads.

use lfj::Refusal;
use lfj::dispatch::{Run, Span};

/// A run from its start to its end.
pub struct Chart {
    pub title: String,
    /// By number, from goal 1.
    pub goals: Vec<Work>,
    pub heads: usize,
    pub spans: Vec<Span>,
    /// T, the last working tick.
    pub last: u32,
    /// W, the ticks of all goals.
    pub total: u32,
    /// C, the ticks of the heaviest chain.
    pub heaviest: u32,
    /// The goals of a heaviest chain.
    pub chain: Vec<u32>,
    /// T is at most this.
    pub bound: u32,
}

/// What a goal has of the run.
pub struct Work {
    pub text: String,
    /// Its head, from 1.
    pub head: usize,
    /// Its first and its last tick.
    pub from: u32,
    pub to: u32,
}

impl Work {
    pub fn ticks(&self) -> u32 {
        self.to + 1 - self.from
    }
}

impl Chart {
    /// The run of a record on so many heads; the refusal if it has one.
    pub fn of(name: &str, record: &[u8], heads: usize) -> Result<Chart, Refusal> {
        let clause = lfj::Clause::of(record)?;
        let mut run = Run::start(record, heads)?;
        let spans: Vec<Span> = std::iter::from_fn(|| run.span()).collect();
        let texts = clause.goals.into_iter().map(|goal| goal.text);
        let goals = texts.zip(1..).map(|(text, goal)| work(text, goal, &spans)).collect();
        let word = if heads == 1 { "head" } else { "heads" };
        Ok(Chart {
            title: format!("{name} on {heads} {word}"),
            goals,
            heads,
            spans,
            last: run.ticks(),
            total: run.total_ticks(),
            heaviest: run.chain_ticks(),
            chain: run.chain_goals().to_vec(),
            bound: run.bound(),
        })
    }

    /// T, W and C, each with what it is; the numbers aligned.
    pub fn numbers(&self) -> [(String, String); 3] {
        let digits = self.total.to_string().len();
        let chain: Vec<String> = self.chain.iter().map(|goal| goal.to_string()).collect();
        let chain = format!("the ticks of the heaviest chain: {}", chain.join(" "));
        [
            ("T", self.last, "the last working tick".to_string()),
            ("W", self.total, "the ticks of all goals".to_string()),
            ("C", self.heaviest, chain),
        ]
        .map(|(name, number, words)| (format!("{name} = {number:digits$}"), words))
    }

    /// The bound, with letters and with the run's numbers.
    pub fn bound_line(&self) -> String {
        let Chart { heads, last, total, heaviest, bound, .. } = self;
        let others = heads - 1;
        format!(
            "{heads} x T <= W + {others} x C: {heads} x {last} <= {total} + {others} x {heaviest}, \
             so T is at most {bound}"
        )
    }
}

/// The work at a goal. A head keeps its goal until it has ended, so that all of it is in a row.
fn work(text: String, goal: u32, spans: &[Span]) -> Work {
    let mut of_goal = spans.iter().filter_map(|span| {
        let head = span.goals.iter().position(|one| *one == goal)?;
        Some((head + 1, span.from, span.from + span.ticks - 1))
    });
    let (head, from, to) = of_goal.next().expect("every goal of a run has ended");
    let to = of_goal.next_back().map_or(to, |(_, _, last)| last);
    Work { text, head, from, to }
}

//! The proved library behind the same questions as the hand-written annotator, and the
//! answer words that the hand-written one would give.

use crate::cases::Annotator;
use crate::{GOAL_LIMIT, Head, Order, Refusal, Verdict};

/// The annotator of the static library.
pub struct Proved;

/// The answer word of a refusal.
pub fn refusal_word(refusal: Refusal) -> u64 {
    let Refusal { number, place, goals: [a, b, c, d] } = refusal;
    let goals = (a as u64) << 32 | (b as u64) << 38 | (c as u64) << 44 | (d as u64) << 50;
    (number as u64) << 56 | goals | place as u64
}

/// The answer word of a number or a refusal.
pub fn word(answer: Result<u32, Refusal>) -> u64 {
    answer.map_or_else(refusal_word, u64::from)
}

/// The answer word of a goal's text.
pub fn text_word(answer: Result<(u32, u32), Refusal>) -> u64 {
    let both = |(place, length)| place as u64 | (length as u64) << 32;
    answer.map_or_else(refusal_word, both)
}

/// The answer word of a check.
pub fn check_word(answer: Result<Verdict, Refusal>) -> u64 {
    answer.map_or_else(refusal_word, |verdict| match verdict {
        Verdict::Same => 0,
        Verdict::Differs(i, j) => i as u64 | (j as u64) << 8,
    })
}

fn refusal(refusal: lfj::Refusal) -> Refusal {
    Refusal { number: refusal.number, place: refusal.place, goals: refusal.goals }
}

impl From<Head> for lfj::dispatch::Head {
    fn from(Head { goal, left }: Head) -> Self {
        lfj::dispatch::Head { goal, left }
    }
}

impl From<lfj::dispatch::Head> for Head {
    fn from(lfj::dispatch::Head { goal, left }: lfj::dispatch::Head) -> Self {
        Head { goal, left }
    }
}

impl Annotator for Proved {
    type Head = lfj::dispatch::Head;
    fn read(&self, record: &[u8]) -> Result<u32, Refusal> {
        lfj::read(record).map_err(refusal)
    }
    /// The library gives the closed order alone, which up to two goals is that of the waits.
    fn waits(&self, record: &[u8]) -> Option<Result<Order, Refusal>> {
        match self.read(record) {
            Ok(3..) => None,
            _ => Some(self.order(record)),
        }
    }
    fn order(&self, record: &[u8]) -> Result<Order, Refusal> {
        let lfj::Order { goals, rows } = lfj::order(record).map_err(refusal)?;
        Ok(Order { goals: goals as usize, rows })
    }
    fn passes(&self, record: &[u8]) -> Result<u32, Refusal> {
        lfj::passes(record).map_err(refusal)
    }
    fn after(&self, record: &[u8], goal: u32) -> Result<u32, Refusal> {
        lfj::after(record, goal).map_err(refusal)
    }
    fn form(&self, record: &[u8], out: &mut [u8]) -> Result<u32, Refusal> {
        lfj::form(record, out).map(|length| length as u32).map_err(refusal)
    }
    fn form_length(&self, record: &[u8]) -> Result<u32, Refusal> {
        lfj::form_length(record).map(|length| length as u32).map_err(refusal)
    }
    fn mel(&self, record: &[u8], out: &mut [u8]) -> Result<u32, Refusal> {
        lfj::mel(record, out).map(|length| length as u32).map_err(refusal)
    }
    fn goal_text(&self, record: &[u8], goal: u32) -> Result<(u32, u32), Refusal> {
        let text = lfj::goal_text(record, goal).map_err(refusal)?;
        let place = text.as_ptr() as usize - record.as_ptr() as usize;
        Ok((place as u32, text.len() as u32))
    }
    fn check(&self, record: &[u8], text: &[u8]) -> Result<Verdict, Refusal> {
        match lfj::check(record, text).map_err(refusal)? {
            lfj::Verdict::Same => Ok(Verdict::Same),
            lfj::Verdict::Differs(i, j) => Ok(Verdict::Differs(i, j)),
        }
    }
    /// A library has no program.
    fn unread(&self, _: &[u8]) -> Option<usize> {
        None
    }
    fn ticks(&self, record: &[u8]) -> Result<[u32; GOAL_LIMIT], Refusal> {
        lfj::facts(record).map(|facts| facts.ticks).map_err(refusal)
    }
    fn start(&self, record: &[u8], heads: &mut [Self::Head]) -> Result<u32, Refusal> {
        lfj::dispatch::start(record, heads).map_err(refusal)
    }
    fn tick(&self, record: &[u8], heads: &mut [Self::Head], ended: u32) -> Result<u32, Refusal> {
        lfj::dispatch::tick(record, heads, ended).map_err(refusal)
    }
}

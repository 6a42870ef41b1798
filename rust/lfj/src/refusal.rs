//! What an operation turned down, and how to say it.

use std::fmt;

/// What a refusal is about, by its number.
#[derive(Clone, Copy, PartialEq, Eq, PartialOrd, Ord, Hash, Debug)]
#[non_exhaustive]
#[repr(u8)]
pub enum Kind {
    /// The record is shorter than its header of 24 bytes.
    ShortRecord = 1,
    /// The record does not start with the letters `LFJ`.
    BadMark = 2,
    /// The record's version is neither 1 nor 2.
    BadVersion = 3,
    /// The goal count is not 1 to 32.
    BadGoalCount = 4,
    /// The variable count is above 64.
    BadVariableCount = 5,
    /// The head has a variable at or above the count, or a ground variable is outside the head.
    BadHeaderSet = 6,
    /// The record ends within a goal or a pair.
    CutOff = 7,
    /// A goal has a variable at or above the count.
    BadGoalSet = 8,
    /// The length of a goal's text or a byte of it.
    BadGoalText = 9,
    /// A pair is not lower then higher, not below the count or not ascending.
    BadPair = 10,
    /// The record goes on after its end.
    LeftOver = 11,
    /// The lent buffer is too short.
    ShortBuffer = 12,
    /// No fork-join expression has the clause's order.
    NoForm = 13,
    /// The clause has no goal of this number.
    NoGoal = 14,
    /// The expression's text is empty or too long.
    BadTextLength = 15,
    /// The expression's text is not in the grammar.
    BadGrammar = 16,
    /// The expression does not use each goal exactly once.
    BadGoalUse = 17,
    /// A goal's ground set lacks a variable of the one before it, or has one that nothing binds.
    BadGroundSet = 18,
    /// A goal's ticks are not 1 to 60000.
    BadTicks = 19,
    /// The row of heads or the set of ended goals that the dispatcher is given.
    BadHeads = 20,
    /// A number that this crate does not know: the library is newer.
    Unknown = 255,
}

/// All kinds with a number of the papers, in its order.
const KINDS: [Kind; 20] = [
    Kind::ShortRecord,
    Kind::BadMark,
    Kind::BadVersion,
    Kind::BadGoalCount,
    Kind::BadVariableCount,
    Kind::BadHeaderSet,
    Kind::CutOff,
    Kind::BadGoalSet,
    Kind::BadGoalText,
    Kind::BadPair,
    Kind::LeftOver,
    Kind::ShortBuffer,
    Kind::NoForm,
    Kind::NoGoal,
    Kind::BadTextLength,
    Kind::BadGrammar,
    Kind::BadGoalUse,
    Kind::BadGroundSet,
    Kind::BadTicks,
    Kind::BadHeads,
];

impl Kind {
    /// The kind of a refusal's number.
    pub fn of(number: u8) -> Kind {
        KINDS.into_iter().find(|kind| *kind as u8 == number).unwrap_or(Kind::Unknown)
    }
}

/// An operation turned its input down. Lent bytes are as they were.
///
/// ```
/// use lfj::Kind;
///
/// let refusal = lfj::read(b"LFJ").unwrap_err();
/// assert_eq!((refusal.kind(), refusal.number, refusal.place), (Kind::ShortRecord, 1, 3));
/// assert_eq!(refusal.to_string(), "the record has 3 bytes, fewer than the 24 of its header (refusal 1)");
/// ```
///
/// `Debug` has the same words, so that a `main` that returns a refusal prints them.
#[derive(Clone, Copy, PartialEq, Eq, Hash)]
pub struct Refusal {
    /// 1 to 20, as the papers number them; see [`Refusal::kind`].
    pub number: u8,
    /// Mostly the place of a byte. A length for 1 (the record's) and 12 (the one needed).
    pub place: u32,
    /// With 13 the goals a, b, c and d, else zeros.
    pub goals: [u8; 4],
}

impl Refusal {
    /// The refusal that an answer word holds.
    pub(crate) fn of(word: u64) -> Refusal {
        let goal = |bit: u32| (word >> bit & 63) as u8;
        let number = (word >> 56) as u8;
        let goals = if number == 13 { [goal(32), goal(38), goal(44), goal(50)] } else { [0; 4] };
        Refusal { number, place: word as u32, goals }
    }

    /// What the refusal is about.
    pub fn kind(&self) -> Kind {
        Kind::of(self.number)
    }

    /// The refusal in words, with the bytes that it is about: the record, or for 16 and 17 the
    /// expression's text. They tell the halves of 9 and 17 apart; the others have the words of
    /// `Display`.
    ///
    /// ```
    /// # let record = b"LFJ\0\x01\x02\x01\0\0\0\0\0\0\0\0\x01\0\0\0\0\0\0\0\0\
    /// #     \0\0\0\0\0\0\0\x01\x01a\0\0\0\0\0\0\0\x01\x01b";
    /// // A clause of two goals.
    /// let words = |text: &[u8]| lfj::check(record, text).unwrap_err().words(text);
    /// assert_eq!(words(b"1"), "the expression lacks goal 2 (refusal 17)");
    /// assert_eq!(words(b"1&2&1"), "goal 1 stands a second time at byte 4 of the expression (refusal 17)");
    /// assert_eq!(words(b"1&23"), "the clause has no goal 23, which stands at byte 2 of the expression (refusal 17)");
    /// ```
    pub fn words(&self, lent: &[u8]) -> String {
        let half = match self.kind() {
            Kind::BadGoalText => goal_text_half(self.place as usize, lent),
            Kind::BadGoalUse => goal_use_half(self.place as usize, lent),
            _ => None,
        };
        match half {
            Some(words) => format!("{words} (refusal {})", self.number),
            None => self.to_string(),
        }
    }
}

/// The half of 9 that applies: the goals before the place are in order, so that the place of
/// each length byte follows from them.
fn goal_text_half(place: usize, record: &[u8]) -> Option<String> {
    let value = record.get(place)?;
    let fixed = if record.get(4)? == &2 { 19 } else { 9 };
    let (mut goal, mut at) = (1, 24 + fixed - 1);
    loop {
        let text = at + 1;
        let next = text + *record.get(at)? as usize;
        if place == at {
            return Some(format!(
                "the text of goal {goal} has length {value}, byte {place} of the record; \
                 1 to 24 is right"
            ));
        }
        if (text..next).contains(&place) {
            return Some(format!(
                "the text of goal {goal} has a byte of value {value}, byte {place} of the \
                 record; 33 to 126 is right"
            ));
        }
        (goal, at) = (goal + 1, next + fixed - 1);
    }
}

/// The half of 17 that applies.
fn goal_use_half(place: usize, text: &[u8]) -> Option<String> {
    let numbers = |text: &[u8]| -> Vec<u32> {
        let words = text.split(|byte| !byte.is_ascii_digit());
        words.filter_map(|word| std::str::from_utf8(word).ok()?.parse().ok()).collect()
    };
    if place == text.len() {
        let met = numbers(text);
        let missing = (1..=32).find(|goal| !met.contains(goal))?;
        return Some(format!("the expression lacks goal {missing}"));
    }
    let number = *numbers(text.get(place..)?).first()?;
    Some(match numbers(&text[..place]).contains(&number) {
        true => format!("goal {number} stands a second time at byte {place} of the expression"),
        false => format!(
            "the clause has no goal {number}, which stands at byte {place} of the expression"
        ),
    })
}

/// A refusal of the record's header, in words.
fn header_words(kind: Kind, place: u32) -> Option<String> {
    let words = match kind {
        Kind::ShortRecord => {
            return Some(format!("the record has {place} bytes, fewer than the 24 of its header"));
        }
        Kind::BadMark => "the record does not start with the letters LFJ",
        Kind::BadVersion => "the record's version, bytes 3 and 4, is neither 1 nor 2",
        Kind::BadGoalCount => "the goal count, byte 5, is not 1 to 32",
        Kind::BadVariableCount => "the variable count, byte 6, is above 64",
        Kind::BadHeaderSet if place == 8 => {
            "the head set, bytes 8 to 15, has a variable at or above the count"
        }
        Kind::BadHeaderSet => "the ground set, bytes 16 to 23, has a variable outside the head",
        _ => return None,
    };
    Some(words.to_string())
}

/// A refusal of the record's goals, pairs or end, in words.
fn record_words(kind: Kind, place: u32) -> Option<String> {
    Some(match kind {
        Kind::CutOff => format!(
            "the record ends too early, after {place} bytes: within a goal's fixed part (9 bytes, \
             in version 2 19), its text or a pair"
        ),
        Kind::BadGoalSet => {
            format!("the goal at byte {place} of the record has a variable at or above the count")
        }
        Kind::BadGoalText => format!(
            "byte {place} of the record is not the length of a goal's text, 1 to 24, or not a \
             byte of one, 33 to 126"
        ),
        Kind::BadPair => format!(
            "the pair at byte {place} of the record is not lower then higher, not below the \
             variable count, or not above the pair before it"
        ),
        Kind::LeftOver => format!("the record goes on after its end at byte {place}"),
        Kind::BadGroundSet => format!(
            "the ground set at byte {place} of the record lacks a variable of the one before it, \
             or has one that is in neither the head nor an earlier goal"
        ),
        Kind::BadTicks => format!("the ticks at byte {place} of the record are not 1 to 60000"),
        _ => return None,
    })
}

/// Any other refusal in words.
fn operation_words(refusal: Refusal) -> String {
    let Refusal { place, goals: [a, b, c, d], .. } = refusal;
    match refusal.kind() {
        Kind::ShortBuffer => format!("the lent buffer is too short, {place} bytes are needed"),
        Kind::NoForm => format!(
            "no fork-join expression has the clause's order: goal {a} is before {c}, {b} before \
             {c} and {d}, and nothing else among these four"
        ),
        Kind::NoGoal => "the clause has no goal of this number".to_string(),
        Kind::BadTextLength => "the expression's text is empty or longer than 512 bytes".into(),
        Kind::BadGrammar => format!("the expression's text breaks the grammar at byte {place}"),
        Kind::BadGoalUse => format!(
            "at byte {place} of the expression's text stands a number that is no goal or was met \
             before, or the text ends there and a goal is missing"
        ),
        Kind::BadHeads => {
            "the row has not 1 to 8 heads; or at a tick a head's goal is none of the \
                           clause, on two heads or ended, its ticks left are wrong, an ended goal \
                           is none of the clause, or a busy or ended goal has a predecessor that \
                           has not ended"
                .to_string()
        }
        _ => format!("at {place}, for a reason that this version does not know"),
    }
}

impl fmt::Display for Refusal {
    fn fmt(&self, f: &mut fmt::Formatter<'_>) -> fmt::Result {
        let (kind, place) = (self.kind(), self.place);
        let words = header_words(kind, place).or_else(|| record_words(kind, place));
        let words = words.unwrap_or_else(|| operation_words(*self));
        write!(f, "{words} (refusal {})", self.number)
    }
}

impl fmt::Debug for Refusal {
    fn fmt(&self, f: &mut fmt::Formatter<'_>) -> fmt::Result {
        fmt::Display::fmt(self, f)
    }
}

impl std::error::Error for Refusal {}

#[cfg(test)]
mod tests {
    use super::{KINDS, Kind, Refusal};

    #[test]
    fn every_number_has_a_kind_and_words_of_its_own() {
        let mut seen = Vec::new();
        for (kind, number) in KINDS.into_iter().zip(1..) {
            let refusal = Refusal { number, place: 8, goals: [1, 2, 3, 4] };
            assert_eq!((refusal.kind(), kind as u8), (kind, number));
            let words = refusal.to_string();
            assert_eq!(words, format!("{refusal:?}"));
            assert!(words.ends_with(&format!(" (refusal {number})")), "{words}");
            assert!(!words.contains("does not know"), "{words}");
            assert!(!seen.contains(&words));
            seen.push(words);
        }
        assert_eq!((Kind::of(0), Kind::of(21)), (Kind::Unknown, Kind::Unknown));
    }

    #[test]
    fn an_answer_word_is_taken_apart() {
        let word = 13 << 56 | 2 << 32 | 1 << 38 | 32 << 44 | 3u64 << 50;
        assert_eq!(Refusal::of(word), Refusal { number: 13, place: 0, goals: [2, 1, 32, 3] });
        let word = 12 << 56 | 188_354;
        assert_eq!(Refusal::of(word), Refusal { number: 12, place: 188_354, goals: [0; 4] });
    }
}

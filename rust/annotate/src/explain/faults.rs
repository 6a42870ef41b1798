//! What is wrong with a refused record and what would be right, a sentence for each refusal.

use super::places::{Field, Part};
use super::words::{TIE, capital, count, first_few, is_or_are, variable};
use crate::input::RECORD_INPUT;
use lfj::{GOAL_LIMIT, GOAL_TEXT_LIMIT, Kind, TICK_LIMIT, VARIABLE_LIMIT, variables};
use std::ops::Range;

/// So many variables of a set are told; of the others the number is.
const FEW: usize = 8;

/// A refused record, with its fields up to the refused place.
pub struct Refused<'a> {
    pub record: &'a [u8],
    pub names: &'a [String],
    pub place: usize,
    pub fields: Vec<Field>,
}

impl Refused<'_> {
    /// The bytes of a range that the record has.
    pub fn bytes(&self, range: Range<usize>) -> &[u8] {
        let end = self.record.len();
        &self.record[range.start.min(end)..range.end.min(end)]
    }

    fn number(&self, range: Range<usize>) -> u64 {
        self.bytes(range).iter().fold(0, |number, byte| number << 8 | *byte as u64)
    }

    fn field(&self, part: Part) -> Option<Field> {
        self.fields.iter().copied().find(|field| field.part == part)
    }

    /// The number in a field, which may be a set; 0 if the record has no such field.
    fn value(&self, part: Part) -> u64 {
        self.field(part).map_or(0, |field| self.number(field.start..field.end))
    }

    /// A goal's number, with its text if that is whole and can be printed.
    fn goal(&self, goal: u32) -> String {
        let text = self.field(Part::Text(goal)).map(|text| self.bytes(text.start..text.end));
        match text {
            Some(text)
                if text.len() as u64 == self.value(Part::Length(goal))
                    && text.iter().all(u8::is_ascii_graphic) =>
            {
                format!("goal {goal}, {},", String::from_utf8_lossy(text))
            }
            _ => format!("goal {goal}"),
        }
    }

    fn variables(&self, set: u64) -> String {
        let names: Vec<_> = variables(set).map(|number| variable(self.names, number)).collect();
        first_few(&names, FEW)
    }

    /// A variable by its number, with its name if it has one.
    fn numbered(&self, number: u8) -> String {
        match self.names.get(number as usize) {
            Some(name) if *name != format!("v{number}") => format!("{name}, v{number},"),
            _ => format!("v{number}"),
        }
    }

    /// `is` or `are`, of the variables of a set.
    fn is(&self, set: u64) -> &'static str {
        is_or_are(set.count_ones() as usize)
    }
}

/// What is wrong with this part and what would be right.
pub fn the_fault(refused: &Refused, kind: Kind, part: Part) -> Option<String> {
    Some(match (kind, part) {
        (Kind::ShortRecord, _) => short_record(refused),
        (Kind::BadMark, _) => bad_mark(refused),
        (Kind::BadVersion, _) => {
            format!("The version is {}; 1 or 2 is right.", refused.value(Part::Version))
        }
        (Kind::BadGoalCount, _) => {
            let goals = count(refused.record[5] as usize, "goal");
            format!("The clause would have {goals}; 1 to {GOAL_LIMIT} is right.")
        }
        (Kind::BadVariableCount, _) => {
            let variables = count(refused.record[6] as usize, "variable");
            format!("The clause would have {variables}; 0 to {VARIABLE_LIMIT} is right.")
        }
        (Kind::BadHeaderSet, Part::Head) => too_high(refused, "the head", Part::Head),
        (Kind::BadHeaderSet, _) => ground_outside(refused),
        (Kind::CutOff, Part::Text(goal)) => cut_text(refused, goal)?,
        (Kind::CutOff, Part::Pair(pair)) => cut_pair(refused, pair)?,
        (
            Kind::CutOff,
            Part::Set(goal) | Part::GroundAt(goal) | Part::Ticks(goal) | Part::Length(goal),
        ) => cut_fixed(refused, goal)?,
        (Kind::BadGoalSet, Part::Set(goal)) => too_high(refused, &refused.goal(goal), part),
        (Kind::BadGroundSet, Part::GroundAt(goal)) => bad_ground(refused, goal),
        (Kind::BadTicks, Part::Ticks(goal)) => {
            let (goal, ticks) = (refused.goal(goal), refused.value(part));
            format!("The ticks of {goal} are {ticks}; 1 to {TICK_LIMIT} is right.")
        }
        (Kind::BadGoalText, Part::Length(goal)) => {
            let length = count(refused.value(part) as usize, "byte");
            format!("The text of goal {goal} would have {length}; 1 to {GOAL_TEXT_LIMIT} is right.")
        }
        (Kind::BadGoalText, Part::Text(goal)) => bad_text_byte(refused, goal)?,
        (Kind::BadPair, Part::Pair(pair)) => bad_pair(refused, pair)?,
        (Kind::LeftOver, _) => left_over(refused),
        _ => return None,
    })
}

fn short_record(refused: &Refused) -> String {
    let length = refused.record.len();
    format!("The header alone has 24 bytes, so at least {} missing.", bytes_are(24 - length))
}

/// `1 byte is`, `2 bytes are`.
fn bytes_are(bytes: usize) -> String {
    format!("{} {}", count(bytes, "byte"), is_or_are(bytes))
}

fn bad_mark(refused: &Refused) -> String {
    let mark = refused.bytes(0..3);
    let hex: Vec<String> = mark.iter().map(|byte| format!("{byte:02x}")).collect();
    format!(
        "The record starts with {} (`{}`); 4c 46 4a, the letters LFJ, is right.",
        hex.join(" "),
        mark.escape_ascii()
    )
}

/// A set with variables that the clause does not have.
fn too_high(refused: &Refused, owner: &str, part: Part) -> String {
    let known = refused.record[6];
    let high = variables(refused.value(part)).filter(|variable| *variable >= known);
    let high: Vec<String> = high.map(|variable| format!("v{variable}")).collect();
    let high = first_few(&high, FEW);
    let highest = match known {
        0 => String::new(),
        _ => format!(", so that {} is the highest", refused.numbered(known - 1)),
    };
    let owner = capital(owner);
    format!("{owner} has {high}, but the variable count, byte{TIE}6, is {known}{highest}.")
}

fn ground_outside(refused: &Refused) -> String {
    let head = refused.value(Part::Head);
    let outside = refused.value(Part::Ground) & !head;
    format!(
        "The ground set has {}, which {} not in the head; only variables of the head can be \
         ground from the start. In the head: {}.",
        refused.variables(outside),
        refused.is(outside),
        refused.variables(head)
    )
}

fn cut_fixed(refused: &Refused, goal: u32) -> Option<String> {
    let (first, last) = (refused.field(Part::Set(goal))?, refused.field(Part::Length(goal))?);
    let parts = match refused.field(Part::GroundAt(goal)) {
        None => "variable set and length byte",
        Some(_) => "variable set, ground set, ticks and length byte",
    };
    Some(format!(
        "The fixed part of goal {goal} of {} ({parts}) is bytes {} to {}; {} missing.",
        refused.record[5],
        first.start,
        last.end - 1,
        bytes_are(last.end - refused.record.len())
    ))
}

fn cut_text(refused: &Refused, goal: u32) -> Option<String> {
    let (length, text) = (refused.field(Part::Length(goal))?, refused.field(Part::Text(goal))?);
    let there = refused.bytes(text.start..text.end);
    let shown = match there.is_empty() {
        true => "none of them is there".to_string(),
        false => format!("`{}` is there", there.escape_ascii()),
    };
    Some(format!(
        "The text of goal {goal} has {} by its length byte, byte {}; {shown}, and {} missing.",
        count(text.end - text.start, "byte"),
        length.start,
        bytes_are(text.end - refused.record.len())
    ))
}

fn cut_pair(refused: &Refused, pair: u32) -> Option<String> {
    let pairs = refused.record[7] as usize;
    let end = refused.field(Part::Pair(pair))?.end + 2 * (pairs - pair as usize);
    Some(format!(
        "The record has {} by its pair count, byte 7, two bytes each; it ends at pair {pair}, and \
         {} missing.",
        count(pairs, "pair"),
        bytes_are(end - refused.record.len())
    ))
}

fn bad_ground(refused: &Refused, goal: u32) -> String {
    let own = refused.value(Part::GroundAt(goal));
    let (before, whose) = match goal {
        1 => (refused.value(Part::Ground), "by the header".to_string()),
        _ => (refused.value(Part::GroundAt(goal - 1)), format!("at goal {}", goal - 1)),
    };
    let lacking = before & !own;
    if lacking != 0 {
        return format!(
            "The ground set of {} lacks {}, which {} ground {whose}; what is ground stays so.",
            refused.goal(goal),
            refused.variables(lacking),
            refused.is(lacking)
        );
    }
    let sets = (1..goal).map(|earlier| refused.value(Part::Set(earlier)));
    let outside = own & !sets.fold(refused.value(Part::Head), |met, set| met | set);
    format!(
        "The ground set of {} has {}, which {} in neither the head nor an earlier goal; each \
         variable that is ground there has to be in one of them.",
        refused.goal(goal),
        refused.variables(outside),
        refused.is(outside)
    )
}

fn bad_text_byte(refused: &Refused, goal: u32) -> Option<String> {
    let text = refused.field(Part::Text(goal))?;
    Some(format!(
        "The text of goal {goal} is `{}`; each byte of a text has to be 33 to 126, a sign that \
         can be seen and no space.",
        refused.bytes(text.start..text.end).escape_ascii()
    ))
}

fn bad_pair(refused: &Refused, pair: u32) -> Option<String> {
    let pair_of = |pair: u32| -> Option<(u8, u8)> {
        let start = refused.field(Part::Pair(pair))?.start;
        Some((*refused.record.get(start)?, *refused.record.get(start + 1)?))
    };
    let (first, second) = pair_of(pair)?;
    let known = refused.record[6];
    let [one, other] = [first, second].map(|number| match number < known {
        true => variable(refused.names, number),
        false => format!("v{number}"),
    });
    let fault = if first == second {
        "; a pair has two different variables.".to_string()
    } else if first > second {
        format!("; the lower number has to come first, {second} {first}.")
    } else if second >= known {
        format!(", but the variable count, byte{TIE}6, is {known}; both have to be below it.")
    } else {
        let (before, behind) = pair_of(pair - 1)?;
        format!(
            ", and the pair before it is {before} {behind}; pairs have to ascend, by the first \
             number, then by the second, and none comes twice."
        )
    };
    Some(format!("Pair {pair} is {first} {second}, {one} and {other}{fault}"))
}

fn left_over(refused: &Refused) -> String {
    let (goals, pairs) = (refused.record[5] as usize, refused.record[7] as usize);
    let length = refused.record.len();
    // Of a longer record no more is read.
    let at_least = if length < RECORD_INPUT { "" } else { "at least " };
    format!(
        "By the counts at bytes 5 and 7, {} and {}, the record ends before it; {at_least}{} too \
         many.",
        count(goals, "goal"),
        count(pairs, "pair"),
        bytes_are(length - refused.place)
    )
}

//! The record, versions 1 and 2, and the refusals 1 to 11, 18 and 19.

use crate::Refusal;
use crate::numbers::first_variables;

/// At most this many goals.
pub const GOAL_LIMIT: usize = 32;
pub const VARIABLE_LIMIT: usize = 64;
const HEADER: usize = 24;
/// The most bytes of a goal's text (02, 2); the least is 1.
pub const GOAL_TEXT_LIMIT: usize = 24;
/// The most ticks of a goal; the least is 1.
pub const TICK_LIMIT: u16 = 60_000;

/// What stands before the goals.
pub struct Header {
    /// Version 2: each goal has a ground set and ticks of its own.
    pub wide: bool,
    pub goals: usize,
    pub variables: usize,
    pub head: u64,
    pub ground: u64,
}

/// One goal, as it is met.
pub struct Goal {
    /// From 0.
    pub number: usize,
    pub set: u64,
    /// The variables known to be ground just left of the goal.
    pub ground: u64,
    pub ticks: u16,
    /// The place of its text, and the text's length.
    pub text: usize,
    pub length: usize,
}

#[inline(always)]
fn number_at(bytes: &[u8], place: usize) -> u64 {
    u64::from_be_bytes(bytes[place..place + 8].try_into().unwrap())
}

/// Is each of the `length` (at least 1) bytes before `end` a text byte, 33 to 126?
/// Eight at a time; the last eight may begin before the text, where nine bytes of the
/// goal always stand, and these are left out.
#[inline(always)]
fn text_is_good(bytes: &[u8], end: usize, length: usize) -> bool {
    const HIGH: u64 = 0x8080_8080_8080_8080;
    const ONE: u64 = 0x0101_0101_0101_0101;
    let bad = |word: u64| (word | word.wrapping_add(ONE) | !((word | HIGH) - 33 * ONE)) & HIGH;
    let word_at = |place: usize| u64::from_le_bytes(bytes[place..place + 8].try_into().unwrap());
    let mut left = length;
    let mut found = 0;
    let mut place = end - length;
    while left > 8 {
        found |= bad(word_at(place));
        place += 8;
        left -= 8;
    }
    // Shifted, so that a byte before the text cannot carry into it.
    let shift = 64 - 8 * left as u32;
    found |= bad(word_at(end - 8) >> shift) & (u64::MAX >> shift);
    found == 0
}

/// The goals of a record; gives the place behind the last one. In version 1, which is not
/// `WIDE`, a goal has the header's ground set and 1 tick.
#[inline(always)]
fn scan_goals<const WIDE: bool>(
    bytes: &[u8],
    header: &Header,
    goal: &mut impl FnMut(Goal),
) -> Result<usize, Refusal> {
    // The bytes of a goal before its text: the variable set, in version 2 the ground set and
    // the ticks, and the length byte.
    let fixed = if WIDE { 19 } else { 9 };
    let end = bytes.len();
    let outside = !first_variables(header.variables);
    let mut place = HEADER;
    // The ground set left of the goal before, and the variables of the head and earlier goals.
    let (mut ground, mut met, mut ticks) = (header.ground, header.head, 1);
    for number in 0..header.goals {
        if end - place < fixed {
            return Err(Refusal::at(7, end));
        }
        let set = number_at(bytes, place);
        if set & outside != 0 {
            return Err(Refusal::at(8, place));
        }
        if WIDE {
            let here = number_at(bytes, place + 8);
            if ground & !here | here & !met != 0 {
                return Err(Refusal::at(18, place + 8));
            }
            ticks = u16::from_be_bytes([bytes[place + 16], bytes[place + 17]]);
            if ticks.wrapping_sub(1) >= TICK_LIMIT {
                return Err(Refusal::at(19, place + 16));
            }
            ground = here;
            met |= set;
        }
        let text = place + fixed;
        let length = bytes[text - 1] as usize;
        if length == 0 || length > GOAL_TEXT_LIMIT {
            return Err(Refusal::at(9, text - 1));
        }
        place = text + length;
        if place > end {
            return Err(Refusal::at(7, end));
        }
        if !text_is_good(bytes, place, length) {
            let good = bytes[text..place].iter().take_while(|byte| (33..=126).contains(*byte));
            return Err(Refusal::at(9, text + good.count()));
        }
        goal(Goal { number, set, ground, ticks, text, length });
    }
    Ok(place)
}

/// Reads the record from left to right. Gives each goal and each pair (lower, higher) that is
/// met before a refusal.
#[inline(always)]
pub fn scan(
    bytes: &[u8],
    mut goal: impl FnMut(Goal),
    mut pair: impl FnMut(usize, usize),
) -> Result<Header, Refusal> {
    let end = bytes.len();
    if end < HEADER {
        return Err(Refusal::at(1, end));
    }
    if bytes[..3] != *b"LFJ" {
        return Err(Refusal::at(2, 0));
    }
    let wide = bytes[3..5] == [0, 2];
    if !wide && bytes[3..5] != [0, 1] {
        return Err(Refusal::at(3, 3));
    }
    let (goals, variables, pairs) = (bytes[5] as usize, bytes[6] as usize, bytes[7] as usize);
    if goals == 0 || goals > GOAL_LIMIT {
        return Err(Refusal::at(4, 5));
    }
    if variables > VARIABLE_LIMIT {
        return Err(Refusal::at(5, 6));
    }
    let (head, ground) = (number_at(bytes, 8), number_at(bytes, 16));
    if head & !first_variables(variables) != 0 {
        return Err(Refusal::at(6, 8));
    }
    if ground & !head != 0 {
        return Err(Refusal::at(6, 16));
    }
    let header = Header { wide, goals, variables, head, ground };
    let mut place = match wide {
        true => scan_goals::<true>(bytes, &header, &mut goal)?,
        false => scan_goals::<false>(bytes, &header, &mut goal)?,
    };
    let mut last = -1;
    for _ in 0..pairs {
        if end - place < 2 {
            return Err(Refusal::at(7, end));
        }
        let (lower, higher) = (bytes[place] as usize, bytes[place + 1] as usize);
        let both = (lower << 8 | higher) as i32;
        if lower >= higher || higher >= variables || both <= last {
            return Err(Refusal::at(10, place));
        }
        pair(lower, higher);
        last = both;
        place += 2;
    }
    if place < end {
        return Err(Refusal::at(11, place));
    }
    Ok(header)
}

/// A record's content.
pub struct Clause {
    pub goals: usize,
    pub head: u64,
    /// Each goal's variables.
    pub sets: [u64; GOAL_LIMIT],
    /// The ground set just left of each goal.
    pub grounds: [u64; GOAL_LIMIT],
    /// For each variable those that a listed pair joins it to. Not itself.
    pub listed: [u64; VARIABLE_LIMIT],
}

impl Clause {
    #[inline(always)]
    pub fn read(bytes: &[u8]) -> Result<Clause, Refusal> {
        Clause::read_each(bytes, |_| ())
    }

    /// The same; gives each goal that is met before a refusal.
    #[inline(always)]
    pub fn read_each(bytes: &[u8], mut each: impl FnMut(&Goal)) -> Result<Clause, Refusal> {
        let mut sets = [0; GOAL_LIMIT];
        let mut grounds = [0; GOAL_LIMIT];
        let mut listed = [0; VARIABLE_LIMIT];
        let header = scan(
            bytes,
            |goal| {
                each(&goal);
                sets[goal.number & 31] = goal.set;
                grounds[goal.number & 31] = goal.ground;
            },
            |lower, higher| {
                listed[lower & 63] |= 1 << (higher & 63);
                listed[higher & 63] |= 1 << (lower & 63);
            },
        )?;
        let Header { goals, head, .. } = header;
        Ok(Clause { goals, head, sets, grounds, listed })
    }
}

//! From an order to its house form, or to the first four goals that show there is none.
//!
//! The order goes from lower to higher numbers, and this makes a split cheap. Let an order
//! on a set of goals have a form, and x be the lowest goal of the set.
//!
//! - Set is a group: x's member is {x}, or a sequence whose last part holds the highest
//!   goal h after x. The goals of its other parts are all before h, and no goal of another
//!   member is. So the member is what is after x and what is before h.
//! - Set is a sequence: its first part is {x} if x is before all others. Else it is a
//!   group, its other members are among the goals that are not after x, and a goal is past
//!   this first part exactly if it is after x and after all of these.
//!
//! An order without a form is found out at the goals: there the expression's own order is
//! known, and the two rows are compared. Nothing else has to be tested.

use crate::Refusal;
use crate::numbers::{DIGITS, digits, first_goals};
use crate::order::Order;

/// The longest house form of 32 goals, in bytes.
pub const FORM_LIMIT: usize = 146;

/// Where an expression goes, part by part: a text, or only a count.
trait Sink {
    fn goal(&mut self, goal: usize);
    fn sign(&mut self, sign: u8);
    fn parenthesis(&mut self, sign: u8);
}

struct Text {
    bytes: [u8; 160],
    length: usize,
}

impl Sink for Text {
    #[inline(always)]
    fn goal(&mut self, goal: usize) {
        if let Some(place) = self.bytes.get_mut(self.length..self.length + 2) {
            place.copy_from_slice(&DIGITS[(goal & 31) + 1]);
        }
        self.length += digits(goal + 1);
    }

    #[inline(always)]
    fn sign(&mut self, sign: u8) {
        if let Some(place) = self.bytes.get_mut(self.length) {
            *place = sign;
        }
        self.length += 1;
    }

    #[inline(always)]
    fn parenthesis(&mut self, sign: u8) {
        self.sign(sign);
    }
}

/// Parentheses are all that two house forms of n goals differ in by length.
struct Parentheses(usize);

impl Sink for Parentheses {
    #[inline(always)]
    fn goal(&mut self, _: usize) {}

    #[inline(always)]
    fn sign(&mut self, _: u8) {}

    #[inline(always)]
    fn parenthesis(&mut self, _: u8) {
        self.0 += 1;
    }
}

struct NoForm;

struct Splitter<'a, S> {
    after: &'a [u32; 32],
    sink: S,
}

#[inline(always)]
fn lowest(set: u32) -> usize {
    set.trailing_zeros() as usize & 31
}

impl<S: Sink> Splitter<'_, S> {
    /// The member of the lowest goal, in a group of the goals of `set`.
    #[inline(always)]
    fn member(&self, set: u32) -> u32 {
        let first = lowest(set);
        let later = self.after[first] & set;
        if later == 0 {
            return 1 << first;
        }
        let last = 31 - later.leading_zeros();
        let mut member = later | 1 << first;
        let mut left = set & !member & ((1 << last) - 1);
        while left != 0 {
            let goal = lowest(left);
            member |= (self.after[goal] >> last & 1) << goal;
            left &= left - 1;
        }
        member
    }

    /// A goal for which the expression has the goals `later` after it.
    #[inline(always)]
    fn goal(&mut self, goal: usize, later: u32) -> Result<(), NoForm> {
        self.sink.goal(goal);
        if self.after[goal] == later { Ok(()) } else { Err(NoForm) }
    }

    /// Two or more members, `first` being the first.
    fn group(&mut self, set: u32, first: u32, later: u32) -> Result<(), NoForm> {
        let mut left = set;
        let mut member = first;
        loop {
            if member & (member - 1) == 0 {
                self.goal(lowest(member), later)?;
            } else {
                self.sink.parenthesis(b'(');
                self.sequence(member, later)?;
                self.sink.parenthesis(b')');
            }
            left &= !member;
            if left == 0 {
                return Ok(());
            }
            self.sink.sign(b'&');
            member = self.member(left);
        }
    }

    /// Two or more goals that have to be a sequence.
    fn sequence(&mut self, set: u32, later: u32) -> Result<(), NoForm> {
        let mut left = set;
        loop {
            let first = lowest(left);
            let aside = left & !self.after[first] & !(1 << first);
            if aside == 0 {
                left &= left - 1;
                self.goal(first, later | left)?;
            } else {
                let mut past = left & self.after[first];
                let mut others = aside;
                while others != 0 {
                    past &= self.after[lowest(others)];
                    others &= others - 1;
                }
                let part = left & !past;
                let member = self.member(part);
                if part == set || member == part {
                    return Err(NoForm);
                }
                left = past;
                self.sink.parenthesis(b'(');
                self.group(part, member, later | left)?;
                self.sink.parenthesis(b')');
            }
            if left == 0 {
                return Ok(());
            }
            self.sink.sign(b',');
        }
    }

    #[inline(always)]
    fn whole(&mut self, goals: usize) -> Result<(), NoForm> {
        if goals == 1 {
            return self.goal(0, 0);
        }
        let set = first_goals(goals);
        let member = self.member(set);
        if member == set { self.sequence(set, 0) } else { self.group(set, member, 0) }
    }
}

/// 13 with the first goals a, b, c, d, by a, then b, c, d, such that a is before c, b before
/// c, b before d and no other order is among them.
///
/// With a and b unordered, c is after both; d is after b, not after a, and not before c.
/// The rest follows, since the order is closed.
#[cold]
fn refuse(order: &Order) -> Refusal {
    let after = &order.rows;
    let leading = (0..order.goals).fold(0, |set, goal| set | u32::from(after[goal] != 0) << goal);
    for a in 0..order.goals {
        if after[a] == 0 {
            continue;
        }
        let mut candidates = leading & !after[a] & !(1 << a);
        while candidates != 0 {
            let b = lowest(candidates);
            candidates &= candidates - 1;
            let (both, only) = (after[a] & after[b], after[b] & !after[a]);
            if both == 0 || only == 0 || after[b] >> a & 1 == 1 {
                continue;
            }
            // What is after every candidate for d can be no c.
            let mut after_all = both;
            let mut left = only;
            while left != 0 && after_all != 0 {
                after_all &= after[lowest(left)];
                left &= left - 1;
            }
            if both == after_all {
                continue;
            }
            let c = lowest(both & !after_all);
            let d = (0..order.goals).find(|d| only >> d & 1 == 1 && after[*d] >> c & 1 == 0);
            let goals = [a, b, c, d.unwrap_or(0)].map(|goal| goal as u8 + 1);
            return Refusal { number: 13, place: 0, goals };
        }
    }
    unreachable!("an order without these four goals has a form")
}

#[inline(always)]
pub fn write(order: &Order, out: &mut [u8]) -> Result<u32, Refusal> {
    let sink = Text { bytes: [0; 160], length: 0 };
    let mut splitter = Splitter { after: &order.rows, sink };
    if splitter.whole(order.goals).is_err() {
        return Err(refuse(order));
    }
    let Text { bytes, length } = splitter.sink;
    if out.len() < length {
        return Err(Refusal::at(12, length));
    }
    out[..length].copy_from_slice(&bytes[..length]);
    Ok(length as u32)
}

#[inline(always)]
pub fn length(order: &Order) -> Result<u32, Refusal> {
    let mut splitter = Splitter { after: &order.rows, sink: Parentheses(0) };
    if splitter.whole(order.goals).is_err() {
        return Err(refuse(order));
    }
    let goals = order.goals;
    let signs = goals - 1 + goals + goals.saturating_sub(9);
    Ok((signs + splitter.sink.0) as u32)
}

//! Clauses taken apart: what a record says, and records put together.

use crate::{Refusal, variable_set, variables};
use std::fmt;

/// A goal of a clause.
#[derive(Clone, PartialEq, Eq, Hash, Debug)]
pub struct Goal {
    /// 1 to 24 bytes, each 33 to 126.
    pub text: String,
    /// Its variables, variable x at bit x.
    pub variables: u64,
    /// The variables known ground just left of it. In version 1 those of the header.
    pub ground: u64,
    /// How long it takes, 1 to 60000. In version 1 it is 1.
    pub ticks: u16,
}

/// What a record says. The methods put one together; every field may also be set by hand, right
/// or wrong. Variables are numbered from 0; a method that is given one above 63 panics, since no
/// set can hold it.
///
/// ```
/// use lfj::Clause;
///
/// let clause = Clause::new(3)
///     .head([0, 1])
///     .goal("half", [0])
///     .goal("edge", [1, 2])
///     .goal("join", [0, 2])
///     .independent(0, 1)
///     .independent(2, 0);
/// let record = clause.record()?;
/// assert_eq!(record.len(), 67);
/// assert_eq!(lfj::form_text(&record)?, "(1&2),3");
/// assert_eq!(Clause::of(&record)?, clause);
/// # Ok::<(), lfj::ClauseError>(())
/// ```
///
/// A goal with facts of its own makes a record of version 2:
///
/// ```
/// use lfj::Clause;
///
/// // Three goals over v0, which is ground from goal 2 on.
/// let record = Clause::new(1)
///     .head([0])
///     .goal_with_facts("measure", [0], [], 12)
///     .goal_with_facts("left", [0], [0], 300)
///     .goal("right", [0])
///     .record()?;
/// assert_eq!(lfj::form_text(&record)?, "1,(2&3)");
/// # Ok::<(), lfj::ClauseError>(())
/// ```
#[derive(Clone, PartialEq, Eq, Hash, Debug)]
pub struct Clause {
    /// 1, or 2 for facts at each goal.
    pub version: u16,
    /// The variable count, 0 to 64.
    pub variables: u8,
    /// The variables of the clause head.
    pub head: u64,
    /// The variables known ground before the first goal.
    pub ground: u64,
    pub goals: Vec<Goal>,
    /// Variables known independent, lower then higher, ascending.
    pub independent: Vec<(u8, u8)>,
}

impl Clause {
    /// A clause of version 1 without goals over so many variables.
    pub fn new(variables: u8) -> Clause {
        let (goals, independent) = (Vec::new(), Vec::new());
        Clause { version: 1, variables, head: 0, ground: 0, goals, independent }
    }

    /// Chooses the record's version: with 2 each goal has its ground set and ticks in it.
    pub fn version(mut self, version: u16) -> Clause {
        self.version = version;
        self
    }

    /// Adds variables to the head.
    pub fn head(mut self, variables: impl IntoIterator<Item = u8>) -> Clause {
        self.head |= variable_set(variables);
        self
    }

    /// Adds variables that are ground before the first goal, and so at every goal.
    pub fn ground(mut self, variables: impl IntoIterator<Item = u8>) -> Clause {
        let set = variable_set(variables);
        self.ground |= set;
        self.goals.iter_mut().for_each(|goal| goal.ground |= set);
        self
    }

    /// Adds a goal. Nothing more is ground at it than at the goal before; it takes 1 tick.
    pub fn goal(mut self, text: &str, variables: impl IntoIterator<Item = u8>) -> Clause {
        let ground = self.goals.last().map_or(self.ground, |goal| goal.ground);
        let variables = variable_set(variables);
        self.goals.push(Goal { text: text.to_string(), variables, ground, ticks: 1 });
        self
    }

    /// Adds a goal with all variables that are ground just left of it and with its ticks; the
    /// record is of version 2.
    pub fn goal_with_facts(
        mut self,
        text: &str,
        variables: impl IntoIterator<Item = u8>,
        ground: impl IntoIterator<Item = u8>,
        ticks: u16,
    ) -> Clause {
        let (variables, ground) = (variable_set(variables), variable_set(ground));
        self.goals.push(Goal { text: text.to_string(), variables, ground, ticks });
        self.version(2)
    }

    /// Says that two variables are independent, in either order. What is said already stays said
    /// once.
    pub fn independent(mut self, one: u8, other: u8) -> Clause {
        let pair = (one.min(other), one.max(other));
        if let Err(at) = self.independent.binary_search(&pair) {
            self.independent.insert(at, pair);
        }
        self
    }

    /// The clause's bytes as they are described, right or wrong. In version 1 what its goals say
    /// of ground variables and ticks has no place.
    ///
    /// An error only for a count or a length that does not fit its byte.
    pub fn bytes(&self) -> Result<Vec<u8>, ClauseError> {
        let mut bytes = b"LFJ".to_vec();
        bytes.extend(self.version.to_be_bytes());
        bytes.push(count("goals", self.goals.len())?);
        bytes.push(self.variables);
        bytes.push(count("independent pairs", self.independent.len())?);
        bytes.extend(self.head.to_be_bytes());
        bytes.extend(self.ground.to_be_bytes());
        for goal in &self.goals {
            bytes.extend(goal.variables.to_be_bytes());
            if self.version == 2 {
                bytes.extend(goal.ground.to_be_bytes());
                bytes.extend(goal.ticks.to_be_bytes());
            }
            bytes.push(count("bytes of a goal's text", goal.text.len())?);
            bytes.extend(goal.text.bytes());
        }
        bytes.extend(self.independent.iter().flat_map(|(lower, higher)| [lower, higher]));
        Ok(bytes)
    }

    /// The clause's record, which reading accepts.
    pub fn record(&self) -> Result<Vec<u8>, ClauseError> {
        let bytes = self.bytes()?;
        match crate::read(&bytes) {
            Ok(_) => Ok(bytes),
            Err(refusal) => Err(ClauseError::Refused(refusal)),
        }
    }

    /// What an accepted record says.
    pub fn of(record: &[u8]) -> Result<Clause, Refusal> {
        let facts = crate::facts(record)?;
        let mut clause = Clause {
            version: u16::from_be_bytes([record[3], record[4]]),
            head: facts.head,
            ground: record[16..24].iter().fold(0, |set, byte| set << 8 | *byte as u64),
            ..Clause::new(facts.variables as u8)
        };
        for (goal, number) in (0..facts.goals as usize).zip(1..) {
            let text = crate::goal_text(record, number)?;
            clause.goals.push(Goal {
                text: text.iter().map(|byte| *byte as char).collect(),
                variables: facts.sets[goal],
                ground: facts.ground[goal],
                ticks: facts.ticks[goal] as u16,
            });
        }
        for (lower, listed) in (0..).zip(facts.listed) {
            let higher = variables(listed).filter(|higher| *higher > lower);
            clause.independent.extend(higher.map(|higher| (lower, higher)));
        }
        Ok(clause)
    }
}

/// A count as a byte.
fn count(what: &'static str, count: usize) -> Result<u8, ClauseError> {
    u8::try_from(count).map_err(|_| ClauseError::Count { what, count })
}

/// A clause that has no record.
#[derive(Clone, PartialEq, Eq, Hash)]
pub enum ClauseError {
    /// So many of them that the count does not fit its byte.
    Count { what: &'static str, count: usize },
    /// Its bytes are refused.
    Refused(Refusal),
}

impl From<Refusal> for ClauseError {
    fn from(refusal: Refusal) -> ClauseError {
        ClauseError::Refused(refusal)
    }
}

impl fmt::Display for ClauseError {
    fn fmt(&self, f: &mut fmt::Formatter<'_>) -> fmt::Result {
        match self {
            ClauseError::Count { what, count } => {
                write!(f, "a record cannot hold {count} {what}, 255 is the most that a byte counts")
            }
            ClauseError::Refused(refusal) => fmt::Display::fmt(refusal, f),
        }
    }
}

impl fmt::Debug for ClauseError {
    fn fmt(&self, f: &mut fmt::Formatter<'_>) -> fmt::Result {
        fmt::Display::fmt(self, f)
    }
}

impl std::error::Error for ClauseError {}

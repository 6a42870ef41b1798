//! Fork-join expressions as trees.

use std::fmt::{self, Write};
use std::str::FromStr;

/// The longest text of an expression that is read, in bytes.
pub const TEXT_LIMIT: usize = 512;

/// So many parentheses may be open at a time.
const OPEN_LIMIT: usize = 32;

/// A fork-join expression. A sequence and a parallel group have two members or more.
///
/// It is read from text by the grammar of the check: `,` joins a sequence, `&` a group and binds
/// more closely; spare parentheses leave no trace. `Display` writes the fewest parentheses that
/// give this tree again, `{:#}` one pair around each inner part, as in house form.
///
/// ```
/// use lfj::Expr::{self, Goal, Parallel, Sequence};
///
/// let expr: Expr = "((1)&2),3".parse()?;
/// assert_eq!(expr, Sequence(vec![Parallel(vec![Goal(1), Goal(2)]), Goal(3)]));
/// assert_eq!(expr.to_string(), "1&2,3");
/// assert_eq!(format!("{expr:#}"), "(1&2),3");
/// assert_eq!(expr.goals(), [1, 2, 3]);
///
/// let error = "1,,2".parse::<Expr>().unwrap_err();
/// assert_eq!(error.place, 2);
/// assert_eq!(error.to_string(), "byte 2 of the expression: here belongs a goal, 1 to 99, or `(`");
/// # Ok::<(), lfj::ExprError>(())
/// ```
#[derive(Clone, PartialEq, Eq, Hash, Debug)]
pub enum Expr {
    /// A goal's number.
    Goal(u32),
    /// One member after the other.
    Sequence(Vec<Expr>),
    /// Members side by side.
    Parallel(Vec<Expr>),
}

/// A text that is no expression.
#[derive(Clone, PartialEq, Eq)]
pub struct ExprError {
    /// The first byte with which no expression goes on, or the text's length if it stops early;
    /// 0 for a text that is empty or too long.
    pub place: usize,
    words: String,
}

impl fmt::Display for ExprError {
    fn fmt(&self, f: &mut fmt::Formatter<'_>) -> fmt::Result {
        f.write_str(&self.words)
    }
}

impl fmt::Debug for ExprError {
    fn fmt(&self, f: &mut fmt::Formatter<'_>) -> fmt::Result {
        fmt::Display::fmt(self, f)
    }
}

impl std::error::Error for ExprError {}

impl FromStr for Expr {
    type Err = ExprError;

    fn from_str(text: &str) -> Result<Expr, ExprError> {
        let length = text.len();
        if length == 0 || length > TEXT_LIMIT {
            let words = format!("the expression has {length} bytes; 1 to {TEXT_LIMIT} are read");
            return Err(ExprError { place: 0, words });
        }
        let mut reader = Reader { text: text.as_bytes(), at: 0, open: 0 };
        let expr = reader.sequence()?;
        match reader.at == length {
            true => Ok(expr),
            false => Err(reader.error("here belongs `,`, `&` or the end")),
        }
    }
}

struct Reader<'a> {
    text: &'a [u8],
    at: usize,
    /// Parentheses that are open.
    open: usize,
}

impl Reader<'_> {
    fn error(&self, words: &str) -> ExprError {
        let place = self.at;
        let stops = if place == self.text.len() { ", where it stops" } else { "" };
        ExprError { place, words: format!("byte {place} of the expression{stops}: {words}") }
    }

    /// Goes past the byte if it comes next.
    fn passes(&mut self, byte: u8) -> bool {
        let comes = self.text.get(self.at) == Some(&byte);
        self.at += comes as usize;
        comes
    }

    fn digit(&mut self, least: u8) -> Option<u32> {
        let byte = *self.text.get(self.at)?;
        (least..=b'9').contains(&byte).then(|| {
            self.at += 1;
            (byte - b'0') as u32
        })
    }

    fn sequence(&mut self) -> Result<Expr, ExprError> {
        let mut members = vec![self.group()?];
        while self.passes(b',') {
            members.push(self.group()?);
        }
        Ok(part(members, Expr::Sequence))
    }

    fn group(&mut self) -> Result<Expr, ExprError> {
        let mut members = vec![self.primary()?];
        while self.passes(b'&') {
            members.push(self.primary()?);
        }
        Ok(part(members, Expr::Parallel))
    }

    fn primary(&mut self) -> Result<Expr, ExprError> {
        if let Some(first) = self.digit(b'1') {
            return Ok(Expr::Goal(self.digit(b'0').map_or(first, |second| 10 * first + second)));
        }
        if self.open == OPEN_LIMIT && self.text.get(self.at) == Some(&b'(') {
            return Err(self.error("32 parentheses are open already, and that is the most"));
        }
        if !self.passes(b'(') {
            return Err(self.error("here belongs a goal, 1 to 99, or `(`"));
        }
        self.open += 1;
        let inner = self.sequence()?;
        if !self.passes(b')') {
            return Err(self.error("here belongs `,`, `&` or `)`"));
        }
        self.open -= 1;
        Ok(inner)
    }
}

/// A part of these members; a part of one member is the member itself.
fn part(mut members: Vec<Expr>, kind: fn(Vec<Expr>) -> Expr) -> Expr {
    match members.len() {
        1 => members.remove(0),
        _ => kind(members),
    }
}

impl Expr {
    /// The goals, left to right.
    pub fn goals(&self) -> Vec<u32> {
        match self {
            Expr::Goal(goal) => vec![*goal],
            Expr::Sequence(members) | Expr::Parallel(members) => {
                members.iter().flat_map(Expr::goals).collect()
            }
        }
    }

    /// Writes the members with a sign between them, and parentheses around those that need them.
    fn join(&self, f: &mut fmt::Formatter<'_>, members: &[Expr], sign: char) -> fmt::Result {
        for (at, member) in members.iter().enumerate() {
            if at > 0 {
                f.write_char(sign)?;
            }
            let bare = match (self, member) {
                (_, Expr::Goal(_)) => true,
                (Expr::Sequence(_), Expr::Parallel(_)) => !f.alternate(),
                _ => false,
            };
            if bare {
                fmt::Display::fmt(member, f)?;
            } else {
                f.write_char('(')?;
                fmt::Display::fmt(member, f)?;
                f.write_char(')')?;
            }
        }
        Ok(())
    }
}

impl fmt::Display for Expr {
    fn fmt(&self, f: &mut fmt::Formatter<'_>) -> fmt::Result {
        match self {
            Expr::Goal(goal) => write!(f, "{goal}"),
            Expr::Sequence(members) => self.join(f, members, ','),
            Expr::Parallel(members) => self.join(f, members, '&'),
        }
    }
}

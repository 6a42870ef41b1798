//! Why a command ends otherwise than well, and its exit status.

use crate::describe::Fault;

/// What a command could not do, in words for standard error.
#[derive(Debug)]
pub enum Failure {
    /// The record is refused, or the description has faults. Status 1.
    Refused(String),
    /// A file that cannot be read or written. Status 2.
    File(String),
    /// Words that are no command. Status 2.
    Usage(String),
}

impl Failure {
    /// The faults of a file, each with its line.
    pub fn refused(file: &str, faults: &[Fault]) -> Failure {
        let lines = faults.iter().map(|(line, words)| format!("{file}, line {line}: {words}"));
        Failure::Refused(lines.collect::<Vec<_>>().join("\n"))
    }

    pub fn status(&self) -> u8 {
        match self {
            Failure::Refused(_) => 1,
            Failure::File(_) | Failure::Usage(_) => 2,
        }
    }

    pub fn words(&self) -> &str {
        match self {
            Failure::Refused(words) | Failure::File(words) | Failure::Usage(words) => words,
        }
    }
}

//! Records from a description in plain text, and back. `samples/README.md` explains the lines.

mod facts;
mod names;
mod reader;
mod writer;

pub use reader::read;
pub use writer::write;

/// What is wrong with a description: line number, from 1, and words.
pub type Fault = (usize, String);

/// A description that was read.
#[derive(Debug)]
pub struct Described {
    /// The variables' names, by number.
    pub names: Vec<String>,
    pub record: Vec<u8>,
}

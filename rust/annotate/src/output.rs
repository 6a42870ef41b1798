//! Writing what a command has to say. Every write error is an error.

use crate::failure::Failure;
use std::io::{self, ErrorKind, Write};

/// Writes to standard output, all of it. Where nobody reads any more there is nothing to say.
pub fn print(bytes: &[u8]) -> Result<(), Failure> {
    let mut out = io::stdout().lock();
    match out.write_all(bytes).and_then(|()| out.flush()) {
        Err(error) if error.kind() == ErrorKind::BrokenPipe => Ok(()),
        Err(error) => Err(Failure::File(format!("standard output: {error}"))),
        Ok(()) => Ok(()),
    }
}

/// Writes to a file, or to standard output if it is not named or `-`.
pub fn write(file: Option<&str>, bytes: &[u8]) -> Result<(), Failure> {
    match file {
        None | Some("-") => print(bytes),
        Some(file) => {
            std::fs::write(file, bytes).map_err(|error| Failure::File(format!("{file}: {error}")))
        }
    }
}

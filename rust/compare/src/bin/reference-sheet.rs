//! The sheet by the hand-written annotator, for the samples: a record from standard input, the
//! sheet to standard output.

use compare::about;
use compare::cases::Reference;
use std::io::{Read, Write, stdin, stdout};
use std::process::ExitCode;

const HELP: &str = "\
usage: reference-sheet <RECORD
Prints the sheet of a record by the hand-written annotator.
";

fn run() -> std::io::Result<()> {
    let mut record = Vec::new();
    stdin().lock().take(compare::INPUT_LIMIT as u64).read_to_end(&mut record)?;
    let mut out = stdout().lock();
    out.write_all(&compare::sheet(&Reference, &record))?;
    out.flush()
}

fn main() -> ExitCode {
    if !about::words("reference-sheet", HELP).is_empty() {
        eprint!("{HELP}");
        return ExitCode::from(2);
    }
    match run() {
        Ok(()) => ExitCode::SUCCESS,
        Err(error) => {
            eprintln!("reference-sheet: {error}");
            ExitCode::from(2)
        }
    }
}

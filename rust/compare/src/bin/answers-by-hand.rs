//! Answers the kit's questions by the hand-written annotator, without the proved library: one
//! line `OPERATION K INPUT..` in, one answer out.

use compare::cases::Reference;
use std::process::ExitCode;

fn main() -> ExitCode {
    compare::serve::serve("answers-by-hand", &Reference)
}

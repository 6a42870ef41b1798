//! Answers the kit's questions by the proved library: one line `OPERATION K INPUT..` in, one
//! answer out.

use compare::proved::Proved;
use std::process::ExitCode;

fn main() -> ExitCode {
    compare::serve::serve("answers", &Proved)
}

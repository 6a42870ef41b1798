//! The program `annotate`; `help/` has what it does.
#![forbid(unsafe_code)]

use annotate::failure::Failure;
use std::ffi::OsString;
use std::io::Write;
use std::process::ExitCode;

fn words() -> Result<Vec<String>, Failure> {
    let plain = |word: OsString| {
        word.into_string()
            .map_err(|word| Failure::Usage(format!("annotate: {word:?} is not UTF-8")))
    };
    std::env::args_os().skip(1).map(plain).collect()
}

fn main() -> ExitCode {
    match words().and_then(|words| annotate::run(&words)) {
        Ok(status) => ExitCode::from(status),
        Err(failure) => {
            // Where standard error cannot be written, the status is all that is left to say it.
            let _ = writeln!(std::io::stderr(), "{}", failure.words());
            ExitCode::from(failure.status())
        }
    }
}

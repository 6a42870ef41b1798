//! A program that answers the kit's questions: one line `OPERATION K INPUT..` in, one answer out.

use crate::about;
use crate::cases::{Annotator, LANDED, answer, hex, unhex};
use std::io::{self, BufRead, Read, Write};
use std::process::{Command, ExitCode, Stdio};
use std::thread;

/// What the program prints for this standard input, and how many bytes of it are left unread.
fn printed(program: &str, input: &[u8]) -> io::Result<(Vec<u8>, usize)> {
    let (mut reader, mut writer) = io::pipe()?;
    let child = Command::new(program).stdin(reader.try_clone()?).stdout(Stdio::piped()).spawn()?;
    thread::scope(|scope| {
        let feeder = scope.spawn(move || writer.write_all(input));
        let output = child.wait_with_output()?;
        let mut rest = Vec::new();
        reader.read_to_end(&mut rest)?;
        feeder.join().expect("it only writes")?;
        if !output.status.success() {
            return Err(io::Error::other(output.status.to_string()));
        }
        Ok((output.stdout, rest.len()))
    })
}

/// The answer of a program that prints the sheet, if the question is about one.
fn program_answer(program: &str, question: &str) -> Option<Result<String, String>> {
    let sheet = question.strip_prefix(&format!("sheet {LANDED} "));
    let unread = question.strip_prefix(&format!("unread {LANDED} "));
    let input = unhex(sheet.or(unread)?);
    Some(input.and_then(|input| {
        let (text, rest) = printed(program, &input).map_err(|e| format!("{program}: {e}"))?;
        Ok(if sheet.is_some() { format!("ok {}", hex(&text)) } else { format!("ok {rest}") })
    }))
}

const HELP: &str = "\
Answers the questions of standard input, one a line, in the kit's format (kit/README.md).
The questions `sheet` and `unread` go to PROGRAM, if it is given; else the sheet is put together
from the other operations' answers.
";

/// Answers the questions of standard input, as `HELP` says.
pub fn serve(name: &str, annotator: &impl Annotator) -> ExitCode {
    let usage = format!("usage: {name} [--sheet PROGRAM] < QUESTIONS\n");
    let words = about::words(name, &format!("{usage}{HELP}"));
    let program = match &words[..] {
        [] => None,
        [option, program] if option == "--sheet" => Some(program),
        _ => {
            eprint!("{usage}");
            return ExitCode::from(2);
        }
    };
    let mut out = io::stdout().lock();
    for question in io::stdin().lock().lines() {
        let given = question.map_err(|e| e.to_string()).and_then(|question| {
            let of_program = program.and_then(|program| program_answer(program, &question));
            of_program.unwrap_or_else(|| answer(annotator, &question))
        });
        let line = given.unwrap_or_else(|error| format!("error {error}"));
        if let Err(error) = writeln!(out, "{line}") {
            eprintln!("{name}: standard output: {error}");
            return ExitCode::FAILURE;
        }
    }
    ExitCode::SUCCESS
}

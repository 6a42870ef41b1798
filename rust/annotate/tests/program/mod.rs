//! Running the built program.
#![allow(dead_code)] // Each test file uses some of it.

use std::io::Write;
use std::path::{Path, PathBuf};
use std::process::{Command, Output, Stdio};

/// How a run of the program ended.
#[derive(Debug, PartialEq)]
pub struct Answer {
    pub status: i32,
    pub out: Vec<u8>,
    pub err: String,
}

impl Answer {
    pub fn of(output: Output) -> Answer {
        let err = String::from_utf8(output.stderr).unwrap();
        Answer { status: output.status.code().unwrap_or(-1), out: output.stdout, err }
    }

    pub fn text(&self) -> &str {
        std::str::from_utf8(&self.out).unwrap()
    }
}

pub fn command(words: &[&str]) -> Command {
    let mut command = Command::new(env!("CARGO_BIN_EXE_annotate"));
    command.args(words).stdin(Stdio::null());
    command
}

/// The program with these words.
pub fn annotate(words: &[&str]) -> Answer {
    Answer::of(command(words).output().unwrap())
}

/// The same with this standard input.
pub fn stdin(words: &[&str], input: &[u8]) -> Answer {
    let mut command = command(words);
    command.stdin(Stdio::piped()).stdout(Stdio::piped()).stderr(Stdio::piped());
    let mut child = command.spawn().unwrap();
    child.stdin.take().unwrap().write_all(input).unwrap();
    Answer::of(child.wait_with_output().unwrap())
}

pub fn samples() -> PathBuf {
    Path::new(env!("CARGO_MANIFEST_DIR")).join("../../samples")
}

/// The samples' names.
pub fn names() -> Vec<String> {
    let files = std::fs::read_dir(samples()).unwrap().map(|file| file.unwrap().path());
    let texts = files.filter(|path| path.extension().is_some_and(|end| end == "txt"));
    let mut names: Vec<String> =
        texts.map(|path| path.file_stem().unwrap().to_string_lossy().into_owned()).collect();
    names.sort();
    names
}

//! Every program here says what it does and its version, and fails where it cannot write that.

use std::fs::File;
use std::process::{Command, Stdio};

fn programs() -> Vec<&'static str> {
    let mut all = vec![
        env!("CARGO_BIN_EXE_answers-by-hand"),
        env!("CARGO_BIN_EXE_kit-cases"),
        env!("CARGO_BIN_EXE_reference-sheet"),
    ];
    if cfg!(feature = "proved") {
        all.extend(
            [
                option_env!("CARGO_BIN_EXE_answers"),
                option_env!("CARGO_BIN_EXE_differences"),
                option_env!("CARGO_BIN_EXE_speed"),
                option_env!("CARGO_BIN_EXE_stack"),
            ]
            .map(|program| program.expect("it is built with the feature")),
        );
    }
    all
}

#[test]
fn help_and_version() {
    for program in programs() {
        let name = program.rsplit('/').next().unwrap();
        for (word, start) in [
            ("--help", format!("usage: {name}")),
            ("--version", format!("{name} {}\n", env!("CARGO_PKG_VERSION"))),
        ] {
            let mut command = Command::new(program);
            command.arg(word).stdin(Stdio::null());
            let answer = command.output().unwrap();
            assert!(answer.status.success() && answer.stderr.is_empty(), "{name} {word}");
            assert!(answer.stdout.starts_with(start.as_bytes()), "{name} {word}");
            command.stdout(File::create("/dev/full").unwrap()).stderr(Stdio::null());
            assert_eq!(command.status().unwrap().code(), Some(2), "{name} {word} >/dev/full");
        }
    }
}

//! The words of the program: help, wrong usage, files that cannot be read or written; and that
//! `rust/annotate.sh` answers the same before anything is built.

mod program;

use program::{Answer, annotate, command, samples, stdin};
use std::fs::{self, File};
use std::io::Write;
use std::path::Path;
use std::process::{Command, Stdio};

const WRONG: [&[&str]; 20] = [
    &[],
    &["paint"],
    &["--paint"],
    &["sheet"],
    &["sheet", "a", "b"],
    &["sheet", "--hex", "a"],
    &["record", "--names", "a"],
    &["explain", "--text", "a"],
    &["draw", "a", "-o"],
    &["draw", "a", "-o", ""],
    &["draw", "-o", "a"],
    &["draw", "-x", "--help"],
    &["show", "a", "-", "b"],
    &["draw", "--heads", "2", "a"],
    &["dispatch", "--heads", "2"],
    &["dispatch", "a", "--heads"],
    &["dispatch", "a", "--heads", "0"],
    &["dispatch", "--heads", "9", "a"],
    &["dispatch", "--heads", "+2", "a"],
    &["dispatch", "--heads", "", "a"],
];

const HELP: [&[&str]; 14] = [
    &["--help"],
    &["-h", "sheet"],
    &["--version"],
    &["sheet", "--help"],
    &["explain", "a", "-h"],
    &["draw", "--text", "--help"],
    &["draw", "-o", "a", "--help"],
    &["record", "a", "--help"],
    &["show", "--help"],
    &["sheet", "--version"],
    &["draw", "-o", "a", "--version"],
    &["show", "a", "--version"],
    &["dispatch", "--heads", "3", "--help"],
    &["dispatch", "--version"],
];

#[test]
fn wrong_words() {
    for words in WRONG {
        let answer = annotate(words);
        assert_eq!((answer.status, answer.out.len()), (2, 0), "{words:?}");
        assert!(answer.err.starts_with("annotate"), "{words:?}: {}", answer.err);
        let usage = answer.err.lines().nth(1).unwrap_or_default();
        let more = usage.starts_with("usage: annotate ") || usage == "annotate --help says more";
        assert!(more, "{words:?}: {}", answer.err);
    }
    let file = |words: &[&str]| annotate(words).err.lines().next().unwrap_or_default().to_string();
    assert_eq!(file(&["sheet"]), "annotate sheet: a file is missing; - is standard input");
    assert_eq!(file(&["draw", "--hex"]), "annotate draw: `--hex` is none of its options");
    let heads = file(&["dispatch", "a", "--heads", "many"]);
    assert_eq!(heads, "annotate dispatch: --heads needs a number from 1 to 8");
}

#[test]
fn help() {
    for words in HELP {
        let answer = annotate(words);
        assert_eq!((answer.status, answer.err.as_str()), (0, ""), "{words:?}");
        let start = if words.contains(&"--version") { "annotate 1." } else { "usage: annotate " };
        assert!(answer.text().starts_with(start), "{words:?}");
    }
    let version = format!("annotate {}\n", env!("CARGO_PKG_VERSION"));
    assert_eq!(annotate(&["--version"]).text(), version);
    let whole = annotate(&["--help"]);
    for command in ["sheet", "explain", "draw", "dispatch", "record", "show"] {
        let help = annotate(&[command, "--help"]);
        let usage = help.text().lines().next().unwrap().trim_start_matches("usage: ");
        assert!(whole.text().contains(usage), "--help lacks {usage}");
    }
}

/// A script of the repository where it has no library to link, so that it can build nothing.
fn script(file: &str, words: &[&str]) -> Answer {
    let path = Path::new(env!("CARGO_MANIFEST_DIR")).join("../..").join(file);
    let mut command = Command::new("sh");
    command.arg(path).args(words).env("LFJ_LIB_DIR", "no such folder").stdin(Stdio::null());
    Answer::of(command.output().unwrap())
}

#[test]
fn the_script_answers_before_it_builds() {
    for words in WRONG.into_iter().chain(HELP) {
        assert_eq!(script("rust/annotate.sh", words), annotate(words), "{words:?}");
    }
    assert_eq!(script("rust/annotate.sh", &["sheet", "a"]).status, 2);
}

#[test]
fn so_does_the_one_of_the_samples() {
    let file = "samples/try.sh";
    assert_eq!(script(file, &["--version"]), annotate(&["--version"]));
    assert_eq!(script(file, &["--help"]).status, 0);
    for words in [&["--paint"][..], &["a", "b"]] {
        let answer = script(file, words);
        assert_eq!((answer.status, answer.out.len()), (2, 0), "{words:?}");
        assert!(answer.err.starts_with(&format!("usage: {file} ")), "{}", answer.err);
    }
}

#[test]
fn files_that_cannot_be_read_or_written() {
    let clause = samples().join("half-motif.txt").display().to_string();
    for words in [["sheet", "no-such-file"], ["show", "."]] {
        let answer = annotate(&words);
        assert_eq!((answer.status, answer.out.len()), (2, 0));
        assert!(answer.err.starts_with(&format!("{}: ", words[1])), "{}", answer.err);
    }
    for words in [
        &["sheet", &clause][..],
        &["explain", &clause],
        &["draw", &clause],
        &["draw", "--text", &clause],
        &["dispatch", &clause],
        &["dispatch", "--text", &clause],
        &["record", &clause],
        &["record", "--hex", &clause],
        &["show", &clause],
        &["--help"],
        &["draw", "--help"],
        &["--version"],
    ] {
        let full = File::create("/dev/full").unwrap();
        let answer = Answer::of(command(words).stdout(full).output().unwrap());
        assert_eq!(answer.status, 2, "{words:?}");
        assert!(answer.err.starts_with("standard output: No space left"), "{}", answer.err);
    }
    let answer = annotate(&["draw", &clause, "-o", "/dev/full"]);
    assert_eq!(answer.status, 2);
    assert!(answer.err.starts_with("/dev/full: No space left"), "{}", answer.err);
    let answer = annotate(&["draw", &clause, "-o", "no/such/folder.svg"]);
    assert_eq!((answer.status, answer.err.starts_with("no/such/folder.svg: ")), (2, true));
}

#[test]
fn a_picture_in_a_file() {
    let clause = samples().join("half-motif.txt").display().to_string();
    let file = Path::new(env!("CARGO_TARGET_TMPDIR")).join("picture.svg").display().to_string();
    let answer = annotate(&["draw", "-o", &file, &clause]);
    assert_eq!(answer, Answer { status: 0, out: Vec::new(), err: String::new() });
    assert_eq!(fs::read(&file).unwrap(), annotate(&["draw", &clause]).out);
    assert_eq!(annotate(&["draw", "-o", "-", &clause]), annotate(&["draw", &clause]));
    let answer = annotate(&["dispatch", "-o", &file, &clause]);
    assert_eq!(answer, Answer { status: 0, out: Vec::new(), err: String::new() });
    assert_eq!(fs::read(&file).unwrap(), annotate(&["dispatch", &clause, "--heads", "2"]).out);
}

#[test]
fn a_broken_pipe_ends_quietly() {
    let mut command = command(&["sheet", "-"]);
    command.stdin(Stdio::piped()).stdout(Stdio::piped()).stderr(Stdio::piped());
    let mut child = command.spawn().unwrap();
    // Nobody reads any more when the input is there.
    drop(child.stdout.take());
    child.stdin.take().unwrap().write_all(b"goal half\n").unwrap();
    let answer = Answer::of(child.wait_with_output().unwrap());
    assert_eq!((answer.status, answer.err.as_str()), (0, ""));
}

#[test]
fn faults_with_file_and_line() {
    let text = b"variables X\ngaol half X\ngoal edge Y\n";
    let answer = stdin(&["record", "-"], text);
    assert_eq!((answer.status, answer.out.len()), (1, 0));
    let lines: Vec<&str> = answer.err.lines().collect();
    assert_eq!(lines.len(), 2, "{lines:?}");
    assert!(lines[0].starts_with("standard input, line 2: `gaol` is no keyword"), "{}", lines[0]);
    assert!(
        lines[1].starts_with("standard input, line 3: no variable is called Y"),
        "{}",
        lines[1]
    );
    let answer = stdin(&["sheet", "-"], b"4c464a0");
    assert_eq!((answer.status, answer.out.len()), (1, 0));
    assert_eq!(answer.err, "standard input, line 1: 7 hexadecimal digits; each byte has two\n");
}

#[test]
fn names_before_the_sheet() {
    let clause = b"variables Left Right\ngoal half Left\ngoal join Right Left\n";
    let answer = stdin(&["sheet", "-", "--names"], clause);
    let sheet = "# v0 Left\n# v1 Right\ngoals 2\n1 half\n2 join\nform 1,2\nmel 1,2\n";
    assert_eq!((answer.status, answer.text()), (0, sheet));
}

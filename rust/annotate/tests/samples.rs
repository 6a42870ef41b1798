//! Every command on every sample.

mod program;

use annotate::hex;
use annotate::input::RECORD_INPUT;
use program::{Answer, annotate, samples, stdin};
use std::fs;

#[test]
fn the_files_are_what_the_descriptions_give() {
    let readme = fs::read_to_string(samples().join("README.md")).unwrap();
    assert_eq!(program::names().len(), 14);
    for name in program::names() {
        let file = |end: &str| fs::read(samples().join(format!("{name}.{end}"))).unwrap();
        let path = |end: &str| samples().join(format!("{name}.{end}")).display().to_string();
        let fine = |bytes: Vec<u8>| Answer { status: 0, out: bytes, err: String::new() };
        for end in ["txt", "lfj", "hex"] {
            assert_eq!(annotate(&["record", &path(end)]), fine(file("lfj")), "{name}");
            assert_eq!(annotate(&["record", &path(end), "--hex"]), fine(file("hex")), "{name}");
        }
        let text = String::from_utf8(file("txt")).unwrap();
        assert!(text.starts_with("# "), "{name} does not say what it shows");
        assert!(readme.contains(&format!("`{name}`")), "README.md does not name {name}");
    }
}

#[test]
fn sheets() {
    for name in program::names() {
        let sheet = fs::read(samples().join(format!("{name}.sheet"))).unwrap();
        let status = name.starts_with("refused") as i32;
        let wanted = Answer { status, out: sheet, err: String::new() };
        for end in ["txt", "lfj", "hex"] {
            let file = samples().join(format!("{name}.{end}"));
            assert_eq!(annotate(&["sheet", &file.display().to_string()]), wanted, "{name}.{end}");
            assert_eq!(stdin(&["sheet", "-"], &fs::read(file).unwrap()), wanted, "{name}.{end}");
        }
    }
}

/// The sheets of the conformance kit; no more of an input is read than the program reads.
#[test]
fn sheets_of_the_kit() {
    let bytes = |word: &str| hex::unhex(if word == "-" { "" } else { word }).unwrap();
    let mut cases = 0;
    for file in fs::read_dir(samples().join("../kit/cases")).unwrap() {
        for line in fs::read_to_string(file.unwrap().path()).unwrap().lines() {
            let words = line.split_whitespace().skip_while(|word| *word != "sheet");
            let [_, _, input, "=", "ok", sheet] = words.collect::<Vec<_>>()[..] else { continue };
            let mut input = bytes(input);
            input.truncate(RECORD_INPUT);
            assert_eq!(annotate::sheet::sheet(&input), bytes(sheet), "{line}");
            cases += 1;
        }
    }
    assert!(cases > 50, "{cases} cases");
}

#[test]
fn shown_and_written_again() {
    for name in program::names() {
        let file = samples().join(format!("{name}.lfj"));
        let shown = annotate(&["show", &file.display().to_string()]);
        if name.starts_with("refused") {
            assert_eq!((shown.status, shown.out.len()), (1, 0), "{name}");
            assert!(shown.err.starts_with(&format!("{}: the ", file.display())), "{}", shown.err);
            continue;
        }
        assert_eq!((shown.status, shown.err.as_str()), (0, ""), "{name}");
        assert_eq!(stdin(&["record", "-"], &shown.out).out, fs::read(file).unwrap(), "{name}");
    }
}

#[test]
fn explained_and_drawn() {
    for name in program::names() {
        let refused = name.starts_with("refused");
        let file = samples().join(format!("{name}.txt")).display().to_string();
        let explained = annotate(&["explain", &file]);
        assert_eq!((explained.status, explained.err.as_str()), (refused as i32, ""), "{name}");
        assert!(!explained.out.is_empty(), "{name}");
        for options in [
            &["draw", &file][..],
            &["draw", "--text", &file],
            &["dispatch", &file],
            &["dispatch", "--text", &file, "--heads", "8"],
        ] {
            let drawn = annotate(options);
            assert_eq!((drawn.status, drawn.out.is_empty()), (refused as i32, refused), "{name}");
            assert_eq!(drawn.err.is_empty(), !refused, "{name}: {}", drawn.err);
        }
    }
}

/// The charts beside the samples: `NAME.heads-K.chart` and the same as SVG.
#[test]
fn charts() {
    let mut charts = 0;
    for file in fs::read_dir(samples()).unwrap() {
        let path = file.unwrap().path();
        let file = path.file_name().unwrap().to_str().unwrap();
        let Some((name, rest)) = file.split_once(".heads-") else { continue };
        let (heads, ending) = rest.split_once('.').unwrap();
        let clause = samples().join(format!("{name}.txt")).display().to_string();
        let mut words = vec!["dispatch", "--heads", heads, &clause];
        if ending == "chart" {
            words.push("--text");
        }
        let wanted = Answer { status: 0, out: fs::read(&path).unwrap(), err: String::new() };
        assert_eq!(annotate(&words), wanted, "{file}");
        charts += 1;
    }
    assert_eq!(charts, 6);
}

/// A description, its record and its hexadecimal give the same picture, as far as they say the
/// same.
#[test]
fn one_picture_whatever_the_input() {
    for name in program::names() {
        let picture = |end: &str| {
            let file = samples().join(format!("{name}.{end}"));
            annotate(&["draw", &file.display().to_string()]).out
        };
        assert!(picture("txt") == picture("lfj") && picture("lfj") == picture("hex"), "{name}");
    }
}

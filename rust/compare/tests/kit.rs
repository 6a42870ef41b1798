//! The kit's files are those that `kit-cases` writes, and `drafts`, taken from the paper's text
//! by tools/paper_drafts.py; the hand-written annotator agrees with every one.

use compare::cases::{LANDED, Reference, Tally, run};
use compare::kit::files;
use std::fs;
use std::path::{Path, PathBuf};

fn kit() -> PathBuf {
    Path::new(env!("CARGO_MANIFEST_DIR")).join("../../kit")
}

/// The lines of a file that are cases.
fn cases(path: &Path) -> usize {
    let text = fs::read_to_string(path).unwrap();
    text.lines().filter(|line| !line.is_empty() && !line.starts_with('#')).count()
}

#[test]
fn the_files_are_up_to_date() {
    let folder = kit().join("cases");
    let readme = fs::read_to_string(folder.join("../README.md")).unwrap();
    let mut all = 0;
    let files = files();
    for file in &files {
        let path = folder.join(format!("{}.txt", file.name));
        let text = fs::read_to_string(&path).unwrap();
        assert!(text == file.text, "{}: run kit-cases", path.display());
        let tally = run(&Reference, &text, |_, _, _, _| ()).unwrap();
        assert_eq!(tally, Tally { agree: file.cases, differ: 0, skipped: 0 }, "{}", file.name);
        assert!(
            readme.contains(&format!("`{}`", file.name)),
            "README.md does not name {}",
            file.name
        );
        all += file.cases;
    }
    assert_eq!(fs::read_dir(&folder).unwrap().count(), files.len() + 1);
    all += cases(&folder.join("drafts.txt")) + cases(&kit().join("vectors/after-05.txt"));
    let count = format!("{},{:03} cases", all / 1000, all % 1000);
    assert!(readme.contains(&count), "README.md does not say {count}");
}

#[test]
fn the_drafts_come_out_as_printed() {
    let text = fs::read_to_string(kit().join("cases/drafts.txt")).unwrap();
    let tally = run(&Reference, &text, |_, _, _, _| ()).unwrap();
    assert!(tally.agree >= 40 && tally.differ == 0 && tally.skipped == 0, "{tally:?}");
}

#[test]
fn the_version_names_the_requests() {
    let version = fs::read_to_string(kit().join("VERSION")).unwrap();
    assert_eq!(version.split('.').nth(1), Some(&*LANDED.to_string()), "{version}");
}

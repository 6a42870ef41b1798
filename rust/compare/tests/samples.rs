//! The samples: their sheets are what the hand-written annotator prints.

use compare::build::Parts;
use compare::cases::Reference;
use std::fs;
use std::path::{Path, PathBuf};

fn folder() -> PathBuf {
    Path::new(env!("CARGO_MANIFEST_DIR")).join("../../samples")
}

#[test]
fn each_sheet() {
    let files = fs::read_dir(folder()).unwrap().map(|file| file.unwrap().path());
    let records: Vec<_> =
        files.filter(|path| path.extension().is_some_and(|end| end == "lfj")).collect();
    assert_eq!(records.len(), 14);
    for path in records {
        let sheet = compare::sheet(&Reference, &fs::read(&path).unwrap());
        let written = fs::read(path.with_extension("sheet")).unwrap();
        assert!(written == sheet, "{}: run samples/make.sh", path.display());
    }
}

#[test]
fn the_longest_ones() {
    let record = |name: &str| Parts::of(&fs::read(folder().join(name)).unwrap()).unwrap();
    assert_eq!(record("longest-form.lfj"), Parts::longest_form());
    assert_eq!(record("long-mel.lfj"), Parts::longest_mel());
}

//! The records of the samples and of the conformance kit.

use std::collections::BTreeSet;
use std::fs;
use std::path::Path;

/// The files of a folder with this ending.
fn files(folder: &str, ending: &str) -> Vec<Vec<u8>> {
    let folder = Path::new(env!("CARGO_MANIFEST_DIR")).join("../..").join(folder);
    let paths = fs::read_dir(folder).unwrap().map(|file| file.unwrap().path());
    let paths = paths.filter(|path| path.extension().is_some_and(|own| own == ending));
    paths.map(|path| fs::read(path).unwrap()).collect()
}

/// Every record, right or wrong, that starts as one.
pub fn records() -> BTreeSet<Vec<u8>> {
    let mut records: BTreeSet<Vec<u8>> = files("samples", "lfj").into_iter().collect();
    assert!(records.len() >= 12);
    for file in files("kit/cases", "txt") {
        for word in String::from_utf8(file).unwrap().split_whitespace() {
            if word.starts_with("4c464a") && word.len() % 2 == 0 {
                let byte = |at| u8::from_str_radix(&word[at..at + 2], 16).unwrap();
                records.insert((0..word.len()).step_by(2).map(byte).collect());
            }
        }
    }
    assert!(records.len() > 1000, "{} records", records.len());
    records
}

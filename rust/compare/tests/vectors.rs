//! Every line of the vectors. Their file: the environment variable VECTORS, else the kit's.

use compare::cases::{Reference, run};
use std::path::PathBuf;

#[test]
fn the_reference_agrees_with_every_vector() {
    let default = concat!(env!("CARGO_MANIFEST_DIR"), "/../../kit/vectors/after-05.txt");
    let path = std::env::var_os("VECTORS").map_or(PathBuf::from(default), PathBuf::from);
    let text = std::fs::read_to_string(&path).unwrap_or_else(|e| panic!("{}: {e}", path.display()));
    let tally = run(&Reference, &text, |line, question, expected, given| {
        println!("line {line}: {question}\n  expected {expected}\n  given    {given}");
    })
    .unwrap();
    println!("{tally:?}");
    assert_eq!((tally.differ, tally.skipped), (0, 0));
    assert!(tally.agree >= 1444);
}

//! Descriptions of records: what they give and how their faults are said.

use annotate::{describe, hex};
use lfj::Clause;
use std::collections::BTreeSet;
use std::fs;
use std::path::Path;

fn faults(text: &str) -> Vec<(usize, String)> {
    describe::read(text).unwrap_err()
}

/// The fault of a description that has one.
fn one(text: &str) -> (usize, String) {
    let faults = faults(text);
    assert_eq!(faults.len(), 1, "{faults:?}");
    faults[0].clone()
}

#[test]
fn the_whole_case() {
    let text = "\
# 01's whole case
variables X Y Z
head X Y
goal half X
goal edge Y Z
goal join X Z

independent X Y
independent Z X
";
    let described = describe::read(text).unwrap();
    assert_eq!(described.names, ["X", "Y", "Z"]);
    assert_eq!(described.record.len(), 67);
    let clause = Clause::of(&described.record).unwrap();
    assert_eq!((clause.variables, clause.head, clause.ground), (3, 3, 0));
    assert_eq!(clause.independent, [(0, 1), (0, 2)]);
    assert_eq!((clause.goals[1].variables, clause.goals[1].text.as_str()), (6, "edge"));
}

/// Every record that a case of the kit holds and that reading accepts.
#[test]
fn every_record_comes_back() {
    let folder = Path::new(env!("CARGO_MANIFEST_DIR")).join("../../kit/cases");
    let mut records = BTreeSet::new();
    for file in fs::read_dir(folder).unwrap() {
        let text = fs::read_to_string(file.unwrap().path()).unwrap();
        records.extend(text.split_whitespace().filter_map(|word| {
            let record = hex::unhex(word.strip_prefix("4c464a")?).ok()?;
            Some([b"LFJ", &record[..]].concat())
        }));
    }
    let mut versions = [0; 3];
    for record in records {
        let Ok(clause) = Clause::of(&record) else { continue };
        let text = describe::write(&clause);
        assert_eq!(describe::read(&text).unwrap().record, record, "{text}");
        versions[clause.version as usize] += 1;
    }
    assert!(versions[1] > 500 && versions[2] > 100, "{versions:?}");
}

#[test]
fn facts_at_goals() {
    let facts = |text: &str| -> Vec<(u64, u16)> {
        let clause = Clause::of(&describe::read(text).unwrap().record).unwrap();
        clause.goals.iter().map(|goal| (goal.ground, goal.ticks)).collect()
    };
    let clause = "\
variables X Y Z
head X Y
ground X
goal a X Z ticks 12
goal b Y ground X Z
goal c Z Y ground X Z Y ticks 60000
goal d
";
    assert_eq!(facts(clause), [(1, 12), (5, 1), (7, 60_000), (7, 1)]);
    // The line `version 2` alone makes one too, and a record of version 1 has the header's facts.
    assert_eq!(facts("goal a\nversion 2"), [(0, 1)]);
    assert_eq!(facts("version 1\nvariables X\nhead X\ngoal a\nground X"), [(1, 1)]);
    assert_eq!(describe::read("goal a\nversion 2").unwrap().record.len(), 44);
    assert_eq!(describe::read("goal a").unwrap().record.len(), 34);
    assert_eq!(describe::read("goal a ticks 1").unwrap().record.len(), 44);
    // The header's ground set may stand behind the goals.
    assert_eq!(facts("version 2\nvariables X\ngoal a\nhead X\nground X"), [(1, 1)]);
}

#[test]
fn faults_of_facts() {
    let fault = |line: usize, words: &str| (line, words.to_string());
    assert_eq!(one("goal a ticks 0"), fault(1, "0 ticks; a goal has 1 to 60000"));
    assert_eq!(one("goal a ticks 60001"), fault(1, "60001 ticks; a goal has 1 to 60000"));
    assert_eq!(one("goal a ticks many"), fault(1, "`many` is no number of ticks"));
    assert_eq!(one("goal a ticks").0, 1);
    assert_eq!(one("variables X\ngoal a ticks 3 X").0, 2);
    assert_eq!(one("goal a ticks 3 ticks 4").0, 1);
    assert_eq!(one("goal a ground ground").0, 1);
    assert!(one("goal a ground X").1.starts_with("no variable is called X"));
    assert_eq!(one("version 3\ngoal a"), fault(1, "version 1 or version 2"));
    assert_eq!(one("goal a\ngoal b ticks 2\nversion 1").0, 2);
    assert_eq!(one("variables ticks\ngoal a").1, "a variable cannot be called ticks");
    let lacking = one("variables X Y\nhead X Y\nground Y\ngoal a ground X");
    assert_eq!(lacking.0, 4);
    assert!(lacking.1.starts_with("Y is ground already before this goal"), "{}", lacking.1);
    // Faults come by their lines.
    let text = "variables X Y\nhead X\ngoal a X Y ticks 0\ngoal b ground X\ngoal c ground\ngoal d ground Z";
    assert_eq!(faults(text).iter().map(|fault| fault.0).collect::<Vec<_>>(), [3, 5, 6]);
    // A goal's own variables are not earlier.
    let outside = one("variables X\ngoal a X ground X\ngoal b X");
    assert_eq!(outside.0, 2);
    assert!(outside.1.starts_with("X cannot be ground here"), "{}", outside.1);
}

#[test]
fn changed_bytes() {
    let change = |lines: &str| describe::read(&format!("goal a\n{lines}")).unwrap().record;
    let whole = change("");
    assert_eq!(whole.len(), 34);
    assert_eq!(change("cut 5"), b"LFJ\0\x01");
    assert_eq!(change("byte 5 33")[5], 33);
    assert_eq!(change("more 0 255")[34..], [0, 255]);
    assert_eq!(faults("goal a\ncut 35")[0], (2, "the record has 34 bytes only".to_string()));
    assert_eq!(faults("goal a\nbyte 34 0")[0].0, 2);
}

#[test]
fn faults_have_their_line() {
    let (line, words) = one("variables X\n\ngaol half X\ngoal a");
    assert_eq!(line, 3);
    assert!(words.starts_with("`gaol` is no keyword; these are: version, variables,"), "{words}");
    assert_eq!(one("goal half X").0, 1);
    assert_eq!(one("variables X X\ngoal a"), (1, "variable X is named twice".to_string()));
    assert_eq!(one("variables v1\ngoal a"), (1, "v1 has number 0, so MEL calls it v0".into()));
    assert_eq!(one("goal\ngoal a").0, 1);
    assert_eq!(one("# nothing\n").1, "there is no line `goal`, and a clause has at least one");
    assert_eq!(one("variables X\ngoal a\nindependent X X").0, 3);
    assert_eq!(one("variables X\ngoal a\nindependent X").0, 3);
    assert_eq!(one("variables X\nground X\ngoal a").0, 2);
    assert_eq!(one("version 2\nvariables X\nground X\ngoal a").0, 3);
    assert_eq!(one("variables X Y\ngoal a\nindependent X | Y | X").1, "one | is the most");
    assert_eq!(one("variables v3..v1\ngoal a").0, 1);
    assert_eq!(one("variables v0..v64\ngoal a").1, "65 variables, 64 is the most");
    assert_eq!(one(&format!("goal {}", "x".repeat(25))).0, 1);
    assert!(describe::read(&format!("goal {}", "x".repeat(24))).is_ok());
    assert_eq!(one("goal \u{e9}").0, 1);
    assert_eq!(one(&"goal a\n".repeat(33)).0, 33);
    assert_eq!(one("variables v0..v23\ngoal a\nindependent v0..v23").0, 3);
    assert_eq!(one("goal a\nbyte 5").0, 2);
    assert_eq!(one("goal a\nbyte 5 256").0, 2);
    assert_eq!(one("goal a\nbyte five 1").0, 2);
    assert_eq!(one(&format!("goal {}", "x".repeat(300))).0, 1);
    assert_eq!(one(&"goal a\n".repeat(300)).0, 33);
    // All faults are said at once.
    assert_eq!(faults("goal a X\ngoal b Y").len(), 2);
}

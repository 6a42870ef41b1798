//! Reading the record of version 1: refusals 1 to 11.

use super::paper::whole_case;
use super::{Lines, waiting};
use crate::TICK_LIMIT;
use crate::build::Parts;
use crate::cases::LANDED;

/// The record with one byte changed.
pub(super) fn with_byte(record: &[u8], place: usize, value: u8) -> Vec<u8> {
    let mut changed = record.to_vec();
    changed[place] = value;
    changed
}

pub(super) fn header() -> Lines {
    let mut lines = Lines::new("record-header", "The record's first 24 bytes: refusals 1 to 6.");
    let record = whole_case().record();
    lines.note("1-short", "1: below 24 bytes, place the length");
    for length in 0..=24 {
        lines.read(&record[..length]);
    }
    lines.note("2-mark", "2: the letters LFJ");
    for place in 0..3 {
        for value in [0, b'l', b'L', b'F', b'J', 255] {
            lines.read(&with_byte(&record, place, value));
        }
    }
    lines.note("3-version", "3: version 1 or 2, two bytes, the most significant first");
    for version in [0u16, 1, 2, 3, 255, 256, 257, 65_535] {
        let mut other = record.clone();
        other[3..5].copy_from_slice(&version.to_be_bytes());
        lines.read(&other);
    }
    lines.note("4-goal-count", "4: goal count 1 to 32");
    for goals in 1..=32 {
        lines.read(&Parts::over(1, &vec![1; goals]).record());
    }
    for count in [0, 2, 4, 32, 33, 34, 64, 128, 255] {
        lines.read(&with_byte(&record, 5, count));
    }
    lines.note("5-variable-count", "5: variable count 0 to 64");
    for variables in 0..=64u8 {
        let top = if variables == 0 { 0 } else { 1u64 << (variables - 1) };
        let mut parts = Parts::over(variables, &[top]);
        parts.head = top;
        lines.read(&parts.record());
    }
    for count in [65, 66, 127, 128, 129, 255] {
        lines.read(&with_byte(&record, 6, count));
    }
    lines.note(
        "6-header-sets",
        "6: a head bit at or above v, place 8; else a ground bit outside the head, place 16",
    );
    for variables in [0u8, 1, 7, 8, 9, 31, 32, 33, 63] {
        for bit in [variables, variables + 1, 63] {
            if bit < 64 {
                let mut parts = Parts::over(variables, &[0]);
                parts.head = 1 << bit;
                lines.read(&parts.record());
                parts.ground = 1 << bit;
                lines.read(&parts.record());
                parts.head = 0;
                lines.read(&parts.record());
            }
        }
    }
    for bit in 0..64 {
        let mut parts = Parts::over(64, &[0]);
        parts.ground = 1 << bit;
        lines.read(&parts.record());
        parts.head &= !parts.ground;
        lines.read(&parts.record());
    }
    lines
}

pub(super) fn goals() -> Lines {
    let mut lines = Lines::new("record-goals", "The goals: refusals 7, 8 and 9.");
    let record = whole_case().record();
    lines.note("7-goals", "7: the record ends within the goals, place its length");
    for length in 24..63 {
        lines.read(&record[..length]);
    }
    lines.note("8-goal-set", "8: a bit at or above v, place the start of the goal's set");
    for variables in [0u8, 1, 3, 8, 40, 63] {
        for goal in 0..3 {
            for bit in [variables, 63] {
                let mut parts = Parts::over(variables, &[0, 0, 0]);
                parts.goals[goal].0 = 1 << bit;
                lines.read(&parts.record());
            }
        }
    }
    goal_texts(&mut lines, &record);
    lines
}

/// Refusal 9.
fn goal_texts(lines: &mut Lines, record: &[u8]) {
    lines.note("9-length", "9: the text's length, 1 to 24");
    for length in 1..=41 {
        let mut parts = waiting(2, &[]);
        parts.goals[1].1 = vec![b'x'; length];
        lines.read(&parts.record());
    }
    for goal_end in [32, 45, 58] {
        for length in [0, 25, 26, 40, 41, 127, 128, 255] {
            lines.read(&with_byte(record, goal_end, length));
        }
    }
    lines.note("9-byte", "9: the first byte of the text that is not 33 to 126");
    for byte in [0, 1, 9, 10, 31, 32, 33, 34, 125, 126, 127, 128, 160, 255] {
        for length in [1, 2, 8, 9, 24] {
            for at in [0, length / 2, length - 1] {
                let mut text = vec![b'~'; length];
                text[at] = byte;
                let mut parts = waiting(2, &[]);
                parts.goals[0].1 = text;
                lines.read(&parts.record());
            }
        }
    }
    lines.note("9-each-byte", "a bad byte at each place of a text, behind the lowest good one");
    for length in [8, 9, 16, 17, 24] {
        for at in 0..length {
            let mut text = vec![b'!'; length];
            text[at] = [31, 32, 127, 128][at % 4];
            let mut parts = waiting(1, &[]);
            parts.goals[0].1 = text;
            lines.read(&parts.record());
        }
    }
    lines.note("9-two-bytes", "the first of two bad bytes, and of two goals");
    let mut parts = waiting(2, &[]);
    parts.goals[0].1 = b"a b c".to_vec();
    parts.goals[1].1 = b" ".to_vec();
    lines.read(&parts.record());
}

pub(super) fn pairs() -> Lines {
    let mut lines = Lines::new("record-pairs", "The pairs and the end: refusals 7, 10 and 11.");
    let record = waiting(4, &[]).record();
    let start = record.len() - 12;
    lines.note("7-pairs", "7: the record ends within the pairs, place its length");
    for length in start..=record.len() {
        lines.read(&record[..length]);
    }
    lines.note("10-pair", "10: lower then higher, below v, ascending by first then second");
    for first in 0..6u8 {
        for second in 0..6u8 {
            let mut parts = Parts::over(5, &[1]);
            parts.pairs = vec![(first, second)];
            lines.read(&parts.record());
            parts.pairs = vec![(1, 3), (first, second)];
            lines.read(&parts.record());
        }
    }
    let mut parts = Parts::over(64, &[1]);
    for pair in [(0, 63), (62, 63), (63, 64), (0, 64), (0, 128), (255, 255), (0, 255)] {
        parts.pairs = vec![pair];
        lines.read(&parts.record());
    }
    lines.note("255-pairs", "255 pairs");
    parts.pairs = (0..5u8).flat_map(|x| (x + 1..64).map(move |y| (x, y))).take(255).collect();
    lines.read(&parts.record());
    let mut record = parts.record();
    record.truncate(record.len() - 1);
    lines.read(&record);
    parts.pairs.swap(253, 254);
    lines.read(&parts.record());
    lines.note("11-left-over", "11: bytes left over, place the first of them");
    for more in 1..5 {
        let mut record = whole_case().record();
        record.extend(vec![0; more]);
        lines.read(&record);
        record[67] = 0xff;
        lines.read(&record);
    }
    let mut record = whole_case().record();
    record[7] = 1;
    lines.read(&record);
    record[7] = 0;
    lines.read(&record);
    lines.note("longest", "the longest record of version 1, 1,590 bytes, and one byte more");
    let mut record = Parts::longest_record().record();
    assert_eq!(record.len(), 1590);
    lines.read(&record);
    record.push(33);
    lines.read(&record);
    lines
}

/// A fault of each refusal, in the paper's order, put into the whole case. Its goals are not
/// those of version 2, which is 18.
pub(super) const FAULTS: [(u8, &[(usize, u8)]); 13] = [
    (2, &[(1, b'f')]),
    (3, &[(4, 3)]),
    (18, &[(4, 2)]),
    (4, &[(5, 0)]),
    (5, &[(6, 65)]),
    (6, &[(8, 128)]),
    (6, &[(23, 4)]),
    (8, &[(24, 1)]),
    (9, &[(32, 0)]),
    (9, &[(34, 32)]),
    (8, &[(50, 1)]),
    (10, &[(63, 2)]),
    (10, &[(66, 1)]),
];

/// The whole case with each fault of its record.
pub(super) fn faulty_records() -> Vec<Vec<u8>> {
    let record = whole_case().record();
    let mut faulty: Vec<Vec<u8>> = [0, 23, 36, 66].map(|length| record[..length].to_vec()).into();
    faulty.push([&record[..], b"!"].concat());
    for (_, fault) in FAULTS {
        let mut changed = record.clone();
        fault.iter().for_each(|(place, value)| changed[*place] = *value);
        faulty.push(changed);
    }
    let mut parts = whole_case().lasting(&[1, 1, 0]);
    faulty.push(parts.record());
    parts.facts[2].ticks = TICK_LIMIT + 1;
    faulty.push(parts.record());
    faulty
}

pub(super) fn which_first() -> Lines {
    let mut lines = Lines::new(
        "record-which-first",
        "Two faults in one record: the first of the paper's order.",
    );
    let record = whole_case().record();
    lines.note("two-faults", "each two of the faults");
    for (at, (_, one)) in FAULTS.iter().enumerate() {
        for (_, other) in &FAULTS[at..] {
            let mut changed = record.clone();
            for (place, value) in one.iter().chain(other.iter()) {
                changed[*place] = *value;
            }
            lines.read(&changed);
        }
    }
    lines.note("cut-or-longer", "a fault in a record that is cut off or goes on");
    for (_, fault) in FAULTS {
        let mut changed = record.clone();
        for (place, value) in fault {
            changed[*place] = *value;
        }
        for length in [10, 24, 33, 35, 48, 64, 66] {
            lines.read(&changed[..length]);
        }
        changed.push(0);
        lines.read(&changed);
    }
    lines.note("every-operation", "every operation starts with reading the record");
    let bad = with_byte(&record, 34, 32);
    let bad = crate::cases::hex(&bad);
    for question in [
        format!("waits {LANDED} {bad}"),
        format!("order {LANDED} {bad}"),
        format!("passes {LANDED} {bad}"),
        format!("form {LANDED} {bad} 0"),
        format!("length {LANDED} {bad}"),
        format!("mel {LANDED} {bad} 0"),
        format!("text {LANDED} {bad} 0"),
        format!("check {LANDED} {bad} -"),
        format!("sheet {LANDED} {bad}"),
    ] {
        lines.ask(question);
    }
    lines
}

//! MEL, lent buffers, goal texts and the sheet.

use super::paper::whole_case;
use super::record::FAULTS;
use super::{Lines, waiting};
use crate::build::Parts;
use crate::cases::{LANDED, hex, unhex};
use crate::generate::Random;
use crate::record::GOAL_TEXT_LIMIT;

pub(super) fn mel_stages() -> Lines {
    let mut lines = Lines::new("mel-stages", "MEL: where stages end.");
    lines.note("three-goals", "three goals over two variables, every head");
    for sets in 0..64u64 {
        for head in 0..4 {
            let mut parts = Parts::over(2, &[sets & 3, sets >> 2 & 3, sets >> 4]);
            parts.head = head;
            lines.mel(&parts, 400);
        }
    }
    lines.note(
        "five-goals",
        "five goals, each two in a row share a variable outside the head, or not",
    );
    for shared in 0..16u64 {
        let mut sets = [1u64; 5];
        for joint in 0..4 {
            if shared >> joint & 1 == 1 {
                sets[joint] |= 2 << joint;
                sets[joint + 1] |= 2 << joint;
            }
        }
        let mut parts = Parts::over(5, &sets);
        parts.head = 1;
        lines.mel(&parts, 400);
    }
    lines.note("later-again", "a variable that occurs again only much later");
    for later in 1..8 {
        let mut sets = [0u64; 8];
        sets[0] = 1;
        sets[later] = 1;
        let mut parts = Parts::over(1, &sets);
        parts.head = 0;
        lines.mel(&parts, 400);
    }
    every_stage(&mut lines);
    lines
}

/// A stage that ends at each goal and by each variable, and many stages.
fn every_stage(lines: &mut Lines) {
    lines.note("each-goal", "a variable outside the head that two neighbours of 32 goals share");
    for goal in 0..31 {
        let mut sets = [0u64; 32];
        sets[goal] = 1;
        sets[goal + 1] = 1;
        let mut parts = Parts::over(1, &sets);
        parts.head = 0;
        lines.mel(&parts, 400);
    }
    lines.note("many-stages", "up to 32 stages of one goal, and 16 of two goals");
    for goals in [8, 15, 16, 17, 31, 32] {
        let sets: Vec<u64> = (0..goals).map(|goal| 3 << goal).collect();
        let mut parts = Parts::over(40, &sets);
        parts.head = 0;
        lines.mel(&parts, 400);
    }
    let joining: Vec<u8> = (1..16).collect();
    lines.mel(&Parts::in_stages(17, &[2; 16], &joining, false), 16_384);
    lines.note("each-variable", "a variable outside the head that goals 1 and 2 share");
    for x in 0..64u64 {
        let other = (x + 1) % 64;
        let mut parts = Parts::over(64, &[1 << x, 1 << x, 1 << other]);
        parts.head = 1 << other;
        lines.mel(&parts, 400);
    }
}

pub(super) fn mel_checks() -> Lines {
    let mut lines = Lines::new("mel-checks", "MEL: the checks of a stage and what is dropped.");
    lines.note(
        "two-goals",
        "two goals over two variables: every head, ground set and list of pairs",
    );
    for sets in 0..16u64 {
        for head in 0..4u64 {
            for ground in (0..4u64).filter(|ground| ground & !head == 0) {
                for listed in [false, true] {
                    let mut parts = Parts::over(2, &[sets & 3, sets >> 2]);
                    (parts.head, parts.ground) = (head, ground);
                    parts.pairs = if listed { vec![(0, 1)] } else { Vec::new() };
                    lines.mel(&parts, 400);
                }
            }
        }
    }
    lines.note("seeded", "seeded clauses of up to 12 goals and variables");
    let mut random = Random::new(17);
    for _ in 0..150 {
        let (goals, variables) = (random.between(2, 12), random.between(1, 12));
        let all = (1u64 << variables) - 1;
        let sets: Vec<u64> =
            (0..goals).map(|_| all & random.word() & random.word() & random.word()).collect();
        let mut parts = Parts::over(variables as u8, &sets);
        parts.head = all & (random.word() | random.word());
        parts.ground = parts.head & random.word() & random.word();
        for x in 0..variables as u8 {
            let higher = (x + 1..variables as u8).filter(|_| random.chance(1, 3));
            parts.pairs.extend(higher.map(|y| (x, y)));
        }
        lines.mel(&parts, 1200);
    }
    lines.note("two-digits", "variables of two digits");
    for (x, y) in [(9, 10), (0, 63), (10, 63), (8, 9), (2, 10)] {
        lines.mel(&Parts::over(64, &[1 << x, 1 << y]), 400);
        lines.mel(&Parts::over(64, &[1 << x | 1 << y; 2]), 400);
    }
    every_check(&mut lines);
    lines
}

/// The checks of each of 64 variables.
fn every_check(lines: &mut Lines) {
    lines.note("each-variable", "a ground check, and a check with the next variable or none");
    for x in 0..64u8 {
        lines.mel(&Parts::over(64, &[1 << x; 2]), 400);
        let (lower, higher) = if x < 63 { (x, x + 1) } else { (0, 63) };
        let mut parts = Parts::over(64, &[1 << higher, 1 << lower]);
        lines.mel(&parts, 400);
        parts.pairs = vec![(lower, higher)];
        lines.mel(&parts, 400);
    }
}

/// Two clauses whose annotations have 32,768 and 32,769 bytes.
pub fn at_the_limit() -> Vec<Parts> {
    let records = include_str!("mel-at-limit.hex").lines();
    let record = |line| unhex(line).expect("hexadecimal");
    records.map(|line| Parts::of(&record(line)).expect("well formed")).collect()
}

pub(super) fn mel_long() -> Lines {
    let mut lines = Lines::new("mel-long", "MEL: long annotations, and the length that 12 names.");
    lines.note("32768", "32,768 and 32,769 bytes: the sheet prints the first and not the second");
    for parts in at_the_limit() {
        for room in [0, 1, 32_767, 32_768] {
            lines.mel(&parts, room);
        }
        lines.sheet(&parts.record());
    }
    lines.note("188354", "188,354 and 192,127 bytes");
    let joining: Vec<u8> = (49..64).collect();
    for (parts, length) in [
        (Parts::in_stages(64, &[2; 16], &joining, false), 188_354),
        (Parts::longest_mel(), 192_127),
    ] {
        for room in [0, 32_768, 65_536, length % 65_536, length - 1] {
            lines.expect(
                format!("mel {LANDED} {} {room}", hex(&parts.record())),
                &format!("refused 12 {length}"),
            );
        }
    }
    lines.note("65536", "65,536 bytes, one more than 16 bits can count, written and refused");
    let parts = Parts::in_stages(60, &[3, 2, 2, 2, 2], &[9, 10, 11, 12], false);
    for room in [0, 65_535] {
        assert_eq!(lines.mel(&parts, room), "refused 12 65536");
    }
    lines.mel(&parts, 65_536);
    lines.note("192127", "the longest annotation that we know, written");
    lines.mel(&Parts::longest_mel(), 192_127);
    lines.note("one-stage", "one stage of 2 to 32 goals that holds all 64 variables, no room");
    for goals in 2..=32 {
        lines.mel(&Parts::in_stages(64, &[goals], &[], false), 0);
    }
    lines
}

pub(super) fn buffers() -> Lines {
    let mut lines = Lines::new("buffers", "Lent buffers: refusal 12, and bytes that are kept.");
    lines.note("form", "form: every room up to the length and a few more");
    for (goals, waits) in [(1, &[][..]), (3, &[(1, 3)][..]), (11, &[(1, 11)][..])] {
        let parts = waiting(goals, waits);
        let length = crate::form_length(&parts.record()).expect("a form") as usize;
        for room in (0..=length + 3).chain([1000]) {
            lines.form(&parts, room);
        }
    }
    lines.note("mel", "MEL: every room up to the length and a few more");
    for parts in [waiting(2, &[(1, 2)]), whole_case(), Parts::over(1, &[1, 1, 1])] {
        let mut out = [0; 100];
        let length = crate::mel(&parts.record(), &mut out).expect("room enough") as usize;
        for room in (0..=length + 3).chain([1000]) {
            lines.mel(&parts, room);
        }
    }
    close_rooms(&mut lines);
    lines
}

/// Rooms at which a bound on the length, taken for the length, goes wrong.
fn close_rooms(lines: &mut Lines) {
    lines.note(
        "mel-close",
        "MEL with many goals and checks of each kind: rooms close to the length",
    );
    let high = |from: u32, to: u32| (from..to).fold(0u64, |set, x| set | 1 << x);
    let mut stages = Parts::over(64, &[high(10, 20), high(10, 21), high(19, 26), high(13, 21)]);
    stages.head &= !(1 << 20);
    for parts in [
        Parts::over(4, &[0b0111, 0b1011]),
        Parts::over(64, &[u64::MAX; 2]),
        Parts::over(64, &[high(10, 13), high(13, 16)]),
        Parts::over(64, &(10..18).map(|x| 1 << x).collect::<Vec<u64>>()),
        Parts::over(64, &[high(10, 30), high(10, 33), high(30, 36)]),
        Parts::over(64, &[1 << 40; 32]),
        Parts::over(1, &[0; 32]),
        stages,
    ] {
        let length = crate::mel(&parts.record(), &mut []).expect_err("no room").place as usize;
        for room in [0, length / 8, length / 4, length / 2, 3 * length / 4] {
            lines.mel(&parts, room);
        }
        for room in length.saturating_sub(16)..=length + 1 {
            lines.mel(&parts, room);
        }
    }
}

pub(super) fn goal_texts() -> Lines {
    let mut lines = Lines::new("goal-text", "Goal texts: the part of the record, and refusal 14.");
    let mut parts = waiting(4, &[]);
    for (goal, text) in parts.goals.iter_mut().zip(["x", "#hidden", "~", "!"]) {
        goal.1 = text.as_bytes().to_vec();
    }
    parts.goals[2].1 = vec![b'~'; GOAL_TEXT_LIMIT];
    let many = Parts::over(1, &[1; 32]);
    lines.note("few", "one, three and four goals");
    for goal in 0..=5 {
        lines.goal_text(&parts, goal);
        lines.goal_text(&waiting(1, &[]), goal);
        lines.goal_text(&whole_case(), goal);
    }
    lines.note("many", "32 goals, and numbers far above them");
    for goal in 0..=34 {
        lines.goal_text(&many, goal);
    }
    for goal in [255, 256, 257, 288, 65_536, 65_537, 1 << 31, u32::MAX] {
        lines.goal_text(&parts, goal);
        lines.goal_text(&many, goal);
    }
    lines
}

pub(super) fn sheets() -> Lines {
    let mut lines = Lines::new("sheet", "The printed sheet, from standard input.");
    lines.note("cut-and-longer", "the whole case, cut at every length and with bytes behind it");
    let record = whole_case().record();
    for length in 0..=record.len() {
        lines.sheet(&record[..length]);
    }
    for more in [1, 100, 4096 - 67, 4096 - 66, 5000] {
        let mut input = record.clone();
        input.extend(vec![0; more]);
        lines.sheet(&input);
    }
    lines.note("refusals", "a fault of each refusal");
    for (_, fault) in FAULTS {
        let mut changed = record.clone();
        for (place, value) in fault {
            changed[*place] = *value;
        }
        lines.sheet(&changed);
    }
    lines.note("forms", "form and no form");
    for goals in 1..=4 {
        for parts in super::every_order(goals) {
            lines.sheet(&parts.record());
        }
    }
    lines.note("mel-too-long", "MEL too long to be printed");
    lines.sheet(&Parts::longest_mel().record());
    lines.note("longest-form", "the longest form");
    lines.sheet(&Parts::longest_form().record());
    lines.note(
        "longest-version-1",
        "the longest record of version 1, 1,590 bytes, and one byte more",
    );
    let mut record = Parts::longest_record().record();
    lines.sheet(&record);
    record.push(33);
    lines.sheet(&record);
    lines.note(
        "longest-version-2",
        "the longest record, of version 2, 1,910 bytes, and one byte more",
    );
    let mut record = Parts::longest_wide_record().record();
    lines.sheet(&record);
    record.push(33);
    lines.sheet(&record);
    lines.note("version-2", "version 2: ground sets from goal to goal, faults of its own");
    let wide = Parts::over(2, &[1, 1, 3, 2]).knowing(&[0, 1, 1, 3]);
    lines.sheet(&wide.record());
    for (place, value) in [(4, 3), (39, 2), (58, 0), (83, 7), (41, 0), (41, 234), (40, 255)] {
        let mut record = wide.record();
        record[place] = value;
        lines.sheet(&record);
    }
    for length in [24, 42, 43, 44, 60] {
        lines.sheet(&wide.record()[..length]);
    }
    long_input(&mut lines);
    lines
}

/// Input that is longer than every record. Its sheet is settled by the first 1,911 bytes, since
/// no place of reading is above 1,910; so a question asks how much of the input is left unread.
fn long_input(lines: &mut Lines) {
    let longest = Parts::longest_wide_record().record();
    let padded = |length: usize| {
        let mut input = longest.clone();
        input.resize(length, 33);
        input
    };
    lines.note("long-input", "the longest record and bytes behind it, up to the 4,096 and more");
    for length in [1912, 1999, 2000, 2001, 2048, 2049, 4095, 4096, 4097, 5000] {
        lines.sheet(&padded(length));
    }
    lines.note("unread", "the program reads 4,096 bytes, or all if there are fewer");
    for length in [0, 1, 24, 1909, 1910, 1911, 1999, 2000, 2001, 2048, 2049, 3000] {
        lines.unread(&padded(length));
    }
    for length in [4095, 4096, 4097, 4098, 5000, 6096, 8191, 8192, 8193] {
        lines.unread(&padded(length));
    }
    lines.note("unread-refused", "it reads on though the record is refused at its first bytes");
    for length in [10, 2000, 2001, 4096, 4097, 5000] {
        lines.unread(&vec![0; length]);
    }
}

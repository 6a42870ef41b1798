//! The settled readings, the samples, and a mixture. (The paper's drafts: tools/paper_drafts.py.)

use super::{Lines, waiting};
use crate::build::Parts;
use crate::cases::{LANDED, hex};
use crate::generate::{self, Random, padded};

/// 01's whole case.
pub(super) fn whole_case() -> Parts {
    let mut parts = Parts::over(3, &[1, 6, 5]);
    parts.head = 3;
    for (goal, text) in parts.goals.iter_mut().zip(["half", "edge", "join"]) {
        goal.1 = text.as_bytes().to_vec();
    }
    parts.pairs = vec![(0, 1), (0, 2)];
    parts
}

fn no_form(goals: [u8; 4]) -> String {
    let [a, b, c, d] = goals;
    format!("refused 13 0 {a} {b} {c} {d}")
}

pub(super) fn readings() -> Lines {
    let mut lines =
        Lines::new("readings", "Where a reader of the paper can go wrong: each wrong reading.");
    record_readings(&mut lines);
    check_readings(&mut lines);
    form_readings(&mut lines);
    mel_readings(&mut lines);
    lines
}

fn record_readings(lines: &mut Lines) {
    lines.note(
        "cut-text",
        "a text that is cut off is 7, although a byte of the part present is bad (wrong: 9)",
    );
    let mut parts = waiting(2, &[]);
    parts.goals[0].1 = b"ab cd".to_vec();
    let record = parts.record();
    lines.expect_read(&record[..36], "refused 7 36");
    lines.expect_read(&record[..37], "refused 7 37");
    lines.expect_read(&record[..38], "refused 9 35");
    lines.note("bad-length", "a bad length byte is 9, although the record ends there (wrong: 7)");
    for length in [0, 25, 40, 41, 255] {
        let mut record = waiting(1, &[]).record();
        record.truncate(33);
        record[32] = length;
        lines.expect_read(&record, "refused 9 32");
    }
    lines.note(
        "one-place",
        "10 has one place, the pair's first byte, for all three faults (wrong: the second)",
    );
    let mut parts = waiting(3, &[]);
    let place = parts.record().len() - 2;
    for pair in [(2, 1), (1, 1), (0, 3), (0, 2), (1, 255)] {
        parts.pairs[2] = pair;
        lines.expect_read(&parts.record(), &format!("refused 10 {place}"));
    }
    lines.note("whole-number", "a goal number is compared whole (wrong: its low byte or 16 bits)");
    let record = hex(&waiting(3, &[]).record());
    for goal in [0, 4, 256, 257, 259, 65_537, 65_539, 16_777_217, 2_147_483_649, u32::MAX] {
        lines.expect(format!("text {LANDED} {record} {goal}"), "refused 14 0");
    }
    lines.note(
        "order-alone",
        "the order has the record's refusals alone (wrong: 13 for a clause without a form)",
    );
    lines.order(&waiting(4, &[(1, 3), (2, 3), (2, 4)]));
}

fn check_readings(lines: &mut Lines) {
    let chain = waiting(2, &[(1, 2)]);
    lines.note(
        "16-before-17",
        "16 is decided over the whole text before 17 (wrong: 17 at the first bad number)",
    );
    lines.expect_check(&chain, "1,1,,", "refused 16 4");
    lines.expect_check(&chain, "3,,", "refused 16 2");
    lines.expect_check(&chain, "99&(1", "refused 16 5");
    lines.note(
        "numbers-to-99",
        "33 to 99 are numbers of the grammar (wrong: 16); 100 is 16 at its third digit",
    );
    lines.expect_check(&chain, "33", "refused 17 0");
    lines.expect_check(&chain, "1,99,2", "refused 17 2");
    lines.expect_check(&chain, "100", "refused 16 2");
    lines.expect_check(&chain, "0", "refused 16 0");
    lines.expect_check(&chain, "1,02", "refused 16 2");
    lines.expect_check(&chain, "10,20", "refused 17 0");
    let full = Parts::longest_form();
    lines.expect_check(&full, "33", "refused 17 0");
    lines.expect_check(&full, "99", "refused 17 0");
    lines.expect_check(&full, "100", "refused 16 2");
    lines.expect_check(&full, "32", "refused 17 2");
    lines.note("spare-parentheses", "spare parentheses count as open; the 33rd is 16 at its byte");
    let nested = |deep: usize| "(".repeat(deep) + "1" + &")".repeat(deep);
    let one = waiting(1, &[]);
    lines.expect_check(&one, &nested(32), "same");
    lines.expect_check(&one, &nested(33), "refused 16 32");
    lines.expect_check(&one, &("(".repeat(40) + "x"), "refused 16 32");
    lines.note("at-a-time", "at most 32 at a time, not in all (wrong: counting every parenthesis)");
    let ten = waiting(10, &[]);
    let text = padded(b"1&2&3&4&5&6&7&8&9&10", 512);
    assert_eq!(lines.check(&ten, &text), "same");
    lines.note("one-member", "one member is the member itself");
    for text in ["((1)),2", "(1),(2)", "(1,2)", "((1),((2)))"] {
        lines.expect_check(&chain, text, "same");
    }
    lines
        .note("i-above-j", "i may be above j (wrong: only i below j is compared, which says same)");
    lines.expect_check(&waiting(2, &[]), "2,1", "differs 2 1");
    lines.expect_check(&waiting(3, &[]), "3,(1&2)", "differs 3 1");
    lines.expect_check(&chain, "2,1", "differs 1 2");
    lines.note(
        "compared-without-form",
        "a clause without a form is compared like any other (wrong: 13)",
    );
    let none = waiting(4, &[(1, 3), (2, 3), (2, 4)]);
    lines.expect_check(&none, "(1&2),(3&4)", "differs 1 4");
    lines.note("nested", "nested sequences and groups mean what the flat ones do");
    lines.expect_check(&waiting(3, &[(1, 2), (2, 3)]), "1,(2,3)", "same");
    lines.expect_check(&waiting(3, &[]), "(3&2)&1", "same");
}

fn form_readings(lines: &mut Lines) {
    lines.note("closure-first", "the closure is taken first (wrong: 1-2, 2-3 looks like a loss)");
    lines.expect_form(&waiting(3, &[(1, 2), (2, 3)]), "1,2,3");
    lines.expect_form(&waiting(4, &[(1, 2), (2, 3), (3, 4)]), "1,2,3,4");
    lines.note(
        "overlapping-sets",
        "predecessor sets may overlap where one holds the other (wrong: 13)",
    );
    lines.expect_form(&waiting(4, &[(1, 3), (1, 4), (2, 4), (3, 4)]), "((1,3)&2),4");
    lines.expect_form(&waiting(4, &[(1, 3), (2, 3), (2, 4), (3, 4)]), "(1&2),3,4");
    lines.note(
        "members-ascend",
        "group members ascend by their smallest goal (wrong: by their number of goals)",
    );
    lines.expect_form(&waiting(3, &[(2, 3)]), "1&(2,3)");
    lines.expect_form(&waiting(3, &[(1, 3)]), "(1,3)&2");
    lines.expect_form(&waiting(5, &[(2, 5), (3, 4)]), "1&(2,5)&(3,4)");
    lines.note("ground-shared", "a shared ground variable is no wait");
    let mut ground = Parts::over(2, &[1, 3]);
    ground.ground = 1;
    lines.expect_form(&ground, "1&2");
    lines
        .note("first-four", "13 names the first four by a, then b, c, d, though there are several");
    let several = waiting(6, &[(1, 4), (2, 4), (2, 5), (3, 5), (3, 6)]);
    lines.expect(format!("form {LANDED} {} 146", hex(&several.record())), &no_form([1, 2, 4, 5]));
    lines.expect(format!("length {LANDED} {}", hex(&several.record())), &no_form([1, 2, 4, 5]));
    lines.note("13-before-12", "13 comes before 12");
    lines.expect(format!("form {LANDED} {} 0", hex(&several.record())), &no_form([1, 2, 4, 5]));
    lines.note("first-occurrence", "only MEL knows first occurrences: head {0}, goals {0}, {1}");
    let mut fresh = Parts::over(2, &[0b01, 0b10]);
    fresh.head = 1;
    lines.expect_form(&fresh, "1,2");
    lines.expect_mel(&fresh, "(1&2)");
    lines.note("longest-form", "the longest form has 146 bytes");
    let longest = Parts::longest_form();
    assert!(lines.form(&longest, 146).starts_with("ok 146 "));
    lines.expect(format!("form {LANDED} {} 145", hex(&longest.record())), "refused 12 146");
}

fn mel_readings(lines: &mut Lines) {
    lines.note(
        "lower-first",
        "pairs are lower first, whichever goal holds the lower (wrong: goal order)",
    );
    lines.expect_mel(&Parts::over(2, &[0b10, 0b01]), "(indep(v0,v1)=>1&2)");
    lines.note("listed-once", "a pair is listed once (wrong: (v1,v0) beside (v0,v1))");
    lines.expect_mel(&Parts::over(2, &[0b01, 0b10]), "(indep(v0,v1)=>1&2)");
    lines.note("sorted-as-numbers", "variables sort as numbers (wrong: v10 before v2)");
    let mel = "(indep(v2,v10),indep(v2,v11),indep(v10,v11)=>1&2&3)";
    lines.expect_mel(&Parts::over(12, &[1 << 2, 1 << 10, 1 << 11]), mel);
    lines.expect_mel(&Parts::over(11, &[1 << 2 | 1 << 10; 2]), "(ground(v2),ground(v10)=>1&2)");
    lines.note(
        "fresh-in-stage",
        "a variable first met in the stage is not known there (wrong: known once its goal ran)",
    );
    let mut fresh = Parts::over(3, &[0b011, 0b100]);
    fresh.head = 0b101;
    lines.expect_mel(&fresh, "(indep(v0,v2)=>1&2)");
    lines.note("known-before", "a variable met in an earlier stage is known");
    let mut earlier = Parts::over(3, &[0b010, 0b010, 0b001]);
    earlier.head = 0b001;
    lines.expect_mel(&earlier, "1,(indep(v0,v1)=>2&3)");
    let mut last = Parts::over(64, &[1 << 63, 1 << 63, 1]);
    last.head = 1;
    lines.expect_mel(&last, "1,(indep(v0,v63)=>2&3)");
    lines.note("ground-unchecked", "a known ground variable is in no check, though it is shared");
    let mut ground = Parts::over(2, &[0b11, 0b01]);
    ground.ground = 0b01;
    lines.expect_mel(&ground, "(1&2)");
    lines.note("ground-no-pair", "a shared variable that has a ground check is in no pair");
    lines.expect_mel(&Parts::over(3, &[0b011, 0b101]), "(ground(v0),indep(v1,v2)=>1&2)");
    lines.note("head-ends-none", "a head variable ends no stage");
    lines.expect_mel(&Parts::over(1, &[1, 1, 1]), "(ground(v0)=>1&2&3)");
    lines.note("full-width", "the place of 12 is a full-width number (wrong: 16 bits)");
    let joining: Vec<u8> = (49..64).collect();
    let long = Parts::in_stages(64, &[2; 16], &joining, false);
    lines.expect(format!("mel {LANDED} {} 0", hex(&long.record())), "refused 12 188354");
}

/// A sample: its name, its description and its record.
macro_rules! sample {
    ($name:literal) => {
        (
            $name,
            include_str!(concat!("../../../../samples/", $name, ".txt")),
            &include_bytes!(concat!("../../../../samples/", $name, ".lfj"))[..],
        )
    };
}

pub(super) fn samples() -> Lines {
    let mut lines = Lines::new("samples", "The fourteen samples: what the sheet prints for each.");
    for (name, text, record) in [
        sample!("half-motif"),
        sample!("document-003"),
        sample!("no-form"),
        sample!("deep-nesting"),
        sample!("ground-facts"),
        sample!("ground-on-the-way"),
        sample!("durations"),
        sample!("side-by-side"),
        sample!("more-heads"),
        sample!("three-stages"),
        sample!("longest-form"),
        sample!("long-mel"),
        sample!("refused-cut"),
        sample!("refused-pair"),
    ] {
        let about = text.lines().next().unwrap_or("").trim_start_matches("# ");
        lines.note(name, about);
        lines.sheet(record);
    }
    lines
}

/// Seeded records and texts, valid and damaged, every operation.
pub(super) fn mixed() -> Lines {
    let mut lines =
        Lines::new("mixed", "Seeded records and texts, valid and damaged, every operation.");
    lines.note("seeded", "450 questions");
    let mut random = Random::new(7);
    for case in 0..450 {
        let mut record = loop {
            let record = generate::parts(&mut random).record();
            if record.len() < 900 {
                break record;
            }
        };
        let goals = record[5] as usize;
        let mut form = [0; crate::FORM_LIMIT];
        let length = crate::form(&record, &mut form).unwrap_or(0) as usize;
        let mut mel = vec![0; 1 << 18];
        let mel = crate::mel(&record, &mut mel).unwrap_or(0) as usize;
        let text = generate::text(&mut random, goals, &form[..length]);
        if random.chance(1, 4) {
            generate::damage(&mut random, &mut record);
        }
        let record = hex(&record);
        let question = match case % 8 {
            _ if case >= 400 => format!("passes {LANDED} {record}"),
            0 => format!("order {LANDED} {record}"),
            1 => format!("form {LANDED} {record} {}", generate::room(&mut random, length)),
            2 => format!("length {LANDED} {record}"),
            3 if mel < 1000 => {
                format!("mel {LANDED} {record} {}", generate::room(&mut random, mel))
            }
            3 => format!("mel {LANDED} {record} {}", random.below(mel)),
            4 => format!("text {LANDED} {record} {}", random.below(goals + 2)),
            5 if mel < 1000 => format!("sheet {LANDED} {record}"),
            5 => format!("waits {LANDED} {record}"),
            _ => format!("check {LANDED} {record} {}", hex(&text)),
        };
        lines.ask(question);
    }
    lines
}

//! Version 2: facts at each goal, refusals 18 and 19.

use super::record::with_byte;
use super::{Lines, waiting};
use crate::TICK_LIMIT;
use crate::build::Parts;
use crate::cases::hex;
use crate::generate::{self, Random};

/// Three goals of 4 bytes of text each, 93 bytes: head {0, 1}, ground sets {}, {1}, {1, 2}.
/// The goals start at 24, 47 and 70.
fn three() -> Parts {
    let mut parts = Parts::over(3, &[0b001, 0b110, 0b101]).knowing(&[0b000, 0b010, 0b110]);
    parts.head = 0b011;
    for (at, text) in ["half", "edge", "join"].iter().enumerate() {
        parts.goals[at].1 = text.as_bytes().to_vec();
        parts.facts[at].ticks = [12, 1, 60_000][at];
    }
    parts
}

pub(super) fn record() -> Lines {
    let mut lines = Lines::new(
        "record-version-2",
        "Records of version 2: the fixed part of 19 bytes, refusals 3, 7, 18 and 19.",
    );
    let record = three().record();
    assert_eq!(record.len(), 93);
    lines.note(
        "cut-and-longer",
        "a record of version 2, cut at every length and with bytes behind it",
    );
    lines.expect_read(&record, "ok");
    for length in 0..record.len() {
        lines.read(&record[..length]);
    }
    lines.expect_read(&record[..42], "refused 7 42");
    lines.read(&[&record[..], &[0]].concat());
    lines.note("3-version", "3: neither version");
    for version in [0u16, 3, 4, 255, 256, 258, 512, 513, 65_535] {
        let mut other = record.clone();
        other[3..5].copy_from_slice(&version.to_be_bytes());
        lines.expect_read(&other, "refused 3 3");
    }
    lines.note("as-version-1", "the same bytes read as version 1");
    lines.read(&with_byte(&record, 4, 1));
    grounds(&mut lines);
    ticks(&mut lines);
    which_first(&mut lines);
    lines.note("text-length", "the text of 1 to 24 bytes behind a fixed part of 19");
    for length in [1, 2, 7, 8, 9, 23, 24, 25, 40, 41] {
        let mut parts = three();
        parts.goals[1].1 = vec![b'x'; length];
        lines.read(&parts.record());
        parts.goals[1].1[length - 1] = 127;
        lines.read(&parts.record());
    }
    for length in [0, 25, 40, 41, 255] {
        lines.expect_read(&with_byte(&record, 42, length), "refused 9 42");
    }
    lines.note("goal-counts", "1 to 32 goals");
    for goals in 1..=32 {
        lines.read(&Parts::over(1, &vec![1; goals]).knowing(&[]).record());
    }
    for count in [0, 2, 4, 33] {
        lines.read(&with_byte(&record, 5, count));
    }
    lines.note("pairs", "pairs, and bytes left over");
    let mut parts = three();
    parts.pairs = vec![(0, 1), (0, 2)];
    lines.read(&parts.record());
    lines.read(&parts.record()[..95]);
    lines.read(&[&parts.record()[..], &[0, 1]].concat());
    parts.pairs = vec![(0, 2), (0, 1)];
    lines.read(&parts.record());
    lines.note("longest", "the longest record, 1,910 bytes, and one byte more or less");
    let mut longest = Parts::longest_wide_record().record();
    assert_eq!(longest.len(), 1910);
    lines.read(&longest);
    lines.read(&longest[..1909]);
    longest.push(33);
    lines.read(&longest);
    lines.note("seeded", "seeded records, valid and damaged");
    let mut random = Random::new(23);
    let mut cases = 0;
    while cases < 150 {
        let parts = generate::clause(&mut random);
        if parts.facts.is_empty() || parts.goals.len() > 12 {
            continue;
        }
        let record = match random.chance(2, 3) {
            true => generate::damaged(&mut random, &parts),
            false => parts.record(),
        };
        lines.read(&record);
        cases += 1;
    }
    lines
}

/// Refusal 18.
fn grounds(lines: &mut Lines) {
    lines.note(
        "18-lacking",
        "18: a variable of the ground set before is lacking, at goal 1 of the header's",
    );
    let mut parts = three();
    parts.ground = 0b001;
    lines.expect_read(&parts.record(), "refused 18 32");
    parts.facts[0].ground = 0b001;
    lines.expect_read(&parts.record(), "refused 18 55");
    parts.facts[1].ground = 0b011;
    lines.expect_read(&parts.record(), "refused 18 78");
    parts.facts[2].ground = 0b111;
    lines.expect_read(&parts.record(), "ok");
    lines.note(
        "18-outside",
        "18: a variable in neither the head nor an earlier goal (wrong: the goal's own)",
    );
    let mut parts = three();
    parts.facts[1].ground = 0b110;
    lines.expect_read(&parts.record(), "refused 18 55");
    parts.goals[0].0 |= 0b100;
    lines.expect_read(&parts.record(), "ok");
    let own = Parts::over(1, &[1]);
    let own = Parts { head: 0, ..own }.knowing(&[1]);
    lines.expect_read(&own.record(), "refused 18 32");
    lines.note("18-union", "outside the union: met in the head or in an earlier goal is enough");
    let mut parts = Parts::over(2, &[0b10, 0b00]).knowing(&[0b00, 0b11]);
    parts.head = 0b01;
    lines.expect_read(&parts.record(), "ok");
    lines.note("18-not-8", "18 and not 8 for a ground bit at or above the variable count");
    for bit in [3, 4, 31, 32, 63] {
        for goal in 0..3 {
            let mut parts = three();
            parts.facts[goal].ground |= 1 << bit;
            let place = 24 + 23 * goal + 8;
            lines.expect_read(&parts.record(), &format!("refused 18 {place}"));
        }
    }
    lines.note("18-all-sets", "every ground set of two goals over two variables, every head");
    for head in 0..4u64 {
        for grounds in 0..16 {
            let mut parts = Parts::over(2, &[0b10, 0b01]).knowing(&[grounds & 3, grounds >> 2]);
            parts.head = head;
            lines.read(&parts.record());
        }
    }
    lines.note("18-each-variable", "each of 64 variables, in the head or not");
    for bit in 0..64 {
        let mut parts = Parts::over(64, &[0, 0]).knowing(&[0, 1 << bit]);
        lines.read(&parts.record());
        parts.head &= !(1 << bit);
        lines.read(&parts.record());
        parts.goals[0].0 = 1 << bit;
        lines.read(&parts.record());
    }
}

/// Refusal 19.
fn ticks(lines: &mut Lines) {
    lines.note("19-ticks", "19: 1 to 60,000 ticks, most significant byte first");
    for goal in 0..3 {
        for ticks in [0, 1, 2, 255, 256, 59_999, 60_000, 60_001, 60_416, 65_280, 65_535] {
            let mut parts = three();
            parts.facts[goal].ticks = ticks;
            let answer = match (1..=TICK_LIMIT).contains(&ticks) {
                true => "ok".to_string(),
                false => format!("refused 19 {}", 24 + 23 * goal + 16),
            };
            lines.expect_read(&parts.record(), &answer);
        }
    }
}

/// Two faults in one record.
fn which_first(lines: &mut Lines) {
    /// A fault of each refusal, in the paper's order.
    const FAULTS: [(&str, &[(usize, u8)]); 15] = [
        ("2 0", &[(1, b'f')]),
        ("3 3", &[(4, 3)]),
        ("4 5", &[(5, 0)]),
        ("5 6", &[(6, 65)]),
        ("6 8", &[(8, 128)]),
        ("6 16", &[(23, 4)]),
        ("8 24", &[(24, 1)]),
        ("18 32", &[(39, 4)]),
        ("18 32", &[(32, 1)]),
        ("19 40", &[(40, 0), (41, 0)]),
        ("9 42", &[(42, 0)]),
        ("9 44", &[(44, 32)]),
        ("8 47", &[(47, 1)]),
        ("18 55", &[(62, 0b100)]),
        ("19 86", &[(86, 255)]),
    ];
    let record = three().record();
    let changed = |faults: &[&[(usize, u8)]]| {
        let mut changed = record.clone();
        for (place, value) in faults.iter().flat_map(|fault| fault.iter()) {
            changed[*place] = *value;
        }
        changed
    };
    lines.note("two-faults", "each two of the faults: 8, then 18, then 19, then 9, goal by goal");
    for (at, (first, one)) in FAULTS.iter().enumerate() {
        lines.expect_read(&changed(&[*one]), &format!("refused {first}"));
        for (_, other) in &FAULTS[at + 1..] {
            lines.read(&changed(&[*one, *other]));
        }
    }
    lines.note(
        "cut",
        "a fault in a record that is cut off: 7 only where the fixed part or text is cut",
    );
    for (_, fault) in FAULTS {
        for length in [24, 33, 42, 43, 44, 46, 50, 65] {
            lines.read(&changed(&[fault])[..length]);
        }
    }
    lines.note("every-operation", "every operation starts with reading the record");
    let bad = hex(&with_byte(&record, 39, 4));
    for (operation, rest) in [
        ("waits", ""),
        ("order", ""),
        ("form", " 0"),
        ("length", ""),
        ("mel", " 0"),
        ("text", " 0"),
        ("check", " -"),
        ("sheet", ""),
    ] {
        lines.ask(format!("{operation} {} {bad}{rest}", crate::cases::LANDED));
    }
}

/// All operations on one clause.
fn all(lines: &mut Lines, parts: &Parts) {
    lines.waits(parts);
    lines.order(parts);
    lines.form(parts, 146);
    lines.mel(parts, 1200);
}

pub(super) fn facts() -> Lines {
    let mut lines = Lines::new(
        "facts",
        "Version 2: a pair of goals is judged at its earlier goal, a MEL stage at its first.",
    );
    lines.note(
        "late",
        "two goals over v0, which gets ground at goal 2: too late (wrong: at the later goal)",
    );
    let late = Parts::over(1, &[1, 1]).knowing(&[0, 1]);
    lines.expect_form(&late, "1,2");
    lines.expect_mel(&late, "(ground(v0)=>1&2)");
    lines.note("early", "ground at goal 1, while the header knows nothing (wrong: by the header)");
    let early = Parts::over(1, &[1, 1]).knowing(&[1, 1]);
    lines.expect_form(&early, "1&2");
    lines.expect_mel(&early, "(1&2)");
    lines.note("side-by-side", "three goals: 1 is before both, 2 and 3 run side by side");
    let third = Parts::over(1, &[1, 1, 1]).knowing(&[0, 1, 1]);
    lines.expect_form(&third, "1,(2&3)");
    lines.expect_mel(&third, "(ground(v0)=>1&2&3)");
    lines.expect_check(&third, "1,(3&2)", "same");
    lines.expect_check(&third, "1,2,3", "differs 2 3");
    lines.expect_check(&third, "1&2&3", "differs 1 2");
    lines.note(
        "stage-first",
        "a MEL stage drops what is ground at its first goal, not at a later one",
    );
    let mut stages = Parts::over(3, &[0b010, 0b011, 0b101]).knowing(&[0b000, 0b010, 0b010]);
    stages.head = 0b101;
    lines.expect_mel(&stages, "1,(ground(v0)=>2&3)");
    let mut later = Parts::over(3, &[0b010, 0b011, 0b101]).knowing(&[0b000, 0b000, 0b010]);
    later.head = 0b101;
    lines.expect_mel(&later, "1,(ground(v0),indep(v1,v2)=>2&3)");
    other_facts(&mut lines);
    facts_in_full(&mut lines);
    seeded(&mut lines);
    lines
}

/// Facts outside the head, pairs and ticks.
fn other_facts(lines: &mut Lines) {
    lines.note("outside-head", "a variable outside the head that is ground behind its first goal");
    let mut outside = Parts::over(2, &[0b10, 0b11, 0b10]).knowing(&[0b00, 0b10, 0b10]);
    outside.head = 0b01;
    all(lines, &outside);
    lines.note("pairs", "pairs are facts at every goal");
    let mut pairs = Parts::over(2, &[0b01, 0b10, 0b01, 0b10]).knowing(&[0, 0, 1, 1]);
    all(lines, &pairs);
    pairs.pairs = vec![(0, 1)];
    all(lines, &pairs);
    lines.note("ticks", "ticks change nothing here");
    let mut timed = pairs.clone();
    timed.facts.iter_mut().zip([60_000, 7, 256, 2]).for_each(|(facts, ticks)| facts.ticks = ticks);
    all(lines, &timed);
    lines.note("as-version-1", "the same facts at each goal are those of version 1");
    for ground in 0..4 {
        let mut parts = Parts::over(2, &[0b11, 0b01, 0b10]);
        parts.ground = ground;
        lines.form(&parts, 146);
        lines.form(&parts.clone().knowing(&[]), 146);
        lines.mel(&parts, 400);
        lines.mel(&parts.knowing(&[]), 400);
    }
}

/// Facts at a goal in full, on small clauses and on 32 goals.
fn facts_in_full(lines: &mut Lines) {
    lines.note(
        "two-goals",
        "two goals over two variables: all sets, all ground sets that grow, listed or not",
    );
    for sets in 0..16u64 {
        for first in 0..4u64 {
            for second in (0..4).filter(|second| first & !second == 0) {
                let mut parts = Parts::over(2, &[sets & 3, sets >> 2]).knowing(&[first, second]);
                lines.waits(&parts);
                lines.mel(&parts, 400);
                parts.pairs = vec![(0, 1)];
                lines.waits(&parts);
                lines.mel(&parts, 400);
            }
        }
    }
    lines.note("four-goals", "four goals over one variable: every goal from which on it is ground");
    for sets in 0..16u64 {
        for from in 0..5 {
            let set: Vec<u64> = (0..4).map(|goal| sets >> goal & 1).collect();
            let grounds: Vec<u64> = (0..4).map(|goal| (goal >= from) as u64).collect();
            lines.order(&Parts::over(1, &set).knowing(&grounds));
        }
    }
    lines.note("goal-texts", "goal texts stand behind a fixed part of 19 bytes");
    for goal in 0..=4 {
        lines.goal_text(&three(), goal);
    }
    lines.goal_text(&Parts::longest_wide_record(), 32);
    lines.note(
        "version-1-clauses",
        "clauses of version 1 in version 2: forms and clauses without one",
    );
    for parts in [
        waiting(5, &[(2, 5), (3, 4)]),
        waiting(4, &[(1, 3), (2, 3), (2, 4)]),
        Parts::without_form(32),
        Parts::longest_form(),
    ] {
        lines.form(&parts.clone().knowing(&[]), 146);
        lines.length(&parts.clone().knowing(&[]));
        lines.form(&parts.knowing(&[]), 0);
    }
    lines.note("each-goal", "32 goals over one variable: every goal from which on it is ground");
    for from in 0..=32 {
        let grounds: Vec<u64> = (0..32).map(|goal| (goal >= from) as u64).collect();
        lines.order(&Parts::over(1, &[1; 32]).knowing(&grounds));
    }
}

/// Seeded clauses of version 2, every operation.
fn seeded(lines: &mut Lines) {
    lines.note("seeded", "seeded clauses, every operation");
    let mut random = Random::new(29);
    let mut cases = 0;
    while cases < 320 {
        let parts = generate::clause(&mut random);
        let record = parts.record();
        if parts.facts.is_empty() || record.len() > 700 {
            continue;
        }
        let mut form = [0; crate::FORM_LIMIT];
        let length = crate::form(&record, &mut form).unwrap_or(0) as usize;
        let mut mel = vec![0; 1 << 18];
        let mel = crate::mel(&record, &mut mel).unwrap_or(0) as usize;
        let text = generate::text(&mut random, parts.goals.len(), &form[..length]);
        match cases % 8 {
            0 => lines.waits(&parts),
            1 | 2 => lines.order(&parts),
            3 => {
                lines.form(&parts, generate::room(&mut random, length));
            }
            4 => lines.length(&parts),
            5 if mel < 1000 => {
                lines.mel(&parts, generate::room(&mut random, mel));
            }
            6 if mel < 1000 => lines.sheet(&record),
            5 | 6 => {
                lines.mel(&parts, random.below(mel));
            }
            _ => {
                lines.check(&parts, &text);
            }
        }
        cases += 1;
    }
}

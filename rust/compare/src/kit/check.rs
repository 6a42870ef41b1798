//! The check of an expression: refusals 15 to 17 and the verdict.

use super::{Lines, among, every_order, waiting};
use crate::build::Parts;
use crate::generate::{Expression, Random, padded};

pub(super) fn grammar() -> Lines {
    let mut lines = Lines::new("check-grammar", "The grammar of expressions: refusals 15 and 16.");
    let two = waiting(2, &[(1, 2)]);
    lines.note("three-signs", "every text of up to three signs of ( ) , & 0 1 2");
    lines.check(&two, b"");
    let mut texts: Vec<Vec<u8>> = vec![Vec::new()];
    for _ in 0..3 {
        let longer = texts
            .iter()
            .flat_map(|text| b"(),&012".iter().map(|sign| [&text[..], &[*sign]].concat()))
            .collect();
        texts = longer;
        for text in &texts {
            lines.check(&two, text);
        }
    }
    lines.note("wrong-byte", "one wrong byte in a text of the grammar, and the text cut off");
    let four = waiting(4, &[(1, 2)]);
    let text = b"((1,2)&3),10";
    for at in 0..=text.len() {
        for sign in b"(),&0x 9\x00\xff" {
            if at < text.len() {
                let mut other = text.to_vec();
                other[at] = *sign;
                lines.check(&four, &other);
            }
        }
        lines.check(&four, &text[..at]);
    }
    lines.note("each-byte", "every byte alone, and behind a number");
    let single = waiting(1, &[]);
    for byte in 0..=255 {
        lines.check(&single, &[byte]);
        lines.check(&single, &[b'1', byte]);
    }
    parentheses(&mut lines);
    lines
}

/// Open parentheses, and the length of a text.
fn parentheses(lines: &mut Lines) {
    lines.note("open-parentheses", "open parentheses, spare ones too: 32 at a time");
    let one = waiting(1, &[]);
    for deep in [1, 2, 16, 31, 32, 33, 34, 64, 255, 256] {
        let open = vec![b'('; deep];
        let close = vec![b')'; deep];
        lines.check(&one, &[&open[..], b"1", &close].concat());
        lines.check(&one, &open);
        lines.check(&one, &[&open[..], b"x"].concat());
        lines.check(&one, &[&open[..], b"1", &close, b")"].concat());
    }
    lines.note("closed-parentheses", "closed ones do not count");
    let ten = waiting(10, &[]);
    for length in [60, 100, 200, 300, 400, 500, 508, 510, 512] {
        lines.check(&ten, &padded(b"1&2&3&4&5&6&7&8&9&10", length));
    }
    lines.note("text-length", "15: empty, or above 512 bytes whatever they are");
    for length in [510, 511, 512, 513, 514, 1000] {
        for sign in b"1,(x" {
            lines.check(&ten, &vec![*sign; length]);
        }
        let mut text = padded(b"1&2&3&4&5&6&7&8&9&10", 512);
        text.resize(length, b')');
        lines.check(&ten, &text);
    }
}

pub(super) fn numbers() -> Lines {
    let mut lines = Lines::new("check-goals", "Goals in expressions: refusal 17.");
    lines.note("numbers", "every number of one and two digits, and three digits");
    for goals in [1, 9, 10] {
        let parts = waiting(goals, &[]);
        for number in 0..=101 {
            lines.check(&parts, number.to_string().as_bytes());
        }
    }
    lines.note("thirty-two-goals", "32 goals: 32 is one, 33 is none");
    let many = Parts::over(1, &[0; 32]);
    let all: Vec<String> = (1..=32).map(|goal| goal.to_string()).collect();
    lines.check(&many, all.join("&").as_bytes());
    for wrong in ["33", "1", "31", "99"] {
        let text = [&all.join("&"), "&", wrong].concat();
        lines.check(&many, text.as_bytes());
        let text = [wrong, "&", &all.join("&")].concat();
        lines.check(&many, text.as_bytes());
    }
    lines.note("missing", "a goal missing: place the text's length");
    for missing in 0..32 {
        let mut some = all.clone();
        some.remove(missing);
        lines.check(&many, some.join("&").as_bytes());
    }
    lines.note("leftmost", "the leftmost number above n or met before; 16 first");
    let three = waiting(3, &[(1, 2)]);
    for text in [
        "1,2,3",
        "1,2,2",
        "1,1,4",
        "4,1,1",
        "1,4,1",
        "(1,2),(3,1)",
        "1,2,3,3",
        "1,2",
        "2,3",
        "3",
        "1,2,3,4",
        "(1),(1)",
        "((4))",
        "1&2&3&1",
        "1,1,",
        "4,(",
        "1,2,3)",
        "11,2,3",
        "1,22,3",
        "1,2,30",
        "10,20,30",
        "2,12&1",
        "123",
    ] {
        lines.check(&three, text.as_bytes());
    }
    lines
}

fn form_of(parts: &Parts) -> Vec<u8> {
    let mut out = vec![0; 146];
    let length = crate::form(&parts.record(), &mut out).expect("a form");
    out.truncate(length as usize);
    out
}

pub(super) fn verdicts() -> Lines {
    let mut lines =
        Lines::new("check-order", "The verdict: same, or differs at the first i, then j.");
    lines.note(
        "three-goals",
        "every order of three goals against the orders of three goals, in their forms",
    );
    let orders = every_order(3);
    let forms: Vec<Vec<u8>> = orders.iter().map(form_of).collect();
    for parts in &orders {
        for form in &forms {
            lines.check(parts, form);
        }
    }
    lines.note("two-goals", "two goals in every way");
    for parts in every_order(2) {
        for text in ["1,2", "2,1", "1&2", "2&1", "(1),(2)", "((2)&(1))"] {
            lines.check(&parts, text.as_bytes());
        }
    }
    lines.note("precedence", "& binds closer than ,");
    for text in ["(1&2,3)&4", "1&2,3&4", "(1,2&3)&4"] {
        lines.check(&waiting(4, &[(1, 3), (2, 3)]), text.as_bytes());
    }
    seeded(&mut lines);
    high_goals(&mut lines);
    lines
}

/// Seeded expressions against seeded clauses.
fn seeded(lines: &mut Lines) {
    lines.note("seeded", "seeded expressions, in house form or not, against seeded clauses");
    let mut random = Random::new(19);
    for _ in 0..200 {
        let goals = random.between(2, 12);
        let numbers: Vec<usize> = (1..=goals).collect();
        let serial = random.between(1, 7);
        let stated = Expression::random(&mut random, &numbers, true, serial);
        let mut pairs = Vec::new();
        stated.order(&mut pairs);
        // As it is, or one wait more or less.
        if random.chance(1, 2) && !pairs.is_empty() {
            let out = random.below(pairs.len());
            pairs.remove(out);
        }
        if random.chance(1, 4) {
            let extra = super::all_pairs(goals);
            pairs.push(random.pick(&extra));
        }
        let mut text = Vec::new();
        stated.write(&mut random, 4, &mut text, false);
        if text.len() <= 512 {
            lines.check(&waiting(goals, &pairs), &text);
        }
    }
    lines.note("against-the-numbers", "expressions whose sequences go against the numbers");
    for _ in 0..60 {
        let goals = random.between(2, 6);
        let numbers: Vec<usize> = (1..=goals).collect();
        let stated = Expression::random(&mut random, &numbers, false, 5);
        let mut text = Vec::new();
        stated.write(&mut random, 1, &mut text, false);
        let waits: Vec<_> =
            super::all_pairs(goals).into_iter().filter(|_| random.chance(1, 3)).collect();
        lines.check(&waiting(goals, &waits), &text);
    }
}

/// Of 32 goals side by side two in a sequence, `first` before `second`.
fn one_sequence(first: usize, second: usize) -> Vec<u8> {
    let others = (1..=32).filter(|goal| *goal != first && *goal != second);
    let mut members: Vec<String> = others.map(|goal| goal.to_string()).collect();
    members.push(format!("({first},{second})"));
    members.join("&").into_bytes()
}

/// Goal 32 in an expression, before and behind others.
fn high_goals(lines: &mut Lines) {
    let none = Parts::over(1, &[0; 32]);
    lines.note("each-goal", "two neighbours of 32 goals in a sequence that the clause has not");
    for goal in 1..=31 {
        let text = one_sequence(goal, goal + 1);
        assert_eq!(lines.check(&none, &text), format!("differs {goal} {}", goal + 1));
        lines.check(&among(&[goal, goal + 1], &[(goal, goal + 1)]), &text);
    }
    lines.note("32-behind", "goal 32 behind another, or before it");
    for goal in [1, 2, 15, 16, 30, 31] {
        let waiting = among(&[goal, 32], &[(goal, 32)]);
        assert_eq!(lines.check(&waiting, &one_sequence(goal, 32)), "same");
        lines.check(&waiting, &one_sequence(32, goal));
        lines.check(&none, &one_sequence(goal, 32));
        lines.check(&none, &one_sequence(32, goal));
    }
    lines.note("32-through-another", "goal 32 is behind goal 1 through another one alone");
    for goal in 2..=31 {
        let parts = among(&[1, goal, 32], &[(1, goal), (goal, 32)]);
        assert_eq!(lines.check(&parts, &form_of(&parts)), "same");
    }
    lines.note("each-variable", "goals 1 and 3 share a variable; a pair of it is listed");
    for x in 0..64 {
        let mut parts = Parts::over(64, &[1 << x, 0, 1 << x]);
        parts.pairs = vec![if x < 63 { (x, x + 1) } else { (0, 63) }];
        assert_eq!(lines.check(&parts, b"1&2&3"), "differs 1 3");
    }
    let all: Vec<String> = (1..=32).map(|goal| goal.to_string()).collect();
    let chain = Parts::over(1, &[1; 32]);
    lines.note("32-in-a-row", "32 goals in a row, and the row without its last wait");
    for text in [all.join(","), all[..30].join(",") + ",(31&32)", all[..30].join(",") + ",32,31"] {
        lines.check(&chain, text.as_bytes());
    }
    lines.check(&Parts::longest_form(), &form_of(&Parts::longest_form()));
}

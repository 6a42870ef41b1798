//! The annotator against the paper's definitions, worded as plainly as can be: all orders
//! of few goals, and seeded clauses of any size.

use compare::build::Parts;
use compare::cases::Reference;
use compare::generate::{self, Expression, Random};
use compare::kit::every_graph;
use compare::{Refusal, Verdict};
use std::collections::BTreeSet;

type Relation = BTreeSet<(usize, usize)>;

/// "Otherwise the later goal waits for the earlier one."
fn waits(parts: &Parts) -> Relation {
    let holds = |goal: usize, x: usize| parts.goals[goal - 1].0 >> x & 1 == 1;
    let independent = |i: usize, j: usize| {
        // 02: "a pair of goals is judged by the ground set at its earlier goal"
        let ground = |x: usize| parts.ground_at(i - 1) >> x & 1 == 1;
        let known = |x: usize, y: usize| {
            let pair = (x.min(y) as u8, x.max(y) as u8);
            ground(x) || ground(y) || parts.pairs.contains(&pair)
        };
        let shared = (0..64).all(|x| !(holds(i, x) && holds(j, x)) || ground(x));
        shared
            && (0..64)
                .filter(|x| holds(i, *x) && !holds(j, *x))
                .all(|x| (0..64).filter(|y| holds(j, *y) && !holds(i, *y)).all(|y| known(x, y)))
    };
    let goals = parts.goals.len();
    let pairs = (1..=goals).flat_map(|i| (i + 1..=goals).map(move |j| (i, j)));
    pairs.filter(|(i, j)| !independent(*i, *j)).collect()
}

/// "a chain of waits leads from i to j"
fn closed(waits: &Relation) -> Relation {
    let mut order = waits.clone();
    loop {
        let mut more = order.clone();
        for (i, j) in &order {
            more.extend(order.range((*j, 0)..(*j + 1, 0)).map(|(_, k)| (*i, *k)));
        }
        if more.len() == order.len() {
            return order;
        }
        order = more;
    }
}

/// "the first such by a, then b, c, d"
fn first_without_form(order: &Relation, goals: usize) -> Option<[u8; 4]> {
    let before = |i: usize, j: usize| order.contains(&(i, j));
    for a in 1..=goals {
        for b in 1..=goals {
            for c in (1..=goals).filter(|c| before(a, *c) && before(b, *c)) {
                for d in (1..=goals).filter(|d| before(b, *d)) {
                    let four = [a, b, c, d];
                    let wanted = [(a, c), (b, c), (b, d)];
                    let only = four
                        .iter()
                        .all(|x| four.iter().all(|y| before(*x, *y) == wanted.contains(&(*x, *y))));
                    let distinct = four.iter().collect::<BTreeSet<_>>().len() == 4;
                    if only && distinct {
                        return Some(four.map(|goal| goal as u8));
                    }
                }
            }
        }
    }
    None
}

fn set(variables: u64) -> BTreeSet<usize> {
    (0..64).filter(|x| variables >> x & 1 == 1).collect()
}

/// Section "The MEL annotation", sentence by sentence.
fn mel(parts: &Parts) -> String {
    let goal = |g: usize| set(parts.goals[g - 1].0);
    let head = set(parts.head);
    let first = |x: usize, p: usize| goal(p).contains(&x) && (1..p).all(|g| !goal(g).contains(&x));
    let mut stages = Vec::new();
    let mut q = parts.goals.len();
    while q > 0 {
        let again = |x: usize, p: usize| (p + 1..=q).any(|g| goal(g).contains(&x));
        let ends = |p: usize| (0..64).any(|x| !head.contains(&x) && first(x, p) && again(x, p));
        let p = (1..=q).rev().find(|p| ends(*p)).unwrap_or(0);
        // 02: "and a MEL stage by that at its first goal"
        let ground = set(parts.ground_at(p));
        let members: Vec<usize> = (p + 1..=q).collect();
        let often = |x: &usize| members.iter().filter(|g| goal(**g).contains(x)).count() >= 2;
        let grounds: BTreeSet<usize> = (0..64).filter(often).collect();
        let mut pairs = BTreeSet::new();
        for i in &members {
            for j in members.iter().filter(|j| *j != i) {
                for x in goal(*i) {
                    for y in goal(*j).iter().filter(|y| **y != x) {
                        if !grounds.contains(&x) && !grounds.contains(y) {
                            pairs.insert((x.min(*y), x.max(*y)));
                        }
                    }
                }
            }
        }
        let known = |x: usize, y: usize| {
            ground.contains(&x) || ground.contains(&y) || parts.pairs.contains(&(x as u8, y as u8))
        };
        let met = |x: &usize| head.contains(x) || (1..=p).any(|g| goal(g).contains(x));
        let mut checks = Vec::new();
        checks.extend(
            grounds.iter().filter(|x| !ground.contains(x)).map(|x| format!("ground(v{x})")),
        );
        for (x, y) in pairs.iter().filter(|(x, y)| !known(*x, *y) && met(x) && met(y)) {
            checks.push(format!("indep(v{x},v{y})"));
        }
        let goals: Vec<String> = members.iter().map(|g| g.to_string()).collect();
        let arrow = if checks.is_empty() { "" } else { "=>" };
        stages.push(match goals.len() {
            1 => goals[0].clone(),
            _ => format!("({}{arrow}{})", checks.join(","), goals.join("&")),
        });
        q = p;
    }
    stages.reverse();
    stages.join(",")
}

fn hold(parts: &Parts) {
    let record = parts.record();
    let goals = parts.goals.len();
    let direct = waits(parts);
    let order = closed(&direct);
    let relation = |rows: &[u32; 32]| -> Relation {
        let pairs = (1..=32).flat_map(|i| (1..=32).map(move |j| (i, j)));
        pairs.filter(|(i, j)| rows[i - 1] >> (j - 1) & 1 == 1).collect()
    };
    assert_eq!(relation(&compare::waits(&record).unwrap().rows), direct);
    let rows = compare::order(&record).unwrap().order.rows;
    assert_eq!(relation(&rows), order);
    for goal in 1..=goals {
        assert_eq!(compare::after(&record, goal as u32), Ok(rows[goal - 1]));
    }
    let mut out = [0; 146];
    match first_without_form(&order, goals) {
        Some(four) => {
            let refusal = Refusal { number: 13, place: 0, goals: four };
            assert_eq!(compare::form(&record, &mut out), Err(refusal));
            assert_eq!(compare::form_length(&record), Err(refusal));
        }
        None => {
            let length = compare::form(&record, &mut out).unwrap();
            assert_eq!(compare::form_length(&record), Ok(length));
            let text = &out[..length as usize];
            assert_eq!(compare::check(&record, text), Ok(Verdict::Same));
            assert_eq!(house_form(text), Ok(()));
        }
    }
}

/// Is the text in house form? By the reader's own parts: kinds alternate, members ascend.
fn house_form(text: &[u8]) -> Result<(), String> {
    /// Reads a sequence or group up to its end; gives its kind (0 for a goal) and smallest goal.
    fn part(text: &[u8], at: &mut usize) -> Result<(u8, usize), String> {
        let mut kind = 0;
        let mut members = Vec::new();
        loop {
            if text.get(*at) == Some(&b'(') {
                *at += 1;
                let (inner, least) = part(text, at)?;
                if inner == 0 || text.get(*at) != Some(&b')') {
                    return Err(format!("spare parentheses at {at}"));
                }
                *at += 1;
                members.push((inner, least));
            } else {
                let digits = text[*at..].iter().take_while(|byte| byte.is_ascii_digit()).count();
                let number = std::str::from_utf8(&text[*at..*at + digits]).unwrap();
                members.push((0, number.parse().map_err(|_| format!("no goal at {at}"))?));
                *at += digits;
            }
            match text.get(*at) {
                Some(sign @ (b',' | b'&')) if kind == 0 || kind == *sign => kind = *sign,
                Some(b',' | b'&') => return Err(format!("two kinds at {at}")),
                _ => break,
            }
            *at += 1;
        }
        if kind != 0 && members.iter().any(|member| member.0 == kind) {
            return Err("a kind inside itself".to_string());
        }
        if kind == b'&' && !members.is_sorted_by_key(|member| member.1) {
            return Err("a group's members do not ascend".to_string());
        }
        Ok((kind, members.iter().map(|member| member.1).min().unwrap()))
    }
    let mut at = 0;
    part(text, &mut at)?;
    if at == text.len() { Ok(()) } else { Err(format!("ends at {at}")) }
}

#[test]
fn every_wait_relation_of_up_to_five_goals() {
    for goals in 1..=5 {
        every_graph(goals).for_each(|parts| hold(&parts));
    }
}

#[test]
fn seeded_clauses() {
    let mut random = Random::new(1);
    for _ in 0..3000 {
        let parts = generate::clause(&mut random);
        hold(&parts);
        let mut out = vec![0; 200_000];
        let length = compare::mel(&parts.record(), &mut out).unwrap() as usize;
        let expected = mel(&parts);
        assert_eq!(std::str::from_utf8(&out[..length]).unwrap(), expected);
        // A buffer that is exactly as long.
        let mut exact = vec![0; length];
        assert_eq!(compare::mel(&parts.record(), &mut exact), Ok(length as u32));
        assert_eq!(exact, out[..length]);
        if length > 0 {
            let short = compare::mel(&parts.record(), &mut exact[..length - 1]);
            assert_eq!(short, Err(Refusal { number: 12, place: length as u32, goals: [0; 4] }));
        }
    }
}

/// The lengths at which the sheet stops printing, and the longest ones.
#[test]
fn long_annotations() {
    let mut clauses = vec![
        Parts::in_stages(64, &[2; 16], &(49..64).collect::<Vec<u8>>(), false),
        Parts::longest_mel(),
    ];
    clauses.extend(compare::kit::at_the_limit());
    let mut lengths = BTreeSet::new();
    for parts in clauses {
        let record = parts.record();
        assert_eq!(Parts::of(&record).as_ref(), Ok(&parts));
        let expected = mel(&parts);
        let length = expected.len();
        lengths.insert(length);
        let mut out = vec![7; length + 1];
        let short = Err(Refusal { number: 12, place: length as u32, goals: [0; 4] });
        assert_eq!(compare::mel(&record, &mut out[..length - 1]), short);
        assert!(out.iter().all(|byte| *byte == 7));
        assert_eq!(compare::mel(&record, &mut out), Ok(length as u32));
        assert_eq!((&out[..length], out[length]), (expected.as_bytes(), 7));
        let sheet = compare::sheet(&Reference, &record);
        let line = match length {
            0..=32768 => format!("\nmel {expected}\n"),
            _ => format!("\nmel refused 12 {length}\n"),
        };
        assert!(sheet.ends_with(line.as_bytes()));
    }
    assert_eq!(lengths.into_iter().collect::<Vec<_>>(), [32_768, 32_769, 188_354, 192_127]);
}

#[test]
fn seeded_expressions() {
    let mut random = Random::new(2);
    for _ in 0..3000 {
        let goals = random.between(1, 22);
        let numbers: Vec<usize> = (1..=goals).collect();
        let ascending = random.chance(1, 2);
        let expression = Expression::random(&mut random, &numbers, ascending, 4);
        let mut pairs = Vec::new();
        expression.order(&mut pairs);
        let mut text = Vec::new();
        expression.write(&mut random, 4, &mut text, false);
        let stated: Relation = pairs.iter().copied().collect();
        let parts = generate::clause(&mut random);
        if parts.goals.len() == goals {
            let order = closed(&waits(&parts));
            let first = stated.symmetric_difference(&order).next();
            let expected = match first {
                None => Verdict::Same,
                Some((i, j)) => Verdict::Differs(*i as u8, *j as u8),
            };
            let answer = compare::check(&parts.record(), &text);
            if text.len() <= 512 && !matches!(answer, Err(refusal) if refusal.number == 16) {
                assert_eq!(answer, Ok(expected));
            }
        }
        if ascending {
            let record = Parts::with_waits(goals, &pairs).unwrap().record();
            let answer = compare::check(&record, &text);
            if text.len() <= 512 && !matches!(answer, Err(refusal) if refusal.number == 16) {
                assert_eq!(answer, Ok(Verdict::Same));
            }
        }
    }
}

/// "the first byte with which no text of the grammar, of any length, goes on"
#[test]
fn every_short_text() {
    const SIGNS: &[u8] = b"(),&012x";
    let record = Parts::with_waits(2, &[]).unwrap().record();
    /// Can this be continued to a text of the grammar, and is it one?
    fn judge(text: &[u8]) -> (bool, bool) {
        let mut open = 0;
        let mut primary_next = true;
        let mut at = 0;
        while at < text.len() {
            match text[at] {
                b'(' if primary_next => open += 1,
                b'1'..=b'9' if primary_next => {
                    at += text.get(at + 1).is_some_and(u8::is_ascii_digit) as usize;
                    primary_next = false;
                }
                b')' if !primary_next && open > 0 => open -= 1,
                b',' | b'&' if !primary_next => primary_next = true,
                _ => return (false, false),
            }
            at += 1;
        }
        (true, !primary_next && open == 0)
    }
    let mut texts: Vec<Vec<u8>> = vec![Vec::new()];
    for _ in 0..6 {
        let mut longer = Vec::new();
        for text in &texts {
            for sign in SIGNS {
                let mut next = text.clone();
                next.push(*sign);
                longer.push(next);
            }
        }
        for text in &longer {
            let answer = compare::check(&record, text);
            let given = match answer {
                Err(refusal) if refusal.number == 16 => Some(refusal.place as usize),
                _ => None,
            };
            let stop = (1..=text.len()).find(|k| !judge(&text[..*k]).0).map(|k| k - 1);
            let expected = stop.or((!judge(text).1).then_some(text.len()));
            assert_eq!(given, expected, "{}", String::from_utf8_lossy(text));
        }
        // Only what may go on is made longer.
        texts = longer.into_iter().filter(|text| judge(text).0).collect();
    }
}

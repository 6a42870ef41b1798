//! Seeded records, texts and damage, for tests and for the kit.

use crate::build::Parts;
use crate::record::{GOAL_TEXT_LIMIT, TICK_LIMIT};

/// A generator of pseudo-random numbers: the same seed gives the same numbers.
#[derive(Clone, Debug)]
pub struct Random(u64);

impl Random {
    pub fn new(seed: u64) -> Random {
        Random(seed)
    }

    /// All 64 bits (SplitMix64).
    pub fn word(&mut self) -> u64 {
        self.0 = self.0.wrapping_add(0x9e37_79b9_7f4a_7c15);
        let mut mixed = self.0;
        mixed = (mixed ^ mixed >> 30).wrapping_mul(0xbf58_476d_1ce4_e5b9);
        mixed = (mixed ^ mixed >> 27).wrapping_mul(0x94d0_49bb_1331_11eb);
        mixed ^ mixed >> 31
    }

    /// A number from 0 to `limit` - 1.
    pub fn below(&mut self, limit: usize) -> usize {
        (((self.word() >> 32) * limit as u64) >> 32) as usize
    }

    /// A number from `least` to `most`.
    pub fn between(&mut self, least: usize, most: usize) -> usize {
        least + self.below(most - least + 1)
    }

    /// True in `part` of `whole` draws.
    pub fn chance(&mut self, part: usize, whole: usize) -> bool {
        self.below(whole) < part
    }

    /// One of the items.
    pub fn pick<T: Copy>(&mut self, items: &[T]) -> T {
        items[self.below(items.len())]
    }
}

/// Often small, sometimes up to the limit.
fn goal_count(random: &mut Random) -> usize {
    match random.below(4) {
        0 => random.between(1, 4),
        1 => random.between(2, 10),
        2 => random.between(5, 20),
        _ => random.between(1, 32),
    }
}

/// A goal text: mostly a word, sometimes of any length and any bytes.
fn goal_text(random: &mut Random) -> Vec<u8> {
    const WORDS: [&str; 8] = ["half", "edge", "join", "picot", "trim", "#braid", "rose(X,Y)", "-"];
    if random.chance(3, 4) {
        return random.pick(&WORDS).as_bytes().to_vec();
    }
    let length =
        if random.chance(1, 3) { GOAL_TEXT_LIMIT } else { random.between(1, GOAL_TEXT_LIMIT) };
    (0..length).map(|_| random.between(33, 126) as u8).collect()
}

/// A fork-join expression, to be written or turned into an order.
#[derive(Clone, Debug)]
pub enum Expression {
    Goal(usize),
    Sequence(Vec<Expression>),
    Group(Vec<Expression>),
}

impl Expression {
    /// An expression of these goals whose sequences go from lower to higher numbers if
    /// `ascending`. Kinds alternate or not, as it falls. `serial` of 8 splits are sequences.
    pub fn random(
        random: &mut Random,
        goals: &[usize],
        ascending: bool,
        serial: usize,
    ) -> Expression {
        if goals.len() == 1 {
            return Expression::Goal(goals[0]);
        }
        let count = if random.chance(1, 2) { 2 } else { random.between(2, goals.len().min(5)) };
        let sequence = random.chance(serial, 8);
        let mut members: Vec<Vec<usize>> = vec![Vec::new(); count];
        if sequence && ascending {
            let mut cuts: Vec<usize> = (1..goals.len()).collect();
            while cuts.len() > count - 1 {
                let out = random.below(cuts.len());
                cuts.remove(out);
            }
            for (place, goal) in goals.iter().enumerate() {
                let member = cuts.iter().filter(|cut| **cut <= place).count();
                members[member].push(*goal);
            }
        } else {
            for goal in goals {
                let member = random.below(count);
                members[member].push(*goal);
            }
        }
        members.retain(|member| !member.is_empty());
        if members.len() == 1 {
            return Expression::random(random, goals, ascending, serial);
        }
        let parts = members
            .iter()
            .map(|member| Expression::random(random, member, ascending, serial))
            .collect();
        if sequence { Expression::Sequence(parts) } else { Expression::Group(parts) }
    }

    /// The goals, from left to right.
    pub fn goals(&self) -> Vec<usize> {
        match self {
            Expression::Goal(goal) => vec![*goal],
            Expression::Sequence(parts) | Expression::Group(parts) => {
                parts.iter().flat_map(Expression::goals).collect()
            }
        }
    }

    /// Adds all (i, j) with i before j.
    pub fn order(&self, pairs: &mut Vec<(usize, usize)>) {
        let (parts, sequence) = match self {
            Expression::Goal(_) => return,
            Expression::Sequence(parts) => (parts, true),
            Expression::Group(parts) => (parts, false),
        };
        for (place, part) in parts.iter().enumerate() {
            part.order(pairs);
            for later in parts[place + 1..].iter().filter(|_| sequence) {
                for i in part.goals() {
                    pairs.extend(later.goals().iter().map(|j| (i, *j)));
                }
            }
        }
    }

    /// Its text, `spare` of 16 parts in spare parentheses.
    pub fn write(&self, random: &mut Random, spare: usize, text: &mut Vec<u8>, inner: bool) {
        let extra = random.chance(spare, 16) as usize * random.between(1, 2);
        text.extend(vec![b'('; extra]);
        let (parts, sign) = match self {
            Expression::Goal(goal) => {
                text.extend(goal.to_string().bytes());
                text.extend(vec![b')'; extra]);
                return;
            }
            Expression::Sequence(parts) => (parts, b','),
            Expression::Group(parts) => (parts, b'&'),
        };
        let around = inner && extra == 0;
        text.extend(vec![b'('; around as usize]);
        for (place, part) in parts.iter().enumerate() {
            if place > 0 {
                text.push(sign);
            }
            part.write(random, spare, text, true);
        }
        text.extend(vec![b')'; around as usize + extra]);
    }
}

/// Some of the variables below `variables`, each with the chance `part` of `whole`.
fn some_variables(random: &mut Random, variables: usize, part: usize, whole: usize) -> u64 {
    (0..variables).filter(|_| random.chance(part, whole)).fold(0, |set, x| set | 1 << x)
}

/// Goals that wait as `pairs` says, each with a variable of its own; waits that follow from
/// others are left out now and then.
fn clause_of_order(random: &mut Random, goals: usize, pairs: &[(usize, usize)]) -> Option<Parts> {
    let implied =
        |i: usize, j: usize| (i + 1..j).any(|k| pairs.contains(&(i, k)) && pairs.contains(&(k, j)));
    let free = goals * (goals - 1) / 2 - pairs.len();
    if free > 255 {
        return None;
    }
    let mut spare = 255 - free;
    let mut waits = Vec::new();
    for &(i, j) in pairs {
        if spare > 0 && random.chance(1, 3) && implied(i, j) {
            spare -= 1;
        } else {
            waits.push((i, j));
        }
    }
    Parts::with_waits(goals, &waits)
}

/// A clause with a form.
fn with_form(random: &mut Random) -> Parts {
    loop {
        let goals = goal_count(random);
        let serial = if goals > 22 { 6 } else { random.between(1, 7) };
        let numbers: Vec<usize> = (1..=goals).collect();
        let mut pairs = Vec::new();
        Expression::random(random, &numbers, true, serial).order(&mut pairs);
        if let Some(parts) = clause_of_order(random, goals, &pairs) {
            return parts;
        }
    }
}

/// A clause with any waits.
fn with_any_waits(random: &mut Random) -> Parts {
    loop {
        let goals = goal_count(random);
        let dense = random.between(1, 15);
        let mut waits = Vec::new();
        for i in 1..=goals {
            for j in i + 1..=goals {
                if random.chance(dense, 16) {
                    waits.push((i, j));
                }
            }
        }
        if let Some(parts) = Parts::with_waits(goals, &waits) {
            return parts;
        }
    }
}

/// A clause with a form, but for one wait.
fn almost_with_form(random: &mut Random) -> Parts {
    let mut parts = with_form(random);
    let goals = parts.goals.len();
    let (x, y) = (random.below(goals) as u8, random.below(goals) as u8);
    let pair = (x.min(y), x.max(y));
    match parts.pairs.binary_search(&pair) {
        Ok(at) => {
            parts.pairs.remove(at);
        }
        Err(at) if x != y && parts.pairs.len() < 255 => parts.pairs.insert(at, pair),
        Err(_) => (),
    }
    parts
}

/// Variables shared by chance: what an analyzer would deliver.
fn by_variables(random: &mut Random) -> Parts {
    let goals = goal_count(random);
    let variables = match random.below(4) {
        0 => random.between(0, 4),
        1 => random.between(2, 12),
        2 => 64,
        _ => random.between(0, 64),
    };
    let dense = random.between(1, 8);
    let head = match random.below(4) {
        0 => 0,
        1 => some_variables(random, variables, 7, 8),
        2 => some_variables(random, variables, 8, 8),
        _ => some_variables(random, variables, 1, 2),
    };
    let ground = if random.chance(1, 2) { 0 } else { head & random.word() & random.word() };
    let dense_pairs = random.pick(&[0, 0, 4, 12, 16]);
    let mut pairs = Vec::new();
    for lower in 0..variables as u8 {
        for higher in lower + 1..variables as u8 {
            if pairs.len() < 255 && random.chance(dense_pairs, 16) {
                pairs.push((lower, higher));
            }
        }
    }
    let mut sets: Vec<u64> = Vec::new();
    for _ in 0..goals {
        let set = match random.below(8) {
            0 => 0,
            1 if variables > 0 => 1 << random.below(variables),
            _ => some_variables(random, variables, dense, 16),
        };
        sets.push(set);
    }
    let mut parts = Parts::over(variables as u8, &sets);
    (parts.head, parts.ground, parts.pairs) = (head, ground, pairs);
    parts
}

/// A clause with a long MEL annotation of several stages.
fn in_stages(random: &mut Random) -> Parts {
    let mut sizes = Vec::new();
    let mut left = random.between(2, 32);
    while left > 0 {
        let size = random.between(1, left.min(6));
        sizes.push(size);
        left -= size;
    }
    let variables = random.pick(&[16, 40, 64]).max(2 * sizes.len());
    let first = random.below(variables - sizes.len() + 2);
    let joining: Vec<u8> = (1..sizes.len()).map(|stage| (first + stage - 1) as u8).collect();
    let mut parts = Parts::in_stages(variables as u8, &sizes, &joining, random.chance(1, 2));
    for lower in 0..variables as u8 {
        for higher in lower + 1..variables as u8 {
            if parts.pairs.len() < 255 && random.chance(1, 16) {
                parts.pairs.push((lower, higher));
            }
        }
    }
    parts
}

/// The parts of a well-formed record of version 1.
pub fn parts(random: &mut Random) -> Parts {
    let mut parts = match random.below(20) {
        0..=4 => with_form(random),
        5..=8 => with_any_waits(random),
        9..=12 => almost_with_form(random),
        13 => in_stages(random),
        _ => by_variables(random),
    };
    for goal in &mut parts.goals {
        goal.1 = goal_text(random);
    }
    // Variables that leave the head make MEL stages; ground ones take waits away.
    if random.chance(1, 4) {
        parts.head &= random.word() | random.word();
        parts.ground &= parts.head;
    } else if random.chance(1, 4) {
        parts.ground |= parts.head & random.word() & random.word() & random.word();
    }
    parts
}

/// Makes the clause one of version 2: ground sets that grow from goal to goal, and ticks.
fn with_facts(random: &mut Random, parts: Parts) -> Parts {
    let often = random.pick(&[1, 4, 12]);
    let (mut ground, mut met) = (parts.ground, parts.head);
    let mut grounds = Vec::new();
    for (set, _) in &parts.goals {
        if random.chance(often, 16) {
            ground |= met
                & match random.below(4) {
                    0 => random.word(),
                    1 => random.word() & random.word() & random.word(),
                    2 => set & random.word(),
                    _ => 1 << random.below(64),
                };
        }
        grounds.push(ground);
        met |= set;
    }
    let mut parts = parts.knowing(&grounds);
    for facts in &mut parts.facts {
        facts.ticks = match random.below(4) {
            0 => 1,
            1 => TICK_LIMIT,
            2 => random.between(1, 300) as u16,
            _ => random.between(1, TICK_LIMIT as usize) as u16,
        };
    }
    parts
}

/// The parts of a well-formed record, of version 1 or 2.
pub fn clause(random: &mut Random) -> Parts {
    let parts = parts(random);
    if random.chance(1, 2) { with_facts(random, parts) } else { parts }
}

/// A clause, of version 1 or 2, in which some goals wait in a long chain, and few others do: it
/// takes many passes to close it.
pub fn chained(random: &mut Random) -> Parts {
    // Up to 23 goals every pair can be listed.
    let goals = random.between(2, 23);
    let (breaks, more) = (random.pick(&[0, 0, 1, 4]), random.pick(&[0, 0, 1, 6]));
    let mut waits = Vec::new();
    for i in 1..=goals {
        waits.extend((i < goals && !random.chance(breaks, 16)).then_some((i, i + 1)));
        waits.extend((i + 2..=goals).filter(|_| random.chance(more, 64)).map(|j| (i, j)));
    }
    let parts = Parts::with_waits(goals, &waits).expect("few pairs");
    if random.chance(1, 2) { with_facts(random, parts) } else { parts }
}

/// Gives each goal of a clause of version 2 at most so many ticks, so that its runs are short.
pub fn shorten(random: &mut Random, parts: &mut Parts, most: usize) {
    parts.facts.iter_mut().for_each(|facts| facts.ticks = random.between(1, most) as u16);
}

/// The record of the parts with something wrong in it, or almost wrong.
pub fn damaged(random: &mut Random, parts: &Parts) -> Vec<u8> {
    if !parts.facts.is_empty() && random.chance(1, 2) {
        return with_damaged_facts(random, parts);
    }
    let mut record = parts.record();
    damage(random, &mut record);
    record
}

/// Spoils what only version 2 has.
fn with_damaged_facts(random: &mut Random, parts: &Parts) -> Vec<u8> {
    let mut parts = parts.clone();
    let goal = random.below(parts.goals.len());
    let met = parts.goals[..goal].iter().fold(parts.head, |met, (set, _)| met | set);
    let before = if goal == 0 { parts.ground } else { parts.facts[goal - 1].ground };
    let facts = &mut parts.facts[goal];
    match random.below(10) {
        // A variable of the ground set before it is lacking.
        0 => facts.ground &= !(before & before.wrapping_neg()),
        1 => facts.ground &= !before | random.word(),
        2 => parts.ground |= parts.head & random.word(),
        // One is in neither the head nor an earlier goal, or no variable of the record.
        3 => facts.ground |= !met & random.word() & random.word(),
        4 => facts.ground |= parts.goals[goal].0,
        5 => facts.ground |= 1 << (parts.variables % 64),
        6 => facts.ticks = 0,
        7 => facts.ticks = random.between(TICK_LIMIT as usize + 1, 65_535) as u16,
        // The record ends within the goal's fixed part or a little behind it.
        8 => {
            let texts: usize = parts.goals[..goal].iter().map(|goal| goal.1.len()).sum();
            let mut record = parts.record();
            record.truncate(24 + 19 * goal + texts + random.below(22));
            return record;
        }
        _ => {
            let mut record = parts.record();
            record[4] = random.pick(&[0, 1, 3, 4, 255]);
            return record;
        }
    }
    parts.record()
}

/// Spoils a record: a byte, a field, its end.
pub fn damage(random: &mut Random, record: &mut Vec<u8>) {
    let length = record.len();
    match random.below(10) {
        0 => record.truncate(random.below(length + 1)),
        1 => record.truncate(random.below(length.min(40) + 1)),
        2 => {
            let extra = random.between(1, 3);
            record.extend((0..extra).map(|_| random.word() as u8));
        }
        3 if length > 0 => {
            let last = random.below(length);
            record[length - 1 - last.min(9)] = random.word() as u8;
        }
        4 if length > 7 => {
            record[random.between(0, 7)] = random.word() as u8;
        }
        5 if length > 7 => {
            let at = random.between(5, 7);
            record[at] = record[at].wrapping_add(random.pick(&[1, 255, 32, 64]));
        }
        6 if length > 23 => record[random.between(8, 23)] ^= 1 << random.below(8),
        7 if length > 40 => {
            let last = random.between(1, 12);
            record[length - last] = random.below(70) as u8;
        }
        _ if length > 0 => {
            let at = random.below(length);
            record[at] = random.pick(&[0, 1, 24, 25, 32, 33, 40, 126, 127, 128, 255]);
        }
        _ => (),
    }
}

/// A text for the check of a clause of `goals` goals; `form` is its form or empty.
pub fn text(random: &mut Random, goals: usize, form: &[u8]) -> Vec<u8> {
    let mut text = Vec::new();
    match random.below(16) {
        0..=4 if !form.is_empty() => text.extend(form),
        0..=8 => {
            let numbers: Vec<usize> = (1..=goals).collect();
            let ascending = random.chance(2, 3);
            let serial = random.between(1, 7);
            let spare = random.pick(&[0, 0, 2, 8]);
            Expression::random(random, &numbers, ascending, serial)
                .write(random, spare, &mut text, false);
        }
        9 => {
            let numbers: Vec<String> = (1..=goals).map(|goal| goal.to_string()).collect();
            text.extend(numbers.join(random.pick(&[",", "&"])).bytes());
        }
        10 => {
            let deep = random.between(28, 35);
            text.extend(vec![b'('; deep]);
            text.extend(b"1");
            text.extend(vec![b')'; deep]);
        }
        11 => {
            let least = random.between(480, 512);
            text.extend(form);
            while text.len() < least {
                text.insert(0, b'(');
                text.push(b')');
            }
        }
        _ => {
            let length = random.between(0, 30);
            text.extend((0..length).map(|_| random.pick(b"(1,2&3),4&0)(9")));
        }
    }
    // Long and in the grammar: each number in spare parentheses, as often as it takes.
    if random.chance(1, 24) {
        text = padded(&text, random.pick(&[510, 511, 512, 513, 514]));
    }
    if random.chance(1, 4) && !text.is_empty() {
        let at = random.below(text.len());
        match random.below(4) {
            0 => text.truncate(at),
            1 => text.insert(at, random.pick(b"(),&0123456789 x")),
            2 => {
                text.remove(at);
            }
            _ => text[at] = random.pick(b"(),&0123456789 x\xff"),
        }
    }
    text
}

/// The text with spare parentheses around its numbers, up to `length` bytes and 32 open.
pub fn padded(text: &[u8], length: usize) -> Vec<u8> {
    let mut spare = length.saturating_sub(text.len()) / 2;
    let mut padded = Vec::new();
    let mut at = 0;
    let mut open = 0usize;
    while at < text.len() {
        let digits = text[at..].iter().take_while(|byte| byte.is_ascii_digit()).count();
        if digits == 0 {
            open = (open + (text[at] == b'(') as usize).saturating_sub((text[at] == b')') as usize);
            padded.push(text[at]);
            at += 1;
            continue;
        }
        let around = spare.min(32usize.saturating_sub(open));
        spare -= around;
        padded.extend(vec![b'('; around]);
        padded.extend(&text[at..at + digits]);
        padded.extend(vec![b')'; around]);
        at += digits;
    }
    padded
}

/// A room for a text of this length: enough, just enough, short.
pub fn room(random: &mut Random, length: usize) -> usize {
    match random.below(8) {
        0 => 0,
        1 => length.saturating_sub(1),
        2 => random.below(length + 1),
        3 => length + random.below(40),
        4 => length + 16,
        _ => length,
    }
}

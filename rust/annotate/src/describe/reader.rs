//! Reading a description line by line.

use super::facts::{self, Stated};
use super::names::{declare, names_of};
use super::{Described, Fault};
use lfj::{Clause, GOAL_LIMIT, GOAL_TEXT_LIMIT, Goal, VARIABLE_LIMIT};
use std::collections::BTreeSet;

const KEYWORDS: &str = "version, variables, head, ground, goal, independent, byte, cut, more";

/// What changes the record's bytes once it is put together.
enum Change {
    Byte(usize, u8),
    Cut(usize),
    More(Vec<u8>),
}

struct Reader {
    /// As a line `version` says it.
    version: Option<u16>,
    names: Vec<String>,
    clause: Clause,
    /// One for each goal.
    stated: Vec<Stated>,
    /// Variables known independent, lower then higher.
    pairs: BTreeSet<(u8, u8)>,
    changes: Vec<(usize, Change)>,
    faults: Vec<Fault>,
    line: usize,
}

/// Reads a description; all that is wrong with it if anything is.
pub fn read(text: &str) -> Result<Described, Vec<Fault>> {
    let mut reader = Reader {
        version: None,
        names: Vec::new(),
        clause: Clause::new(0),
        stated: Vec::new(),
        pairs: BTreeSet::new(),
        changes: Vec::new(),
        faults: Vec::new(),
        line: 0,
    };
    for (number, line) in text.lines().enumerate() {
        reader.line = number + 1;
        reader.line(line);
    }
    reader.finish()
}

/// The words before the first `ticks` or `ground`, and the rest.
fn split_facts<'a, 'b>(words: &'a [&'b str]) -> (&'a [&'b str], &'a [&'b str]) {
    let facts = words.iter().position(|word| ["ticks", "ground"].contains(word));
    words.split_at(facts.unwrap_or(words.len()))
}

impl Reader {
    fn fault(&mut self, words: impl Into<String>) {
        self.faults.push((self.line, words.into()));
    }

    /// The value, or nothing and a fault.
    fn held<T>(&mut self, value: Result<T, String>) -> Option<T> {
        value.map_err(|words| self.fault(words)).ok()
    }

    fn line(&mut self, line: &str) {
        let mut words = line.split_whitespace();
        let Some(keyword) = words.next() else { return };
        if keyword.starts_with('#') {
            return;
        }
        let words: Vec<&str> = words.collect();
        match keyword {
            "version" => match words[..] {
                ["1"] => self.version = Some(1),
                ["2"] => self.version = Some(2),
                _ => self.fault("version 1 or version 2"),
            },
            "variables" => self.variables(&words),
            "head" => self.clause.head |= self.set(&words),
            "ground" => self.ground(&words),
            "goal" => self.goal(&words),
            "independent" => self.independent(&words),
            "byte" | "cut" | "more" => self.change(keyword, &words),
            _ => self.fault(format!("`{keyword}` is no keyword; these are: {KEYWORDS}")),
        }
    }

    fn variables(&mut self, words: &[&str]) {
        for word in words {
            for name in self.held(names_of(word)).unwrap_or_default() {
                let declared = declare(&mut self.names, name);
                self.held(declared);
            }
        }
        if self.names.len() > VARIABLE_LIMIT {
            self.fault(format!("{} variables, {VARIABLE_LIMIT} is the most", self.names.len()));
            self.names.truncate(VARIABLE_LIMIT);
        }
    }

    /// The numbers of the named variables.
    fn numbers(&mut self, words: &[&str]) -> Vec<u8> {
        let mut numbers = Vec::new();
        for word in words {
            for name in names_of(word).unwrap_or_else(|_| vec![word.to_string()]) {
                match self.names.iter().position(|known| *known == name) {
                    Some(number) => numbers.push(number as u8),
                    None => self.fault(format!(
                        "no variable is called {name}; a line `variables` above has to name it"
                    )),
                }
            }
        }
        numbers
    }

    fn set(&mut self, words: &[&str]) -> u64 {
        lfj::variable_set(self.numbers(words))
    }

    fn ground(&mut self, words: &[&str]) {
        let set = self.set(words);
        if set & !self.clause.head != 0 {
            self.fault("a ground variable has to stand on a line `head` before");
        }
        self.clause.ground |= set;
    }

    fn goal(&mut self, words: &[&str]) {
        let Some((text, rest)) = words.split_first() else {
            return self.fault("a goal needs a text: goal TEXT VARIABLE..");
        };
        let (variables, facts) = split_facts(rest);
        if let Some(sign) = text.chars().find(|sign| !('!'..='~').contains(sign)) {
            self.fault(format!("the goal's text has `{sign}`; only the signs ! to ~ are allowed"));
        }
        if text.len() > GOAL_TEXT_LIMIT {
            let (length, most) = (text.len(), GOAL_TEXT_LIMIT);
            self.fault(format!("the goal's text has {length} bytes, {most} is the most"));
        }
        let variables = self.set(variables);
        self.clause.goals.push(Goal { text: text.to_string(), variables, ground: 0, ticks: 1 });
        self.facts(facts);
        if self.clause.goals.len() == GOAL_LIMIT + 1 {
            self.fault("this is goal 33, 32 is the most");
        }
    }

    /// What stands behind a goal's variables: `ticks NUMBER`, `ground NAME..`.
    fn facts(&mut self, mut words: &[&str]) {
        let mut stated = Stated { line: self.line, ticks: None, ground: None };
        while let Some((keyword, rest)) = words.split_first() {
            let (own, more) = split_facts(rest);
            words = more;
            let twice = match *keyword {
                "ground" => stated.ground.is_some(),
                _ => stated.ticks.is_some(),
            };
            if twice {
                self.fault(format!("`{keyword}` stands twice at this goal"));
            }
            if *keyword == "ground" {
                let faults = self.faults.len();
                let set = self.set(own);
                // A name that is unknown is said once.
                stated.ground = (self.faults.len() == faults).then_some(set);
            } else {
                stated.ticks = Some(self.held(facts::ticks(own)).unwrap_or(1));
            }
        }
        self.stated.push(stated);
    }

    fn independent(&mut self, words: &[&str]) {
        let mut sides = words.split(|word| *word == "|");
        let (left, right) = (sides.next().unwrap_or(&[]), sides.next());
        if sides.next().is_some() {
            return self.fault("one | is the most");
        }
        let left = self.numbers(left);
        let right = right.map(|right| self.numbers(right));
        let mut pairs = Vec::new();
        for (at, x) in left.iter().enumerate() {
            let others = right.as_deref().unwrap_or(&left[at + 1..]);
            pairs.extend(others.iter().map(|y| (*x, *y)));
        }
        if pairs.is_empty() {
            self.fault("two variables or more: independent X Y, or independent X | Y Z");
        }
        for (x, y) in pairs {
            self.pair(x, y);
        }
    }

    fn pair(&mut self, x: u8, y: u8) {
        if x == y {
            let name = self.names[x as usize].clone();
            return self.fault(format!("{name} cannot be independent of itself"));
        }
        if self.pairs.insert((x.min(y), x.max(y))) && self.pairs.len() == 256 {
            self.fault("this makes 256 pairs, 255 is the most");
        }
    }

    fn change(&mut self, keyword: &str, words: &[&str]) {
        let mut numbers = Vec::new();
        for word in words {
            match word.parse::<usize>() {
                Ok(number) => numbers.push(number),
                Err(_) => return self.fault(format!("`{word}` is no number")),
            }
        }
        let bytes = |numbers: &[usize]| numbers.iter().all(|number| *number < 256);
        let change = match (keyword, &numbers[..]) {
            ("byte", [place, value]) if bytes(&[*value]) => Change::Byte(*place, *value as u8),
            ("cut", [length]) => Change::Cut(*length),
            ("more", [_, ..]) if bytes(&numbers) => {
                Change::More(numbers.iter().map(|number| *number as u8).collect())
            }
            ("byte", _) => return self.fault("byte PLACE VALUE, the value from 0 to 255"),
            ("cut", _) => return self.fault("cut LENGTH, the number of bytes to keep"),
            _ => return self.fault("more VALUE.., each from 0 to 255"),
        };
        self.changes.push((self.line, change));
    }

    /// Makes the changes in the finished record.
    fn changed(&mut self, mut record: Vec<u8>) -> Vec<u8> {
        for (line, change) in std::mem::take(&mut self.changes) {
            self.line = line;
            let length = record.len();
            match change {
                Change::Byte(place, value) if place < length => record[place] = value,
                Change::Cut(keep) if keep <= length => record.truncate(keep),
                Change::More(bytes) => record.extend(bytes),
                _ => self.fault(format!("the record has {length} bytes only")),
            }
        }
        record
    }

    fn finish(mut self) -> Result<Described, Vec<Fault>> {
        if self.clause.goals.is_empty() {
            self.line = self.line.max(1);
            self.fault("there is no line `goal`, and a clause has at least one");
        }
        self.clause.variables = self.names.len() as u8;
        self.clause.independent = self.pairs.iter().copied().collect();
        let facts = facts::resolve(&mut self.clause, self.version, &self.stated, &self.names);
        self.faults.extend(facts);
        // Counts that fit no byte are among the faults already.
        let record = self.clause.bytes().map(|record| self.changed(record)).unwrap_or_default();
        if !self.faults.is_empty() {
            self.faults.sort_by_key(|fault| fault.0);
            return Err(self.faults);
        }
        Ok(Described { names: self.names, record })
    }
}

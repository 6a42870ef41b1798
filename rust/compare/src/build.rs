//! Records put together from their parts, right or wrong: nothing is tested here. And the
//! clauses that are hardest on an annotator.

use crate::Refusal;
use crate::record::{GOAL_LIMIT, GOAL_TEXT_LIMIT, TICK_LIMIT, scan};

/// What is known just left of a goal, and how long it takes.
#[derive(Clone, Copy, PartialEq, Eq, Debug)]
pub struct Facts {
    pub ground: u64,
    pub ticks: u16,
}

/// The parts of a record.
#[derive(Clone, Default, PartialEq, Eq, Debug)]
pub struct Parts {
    pub variables: u8,
    pub head: u64,
    pub ground: u64,
    /// Each goal's variable set and text.
    pub goals: Vec<(u64, Vec<u8>)>,
    /// The facts at each goal, which make a record of version 2; none in version 1.
    pub facts: Vec<Facts>,
    /// Variables known independent, lower then higher.
    pub pairs: Vec<(u8, u8)>,
}

impl Parts {
    /// The record: of version 2 if there are facts at the goals, else of version 1.
    pub fn record(&self) -> Vec<u8> {
        let mut bytes = b"LFJ\0".to_vec();
        bytes.push(if self.facts.is_empty() { 1 } else { 2 });
        bytes.extend([self.goals.len() as u8, self.variables, self.pairs.len() as u8]);
        bytes.extend(self.head.to_be_bytes());
        bytes.extend(self.ground.to_be_bytes());
        for (at, (set, text)) in self.goals.iter().enumerate() {
            bytes.extend(set.to_be_bytes());
            if let Some(facts) = self.facts.get(at) {
                bytes.extend(facts.ground.to_be_bytes());
                bytes.extend(facts.ticks.to_be_bytes());
            }
            bytes.push(text.len() as u8);
            bytes.extend(text);
        }
        for (lower, higher) in &self.pairs {
            bytes.extend([*lower, *higher]);
        }
        bytes
    }

    /// The parts of a record that reading accepts.
    pub fn of(record: &[u8]) -> Result<Parts, Refusal> {
        let mut parts = Parts::default();
        let (goals, facts, pairs) = (&mut parts.goals, &mut parts.facts, &mut parts.pairs);
        let header = scan(
            record,
            |goal| {
                goals.push((goal.set, record[goal.text..goal.text + goal.length].to_vec()));
                facts.push(Facts { ground: goal.ground, ticks: goal.ticks });
            },
            |lower, higher| pairs.push((lower as u8, higher as u8)),
        )?;
        if !header.wide {
            facts.clear();
        }
        (parts.variables, parts.head, parts.ground) = (record[6], header.head, header.ground);
        Ok(parts)
    }

    /// Goals over the given variables, all of them in the head, without facts.
    pub fn over(variables: u8, sets: &[u64]) -> Parts {
        Parts {
            variables,
            head: if variables >= 64 { u64::MAX } else { (1 << variables) - 1 },
            ground: 0,
            goals: sets.iter().enumerate().map(|(i, s)| (*s, name(i + 1))).collect(),
            ..Parts::default()
        }
    }

    /// The clause as a record of version 2, with these ground sets at its goals and 1 tick each.
    /// A goal for which none is given has that of the goal before it, the first one the header's.
    pub fn knowing(mut self, grounds: &[u64]) -> Parts {
        let mut ground = self.ground;
        self.facts.clear();
        for at in 0..self.goals.len() {
            ground = grounds.get(at).copied().unwrap_or(ground);
            self.facts.push(Facts { ground, ticks: 1 });
        }
        self
    }

    /// The clause as a record of version 2, with the header's ground set and these ticks at its
    /// goals. A goal for which none are given has 1.
    pub fn lasting(self, ticks: &[u16]) -> Parts {
        let mut parts = self.knowing(&[]);
        parts.facts.iter_mut().zip(ticks).for_each(|(facts, ticks)| facts.ticks = *ticks);
        parts
    }

    /// The ground set just left of a goal, numbered from 0.
    pub fn ground_at(&self, goal: usize) -> u64 {
        self.facts.get(goal).map_or(self.ground, |facts| facts.ground)
    }

    /// A clause of `goals` goals in which just the listed goals wait, earlier then later:
    /// goal i holds variable i - 1, and every other pair is known independent. With more
    /// than 255 pairs to list the record cannot say so; then `None`.
    pub fn with_waits(goals: usize, waits: &[(usize, usize)]) -> Option<Parts> {
        let sets: Vec<u64> = (0..goals).map(|goal| 1 << goal).collect();
        let mut parts = Parts::over(goals as u8, &sets);
        for i in 1..=goals {
            for j in i + 1..=goals {
                if !waits.contains(&(i, j)) {
                    parts.pairs.push((i as u8 - 1, j as u8 - 1));
                }
            }
        }
        (parts.pairs.len() <= 255).then_some(parts)
    }

    /// The clause of 32 goals with the longest house form, `1,(2&(3,(4&..(31,32)..)))`.
    pub fn longest_form() -> Parts {
        let mut parts = Parts::over(32, &(0..32).map(|goal| 1 << goal).collect::<Vec<u64>>());
        for goal in (2..=31).step_by(2) {
            parts.pairs.extend((goal + 1..=32).map(|later| (goal - 1, later - 1)));
        }
        parts
    }

    /// The longest record of version 1, 1,590 bytes: 32 texts of 24 bytes and 255 pairs. Its
    /// form is the longest one.
    pub fn longest_record() -> Parts {
        let mut parts = Parts::longest_form();
        parts.goals.iter_mut().for_each(|goal| goal.1 = vec![b'~'; GOAL_TEXT_LIMIT]);
        parts.variables = 64;
        parts.pairs.extend((33..48).map(|higher| (32, higher)));
        parts
    }

    /// The longest record of all, 1,910 bytes: the same clause in version 2. No variable is
    /// ground anywhere, and each goal takes the most ticks.
    pub fn longest_wide_record() -> Parts {
        Parts::longest_record().lasting(&[TICK_LIMIT; GOAL_LIMIT])
    }

    /// A clause without a form, of four goals or more: each goal waits for all before it, but
    /// among the last four, a to d, only c for a and b, and d for b.
    pub fn without_form(goals: u8) -> Parts {
        let sets: Vec<u64> = (0..goals).map(|goal| 1 << goal).collect();
        let mut parts = Parts::over(goals, &sets);
        let [a, b, c, d] = [goals - 4, goals - 3, goals - 2, goals - 1];
        parts.pairs = vec![(a, b), (a, d), (c, d)];
        parts
    }

    /// A clause whose MEL annotation has stages of these sizes and many checks. `joining` has
    /// for each stage but the last the variable outside the head that its last goal is the
    /// first to hold. What is known in a stage is dealt out to its goals in equal parts.
    pub fn in_stages(variables: u8, sizes: &[usize], joining: &[u8], larger_first: bool) -> Parts {
        let outside = joining.iter().fold(0u64, |set, variable| set | 1 << variable);
        let mut parts = Parts::over(variables, &[]);
        parts.head &= !outside;
        let mut met = parts.head;
        for (stage, &size) in sizes.iter().enumerate() {
            let known: Vec<u64> = (0..64).filter(|x| met >> x & 1 == 1).map(|x| 1 << x).collect();
            let up_to = |goal: usize| match larger_first {
                true => (known.len() * goal).div_ceil(size),
                false => known.len() * goal / size,
            };
            for goal in 0..size {
                let set = known[up_to(goal)..up_to(goal + 1)].iter().sum();
                parts.goals.push((set, name(parts.goals.len() + 1)));
            }
            if let (Some(variable), Some(last)) = (joining.get(stage), parts.goals.last_mut()) {
                last.0 |= 1 << variable;
                met |= 1 << variable;
            }
        }
        parts
    }

    /// The clause with the longest MEL annotation that we found, 192,127 bytes.
    pub fn longest_mel() -> Parts {
        let sizes = [2, 2, 2, 2, 2, 2, 2, 2, 2, 2, 2, 2, 2, 3, 3];
        Parts::in_stages(64, &sizes, &[10, 11, 12, 13, 0, 1, 2, 3, 4, 5, 6, 7, 8, 9], true)
    }
}

fn name(goal: usize) -> Vec<u8> {
    format!("g{goal}").into_bytes()
}

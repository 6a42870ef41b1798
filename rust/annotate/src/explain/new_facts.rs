//! Facts that would take a wait away, tried with the proved library.

use super::causes::{ascending, causes, direct_waits, has, waited_for};
use super::words::{Named, Page, first_few, is_or_are};
use lfj::{Clause, members};
use std::collections::{BTreeMap, BTreeSet};

/// So many variables or pairs of one kind are told; of the others the number is.
const FEW: usize = 6;

/// What a record might say beyond what it says.
#[derive(Clone, Default, PartialEq, Eq, Debug)]
pub struct NewFacts {
    /// For each variable the goal from which on it is ground.
    ground: BTreeMap<u8, u32>,
    /// Pairs known independent, lower then higher.
    pairs: BTreeSet<(u8, u8)>,
}

/// How a pair of variables that are not known to be independent is settled.
#[derive(Clone, Copy)]
enum Way {
    Listed,
    EarlierGround,
    LaterGround,
}

impl NewFacts {
    fn ground(&mut self, variable: u8, goal: u32) {
        let from = self.ground.entry(variable).or_insert(goal);
        *from = goal.min(*from);
    }

    /// The facts by which none of these waits is left.
    fn against(clause: &Clause, waits: &[(u32, u32)], way: Way) -> NewFacts {
        let mut facts = NewFacts::default();
        for &(earlier, later) in waits {
            let Some(causes) = causes(clause, earlier, later) else { continue };
            for variable in causes.shared {
                facts.ground(variable, earlier);
            }
            for (one, other) in causes.pairs {
                match way {
                    Way::Listed => _ = facts.pairs.insert(ascending(one, other)),
                    Way::EarlierGround => facts.ground(one, earlier),
                    Way::LaterGround => facts.ground(other, earlier),
                }
            }
        }
        facts
    }

    /// The variables that no record can state as ground where these facts need it: a variable
    /// has to be in the head or in a goal further left.
    fn not_statable(&self, clause: &Clause) -> Vec<(u8, u32)> {
        let met = |goal: u32| {
            let left = &clause.goals[..goal as usize - 1];
            left.iter().fold(clause.head, |met, goal| met | goal.variables)
        };
        let facts = self.ground.iter().map(|(variable, goal)| (*variable, *goal));
        facts.filter(|(variable, goal)| met(*goal) >> variable & 1 == 0).collect()
    }

    /// The clause with these facts. A variable that is ground from the first goal on is so in
    /// the header too; another one needs facts at each goal, version 2.
    pub fn added_to(&self, clause: &Clause) -> Clause {
        let mut changed = clause.clone();
        for (variable, from) in &self.ground {
            let bit = 1 << variable;
            if *from == 1 {
                changed.ground |= bit;
            } else {
                changed.version = 2;
            }
            for goal in &mut changed.goals[*from as usize - 1..] {
                goal.ground |= bit;
            }
        }
        changed.independent.extend(&self.pairs);
        changed.independent.sort();
        changed.independent.dedup();
        changed
    }

    /// `A and B are independent`, `C is ground from 2 picot(B) on`.
    fn in_words(&self, named: &Named) -> String {
        let mut words = Vec::new();
        let goals: BTreeSet<u32> = self.ground.values().copied().collect();
        for goal in goals {
            let there = self.ground.iter().filter(|(_, from)| **from == goal);
            let variables = named.variables(there.map(|(variable, _)| *variable));
            let (told, are) = (first_few(&variables, FEW), is_or_are(variables.len()));
            words.push(match goal {
                1 => format!("{told} {are} ground at every goal"),
                _ => format!("{told} {are} ground from {} on", named.goal(goal)),
            });
        }
        if !self.pairs.is_empty() {
            let pairs: Vec<(u8, u8)> = self.pairs.iter().copied().collect();
            words.push(format!("{} are independent", named.pairs(&pairs, FEW)));
        }
        words.join(", and ")
    }
}

/// The direct waits that have to go so that `from` is not before `to`: all that leave `from` on
/// a way to `to`, or all that arrive at `to` on a way from `from`. They are the same where the
/// one direct wait is all there is.
fn cuts(direct: &[u32], order: &[u32], from: u32, to: u32) -> Vec<Vec<(u32, u32)>> {
    let row = |rows: &[u32], goal: u32| rows[goal as usize - 1];
    let leaving = members(row(direct, from))
        .filter(|next| *next == to || has(row(order, *next), to))
        .map(|next| (from, next))
        .collect();
    let arriving = waited_for(direct, to)
        .into_iter()
        .filter(|last| *last == from || has(row(order, from), *last))
        .map(|last| (last, to))
        .collect();
    let mut cuts: Vec<Vec<(u32, u32)>> = vec![leaving, arriving];
    cuts.dedup();
    cuts
}

/// All ways to take away that `from` is before `to`, each as facts. Those that no record may
/// state are kept apart.
pub fn ways(clause: &Clause, order: &[u32], from: u32, to: u32) -> (Vec<NewFacts>, Vec<NewFacts>) {
    let direct = direct_waits(clause);
    let (mut good, mut bad) = (Vec::new(), Vec::new());
    for cut in cuts(&direct, order, from, to) {
        for way in [Way::Listed, Way::EarlierGround, Way::LaterGround] {
            let facts = NewFacts::against(clause, &cut, way);
            let list = if facts.not_statable(clause).is_empty() { &mut good } else { &mut bad };
            if !list.contains(&facts) {
                list.push(facts);
            }
        }
    }
    (good, bad)
}

/// What the proved library says of the clause with these facts.
fn tried(named: &Named, facts: &NewFacts) -> (bool, String) {
    let changed = facts.added_to(named.clause);
    let version = match changed.version != named.clause.version {
        true => ", in a record of version 2",
        false => "",
    };
    let record = match changed.record() {
        Ok(record) => record,
        Err(error) => return (false, format!("{error}.")),
    };
    match lfj::form_text(&record) {
        Ok(form) => (true, format!("the form is {form}{version}.")),
        Err(refusal) => {
            let four = named.goals(refusal.goals.map(u32::from)).join(", ");
            (false, format!("still no form; the next four goals are {four}."))
        }
    }
}

/// Why no record can state these facts.
fn impossible(named: &Named, facts: &NewFacts) -> Option<String> {
    let (variable, goal) = *facts.not_statable(named.clause).first()?;
    Some(format!(
        "no fact that a record may state takes it away: {} would have to be ground at {}, and it \
         is in neither the head nor a goal further left.",
        named.variable(variable),
        named.goal(goal)
    ))
}

/// Which facts would take away each of the waits, and what comes of it.
pub fn in_words(page: &mut Page, named: &Named, order: &[u32], waits: &[(u32, u32)]) {
    let mut forms = Vec::new();
    for &(from, to) in waits {
        let words = format!("so that {} does not wait for {}:", named.goal(to), named.goal(from));
        page.paragraph(4, "", &words);
        let (good, bad) = ways(named.clause, order, from, to);
        for facts in &good {
            let (form, words) = tried(named, facts);
            forms.push(form);
            page.paragraph(6, "- ", &format!("if {}: {words}", facts.in_words(named)));
        }
        if good.is_empty() {
            let words = bad.first().and_then(|facts| impossible(named, facts));
            words.into_iter().for_each(|words| page.paragraph(6, "- ", &words));
        }
    }
    if !forms.is_empty() && !forms.contains(&true) {
        page.paragraph(4, "", "None of these alone gives a form.");
    }
}

//! The MEL annotation in words, stage by stage.

use super::words::{Named, Page, count, first_few, is_or_are, list};

/// So many checks of each kind are told; of the others the number is.
const FEW: usize = 6;

/// An annotation up to this length is shown as it stands, with names.
const SHORT: usize = 90;

/// A stage, read from the annotation's text.
#[derive(Default, PartialEq, Eq, Debug)]
pub struct Stage {
    pub goals: Vec<u32>,
    /// The variables that are checked to be ground.
    pub ground: Vec<u8>,
    /// The pairs that are checked to be independent.
    pub independent: Vec<(u8, u8)>,
}

/// The numbers of a check's variables: `indep(v0,v12` has 0 and 12.
fn numbers(check: &str) -> Vec<u8> {
    let digits = check.split(|letter: char| !letter.is_ascii_digit());
    digits.filter_map(|digits| digits.parse().ok()).collect()
}

fn stage(text: &str) -> Stage {
    let inner = text.trim_start_matches('(').trim_end_matches(')');
    let (checks, goals) = inner.split_once("=>").unwrap_or(("", inner));
    let mut stage = Stage::default();
    stage.goals.extend(goals.split('&').filter_map(|goal| goal.parse::<u32>().ok()));
    for check in checks.split(')') {
        match numbers(check)[..] {
            [variable] => stage.ground.push(variable),
            [one, other] => stage.independent.push((one, other)),
            _ => (),
        }
    }
    stage
}

/// The stages of an annotation, which are joined by the commas outside all parentheses.
pub fn stages(text: &str) -> Vec<Stage> {
    let mut stages = Vec::new();
    let (mut open, mut start) = (0, 0);
    for (at, letter) in text.bytes().enumerate() {
        match letter {
            b'(' => open += 1,
            b')' => open -= 1,
            b',' if open == 0 => {
                stages.push(stage(&text[start..at]));
                start = at + 1;
            }
            _ => (),
        }
    }
    stages.push(stage(&text[start..]));
    stages
}

/// The stage as the annotation writes it, with names.
fn with_names(named: &Named, stage: &Stage) -> String {
    let goals = stage.goals.iter().map(|goal| named.text(*goal)).collect::<Vec<_>>().join(" & ");
    if stage.goals.len() == 1 {
        return goals;
    }
    let ground = stage.ground.iter().map(|v| format!("ground({})", named.variable(*v)));
    let independent = stage
        .independent
        .iter()
        .map(|(one, other)| format!("indep({},{})", named.variable(*one), named.variable(*other)));
    let checks: Vec<String> = ground.chain(independent).collect();
    let arrow = if checks.is_empty() { "" } else { " => " };
    format!("({}{arrow}{goals})", checks.join(", "))
}

/// What is checked, as words that follow `if`.
fn checks(named: &Named, stage: &Stage) -> String {
    let mut words = Vec::new();
    if !stage.ground.is_empty() {
        let variables = named.variables(stage.ground.iter().copied());
        words.push(format!("{} {} ground", first_few(&variables, FEW), is_or_are(variables.len())));
    }
    if !stage.independent.is_empty() {
        words.push(format!("{} are independent", named.pairs(&stage.independent, FEW)));
    }
    words.join("; ")
}

fn stage_in_words(named: &Named, stage: &Stage) -> String {
    let goals = list(&named.goals(stage.goals.iter().copied()));
    let all = stage.ground.len() + stage.independent.len();
    if stage.goals.len() == 1 {
        format!("{goals} alone.")
    } else if all == 0 {
        format!("{goals} side by side, without a check.")
    } else {
        format!("{goals}, {}: {}.", count(all, "check"), checks(named, stage))
    }
}

/// The annotation in words.
pub fn in_words(page: &mut Page, named: &Named, annotation: &str) {
    let stages = stages(annotation);
    let shown: Vec<String> = stages.iter().map(|stage| with_names(named, stage)).collect();
    let shown = shown.join(", ");
    if shown.len() <= SHORT {
        page.line(2, &shown);
    }
    let checked = stages.iter().any(|stage| stage.ground.len() + stage.independent.len() > 0);
    let one_after_another = if stages.len() > 1 { ", one after another" } else { "" };
    let mut words = format!("{}{one_after_another}.", count(stages.len(), "stage"));
    if checked {
        words += " The checks of a stage are made at run time, before it starts: if all of them \
                  hold, its goals run side by side, else in sequence.";
    }
    page.paragraph(2, "", &words);
    for (at, stage) in stages.iter().enumerate() {
        page.paragraph(2, &format!("Stage {}: ", at + 1), &stage_in_words(named, stage));
    }
}

//! A clause in words: what is known, the form, who waits for whom and why, the passes to the order,
//! the MEL annotation; for a clause without a form what can be done, for a refused record which
//! byte is wrong.

pub mod causes;
mod expression;
mod faults;
pub mod mel;
pub mod new_facts;
pub mod new_waits;
mod no_form;
pub mod passes;
pub mod places;
mod refused;
pub mod split;
pub mod stricter;
mod waits;
mod words;

use crate::view::View;
use lfj::variables;
use words::{Named, Page, count, list};

/// So many independent pairs are told; of the others the number is.
const FEW_PAIRS: usize = 12;

/// What the annotator says of the clause, in words.
///
/// ```
/// use annotate::{explain::explain, view::View};
/// use lfj::Clause;
///
/// let clause = Clause::new(2).head([0, 1]).goal("half", [0]).goal("edge", [0, 1]);
/// let names = ["Left", "Right"].map(String::from).to_vec();
/// let words = explain(&View::new("a clause", clause.record()?, names));
/// assert!(words.contains("  First 1 half, then 2 edge.\n"));
/// assert!(words.contains("  - 1 half: both have Left, which is not ground at 1 half\n"));
///
/// let words = explain(&View::new("a cut record", clause.record()?[..40].to_vec(), Vec::new()));
/// assert!(words.contains("Byte 40 would be the 4th byte of the variable set of goal 2"));
/// # Ok::<(), lfj::ClauseError>(())
/// ```
pub fn explain(view: &View) -> String {
    let mut page = Page::default();
    match &view.clause {
        Ok(clause) => accepted(&mut page, view, &Named { clause, names: &view.names }),
        Err(refusal) => refused::in_words(&mut page, view, refusal),
    }
    page.done()
}

fn accepted(page: &mut Page, view: &View, named: &Named) {
    let clause = named.clause;
    let goals = count(clause.goals.len(), "goal");
    let variables = count(clause.variables as usize, "variable");
    let version = clause.version;
    let title = format!("{}: {goals}, {variables}, a record of version {version}.", view.name);
    page.paragraph(0, "", &title);
    page.heading("What is known");
    known(page, named);
    page.heading("The form");
    match &view.form {
        Ok(form) => {
            page.line(2, &view.form_text);
            page.paragraph(2, "", &expression::with_texts(named, form));
            expression::in_words(page, named, form);
        }
        Err(refusal) => {
            let four = refusal.goals.map(u32::from);
            no_form::in_words(page, named, four);
            page.heading("What a designer can do");
            no_form::advice(page, named, &view.order, four);
        }
    }
    page.heading("Who waits for whom");
    waits::in_words(page, named, &view.order);
    page.heading("How the waits are closed to the order");
    passes::in_words(page, named, view.passes);
    page.heading("The MEL annotation");
    mel::in_words(page, named, &view.mel);
}

/// The goals and the facts of the record.
fn known(page: &mut Page, named: &Named) {
    let clause = named.clause;
    let set = |set: u64| list(&named.variables(variables(set)));
    let mut ground = clause.ground;
    page.paragraph(2, "", &format!("In the head: {}.", set(clause.head)));
    page.paragraph(2, "", &format!("Ground from the start: {}.", set(ground)));
    let pairs = match clause.independent.is_empty() {
        true => "no two variables".to_string(),
        false => named.pairs(&clause.independent, FEW_PAIRS),
    };
    page.paragraph(2, "", &format!("Known to be independent: {pairs}."));
    page.line(2, "The goals and their variables:");
    for (goal, number) in clause.goals.iter().zip(1..) {
        let mut words = format!("{}: {}", named.goal(number), set(goal.variables));
        if clause.version == 2 {
            words += &format!("; {}", count(goal.ticks as usize, "tick"));
        }
        if goal.ground & !ground != 0 {
            words += &format!("; ground from here on: {}", set(goal.ground & !ground));
        }
        ground = goal.ground;
        page.paragraph(4, "", &words);
    }
    if clause.version == 2 {
        let ticks = clause.goals.iter().map(|goal| goal.ticks as usize).sum();
        page.paragraph(2, "", &format!("The goals take {} in all.", count(ticks, "tick")));
    }
}

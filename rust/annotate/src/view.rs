//! A clause with all that the annotator says of it.

/// What a command has to show.
pub struct View {
    /// Of the file, for headings.
    pub name: String,
    pub record: Vec<u8>,
    /// By variable number; v0, v1, .. where the description gives none.
    pub names: Vec<String>,
    pub clause: Result<lfj::Clause, lfj::Refusal>,
    /// Row g - 1: the goals that wait for goal g, closed; empty if refused.
    pub order: Vec<u32>,
    /// How many passes close the waits to the order; 0 if refused.
    pub passes: u32,
    pub form: Result<lfj::Expr, lfj::Refusal>,
    /// Empty without a form.
    pub form_text: String,
    /// Empty if refused.
    pub mel: String,
}

impl View {
    /// Asks the annotator. `names` may be fewer than the clause's variables.
    pub fn new(name: &str, record: Vec<u8>, mut names: Vec<String>) -> View {
        let clause = lfj::Clause::of(&record);
        let variables = clause.as_ref().map_or(0, |clause| clause.variables as usize);
        names.extend((names.len()..variables).map(|number| format!("v{number}")));
        let order = lfj::order(&record).map(|order| order.rows[..order.goals as usize].to_vec());
        View {
            name: name.to_string(),
            names,
            order: order.unwrap_or_default(),
            passes: lfj::passes(&record).unwrap_or(0),
            form: lfj::form_tree(&record),
            form_text: lfj::form_text(&record).unwrap_or_default(),
            mel: lfj::mel_text(&record).unwrap_or_default(),
            clause,
            record,
        }
    }
}

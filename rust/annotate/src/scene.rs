//! What a picture shows of a clause.

use crate::view::View;

/// A dependency graph and the form beside it.
pub struct Scene {
    pub title: String,
    /// Their texts.
    pub goals: Vec<String>,
    /// Row g - 1: the goals that wait for goal g, closed.
    pub order: Vec<u32>,
    pub form: Option<lfj::Expr>,
    pub form_text: String,
    /// Goals a, b, c, d of refusal 13.
    pub four: Option<[u32; 4]>,
}

impl Scene {
    /// The scene of a clause; the refusal if the record has one.
    pub fn of(view: &View) -> Result<Scene, lfj::Refusal> {
        let clause = view.clause.as_ref().map_err(|refusal| *refusal)?;
        let four = match &view.form {
            Err(refusal) if refusal.kind() == lfj::Kind::NoForm => {
                Some(refusal.goals.map(u32::from))
            }
            _ => None,
        };
        Ok(Scene {
            title: view.name.clone(),
            goals: clause.goals.iter().map(|goal| goal.text.clone()).collect(),
            order: view.order.clone(),
            form: view.form.as_ref().ok().cloned(),
            form_text: view.form_text.clone(),
            four,
        })
    }
}

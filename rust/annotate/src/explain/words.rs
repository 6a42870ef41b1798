//! Words and lines: the names of goals and variables, lists, and text wrapped to a width.

use lfj::Clause;

/// No line is longer, unless one word is.
const WIDTH: usize = 100;

/// A space at which no line is broken, until the page is done.
pub const TIE: char = '\u{a0}';

/// Text that grows by paragraphs.
#[derive(Default)]
pub struct Page(String);

impl Page {
    /// A heading, behind an empty line.
    pub fn heading(&mut self, words: &str) {
        self.0 += &format!("\n{words}\n");
    }

    /// A paragraph, `indent` columns in. Its further lines start below the end of `lead`.
    pub fn paragraph(&mut self, indent: usize, lead: &str, words: &str) {
        let hang = indent + lead.chars().count();
        let mut line = format!("{:indent$}{lead}", "");
        let mut width = hang;
        for (at, word) in words.split(' ').enumerate() {
            let length = word.chars().count();
            if at > 0 && width + 1 + length > WIDTH {
                self.0 += &format!("{line}\n");
                line = format!("{:hang$}", "");
                width = hang;
            } else if at > 0 {
                line.push(' ');
                width += 1;
            }
            line += word;
            width += length;
        }
        self.0 += &format!("{line}\n");
    }

    /// A line that is not wrapped.
    pub fn line(&mut self, indent: usize, words: &str) {
        self.0 += &format!("{:indent$}{words}\n", "");
    }

    pub fn done(self) -> String {
        self.0.replace(TIE, " ")
    }
}

/// `a`, `a and b`, `a, b and c`.
pub fn list(words: &[String]) -> String {
    match words {
        [] => "none".to_string(),
        [one] => one.clone(),
        [first @ .., last] => format!("{} and {last}", first.join(", ")),
    }
}

/// The list of the first few, with the number of the others.
pub fn first_few(words: &[String], few: usize) -> String {
    if words.len() <= few {
        return list(words);
    }
    format!("{} and {} more", words[..few].join(", "), words.len() - few)
}

/// `1 goal`, `2 goals`.
pub fn count(number: usize, thing: &str) -> String {
    let plural = if number == 1 { "" } else { "s" };
    format!("{number}{TIE}{thing}{plural}")
}

/// `X is`, `X and Y are`.
pub fn is_or_are(number: usize) -> &'static str {
    if number == 1 { "is" } else { "are" }
}

/// A sentence's first letter.
pub fn capital(words: &str) -> String {
    let mut letters = words.chars();
    letters.next().map_or(String::new(), |first| first.to_uppercase().chain(letters).collect())
}

/// A variable's name, or its number where none is known.
pub fn variable(names: &[String], variable: u8) -> String {
    names.get(variable as usize).cloned().unwrap_or_else(|| format!("v{variable}"))
}

/// A clause with the names of its goals and variables.
pub struct Named<'a> {
    pub clause: &'a Clause,
    pub names: &'a [String],
}

impl Named<'_> {
    /// A goal's number and text.
    pub fn goal(&self, goal: u32) -> String {
        format!("{goal}{TIE}{}", self.text(goal))
    }

    pub fn text(&self, goal: u32) -> &str {
        &self.clause.goals[goal as usize - 1].text
    }

    pub fn goals(&self, goals: impl IntoIterator<Item = u32>) -> Vec<String> {
        goals.into_iter().map(|goal| self.goal(goal)).collect()
    }

    pub fn variable(&self, number: u8) -> String {
        variable(self.names, number)
    }

    pub fn variables(&self, variables: impl IntoIterator<Item = u8>) -> Vec<String> {
        variables.into_iter().map(|variable| self.variable(variable)).collect()
    }

    /// Two variables, as `X and Y`.
    pub fn pair(&self, (one, other): (u8, u8)) -> String {
        format!("{}{TIE}and{TIE}{}", self.variable(one), self.variable(other))
    }

    /// The first few pairs, with the number of the others.
    pub fn pairs(&self, pairs: &[(u8, u8)], few: usize) -> String {
        let told: Vec<String> = pairs.iter().take(few).map(|pair| self.pair(*pair)).collect();
        let told = told.join(", ");
        match pairs.len() {
            all if all > few => format!("{told}, and {} more", count(all - few, "pair")),
            _ => told,
        }
    }
}

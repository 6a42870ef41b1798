//! The names of variables in a description.

/// What cannot name a variable, since it means something else beside names.
const SIGNS: [&str; 3] = ["|", "ticks", "ground"];

/// A name with a number at its end, taken apart: `v12`.
fn numbered(name: &str) -> Option<(&str, usize)> {
    let digits = name.bytes().rev().take_while(u8::is_ascii_digit).count();
    let (stem, number) = name.split_at(name.len() - digits);
    Some((stem, number.parse().ok()?))
}

/// The names that a word stands for: itself, or all of `v0..v9`.
pub fn names_of(word: &str) -> Result<Vec<String>, String> {
    let Some((first, last)) = word.split_once("..") else { return Ok(vec![word.to_string()]) };
    match (numbered(first), numbered(last)) {
        (Some((stem, from)), Some((other, to))) if stem == other && from <= to && to < 1000 => {
            Ok((from..=to).map(|number| format!("{stem}{number}")).collect())
        }
        _ => Err(format!("`{word}` should go from a name to a higher one, as v0..v9 does")),
    }
}

/// Adds a name behind the others, or says why it cannot stand there.
pub fn declare(names: &mut Vec<String>, name: String) -> Result<(), String> {
    let own = names.len();
    if names.contains(&name) {
        return Err(format!("variable {name} is named twice"));
    }
    if SIGNS.contains(&name.as_str()) {
        return Err(format!("a variable cannot be called {name}"));
    }
    let other = matches!(numbered(&name), Some(("v", number)) if number != own);
    names.push(name.clone());
    match other {
        true => Err(format!("{name} has number {own}, so MEL calls it v{own}")),
        false => Ok(()),
    }
}

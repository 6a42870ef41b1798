//! A refused record in words: which byte of which field, what is wrong and what would be right.

use super::faults::{Refused, the_fault};
use super::places::{Field, Part, field_at, fields};
use super::words::{Page, TIE, capital, count};
use crate::view::View;
use lfj::Refusal;

/// A row of the dump has so many bytes.
const ROW: usize = 16;

/// `1st`, `2nd`, `3rd`, `4th`.
fn ordinal(number: usize) -> String {
    let ending = match (number % 10, number % 100) {
        (_, 11..=13) => "th",
        (1, _) => "st",
        (2, _) => "nd",
        (3, _) => "rd",
        _ => "th",
    };
    format!("{number}{ending}")
}

/// A field's name, and which of its bytes the place is.
fn name(field: &Field, place: usize) -> String {
    let byte = place - field.start + 1;
    let one_of = |name: &str| {
        let (byte, last) = (ordinal(byte), field.end - 1);
        format!("the {byte} byte of {name}, bytes {} to {last}", field.start)
    };
    match field.part {
        Part::Mark => one_of("the mark"),
        Part::Version => one_of("the version"),
        Part::GoalCount => "the goal count".to_string(),
        Part::VariableCount => "the variable count".to_string(),
        Part::PairCount => "the pair count".to_string(),
        Part::Head => one_of("the head set"),
        Part::Ground => one_of("the ground set"),
        Part::Set(goal) => one_of(&format!("the variable set of goal {goal}")),
        Part::GroundAt(goal) => one_of(&format!("the ground set of goal {goal}")),
        Part::Ticks(goal) => one_of(&format!("the ticks of goal {goal}")),
        Part::Length(goal) => format!("the length byte of goal {goal}"),
        Part::Text(goal) => one_of(&format!("the text of goal {goal}")),
        Part::Pair(pair) if byte == 1 => format!("the first variable of pair {pair}"),
        Part::Pair(pair) => format!("the second variable of pair {pair}"),
        Part::LeftOver => "the first behind the last field".to_string(),
    }
}

/// The byte: its field, its value, or that the record ends before it.
fn the_byte(refused: &Refused, field: &Field) -> String {
    let place = refused.place;
    let name = name(field, place);
    match refused.record.get(place) {
        Some(value) => {
            format!("Byte {place} is {name}; its value is {value}, hexadecimal{TIE}{value:02x}.")
        }
        None => format!(
            "Byte {place} would be {name}; it is past the end, the record has {}.",
            count(refused.record.len(), "byte")
        ),
    }
}

/// The bytes around the place, a row of sixteen a line, the place marked below.
fn dump(page: &mut Page, refused: &Refused) {
    let row = refused.place / ROW;
    for row in row.saturating_sub(1)..=row + 1 {
        let start = row * ROW;
        let bytes = refused.bytes(start..start + ROW);
        let marked = (start..start + ROW).contains(&refused.place);
        if bytes.is_empty() && !marked {
            continue;
        }
        let hex: Vec<String> = bytes.iter().map(|byte| format!("{byte:02x}")).collect();
        let signs = bytes.iter().map(|byte| match byte.is_ascii_graphic() {
            true => *byte as char,
            false => '.',
        });
        let signs: String = signs.collect();
        page.line(2, format!("{start:>4}  {:<48} {signs}", hex.join(" ")).trim_end());
        if marked {
            let column = 6 + 3 * (refused.place - start);
            page.line(2, &format!("{:column$}^^ byte {}", "", refused.place));
        }
    }
}

/// What is wrong with a refused record.
pub fn in_words(page: &mut Page, view: &View, refusal: &Refusal) {
    let place = refusal.place as usize;
    let fields = fields(&view.record);
    let refused = Refused { record: &view.record, names: &view.names, place, fields };
    page.paragraph(0, "", &format!("{}: refused {} {place}.", view.name, refusal.number));
    let words = field_at(&view.record, place).and_then(|field| {
        let fault = the_fault(&refused, refusal.kind(), field.part)?;
        Some(format!("{} {fault}", the_byte(&refused, &field)))
    });
    let words = words.unwrap_or_else(|| format!("{}.", capital(&refusal.words(&view.record))));
    page.heading("What is wrong");
    page.paragraph(2, "", &words);
    page.heading("The bytes around it");
    dump(page, &refused);
}

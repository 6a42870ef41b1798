//! The printed sheet, as 01 words it. Not timed, so it allocates.

use crate::FORM_LIMIT;
use crate::cases::Annotator;

/// Input beyond this many bytes is not read.
pub const INPUT_LIMIT: usize = 4096;
/// A longer MEL annotation is not printed.
pub const MEL_LIMIT: usize = 32768;

/// The part of standard input that is read.
pub fn read_part(input: &[u8]) -> &[u8] {
    &input[..input.len().min(INPUT_LIMIT)]
}

/// What the program prints for this standard input, from an annotator's answers.
pub fn sheet(annotator: &impl Annotator, input: &[u8]) -> Vec<u8> {
    let record = read_part(input);
    let goals = match annotator.read(record) {
        Ok(goals) => goals,
        Err(refusal) => {
            return format!("refused {} {}\n", refusal.number, refusal.place).into_bytes();
        }
    };
    let mut sheet = format!("goals {goals}\n").into_bytes();
    for goal in 1..=goals {
        let (place, length) = annotator.goal_text(record, goal).unwrap_or((0, 0));
        sheet.extend(format!("{goal} ").bytes());
        sheet.extend(&record[place as usize..][..length as usize]);
        sheet.push(b'\n');
    }
    let mut text = [0; FORM_LIMIT];
    sheet.extend(b"form ");
    match annotator.form(record, &mut text) {
        Ok(length) => sheet.extend(&text[..length as usize]),
        Err(refusal) => {
            let [a, b, c, d] = refusal.goals;
            sheet.extend(format!("none {a} {b} {c} {d}").bytes());
        }
    }
    let mut text = vec![0; MEL_LIMIT];
    sheet.extend(b"\nmel ");
    match annotator.mel(record, &mut text) {
        Ok(length) => sheet.extend(&text[..length as usize]),
        Err(refusal) => sheet.extend(format!("refused 12 {}", refusal.place).bytes()),
    }
    sheet.push(b'\n');
    sheet
}

//! The sheet, byte for byte what the proved program `sheet` prints.

/// A longer MEL annotation is not printed.
const MEL_PRINTED: usize = 32768;

/// The sheet of a record.
pub fn sheet(record: &[u8]) -> Vec<u8> {
    match accepted(record) {
        Ok(sheet) => sheet,
        Err(refusal) => format!("refused {} {}\n", refusal.number, refusal.place).into_bytes(),
    }
}

/// The sheet of a record that reading accepts.
fn accepted(record: &[u8]) -> Result<Vec<u8>, lfj::Refusal> {
    let goals = lfj::read(record)?;
    let mut sheet = format!("goals {goals}\n").into_bytes();
    for goal in 1..=goals {
        sheet.extend(format!("{goal} ").bytes());
        sheet.extend(lfj::goal_text(record, goal)?);
        sheet.push(b'\n');
    }
    let form = lfj::form_text(record).unwrap_or_else(|refusal| {
        let [a, b, c, d] = refusal.goals;
        format!("none {a} {b} {c} {d}")
    });
    let mut mel = vec![0; MEL_PRINTED];
    match lfj::mel(record, &mut mel) {
        Ok(length) => mel.truncate(length),
        Err(refusal) => mel = format!("refused {} {}", refusal.number, refusal.place).into_bytes(),
    }
    for (word, text) in [("form ", form.as_bytes()), ("mel ", &mel)] {
        sheet.extend([word.as_bytes(), text, b"\n"].concat());
    }
    Ok(sheet)
}

//! What a command is given: a description, a record or a record in hexadecimal, told apart by
//! their content.

use crate::describe::{self, Fault};
use crate::failure::Failure;
use crate::hex::{looks_like_hex, unhex};
use std::fs::File;
use std::io::{self, Read};
use std::path::Path;

/// No more of a record is read; every record that is so long is refused already.
pub const RECORD_INPUT: usize = 4096;
/// No more of a file is looked at.
const FILE_INPUT: usize = 1 << 20;

/// A record, and what its description says besides.
#[derive(Debug)]
pub struct Input {
    /// For headings.
    pub name: String,
    pub record: Vec<u8>,
    /// The variables' names, by number; none without a description.
    pub names: Vec<String>,
}

/// Reads a file, or for `-` standard input.
pub fn read(file: &str) -> Result<Input, Failure> {
    let (source, name) = match file {
        "-" => ("standard input", "standard input".to_string()),
        _ => (file, heading(file)),
    };
    let mut bytes = Vec::new();
    let limit = FILE_INPUT as u64 + 1;
    let result = match file {
        "-" => io::stdin().lock().take(limit).read_to_end(&mut bytes),
        _ => File::open(file).and_then(|file| file.take(limit).read_to_end(&mut bytes)),
    };
    result.map_err(|error| Failure::File(format!("{source}: {error}")))?;
    understood(name, bytes).map_err(|faults| Failure::refused(source, &faults))
}

/// A file's name without its folder and its ending.
fn heading(file: &str) -> String {
    let stem = Path::new(file).file_stem();
    stem.map_or(file.to_string(), |stem| stem.to_string_lossy().into_owned())
}

/// The text in these bytes, unless they can only be a record.
fn text_in(bytes: &[u8]) -> Option<&str> {
    let text = std::str::from_utf8(bytes).ok()?;
    let plain = |sign: char| !sign.is_control() || sign.is_whitespace();
    let text_alone = !text.is_empty() && !text.starts_with("LFJ") && text.chars().all(plain);
    text_alone.then(|| text.trim_start_matches('\u{feff}'))
}

/// Finds out what the bytes are.
fn understood(name: String, mut bytes: Vec<u8>) -> Result<Input, Vec<Fault>> {
    let Some(text) = text_in(&bytes) else {
        bytes.truncate(RECORD_INPUT);
        return Ok(Input { name, record: bytes, names: Vec::new() });
    };
    if text.len() > FILE_INPUT {
        let words = format!("the text has more than {FILE_INPUT} bytes, no more are read");
        return Err(vec![(text.lines().count(), words)]);
    }
    if looks_like_hex(text) {
        let mut record = unhex(text).map_err(|fault| vec![fault])?;
        record.truncate(RECORD_INPUT);
        return Ok(Input { name, record, names: Vec::new() });
    }
    let described = describe::read(text)?;
    Ok(Input { name, record: described.record, names: described.names })
}

#[cfg(test)]
mod tests {
    use super::{RECORD_INPUT, heading, understood};

    fn record(bytes: &[u8]) -> Vec<u8> {
        understood(String::new(), bytes.to_vec()).unwrap().record
    }

    #[test]
    fn told_apart_by_content() {
        let described = understood(String::new(), b"variables X\r\ngoal a X\r\n".to_vec()).unwrap();
        assert_eq!((described.names, described.record.len()), (vec!["X".to_string()], 34));
        assert_eq!(record("\u{feff}goal a".as_bytes()).len(), 34);
        assert_eq!(record(b"4c464A 00\n"), b"LFJ\0");
        for bytes in [&b"LFJ"[..], b"", b"LFJ\0\x01", b"\0goal a", b"goal \xff"] {
            assert_eq!(record(bytes), bytes);
        }
        let faults = understood(String::new(), b"no record at all".to_vec()).unwrap_err();
        assert!(faults[0].1.starts_with("`no` is no keyword"), "{faults:?}");
    }

    #[test]
    fn long_ones() {
        assert_eq!(record(&[0; 5000]).len(), RECORD_INPUT);
        assert_eq!(record(&[b'0'; 10_000]).len(), RECORD_INPUT);
        assert_eq!(record(&[0; super::FILE_INPUT + 1]).len(), RECORD_INPUT);
        let text = "# a comment\n".repeat(100_000);
        assert!(
            understood(String::new(), text.into_bytes()).unwrap_err()[0].1.contains("more than")
        );
    }

    #[test]
    fn headings() {
        assert_eq!(heading("samples/half-motif.txt"), "half-motif");
        assert_eq!(heading(".."), "..");
    }
}

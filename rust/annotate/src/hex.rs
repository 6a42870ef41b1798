//! Records in hexadecimal.

/// Two lower-case digits for each byte.
pub fn hex(bytes: &[u8]) -> String {
    bytes.iter().map(|byte| format!("{byte:02x}")).collect()
}

/// Could the text be a record in hexadecimal? It has digits and spaces alone, or starts with the
/// digits of `LFJ`.
pub fn looks_like_hex(text: &str) -> bool {
    let mut signs = text.chars().filter(|sign| !sign.is_whitespace()).peekable();
    let start: String = signs.clone().take(6).collect();
    signs.peek().is_some()
        && (start.eq_ignore_ascii_case("4c464a") || signs.all(|sign| sign.is_ascii_hexdigit()))
}

/// The bytes of a text in hexadecimal with any spaces, or what is wrong with it.
pub fn unhex(text: &str) -> Result<Vec<u8>, (usize, String)> {
    let mut digits = Vec::new();
    for (line, number) in text.lines().zip(1..) {
        for sign in line.chars().filter(|sign| !sign.is_whitespace()) {
            match sign.to_digit(16) {
                Some(digit) => digits.push(digit as u8),
                None => return Err((number, format!("`{sign}` is no hexadecimal digit"))),
            }
        }
    }
    if digits.len() % 2 == 1 {
        let words = format!("{} hexadecimal digits; each byte has two", digits.len());
        return Err((text.lines().count(), words));
    }
    Ok(digits.chunks_exact(2).map(|pair| pair[0] << 4 | pair[1]).collect())
}

#[cfg(test)]
mod tests {
    use super::{hex, looks_like_hex, unhex};

    #[test]
    fn there_and_back() {
        let all: Vec<u8> = (0..=255).collect();
        assert_eq!(unhex(&hex(&all)), Ok(all));
        assert_eq!(unhex("4C 46\n4a\t"), Ok(b"LFJ".to_vec()));
        assert_eq!(unhex("4c46\n4a0").unwrap_err().0, 2);
        assert_eq!(unhex("4c\n4g").unwrap_err(), (2, "`g` is no hexadecimal digit".to_string()));
    }

    #[test]
    fn told_from_other_texts() {
        assert!(looks_like_hex(" 4C464a 0\n0"));
        assert!(looks_like_hex("00"));
        assert!(looks_like_hex("4c464a and more"));
        assert!(!looks_like_hex("# 00"));
        assert!(!looks_like_hex(" \n"));
    }
}

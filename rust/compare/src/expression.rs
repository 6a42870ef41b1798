//! Reading an expression's text, refusals 15 to 17, and the comparison of two orders.

use crate::Refusal;

/// The longest text that the check reads.
pub const TEXT_LIMIT: usize = 512;
const OPEN_LIMIT: usize = 32;

/// What the check says of an expression: the record's order, or the first i, then j, for
/// which just one of the two orders has i before j.
#[derive(Clone, Copy, PartialEq, Eq, Debug)]
pub enum Verdict {
    Same,
    Differs(u8, u8),
}

/// The order of the expression, for each goal the goals before it.
///
/// One pass. What is before a goal is `before` at the moment it is read: all that was read
/// in the open parentheses up to their last `,`. Refusal 17 waits until the whole text is
/// known to be in the grammar.
#[inline(always)]
pub fn read(text: &[u8], goals: usize) -> Result<[u32; 32], Refusal> {
    if text.is_empty() || text.len() > TEXT_LIMIT {
        return Err(Refusal::at(15, 0));
    }
    let mut rows = [0u32; 32];
    // Of each parenthesis still open: `before` and `met` where it stands.
    let mut outer = [(0u32, 0u32); OPEN_LIMIT];
    let (mut before, mut base, mut met) = (0u32, 0u32, 0u32);
    let mut open = 0;
    let mut wrong = usize::MAX;
    let mut at = 0;
    'text: while let Some(&byte) = text.get(at) {
        // A primary begins here.
        if byte == b'(' {
            if open == OPEN_LIMIT {
                break;
            }
            outer[open] = (before, base);
            base = met;
            open += 1;
            at += 1;
            continue;
        }
        let digit = byte.wrapping_sub(b'0');
        if digit == 0 || digit > 9 {
            break;
        }
        let place = at;
        let mut number = digit as usize;
        at += 1;
        let mut next = text.get(at).copied().unwrap_or(0);
        if next.wrapping_sub(b'0') <= 9 {
            number = 10 * number + (next - b'0') as usize;
            at += 1;
            next = text.get(at).copied().unwrap_or(0);
        }
        if number > goals || met >> (number - 1) & 1 == 1 {
            wrong = wrong.min(place);
        } else {
            rows[(number - 1) & 31] = before;
            met |= 1 << (number - 1);
        }
        // Behind a primary.
        loop {
            match next {
                b'&' => break,
                b',' => {
                    let start = if open == 0 { 0 } else { outer[(open - 1) & 31].0 };
                    before = start | met & !base;
                    break;
                }
                b')' if open > 0 => {
                    open -= 1;
                    (before, base) = outer[open & 31];
                    at += 1;
                    next = text.get(at).copied().unwrap_or(0);
                }
                _ => break 'text,
            }
        }
        at += 1;
    }
    // The reading stopped at a byte that does not fit, or at the text's end.
    let ended = at == text.len() && open == 0 && !matches!(text[at - 1], b',' | b'&' | b'(');
    if !ended {
        return Err(Refusal::at(16, at));
    }
    if wrong != usize::MAX {
        return Err(Refusal::at(17, wrong));
    }
    if met.count_ones() as usize != goals {
        return Err(Refusal::at(17, text.len()));
    }
    Ok(rows)
}

/// Compares two orders, given for each goal the goals before it.
#[inline(always)]
pub fn compare(stated: &[u32; 32], wanted: &[u32; 32]) -> Verdict {
    let mut differing = 0;
    for goal in 0..32 {
        differing |= stated[goal] ^ wanted[goal];
    }
    if differing == 0 {
        return Verdict::Same;
    }
    let i = differing.trailing_zeros();
    let j = (0..32).find(|&j| (stated[j] ^ wanted[j]) >> i & 1 == 1).unwrap_or(0);
    Verdict::Differs(i as u8 + 1, j as u8 + 1)
}

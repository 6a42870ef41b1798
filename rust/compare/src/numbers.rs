//! Bits of a set and decimal numbers below 100.

/// The members of a set, lowest first.
#[derive(Clone, Copy)]
pub struct Members(pub u64);

impl Iterator for Members {
    type Item = usize;

    #[inline(always)]
    fn next(&mut self) -> Option<usize> {
        if self.0 == 0 {
            return None;
        }
        let lowest = self.0.trailing_zeros() as usize;
        self.0 &= self.0 - 1;
        Some(lowest)
    }
}

/// The goals 1 to `count`, goal g at bit g - 1.
#[inline(always)]
pub fn first_goals(count: usize) -> u32 {
    if count >= 32 { u32::MAX } else { (1 << count) - 1 }
}

/// The variables below `count`.
#[inline(always)]
pub fn first_variables(count: usize) -> u64 {
    if count >= 64 { u64::MAX } else { (1 << count) - 1 }
}

/// The members of `set` above member `bit`.
#[inline(always)]
pub fn above(set: u64, bit: usize) -> u64 {
    set & (u64::MAX << bit << 1)
}

/// The digits of each number below 100, low numbers in the first byte only.
pub const DIGITS: [[u8; 2]; 100] = {
    let mut table = [[0; 2]; 100];
    let mut number = 0;
    while number < 100 {
        let (tens, ones) = (b'0' + number as u8 / 10, b'0' + number as u8 % 10);
        table[number] = if number < 10 { [ones, 0] } else { [tens, ones] };
        number += 1;
    }
    table
};

/// How many digits a number below 100 takes.
#[inline(always)]
pub fn digits(number: usize) -> usize {
    1 + (number >= 10) as usize
}

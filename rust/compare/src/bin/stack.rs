//! Calls each operation of the proved library at its worst input. To be run on a small
//! stack, which the calls have to do with: all buffers here are on the heap.

// Buffers of a few bytes would do on the stack; here it is what is measured.
#![allow(clippy::useless_vec)]

use compare::about;
use compare::build::Parts;
use compare::generate::padded;
use lfj::dispatch::{Head, start, tick};
use lfj::{Refusal, Verdict};
use std::process::ExitCode;

const HELP: &str = "\
usage: stack             every call, one line each
       stack NAME        the one call of this name
       stack --names     the names
       stack --use KB    uses so much stack itself: shows that the limit holds
Calls each operation of the proved library at its worst input.
";

/// A name and a call that says whether the answer was the expected one.
type Call = (&'static str, fn() -> bool);

fn no_form() -> Refusal {
    Refusal { number: 13, place: 0, goals: [29, 30, 31, 32] }
}

fn short(length: u32) -> Refusal {
    Refusal { number: 12, place: length, goals: [0; 4] }
}

fn no_row() -> Refusal {
    Refusal { number: 20, place: 0, goals: [0; 4] }
}

fn longest_form() -> Vec<u8> {
    Parts::longest_form().record()
}

fn without_form() -> Vec<u8> {
    Parts::without_form(32).record()
}

fn longest_mel() -> Vec<u8> {
    Parts::longest_mel().record()
}

fn longest_record() -> Vec<u8> {
    Parts::longest_record().record()
}

fn longest_wide_record() -> Vec<u8> {
    Parts::longest_wide_record().record()
}

fn form_of(record: &[u8]) -> Vec<u8> {
    let mut out = vec![0; lfj::FORM_LIMIT];
    let length = compare::form(record, &mut out).unwrap_or(0);
    out.truncate(length as usize);
    out
}

const CALLS: &[Call] = &[
    ("read, version 1, 1,590 bytes", || {
        let record = longest_record();
        record.len() == 1590 && lfj::read(&record) == Ok(32)
    }),
    ("read, version 2, 1,910 bytes", || {
        let record = longest_wide_record();
        record.len() == 1910 && lfj::read(&record) == Ok(32)
    }),
    ("order, without a form", || {
        lfj::order(&without_form()).is_ok_and(|order| order.rows[0] == u32::MAX - 1)
    }),
    ("order, version 2, 1,910 bytes", || {
        lfj::order(&longest_wide_record()).is_ok_and(|order| order.rows[0] == u32::MAX - 1)
    }),
    ("passes, version 2, 1,910 bytes", || lfj::passes(&longest_wide_record()) == Ok(1)),
    ("passes, six of a chain of 24 goals", || {
        let waits: Vec<(usize, usize)> = (1..24).map(|goal| (goal, goal + 1)).collect();
        Parts::with_waits(24, &waits).is_some_and(|chain| lfj::passes(&chain.record()) == Ok(6))
    }),
    ("facts, version 2, 1,910 bytes", || {
        lfj::facts(&longest_wide_record()).is_ok_and(|facts| facts.goals == 32)
    }),
    ("after, 32 goals", || lfj::after(&longest_form(), 1) == Ok(u32::MAX - 1)),
    ("after, without a form", || lfj::after(&without_form(), 1) == Ok(u32::MAX - 1)),
    ("after, version 2, 1,910 bytes", || lfj::after(&longest_wide_record(), 1) == Ok(u32::MAX - 1)),
    ("form, the longest", || lfj::form(&longest_form(), &mut vec![0; 146]) == Ok(146)),
    ("form, version 2, 1,910 bytes", || {
        lfj::form(&longest_wide_record(), &mut vec![0; 146]) == Ok(146)
    }),
    ("form, buffer of 145 bytes", || {
        lfj::form(&longest_form(), &mut vec![0; 145]) == Err(short(146))
    }),
    ("form, 32 goals without one", || {
        lfj::form(&without_form(), &mut vec![0; 146]) == Err(no_form())
    }),
    ("form_length, the longest", || lfj::form_length(&longest_form()) == Ok(146)),
    ("form_length, 32 goals without one", || lfj::form_length(&without_form()) == Err(no_form())),
    ("mel, 192,127 bytes", || lfj::mel(&longest_mel(), &mut vec![0; 192_127]) == Ok(192_127)),
    ("mel, version 2, 192,127 bytes", || {
        let record = Parts::longest_mel().knowing(&[]).record();
        lfj::mel(&record, &mut vec![0; 192_127]) == Ok(192_127)
    }),
    ("mel, buffer of 0 bytes", || lfj::mel(&longest_mel(), &mut []) == Err(short(192_127))),
    ("goal_text, the last of the longest record", || {
        lfj::goal_text(&longest_wide_record(), 32) == Ok(&[b'~'; compare::GOAL_TEXT_LIMIT])
    }),
    ("check, the longest form", || {
        let record = longest_form();
        lfj::check(&record, &form_of(&record)) == Ok(Verdict::Same)
    }),
    ("check, 32 open parentheses", || {
        let record = Parts::over(0, &[0]).record();
        let text = [vec![b'('; 32], b"1".to_vec(), vec![b')'; 32]].concat();
        lfj::check(&record, &text) == Ok(Verdict::Same)
    }),
    ("check, 512 open parentheses", || {
        let refusal = Refusal { number: 16, place: 32, goals: [0; 4] };
        lfj::check(&longest_form(), &[b'('; 512]) == Err(refusal)
    }),
    ("check, 512 bytes", || {
        let record = longest_form();
        let text = padded(&form_of(&record), 512);
        text.len() == 512 && lfj::check(&record, &text) == Ok(Verdict::Same)
    }),
    ("check, 512 bytes in sequence", || {
        let text = [b"1,".repeat(255), b"12".to_vec()].concat();
        let refusal = Refusal { number: 17, place: 2, goals: [0; 4] };
        lfj::check(&longest_form(), &text) == Err(refusal)
    }),
    ("start, 8 heads, version 2, 1,910 bytes", || {
        let mut heads = vec![Head { goal: 1, left: 1 }; 8];
        start(&longest_wide_record(), &mut heads) == Ok(0) && heads == [Head::default(); 8]
    }),
    ("start, 9 heads", || start(&longest_form(), &mut vec![Head::default(); 9]) == Err(no_row())),
    ("tick, 8 heads, version 2, 1,910 bytes", || {
        let mut heads = vec![Head::default(); 8];
        let answer = tick(&longest_wide_record(), &mut heads, 1);
        let taken = [Head { goal: 2, left: 59_999 }, Head { goal: 3, left: 59_999 }];
        answer == Ok(1) && heads[..2] == taken && heads[2..] == [Head::default(); 6]
    }),
    ("tick, 8 heads, 32 goals without a form", || {
        let mut heads = vec![Head::default(); 8];
        let ended = u32::MAX >> 4;
        tick(&without_form(), &mut heads, ended) == Ok(ended | 3 << 28)
    }),
    ("tick, refused", || {
        let mut heads = vec![Head { goal: 32, left: 1 }; 8];
        tick(&longest_wide_record(), &mut heads, 0) == Err(no_row())
    }),
];

/// Uses at least so many kilobytes of stack.
#[inline(never)]
fn deep(kilobytes: usize) -> u8 {
    let mut block = [1u8; 1000];
    std::hint::black_box(&mut block);
    let below = if kilobytes <= 1 { 0 } else { deep(kilobytes - 1) };
    below ^ std::hint::black_box(&block)[7]
}

fn main() -> ExitCode {
    let words = about::words("stack", HELP);
    let one = words.first().map(String::as_str);
    if one == Some("--names") {
        CALLS.iter().for_each(|(name, _)| println!("{name}"));
        return ExitCode::SUCCESS;
    }
    if one == Some("--use") {
        let kilobytes = words.get(1).and_then(|word| word.parse().ok()).unwrap_or(1024);
        println!("{}", deep(kilobytes));
        return ExitCode::SUCCESS;
    }
    let mut right = true;
    let mut called = 0;
    for (name, call) in CALLS.iter().filter(|(name, _)| one.is_none_or(|wanted| wanted == *name)) {
        let answer = call();
        if one.is_none() || !answer {
            println!("{name}: {}", if answer { "ok" } else { "another answer than expected" });
        }
        right &= answer;
        called += 1;
    }
    if right && called > 0 { ExitCode::SUCCESS } else { ExitCode::FAILURE }
}

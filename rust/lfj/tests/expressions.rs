//! Expressions of the conformance kit, read as trees and printed again.

use lfj::{Expr, Verdict};
use std::fs;
use std::path::Path;

fn unhex(digits: &str) -> Vec<u8> {
    let digits = if digits == "-" { "" } else { digits };
    let byte = |at| u8::from_str_radix(&digits[at..at + 2], 16).unwrap();
    (0..digits.len()).step_by(2).map(byte).collect()
}

/// The questions to `check` in a file of the kit: record and text.
fn questions(file: &str) -> Vec<(Vec<u8>, Vec<u8>)> {
    let path = Path::new(env!("CARGO_MANIFEST_DIR")).join("../../kit/cases").join(file);
    let text = fs::read_to_string(path).unwrap();
    let cases = text.lines().filter_map(|line| {
        let mut words = line.split_whitespace().skip_while(|word| *word != "check").skip(2);
        Some((unhex(words.next()?), unhex(words.next()?)))
    });
    let cases: Vec<_> = cases.collect();
    assert!(cases.len() >= 20, "{file} has {} cases", cases.len());
    cases
}

#[test]
fn printed_again() {
    for (record, text) in questions("check-order.txt") {
        let text = String::from_utf8(text).unwrap();
        let expr: Expr = text.parse().unwrap();
        assert!(expr.to_string().len() <= text.len(), "{text} is printed as {expr}");
        for again in [expr.to_string(), format!("{expr:#}")] {
            assert_eq!(again.parse(), Ok(expr.clone()), "{text} is printed as {again}");
            let verdict = lfj::check(&record, again.as_bytes());
            assert_eq!(verdict, lfj::check(&record, text.as_bytes()), "{text}, {again}");
        }
    }
}

#[test]
fn refused_where_the_check_refuses() {
    let files = ["check-grammar.txt", "check-goals.txt", "check-order.txt"];
    let (mut read, mut refused) = (0, 0);
    for (record, text) in files.into_iter().flat_map(questions) {
        let Ok(text) = std::str::from_utf8(&text) else { continue };
        match (text.parse::<Expr>(), lfj::check(&record, text.as_bytes())) {
            (Err(error), Err(refusal)) if [15, 16].contains(&refusal.number) => {
                assert_eq!(error.place, refusal.place as usize, "{text}");
                refused += 1;
            }
            (Ok(_), Ok(_)) => read += 1,
            (Ok(_), Err(refusal)) => assert_eq!(refusal.number, 17, "{text}"),
            (error, check) => panic!("{text}: {error:?}, {check:?}"),
        }
    }
    assert!(read > 100 && refused > 50, "{read} read, {refused} refused");
}

/// Every text of five bytes or fewer over these signs, against the check.
#[test]
fn short_texts() {
    let record = lfj::Clause::new(0).goal("a", []).goal("b", []).record().unwrap();
    let mut texts = vec![String::new()];
    for from in 0.. {
        let Some(text) = texts.get(from).cloned() else { break };
        let place = text.parse::<Expr>().map_err(|error| error.place as u32).err();
        let check = lfj::check(&record, text.as_bytes());
        let refused = check.err().filter(|refusal| [15, 16].contains(&refusal.number));
        assert_eq!(place, refused.map(|refusal| refusal.place), "{text}");
        if text.len() < 5 {
            texts.extend("0129,&()".chars().map(|sign| format!("{text}{sign}")));
        }
    }
}

#[test]
fn fewest_parentheses() {
    for (text, printed, inner) in [
        ("((1)),((2))", "1,2", "1,2"),
        ("(1&2),3", "1&2,3", "(1&2),3"),
        ("1,2&3,4", "1,2&3,4", "1,(2&3),4"),
        ("(1,2)&3", "(1,2)&3", "(1,2)&3"),
        ("(1,2),(3&4)", "(1,2),3&4", "(1,2),(3&4)"),
        ("1&(2&3)", "1&(2&3)", "1&(2&3)"),
        ("(((12)))", "12", "12"),
    ] {
        let expr: Expr = text.parse().unwrap();
        assert_eq!((expr.to_string(), format!("{expr:#}")), (printed.into(), inner.into()));
    }
}

#[test]
fn errors_in_words() {
    let words = |text: &str| text.parse::<Expr>().unwrap_err().to_string();
    assert_eq!(words(""), "the expression has 0 bytes; 1 to 512 are read");
    assert_eq!(words(&"1".repeat(513)), "the expression has 513 bytes; 1 to 512 are read");
    assert_eq!(words("1)"), "byte 1 of the expression: here belongs `,`, `&` or the end");
    assert_eq!(
        words("(1"),
        "byte 2 of the expression, where it stops: here belongs `,`, `&` or `)`"
    );
    let open = words(&"(".repeat(33));
    assert!(open.starts_with("byte 32 of the expression: 32 parentheses are open"), "{open}");
    // As deep and as long as can be.
    let deep = format!("{}1{}", "(".repeat(32), ")".repeat(32));
    assert_eq!(deep.parse(), Ok(Expr::Goal(1)));
    assert!(format!("11{}", "&1".repeat(255)).parse::<Expr>().is_ok());
    let error = "1,".parse::<Expr>().unwrap_err();
    assert_eq!(format!("{error:?}"), error.to_string());
    let record = lfj::Clause::new(0).goal("a", []).record().unwrap();
    assert_eq!(lfj::check(&record, deep.as_bytes()), Ok(Verdict::Same));
}

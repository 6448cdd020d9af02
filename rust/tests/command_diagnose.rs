//! What the command says of refusals, over texts made from the grammar: every
//! refusal of the library is explained, and no text or place stops it.

mod generator;
mod reference;
mod vector;

#[allow(dead_code, unused_imports)]
#[path = "../src/bin/sidluqethe/diagnose/mod.rs"]
mod diagnose;
#[allow(dead_code)]
#[path = "../src/bin/sidluqethe/escape.rs"]
mod escape;

use escape::{is_hidden, widest};
use generator::Stream;
use sidluqethe::Policy;
use std::collections::BTreeMap;

const SEED: u64 = 20_261_116;
const REQUESTS: usize = 60_000;

/// Two lines: the number and the line, then a caret under a byte of it.
fn check_snippet(shown: &str, line: u32) {
    let lines: Vec<&str> = shown.split('\n').collect();
    let [first, second, ""] = lines[..] else {
        panic!("two lines: {shown:?}");
    };
    // A line that is empty, or ends in blanks, is shown without them.
    let text = format!("{first} ");
    let text = text.strip_prefix(&format!("{line:>5} | "));
    let caret = second.strip_prefix("      | ");
    let (Some(text), Some(caret)) = (text, caret) else {
        panic!("a gutter: {shown:?}");
    };
    let indent = caret.len() - 1;
    assert_eq!(caret, format!("{:indent$}^", ""), "{shown:?}");
    assert!(indent <= widest(text) + 65, "{shown:?}");
    assert!(widest(first) < 80 && second.len() < 80, "{shown:?}");
    check_printable(text);
}

fn check_printable(words: &str) {
    assert!(!words.contains(is_hidden), "{words:?}");
}

/// What is said, each line printable.
fn said(text: &[u8], number: u8, line: u32, column: u32) -> diagnose::Diagnosis {
    check_snippet(&diagnose::snippet(text, line, column), line);
    let diagnosis = diagnose::in_text(text, number, line, column);
    for words in [&diagnosis.wanted, &diagnosis.hint].into_iter().flatten() {
        check_printable(words);
        assert!(!words.is_empty());
    }
    diagnosis
}

/// What is said with the parts from the text left out.
fn kind(words: &str) -> String {
    let parts = words.split('`').step_by(2);
    let kind = parts.collect::<Vec<_>>().join("`");
    kind.chars().filter(|c| !c.is_ascii_digit()).collect()
}

#[test]
fn every_refusal_is_explained() {
    let mut kinds = BTreeMap::new();
    for request in Stream::new(SEED).take(REQUESTS) {
        let Err(refusal) = Policy::read(&request.text[..]) else {
            continue;
        };
        if refusal.line == 0 {
            continue;
        }
        let number = refusal.number();
        let diagnosis = said(&request.text, number, refusal.line, refusal.column);
        let Some(wanted) = diagnosis.wanted else {
            panic!("{refusal}: {}", escape::escape(&request.text));
        };
        let hint = diagnosis.hint.unwrap_or_default();
        let kind = format!("{number:2} {} | {}", kind(&wanted), kind(&hint));
        let count = kinds.entry(kind).or_insert((0, wanted, hint));
        count.0 += 1;
    }
    for (kind, (count, wanted, hint)) in &kinds {
        println!("{count:6} {}\n       {wanted}\n       {hint}", &kind[..2]);
    }
    assert!(kinds.len() >= 80, "{} kinds", kinds.len());
}

/// Other numbers and places than the library's: something or nothing is said,
/// and it ends.
#[test]
fn any_place_ends() {
    for (i, request) in Stream::new(SEED + 1).take(REQUESTS).enumerate() {
        let text = &request.text[..request.text.len().min(4_000)];
        let place = i * 7_919 % (text.len() + 1);
        let line = 1 + text[..place].iter().filter(|b| **b == b'\n').count();
        let start = text[..place].iter().rposition(|b| *b == b'\n');
        let column = place - start.map_or(0, |start| start + 1) + 1;
        for number in 1..=11 {
            said(text, number, line as u32, column as u32);
        }
        said(text, 4, (i % 50) as u32, (i % 90) as u32);
    }
}

/// Places beyond every line and column.
#[test]
fn places_outside_the_text_end() {
    for text in [
        &b""[..],
        b"\n",
        b"profile p {",
        b"@{",
        b"@{A}=",
        b"\"",
        b"/p{/a",
    ] {
        for number in 0..=12 {
            for line in [0, 1, 2, 3, u32::MAX] {
                for column in [0, 1, 2, 9, u32::MAX] {
                    diagnose::in_text(text, number, line, column);
                    diagnose::snippet(text, line, column);
                }
            }
        }
    }
}

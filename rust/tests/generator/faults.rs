//! Texts that are nearly valid: odd tokens, changed bytes, cut texts.

use super::draft::{Draft, Gap, Token};
use super::rng::Rng;
use crate::reference::text::FIXED;

/// Tokens that seldom fit where they are put, besides the fixed words.
const ODD: &[&str] = &[
    "priority=1",
    "priority=\"1\"",
    "^hat",
    "^\"x\"",
    "^h,\"x\"",
    "hat{",
    "include<x>",
    "network,",
    "set,x",
    "audit",
    "deny",
    "allow",
    "owner",
    "audit,",
    "deny{",
    "profile",
    "profile,",
    "profile{",
    "\"profile\"",
    "\"audit\"",
    "{",
    "}",
    ",",
    "->",
    "-->",
    "-",
    ">",
    "=",
    "+=",
    "+",
    "\"{\"",
    "\"}\"",
    "\",\"",
    "\"->\"",
    "\"=\"",
    "\"\"",
    "\"x",
    "\"a b\"",
    "x\"y",
    "\"x\"y",
    "@{",
    "@{A}",
    "@{B}",
    "@{1}",
    "@{A",
    "@{}",
    "@{A\"}",
    "@{A,B}",
    "@{A}=/x",
    "@{A}+=/y",
    "@{A}==x",
    "@{RUN}=@{RUN}",
    "\n@{H}=/x\n",
    "\n@{A}\n=/x",
    "\n@{B} += /y @{A}\n",
    "@",
    "@@{A}",
    "\\@{A}",
    "#include <x>",
    "#included",
    "# include",
    "##include",
    "#",
    "#\0",
    "\0",
    "\"\0\"",
    "q\0",
    "network\0",
    "\n",
    "\r",
    "/a\\#",
    "/a#b",
    "/",
    "/a",
    "/a{b,c}",
    "/a{b",
    "/a}",
    "/a{b}",
    "/a{}",
    "/a{,}",
    "/a{b,{c,d}}",
    "/a{b\\,c}",
    "/a[",
    "/a]",
    "/a[]",
    "/a[^]",
    "/a[b-a]",
    "/a[a-]",
    "/a[-a]",
    "/a[a-b-c]",
    "/a[^.-9]",
    "/a[/]",
    "/a\\",
    "/a^",
    "/a[^^]",
    "*",
    "**",
    "?",
    "\\/a",
    "{/a,}",
    "{/a,/b}",
    "a",
    "/a\\*",
    "r",
    "rw",
    "wa",
    "rr",
    "x",
    "rx",
    "ix",
    "px",
    "ixix",
    "xx",
    "pUx",
    "Pux",
    "pixrw",
    "uxr",
    "Ixr",
    "rq",
    "px->t",
    "r->",
    "t",
    "t{",
    "+t",
    "-t",
    "/t",
    "t t",
    "/p",
    "/p{",
    "/p{}",
    "profile p{}",
    "profile q { /a r, }",
    "é",
];

/// A fixed word or an odd token.
fn odd_word(rng: &mut Rng) -> &'static str {
    let i = rng.below(FIXED.len() + ODD.len());
    match i.checked_sub(FIXED.len()) {
        None => FIXED[i],
        Some(rest) => ODD[rest],
    }
}

const BYTES: &[u8] = b"\0\"#\\\n\r \t,{}[]^@=+->*?/ax.rwp";

/// One or two faults in the tokens.
pub fn tokens(rng: &mut Rng, draft: &mut Draft) {
    for _ in 0..rng.between(1, 2) {
        let count = draft.tokens.len();
        if count == 0 {
            draft.tokens.push(odd(rng));
            continue;
        }
        let at = rng.below(count);
        match rng.below(12) {
            0 | 1 => drop(draft.tokens.remove(at)),
            2 => draft.tokens.insert(at, draft.tokens[at].clone()),
            3 => draft.tokens.swap(at, rng.below(count)),
            4 => draft.tokens[at].bytes = quote(&draft.tokens[at].bytes),
            5 => draft.tokens[at].gap = Gap::AnyInLine,
            6 => draft.tokens[at].gap = Gap::Line,
            7 | 8 => draft.tokens[at].bytes = soup(rng, at),
            9 => draft.tokens[at] = odd(rng),
            _ => draft.tokens.insert(at, odd(rng)),
        }
    }
}

fn odd(rng: &mut Rng) -> Token {
    let gap = *rng.pick(&[Gap::Some, Gap::Some, Gap::Any, Gap::SomeInLine]);
    let bytes = odd_word(rng).into();
    Token { bytes, gap }
}

fn quote(bytes: &[u8]) -> Vec<u8> {
    [b"\"", bytes, b"\""].concat()
}

/// A few bytes of a kind, thrown together.
fn soup(rng: &mut Rng, kind: usize) -> Vec<u8> {
    let kinds: [&[u8]; 3] = [b"/aab*?[]{},^\\@-.", b"rwamlkxuUpPcCix", b"@{}A1_=+\"#/"];
    let from = kinds[kind % kinds.len()];
    (0..rng.between(1, 8)).map(|_| *rng.pick(from)).collect()
}

/// A short text whose one pattern is thrown together.
pub fn pattern_soup(rng: &mut Rng) -> Vec<u8> {
    let parts = [
        "/", "a", "b", "*", "**", "?", "[", "]", "^", "-", "{", "}", ",", "\\", "@", "@{A}",
        "@{B}", "@{1}", "{a,b}", "{,/}", "[a-c]", "[^b]", ".", "_", "//", "=",
    ];
    let mut soup = |first: &str, most| {
        let mut made = String::from(first);
        for _ in 0..rng.between(1, most) {
            made += rng.word(&parts);
        }
        made
    };
    let (value, other) = (soup("", 4), soup("/", 3));
    let (first, second) = (soup("/", 8), soup("", 5));
    let (tested, rest) = match rng.below(4) {
        0 => (
            format!("@{{A}}={value} /b\n"),
            "@{B}=/a\n/p{/a r,".to_string(),
        ),
        1 => (
            format!("@{{A}}=/b\n@{{B}}={other}\n"),
            "/p{@{B} rpx,".to_string(),
        ),
        2 => ("@{A}=/a b\n@{B}=/ /b\n/p{".into(), format!("{second} rix,")),
        _ => (
            "@{A}=/a b\n@{B}=/ /b\n/p{".into(),
            format!("{first} rcx->t,"),
        ),
    };
    (tested + &rest + "/a** k,}").into_bytes()
}

/// Odd tokens only.
pub fn token_soup(rng: &mut Rng) -> Vec<u8> {
    let mut text = Vec::new();
    for _ in 0..rng.below(12) {
        text.extend(odd_word(rng).as_bytes());
        text.extend(rng.word(&[" ", " ", "\n", "", ","]).as_bytes());
    }
    text
}

/// A few bytes changed, put in, taken out or doubled.
pub fn bytes(rng: &mut Rng, text: &mut Vec<u8>) {
    for _ in 0..rng.between(1, 3) {
        let at = rng.below(text.len() + 1);
        let byte = match rng.below(5) {
            0 => rng.next() as u8,
            _ => *rng.pick(BYTES),
        };
        if at == text.len() || rng.percent(35) {
            text.insert(at, byte);
        } else if rng.percent(60) {
            text[at] = byte;
        } else {
            let end = (at + rng.between(1, 3)).min(text.len());
            text.drain(at..end);
        }
    }
}

/// The text's end, or its beginning, is lost.
pub fn cut(rng: &mut Rng, text: &mut Vec<u8>) {
    let at = rng.below(text.len() + 1);
    if rng.percent(85) {
        text.truncate(at);
    } else {
        text.drain(..at);
    }
}

//! A second, independent implementation of document 01 and of document 02 up
//! to request Two, written from the papers alone. It is plain rather than
//! fast; the library is compared with it.

#![allow(dead_code)]

mod judge;
mod pattern;
pub mod text;

pub use pattern::Match;
use text::{File, Profile, Rule};

/// A refusal's number, line and column.
#[derive(Clone, Copy, Debug, PartialEq, Eq)]
pub struct Refusal {
    pub number: u8,
    pub line: u32,
    pub column: u32,
}

/// "one of: not asked, denied, conflict, or a mode", the mode as written.
#[derive(Clone, Copy, Debug, PartialEq, Eq)]
pub enum Execute {
    NotAsked,
    Denied,
    Conflict,
    Mode(&'static str),
}

#[derive(Clone, Debug, PartialEq, Eq)]
pub struct Answer {
    pub granted: u8,
    pub recorded: u8,
    pub execute: Execute,
    pub target: Option<Vec<u8>>,
}

/// A request to a profile.
#[derive(Clone, Copy)]
pub struct Asked<'a> {
    pub name: &'a [u8],
    pub path: &'a [u8],
    pub asked: u8,
    pub owner: bool,
}

/// An answer, and what it was found by.
pub struct Judgement {
    pub answer: Result<Answer, Refusal>,
    /// What was read of the text, where it is accepted.
    pub file: Option<File>,
    /// How each rule of the text, in its order, matches the request. What is
    /// asked for plays no part.
    pub matches: Vec<Match>,
}

pub fn judge(text: &[u8], asked: Asked) -> Judgement {
    let file = if text.len() > 65_535 {
        refuse(1)
    } else {
        text::read(text)
    };
    let matches = file
        .as_ref()
        .map_or(Vec::new(), |file| matches(file, asked));
    Judgement {
        answer: answer(&file, &matches, asked),
        file: file.ok(),
        matches,
    }
}

/// Rules of other profiles don't match, nor any where the path is refused.
fn matches(file: &File, asked: Asked) -> Vec<Match> {
    let good = path_is_good(asked.path);
    let how = |(profile, rule): (&Profile, &Rule)| {
        if !good || profile.name != asked.name {
            return Match::No;
        }
        judge::find(rule, &file.variables, asked.path, asked.owner)
    };
    file.all_rules().map(how).collect()
}

/// "Order: 1, 2, 3, then the text, first offending token in reading order,
/// then 11."
fn answer(
    file: &Result<File, Refusal>,
    matches: &[Match],
    asked: Asked,
) -> Result<Answer, Refusal> {
    if matches!(file, Err(refusal) if refusal.number == 1) {
        return refuse(1);
    }
    if !path_is_good(asked.path) {
        return refuse(2);
    }
    if asked.asked == 0 || asked.asked > 127 {
        return refuse(3);
    }
    let file = file.as_ref().map_err(|refusal| *refusal)?;
    // The asked name is compared as bytes.
    if !file.profiles.iter().any(|p| p.name == asked.name) {
        return refuse(11);
    }
    let rules = file.all_rules().map(|(_, rule)| rule);
    let found = judge::findings(rules.zip(matches.iter().copied()));
    Ok(judge::answer(&found, asked.asked))
}

/// "Lines 0 go with column 0."
fn refuse<T>(number: u8) -> Result<T, Refusal> {
    Err(Refusal {
        number,
        line: 0,
        column: 0,
    })
}

/// "path empty, over 4,095 bytes, not starting `/`, holding NUL or `//`"
fn path_is_good(path: &[u8]) -> bool {
    path.first() == Some(&b'/')
        && path.len() <= 4_095
        && !path.contains(&0)
        && !path.windows(2).any(|pair| pair == b"//")
}

//! Refusal 9: which size was passed.

use super::expand::Sets;
use super::pattern::parse;
use super::walk::{Walk, Wanted};
use super::{grouped, pattern_here, Diagnosis};
use crate::escape::quote;

const PROFILES: usize = 32;
const RULES: usize = 512;
const VARIABLES: usize = 32;
const VALUES: usize = 16;
const WRITTEN: usize = 1_024;
const NAME: usize = 255;
const EXPANSIONS: u64 = 256;
const PIECES: u64 = 1_024;

pub fn diagnose(walk: &Walk, place: usize) -> Option<Diagnosis> {
    match walk.wanted {
        Wanted::Statement if place > walk.at => variable(walk),
        Wanted::Statement | Wanted::Name => profile(walk),
        Wanted::Target => name(walk.token(walk.at, b",").bytes, "target"),
        Wanted::Value => written(walk).or_else(|| value(walk)),
        Wanted::Rule | Wanted::Pattern => written(walk)
            .or_else(|| rule(walk))
            .or_else(|| expansions(walk)),
        _ => None,
    }
}

/// So many are taken, and so many there are.
fn passed(most: usize, what: &str, found: &str, hint: &str) -> Option<Diagnosis> {
    let most = grouped(most as u64);
    Some(Diagnosis::new(
        format!("at most {most} {what}; {found}"),
        hint,
    ))
}

fn variable(walk: &Walk) -> Option<Diagnosis> {
    if walk.variables.len() < VARIABLES {
        return None;
    }
    let name = quote(walk.variable_name(walk.at).bytes);
    let found = format!("{name} is number {}", walk.variables.len() + 1);
    let hint = "leave out what no pattern uses, or write short values where they are used";
    passed(VARIABLES, "variables in a file", &found, hint)
}

fn profile(walk: &Walk) -> Option<Diagnosis> {
    let token = walk.token(walk.at, b"{");
    let long = name(token.bytes, "profile's name");
    if long.is_some() || walk.profiles.len() < PROFILES {
        return long;
    }
    let found = format!(
        "{} is number {}",
        quote(token.bytes),
        walk.profiles.len() + 1
    );
    let hint = "spread the profiles over several files";
    passed(PROFILES, "profiles in a file", &found, hint)
}

fn name(bytes: &[u8], what: &str) -> Option<Diagnosis> {
    if bytes.len() <= NAME {
        return None;
    }
    let found = format!("this has {}", grouped(bytes.len() as u64));
    passed(
        NAME,
        &format!("bytes in a {what}"),
        &found,
        "choose a shorter one",
    )
}

/// The bytes of a pattern or value.
fn written(walk: &Walk) -> Option<Diagnosis> {
    let length = pattern_here(walk)?.bytes.len();
    if length <= WRITTEN {
        return None;
    }
    let what = match walk.wanted {
        Wanted::Value => "bytes in a value",
        _ => "bytes in a pattern",
    };
    let found = format!("this has {}", grouped(length as u64));
    passed(
        WRITTEN,
        what,
        &found,
        "is a closing quote or a blank missing?",
    )
}

fn value(walk: &Walk) -> Option<Diagnosis> {
    let variable = walk.variables.get(walk.variable)?;
    let count = variable.values.len();
    if count < VALUES {
        return None;
    }
    let name = quote(&[b"@{", variable.name.bytes, b"}"].concat());
    let found = format!("this is number {} of {name}", count + 1);
    let hint = "those of every `+=` count; spread them over two variables";
    passed(VALUES, "values in a variable", &found, hint)
}

fn rule(walk: &Walk) -> Option<Diagnosis> {
    if walk.rules < RULES {
        return None;
    }
    let found = format!("this is number {}", walk.rules + 1);
    let hint = "rules of all profiles count: spread the profiles over several files, or write several paths in one pattern, as in `/data/{a,b} r,`";
    passed(RULES, "rules in a file", &found, hint)
}

/// The expansions of a pattern and their pieces.
fn expansions(walk: &Walk) -> Option<Diagnosis> {
    let items = parse(pattern_here(walk)?.bytes).ok()?;
    let size = Sets::of(walk).size(&items);
    if size.expansions > EXPANSIONS {
        let found = format!("this has {}", counted(size.expansions));
        let hint = "each variable and each `{x,y}` multiplies them: write several rules with fewer choices, or `*`";
        return passed(EXPANSIONS as usize, "expansions of a pattern", &found, hint);
    }
    if size.pieces > PIECES {
        let found = format!("the longest of this has {}", counted(size.pieces));
        let hint = "each byte, `*`, `**`, `?` and class is a piece: write shorter values";
        return passed(PIECES as usize, "pieces in an expansion", &found, hint);
    }
    None
}

/// A number; the largest stands for all that are larger.
fn counted(number: u64) -> String {
    match number {
        u64::MAX => "too many to count".to_string(),
        _ => grouped(number),
    }
}

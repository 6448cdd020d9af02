//! What was wanted where a text is refused, and hints for the common slips.
//!
//! The library says number, line and column; the rest is found here, by a
//! walk over the text up to that place. It changes no answer.

mod expand;
mod form;
mod pattern;
mod perms;
mod request;
mod size;
mod snippet;
mod taken;
mod variable;
mod walk;

pub use request::{bad_path, long_text, no_profile, not_asked};
pub use snippet::snippet;
pub use walk::is_blank;

use crate::escape::quote;
use walk::{Token, Walk, Wanted};

/// What was wanted, and what to do; printable as they are.
#[derive(Clone, Debug, Default, PartialEq, Eq)]
pub struct Diagnosis {
    pub wanted: Option<String>,
    pub hint: Option<String>,
}

impl Diagnosis {
    fn new(wanted: impl Into<String>, hint: impl Into<String>) -> Diagnosis {
        Diagnosis {
            wanted: Some(wanted.into()),
            hint: Some(hint.into()).filter(|hint| !hint.is_empty()),
        }
    }
}

/// Why the text is refused with this number at this place. Nothing is said
/// where nothing of that number is found there.
pub fn in_text(text: &[u8], number: u8, line: u32, column: u32) -> Diagnosis {
    let place = snippet::place(text, line, column);
    let walk = walk::walk(text, place);
    match number {
        4 => form::diagnose(&walk, place),
        5 => taken::diagnose(&walk),
        6 => variable::diagnose(&walk, place).unwrap_or_default(),
        7 => pattern::diagnose(&walk).unwrap_or_default(),
        8 => perms::diagnose(&walk).unwrap_or_default(),
        9 => size::diagnose(&walk, place).unwrap_or_default(),
        10 => used_twice(&walk).unwrap_or_default(),
        _ => Diagnosis::default(),
    }
}

/// Refusal 10: where the name stood first.
fn used_twice(walk: &Walk) -> Option<Diagnosis> {
    let name = walk.token(walk.at, b"{");
    let first = walk.profiles.iter().find(|p| p.bytes == name.bytes)?;
    let line = snippet::line_of(walk.text, first.at);
    let wanted = format!(
        "another name; {} is the profile at line {line}",
        quote(name.bytes)
    );
    let hint = "give one of them another name, or put the rules of both into one profile";
    Some(Diagnosis::new(wanted, hint))
}

/// The pattern or value where the walk stands.
fn pattern_here<'a>(walk: &Walk<'a>) -> Option<Token<'a>> {
    let here = matches!(walk.wanted, Wanted::Value | Wanted::Rule | Wanted::Pattern);
    here.then(|| walk.token(walk.at, b""))
}

/// A number as the rules write it.
fn grouped(number: u64) -> String {
    let digits = number.to_string();
    let mut grouped = String::new();
    for (i, digit) in digits.chars().enumerate() {
        if i > 0 && (digits.len() - i) % 3 == 0 {
            grouped.push(',');
        }
        grouped.push(digit);
    }
    grouped
}

/// A few of these, parted by commas, and how many more there are.
fn listed<'a>(names: impl Iterator<Item = &'a [u8]>) -> String {
    const MOST: usize = 10;
    let mut shown: Vec<String> = names.map(quote).collect();
    let more = shown.len().saturating_sub(MOST);
    shown.truncate(MOST);
    let rest = match more {
        0 => String::new(),
        more => format!(" and {more} more"),
    };
    shown.join(", ") + &rest
}

#[cfg(test)]
mod tests {
    use super::*;

    #[test]
    fn numbers_are_grouped() {
        assert_eq!(grouped(0), "0");
        assert_eq!(grouped(999), "999");
        assert_eq!(grouped(1_024), "1,024");
        assert_eq!(grouped(1_048_576), "1,048,576");
    }

    #[test]
    fn long_lists_are_cut() {
        let names = vec![&b"a"[..]; 12];
        assert!(listed(names.into_iter()).ends_with("`a`, `a` and 2 more"));
    }
}

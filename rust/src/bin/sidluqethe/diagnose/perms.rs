//! Refusal 8: permissions and `->`.

use super::snippet::line_of;
use super::walk::{level, Walk, Wanted};
use super::Diagnosis;
use crate::escape::{first_char, quote};

const MODES: [&str; 15] = [
    "ux", "Ux", "px", "Px", "cx", "Cx", "ix", "pix", "Pix", "cix", "Cix", "pux", "PUx", "cux",
    "CUx",
];
const LETTERS: &str = "letters of r w a m l k and at most one execute mode";
const ALL_MODES: &str = "the modes are ux Ux px Px cx Cx ix pix Pix cix Cix pux PUx cux CUx";

pub fn diagnose(walk: &Walk) -> Option<Diagnosis> {
    if walk.wanted == Wanted::Tail && walk.stands(b"->") {
        return Some(arrow(walk));
    }
    let word = walk.token(walk.at, b",").bytes;
    if walk.wanted != Wanted::Perms {
        return None;
    }
    let (found, hint) = misplaced(walk, word).or_else(|| {
        let (fault, at) = fault(word, walk.rule.deny)?;
        Some(words(fault, &word[at..]))
    })?;
    Some(Diagnosis::new(format!("{LETTERS}; {found}"), hint))
}

/// Whether a word could be permissions, with `deny` or without.
pub fn is_perms(word: &[u8]) -> bool {
    let good = |deny| !matches!(fault(word, deny), Some((f, _)) if f != Fault::WriteAppend);
    !word.is_empty() && (good(false) || good(true))
}

/// `->` after permissions that take none.
fn arrow(walk: &Walk) -> Diagnosis {
    let perms = walk.rule.perms.map_or(&b""[..], |perms| perms.bytes);
    let wanted = format!(
        "`,` after {}, which takes no target; `->` stands here",
        quote(perms)
    );
    let hint = if walk.rule.deny {
        "a rule that denies names no target: take `->` and the name away"
    } else if perms.contains(&b'x') {
        "only modes with p or c lead to a profile that can be named: px, cx, pix, cux .."
    } else {
        "`->` follows an execute mode with p or c, as in `/bin/* px -> tool,`"
    };
    Diagnosis::new(wanted, hint)
}

/// Something else than permissions, and what is missing before it.
fn misplaced(walk: &Walk, word: &[u8]) -> Option<(String, String)> {
    let begins = |mark: &[u8]| word.starts_with(mark);
    let holds = |mark: &[u8]| word.windows(mark.len()).any(|part| part == mark);
    let hint = if begins(b"/") || begins(b"@{") || begins(b"}") || level(word) > 0 {
        no_perms(walk)
    } else if begins(b"{") {
        open_profile(walk)
    } else if begins(b"->") {
        "say the execute mode before `->`, as in `/bin/* px -> tool,`".to_string()
    } else if begins(b"=") || begins(b"+=") {
        "variables are set before the first profile".to_string()
    } else if holds(b"->") {
        "put a blank before `->`".to_string()
    } else if holds(b"}") {
        "a rule ends with `,`; the `}` of the profile comes after it".to_string()
    } else {
        return None;
    };
    Some((format!("{} stands here", quote(word)), hint))
}

/// A rule whose pattern has nothing behind it.
fn no_perms(walk: &Walk) -> String {
    let Some(pattern) = walk.rule.pattern else {
        return String::new();
    };
    let line = line_of(walk.text, pattern.at);
    let written = quote(pattern.bytes);
    match pattern.bytes.strip_suffix(b",") {
        Some(path) if !pattern.quoted => {
            let rule = quote(&[path, b" r,"].concat());
            format!("{written} of line {line} has no permissions (its `,` is read as part of it): write {rule}")
        }
        _ => format!("the pattern {written} of line {line} has no permissions"),
    }
}

/// `/q {` inside a profile.
fn open_profile(walk: &Walk) -> String {
    let open = walk.profiles.last();
    let name = quote(open.map_or(b"", |name| name.bytes));
    let line = open.map_or(1, |name| line_of(walk.text, name.at));
    format!("if a profile begins here, the `}}` of the profile {name} of line {line} is missing")
}

#[derive(Clone, Copy, Debug, PartialEq, Eq)]
enum Fault {
    Letter,
    NoMode,
    BareExecute,
    DeniedMode,
    TwoModes,
    WriteAppend,
}

/// The first fault and its place in the word.
fn fault(word: &[u8], deny: bool) -> Option<(Fault, usize)> {
    let (mut at, mut mode) = (0, false);
    while let Some(&byte) = word.get(at) {
        if b"rwamlk".contains(&byte) {
            at += 1;
            continue;
        }
        let rest = &word[at..];
        let written = MODES.iter().find(|m| rest.starts_with(m.as_bytes()));
        let length = match (byte, written) {
            (b'x', _) if deny => 1,
            (b'x', _) => return Some((Fault::BareExecute, at)),
            (_, Some(_)) if deny => return Some((Fault::DeniedMode, at)),
            (_, Some(written)) => written.len(),
            (b'u' | b'U' | b'p' | b'P' | b'c' | b'C' | b'i' | b'I', _) => {
                return Some((Fault::NoMode, at));
            }
            _ => return Some((Fault::Letter, at)),
        };
        if mode {
            return Some((Fault::TwoModes, at));
        }
        mode = true;
        at += length;
    }
    let both = word.contains(&b'w') && word.contains(&b'a');
    both.then_some((Fault::WriteAppend, 0))
}

fn words(fault: Fault, rest: &[u8]) -> (String, String) {
    let length = first_char(rest).map_or(1, char::len_utf8);
    let letter = quote(&rest[..length.min(rest.len())]);
    let small = rest.first().is_some_and(|b| b"RWAMLKX".contains(b));
    let (found, hint) = match fault {
        Fault::Letter if small => (format!("{letter} is none"), "write small letters"),
        Fault::Letter => (
            format!("{letter} is none"),
            "r read, w write, a append, m map, l link, k lock",
        ),
        Fault::NoMode => (format!("{} begins no mode", quote(rest)), ALL_MODES),
        Fault::BareExecute => (
            "bare `x` names no mode".to_string(),
            "name the mode: ix keeps this profile, px changes to another, cx to a child, ux to none; bare `x` is for `deny`",
        ),
        Fault::DeniedMode => (
            "a mode stands in a rule that denies".to_string(),
            "write `x` alone after `deny`: it denies every mode",
        ),
        Fault::TwoModes if rest.starts_with(b"x") => {
            ("`x` stands there twice".to_string(), "write `x` once")
        }
        Fault::TwoModes => (
            format!("a second mode stands at {}", quote(rest)),
            "give each mode a rule of its own, or choose one",
        ),
        Fault::WriteAppend => (
            "`w` and `a` stand together".to_string(),
            "leave `a` out: `w` carries it",
        ),
    };
    (found, hint.to_string())
}

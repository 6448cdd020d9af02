//! A rule of a text that was read, and how it matches.

use crate::table::Table;
use crate::{Mode, Perms};

/// Words of a rule's record.
const QUALIFIERS: usize = 9;
const PERMS: usize = 10;
const TRANSITION: usize = 11;

/// Its qualifiers, as bits.
const AUDIT: u64 = 1;
const DENY: u64 = 2;
const OWNER: u64 = 4;

/// A rule of a [`Policy`](crate::Policy).
///
/// ```
/// use sidluqethe::{Perms, Policy, Refusal};
///
/// let policy = Policy::read("profile step {\n  audit deny \"/a b/*\" w, # no\n}\n")?;
/// let rule = policy.rules().next().expect("a rule");
/// assert!(rule.audit && rule.deny && !rule.owner);
/// assert_eq!(rule.pattern, b"/a b/*");
/// assert_eq!(rule.perms, Perms::WRITE | Perms::APPEND);
/// assert_eq!(rule.text, b"audit deny \"/a b/*\" w,");
/// assert_eq!((rule.line, rule.column), (2, 14));
/// # Ok::<(), Refusal>(())
/// ```
#[derive(Clone, Copy, Debug, PartialEq, Eq, Hash)]
#[non_exhaustive]
pub struct Rule<'a> {
    /// Its number in the text, over all profiles, from 0.
    pub number: usize,
    /// The name of its profile.
    pub profile: &'a [u8],
    /// Whether it says `audit`.
    pub audit: bool,
    /// Whether it denies; otherwise it allows.
    pub deny: bool,
    /// Whether it matches only files that are the step's own.
    pub owner: bool,
    /// Its pattern as written, without quotes.
    pub pattern: &'a [u8],
    /// The permissions that it carries. A rule with `w` carries append as
    /// well.
    pub perms: Perms,
    /// Its execute mode. A rule that denies execute has none.
    pub mode: Option<Mode>,
    /// The target behind `->`, without quotes.
    pub target: Option<&'a [u8]>,
    /// The line of its pattern, from 1.
    pub line: u32,
    /// The column of its pattern's first byte, the opening quote where it is
    /// quoted: in bytes, from 1. A refusal names a rule by the same place.
    pub column: u32,
    /// The rule as written, from its first word to its comma. The bytes are
    /// the text's own, comments among them: escape them for a terminal.
    pub text: &'a [u8],
}

/// How a rule matches a request.
#[derive(Clone, Copy, Debug, PartialEq, Eq, Hash)]
pub enum Match {
    /// Some expansion of the pattern that matches holds no wildcard. Of
    /// execute transitions, those of exact matches come first.
    Exact,
    /// All expansions that match hold wildcards.
    Other,
}

impl Match {
    /// How, by the library's number.
    pub(crate) fn of_number(number: u8) -> Option<Match> {
        match number {
            0 => None,
            1 => Some(Match::Other),
            2 => Some(Match::Exact),
            _ => panic!("the archive is of another version: match {number}"),
        }
    }
}

impl<'a> Rule<'a> {
    /// The rule of this number, which the table has.
    pub(crate) fn of(table: Table<'a>, number: usize) -> Rule<'a> {
        let qualifiers = table.word(number, QUALIFIERS);
        let pattern = table.pattern(number);
        let target = table.target(number);
        let (line, column) = line_and_column(table.text, table.first(pattern));
        Rule {
            number,
            profile: table.bytes(table.name(table.profile_of(number))),
            audit: qualifiers & AUDIT != 0,
            deny: qualifiers & DENY != 0,
            owner: qualifiers & OWNER != 0,
            pattern: table.bytes(pattern),
            perms: perms(table.word(number, PERMS)),
            mode: Mode::of_transition(table.word(number, TRANSITION)),
            target: target.map(|target| table.bytes(target)),
            line,
            column,
            text: &table.text[start(table, number)..end(table, number)],
        }
    }
}

fn perms(word: u64) -> Perms {
    Perms::from_bits(u8::try_from(word).expect("a set of permissions"))
}

/// Where a rule's first word begins: behind the rule before it, or behind the
/// `{` of its profile.
fn start(table: Table<'_>, rule: usize) -> usize {
    let profile = table.profile_of(rule);
    let follows = rule > 0 && table.profile_of(rule - 1) == profile;
    let at = if follows {
        end(table, rule - 1)
    } else {
        let name = table.behind(table.name(profile));
        behind_mark(table.text, name, b'{')
    };
    skip_gap(table.text, at)
}

/// The place behind a rule's comma.
fn end(table: Table<'_>, rule: usize) -> usize {
    let last = table.target(rule).unwrap_or_else(|| table.pattern(rule));
    behind_mark(table.text, table.behind(last), b',')
}

/// The place behind the next such byte that is in no comment.
fn behind_mark(text: &[u8], mut at: usize, mark: u8) -> usize {
    while let Some(&byte) = text.get(at) {
        if byte == mark {
            return at + 1;
        }
        at = if byte == b'#' {
            line_end(text, at)
        } else {
            at + 1
        };
    }
    at
}

/// The next place that is neither blank nor in a comment.
fn skip_gap(text: &[u8], mut at: usize) -> usize {
    while let Some(&byte) = text.get(at) {
        at = match byte {
            b' ' | b'\t' | b'\r' | b'\n' => at + 1,
            b'#' => line_end(text, at),
            _ => break,
        };
    }
    at
}

/// The place of the next LF, or the text's end.
fn line_end(text: &[u8], at: usize) -> usize {
    let length = text[at..].iter().position(|byte| *byte == b'\n');
    length.map_or(text.len(), |length| at + length)
}

/// 1 plus the LFs before a place, and the bytes since the last of them, from
/// 1.
fn line_and_column(text: &[u8], at: usize) -> (u32, u32) {
    let before = &text[..at];
    let lines = before.iter().filter(|byte| **byte == b'\n').count();
    let last = before.iter().rposition(|byte| *byte == b'\n');
    let column = last.map_or(at + 1, |last| at - last);
    (narrow(lines + 1), narrow(column))
}

/// Texts are short, so their lines and columns are small.
fn narrow(number: usize) -> u32 {
    u32::try_from(number).expect("at most 65,536")
}

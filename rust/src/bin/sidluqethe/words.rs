//! An answer in words, and the rules that match.

use crate::diagnose::is_blank;
use crate::escape::escape;
use sidluqethe::{Answer, Execute, Fallback, Kind, Match, Mode, Perms, Request, Rule};

/// The permissions with their names.
pub const PERMS: [(Perms, &str); 7] = [
    (Perms::READ, "read"),
    (Perms::WRITE, "write"),
    (Perms::APPEND, "append"),
    (Perms::MAP, "map"),
    (Perms::LINK, "link"),
    (Perms::LOCK, "lock"),
    (Perms::EXECUTE, "execute"),
];

/// A name as it is printed.
pub fn file_name(file: &[u8]) -> String {
    match file {
        b"-" => "<stdin>".to_string(),
        _ => escape(file),
    }
}

/// An answer, and what was found out about it.
pub struct Found<'a> {
    pub file: &'a [u8],
    pub request: &'a Request<'a>,
    pub answer: &'a Answer,
    /// The rules that match.
    pub rules: Vec<(Rule<'a>, Match)>,
    /// What the owner of the file is granted.
    pub owner_gets: Perms,
}

impl Found<'_> {
    pub fn refused(&self) -> Perms {
        self.request.asked.difference(self.answer.granted)
    }
}

/// The answer, and the rules that match.
pub fn answer(found: &Found<'_>) -> String {
    let file = file_name(found.file);
    let Found { answer, rules, .. } = found;
    let mut words = format!("asked     {}\n", found.request.asked.names());
    words += &format!("granted   {}\n", answer.granted.names());
    words += &format!("refused   {}\n", refused(&file, found));
    words += &format!("recorded  {}\n", answer.recorded.names());
    words += &format!("execute   {}\n", execute(answer));
    if rules.is_empty() {
        return words + "no rule matches\n";
    }
    words += "rules\n";
    for (rule, how) in rules {
        let kind = if rule.deny { "deny" } else { "allow" };
        let exactly = match how {
            Match::Exact => "exactly",
            Match::Other => "not exactly",
        };
        let text = escape(&one_line(rule.text));
        words += &format!("  {}: {kind}, {exactly}: {text}\n", place(&file, rule));
    }
    words
}

fn place(file: &str, rule: &Rule<'_>) -> String {
    format!("{file}:{}:{}", rule.line, rule.column)
}

// --------------------------------------------------------------- refused

/// What is refused with the reason, those with the same reason together.
fn refused(file: &str, found: &Found<'_>) -> String {
    let refused = found.refused();
    let mut groups: Vec<(Perms, String)> = Vec::new();
    for (permission, _) in PERMS.iter().filter(|(p, _)| refused.contains(*p)) {
        let why = why_refused(file, *permission, found);
        match groups.iter_mut().find(|(_, known)| *known == why) {
            Some((set, _)) => *set |= *permission,
            None => groups.push((*permission, why)),
        }
    }
    if groups.is_empty() {
        return "nothing".to_string();
    }
    let lines = groups
        .iter()
        .map(|(set, why)| format!("{}: {why}", set.names()));
    lines.collect::<Vec<_>>().join("\n          ")
}

fn why_refused(file: &str, permission: Perms, found: &Found<'_>) -> String {
    let denies = |rule: &&Rule<'_>| rule.deny && rule.perms.contains(permission);
    let mut denying = found.rules.iter().map(|(rule, _)| rule).filter(denies);
    let why = if let Some(first) = denying.next() {
        let more = match denying.count() {
            0 => String::new(),
            more => format!(" and {more} more"),
        };
        format!("denied by {}{more}", place(file, first))
    } else if permission == Perms::EXECUTE && found.answer.execute == Execute::Conflict {
        "matching rules name different transitions".to_string()
    } else {
        "no matching rule allows it".to_string()
    };
    match found.owner_gets.contains(permission) {
        true => why + "; with --owner it is granted",
        false => why,
    }
}

// --------------------------------------------------------------- execute

fn execute(answer: &Answer) -> String {
    match answer.execute {
        Execute::NotAsked => "not asked".to_string(),
        Execute::Denied => "denied: a rule denies it, or none grants it".to_string(),
        Execute::Conflict => "conflict: rules name different transitions".to_string(),
        Execute::ByMode(mode) => format!("{mode}: {}", transition(mode, answer)),
    }
}

/// What a mode means.
fn transition(mode: Mode, answer: &Answer) -> String {
    let target = answer.target.as_deref().map(escape);
    let target = target.unwrap_or_else(|| "named for the program".to_string());
    let mut words = match mode.kind {
        Kind::Unconfined => "runs unconfined".to_string(),
        Kind::Profile => format!("runs under the profile {target}"),
        Kind::Child => format!("runs under the child profile {target}"),
        Kind::Inherit => "keeps this profile".to_string(),
    };
    words += match mode.fallback {
        Fallback::None => "",
        Fallback::Inherit => ", or keeps this profile where that one is missing",
        Fallback::Unconfined => ", or runs unconfined where that one is missing",
    };
    if mode.scrubs {
        words += ", with its environment scrubbed";
    }
    words
}

// ----------------------------------------------------------------- rules

/// A rule's text on one line: each run of blanks and comments between its
/// tokens is one space, so that nothing in a comment reads like the rule.
fn one_line(text: &[u8]) -> Vec<u8> {
    let mut line = Vec::new();
    let (mut quoted, mut comment) = (false, false);
    for &byte in text {
        comment = !quoted && (comment || byte == b'#') && byte != b'\n';
        quoted ^= byte == b'"' && !comment;
        if quoted || !comment && !is_blank(byte) {
            line.push(byte);
        } else if line.last() != Some(&b' ') {
            line.push(b' ');
        }
    }
    line
}

#[cfg(test)]
mod tests {
    use super::*;

    #[test]
    fn a_rule_stands_on_one_line() {
        let cases: [(&[u8], &[u8]); 5] = [
            (b"/a r,", b"/a r,"),
            (b"audit\t deny\n\n  /a\r\n w ,", b"audit deny /a w ,"),
            (b"/a # r, \"x\n # deny\n  w,", b"/a w,"),
            (b"\"/a  # b\"r,", b"\"/a  # b\"r,"),
            (b"\"/a \" # \"\n r,", b"\"/a \" r,"),
        ];
        for (text, line) in cases {
            assert_eq!(one_line(text), line, "{}", escape(text));
        }
    }
}

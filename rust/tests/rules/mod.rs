//! What the package says of rules and of how they match, against the
//! reference.

use super::reference::text::{line_and_column, File, Profile};
use super::reference::{self, Judgement};
use super::vector::Request;
use sidluqethe::{Match, Policy};

/// A rule as both can tell it.
#[derive(Debug, PartialEq)]
struct Told<'a> {
    number: usize,
    profile: &'a [u8],
    qualifiers: [bool; 3],
    pattern: &'a [u8],
    bits: u8,
    mode: Option<String>,
    target: Option<&'a [u8]>,
    place: (u32, u32),
    text: &'a [u8],
}

fn by_package(rule: sidluqethe::Rule<'_>) -> Told<'_> {
    Told {
        number: rule.number,
        profile: rule.profile,
        qualifiers: [rule.audit, rule.deny, rule.owner],
        pattern: rule.pattern,
        bits: rule.perms.bits(),
        mode: rule.mode.map(|mode| mode.to_string()),
        target: rule.target,
        place: (rule.line, rule.column),
        text: rule.text,
    }
}

fn by_reference<'a>(
    number: usize,
    profile: &'a Profile,
    rule: &'a reference::text::Rule,
    text: &'a [u8],
) -> Told<'a> {
    let (places, transition) = (&rule.places, rule.transition.as_ref());
    Told {
        number,
        profile: &profile.name,
        qualifiers: [rule.audit, rule.deny, rule.owner],
        pattern: &places.written,
        bits: rule.bits,
        mode: transition.map(|transition| transition.mode.to_string()),
        target: transition.and_then(|transition| transition.target.as_deref()),
        place: line_and_column(text, places.pattern),
        text: &text[places.first..places.end],
    }
}

/// Every field of every rule; what both say where they differ.
pub fn same_rules(policy: &Policy, file: &File) -> Result<(), String> {
    let given: Vec<Told> = policy.rules().map(by_package).collect();
    let rules = file.all_rules().enumerate();
    let expected = rules.map(|(n, (profile, rule))| by_reference(n, profile, rule, policy.text()));
    let expected: Vec<Told> = expected.collect();
    if given != expected {
        return Err(format!("rules: {expected:?}, the package {given:?}"));
    }
    let counts = (policy.profile_count(), policy.variable_count());
    if counts != (file.profiles.len(), file.variables.len()) {
        return Err(format!("{counts:?} profiles and variables"));
    }
    Ok(())
}

/// How every rule matches, and one past the last; what both say where they
/// differ.
pub fn same_matches(request: &Request, policy: &Policy, judged: &Judgement) -> Result<(), String> {
    let asked = request.asked();
    let expected = judged.matches.iter().map(|how| match how {
        reference::Match::No => None,
        reference::Match::Exact => Some(Match::Exact),
        reference::Match::Other => Some(Match::Other),
    });
    let mut expected: Vec<Option<Match>> = expected.collect();
    expected.push(None);
    let numbers = 0..expected.len();
    let given: Vec<_> = numbers.map(|n| policy.rule_match(n, &asked)).collect();
    if given != expected {
        return Err(format!("matches: {expected:?}, the library {given:?}"));
    }
    let matching = policy.matching(&asked);
    let same = match (&matching, &judged.answer) {
        (Ok(found), Ok(_)) => {
            let found = found.iter().map(|(rule, how)| (rule.number, *how));
            let wanted = (0..).zip(expected).filter_map(|(n, how)| Some((n, how?)));
            found.eq(wanted)
        }
        (Err(given), Err(wanted)) => given.number() == wanted.number,
        _ => false,
    };
    let told = || format!("matching: {matching:?}, not {:?}", judged.answer);
    same.then_some(()).ok_or_else(told)
}

//! Findings of a rule list, and the answer that they give.

use super::pattern::{self, Match};
use super::text::{Rule, Variable};
use super::{Answer, Execute};

const X: u8 = 64;

/// "mode and target bytes"
#[derive(Clone, PartialEq)]
pub struct Transition {
    pub mode: &'static str,
    pub target: Option<Vec<u8>>,
}

/// The six findings; the lists are sets, without repeats.
#[derive(Default)]
pub struct Findings {
    allowed: u8,
    allowed_audit: u8,
    denied: u8,
    denied_audit: u8,
    exact: Vec<Transition>,
    other: Vec<Transition>,
}

/// "A rule matches a request when its pattern matches and, if it says
/// `owner`, the request's owner mark is set."
pub fn find(rule: &Rule, variables: &[Variable], path: &[u8], owner: bool) -> Match {
    if rule.owner && !owner {
        return Match::No;
    }
    pattern::find(&rule.pattern, variables, path)
}

/// The findings of rules, each with how it matches.
pub fn findings<'a>(rules: impl Iterator<Item = (&'a Rule, Match)>) -> Findings {
    let mut found = Findings::default();
    for (rule, how) in rules {
        if how != Match::No {
            note(&mut found, rule, how);
        }
    }
    found
}

fn note(found: &mut Findings, rule: &Rule, how: Match) {
    let audit = if rule.audit { rule.bits } else { 0 };
    if rule.deny {
        found.denied |= rule.bits;
        found.denied_audit |= audit;
        return;
    }
    found.allowed |= rule.bits;
    found.allowed_audit |= audit;
    if let Some(transition) = &rule.transition {
        let set = match how {
            Match::Exact => &mut found.exact,
            _ => &mut found.other,
        };
        if !set.contains(transition) {
            set.push(transition.clone());
        }
    }
}

/// "findings and asked bits alone fix the whole answer"
pub fn answer(found: &Findings, asked: u8) -> Answer {
    let (execute, target) = execute(found, asked);
    let mut granted = asked & found.allowed & !found.denied;
    // "x only with a single transition"
    if !matches!(execute, Execute::Mode(_)) {
        granted &= !X;
    }
    // "granted bits with an audit allow; refused bits not denied by a rule,
    // conflict included; denied bits with an audit deny"
    let recorded = granted & found.allowed_audit
        | asked & !granted & !found.denied
        | asked & found.denied & found.denied_audit;
    Answer {
        granted,
        recorded,
        execute,
        target,
    }
}

/// "take the exact transitions if any, else the others. None, or x denied:
/// denied. One: that one. More: conflict."
fn execute(found: &Findings, asked: u8) -> (Execute, Option<Vec<u8>>) {
    if asked & X == 0 {
        return (Execute::NotAsked, None);
    }
    if found.denied & X != 0 {
        return (Execute::Denied, None);
    }
    let set = if found.exact.is_empty() {
        &found.other
    } else {
        &found.exact
    };
    match &set[..] {
        [] => (Execute::Denied, None),
        [one] => (Execute::Mode(one.mode), one.target.clone()),
        _ => (Execute::Conflict, None),
    }
}

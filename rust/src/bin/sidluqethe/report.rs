//! What is said of a file: an answer, that it is accepted, a refusal, or an
//! error of reading; in words or as JSON.

use crate::diagnose::{snippet, Diagnosis};
use crate::json::{list, string, string_or_null, Object};
use crate::words::{file_name, Found, PERMS};
use sidluqethe::{Execute, Match, Perms, Policy, Refusal, Rule};

/// A refusal with what was found out about it.
pub struct Refused<'a> {
    pub file: &'a [u8],
    pub text: &'a [u8],
    pub refusal: Refusal,
    pub diagnosis: Diagnosis,
}

impl Refused<'_> {
    /// As compilers print it.
    pub fn words(&self) -> String {
        let refusal = &self.refusal;
        let (line, column) = (refusal.line, refusal.column);
        // Refusals 2 and 3 are the call's, whatever the file holds.
        let place = match refusal.number() {
            2 | 3 => "sidluqethe".to_string(),
            _ if line == 0 => file_name(self.file),
            _ => format!("{}:{line}:{column}", file_name(self.file)),
        };
        let (number, meaning) = (refusal.number(), refusal.reason);
        let mut words = format!("{place}: refused {number}: {meaning}\n");
        if line != 0 {
            words += &snippet(self.text, line, column);
        }
        for (title, said) in [
            ("wanted", &self.diagnosis.wanted),
            ("hint", &self.diagnosis.hint),
        ] {
            if let Some(said) = said {
                words += &format!("{title}: {said}\n");
            }
        }
        words
    }

    pub fn json(&self) -> String {
        let refusal = &self.refusal;
        let said = |said: &Option<String>| string_or_null(said.as_deref().map(str::as_bytes));
        let inner = Object::default()
            .with("number", refusal.number().to_string())
            .with("meaning", string(refusal.reason.meaning().as_bytes()))
            .with("line", refusal.line.to_string())
            .with("column", refusal.column.to_string())
            .with("wanted", said(&self.diagnosis.wanted))
            .with("hint", said(&self.diagnosis.hint));
        Object::default()
            .with("file", string(self.file))
            .with("refusal", inner.end())
            .line()
    }
}

/// Accepted, with its numbers.
pub fn accepted_words(file: &[u8], policy: &Policy) -> String {
    let count = |number: usize, what: &str| match number {
        1 => format!("1 {what}"),
        _ => format!("{number} {what}s"),
    };
    format!(
        "{}: accepted: {}, {}, {}\n",
        file_name(file),
        count(policy.profile_count(), "profile"),
        count(policy.rule_count(), "rule"),
        count(policy.variable_count(), "variable"),
    )
}

pub fn accepted_json(file: &[u8], policy: &Policy) -> String {
    Object::default()
        .with("file", string(file))
        .with("accepted", "true")
        .with("profiles", list(policy.profiles().map(string)))
        .with("rules", policy.rule_count().to_string())
        .with("variables", policy.variable_count().to_string())
        .line()
}

pub fn answer_json(found: &Found<'_>, status: u8) -> String {
    let Found {
        file,
        request,
        answer,
        rules,
        ..
    } = found;
    let execute = match answer.execute {
        Execute::NotAsked => "null".to_string(),
        other => string(other.to_string().as_bytes()),
    };
    let rules = rules.iter().map(|(rule, how)| rule_json(file, rule, *how));
    Object::default()
        .with("file", string(file))
        .with("profile", string(request.profile))
        .with("path", string(request.path))
        .with("asked", names(request.asked))
        .with("owner", request.owner.to_string())
        .with("granted", names(answer.granted))
        .with("refused", names(found.refused()))
        .with("recorded", names(answer.recorded))
        .with("execute", execute)
        .with("target", string_or_null(answer.target.as_deref()))
        .with("rules", list(rules))
        .with("status", status.to_string())
        .line()
}

fn names(set: Perms) -> String {
    let held = PERMS.iter().filter(|(p, _)| set.contains(*p));
    list(held.map(|(_, name)| string(name.as_bytes())))
}

fn rule_json(file: &[u8], rule: &Rule<'_>, how: Match) -> String {
    Object::default()
        .with("file", string(file))
        .with("line", rule.line.to_string())
        .with("column", rule.column.to_string())
        .with("text", string(rule.text))
        .with("deny", rule.deny.to_string())
        .with("exact", (how == Match::Exact).to_string())
        .with("perms", string(rule.perms.to_string().as_bytes()))
        .end()
}

pub fn error_words(file: &[u8], error: &std::io::Error) -> String {
    format!("{}: {error}\n", file_name(file))
}

pub fn error_json(file: &[u8], error: &std::io::Error) -> String {
    Object::default()
        .with("file", string(file))
        .with("error", string(error.to_string().as_bytes()))
        .line()
}

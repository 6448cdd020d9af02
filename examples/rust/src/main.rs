//! Asks a profile file for permissions and names the rules that made the
//! answer: `ask-once FILE PROFILE PATH PERMS`.
//!
//! Exit status: 0 everything asked is granted, 1 something asked is refused,
//! 2 the text or the call is refused, or the file can't be read.

use sidluqethe::{Match, Policy, Request, Rule};
use std::env;
use std::error::Error;
use std::ffi::{OsStr, OsString};
use std::fs;
use std::os::unix::ffi::OsStrExt;
use std::process::ExitCode;

fn main() -> ExitCode {
    let words: Vec<OsString> = env::args_os().skip(1).collect();
    let [file, profile, path, perms] = &words[..] else {
        eprintln!("usage: ask-once FILE PROFILE PATH PERMS");
        return ExitCode::from(2);
    };
    match ask(file, profile, path, perms) {
        Ok(true) => ExitCode::SUCCESS,
        Ok(false) => ExitCode::from(1),
        Err(error) => {
            eprintln!("ask-once: {error}");
            ExitCode::from(2)
        }
    }
}

/// Prints the answer; whether everything asked for is granted.
fn ask(file: &OsStr, profile: &OsStr, path: &OsStr, perms: &OsStr) -> Result<bool, Box<dyn Error>> {
    let policy = Policy::read(fs::read(file)?)?;
    let asked = perms.to_string_lossy().parse()?;
    // Names and paths are bytes; they need not be UTF-8.
    let request = Request::new(profile.as_bytes(), path.as_bytes(), asked);
    let answer = policy.ask(&request)?;
    println!("{answer}");
    for (rule, how) in policy.matching(&request)? {
        println!("{}", told(&rule, how));
    }
    Ok(answer.grants(asked))
}

/// A rule on one line; bytes that a terminal could act on are escaped.
fn told(rule: &Rule, how: Match) -> String {
    let word = if rule.deny { "deny" } else { "allow" };
    let exactly = match how {
        Match::Exact => "exactly",
        Match::Other => "not exactly",
    };
    let (line, column, text) = (rule.line, rule.column, rule.text.escape_ascii());
    format!("line {line}, column {column}: {word}, {exactly}: {text}")
}

//! Asks profiles from the command line. `sidluqethe --help` says how.

#![deny(unsafe_code)]

mod args;
mod diagnose;
mod escape;
mod explain;
mod help;
mod json;
mod output;
mod read;
mod report;
mod words;

use args::{Ask, Call};
use diagnose::Diagnosis;
use output::{Output, BAD, GRANTED, REFUSED, UNREADABLE};
use read::Text;
use report::Refused;
use sidluqethe::{decide, Answer, Policy, Reason, Refusal, Request};
use std::env;
use std::os::unix::ffi::OsStringExt;
use std::process::ExitCode;
use words::Found;

fn main() -> ExitCode {
    let arguments = env::args_os().skip(1).map(OsStringExt::into_vec);
    let mut output = Output::default();
    let status = match args::parse(arguments.collect()) {
        Ok(call) => run(call, &mut output),
        Err(usage) => {
            output.error(&format!(
                "sidluqethe: {}\ncall: {}\n",
                usage.wrong, usage.call
            ));
            BAD
        }
    };
    ExitCode::from(output.finish(status))
}

/// Does what was asked for; the exit status.
fn run(call: Call, output: &mut Output) -> u8 {
    match call {
        Call::Ask(ask) => run_ask(&ask, output),
        Call::Check { files, json } => {
            let statuses = files.iter().map(|file| run_check(file, json, output));
            statuses.max().unwrap_or(GRANTED)
        }
        Call::Explain { number, json } => run_explain(number, json, output),
        Call::Help => {
            output.answer(help::HELP);
            GRANTED
        }
        Call::Version => {
            output.answer(&help::version());
            GRANTED
        }
    }
}

fn run_explain(number: u8, json: bool, output: &mut Output) -> u8 {
    let Some(reason) = Reason::from_number(number) else {
        return BAD;
    };
    match json {
        true => output.object(&explain::json(reason)),
        false => output.answer(&explain::words(reason)),
    }
    GRANTED
}

// ------------------------------------------------------------------- ask

fn run_ask(ask: &Ask, output: &mut Output) -> u8 {
    let Some(text) = read_text(&ask.file, ask.json, output) else {
        return UNREADABLE;
    };
    let request = Request::new(&ask.profile, &ask.path, ask.asked).owner(ask.owner);
    let judged = judge(&text, &request);
    let found = match &judged {
        Ok((answer, policy)) => find(&ask.file, &request, answer, policy),
        Err(refusal) => Err(*refusal),
    };
    match found {
        Ok(found) => say_answer(&found, ask.json, output),
        Err(refusal) => {
            let diagnosis = diagnose_ask(ask, &text, refusal);
            say_refusal(&ask.file, &text, refusal, diagnosis, ask.json, output)
        }
    }
}

/// Text and request in one call first, since it refuses in the order of the
/// rules; then the policy, for its rules.
fn judge(text: &Text, request: &Request<'_>) -> Result<(Answer, Policy), Refusal> {
    let answer = decide(&text.bytes, request)?;
    Ok((answer, Policy::read(&text.bytes[..])?))
}

/// The rules that match, and what the file's owner gets.
fn find<'a>(
    file: &'a [u8],
    request: &'a Request<'a>,
    answer: &'a Answer,
    policy: &'a Policy,
) -> Result<Found<'a>, Refusal> {
    Ok(Found {
        file,
        request,
        answer,
        rules: policy.matching(request)?,
        owner_gets: policy.ask(&request.owner(true))?.granted,
    })
}

fn say_answer(found: &Found<'_>, json: bool, output: &mut Output) -> u8 {
    let status = match found.answer.grants(found.request.asked) {
        true => GRANTED,
        false => REFUSED,
    };
    match json {
        true => output.object(&report::answer_json(found, status)),
        false => output.answer(&words::answer(found)),
    }
    status
}

/// What can be said of a refusal, with the request at hand.
fn diagnose_ask(ask: &Ask, text: &Text, refusal: Refusal) -> Diagnosis {
    match refusal.reason {
        Reason::BadPath => diagnose::bad_path(&ask.path),
        Reason::BadAsked => diagnose::not_asked(&ask.perms),
        Reason::NoProfile => match Policy::read(&text.bytes[..]) {
            Ok(policy) => diagnose::no_profile(&ask.profile, policy.profiles()),
            Err(_) => Diagnosis::default(),
        },
        _ => diagnose_text(text, refusal),
    }
}

// ----------------------------------------------------------------- check

fn run_check(file: &[u8], json: bool, output: &mut Output) -> u8 {
    let Some(text) = read_text(file, json, output) else {
        return UNREADABLE;
    };
    match Policy::read(&text.bytes[..]) {
        Ok(policy) => {
            match json {
                true => output.object(&report::accepted_json(file, &policy)),
                false => output.answer(&report::accepted_words(file, &policy)),
            }
            GRANTED
        }
        Err(refusal) => {
            let diagnosis = diagnose_text(&text, refusal);
            say_refusal(file, &text, refusal, diagnosis, json, output)
        }
    }
}

// ------------------------------------------------------------------ both

/// The file's text; where it can't be read to its end, that is said.
fn read_text(file: &[u8], json: bool, output: &mut Output) -> Option<Text> {
    match read::read(file) {
        Ok(text) => return Some(text),
        Err(error) if json => output.object(&report::error_json(file, &error)),
        Err(error) => output.error(&report::error_words(file, &error)),
    }
    None
}

fn diagnose_text(text: &Text, refusal: Refusal) -> Diagnosis {
    match refusal.reason {
        Reason::LongText => diagnose::long_text(text.length, text.whole),
        reason => diagnose::in_text(&text.bytes, reason.number(), refusal.line, refusal.column),
    }
}

fn say_refusal(
    file: &[u8],
    text: &Text,
    refusal: Refusal,
    diagnosis: Diagnosis,
    json: bool,
    output: &mut Output,
) -> u8 {
    let refused = Refused {
        file,
        text: &text.bytes,
        refusal,
        diagnosis,
    };
    match json {
        true => output.object(&refused.json()),
        false => output.error(&refused.words()),
    }
    BAD
}

//! Requests and answers as vector lines: fields parted by tabs, bytes in hex.

#![allow(dead_code)]

use sidluqethe::Policy;

use super::reference::{self, Answer, Asked, Execute, Judgement, Refusal};

#[derive(Clone, Debug)]
pub struct Request {
    pub text: Vec<u8>,
    pub name: Vec<u8>,
    pub path: Vec<u8>,
    pub asked: u8,
    pub owner: bool,
}

impl Request {
    /// Fields 1 to 5 of a line, and what follows them.
    pub fn parse(line: &str) -> Result<(Request, &str), String> {
        let mut fields = line.splitn(6, '\t');
        let mut next = |what: &str| fields.next().ok_or(format!("no {what}"));
        let request = Request {
            text: from_hex(next("text")?)?,
            name: from_hex(next("name")?)?,
            path: from_hex(next("path")?)?,
            asked: next("asked")?.parse().map_err(|_| "asked is no byte")?,
            owner: match next("owner")? {
                "0" => false,
                "1" => true,
                _ => return Err("owner is neither 0 nor 1".into()),
            },
        };
        Ok((request, fields.next().unwrap_or("")))
    }

    /// Fields 1 to 5.
    pub fn line(&self) -> String {
        let (text, name, path) = (hex(&self.text), hex(&self.name), hex(&self.path));
        let owner = u8::from(self.owner);
        format!("{text}\t{name}\t{path}\t{}\t{owner}", self.asked)
    }

    pub fn judged(&self) -> Judgement {
        let asked = Asked {
            name: &self.name,
            path: &self.path,
            asked: self.asked,
            owner: self.owner,
        };
        reference::judge(&self.text, asked)
    }

    pub fn by_reference(&self) -> Result<Answer, Refusal> {
        self.judged().answer
    }

    /// The request alone, as the package takes it.
    pub fn asked(&self) -> sidluqethe::Request<'_> {
        let asked = sidluqethe::Perms::from_bits(self.asked);
        sidluqethe::Request::new(&self.name, &self.path, asked).owner(self.owner)
    }

    /// The fields from 6 of the library's answer.
    pub fn by_library(&self) -> String {
        given(sidluqethe::decide(&self.text, &self.asked()))
    }

    pub fn read(&self) -> Result<Policy, sidluqethe::Refusal> {
        Policy::read(&self.text[..])
    }

    /// The same of what was read, in the order of one request: what is wrong
    /// with the request comes before what is wrong with the text.
    pub fn by_policy(&self, read: &Result<Policy, sidluqethe::Refusal>) -> String {
        let request = self.asked();
        let refusal = match read {
            Ok(policy) => return given(policy.ask(&request)),
            Err(refusal) => *refusal,
        };
        let empty = Policy::read("").expect("an empty text");
        match empty.ask(&request) {
            Err(other) if refusal.number() != 1 && other.number() < 4 => given(Err(other)),
            _ => given(Err(refusal)),
        }
    }
}

/// The fields from 6 of the library's answer.
fn given(answer: Result<sidluqethe::Answer, sidluqethe::Refusal>) -> String {
    match answer {
        Err(refusal) => refused(refusal.number(), refusal.line, refusal.column),
        Ok(answer) => answered(
            answer.granted.bits(),
            answer.recorded.bits(),
            &execute(answer.execute),
            answer.target.as_deref(),
        ),
    }
}

fn execute(execute: sidluqethe::Execute) -> String {
    match execute {
        sidluqethe::Execute::NotAsked => "-".into(),
        other => other.to_string(),
    }
}

/// The fields from 6 of the reference's answer.
pub fn fields(answer: &Result<Answer, Refusal>) -> String {
    match answer {
        Err(refusal) => refused(refusal.number, refusal.line, refusal.column),
        Ok(answer) => {
            let execute = match answer.execute {
                Execute::NotAsked => "-",
                Execute::Denied => "denied",
                Execute::Conflict => "conflict",
                Execute::Mode(mode) => mode,
            };
            let target = answer.target.as_deref();
            answered(answer.granted, answer.recorded, execute, target)
        }
    }
}

pub fn refused(number: u8, line: u32, column: u32) -> String {
    format!("refused\t{number}\t{line}\t{column}\t-")
}

pub fn answered(granted: u8, recorded: u8, execute: &str, target: Option<&[u8]>) -> String {
    let target = target.map_or("-".into(), hex);
    format!("{granted}\t{recorded}\t{execute}\t{target}")
}

pub fn hex(bytes: &[u8]) -> String {
    const DIGITS: &[u8; 16] = b"0123456789abcdef";
    let digit = |half: u8| char::from(DIGITS[usize::from(half)]);
    bytes
        .iter()
        .flat_map(|b| [digit(b >> 4), digit(b & 15)])
        .collect()
}

fn from_hex(digits: &str) -> Result<Vec<u8>, String> {
    let value = |pair: &[u8]| {
        let pair = std::str::from_utf8(pair).ok()?;
        u8::from_str_radix(pair, 16).ok()
    };
    let bytes: Option<_> = digits.as_bytes().chunks(2).map(value).collect();
    match bytes {
        Some(bytes) if digits.len() % 2 == 0 => Ok(bytes),
        _ => Err(format!("not hex: {digits}")),
    }
}

//! The call: which command, with which words. Arguments are bytes.

use crate::escape::{first_char, quote};
use sidluqethe::Perms;

/// What the command was called for.
#[derive(Debug, PartialEq, Eq)]
pub enum Call {
    Ask(Ask),
    Check { files: Vec<Vec<u8>>, json: bool },
    Explain { number: u8, json: bool },
    Help,
    Version,
}

/// The words of `ask`.
#[derive(Debug, PartialEq, Eq)]
pub struct Ask {
    pub file: Vec<u8>,
    pub profile: Vec<u8>,
    pub path: Vec<u8>,
    /// PERMS as written.
    pub perms: Vec<u8>,
    /// Its set; one that the library refuses for a number that it does not
    /// take.
    pub asked: Perms,
    pub owner: bool,
    pub json: bool,
}

/// A call that is not understood: what is wrong, and how to call.
#[derive(Debug, PartialEq, Eq)]
pub struct Usage {
    pub wrong: String,
    pub call: &'static str,
}

const CALL: &str = "sidluqethe ask|check|explain ..., or sidluqethe --help";
const ASK: &str = "sidluqethe ask FILE PROFILE PATH PERMS [--owner] [--json]";
const CHECK: &str = "sidluqethe check FILE... [--json]";
const EXPLAIN: &str = "sidluqethe explain N [--json]";

fn usage<T>(wrong: impl Into<String>, call: &'static str) -> Result<T, Usage> {
    let wrong = wrong.into();
    Err(Usage { wrong, call })
}

/// Words and options, apart.
#[derive(Default)]
struct Parts {
    words: Vec<Vec<u8>>,
    owner: bool,
    json: bool,
}

/// Reads the arguments behind the program's name.
pub fn parse(arguments: Vec<Vec<u8>>) -> Result<Call, Usage> {
    if let Some(call) = about(&arguments) {
        return Ok(call);
    }
    let parts = parts(arguments)?;
    let mut words = parts.words.clone().into_iter();
    let Some(command) = words.next() else {
        return usage("no command is given", CALL);
    };
    let words = words.collect();
    match command.as_slice() {
        b"ask" => ask(words, &parts),
        b"check" => check(words, &parts),
        b"explain" => explain(words, &parts),
        b"help" => usage("`help` stands alone", CALL),
        other => usage(format!("unknown command {}", quote(other)), CALL),
    }
}

/// Help and version, whose status is that of a grant: they count only where
/// no word from elsewhere can stand. `check` and `explain` take one word, so
/// behind these it could be that word; `ask` takes four.
fn about(arguments: &[Vec<u8>]) -> Option<Call> {
    let word = match arguments {
        [only] if only == b"help" => return Some(Call::Help),
        [only] => only,
        [command, only] if command == b"ask" => only,
        _ => return None,
    };
    match word.as_slice() {
        b"--help" | b"-h" => Some(Call::Help),
        b"--version" | b"-V" => Some(Call::Version),
        _ => None,
    }
}

/// Options may stand anywhere before `--`.
fn parts(arguments: Vec<Vec<u8>>) -> Result<Parts, Usage> {
    let mut parts = Parts::default();
    let mut ended = false;
    for argument in arguments {
        if ended || argument == b"-" || !argument.starts_with(b"-") {
            parts.words.push(argument);
            continue;
        }
        match argument.as_slice() {
            b"--" => ended = true,
            b"--owner" => parts.owner = true,
            b"--json" => parts.json = true,
            b"--help" | b"-h" | b"--version" | b"-V" => {
                let wrong = "`--help` and `--version` stand alone; `--` ends the options";
                return usage(wrong, call_of(&parts.words));
            }
            other => {
                let wrong = format!("unknown option {}; `--` ends the options", quote(other));
                return usage(wrong, call_of(&parts.words));
            }
        }
    }
    Ok(parts)
}

/// How to call the command that was named.
fn call_of(words: &[Vec<u8>]) -> &'static str {
    match words.first().map(Vec::as_slice) {
        Some(b"ask") => ASK,
        Some(b"check") => CHECK,
        Some(b"explain") => EXPLAIN,
        _ => CALL,
    }
}

fn ask(words: Vec<Vec<u8>>, parts: &Parts) -> Result<Call, Usage> {
    let Ok([file, profile, path, perms]) = <[Vec<u8>; 4]>::try_from(words) else {
        let given = parts.words.len() - 1;
        let last = parts.words.last().map(Vec::as_slice);
        let hint = match last {
            Some(b"owner") if given == 5 => "; the owner mark is written `--owner`",
            _ => "",
        };
        return usage(format!("`ask` takes 4 words, {given} are given{hint}"), ASK);
    };
    let asked = asked(&perms)?;
    Ok(Call::Ask(Ask {
        file,
        profile,
        path,
        perms,
        asked,
        owner: parts.owner,
        json: parts.json,
    }))
}

/// The set of a PERMS word: letters, or a number.
fn asked(perms: &[u8]) -> Result<Perms, Usage> {
    let taken = "letters of r w a m l k x, or a number from 1 to 127";
    let digits = std::str::from_utf8(perms).unwrap_or_default();
    if !perms.is_empty() && perms.iter().all(u8::is_ascii_digit) {
        // What does not fit a byte is refused like what does not fit a set.
        return Ok(Perms::from_bits(digits.parse().unwrap_or(u8::MAX)));
    }
    let bad = perms.iter().position(|b| !b"rwamlkx".contains(b));
    let wrong = match bad {
        Some(at) => {
            let length = first_char(&perms[at..]).map_or(1, char::len_utf8);
            let letter = quote(&perms[at..at + length]);
            format!("{letter} of PERMS {} is no permission", quote(perms))
        }
        None => "PERMS is empty".to_string(),
    };
    match digits.parse() {
        Ok(set) => Ok(set),
        Err(_) => usage(format!("{wrong}; wanted {taken}"), ASK),
    }
}

fn check(files: Vec<Vec<u8>>, parts: &Parts) -> Result<Call, Usage> {
    if parts.owner {
        return usage("`--owner` belongs to `ask`", CHECK);
    }
    if files.is_empty() {
        return usage("`check` takes one file or more", CHECK);
    }
    if files.iter().filter(|file| *file == b"-").count() > 1 {
        return usage("standard input can be read once only", CHECK);
    }
    let json = parts.json;
    Ok(Call::Check { files, json })
}

fn explain(words: Vec<Vec<u8>>, parts: &Parts) -> Result<Call, Usage> {
    if parts.owner {
        return usage("`--owner` belongs to `ask`", EXPLAIN);
    }
    let [word] = words.as_slice() else {
        let given = words.len();
        return usage(
            format!("`explain` takes 1 word, {given} are given"),
            EXPLAIN,
        );
    };
    let number = std::str::from_utf8(word).ok().and_then(|n| n.parse().ok());
    let json = parts.json;
    match number {
        Some(number @ 1..=11) => Ok(Call::Explain { number, json }),
        _ => {
            let wrong = format!(
                "{} is no refusal; they have the numbers 1 to 11",
                quote(word)
            );
            usage(wrong, EXPLAIN)
        }
    }
}

#[cfg(test)]
mod tests {
    use super::*;

    fn call(line: &str) -> Result<Call, Usage> {
        parse(
            line.split_whitespace()
                .map(|w| w.as_bytes().to_vec())
                .collect(),
        )
    }

    fn wrong(line: &str) -> String {
        call(line).unwrap_err().wrong
    }

    #[test]
    fn options_stand_anywhere_before_their_end() {
        let Ok(Call::Ask(ask)) = call("--json ask f --owner p -- -x rw") else {
            panic!("no ask");
        };
        assert!(ask.json && ask.owner);
        assert_eq!(ask.path, b"-x");
        assert_eq!(ask.asked, Perms::READ | Perms::WRITE);
    }

    #[test]
    fn help_and_version_stand_alone() {
        for line in ["--help", "-h", "help", "ask --help", "ask -h"] {
            assert_eq!(call(line), Ok(Call::Help), "{line}");
        }
        for line in ["--version", "-V", "ask -V"] {
            assert_eq!(call(line), Ok(Call::Version), "{line}");
        }
        let alone = "`--help` and `--version` stand alone; `--` ends the options";
        for line in [
            "ask f p -h r",
            "ask -h -h -h -h",
            "check --help",
            "check f -V",
            "explain -h",
            "-h x",
            "-h -V",
            "--json --help",
        ] {
            assert_eq!(wrong(line), alone, "{line}");
        }
        assert_eq!(call("check f -h").unwrap_err().call, CHECK);
        assert_eq!(wrong("help me"), "`help` stands alone");
        assert_eq!(wrong("help --json"), "`help` stands alone");
        assert!(wrong("-- --help").starts_with("unknown command"));
        assert!(call("check -- --help").is_ok());
    }

    #[test]
    fn wrong_calls_are_told() {
        assert_eq!(wrong(""), "no command is given");
        assert_eq!(wrong("chek"), "unknown command `chek`");
        assert_eq!(wrong("ask a b c"), "`ask` takes 4 words, 3 are given");
        assert!(wrong("ask a b c r owner").ends_with("is written `--owner`"));
        assert!(wrong("ask a b c r --own").starts_with("unknown option `--own`"));
        assert_eq!(wrong("check"), "`check` takes one file or more");
        assert_eq!(wrong("check - -"), "standard input can be read once only");
        assert_eq!(wrong("check --owner f"), "`--owner` belongs to `ask`");
        for number in ["0", "12", "-", "x", "1x", "999"] {
            assert!(wrong(&format!("explain {number}")).contains("is no refusal"));
        }
        assert!(call("explain 11 --json").is_ok());
    }

    #[test]
    fn permissions_are_letters_or_a_number() {
        assert_eq!(asked(b"rwamlkx"), Ok(Perms::from_bits(127)));
        assert_eq!(asked(b"xx"), Ok(Perms::EXECUTE));
        assert_eq!(asked(b"065"), Ok(Perms::from_bits(65)));
        for refused in [&b"0"[..], b"128", b"256", b"99999999999999999999999"] {
            let bits = asked(refused).unwrap().bits();
            assert!(bits == 0 || bits > 127, "{refused:?}");
        }
        let taken = "; wanted letters of r w a m l k x, or a number from 1 to 127";
        let wrong = |perms: &[u8]| asked(perms).unwrap_err().wrong;
        assert_eq!(
            wrong(b"rq"),
            format!("`q` of PERMS `rq` is no permission{taken}")
        );
        assert_eq!(wrong(b""), format!("PERMS is empty{taken}"));
        assert!(wrong(b"r\xff").starts_with("`\\xff` of PERMS `r\\xff`"));
        assert!(wrong("ré".as_bytes()).starts_with("`é` of"));
        assert!(wrong(b"r1").starts_with("`1` of"));
        assert!(wrong(b"-1").starts_with("`-` of"));
    }
}

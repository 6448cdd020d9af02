//! Refusal 4: something else was wanted.

use super::perms::is_perms;
use super::snippet::line_of;
use super::walk::{level, Token, Walk, Wanted};
use super::Diagnosis;
use crate::escape::quote;

const INSIDE: &str = "rules stand inside a profile: `profile NAME {`, the rules, `}`";

pub fn diagnose(walk: &Walk, place: usize) -> Diagnosis {
    if place >= walk.text.len() {
        return cut_off(walk);
    }
    encoding(walk.text, place)
        .or_else(|| broken_token(walk, place))
        .unwrap_or_else(|| misfit(walk, place))
}

// ------------------------------------------------------ what is no text

/// A byte order mark, or two bytes for each letter.
fn encoding(text: &[u8], place: usize) -> Option<Diagnosis> {
    if place == 0 && text.starts_with(b"\xef\xbb\xbf") {
        let wanted = "a text without a byte order mark; the UTF-8 BOM (ef bb bf) stands here";
        return Some(Diagnosis::new(wanted, "save the file as UTF-8 without BOM"));
    }
    if place >= 16 || !is_utf16(text) {
        return None;
    }
    let wanted = "a text of single bytes, as ASCII or UTF-8; this looks like UTF-16";
    let hint = "convert the file: `iconv -f UTF-16 -t UTF-8`, then take the BOM away";
    Some(Diagnosis::new(wanted, hint))
}

/// Whether a text begins as one in UTF-16: with its BOM, or with every second
/// byte NUL.
fn is_utf16(text: &[u8]) -> bool {
    if text.starts_with(b"\xff\xfe") || text.starts_with(b"\xfe\xff") {
        return true;
    }
    let front = &text[..text.len().min(16)];
    let nul = |from: usize| front.iter().skip(from).step_by(2).all(|b| *b == 0);
    front.len() >= 4 && nul(0) != nul(1)
}

// ------------------------------------------------------ broken tokens

/// A NUL, an open quote, a quote inside a word.
fn broken_token(walk: &Walk, place: usize) -> Option<Diagnosis> {
    if walk.text.get(place) == Some(&0) {
        let wanted = "a text without NUL bytes; one stands here";
        let hint = "NUL is not taken anywhere, not in comments either: is this a profile's text?";
        return Some(Diagnosis::new(wanted, hint));
    }
    let token = token_here(walk)?;
    if !token.closed {
        let nul = walk.text.get(token.end) == Some(&0);
        let found = if nul { "a NUL byte" } else { "the line's end" };
        let wanted = format!("`\"` at the end of what is quoted; {found} comes before it");
        let hint = "what is quoted begins and ends with `\"` on one line";
        return Some(Diagnosis::new(wanted, hint));
    }
    if !token.quoted && token.bytes.contains(&b'"') {
        let wanted = format!(
            "a word without `\"` inside; {} stands here",
            quote(token.bytes)
        );
        let hint = "put the whole word between quotes, as in `\"/data/my file\"`";
        return Some(Diagnosis::new(wanted, hint));
    }
    None
}

/// The token that is judged here, if one is.
fn token_here<'a>(walk: &Walk<'a>) -> Option<Token<'a>> {
    let ends: &[u8] = match walk.wanted {
        Wanted::Operator | Wanted::Tail | Wanted::Comma => return None,
        Wanted::Statement if walk.stands(b"@{") => return None,
        Wanted::Statement if walk.stands(b"/") => b"{",
        Wanted::Name => b"{",
        Wanted::Perms | Wanted::Target => b",",
        _ => b"",
    };
    Some(walk.token(walk.at, ends))
}

// ------------------------------------------------------------ the end

/// What is wanted, in words.
fn wanted_words(walk: &Walk) -> &'static str {
    match walk.wanted {
        Wanted::Statement if walk.profiles.is_empty() => {
            "a variable (`@{NAME}=VALUE`) or a profile (`profile NAME {` or `/name {`)"
        }
        Wanted::Statement => "a profile (`profile NAME {` or `/name {`) or the text's end",
        Wanted::Name => "a name after the word `profile`",
        Wanted::Opening => "`{` after the profile's name",
        Wanted::Operator => "`=` or `+=` after the variable, on its line",
        Wanted::Value => "a value",
        Wanted::Rule => "a rule (`PATTERN PERMS,`) or `}`",
        Wanted::Pattern => "a pattern",
        Wanted::Perms => "permissions after the pattern",
        Wanted::Target => "a name after `->`",
        Wanted::Tail | Wanted::Comma => "`,` at the end of the rule",
    }
}

/// The text ends where more is wanted.
fn cut_off(walk: &Walk) -> Diagnosis {
    let line = |at: usize| line_of(walk.text, at);
    let profile = walk.profiles.last();
    let profile = profile.map(|p| (quote(p.bytes), line(p.at)));
    let hint = match (walk.wanted, profile) {
        (Wanted::Rule, Some((name, from))) => {
            format!("the profile {name} of line {from} has no `}}`; the text may be cut off")
        }
        (Wanted::Statement | Wanted::Name | Wanted::Operator | Wanted::Value, _) | (_, None) => {
            "the text may be cut off".to_string()
        }
        (Wanted::Opening, Some((name, from))) => {
            format!("the text may be cut off: the profile {name} of line {from} has no rules")
        }
        (_, Some((name, from))) => format!(
            "the text may be cut off: neither the rule of line {} nor the profile {name} of line {from} is ended",
            line(walk.rule.at)
        ),
    };
    Diagnosis::new(format!("{}; the text ends here", wanted_words(walk)), hint)
}

// ------------------------------------------------------------ misfits

/// A token where another was wanted.
fn misfit(walk: &Walk, place: usize) -> Diagnosis {
    match walk.wanted {
        Wanted::Statement if walk.stands(b"@{") => assignment(walk, place),
        Wanted::Statement if walk.stands(b"/") || walk.stands(b"\"/") => {
            name(walk, "a profile's name")
        }
        Wanted::Statement => statement(walk),
        Wanted::Name => name(walk, wanted_words(walk)),
        Wanted::Operator => operator(walk),
        Wanted::Perms => permissions(walk),
        Wanted::Tail | Wanted::Comma => unended(walk),
        Wanted::Target => name(walk, wanted_words(walk)),
        Wanted::Value => {
            let wanted = "a value of at least one byte; an empty one stands here";
            Diagnosis::new(wanted, "take the `\"\"` away")
        }
        Wanted::Opening | Wanted::Rule | Wanted::Pattern => {
            let here = walk.run(walk.at, b"");
            Diagnosis::new(found(wanted_words(walk), here), "")
        }
    }
}

/// What was wanted, and the bytes that stand there.
fn found(wanted: &str, here: &[u8]) -> String {
    format!("{wanted}; {} stands here", quote(here))
}

fn assignment(walk: &Walk, place: usize) -> Diagnosis {
    if place > walk.at {
        let wanted = "a variable's name of letters, digits and `_`; a `\"` stands in it";
        return Diagnosis::new(wanted, "take the `\"` away");
    }
    let name = walk.variable_name(walk.at);
    if walk.profiles.is_empty() {
        let wanted = found(
            "`}` behind the variable's name",
            &walk.text[walk.at..name.end],
        );
        return Diagnosis::new(wanted, "write `@{NAME}` without blanks inside");
    }
    let wanted = found(wanted_words(walk), &walk.text[walk.at..name.end]);
    let hint = "variables are set before the first profile: move this line to the front";
    Diagnosis::new(wanted, hint)
}

/// A word outside that begins neither an assignment nor a profile.
fn statement(walk: &Walk) -> Diagnosis {
    let token = walk.token(walk.at, b"");
    let here = &walk.text[walk.at..token.end];
    let next = walk.next_token(token.end);
    let opens = walk.rest(next).starts_with(b"{") || token.bytes.ends_with(b"{");
    let before = walk.text[..walk.at]
        .iter()
        .rev()
        .find(|b| !b.is_ascii_whitespace());
    let word = here.split(|b| *b == b'{').next().unwrap_or_default();
    let hint = if here.starts_with(b"}") {
        "a `}` too many: no profile is open here".to_string()
    } else if here.starts_with(b",") && before == Some(&b'}') {
        "`}` ends a profile without `,`: take the `,` away".to_string()
    } else if word == b"profile" || here.starts_with(b"profile,") {
        "a blank and a name come after the word `profile`".to_string()
    } else if word.is_empty() {
        "`profile NAME` comes before the `{`".to_string()
    } else if opens && level(word) == 0 {
        let name = quote(word);
        format!("write `profile` before {name}: only a name that begins with `/` stands alone")
    } else {
        INSIDE.to_string()
    };
    Diagnosis::new(found(wanted_words(walk), here), hint)
}

/// A name that is none.
fn name(walk: &Walk, wanted: &str) -> Diagnosis {
    let target = walk.wanted == Wanted::Target;
    let ends: &[u8] = if target { b"," } else { b"{" };
    let token = walk.token(walk.at, ends);
    let here = match token.end {
        end if end > walk.at => &walk.text[walk.at..end],
        _ => &walk.rest(walk.at)[..1],
    };
    let missing = token.bytes.is_empty();
    let alone = walk.wanted == Wanted::Statement;
    let glob = token.bytes.iter().any(|b| b"*?[]{}@,".contains(b));
    let hint = if missing && target {
        "name the profile that `->` leads to, or take `->` away".to_string()
    } else if missing {
        "a profile has a name of at least one byte".to_string()
    } else if alone && glob {
        INSIDE.to_string()
    } else {
        name_fault(&token)
    };
    Diagnosis::new(found(wanted, here), hint)
}

/// What is wrong with a name's bytes.
fn name_fault(token: &Token) -> String {
    let first = |b: &u8| b.is_ascii_alphanumeric() || *b == b'/';
    let other = |b: &u8| first(b) || b"._-+".contains(b) || token.quoted && *b == b' ';
    if let Some(bad) = token.bytes.iter().position(|b| !other(b)) {
        let bad = quote(character(&token.bytes[bad..]));
        let spaces = if token.quoted { " and spaces" } else { "" };
        return format!("{bad} is not taken in a name: letters, digits, `/ . _ - +`{spaces} are");
    }
    "a name begins with a letter, a digit or `/`".to_string()
}

/// The first character of bytes that are not empty; one byte where it is none.
fn character(bytes: &[u8]) -> &[u8] {
    let length = crate::escape::first_char(bytes).map_or(1, char::len_utf8);
    &bytes[..length]
}

/// No operator, or an operator without a value.
fn operator(walk: &Walk) -> Diagnosis {
    let from = walk.assigned.map_or(walk.at, |name| name.end);
    let mark: &[u8] = if walk.stands(b"+=") { b"+=" } else { b"=" };
    let between = &walk.text[from.min(walk.at)..walk.at];
    let same_line = !between.contains(&b'\n');
    if walk.stands(mark) && same_line {
        let wanted = format!("a value after {}, on its line; there is none", quote(mark));
        return Diagnosis::new(
            wanted,
            "one or more values, as in `@{RUN}=/runs/a/ /runs/b/`",
        );
    }
    let here = walk.run(walk.at, b"");
    let glued = between == b"}";
    let hint = if walk.stands(mark) {
        "write the operator and the values on the variable's line"
    } else if glued {
        INSIDE
    } else {
        "`=` sets a variable, `+=` adds values to one that is set"
    };
    Diagnosis::new(found(wanted_words(walk), here), hint)
}

/// `,` or a quote instead of permissions.
fn permissions(walk: &Walk) -> Diagnosis {
    let token = walk.token(walk.at, b",");
    if token.quoted {
        let wanted = found("permissions without quotes", &walk.text[walk.at..token.end]);
        let hint = match is_perms(token.bytes) {
            true => "take the quotes away",
            false => "one pattern, then its permissions: `/data/* r,`",
        };
        return Diagnosis::new(wanted, hint);
    }
    let hint = "say what the rule allows between its pattern and the `,`, as in `/data/* r,`";
    Diagnosis::new(found(wanted_words(walk), b","), hint)
}

/// No `,` at a rule's end.
fn unended(walk: &Walk) -> Diagnosis {
    let token = walk.token(walk.at, b",");
    let here = &walk.text[walk.at..token.end];
    let line = |token: &Token| line_of(walk.text, token.at);
    let Some(last) = walk.rule.target.or(walk.rule.perms) else {
        return Diagnosis::new(found(wanted_words(walk), here), "");
    };
    let from = walk.rule.perms.as_ref().map_or(0, line);
    let (word, at) = (quote(&walk.text[last.at..last.end]), line(&last));
    let hint = if here.starts_with(b"-") || here.starts_with(b">") {
        "an arrow is written `->`, as in `/bin/* px -> tool,`".to_string()
    } else if from < at {
        format!("{word} is read as what `->` of line {from} leads to: is a name missing there?")
    } else if at == line(&token) && is_perms(here) {
        format!(
            "permissions are one word: write {word} and {} together",
            quote(here)
        )
    } else if here.starts_with(b"}") {
        format!("the last rule before `}}` lacks its `,`: put one behind {word} at line {at}")
    } else {
        format!("put a `,` behind {word} at line {at}")
    };
    Diagnosis::new(found(wanted_words(walk), here), hint)
}

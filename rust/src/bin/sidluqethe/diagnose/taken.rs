//! Refusal 5: a word that is not taken.

use super::snippet::line_of;
use super::walk::{Walk, Wanted};
use super::Diagnosis;
use crate::escape::quote;

const ONLY: &str = "this library takes file rules only";

/// What the words stand for in the whole language.
const WORDS: [(&str, &str); 23] = [
    ("include", "put the included rules into this text"),
    ("abi", "take the line out"),
    ("alias", "write the rules with the paths that they mean"),
    ("capability", ONLY),
    ("network", ONLY),
    ("mount", ONLY),
    ("remount", ONLY),
    ("umount", ONLY),
    ("pivot_root", ONLY),
    ("ptrace", ONLY),
    ("signal", ONLY),
    ("dbus", ONLY),
    ("unix", ONLY),
    ("change_profile", ONLY),
    ("set", ONLY),
    (
        "link",
        "write a rule with the permission `l`, as in `/data/* l,`",
    ),
    ("hat", "hats are not taken: write a profile of its own"),
    (
        "file",
        "write the rule without the word `file`, as in `/data/* r,`",
    ),
    ("mqueue", ONLY),
    ("io_uring", ONLY),
    ("userns", ONLY),
    ("all", "write the rules out, as in `/** rw,`"),
    (
        "priority",
        "all rules of a profile count alike: take the word out",
    ),
];

pub fn diagnose(walk: &Walk) -> Diagnosis {
    if walk.stands(b"#include") {
        return include(walk);
    }
    match walk.wanted {
        Wanted::Opening => opening(walk),
        Wanted::Statement => word(walk, "a variable or a profile"),
        Wanted::Rule => word(walk, "a file rule (`PATTERN PERMS,`) or `}`"),
        Wanted::Pattern => word(walk, "a pattern, as a path is written"),
        _ => Diagnosis::default(),
    }
}

/// A comment that the language reads as an include.
fn include(walk: &Walk) -> Diagnosis {
    let line = walk.rest(walk.at).split(|b| *b == b'\n').next();
    let wanted = format!(
        "a text without includes; {} stands here",
        quote(line.unwrap_or_default())
    );
    let hint = "put the included rules into this text; where a comment is meant, write `# include`";
    Diagnosis::new(wanted, hint)
}

/// Something else than `{` after a head's name.
fn opening(walk: &Walk) -> Diagnosis {
    let token = walk.token(walk.at, b"");
    let here = &walk.text[walk.at..token.end];
    let name = walk.profiles.last();
    let name_line = name.map_or(0, |name| line_of(walk.text, name.at));
    let hint = if here.starts_with(b"flags") || here.starts_with(b"(") {
        "flags are not taken: take them out".to_string()
    } else if here.starts_with(b"xattrs") {
        "attachment by attributes is not taken: take it out".to_string()
    } else if name_line == line_of(walk.text, walk.at) {
        "a name with blanks is written in quotes; a second name or an attachment is not taken"
            .to_string()
    } else {
        format!("put a `{{` behind the name at line {name_line}")
    };
    let wanted = format!("`{{` after the profile's name; {} stands here", quote(here));
    Diagnosis::new(wanted, hint)
}

/// A first word that is not taken.
fn word(walk: &Walk, wanted: &str) -> Diagnosis {
    let word = walk.run(walk.at, b",");
    let fixed = WORDS.iter().find(|(fixed, _)| fixed.as_bytes() == word);
    let known = |mark: &[u8]| word.starts_with(mark);
    let hint = if let Some((_, hint)) = fixed {
        hint.to_string()
    } else if known(b"^") {
        "hats are not taken: write a profile of its own".to_string()
    } else if known(b"priority=") {
        "all rules of a profile count alike: take the word out".to_string()
    } else if known(b"{") {
        "write the qualifier before each rule: blocks of rules are not taken".to_string()
    } else if word == b"profile" {
        nested(walk)
    } else {
        return Diagnosis::default();
    };
    let hint = match hint.as_str() {
        ONLY => format!("{ONLY}: take the statement out of the text that it is asked with"),
        _ => hint,
    };
    let wanted = format!("{wanted}; {} is not taken", quote(word));
    Diagnosis::new(wanted, hint)
}

/// A profile in a profile.
fn nested(walk: &Walk) -> String {
    let open = walk.profiles.last();
    let name = quote(open.map_or(b"", |name| name.bytes));
    let line = open.map_or(1, |name| line_of(walk.text, name.at));
    format!("is the `}}` of the profile {name} of line {line} missing? profiles inside profiles are not taken")
}

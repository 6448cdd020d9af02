//! Refusal 6: variables.

use super::pattern::{parse, Item};
use super::snippet::line_of;
use super::walk::{Walk, Wanted};
use super::{listed, pattern_here, Diagnosis};
use crate::escape::quote;

pub fn diagnose(walk: &Walk, place: usize) -> Option<Diagnosis> {
    if walk.wanted == Wanted::Statement && place > walk.at {
        return assigned(walk);
    }
    let token = pattern_here(walk)?;
    let items = parse(token.bytes).ok()?;
    let mut names = Vec::new();
    uses(&items, &mut names);
    names.into_iter().find_map(|name| used(walk, name))
}

/// The names that are used.
fn uses<'a>(items: &[Item<'a>], names: &mut Vec<&'a [u8]>) {
    for item in items {
        match item {
            Item::Use(name) => names.push(name),
            Item::Choice(choices) => choices.iter().for_each(|(_, items)| uses(items, names)),
            Item::Byte(_) | Item::Piece(_) => {}
        }
    }
}

/// "NAME: a letter, then letters, digits, underscores"
fn is_name(name: &[u8]) -> bool {
    name.first().is_some_and(u8::is_ascii_alphabetic)
        && name.iter().all(|b| b.is_ascii_alphanumeric() || *b == b'_')
}

fn malformed(name: &[u8]) -> Diagnosis {
    let found = match name {
        b"" => "an empty one".to_string(),
        _ => quote(name),
    };
    let wanted = "a variable's name, a letter and then letters, digits and `_`";
    let hint = "a name is written between `@{` and `}` without blanks";
    Diagnosis::new(format!("{wanted}; {found} stands here"), hint)
}

/// A variable as it is written.
fn written(name: &[u8]) -> String {
    quote(&[b"@{", name, b"}"].concat())
}

/// The name of an assignment.
fn assigned(walk: &Walk) -> Option<Diagnosis> {
    let name = walk.variable_name(walk.at);
    if !is_name(name.bytes) {
        return Some(malformed(name.bytes));
    }
    let operator = walk.next_token(name.end + 1);
    let adds = walk.rest(operator).starts_with(b"+=");
    let known = walk.set(name.bytes).map(|i| &walk.variables[i]);
    let shown = written(name.bytes);
    match (known, adds) {
        (Some(first), false) => {
            let line = line_of(walk.text, first.name.at);
            let wanted = format!("a name that is not set yet; {shown} is set at line {line}");
            Some(Diagnosis::new(wanted, "write `+=` to add values to it"))
        }
        (None, true) => {
            let wanted = format!("a name that is set, before `+=`; {shown} is not");
            let hint = format!("write `=` to set it; {}", names_set(walk));
            Some(Diagnosis::new(wanted, hint))
        }
        _ => None,
    }
}

/// Which names are set, of those that may be used here.
fn names_set(walk: &Walk) -> String {
    let count = match walk.wanted {
        Wanted::Value => walk.variable,
        _ => walk.variables.len(),
    };
    if count == 0 {
        return "no variable is set before this".to_string();
    }
    let names = walk.variables.iter().take(count).map(|v| v.name.bytes);
    format!("set before this: {}", listed(names))
}

/// A name that is used in a pattern or value; none where it may be.
fn used(walk: &Walk, name: &[u8]) -> Option<Diagnosis> {
    if !is_name(name) {
        return Some(malformed(name));
    }
    let shown = written(name);
    let Some(index) = walk.set(name) else {
        let wanted = format!("variables that are set; {shown} is not");
        return Some(Diagnosis::new(wanted, names_set(walk)));
    };
    let value = walk.wanted == Wanted::Value;
    if !value || index < walk.variable {
        return None;
    }
    let given = &walk.variables[walk.variable].name;
    let line = |at| line_of(walk.text, at);
    let wanted = if index == walk.variable {
        format!("variables that were set before; {shown} is given this value itself")
    } else {
        let first = line(walk.variables[index].name.at);
        let own = line(given.at);
        let given = written(given.bytes);
        format!("variables first set before {given} (line {own}); {shown} is set at line {first}")
    };
    let hint = "a value uses only variables that were first set before the one it is given to";
    Some(Diagnosis::new(wanted, hint))
}

//! What patterns expand to: how many expansions, how long, how they begin.

use super::pattern::{parse, Item};
use super::walk::Walk;
use crate::escape::quote;

/// How many expansions, and how many pieces in the longest.
#[derive(Clone, Copy, Debug, PartialEq, Eq)]
pub struct Size {
    pub expansions: u64,
    pub pieces: u64,
}

/// The variables of a text, each known by those before it.
pub struct Sets<'a> {
    names: Vec<&'a [u8]>,
    sizes: Vec<Size>,
    /// How one of its values begins, where not with `/`.
    starts: Vec<Option<String>>,
}

impl<'a> Sets<'a> {
    pub fn of(walk: &Walk<'a>) -> Sets<'a> {
        let mut sets = Sets {
            names: Vec::new(),
            sizes: Vec::new(),
            starts: Vec::new(),
        };
        for variable in &walk.variables {
            let name = variable.name.bytes;
            let values = variable.values.iter().map(|value| value.bytes);
            let parsed: Vec<_> = values.map(|v| (v, parse(v).unwrap_or_default())).collect();
            let size = sets.one_of(&parsed);
            let start = parsed.iter().find_map(|(written, items)| {
                sets.bad_start(items)?;
                let (value, name) = (quote(written), quote(name));
                Some(format!(
                    "the value {value} of the variable {name} comes first"
                ))
            });
            sets.names.push(name);
            sets.sizes.push(size);
            sets.starts.push(start);
        }
        sets
    }

    fn index(&self, name: &[u8]) -> Option<usize> {
        self.names.iter().position(|known| *known == name)
    }

    /// A product over neighbours.
    pub fn size(&self, items: &[Item]) -> Size {
        let one = Size {
            expansions: 1,
            pieces: 1,
        };
        let mut whole = Size {
            expansions: 1,
            pieces: 0,
        };
        for item in items {
            let part = match item {
                Item::Byte(_) | Item::Piece(_) => one,
                Item::Use(name) => self.index(name).map_or(one, |i| self.sizes[i]),
                Item::Choice(choices) => self.one_of(choices),
            };
            whole.expansions = whole.expansions.saturating_mul(part.expansions);
            whole.pieces = whole.pieces.saturating_add(part.pieces);
        }
        whole
    }

    /// A sum over what can be chosen, and the longest of it.
    fn one_of(&self, choices: &[(&[u8], Vec<Item>)]) -> Size {
        let mut whole = Size {
            expansions: 0,
            pieces: 0,
        };
        for (_, items) in choices {
            let part = self.size(items);
            whole.expansions = whole.expansions.saturating_add(part.expansions);
            whole.pieces = whole.pieces.max(part.pieces);
        }
        whole
    }

    /// How an expansion begins that does not begin with `/`.
    pub fn bad_start(&self, items: &[Item]) -> Option<String> {
        let Some(first) = items.first() else {
            return Some("it is empty".to_string());
        };
        match first {
            Item::Byte(b'/') => None,
            Item::Byte(byte) => Some(format!("{} comes first", quote(&[*byte]))),
            Item::Piece(written) => Some(format!("{} comes first", quote(written))),
            Item::Use(name) => self.index(name).and_then(|i| self.starts[i].clone()),
            Item::Choice(choices) => self.bad_choice(choices, &items[1..]),
        }
    }

    fn bad_choice(&self, choices: &[(&[u8], Vec<Item>)], rest: &[Item]) -> Option<String> {
        for (written, items) in choices.iter().filter(|(_, items)| !items.is_empty()) {
            if self.bad_start(items).is_some() {
                return Some(format!("the alternative {} comes first", quote(written)));
            }
        }
        let empty = choices.iter().any(|(_, items)| items.is_empty());
        let rest = self.bad_start(rest).filter(|_| empty)?;
        Some(format!("with the empty alternative, {rest}"))
    }
}

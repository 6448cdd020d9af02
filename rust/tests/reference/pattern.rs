//! Patterns: their form, their expansions, their matches.

use super::text::Variable;

/// One piece of an expansion.
#[derive(Clone, Copy, PartialEq)]
pub enum Piece {
    /// "a literal byte"
    Byte(u8),
    /// "`?` one byte other than `/`"
    One,
    /// "`*` any number, zero included, of bytes other than `/`"
    Star,
    /// "`**` any number of any bytes"
    Deep,
    /// "`[ab]`, `[a-c]` one listed byte; `[^a-c]` one byte not listed"
    Class { listed: Bytes, wanted: bool },
}

/// A set of bytes.
#[derive(Clone, Copy, Default, PartialEq)]
pub struct Bytes([u64; 4]);

impl Bytes {
    fn add(&mut self, byte: u8) {
        self.0[usize::from(byte / 64)] |= 1 << (byte % 64);
    }

    fn holds(&self, byte: u8) -> bool {
        self.0[usize::from(byte / 64)] >> (byte % 64) & 1 == 1
    }
}

/// One item of a written pattern or value.
pub enum Item {
    Piece(Piece),
    /// A variable, by the name as it is written.
    Use(Vec<u8>),
    /// `{x,y}`
    Choice(Vec<Vec<Item>>),
}

// ------------------------------------------------------------------ form

/// The items of a written pattern or value; none where its form is bad.
pub fn parse(written: &[u8]) -> Option<Vec<Item>> {
    let (items, rest) = parse_items(written, b"")?;
    // What is left begins with an unmatched `}`.
    rest.is_empty().then_some(items)
}

/// Items up to one of the ends; the rest begins with that end, or is empty.
fn parse_items<'a>(written: &'a [u8], ends: &[u8]) -> Option<(Vec<Item>, &'a [u8])> {
    let inside = !ends.is_empty();
    let mut items = Vec::new();
    let mut rest = written;
    while let Some(&first) = rest.first() {
        if ends.contains(&first) {
            break;
        }
        let item;
        (item, rest) = match first {
            // "not nested"
            b'{' if inside => return None,
            b'{' => parse_choice(&rest[1..])?,
            _ => parse_item(rest)?,
        };
        items.push(item);
    }
    Some((items, rest))
}

/// "`{x,y}` has two or more alternatives, possibly empty, not nested"
fn parse_choice(written: &[u8]) -> Option<(Item, &[u8])> {
    let mut choices = Vec::new();
    let mut rest = written;
    loop {
        let (items, after) = parse_items(rest, b",}")?;
        choices.push(items);
        let end = *after.first()?;
        rest = &after[1..];
        if end == b'}' {
            break;
        }
    }
    (choices.len() >= 2).then_some((Item::Choice(choices), rest))
}

/// One piece or variable.
fn parse_item(written: &[u8]) -> Option<(Item, &[u8])> {
    let rest = &written[1..];
    let (piece, rest) = match written[0] {
        // "`\` makes the next byte literal; at the end it is refused."
        b'\\' => (Piece::Byte(*rest.first()?), &rest[1..]),
        b'?' => (Piece::One, rest),
        // "`**` first"
        b'*' if rest.starts_with(b"*") => (Piece::Deep, &rest[1..]),
        b'*' => (Piece::Star, rest),
        b'[' => parse_class(rest)?,
        // "A variable's name runs from `@{` to the next `}`."
        b'@' if rest.starts_with(b"{") => {
            let length = rest.iter().position(|b| *b == b'}')?;
            let name = rest[1..length].to_vec();
            return Some((Item::Use(name), &rest[length + 1..]));
        }
        // "an unmatched bracket or brace, and `^` outside a class are 7"
        b']' | b'}' | b'^' => return None,
        // "`@` without `{` is literal, and so is a comma outside braces."
        byte => (Piece::Byte(byte), rest),
    };
    Some((Item::Piece(piece), rest))
}

/// A class from behind its `[`.
fn parse_class(written: &[u8]) -> Option<(Piece, &[u8])> {
    let wanted = !written.starts_with(b"^");
    let mut rest = if wanted { written } else { &written[1..] };
    let mut listed = Bytes::default();
    let mut any = false;
    while !rest.starts_with(b"]") {
        let low = member(rest)?;
        rest = &rest[1..];
        let mut high = low;
        if rest.starts_with(b"-") {
            high = member(&rest[1..])?;
            rest = &rest[2..];
        }
        // "the low end at most the high (byte values)"
        if low > high {
            return None;
        }
        // "holding every byte between but `/`"
        for byte in (low..=high).filter(|b| *b != b'/') {
            listed.add(byte);
        }
        any = true;
    }
    // "at least one"
    any.then_some((Piece::Class { listed, wanted }, &rest[1..]))
}

/// "Class members are letters, digits, `.`, `_`"
fn member(written: &[u8]) -> Option<u8> {
    let byte = *written.first()?;
    (byte.is_ascii_alphanumeric() || byte == b'.' || byte == b'_').then_some(byte)
}

// ------------------------------------------------------------ expansions

/// How many expansions, and how many pieces in the longest.
#[derive(Clone, Copy)]
pub struct Size {
    pub expansions: u64,
    pub pieces: u64,
}

/// The sizes of the variables; values use only variables before their own.
pub fn sizes(variables: &[Variable]) -> Vec<Size> {
    let mut sizes = Vec::new();
    for variable in variables {
        let size = one_of(&variable.values, variables, &sizes);
        sizes.push(size);
    }
    sizes
}

/// "every choice counted": a product over neighbours.
pub fn size(items: &[Item], variables: &[Variable], sizes: &[Size]) -> Size {
    let mut whole = Size {
        expansions: 1,
        pieces: 0,
    };
    for item in items {
        let part = match item {
            Item::Piece(_) => Size {
                expansions: 1,
                pieces: 1,
            },
            Item::Use(name) => sizes[index(name, variables)],
            Item::Choice(choices) => one_of(choices, variables, sizes),
        };
        whole.expansions = whole.expansions.saturating_mul(part.expansions);
        whole.pieces = whole.pieces.saturating_add(part.pieces);
    }
    whole
}

/// A sum over what can be chosen, and the longest of it.
fn one_of(choices: &[Vec<Item>], variables: &[Variable], sizes: &[Size]) -> Size {
    let mut whole = Size {
        expansions: 0,
        pieces: 0,
    };
    for choice in choices {
        let part = size(choice, variables, sizes);
        whole.expansions = whole.expansions.saturating_add(part.expansions);
        whole.pieces = whole.pieces.max(part.pieces);
    }
    whole
}

fn index(name: &[u8], variables: &[Variable]) -> usize {
    let found = variables.iter().position(|v| v.name == name);
    found.expect("uses are checked before")
}

/// "every variable occurrence and every alternation chooses on its own; the
/// chosen pieces are put end to end"
fn expand(items: &[Item], variables: &[Variable]) -> Vec<Vec<Piece>> {
    let mut whole = vec![Vec::new()];
    for item in items {
        let parts = match item {
            Item::Piece(piece) => {
                whole.iter_mut().for_each(|pieces| pieces.push(*piece));
                continue;
            }
            Item::Use(name) => expand_one_of(&variables[index(name, variables)].values, variables),
            Item::Choice(choices) => expand_one_of(choices, variables),
        };
        let join = |head: &Vec<Piece>| -> Vec<Vec<Piece>> {
            let joined = parts.iter().map(|tail| [&head[..], &tail[..]].concat());
            joined.collect()
        };
        whole = whole.iter().flat_map(join).collect();
    }
    whole
}

fn expand_one_of(choices: &[Vec<Item>], variables: &[Variable]) -> Vec<Vec<Piece>> {
    choices
        .iter()
        .flat_map(|choice| expand(choice, variables))
        .collect()
}

const SLASH: Piece = Piece::Byte(b'/');

/// "Every expansion must begin with a literal `/`"
pub fn all_begin_with_slash(items: &[Item], variables: &[Variable]) -> bool {
    // Nothing to choose before the `/`.
    if matches!(items.first(), Some(Item::Piece(SLASH))) {
        return true;
    }
    let expansions = expand(items, variables);
    expansions
        .iter()
        .all(|pieces| pieces.first() == Some(&SLASH))
}

// --------------------------------------------------------------- matches

/// How a rule's pattern takes a path.
#[derive(Clone, Copy, Debug, PartialEq)]
pub enum Match {
    No,
    Exact,
    Other,
}

/// "matches a path when some expansion matches all of it"; "exactly when some
/// such expansion is literals only"
pub fn find(items: &[Item], variables: &[Variable], path: &[u8]) -> Match {
    let mut found = Match::No;
    for mut pieces in expand(items, variables) {
        // "Then neighbouring literal `/` become one"
        pieces.dedup_by(|a, b| *a == SLASH && *b == SLASH);
        if takes(&pieces, path) {
            if pieces.iter().all(|piece| matches!(piece, Piece::Byte(_))) {
                return Match::Exact;
            }
            found = Match::Other;
        }
    }
    found
}

/// "which places of the path are still alive after each piece"
fn takes(pieces: &[Piece], path: &[u8]) -> bool {
    let mut alive = vec![0];
    for piece in pieces {
        alive = match piece {
            Piece::Star => spread(&alive, path, |byte| byte != b'/'),
            Piece::Deep => spread(&alive, path, |_| true),
            _ => step(&alive, path, *piece),
        };
        if alive.is_empty() {
            return false;
        }
    }
    alive.last() == Some(&path.len())
}

/// The places one byte on from those where the piece takes the byte.
fn step(alive: &[usize], path: &[u8], piece: Piece) -> Vec<usize> {
    let on = |place: &usize| *place < path.len() && takes_byte(piece, path[*place]);
    alive.iter().filter(|p| on(p)).map(|p| p + 1).collect()
}

fn takes_byte(piece: Piece, byte: u8) -> bool {
    match piece {
        Piece::Byte(literal) => byte == literal,
        Piece::One => byte != b'/',
        Piece::Class { listed, wanted } => listed.holds(byte) == wanted,
        Piece::Star | Piece::Deep => false,
    }
}

/// The places that can be reached over bytes of a kind, in rising order.
fn spread(alive: &[usize], path: &[u8], over: impl Fn(u8) -> bool) -> Vec<usize> {
    let mut reached = Vec::new();
    let mut next = 0;
    for &place in alive {
        // Places before `next` have been seen to.
        if place < next {
            continue;
        }
        next = place;
        reached.push(next);
        while next < path.len() && over(path[next]) {
            next += 1;
            reached.push(next);
        }
        next += 1;
    }
    reached
}

//! Refusal 7: the form of a pattern or value.

use super::expand::Sets;
use super::perms::is_perms;
use super::snippet::column_of;
use super::walk::{level, Token, Walk, Wanted};
use super::{pattern_here, Diagnosis};
use crate::escape::quote;

/// One item of a written pattern or value.
pub enum Item<'a> {
    /// A literal byte.
    Byte(u8),
    /// Another piece, as written.
    Piece(&'a [u8]),
    /// A variable, by the name as it is written.
    Use(&'a [u8]),
    /// The alternatives of `{x,y}`, as written and in items.
    Choice(Vec<(&'a [u8], Vec<Item<'a>>)>),
}

/// What is wrong, and at which byte.
#[derive(Debug)]
pub struct Fault {
    at: usize,
    kind: Kind,
}

#[derive(Debug)]
enum Kind {
    OpenBrace,
    CloseBrace,
    OneAlternative,
    Nested,
    OpenClass,
    CloseClass,
    NoMember,
    Member(u8),
    Range(u8, u8),
    Caret,
    Backslash,
    OpenVariable,
}

pub fn diagnose(walk: &Walk) -> Option<Diagnosis> {
    let token = pattern_here(walk)?;
    let value = walk.wanted == Wanted::Value;
    match parse(token.bytes) {
        Err(fault) => Some(describe(walk, &token, &fault)),
        Ok(items) if value => braces_in_value(&items),
        Ok(items) => {
            let start = Sets::of(walk).bad_start(&items)?;
            let wanted = "a pattern that begins with `/`, whatever is chosen in it";
            Some(Diagnosis::new(
                format!("{wanted}; {start}"),
                start_hint(walk, &token, &items),
            ))
        }
    }
}

fn braces_in_value(items: &[Item]) -> Option<Diagnosis> {
    let braces = items.iter().any(|item| matches!(item, Item::Choice(_)));
    let wanted = "a value without `{x,y}`; this has one";
    let hint = "write each alternative as a value of its own, parted by blanks";
    braces.then(|| Diagnosis::new(wanted, hint))
}

// ------------------------------------------------------------------ words

fn describe(walk: &Walk, token: &Token, fault: &Fault) -> Diagnosis {
    let at = token.at + usize::from(token.quoted) + fault.at;
    let column = column_of(walk.text, at.min(walk.text.len()));
    let (wanted, hint) = words(&fault.kind, column);
    let opens = matches!(fault.kind, Kind::OpenBrace);
    let opens = opens && !token.quoted && token.bytes.ends_with(b"{");
    let hint = match walk.profiles.last() {
        Some(open) if opens => {
            let name = quote(open.bytes);
            format!("if a profile begins here, the `}}` of the profile {name} is missing")
        }
        _ => hint.to_string(),
    };
    Diagnosis::new(wanted, hint)
}

fn words(kind: &Kind, column: usize) -> (String, &'static str) {
    let here = format!("at column {column}");
    match kind {
        Kind::OpenBrace => (
            format!("`}}` for the `{{` {here}"),
            "a literal brace is written `\\{`",
        ),
        Kind::CloseBrace => (
            format!("`{{` before the `}}` {here}"),
            "a `}` that ends the profile stands apart, behind the rule's `,`; a literal one is `\\}`",
        ),
        Kind::OneAlternative => (
            format!("two alternatives or more, as in `{{a,b}}`; the braces {here} hold one"),
            "leave the braces out, or write `{a,}` for what may be missing",
        ),
        Kind::Nested => (
            format!("braces without braces inside; a second `{{` stands {here}"),
            "write all alternatives in one pair of braces: `{a,b,c}`",
        ),
        Kind::Caret => (
            format!("`^` nowhere but behind a `[`; one stands {here}"),
            "a literal `^` is written `\\^`",
        ),
        Kind::Backslash => (
            format!("a byte behind the `\\` {here}"),
            "`\\` makes the next byte literal; a blank or `#` ends the word all the same",
        ),
        Kind::OpenVariable => (
            format!("`}}` for the `@{{` {here}"),
            "a variable is written `@{NAME}`",
        ),
        _ => class_words(kind, &here),
    }
}

/// The faults of classes.
fn class_words(kind: &Kind, here: &str) -> (String, &'static str) {
    let members = "letters, digits, `.`, `_` and ranges of them in a class";
    let one = "a class lists bytes without commas or blanks: `[abc]`, `[a-c]`, `[^a-c]`";
    match *kind {
        Kind::OpenClass => (
            format!("`]` for the `[` {here}"),
            "a literal bracket is written `\\[`",
        ),
        Kind::CloseClass => (
            format!("`[` before the `]` {here}"),
            "a literal bracket is written `\\]`",
        ),
        Kind::Member(byte) => (format!("{members}; {} stands {here}", quote(&[byte])), one),
        Kind::Range(low, high) => {
            let range = quote(&[low, b'-', high]);
            let wanted =
                format!("a range from the low byte to the high one; {range} stands {here}");
            (wanted, "turn it round; capitals come before small letters")
        }
        _ => (format!("{members}; the one {here} is empty"), one),
    }
}

/// Why a pattern may not begin with `/`.
fn start_hint(walk: &Walk, token: &Token, items: &[Item]) -> String {
    let next = walk.token(walk.next_token(token.end), b"");
    let path = next.bytes.strip_suffix(b",").unwrap_or(next.bytes);
    let pathlike = next.quoted || path.starts_with(b"/") || path.starts_with(b"@{");
    if !token.quoted && is_perms(token.bytes) && pathlike {
        let rule = [path, b" ", token.bytes, b","].concat();
        return format!("the path comes before the permissions: {}", quote(&rule));
    }
    let word = token.bytes.strip_suffix(b",").unwrap_or(token.bytes);
    if level(word) > 0 {
        let order = "`audit`, then `allow` or `deny`, then `owner`, each once";
        return format!("qualifiers come before the pattern in this order: {order}");
    }
    if token.bytes == b"," {
        return "a `,` too many".to_string();
    }
    match items.first() {
        Some(Item::Use(_)) => {
            "begin the variable's values with `/`, or put one before it".to_string()
        }
        Some(Item::Choice(_)) => "put the `/` before the `{`".to_string(),
        _ => "a rule begins with its path; rules of other kinds are not taken".to_string(),
    }
}

// ------------------------------------------------------------------ form

/// The items of a written pattern or value, or its first fault.
pub fn parse(written: &[u8]) -> Result<Vec<Item<'_>>, Fault> {
    Parser { written, at: 0 }.items(false)
}

struct Parser<'a> {
    written: &'a [u8],
    at: usize,
}

impl<'a> Parser<'a> {
    fn here(&self) -> Option<u8> {
        self.written.get(self.at).copied()
    }

    fn stands(&self, mark: &[u8]) -> bool {
        self.written[self.at..].starts_with(mark)
    }

    /// Items to the end; inside braces to a comma or `}`.
    fn items(&mut self, inside: bool) -> Result<Vec<Item<'a>>, Fault> {
        let mut items = Vec::new();
        while let Some(byte) = self.here() {
            let item = match byte {
                b',' | b'}' if inside => break,
                b'{' if inside => return fault(self.at, Kind::Nested),
                b'{' => self.choice()?,
                _ => self.item(byte)?,
            };
            items.push(item);
        }
        Ok(items)
    }

    fn choice(&mut self) -> Result<Item<'a>, Fault> {
        let open = self.at;
        let mut choices = Vec::new();
        loop {
            self.at += 1;
            let from = self.at;
            let items = self.items(true)?;
            choices.push((&self.written[from..self.at], items));
            match self.here() {
                None => return fault(open, Kind::OpenBrace),
                Some(b'}') => break,
                Some(_) => {}
            }
        }
        self.at += 1;
        match choices.len() {
            1 => fault(open, Kind::OneAlternative),
            _ => Ok(Item::Choice(choices)),
        }
    }

    fn item(&mut self, byte: u8) -> Result<Item<'a>, Fault> {
        let from = self.at;
        self.at += 1;
        match byte {
            b'\\' => {
                let next = self.here().ok_or(Fault {
                    at: from,
                    kind: Kind::Backslash,
                })?;
                self.at += 1;
                return Ok(Item::Byte(next));
            }
            b'*' if self.stands(b"*") => self.at += 1,
            b'*' | b'?' => {}
            b'[' => self.class(from)?,
            b'@' if self.stands(b"{") => return self.variable(from),
            b']' => return fault(from, Kind::CloseClass),
            b'}' => return fault(from, Kind::CloseBrace),
            b'^' => return fault(from, Kind::Caret),
            _ => return Ok(Item::Byte(byte)),
        }
        Ok(Item::Piece(&self.written[from..self.at]))
    }

    fn variable(&mut self, from: usize) -> Result<Item<'a>, Fault> {
        let name = &self.written[self.at + 1..];
        let Some(length) = name.iter().position(|b| *b == b'}') else {
            return fault(from, Kind::OpenVariable);
        };
        self.at += length + 2;
        Ok(Item::Use(&name[..length]))
    }

    /// A class from behind its `[` to behind its `]`.
    fn class(&mut self, open: usize) -> Result<(), Fault> {
        self.at += usize::from(self.stands(b"^"));
        let first = self.at;
        loop {
            match self.here() {
                None => return fault(open, Kind::OpenClass),
                Some(b']') => break,
                Some(byte) => self.member(byte)?,
            }
        }
        if self.at == first {
            return fault(open, Kind::NoMember);
        }
        self.at += 1;
        Ok(())
    }

    /// A member or a range of two.
    fn member(&mut self, low: u8) -> Result<(), Fault> {
        if !is_member(low) {
            return fault(self.at, Kind::Member(low));
        }
        self.at += 1;
        if !self.stands(b"-") {
            return Ok(());
        }
        match self.written.get(self.at + 1) {
            Some(&high) if is_member(high) && low <= high => self.at += 2,
            Some(&high) if is_member(high) => return fault(self.at - 1, Kind::Range(low, high)),
            Some(_) => return fault(self.at, Kind::Member(b'-')),
            None => self.at += 1,
        }
        Ok(())
    }
}

fn fault<T>(at: usize, kind: Kind) -> Result<T, Fault> {
    Err(Fault { at, kind })
}

fn is_member(byte: u8) -> bool {
    byte.is_ascii_alphanumeric() || byte == b'.' || byte == b'_'
}

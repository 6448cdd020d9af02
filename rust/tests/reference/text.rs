//! Reading the text: tokens, assignments, profiles, rules.

use super::judge::Transition;
use super::pattern::{self, Item, Size};
use super::Refusal;

const PROFILES: usize = 32;
const RULES: usize = 512;
const VARIABLES: usize = 32;
const VALUES: usize = 16;
const WRITTEN: usize = 1_024;
const NAME: usize = 255;
const EXPANSIONS: u64 = 256;
const PIECES: u64 = 1_024;

/// "one of these fixed words"
pub const FIXED: [&str; 23] = [
    "include",
    "abi",
    "alias",
    "capability",
    "network",
    "mount",
    "remount",
    "umount",
    "pivot_root",
    "ptrace",
    "signal",
    "dbus",
    "unix",
    "change_profile",
    "set",
    "link",
    "hat",
    "file",
    "mqueue",
    "io_uring",
    "userns",
    "all",
    "priority",
];

/// The modes of 000, in the paper's order.
pub const MODES: [&str; 15] = [
    "ux", "Ux", "px", "Px", "cx", "Cx", "ix", "pix", "Pix", "cix", "Cix", "pux", "PUx", "cux",
    "CUx",
];

pub struct Variable {
    pub name: Vec<u8>,
    pub values: Vec<Vec<Item>>,
}

pub struct Rule {
    pub audit: bool,
    pub deny: bool,
    pub owner: bool,
    pub pattern: Vec<Item>,
    pub bits: u8,
    pub transition: Option<Transition>,
    pub places: Places,
}

/// Where a rule stands in the text.
pub struct Places {
    /// Its first word.
    pub first: usize,
    /// Its pattern, from the opening quote where quoted.
    pub pattern: usize,
    /// The pattern's bytes, its quotes aside.
    pub written: Vec<u8>,
    /// What follows its comma.
    pub end: usize,
}

pub struct Profile {
    pub name: Vec<u8>,
    pub rules: Vec<Rule>,
}

impl File {
    /// The rules of all profiles in the text's order, each with its profile.
    pub fn all_rules(&self) -> impl Iterator<Item = (&Profile, &Rule)> {
        let profiles = self.profiles.iter();
        profiles.flat_map(|profile| profile.rules.iter().map(move |rule| (profile, rule)))
    }
}

#[derive(Default)]
pub struct File {
    pub variables: Vec<Variable>,
    pub profiles: Vec<Profile>,
    /// Expansions and pieces of each variable, known once the preamble ends.
    sizes: Vec<Size>,
    pub rules: usize,
    /// How many rules there may be.
    room: usize,
}

/// Reads a whole text. "An empty text is accepted."
pub fn read(text: &[u8]) -> Result<File, Refusal> {
    read_within(text, RULES)
}

/// "If the table has fewer records than the file has rules, refusal 9 at the
/// pattern of the first rule that found no place, in the order of one rule
/// too many."
pub fn read_within(text: &[u8], records: usize) -> Result<File, Refusal> {
    let mut reader = Reader { text, at: 0 };
    let mut file = File {
        room: records.min(RULES),
        ..File::default()
    };
    while reader.more()? {
        // "Outside profiles `@{` starts one"
        if reader.stands(b"@{") {
            read_assignment(&mut reader, &mut file)?;
        } else {
            read_profile(&mut reader, &mut file)?;
        }
    }
    Ok(file)
}

// ---------------------------------------------------------------- tokens

struct Token<'a> {
    at: usize,
    bytes: &'a [u8],
    quoted: bool,
}

impl Token<'_> {
    fn is(&self, word: &str) -> bool {
        !self.quoted && self.bytes == word.as_bytes()
    }
}

struct Reader<'a> {
    text: &'a [u8],
    at: usize,
}

/// "Blank is space, tab, CR, LF."
fn is_blank(byte: u8) -> bool {
    byte == b'\n' || is_blank_in_line(byte)
}

fn is_blank_in_line(byte: u8) -> bool {
    matches!(byte, b' ' | b'\t' | b'\r')
}

/// "A line is 1 plus the LFs before the token"; the column is the "bytes
/// since the last LF before the token's first byte, counted from 1; at the
/// text's end, one past the last byte of that line".
pub fn line_and_column(text: &[u8], at: usize) -> (u32, u32) {
    let lines: Vec<&[u8]> = text[..at].split(|b| *b == b'\n').collect();
    let column = 1 + lines[lines.len() - 1].len();
    (lines.len() as u32, column as u32)
}

impl<'a> Reader<'a> {
    fn rest(&self) -> &'a [u8] {
        &self.text[self.at..]
    }

    fn stands(&self, mark: &[u8]) -> bool {
        self.rest().starts_with(mark)
    }

    fn refuse<T>(&self, number: u8, at: usize) -> Result<T, Refusal> {
        let (line, column) = line_and_column(self.text, at);
        Err(Refusal {
            number,
            line,
            column,
        })
    }

    /// Goes to the next token over blanks and comments; false at the end.
    fn more(&mut self) -> Result<bool, Refusal> {
        while let Some(&byte) = self.rest().first() {
            match byte {
                // "A NUL byte [...] is itself 4"
                0 => return self.refuse(4, self.at),
                b'#' => self.skip_comment()?,
                _ if is_blank(byte) => self.at += 1,
                _ => return Ok(true),
            }
        }
        Ok(false)
    }

    /// Like `more`, where a token is wanted: the text's end is 4.
    fn want(&mut self) -> Result<(), Refusal> {
        if self.more()? {
            return Ok(());
        }
        self.refuse(4, self.text.len())
    }

    /// "starts a comment to the line's end"
    fn skip_comment(&mut self) -> Result<(), Refusal> {
        // "likewise a comment that starts `#include`"
        if self.stands(b"#include") {
            return self.refuse(5, self.at);
        }
        while let Some(&byte) = self.rest().first() {
            match byte {
                b'\n' => break,
                // "in comments too"
                0 => return self.refuse(4, self.at),
                _ => self.at += 1,
            }
        }
        Ok(())
    }

    fn skip_blanks_in_line(&mut self) {
        while self.rest().first().is_some_and(|b| is_blank_in_line(*b)) {
            self.at += 1;
        }
    }

    /// The bytes up to a blank, `#`, NUL or one of the ends.
    fn run(&self, ends: &[u8]) -> &'a [u8] {
        let rest = self.rest();
        let stop = |b: &u8| is_blank(*b) || matches!(*b, b'#' | 0) || ends.contains(b);
        let length = rest.iter().position(stop).unwrap_or(rest.len());
        &rest[..length]
    }

    /// The token that stands here, up to a blank or, unquoted, to one of the
    /// ends.
    fn token(&mut self, ends: &[u8]) -> Result<Token<'a>, Refusal> {
        if self.stands(b"\"") {
            return self.quoted();
        }
        let at = self.at;
        let bytes = self.run(ends);
        // "A `"` inside an unquoted token is 4."
        if bytes.contains(&b'"') {
            return self.refuse(4, at);
        }
        self.at += bytes.len();
        Ok(Token {
            at,
            bytes,
            quoted: false,
        })
    }

    /// "`"` to the next `"` on the same line"
    fn quoted(&mut self) -> Result<Token<'a>, Refusal> {
        let at = self.at;
        let inside = &self.rest()[1..];
        let stop = |b: &u8| matches!(*b, b'"' | b'\n' | 0);
        match inside.iter().position(stop) {
            Some(length) if inside[length] == b'"' => {
                self.at += length + 2;
                Ok(Token {
                    at,
                    bytes: &inside[..length],
                    quoted: true,
                })
            }
            _ => self.refuse(4, at),
        }
    }
}

// ----------------------------------------------------------- assignments

/// "NAME: a letter, then letters, digits, underscores"
fn is_variable_name(name: &[u8]) -> bool {
    name.first().is_some_and(u8::is_ascii_alphabetic)
        && name.iter().all(|b| b.is_ascii_alphanumeric() || *b == b'_')
}

/// "`@{NAME}` then `=` or `+=`, [...] then one or more values"
fn read_assignment(reader: &mut Reader, file: &mut File) -> Result<(), Refusal> {
    // "No assignment after the first profile: 4", at its `@{`.
    if !file.profiles.is_empty() {
        return reader.refuse(4, reader.at);
    }
    // "An assigned variable's name begins after its `@{`."
    let name_at = reader.at + 2;
    let name = read_variable_name(reader)?;
    if !is_variable_name(name) {
        return reader.refuse(6, name_at);
    }
    reader.skip_blanks_in_line();
    let operator_at = reader.at;
    let adds = reader.stands(b"+=");
    if !adds && !reader.stands(b"=") {
        reader.want()?;
        return reader.refuse(4, reader.at);
    }
    let known = file.variables.iter().position(|v| v.name == name);
    let index = match (known, adds) {
        (Some(index), true) => index,
        // "`=` on a set name and `+=` on an unset one, both at the name"
        (Some(_), false) | (None, true) => return reader.refuse(6, name_at),
        // "one profile or variable too many is 9 at its name"
        (None, false) if file.variables.len() == VARIABLES => return reader.refuse(9, name_at),
        (None, false) => {
            file.variables.push(Variable {
                name: name.to_vec(),
                values: Vec::new(),
            });
            file.variables.len() - 1
        }
    };
    reader.at += if adds { 2 } else { 1 };
    read_values(reader, file, index, operator_at)
}

/// "its name runs to the next `}`, and a blank, `#`, NUL or the end before
/// that is 4 at the `@{`"; a `"` in it is 4 at the name.
fn read_variable_name<'a>(reader: &mut Reader<'a>) -> Result<&'a [u8], Refusal> {
    let at = reader.at;
    let name = &reader.run(b"}")[2..];
    reader.at += 2 + name.len();
    if !reader.stands(b"}") {
        return reader.refuse(4, at);
    }
    if name.contains(&b'"') {
        return reader.refuse(4, at + 2);
    }
    reader.at += 1;
    Ok(name)
}

/// "one or more values up to the line's end, each at least one byte: else 4,
/// a missing value at the `=` or `+=`"
fn read_values(
    reader: &mut Reader,
    file: &mut File,
    index: usize,
    operator_at: usize,
) -> Result<(), Refusal> {
    let mut any = false;
    loop {
        reader.skip_blanks_in_line();
        match reader.rest().first() {
            // A NUL is itself 4, here or where the next statement is wanted.
            Some(0) => return reader.refuse(4, reader.at),
            None | Some(b'\n' | b'#') if !any => return reader.refuse(4, operator_at),
            None | Some(b'\n' | b'#') => return Ok(()),
            Some(_) => {}
        }
        let value = read_value(reader, file, index)?;
        file.variables[index].values.push(value);
        any = true;
    }
}

/// "Within a pattern or value: 4 for its quotes or an empty value, 9 for its
/// bytes or for being one rule or value too many, 7 for its form, 6"
fn read_value(reader: &mut Reader, file: &File, index: usize) -> Result<Vec<Item>, Refusal> {
    let token = reader.token(b"")?;
    if token.bytes.is_empty() {
        return reader.refuse(4, token.at);
    }
    if token.bytes.len() > WRITTEN || file.variables[index].values.len() == VALUES {
        return reader.refuse(9, token.at);
    }
    let Some(items) = pattern::parse(token.bytes) else {
        return reader.refuse(7, token.at);
    };
    // "Values hold no `{x,y}`."
    if items.iter().any(|item| matches!(item, Item::Choice(_))) {
        return reader.refuse(7, token.at);
    }
    // "A value may use only names first set earlier than the name it is
    // given to"
    if !uses_only(&items, &file.variables[..index]) {
        return reader.refuse(6, token.at);
    }
    Ok(items)
}

/// Whether each variable used is well named and among these.
fn uses_only(items: &[Item], variables: &[Variable]) -> bool {
    items.iter().all(|item| match item {
        Item::Piece(_) => true,
        Item::Use(name) => is_variable_name(name) && variables.iter().any(|v| v.name == *name),
        Item::Choice(choices) => choices.iter().all(|choice| uses_only(choice, variables)),
    })
}

// -------------------------------------------------------------- profiles

/// "`profile NAME {` or `/name {`, rules, `}`"
fn read_profile(reader: &mut Reader, file: &mut File) -> Result<(), Refusal> {
    let name = read_head(reader)?;
    if !is_name(&name) {
        return reader.refuse(4, name.at);
    }
    // "Names and targets over 255 bytes are 9"
    if name.bytes.len() > NAME || file.profiles.len() == PROFILES {
        return reader.refuse(9, name.at);
    }
    if file.profiles.iter().any(|p| p.name == name.bytes) {
        return reader.refuse(10, name.at);
    }
    read_opening(reader)?;
    if file.profiles.is_empty() {
        file.sizes = pattern::sizes(&file.variables);
    }
    let mut rules = Vec::new();
    loop {
        reader.want()?;
        // "`}` where a rule could start ends the profile."
        if reader.stands(b"}") {
            reader.at += 1;
            break;
        }
        rules.push(read_rule(reader, file)?);
        file.rules += 1;
    }
    file.profiles.push(Profile {
        name: name.bytes.to_vec(),
        rules,
    });
    Ok(())
}

/// A head's name, after the word `profile` or alone.
fn read_head<'a>(reader: &mut Reader<'a>) -> Result<Token<'a>, Refusal> {
    // "An unquoted one ends at a blank or `{`."; "without the word `profile`
    // only `/`"
    if reader.stands(b"/") || reader.stands(b"\"/") {
        return reader.token(b"{");
    }
    refuse_words(reader)?;
    let word = reader.token(b"")?;
    if !word.is("profile") {
        return reader.refuse(4, word.at);
    }
    reader.want()?;
    reader.token(b"{")
}

/// "refused 5 when [...] its unquoted first word is one of these fixed words
/// [...] or starts with `^` or `priority=`"; "a first word ends at a blank or
/// comma"
fn refuse_words(reader: &Reader) -> Result<(), Refusal> {
    let word = reader.run(b",");
    let taken = !FIXED.iter().any(|fixed| fixed.as_bytes() == word)
        && !word.starts_with(b"^")
        && !word.starts_with(b"priority=");
    if taken {
        return Ok(());
    }
    // Both 4 and 5 fit a word with a quote in it: the lowest number.
    reader.refuse(if word.contains(&b'"') { 4 } else { 5 }, reader.at)
}

/// "any token but `{` after a head's name" is 5.
fn read_opening(reader: &mut Reader) -> Result<(), Refusal> {
    reader.want()?;
    if reader.stands(b"{") {
        reader.at += 1;
        return Ok(());
    }
    let token = reader.token(b"")?;
    reader.refuse(5, token.at)
}

/// "letters, digits, `/ . _ - +`, and space when quoted; they begin with a
/// letter, digit or `/`" (the length aside).
fn is_name(name: &Token) -> bool {
    let first = |b: &u8| b.is_ascii_alphanumeric() || *b == b'/';
    let other = |b: &u8| first(b) || b"._-+".contains(b) || name.quoted && *b == b' ';
    name.bytes.first().is_some_and(first) && name.bytes.iter().all(other)
}

// ----------------------------------------------------------------- rules

/// "`[audit] [allow|deny] [owner] PATTERN PERMS [-> TARGET] ,`"
fn read_rule(reader: &mut Reader, file: &File) -> Result<Rule, Refusal> {
    let first_at = reader.at;
    let audit = take_word(reader, "audit")?;
    let deny = take_word(reader, "deny")?;
    if !deny {
        take_word(reader, "allow")?;
    }
    let owner = take_word(reader, "owner")?;
    let (token, pattern) = read_pattern(reader, file, reader.at != first_at)?;
    let (bits, mode) = read_perms(reader, deny)?;
    let target = read_target(reader, mode)?;
    reader.want()?;
    if !reader.stands(b",") {
        return reader.refuse(4, reader.at);
    }
    reader.at += 1;
    let places = Places {
        first: first_at,
        pattern: token.at,
        written: token.bytes.to_vec(),
        end: reader.at,
    };
    Ok(Rule {
        audit,
        deny,
        owner,
        pattern,
        bits,
        transition: mode.map(|mode| Transition { mode, target }),
        places,
    })
}

/// Takes a qualifier, if it stands here, and goes to the token after it.
fn take_word(reader: &mut Reader, word: &str) -> Result<bool, Refusal> {
    if reader.run(b"") != word.as_bytes() {
        return Ok(false);
    }
    reader.at += word.len();
    reader.want()?;
    Ok(true)
}

/// The pattern, or 5 for a word that is not taken.
fn read_pattern<'a>(
    reader: &mut Reader<'a>,
    file: &File,
    qualified: bool,
) -> Result<(Token<'a>, Vec<Item>), Refusal> {
    refuse_words(reader)?;
    // "`profile` inside a profile [...] and a lone `{` after a qualifier"
    if reader.run(b",") == b"profile" || qualified && reader.run(b"") == b"{" {
        return reader.refuse(5, reader.at);
    }
    let token = reader.token(b"")?;
    if token.bytes.len() > WRITTEN || file.rules == file.room {
        return reader.refuse(9, token.at);
    }
    let Some(items) = pattern::parse(token.bytes) else {
        return reader.refuse(7, token.at);
    };
    if !uses_only(&items, &file.variables) {
        return reader.refuse(6, token.at);
    }
    // "then for patterns 9 for expansions or pieces, and 7 for the first `/`"
    let size = pattern::size(&items, &file.variables, &file.sizes);
    if size.expansions > EXPANSIONS || size.pieces > PIECES {
        return reader.refuse(9, token.at);
    }
    if !pattern::all_begin_with_slash(&items, &file.variables) {
        return reader.refuse(7, token.at);
    }
    Ok((token, items))
}

/// The bits that the rule carries, and its mode.
fn read_perms(reader: &mut Reader, deny: bool) -> Result<(u8, Option<&'static str>), Refusal> {
    reader.want()?;
    // "Missing or quoted PERMS is 4"
    if reader.stands(b"\"") || reader.stands(b",") {
        return reader.refuse(4, reader.at);
    }
    let token = reader.token(b",")?;
    match perms(token.bytes, deny) {
        Some(perms) => Ok(perms),
        None => reader.refuse(8, token.at),
    }
}

/// "PERMS is one or more of the letters `r w a m l k` and execute modes,
/// letters repeatable, at most one mode."
fn perms(written: &[u8], deny: bool) -> Option<(u8, Option<&'static str>)> {
    let (mut bits, mut mode) = (0, None);
    let mut rest = written;
    while let Some(&first) = rest.first() {
        if let Some(letter) = b"rwamlk".iter().position(|b| *b == first) {
            bits |= 1 << letter;
            rest = &rest[1..];
            continue;
        }
        // "Bare `x` only with `deny`, and there no other mode."
        let modes: &[&'static str] = if deny { &["x"] } else { &MODES };
        let found = modes.iter().find(|m| rest.starts_with(m.as_bytes()))?;
        if mode.is_some() {
            return None;
        }
        mode = Some(*found);
        bits |= 64;
        rest = &rest[found.len()..];
    }
    // "`w` with `a` in one rule is 8"
    if bits & 6 == 6 {
        return None;
    }
    // "A rule with `w` carries a as well, allowing or denying."
    if bits & 2 != 0 {
        bits |= 4;
    }
    Some((bits, mode.filter(|_| !deny)))
}

/// "`->` only with p and c modes, else 8 at the `->`"; "TARGET has the form
/// of a name"
fn read_target(reader: &mut Reader, mode: Option<&str>) -> Result<Option<Vec<u8>>, Refusal> {
    reader.want()?;
    if !reader.stands(b"->") {
        return Ok(None);
    }
    if !mode.is_some_and(|m| m.starts_with(['p', 'P', 'c', 'C'])) {
        return reader.refuse(8, reader.at);
    }
    reader.at += 2;
    reader.want()?;
    let token = reader.token(b",")?;
    if !is_name(&token) {
        return reader.refuse(4, token.at);
    }
    if token.bytes.len() > NAME {
        return reader.refuse(9, token.at);
    }
    Ok(Some(token.bytes.to_vec()))
}

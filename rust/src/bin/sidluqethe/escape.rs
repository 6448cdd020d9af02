//! Bytes for a terminal: nothing that it could act on, nothing that misleads a
//! reader, and nothing lost: what is printed can be read back.

/// One printed character or escape, and the bytes that it stands for.
pub struct Unit {
    /// The first byte's place.
    pub at: usize,
    /// How many bytes.
    pub length: usize,
    /// What is printed.
    pub shown: String,
}

/// The bytes as they are printed.
pub fn escape(bytes: &[u8]) -> String {
    units(bytes).into_iter().map(|unit| unit.shown).collect()
}

/// The bytes between backquotes, the end of long ones left out.
pub fn quote(bytes: &[u8]) -> String {
    const MOST: usize = 60;
    let units = units(bytes);
    let shown: String = units.iter().take(MOST).map(|u| &u.shown[..]).collect();
    let rest = if units.len() > MOST { "..." } else { "" };
    format!("`{shown}{rest}`")
}

/// The bytes in printed units.
pub fn units(bytes: &[u8]) -> Vec<Unit> {
    let mut units = Vec::new();
    let mut at = 0;
    while at < bytes.len() {
        let unit = unit(bytes, at);
        at += unit.length;
        units.push(unit);
    }
    units
}

/// How many columns of a terminal are taken at most.
pub fn widest(shown: &str) -> usize {
    shown
        .chars()
        .map(|c| if c.is_ascii() { 1 } else { 2 })
        .sum()
}

fn unit(bytes: &[u8], at: usize) -> Unit {
    let rest = &bytes[at..];
    let (length, shown) = match first_char(rest) {
        None => (1, format!("\\x{:02x}", rest[0])),
        Some('\\') if needs_another(&rest[1..]) => (1, "\\\\".to_string()),
        Some(c) if is_hidden(c) => (c.len_utf8(), escaped(c)),
        Some(c) => (c.len_utf8(), c.to_string()),
    };
    Unit { at, length, shown }
}

/// Whether a backslash before these bytes could be read as an escape's.
fn needs_another(rest: &[u8]) -> bool {
    match first_char(rest) {
        Some(c) => matches!(c, 'x' | 'u' | 't' | 'n' | 'r' | '\\') || is_hidden(c),
        None => !rest.is_empty(),
    }
}

fn escaped(c: char) -> String {
    match c {
        '\t' => "\\t".to_string(),
        '\n' => "\\n".to_string(),
        '\r' => "\\r".to_string(),
        '\0'..='\x7f' => format!("\\x{:02x}", u32::from(c)),
        _ => format!("\\u{{{:x}}}", u32::from(c)),
    }
}

/// The character that the bytes begin with; none where they are not UTF-8.
pub fn first_char(bytes: &[u8]) -> Option<char> {
    let most = bytes.len().min(4);
    (1..=most).find_map(|n| std::str::from_utf8(&bytes[..n]).ok()?.chars().next())
}

/// Whether a terminal could act on a character, or a reader not see it for
/// what it is: controls, direction marks, blanks other than the space, and
/// characters without a shape.
pub fn is_hidden(c: char) -> bool {
    match c {
        ' ' => false,
        // Fillers, the byte order mark, notes between lines, tags.
        '\u{ad}' | '\u{61c}' | '\u{115f}' | '\u{1160}' | '\u{180e}' | '\u{3164}' => true,
        '\u{200b}'..='\u{200f}' | '\u{202a}'..='\u{202e}' | '\u{2060}'..='\u{206f}' => true,
        '\u{feff}' | '\u{ffa0}' | '\u{fff9}'..='\u{fffb}' => true,
        '\u{e0000}'..='\u{e007f}' => true,
        _ => c.is_control() || c.is_whitespace(),
    }
}

#[cfg(test)]
mod tests {
    use super::*;

    #[test]
    fn what_a_terminal_acts_on_is_escaped() {
        let cases: [(&[u8], &str); 12] = [
            (b"plain /a,{b}", "plain /a,{b}"),
            (b"\x1b[2K\x07\x7f\0", "\\x1b[2K\\x07\\x7f\\x00"),
            (b"a\tb\nc\rd", "a\\tb\\nc\\rd"),
            ("\u{9b}2K\u{85}".as_bytes(), "\\u{9b}2K\\u{85}"),
            (b"\x9b2K\xff", "\\x9b2K\\xff"),
            (
                "\u{202e}a\u{2066}b\u{61c}".as_bytes(),
                "\\u{202e}a\\u{2066}b\\u{61c}",
            ),
            (
                "\u{200b}\u{feff}\u{ad}\u{2028}".as_bytes(),
                "\\u{200b}\\u{feff}\\u{ad}\\u{2028}",
            ),
            ("\u{a0}\u{3000}".as_bytes(), "\\u{a0}\\u{3000}"),
            ("\u{e0041}".as_bytes(), "\\u{e0041}"),
            ("é漢🦀".as_bytes(), "é漢🦀"),
            (b"\xe2\x82", "\\xe2\\x82"),
            (b"", ""),
        ];
        for (bytes, shown) in cases {
            assert_eq!(escape(bytes), shown, "{bytes:?}");
        }
    }

    #[test]
    fn a_backslash_is_doubled_where_it_could_be_an_escape() {
        assert_eq!(escape(b"/a\\*"), "/a\\*");
        assert_eq!(escape(b"\\x1b"), "\\\\x1b");
        assert_eq!(escape(b"\\\x1b"), "\\\\\\x1b");
        assert_eq!(escape(b"\\\\a\\"), "\\\\\\a\\");
    }

    /// Reads what was printed back.
    fn read_back(shown: &str) -> Vec<u8> {
        let mut bytes = Vec::new();
        let mut rest = shown;
        while let Some(c) = rest.chars().next() {
            rest = &rest[c.len_utf8()..];
            let next = rest.chars().next();
            let (length, read) = match (c, next) {
                ('\\', Some('\\')) => (1, vec![b'\\']),
                ('\\', Some('t')) => (1, vec![b'\t']),
                ('\\', Some('n')) => (1, vec![b'\n']),
                ('\\', Some('r')) => (1, vec![b'\r']),
                ('\\', Some('x')) => (3, vec![u8::from_str_radix(&rest[1..3], 16).unwrap()]),
                ('\\', Some('u')) => {
                    let end = rest.find('}').unwrap();
                    let number = u32::from_str_radix(&rest[2..end], 16).unwrap();
                    let c = char::from_u32(number).unwrap();
                    (end + 1, c.to_string().into_bytes())
                }
                _ => (0, c.to_string().into_bytes()),
            };
            rest = &rest[length..];
            bytes.extend(read);
        }
        bytes
    }

    #[test]
    fn what_is_printed_can_be_read_back() {
        let alphabet = [
            &b"\\"[..],
            b"x",
            b"u",
            b"{",
            b"}",
            b"t",
            b"n",
            b"r",
            b"1",
            b"b",
            b"\x1b",
            b"\n",
            b"\xff",
            b"\xc3\xa9",
            b"\xe2\x80\xae",
            b"a",
        ];
        // Every string of up to four of them.
        for number in 0..16_usize.pow(4) {
            let parts = (0..4).map(|i| alphabet[number >> (4 * i) & 15]);
            let bytes: Vec<u8> = parts.flatten().copied().collect();
            assert_eq!(read_back(&escape(&bytes)), bytes, "{bytes:?}");
        }
    }

    #[test]
    fn long_quotes_are_cut() {
        assert_eq!(quote(b"a b"), "`a b`");
        let long = quote(&[b'a'; 100]);
        assert!(long.ends_with("a...`") && long.len() == 65, "{long}");
    }
}

//! A small reader of JSON: whether a line is one well-formed object.

/// Every line is an object; how many there are.
pub fn check_lines(text: &str) -> usize {
    assert!(text.is_empty() || text.ends_with('\n'), "{text:?}");
    for line in text.lines() {
        let mut rest = line.as_bytes();
        assert!(line.starts_with('{'), "{line}");
        value(&mut rest).unwrap_or_else(|| panic!("no JSON: {line}"));
        assert!(rest.is_empty(), "{line}");
    }
    text.lines().count()
}

fn take(rest: &mut &[u8], mark: &[u8]) -> Option<()> {
    *rest = rest.strip_prefix(mark)?;
    Some(())
}

fn value(rest: &mut &[u8]) -> Option<()> {
    match rest.first()? {
        b'{' => members(rest, b"{", b"}", |rest| {
            string(rest)?;
            take(rest, b":")?;
            value(rest)
        }),
        b'[' => members(rest, b"[", b"]", value),
        b'"' => string(rest),
        b't' => take(rest, b"true"),
        b'f' => take(rest, b"false"),
        b'n' => take(rest, b"null"),
        _ => number(rest),
    }
}

/// Members parted by commas.
fn members(
    rest: &mut &[u8],
    open: &[u8],
    close: &[u8],
    member: impl Fn(&mut &[u8]) -> Option<()>,
) -> Option<()> {
    take(rest, open)?;
    if take(rest, close).is_some() {
        return Some(());
    }
    loop {
        member(rest)?;
        if take(rest, close).is_some() {
            return Some(());
        }
        take(rest, b",")?;
    }
}

fn number(rest: &mut &[u8]) -> Option<()> {
    let length = rest.iter().take_while(|b| b.is_ascii_digit()).count();
    let whole = length == 1 || rest.first() != Some(&b'0');
    *rest = &rest[length..];
    (length > 0 && whole).then_some(())
}

fn string(rest: &mut &[u8]) -> Option<()> {
    take(rest, b"\"")?;
    loop {
        let (&byte, after) = rest.split_first()?;
        *rest = after;
        match byte {
            b'"' => return Some(()),
            b'\\' => escape(rest)?,
            0..=31 | 127 => return None,
            _ => {}
        }
    }
}

fn escape(rest: &mut &[u8]) -> Option<()> {
    let (&byte, after) = rest.split_first()?;
    *rest = after;
    if byte != b'u' {
        return b"\"\\/bfnrt".contains(&byte).then_some(());
    }
    let digits = rest.get(..4)?;
    *rest = &rest[4..];
    digits.iter().all(u8::is_ascii_hexdigit).then_some(())
}

#[test]
fn what_is_no_object_is_told() {
    let good = r#"{"a":[1,0,{"b":"\u001b\"é"}],"c":null,"d":true,"e":{}}"#;
    let mut rest = good.as_bytes();
    assert!(value(&mut rest).is_some() && rest.is_empty());
    for bad in [
        "", "{", "{a:1}", "[1,]", "\"\t\"", r#""\x""#, "01", "{\"a\"}", "nul",
    ] {
        let mut rest = bad.as_bytes();
        assert!(value(&mut rest).is_none() || !rest.is_empty(), "{bad}");
    }
}

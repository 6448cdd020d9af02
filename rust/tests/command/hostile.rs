//! Bytes that are not text, wherever bytes can come from.

use super::run::{run, Folder, Ran};

/// What no terminal should be sent.
fn is_acted_on(c: char) -> bool {
    c != '\n' && c.is_control() || matches!(c, '\u{200e}'..='\u{202e}' | '\u{2066}'..='\u{2069}')
}

fn check(ran: &Ran) {
    for words in [&ran.out, &ran.err] {
        assert!(!words.contains(is_acted_on), "{words:?}");
    }
}

const HOSTILE: [&[u8]; 10] = [
    b"\x1b[2K]\rgranted   read",
    b"\x1b]0;title\x07",
    b"\xc2\x9b2K",
    b"\x9b2K",
    b"\xe2\x80\xae",
    b"\xe2\x81\xa6",
    b"\xff\xfe",
    b"\x08\x7f\x0b\x0c",
    b"\xf0\x9f\xa6\x80 \xc3\xa9",
    b"\xed\xa0\x80",
];

/// Those that a pattern may hold.
fn in_patterns() -> impl Iterator<Item = &'static [u8]> {
    HOSTILE
        .into_iter()
        .filter(|bytes| !bytes.starts_with(b"\x1b]"))
}

/// In the text, where it is refused and where it is accepted.
#[test]
fn texts_are_printed_escaped() {
    let folder = Folder::new();
    for hostile in HOSTILE {
        let parts: [&[u8]; 3] = [b"profile p {\n  \"/**", hostile, b"\" q,\n}\n"];
        let file = folder.write("p", parts.concat());
        let ran = run(&[&b"check"[..], &file]);
        assert_eq!(ran.status, 2);
        check(&ran);
    }
    for hostile in in_patterns() {
        for words in [[b"/a".as_slice(), b"r"], [b"/aX", b"rwx"]] {
            let parts: [&[u8]; 3] = [b"profile p {\n  \"/{**,", hostile, b"}\" r,\n}\n"];
            let file = folder.write("p", parts.concat());
            let ran = run(&[&b"ask"[..], &file, b"p", words[0], words[1]]);
            assert!(ran.status < 2, "{}", ran.err);
            assert!(ran.out.contains(":2:3: allow, "), "{}", ran.out);
            check(&ran);
        }
    }
}

/// At every place of a text where something can be wrong.
#[test]
fn refusals_are_printed_escaped() {
    let folder = Folder::new();
    let texts: [(&[u8], &[u8]); 10] = [
        (b"", b" {"),
        (b"profile ", b" {"),
        (b"profile p ", b" {"),
        (b"@{", b"}=x"),
        (b"@{A}=@{", b"}"),
        (b"@{A}=", b"["),
        (b"@{A} ", b" = /x"),
        (b"profile p { /a r ", b" }"),
        (b"profile p { /a ", b", }"),
        (b"profile p { /a px -> ", b", }"),
    ];
    for hostile in HOSTILE {
        for (before, after) in texts {
            let file = folder.write("p", [before, hostile, after].concat());
            let ran = run(&[&b"check"[..], &file]);
            assert_eq!(ran.status, 2, "{}", ran.out);
            check(&ran);
        }
    }
}

#[test]
fn the_call_is_printed_escaped() {
    let folder = Folder::new();
    let good = folder.write("good", "profile p { /** r, }\n");
    for hostile in HOSTILE {
        let path = [b"/", hostile].concat();
        let missing = folder.name(hostile);
        let calls: [&[&[u8]]; 9] = [
            &[b"ask", &good, hostile, b"/a", b"r"],
            &[b"ask", &good, b"p", hostile, b"r"],
            &[b"ask", &good, b"p", &path, b"r"],
            &[b"ask", &good, b"p", b"/a", hostile],
            &[b"ask", &missing, b"p", b"/a", b"r"],
            &[b"check", &missing],
            &[b"explain", hostile],
            &[hostile],
            &[&[b"--", hostile].concat()],
        ];
        for call in calls {
            check(&run(call));
        }
        let file = folder.write(hostile, "profile");
        check(&run(&[&b"check"[..], &file]));
    }
}

/// The same calls as JSON: ASCII but for letters, one object a line.
#[test]
fn json_is_printed_escaped() {
    let folder = Folder::new();
    for hostile in in_patterns() {
        let parts: [&[u8]; 3] = [b"profile p {\n  \"/{**,", hostile, b"}\" r,\n}\n"];
        let file = folder.write(hostile, parts.concat());
        let path = [b"/", hostile].concat();
        let ran = run(&[&b"ask"[..], &file, b"p", &path, b"r", b"--json"]);
        assert_eq!(ran.status, 0, "{}", ran.err);
        assert_eq!(super::checker::check_lines(&ran.out), 1);
        check(&ran);
    }
}

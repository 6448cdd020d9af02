//! Refusals as they are printed, whole: each number, each common slip.

use super::run::{command, ran, Folder};
use std::env;
use std::fs;
use std::path::Path;

/// Compares with the stored output of this name.
pub fn compare(name: &str, given: &str) {
    let folder = Path::new(env!("CARGO_MANIFEST_DIR")).join("tests/command/golden");
    let path = folder.join(name).with_extension("txt");
    if env::var_os("SIDLUQETHE_GOLDEN").is_some_and(|v| v == "write") {
        fs::write(&path, given).expect("a file");
    }
    let expected = fs::read_to_string(&path).unwrap_or_default();
    assert_eq!(given, expected, "{}", path.display());
}

/// Checks texts one after the other, and compares all that is printed.
fn check(name: &str, cases: &[(&str, Vec<u8>)]) {
    let folder = Folder::new();
    let mut all = String::new();
    for (title, text) in cases {
        folder.write("p", text);
        let ran = ran(command(&["check", "p"]).current_dir(folder.path()));
        all += &format!("# {title}\n{}{}", ran.out, ran.err);
        assert_eq!(ran.status, 2, "{title}: {}", ran.out);
        all += "\n";
    }
    compare(name, &all);
}

/// The same with texts that are written here.
fn check_texts(name: &str, cases: &[(&str, &str)]) {
    let cases: Vec<_> = cases
        .iter()
        .map(|(t, x)| (*t, x.as_bytes().to_vec()))
        .collect();
    check(name, &cases);
}

/// Asks with these words of a small text.
fn ask(name: &str, calls: &[[&[u8]; 3]]) {
    let folder = Folder::new();
    folder.write("p", "profile step {\n  /data/* r,\n}\n/usr/bin/tool {}\n");
    let mut all = String::new();
    for [profile, path, perms] in calls {
        let mut call = command(&[b"ask", &b"p"[..], profile, path, perms]);
        let ran = ran(call.current_dir(folder.path()));
        assert_eq!((ran.status, ran.out.as_str()), (2, ""));
        all += &format!("{}\n", ran.err);
    }
    compare(name, &all);
}

/// A profile with these rules.
fn profile(rules: &str) -> String {
    format!("profile p {{\n{rules}}}\n")
}

#[test]
fn refusal_1() {
    check(
        "refused-1",
        &[("a text of 65,536 bytes", vec![b'\n'; 65_536])],
    );
}

#[test]
fn refusal_2() {
    let long = [&[b'/'][..], &[b'a'; 4_095]].concat();
    let paths: [&[u8]; 4] = [b"", b"data/x", b"/data//x", &long];
    ask("refused-2", &paths.map(|path| [&b"step"[..], path, b"r"]));
}

#[test]
fn refusal_3() {
    let perms: [&[u8]; 3] = [b"0", b"128", b"99999999999999999999"];
    ask(
        "refused-3",
        &perms.map(|perms| [&b"step"[..], b"/x", perms]),
    );
}

#[test]
fn refusal_4_ends() {
    check_texts(
        "refused-4-ends",
        &[
            ("cut in a rule", "profile p {\n  /a r,\n  /b px -> to"),
            ("cut behind a qualifier", "profile p {\n  audit deny\n"),
            ("cut behind a pattern", "profile p {\n  /a"),
            ("cut behind permissions", "profile p {\n  /a r\n"),
            ("a missing brace", "profile p {\n  /a r,\n"),
            ("cut behind a name", "profile p"),
            ("cut behind the word profile", "profile"),
            ("cut behind a variable", "@{A}"),
        ],
    );
}

#[test]
fn refusal_4_rules() {
    check_texts(
        "refused-4-rules",
        &[
            ("a missing comma", &profile("  /a r\n  /b r,\n")),
            (
                "a missing comma behind a target",
                &profile("  /a px -> t\n  /b r,\n"),
            ),
            ("a missing comma before a brace", &profile("  /a r\n")),
            (
                "a missing comma before a quote",
                &profile("  /a r\n  \"/b c\" r,\n"),
            ),
            ("two words of permissions", &profile("  /a r w,\n")),
            ("an arrow in two", &profile("  /a px - > t,\n")),
            ("a missing target", &profile("  /a px -> ,\n")),
            (
                "a target on the next line",
                &profile("  /a px ->\n  /b r,\n"),
            ),
            ("a bad target", &profile("  /a px -> t*,\n")),
            ("no permissions", &profile("  /a ,\n")),
            ("quoted permissions", &profile("  /a \"rw\",\n")),
            ("two quoted words", &profile("  \"/a\" \"/b\" r,\n")),
            ("a quote inside a word", &profile("  /a\"b c\" r,\n")),
            ("an open quote", &profile("  \"/a b r,\n")),
            ("NUL", &profile("  /a r, # \0\n")),
            ("NUL in quotes", &profile("  \"/a\0\" r,\n")),
        ],
    );
}

#[test]
fn refusal_4_outside() {
    let utf16: Vec<u8> = "\u{feff}profile p {}"
        .encode_utf16()
        .flat_map(u16::to_le_bytes)
        .collect();
    let mut cases: Vec<(&str, Vec<u8>)> = vec![
        ("UTF-16", utf16[..].to_vec()),
        ("UTF-16 without BOM", utf16[2..].to_vec()),
    ];
    let texts = [
        ("a BOM", "\u{feff}profile p {\n}\n"),
        ("a BOM before a comment", "\u{feff}# text\n"),
        ("a comma behind a brace", "profile p {\n},\n"),
        ("a brace too many", "profile p {\n}}\n"),
        ("a rule outside", "/data/** r,\n"),
        ("a qualifier outside", "audit /data/x r,\n"),
        ("a variable rule outside", "@{RUN}in/* r,\n"),
        ("the word profile is missing", "step {\n}\n"),
        ("a name is missing", "profile {\n}\n"),
        ("profile without a blank", "profile{\n}\n"),
        ("a brace alone", "{\n}\n"),
        ("a bad byte in a name", "profile stép {\n}\n"),
        ("a bad start of a name", "profile .p {\n}\n"),
        ("a variable behind a profile", "profile p {\n}\n@{A}=/x\n"),
        ("an open variable", "@{A =/x\n"),
        ("a quote in a variable's name", "@{A\"}=/x\n"),
        ("no operator", "@{A} /x\n"),
        ("an operator on the next line", "@{A}\n  = /x\n"),
        ("no value", "@{A} = # later\n"),
        ("an empty value", "@{A} = /x \"\"\n"),
    ];
    cases.extend(texts.map(|(title, text)| (title, text.as_bytes().to_vec())));
    check("refused-4-outside", &cases);
}

#[test]
fn refusal_5() {
    let mut cases = vec![
        ("#include", profile("  #include <abstractions/base>\n")),
        ("include", "include <tunables/global>\n".to_string()),
        ("network", profile("  /a r,\n  network inet stream,\n")),
        ("behind a qualifier", profile("  deny capability chown,\n")),
        ("file", profile("  file /a r,\n")),
        ("link", profile("  link /a -> /b,\n")),
        ("a hat", profile("  ^hat {\n")),
        ("priority", profile("  priority=1 /a r,\n")),
        ("a block", profile("  audit { /a r, }\n")),
        ("flags", "profile p flags=(complain) {\n}\n".to_string()),
        ("a name of two words", "profile my step {\n}\n".to_string()),
        ("a missing brace", "profile p\n  /a r,\n}\n".to_string()),
    ];
    cases.push((
        "a profile in a profile",
        "profile p {\n  /a r,\nprofile q {\n}\n".to_string(),
    ));
    let cases: Vec<_> = cases
        .iter()
        .map(|(title, text)| (*title, &text[..]))
        .collect();
    check_texts("refused-5", &cases);
}

#[test]
fn refusal_6() {
    let many: String = (0..12).map(|i| format!("@{{V{i}}}=/x\n")).collect();
    check_texts(
        "refused-6",
        &[
            ("set twice", "@{A}=/x\n\n@{A}=/y\n"),
            ("added to before set", "@{B}=/x\n@{A} += /y\n"),
            ("a bad name", "@{1A}=/x\n"),
            ("an empty name", "@{}=/x\n"),
            ("not set", &profile("  @{RUN}in/* r,\n")),
            (
                "another is set",
                &("@{RUNS}=/r/\n".to_string() + &profile("  @{RUN}in/* r,\n")),
            ),
            ("many are set", &(many + &profile("  /{a,@{RUN}} r,\n"))),
            ("a bad name in a pattern", &profile("  /@{A,B} r,\n")),
            ("used in itself", "@{A}=/x @{A}\n"),
            ("set later", "@{A}=@{B}\n@{B}=/x\n"),
            ("first set later", "@{A}=/x\n@{B}=/y\n@{A}+=@{B}\n"),
        ],
    );
}

#[test]
fn refusal_7() {
    let rules = [
        ("permissions before the path", "  r /data/x,\n"),
        ("a mode before the path", "  owner rix \"/data/x\",\n"),
        ("an open class", "  /a[bc r,\n"),
        ("a bracket too many", "  /ab] r,\n"),
        ("an empty class", "  /a[^] r,\n"),
        ("a bad member", "  /a[b,c] r,\n"),
        ("a bad range", "  /a[z-a] r,\n"),
        ("a range without end", "  /a[a-] r,\n"),
        ("an open brace", "  /a{b,c r,\n"),
        ("a brace too many", "  /a r,\n  /b} r,\n"),
        ("one alternative", "  /a{b} r,\n"),
        ("nested braces", "  /a{b,{c,d}} r,\n"),
        ("a caret", "  /a^b r,\n"),
        ("a backslash at the end", "  /a\\ r,\n"),
        ("an open variable", "  /a@{B r,\n"),
        ("a quoted pattern", "  \"/my data/{\" r,\n"),
        ("a star first", "  **/x r,\n"),
        ("an alternative first", "  {/a,b}/c r,\n"),
        ("an empty alternative first", "  {/a,}b r,\n"),
        ("qualifiers in another order", "  owner deny /a r,\n"),
        ("a comma too many", "  /a r,,\n"),
        ("a profile in a profile", "/q{\n  /a r,\n"),
        ("an unknown word", "  rlimit nofile,\n"),
        ("an empty pattern", "  \"\" r,\n"),
    ];
    let mut cases: Vec<(&str, String)> = rules.map(|(t, r)| (t, profile(r))).to_vec();
    let home = "@{H}=/home/ home/\n".to_string() + &profile("  @{H}x r,\n");
    cases.push(("a value without a slash", home));
    cases.push(("braces in a value", "@{A}=/x{a,b}\n".to_string()));
    cases.push(("an open class in a value", "@{A}=/x /y[\n".to_string()));
    let cases: Vec<_> = cases
        .iter()
        .map(|(title, text)| (*title, &text[..]))
        .collect();
    check_texts("refused-7", &cases);
}

#[test]
fn refusal_8() {
    let rules = [
        ("an unknown letter", "  /a rq,\n"),
        ("an unknown letter of two bytes", "  /a ré,\n"),
        ("a capital", "  /a RW,\n"),
        ("w with a", "  /a wa,\n"),
        ("two modes", "  /a pxix,\n"),
        ("bare x", "  /a rx,\n"),
        ("a mode after deny", "  deny /a ix,\n"),
        ("x twice after deny", "  deny /a xx,\n"),
        ("no such mode", "  /a pUx,\n"),
        ("an arrow after ix", "  /a ix -> t,\n"),
        ("an arrow after letters", "  /a r -> t,\n"),
        ("an arrow after deny", "  deny /a x -> t,\n"),
        ("an arrow without a blank", "  /a px->t,\n"),
        ("an arrow without a mode", "  /a -> t,\n"),
        ("no permissions", "  /a,\n  /b r,\n"),
        ("no permissions, the last rule", "  /a,\n"),
        ("no permissions, no comma", "  /a\n  owner /b r,\n"),
        ("a glued brace", "  /a r}\n"),
        ("a profile in a profile", "  /a r,\n/q {\n"),
        ("a variable in a profile", "  @{A} = /x\n"),
    ];
    let cases: Vec<(&str, String)> = rules
        .map(|(t, r)| (t, "@{A}=/x\n".to_string() + &profile(r)))
        .to_vec();
    let cases: Vec<_> = cases
        .iter()
        .map(|(title, text)| (*title, &text[..]))
        .collect();
    check_texts("refused-8", &cases);
}

/// So many lines, by their numbers from 1.
fn lines(count: usize, line: impl Fn(usize) -> String) -> String {
    (1..=count).map(line).collect()
}

#[test]
fn refusal_9_counts() {
    let rules = lines(513, |i| format!("  /a{i} r,\n"));
    let values = "@{A}=1 2 3 4 5 6 7 8\n@{A}+=1 2 3 4 5 6 7 8 9\n";
    check_texts(
        "refused-9-counts",
        &[
            ("profiles", &lines(33, |i| format!("profile p{i} {{}}\n"))),
            ("rules", &profile(&rules)),
            ("variables", &lines(33, |i| format!("@{{V{i}}}=/x\n"))),
            ("values", values),
        ],
    );
}

#[test]
fn refusal_9_lengths() {
    let name = "n".repeat(256);
    let long = "a".repeat(1_025);
    let choices = "@{A}=1 2 3 4\n".to_string() + &profile("  /@{A}@{A}@{A}@{A}@{A} r,\n");
    // Each has the square of the expansions of the one before.
    let squares = lines(31, |i| format!("@{{V{0}}}=@{{V{i}}}@{{V{i}}}\n", i + 1));
    let squares = "@{V1}=1 2 3 4\n".to_string() + &squares;
    let pieces = format!("@{{A}}=/{}\n", &long[2..]) + &profile("  @{A}bc r,\n");
    check_texts(
        "refused-9-lengths",
        &[
            ("bytes of a pattern", &profile(&format!("  /{long} r,\n"))),
            ("bytes of a value", &format!("@{{A}}={long}\n")),
            ("expansions", &choices),
            ("too many", &(squares + &profile("  /@{V32} r,\n"))),
            ("pieces", &pieces),
            ("bytes of a name", &format!("profile {name} {{}}\n")),
            (
                "bytes of a target",
                &profile(&format!("  /a px -> {name},\n")),
            ),
        ],
    );
}

#[test]
fn refusal_10() {
    let twice = "profile p {\n}\nprofile q {}\nprofile \"p\" {\n}\n";
    check_texts("refused-10", &[("the same name in quotes", twice)]);
}

#[test]
fn refusal_11() {
    let names: [&[u8]; 4] = [b"other", b"Step", b"", b"st\x1b[2Kep\xff"];
    ask("refused-11", &names.map(|name| [name, &b"/x"[..], b"r"]));
    let folder = Folder::new();
    let text: String = (1..=13).map(|i| format!("profile p{i} {{}}\n")).collect();
    folder.write("many", text);
    folder.write("none", "# nothing\n");
    let mut all = String::new();
    for file in ["many", "none"] {
        let ran = ran(command(&["ask", file, "p", "/x", "r"]).current_dir(folder.path()));
        assert_eq!(ran.status, 2);
        all += &format!("{}\n", ran.err);
    }
    compare("refused-11-names", &all);
}

#[test]
fn long_lines_and_odd_bytes() {
    let comment = "x".repeat(300);
    let long = profile(&format!("  /{} r, /b rq, # {comment}\n", "a".repeat(300)));
    let mut cases = vec![("a long line", long.into_bytes())];
    cases.push(("tabs", profile("\t/a\trq,\n").into_bytes()));
    cases.push((
        "bytes that are no UTF-8",
        b"profile p {\n  /\xff\x9b r, /b rq,\n}\n".to_vec(),
    ));
    cases.push((
        "letters of two bytes",
        profile("  /é r, /ü rq,\n").into_bytes(),
    ));
    cases.push((
        "escapes and backslashes",
        profile("  \"/\x1b[2K\\x1b\" rq,\n").into_bytes(),
    ));
    cases.push(("CR LF", b"profile p {\r\n  /a rq,\r\n}\r\n".to_vec()));
    check("lines", &cases);
}

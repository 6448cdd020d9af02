//! Every size of document 01 from both sides.

use super::rng::Rng;
use super::Request;

/// A case at its limit, or one past it.
pub type Case = fn(&mut Rng, usize) -> Request;

pub const CASES: [Case; 19] = [
    profiles,
    rules,
    variables,
    values,
    pattern_bytes,
    value_bytes,
    name_bytes,
    target_bytes,
    text_bytes,
    text_lines,
    text_columns,
    expansions_by_variables,
    expansions_by_choices,
    expansions_by_values,
    expansions_squared,
    pieces,
    pieces_multiplied,
    path_bytes,
    many_stars,
];

fn ask(rng: &mut Rng, text: String, name: &str, path: &str) -> Request {
    Request {
        text: text.into_bytes(),
        name: name.into(),
        path: path.into(),
        asked: *rng.pick(&[1, 1, 3, 3, 65, 65, 127, 127, 0, 128]),
        owner: rng.coin(),
    }
}

/// 32 profiles; the last may bear a used name.
fn profiles(rng: &mut Rng, past: usize) -> Request {
    let count = 32 + past;
    let mut text = String::new();
    for index in 1..count {
        text += &format!("profile p{index} {{ }}\n");
    }
    let name = rng.word(&["last", "last", "last", "p1"]);
    text += &format!("profile {name} {{ /a rix, }}\n");
    ask(rng, text, "last", "/a")
}

/// 512 rules in one profile or two; the last may be faulty.
fn rules(rng: &mut Rng, past: usize) -> Request {
    let count = 512 + past;
    let half = if rng.coin() { 0 } else { rng.below(count) };
    let mut text = String::from("/p{\n");
    for index in 1..count {
        if index == half {
            text += "}\n/q{\n";
        }
        text += rng.word(&["/a r,\n", "/* w,", "/b px,\n", "audit /a k,", "/a/** m,\n"]);
    }
    text += rng.word(&[
        "/c rpx",
        "/c rpx",
        "/c rpx",
        "[ r",
        "network r",
        "\"/c r",
        "/@{A} r",
    ]);
    text += ",\n}\n";
    let name = if half > 0 { "/q" } else { "/p" };
    let path = rng.word(&["/a", "/b", "/c"]);
    ask(rng, text, name, path)
}

/// 32 variables; the last may lack its `=`.
fn variables(rng: &mut Rng, past: usize) -> Request {
    let count = 32 + past;
    let mut text = String::new();
    for index in 1..count {
        text += &format!("@{{V{index}}}=/v{index}\n");
    }
    text += rng.word(&["", "  ", "\r\n\t"]);
    text += rng.word(&[
        "@{L}=/last\n",
        "@{L}=/last\n",
        "@{L}=/last\n",
        "@{L}=\n",
        "@{L} = \"x\n",
        "@{L}+=/last\n",
        "@{L}\n",
    ]);
    text += "/p{ @{L} r, @{V1} w, @{V31} k, }\n";
    let path = rng.word(&["/last", "/v1", "/v31"]);
    ask(rng, text, "/p", path)
}

/// 16 values over one or more assignments; the last may be faulty.
fn values(rng: &mut Rng, past: usize) -> Request {
    let count = 16 + past;
    let mut text = String::from("@{A}=/0");
    for index in 1..count - 1 {
        let part = if rng.percent(20) { "\n@{A}+=" } else { " " };
        text += &format!("{part}/{index}");
    }
    text += rng.word(&["\n@{A}+=", " "]);
    text += rng.word(&[
        "/last", "/last", "/last", "\"\"", "[", "@{B}", "\"x", "x\"y",
    ]);
    text += "\n/p{ @{A} rix, }\n";
    let path = rng.word(&["/0", "/7", "/last"]);
    ask(rng, text, "/p", path)
}

/// So many bytes that begin with `/`; quotes are not counted.
fn written(rng: &mut Rng, count: usize) -> (String, String) {
    let mut bytes = String::from("/");
    let mut path = String::from("/");
    if rng.coin() {
        bytes += "\\a";
        path += "a";
    }
    let rest = count - bytes.len();
    bytes += &"b".repeat(rest);
    path += &"b".repeat(rest);
    if rng.percent(10) {
        // The size comes before the form.
        bytes.replace_range(count - 1.., rng.word(&["[", "\\"]));
    }
    if rng.coin() {
        bytes = format!("\"{bytes}\"");
    }
    (bytes, path)
}

fn pattern_bytes(rng: &mut Rng, past: usize) -> Request {
    let (pattern, path) = written(rng, 1_024 + past);
    ask(rng, format!("/p{{\n{pattern} rpx, }}"), "/p", &path)
}

fn value_bytes(rng: &mut Rng, past: usize) -> Request {
    let (value, path) = written(rng, 1_024 + past);
    ask(
        rng,
        format!("@{{A}}=/a {value}\n/p{{ @{{A}} rpx, }}"),
        "/p",
        &path,
    )
}

/// A name of so many bytes, quoted or not, seldom a bad one.
fn long_name(rng: &mut Rng, count: usize) -> (String, String) {
    let mut name = format!("/{}", "n".repeat(count - 1));
    if rng.percent(15) {
        name += rng.word(&["*", "{"]);
    }
    let written = if rng.coin() {
        format!("\"{name}\"")
    } else {
        name.clone()
    };
    (written, name)
}

fn name_bytes(rng: &mut Rng, past: usize) -> Request {
    let (written, name) = long_name(rng, 255 + past);
    let head = rng.word(&["", "profile ", "\n\nprofile\n"]);
    ask(rng, format!("{head}{written} {{ /a rux, }}"), &name, "/a")
}

fn target_bytes(rng: &mut Rng, past: usize) -> Request {
    let (written, _) = long_name(rng, 255 + past);
    let mode = rng.word(&["px", "Cx", "pix", "CUx"]);
    ask(rng, format!("/p{{ /a {mode} ->\n{written}, }}"), "/p", "/a")
}

/// 65,535 bytes, filled by a comment, blanks or rules.
fn text_bytes(rng: &mut Rng, past: usize) -> Request {
    let count = 65_535 + past;
    let mut text = String::from("/p{ /a rpx->t,");
    match rng.below(3) {
        0 => text += "#",
        1 => {}
        _ => {
            let pattern = "b".repeat(1_000);
            text += &format!("/{pattern} r,\n").repeat(64);
        }
    }
    text += &rng.word(&[" ", "\r", "\t"]).repeat(count - text.len() - 2);
    text += rng.word(&["\n}", "\n}", "} ", "\n,"]);
    ask(rng, text, "/p", "/a")
}

/// As many lines as can be.
fn text_lines(rng: &mut Rng, past: usize) -> Request {
    let end = rng.word(&["", "x", "@{A}=", "/p{", "profile", "#include", "\0"]);
    let text = "\n".repeat(65_535 + past - end.len()) + end;
    ask(rng, text, "/p", "/a")
}

/// A line as long as can be; most are refused at the text's end.
fn text_columns(rng: &mut Rng, past: usize) -> Request {
    let ends = ["/p{", "profile", "/p{/a", "@{A}", "@{1}=x", "/p{/a r,q"];
    let (end, blank) = (rng.word(&ends), rng.word(&[" ", "\r", "\t"]));
    let text = blank.repeat(65_535 + past - end.len()) + end;
    ask(rng, text, "/p", "/a")
}

/// "Four variables of four values in one pattern pass (256); five don't."
fn expansions_by_variables(rng: &mut Rng, past: usize) -> Request {
    let mut text = String::new();
    let mut pattern = String::from("/");
    for index in 0..4 + past {
        text += &format!("@{{V{index}}}=a b c d\n");
        pattern += &format!("@{{V{index}}}");
    }
    text += &format!("/p{{ {pattern} rix, }}");
    let path = rng.word(&["/abcd", "/dddd", "/aaaaa", "/abc"]);
    ask(rng, text, "/p", path)
}

/// 256 alternatives, or eight choices of two; equal ones count.
fn expansions_by_choices(rng: &mut Rng, past: usize) -> Request {
    let pattern = match rng.below(3) {
        0 => format!("/{{{}x}}", ",".repeat(255 + past)),
        1 => format!("/{}", "{a,b}".repeat(8 + past)),
        _ => format!("/{{{}{}}}", "a,".repeat(255 + past), "x"),
    };
    let path = rng.word(&["/", "/x", "/a", "/abababab", "/ababababa"]);
    ask(rng, format!("/p{{ {pattern} rix, }}"), "/p", path)
}

/// Sixteen values of sixteen, and one alternative more.
fn expansions_by_values(rng: &mut Rng, past: usize) -> Request {
    let mut text = String::from("@{A}=");
    for index in 0..16 {
        text += &format!("/{index} ");
    }
    text += &format!("\n@{{B}}={}\n", "@{A}/b ".repeat(16));
    let many = rng.word(&["@{A}@{A}", "@{B}"]);
    let pattern = if past > 0 {
        format!("{{{many},/y}}")
    } else {
        many.into()
    };
    text += &format!("/p{{ {pattern} rpx, {{@{{A}},/y}} k, }}");
    let path = rng.word(&["/7/3", "/15/b", "/y", "/1"]);
    ask(rng, text, "/p", path)
}

/// Each variable squares the last: 2, 4, 16, 256, 65,536, past all integers.
fn expansions_squared(rng: &mut Rng, past: usize) -> Request {
    let mut text = String::from("@{V0}=a b\n");
    for index in 1..12 {
        let last = index - 1;
        text += &format!("@{{V{index}}}=@{{V{last}}}@{{V{last}}}\n");
    }
    let used = if past > 0 {
        rng.between(4, 11)
    } else {
        rng.between(0, 3)
    };
    text += &format!("/p{{\n/@{{V{used}}} rix, }}");
    let path = rng.word(&["/a", "/ab", "/abba", "/abababab"]);
    ask(rng, text, "/p", path)
}

/// 1,024 pieces, before slashes join, in the longest expansion.
fn pieces(rng: &mut Rng, past: usize) -> Request {
    let value = format!("/{}", "a".repeat(999));
    let more = 24 + past;
    let (end, path_end) = match rng.below(4) {
        0 => ("b".repeat(more), "b".repeat(more)),
        1 => ("/".repeat(more), "/".into()),
        2 => (format!("{}*", "\\/".repeat(more - 1)), "/x".into()),
        _ => ("[b]".repeat(more), "b".repeat(more)),
    };
    let values = rng.word(&["@", "/s @", "@ /s"]).replace('@', &value);
    let start = rng.word(&["@{A}", "{/s,@{A}}", "{@{A},/s}"]);
    let text = format!("@{{A}}={values}\n/p{{ {start}{end} rpx -> t, }}");
    let head = if rng.percent(80) { &value } else { "/s" };
    ask(rng, text, "/p", &format!("{head}{path_end}"))
}

/// Each variable is many times as long as the last.
fn pieces_multiplied(rng: &mut Rng, past: usize) -> Request {
    let times = *rng.pick(&[2, 4, 16, 32, 256]);
    let mut text = String::from("@{A}=/\n");
    let names: Vec<char> = ('A'..='Z').collect();
    let mut length = 1usize;
    let mut used = 'A';
    for pair in names.windows(2) {
        let value = format!("@{{{}}}", pair[0]).repeat(times);
        text += &format!("@{{{}}}={value}\n", pair[1]);
        length = length.saturating_mul(times);
        if length <= 1_024 || past > 0 && rng.coin() {
            used = pair[1];
        }
    }
    text += &format!("/p{{\n@{{{used}}}a rix, }}");
    ask(rng, text, "/p", "/a")
}

/// "Path 4,095 passes, 4,096 is 2."
fn path_bytes(rng: &mut Rng, past: usize) -> Request {
    let count = 4_095 + past;
    let unit = rng.word(&["/a", "a", "/aaa"]);
    let mut path = format!("/{}", unit.repeat(count)).replacen("//", "/", 1);
    path.truncate(count);
    let text = "/p{ /* r, /** w, /**a* k, /a[^b]**a px, /?** m, audit /**/a l, }";
    ask(rng, text.into(), "/p", &path)
}

/// Patterns that would take for ever by trying.
fn many_stars(rng: &mut Rng, past: usize) -> Request {
    let star = rng.word(&["**a", "*a", "**", "*?", "**[a-c]", "{*,**}a"]);
    let times = if star.starts_with('{') { 6 } else { 20 };
    let end = rng.word(&["", "b", "/"]);
    let text = format!("/p{{ /{}{end} rix, }}", star.repeat(times));
    let path = format!("/{}{}", "a".repeat(rng.between(15, 300)), ["", "b"][past]);
    ask(rng, text, "/p", &path)
}

//! Valid texts, as tokens with the gaps between them.

use super::pattern::{self, Nodes, Variable};
use super::rng::Rng;

/// What stands between a token and the next.
#[derive(Clone, Copy)]
pub enum Gap {
    /// Blanks, LFs and comments, at least one.
    Some,
    /// The same, or nothing.
    Any,
    /// Blanks in the line, at least one.
    SomeInLine,
    /// The same, or nothing.
    AnyInLine,
    /// The line's end.
    Line,
}

#[derive(Clone)]
pub struct Token {
    pub bytes: Vec<u8>,
    pub gap: Gap,
}

/// A text in tokens, and what requests are made from.
#[derive(Default)]
pub struct Draft {
    pub tokens: Vec<Token>,
    pub names: Vec<Vec<u8>>,
    pub variables: Vec<Variable>,
    /// Patterns with the index of their profile.
    pub patterns: Vec<(usize, Nodes)>,
}

pub const MODES: [&str; 15] = [
    "ux", "Ux", "px", "Px", "cx", "Cx", "ix", "pix", "Pix", "cix", "Cix", "pux", "PUx", "cux",
    "CUx",
];

const VARIABLES: [&str; 8] = ["A", "B", "RUN", "H", "x_", "a1", "AA", "Z_9z"];
const NAMES: [&str; 12] = [
    "p", "q", "step", "0", "/p", "/p.q", "/", "a+b-c", "profile", "audit", "x_1", "/bin/a",
];
const SPACED: [&str; 4] = ["q q", "/p q", "a ", "/ x"];

impl Draft {
    pub fn new(rng: &mut Rng) -> Draft {
        let mut draft = Draft::default();
        if rng.percent(60) {
            draft.preamble(rng);
        }
        let profiles = match rng.below(10) {
            0 if rng.coin() => 0,
            0..=6 => 1,
            7 | 8 => 2,
            _ => 4,
        };
        for _ in 0..profiles {
            draft.profile(rng);
        }
        draft
    }

    fn push(&mut self, bytes: impl AsRef<[u8]>, gap: Gap) {
        let bytes = bytes.as_ref().to_vec();
        self.tokens.push(Token { bytes, gap });
    }

    fn preamble(&mut self, rng: &mut Rng) {
        for _ in 0..rng.between(1, 4) {
            let name = rng.word(&VARIABLES);
            let known = self.variables.iter().position(|v| v.name == name);
            let index = known.unwrap_or(self.variables.len());
            if known.is_none() {
                let (name, values) = (name.into(), Vec::new());
                self.variables.push(Variable { name, values });
            }
            self.push(format!("@{{{name}}}"), Gap::AnyInLine);
            self.push(if known.is_some() { "+=" } else { "=" }, Gap::AnyInLine);
            let values = rng.between(1, 3);
            for _ in 0..values {
                self.value(rng, index);
            }
            if let Some(last) = self.tokens.last_mut() {
                last.gap = Gap::Line;
            }
        }
    }

    fn value(&mut self, rng: &mut Rng, index: usize) {
        let nodes = pattern::value(rng, index);
        let quoted = rng.percent(25);
        let written = pattern::write(rng, &nodes, &self.variables, quoted);
        self.variables[index].values.push(nodes);
        self.push_quoted(&written, quoted, Gap::AnyInLine, Gap::SomeInLine);
    }

    /// A token in quotes or not, each with its own gap.
    fn push_quoted(&mut self, written: &[u8], quoted: bool, inside: Gap, bare: Gap) {
        if quoted {
            self.push([b"\"", written, b"\""].concat(), inside);
        } else {
            self.push(written, bare);
        }
    }

    fn profile(&mut self, rng: &mut Rng) {
        let spaced = rng.percent(10);
        let name = rng.word(if spaced { &SPACED } else { &NAMES });
        if !name.starts_with('/') || rng.coin() {
            self.push("profile", Gap::Some);
        }
        // An unquoted name may touch the brace.
        let quoted = spaced || rng.percent(15);
        self.push_quoted(name.as_bytes(), quoted, Gap::Any, Gap::Any);
        self.push("{", Gap::Any);
        self.names.push(name.into());
        let rules = if rng.percent(8) { 0 } else { rng.between(1, 7) };
        for _ in 0..rules {
            self.rule(rng);
        }
        self.push("}", Gap::Any);
    }

    fn rule(&mut self, rng: &mut Rng) {
        if rng.percent(35) {
            self.push("audit", Gap::Some);
        }
        let deny = rng.percent(20);
        if deny {
            self.push("deny", Gap::Some);
        } else if rng.percent(10) {
            self.push("allow", Gap::Some);
        }
        if rng.percent(25) {
            self.push("owner", Gap::Some);
        }
        let nodes = self.nodes(rng);
        let quoted = rng.percent(15);
        let written = pattern::write(rng, &nodes, &self.variables, quoted);
        self.push_quoted(&written, quoted, Gap::Any, Gap::Some);
        self.patterns.push((self.names.len() - 1, nodes));
        self.perms(rng, deny);
        self.push(",", Gap::Any);
    }

    /// A new pattern, or an old one so that rules meet.
    fn nodes(&mut self, rng: &mut Rng) -> Nodes {
        if !self.patterns.is_empty() && rng.percent(45) {
            return rng.pick(&self.patterns).1.clone();
        }
        pattern::pattern(rng, &self.variables)
    }

    fn perms(&mut self, rng: &mut Rng, deny: bool) {
        let letters: &[u8] = if rng.coin() { b"rwmlk" } else { b"ramlk" };
        let mut written = Vec::new();
        for _ in 0..rng.below(6) {
            written.push(*rng.pick(letters));
        }
        let mut targets = false;
        if written.is_empty() || rng.percent(45) {
            let mode = if deny { "x" } else { rng.word(&MODES) };
            let at = rng.below(written.len() + 1);
            written.splice(at..at, mode.bytes());
            targets = mode.starts_with(['p', 'P', 'c', 'C']);
        }
        if !targets || rng.coin() {
            self.push(written, Gap::Any);
            return;
        }
        self.push(written, Gap::Some);
        self.push("->", Gap::Any);
        let target = rng.word(&["t", "t", "tool", "t u", "/bin/x", "0-+._"]);
        let quoted = target.contains(' ') || rng.percent(20);
        self.push_quoted(target.as_bytes(), quoted, Gap::Any, Gap::Any);
    }

    pub fn text(&self, rng: &mut Rng) -> Vec<u8> {
        // Most texts are small; long gaps are for some of them.
        let plain = rng.coin();
        let mut text = Vec::new();
        for token in &self.tokens {
            text.extend(&token.bytes);
            text.extend(gap(rng, token.gap, plain).as_bytes());
        }
        text
    }
}

fn gap(rng: &mut Rng, gap: Gap, plain: bool) -> &'static str {
    const BLANKS: [&str; 4] = [" ", "\t", "\r", "  "];
    const GAPS: [&str; 12] = [
        " ",
        "\t",
        "\n",
        "\r\n",
        " ",
        "  ",
        "\n\n",
        "\n  ",
        "#c\n",
        " # c\r\n ",
        "##include\n",
        "# \"{,}\n\n",
    ];
    match gap {
        Gap::Any | Gap::AnyInLine if rng.coin() => "",
        Gap::Line if plain => "\n",
        Gap::Line => rng.word(&["\n", "\r\n", " \n", "\t# c\n", "#\n", "\n\n", "\n #c\n"]),
        Gap::Some | Gap::Any if plain => rng.word(&[" ", " ", "\n"]),
        Gap::Some | Gap::Any => rng.word(&GAPS),
        Gap::SomeInLine | Gap::AnyInLine => rng.word(&BLANKS),
    }
}

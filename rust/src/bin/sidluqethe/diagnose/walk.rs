//! A walk over the tokens of a text up to the place of a refusal.
//!
//! All before that place is well formed, so the walk need not judge it: it
//! keeps what is wanted next and what was seen. Of any other text or place it
//! says something too; it never fails.

/// What is wanted where the walk stands.
#[derive(Clone, Copy, Debug, PartialEq, Eq)]
pub enum Wanted {
    /// An assignment or a profile's head.
    Statement,
    /// A name, after the word `profile`.
    Name,
    /// `{`, after a name.
    Opening,
    /// `=` or `+=`, after `@{NAME}`.
    Operator,
    /// A value, or the line's end after the first.
    Value,
    /// A rule or `}`.
    Rule,
    /// A pattern, after qualifiers or none.
    Pattern,
    /// Permissions, after a pattern.
    Perms,
    /// `->` or `,`, after permissions.
    Tail,
    /// A target, after `->`.
    Target,
    /// `,`, after a target.
    Comma,
}

/// A token and its place; of a quoted one the bytes between the quotes.
#[derive(Clone, Copy, Debug)]
pub struct Token<'a> {
    pub at: usize,
    pub end: usize,
    pub bytes: &'a [u8],
    pub quoted: bool,
    /// Whether a quoted one has its closing quote.
    pub closed: bool,
}

/// A variable that was assigned to.
pub struct Variable<'a> {
    pub name: Token<'a>,
    pub values: Vec<Token<'a>>,
}

/// What was seen of a rule.
#[derive(Clone, Copy, Default)]
pub struct RuleSeen<'a> {
    pub at: usize,
    /// How many kinds of qualifiers may not follow any more.
    level: usize,
    pub deny: bool,
    pub pattern: Option<Token<'a>>,
    pub perms: Option<Token<'a>>,
    pub target: Option<Token<'a>>,
}

pub struct Walk<'a> {
    pub text: &'a [u8],
    /// Where the walk has come to: the offending token's first byte, the `@{`
    /// of a variable's name.
    pub at: usize,
    pub wanted: Wanted,
    pub variables: Vec<Variable<'a>>,
    /// The variable that values are given to.
    pub variable: usize,
    /// The name of the assignment that has no operator yet.
    pub assigned: Option<Token<'a>>,
    pub profiles: Vec<Token<'a>>,
    /// How many patterns of rules were passed.
    pub rules: usize,
    pub rule: RuleSeen<'a>,
}

/// Walks to a place.
pub fn walk(text: &[u8], place: usize) -> Walk<'_> {
    let mut walk = Walk {
        text,
        at: 0,
        wanted: Wanted::Statement,
        variables: Vec::new(),
        variable: 0,
        assigned: None,
        profiles: Vec::new(),
        rules: 0,
        rule: RuleSeen::default(),
    };
    while walk.step(place.min(text.len())) {}
    walk
}

pub fn is_blank(byte: u8) -> bool {
    matches!(byte, b' ' | b'\t' | b'\r' | b'\n')
}

impl<'a> Walk<'a> {
    /// The bytes from a place on; none beyond the end.
    pub fn rest(&self, at: usize) -> &'a [u8] {
        self.text.get(at..).unwrap_or_default()
    }

    pub fn stands(&self, mark: &[u8]) -> bool {
        self.rest(self.at).starts_with(mark)
    }

    /// The bytes at a place up to a blank, `#`, NUL or one of the ends.
    pub fn run(&self, at: usize, ends: &[u8]) -> &'a [u8] {
        let rest = self.rest(at);
        let stop = |b: &u8| is_blank(*b) || matches!(*b, b'#' | 0) || ends.contains(b);
        &rest[..rest.iter().position(stop).unwrap_or(rest.len())]
    }

    /// The token at a place. One that begins with an end is empty.
    pub fn token(&self, at: usize, ends: &[u8]) -> Token<'a> {
        if self.rest(at).starts_with(b"\"") {
            return self.quoted(at);
        }
        let bytes = self.run(at, ends);
        Token {
            at,
            end: at + bytes.len(),
            bytes,
            quoted: false,
            closed: true,
        }
    }

    fn quoted(&self, at: usize) -> Token<'a> {
        let inside = self.rest(at + 1);
        let stop = |b: &u8| matches!(*b, b'"' | b'\n' | 0);
        let length = inside.iter().position(stop).unwrap_or(inside.len());
        let closed = inside.get(length) == Some(&b'"');
        Token {
            at,
            end: at + 1 + length + usize::from(closed),
            bytes: &inside[..length],
            quoted: true,
            closed,
        }
    }

    /// The place of the next token over blanks and comments.
    pub fn next_token(&self, mut at: usize) -> usize {
        while let Some(&byte) = self.rest(at).first() {
            if byte == b'#' {
                let rest = self.rest(at);
                at += rest.iter().position(|b| *b == b'\n').unwrap_or(rest.len());
            } else if is_blank(byte) {
                at += 1;
            } else {
                break;
            }
        }
        at
    }

    /// Whether the walk can go on before the place.
    fn skip(&mut self, place: usize) -> bool {
        let next = match self.wanted {
            Wanted::Value => {
                let blank = |b: &&u8| is_blank(**b) && **b != b'\n';
                self.at + self.rest(self.at).iter().take_while(blank).count()
            }
            _ => self.next_token(self.at),
        };
        // A comment may hold the place: `#include`, NUL.
        self.at = next.min(place);
        self.at < place
    }

    /// One token on; whether there is more to walk.
    fn step(&mut self, place: usize) -> bool {
        if !self.skip(place) {
            return false;
        }
        match self.wanted {
            Wanted::Statement => self.statement(place),
            Wanted::Name => self.name(place),
            Wanted::Opening => self.mark(b"{", place, Wanted::Rule),
            Wanted::Operator => self.operator(place),
            Wanted::Value => self.value(place),
            Wanted::Rule => self.rule(place),
            Wanted::Pattern => self.pattern(place),
            Wanted::Perms => self.perms(place),
            Wanted::Tail if self.stands(b"->") => self.mark(b"->", place, Wanted::Target),
            Wanted::Tail | Wanted::Comma => self.mark(b",", place, Wanted::Rule),
            Wanted::Target => self.target(place),
        }
    }

    /// Goes behind a token that ends before the place.
    fn pass(&mut self, end: usize, place: usize, wanted: Wanted) -> bool {
        if end <= self.at || end > place {
            return false;
        }
        self.at = end;
        self.wanted = wanted;
        true
    }

    fn mark(&mut self, mark: &[u8], place: usize, wanted: Wanted) -> bool {
        self.stands(mark) && self.pass(self.at + mark.len(), place, wanted)
    }

    fn statement(&mut self, place: usize) -> bool {
        if self.stands(b"@{") {
            let name = self.variable_name(self.at);
            let whole = self.rest(name.end).starts_with(b"}");
            let passed = whole && self.pass(name.end + 1, place, Wanted::Operator);
            self.assigned = Some(name).filter(|_| passed);
            return passed;
        }
        if self.stands(b"/") || self.stands(b"\"/") {
            return self.name(place);
        }
        self.run(self.at, b"") == b"profile" && self.pass(self.at + 7, place, Wanted::Name)
    }

    /// The name behind the `@{` at a place.
    pub fn variable_name(&self, at: usize) -> Token<'a> {
        let bytes = self.run(at + 2, b"}");
        Token {
            at: at + 2,
            end: at + 2 + bytes.len(),
            bytes,
            quoted: false,
            closed: true,
        }
    }

    fn name(&mut self, place: usize) -> bool {
        let name = self.token(self.at, b"{");
        let passed = self.pass(name.end, place, Wanted::Opening);
        if passed {
            self.profiles.push(name);
        }
        passed
    }

    fn operator(&mut self, place: usize) -> bool {
        let mark: &[u8] = if self.stands(b"+=") { b"+=" } else { b"=" };
        let passed = self.mark(mark, place, Wanted::Value);
        let Some(name) = self.assigned.take().filter(|_| passed) else {
            return false;
        };
        let known = self.set(name.bytes);
        self.variable = known.unwrap_or(self.variables.len());
        if known.is_none() {
            let values = Vec::new();
            self.variables.push(Variable { name, values });
        }
        true
    }

    /// Which variable has this name.
    pub fn set(&self, name: &[u8]) -> Option<usize> {
        self.variables.iter().position(|v| v.name.bytes == name)
    }

    fn value(&mut self, place: usize) -> bool {
        if self.stands(b"\n") || self.stands(b"#") {
            self.wanted = Wanted::Statement;
            return true;
        }
        let value = self.token(self.at, b"");
        let passed = self.pass(value.end, place, Wanted::Value);
        if passed {
            self.variables[self.variable].values.push(value);
        }
        passed
    }

    fn rule(&mut self, place: usize) -> bool {
        if self.stands(b"}") {
            return self.mark(b"}", place, Wanted::Statement);
        }
        self.rule = RuleSeen {
            at: self.at,
            ..RuleSeen::default()
        };
        self.wanted = Wanted::Pattern;
        true
    }

    fn pattern(&mut self, place: usize) -> bool {
        let word = self.run(self.at, b"");
        let level = level(word);
        if level > self.rule.level {
            let passed = self.pass(self.at + word.len(), place, Wanted::Pattern);
            if passed {
                self.rule.level = level;
                self.rule.deny |= word == b"deny";
            }
            return passed;
        }
        let pattern = self.token(self.at, b"");
        let passed = self.pass(pattern.end, place, Wanted::Perms);
        if passed {
            self.rule.pattern = Some(pattern);
            self.rules += 1;
        }
        passed
    }

    fn perms(&mut self, place: usize) -> bool {
        let perms = self.token(self.at, b",");
        let passed = self.pass(perms.end, place, Wanted::Tail);
        self.rule.perms = Some(perms).filter(|_| passed);
        passed
    }

    fn target(&mut self, place: usize) -> bool {
        let target = self.token(self.at, b",");
        let passed = self.pass(target.end, place, Wanted::Comma);
        self.rule.target = Some(target).filter(|_| passed);
        passed
    }
}

/// The place of a qualifier in a rule's order; 0 for another word.
pub fn level(word: &[u8]) -> usize {
    match word {
        b"audit" => 1,
        b"allow" | b"deny" => 2,
        b"owner" => 3,
        _ => 0,
    }
}

//! What may be read of memory that a text has filled.

use crate::ffi;

/// Where the profiles start in memory, and where the counts stand.
const PROFILES: usize = 1_120;
const VARIABLE_COUNT: usize = 1_248;
const PROFILE_COUNT: usize = 1_249;
const RULE_COUNT: usize = 1_250;

/// A text and what was read of it.
#[derive(Clone, Copy)]
pub(crate) struct Table<'a> {
    pub(crate) text: &'a [u8],
    pub(crate) memory: &'a [u64],
}

/// A token's bytes in the text, its quotes aside.
#[derive(Clone, Copy)]
pub(crate) struct Span {
    pub(crate) from: usize,
    pub(crate) end: usize,
}

impl<'a> Table<'a> {
    pub(crate) fn variable_count(self) -> usize {
        cell(self.memory, VARIABLE_COUNT)
    }

    pub(crate) fn profile_count(self) -> usize {
        cell(self.memory, PROFILE_COUNT)
    }

    pub(crate) fn rule_count(self) -> usize {
        cell(self.memory, RULE_COUNT)
    }

    /// The name of a profile.
    pub(crate) fn name(self, profile: usize) -> Span {
        self.span(PROFILES + 4 * profile)
    }

    /// A word of a rule's record.
    pub(crate) fn word(self, rule: usize, word: usize) -> u64 {
        self.memory[ffi::HEAD + ffi::RULE * rule + word]
    }

    /// The number of a rule's profile.
    pub(crate) fn profile_of(self, rule: usize) -> usize {
        cell(self.memory, ffi::HEAD + ffi::RULE * rule)
    }

    pub(crate) fn pattern(self, rule: usize) -> Span {
        self.span(ffi::HEAD + ffi::RULE * rule + 5)
    }

    pub(crate) fn target(self, rule: usize) -> Option<Span> {
        let span = self.span(ffi::HEAD + ffi::RULE * rule + 7);
        (span.from < span.end).then_some(span)
    }

    pub(crate) fn bytes(self, span: Span) -> &'a [u8] {
        &self.text[span.from..span.end]
    }

    /// The place of the token's first byte, its opening quote where quoted.
    pub(crate) fn first(self, span: Span) -> usize {
        span.from - usize::from(self.is_quoted(span))
    }

    /// The place behind the token, behind its closing quote where quoted.
    pub(crate) fn behind(self, span: Span) -> usize {
        span.end + usize::from(self.is_quoted(span))
    }

    /// A quote never stands before an unquoted token: a blank or another mark
    /// parts it from the token before.
    fn is_quoted(self, span: Span) -> bool {
        span.from > 0 && self.text[span.from - 1] == b'"'
    }

    fn span(self, at: usize) -> Span {
        Span {
            from: cell(self.memory, at),
            end: cell(self.memory, at + 1),
        }
    }
}

/// A word that is a place or a count.
fn cell(memory: &[u64], at: usize) -> usize {
    usize::try_from(memory[at]).expect("a place in a text")
}

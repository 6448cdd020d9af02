//! Standard output and standard error. A write that fails is kept as an
//! error, never a panic.

use crate::escape::widest;
use std::io::{self, IsTerminal, Write};

/// Everything was granted, accepted or explained.
pub const GRANTED: u8 = 0;
/// Something that was asked for is refused.
pub const REFUSED: u8 = 1;
/// The text or the call is refused.
pub const BAD: u8 = 2;
/// A file could not be read, or the answer not be written.
pub const UNREADABLE: u8 = 3;

#[derive(Default)]
pub struct Output {
    failure: Option<io::Error>,
}

impl Output {
    /// An answer in words.
    pub fn answer(&mut self, words: &str) {
        match io::stdout().is_terminal() {
            true => self.write(&fold(words)),
            false => self.write(words),
        }
    }

    /// An object on its line.
    pub fn object(&mut self, json: &str) {
        self.write(json);
    }

    fn write(&mut self, text: &str) {
        if self.failure.is_some() {
            return;
        }
        let mut out = io::stdout().lock();
        let written = out.write_all(text.as_bytes()).and_then(|()| out.flush());
        self.failure = written.err();
    }

    /// A refusal or an error in words. Where these can't be written, the exit
    /// status is all that is left.
    pub fn error(&mut self, words: &str) {
        let mut err = io::stderr().lock();
        let _ = match err.is_terminal() {
            true => err.write_all(fold(words).as_bytes()),
            false => err.write_all(words.as_bytes()),
        };
    }

    /// The exit status: that of what was done, or that of a failed write.
    pub fn finish(mut self, status: u8) -> u8 {
        let Some(failure) = self.failure.take() else {
            return status;
        };
        // A reader that has gone away knows.
        if failure.kind() != io::ErrorKind::BrokenPipe {
            self.error(&format!("sidluqethe: standard output: {failure}\n"));
        }
        UNREADABLE
    }
}

/// The columns that are filled, and what begins a line that goes on.
const COLUMNS: usize = 79;
const GUTTER: &str = "      | ";

/// Breaks long lines, so that no terminal breaks them where a profile wants it
/// to: what comes behind a break has a gutter before it.
fn fold(words: &str) -> String {
    let lines = words.split_inclusive('\n').map(fold_line);
    lines.collect()
}

fn fold_line(line: &str) -> String {
    let mut folded = String::new();
    let mut rest = line;
    let mut room = COLUMNS;
    while widest(rest.trim_end_matches('\n')) > room {
        let cut = cut(rest, room);
        folded += &rest[..cut];
        folded += "\n";
        folded += GUTTER;
        rest = &rest[cut..];
        room = COLUMNS - GUTTER.len();
    }
    folded + rest
}

/// Where to break: behind a space in the last part of what fits, else at the
/// end of what fits.
fn cut(line: &str, room: usize) -> usize {
    let (mut space, mut end, mut used) = (0, 0, 0);
    for (at, c) in line.char_indices() {
        let width = if c.is_ascii() { 1 } else { 2 };
        if used + width > room {
            break;
        }
        used += width;
        end = at + c.len_utf8();
        if c == ' ' && used > room / 2 {
            space = end;
        }
    }
    match space {
        0 => end,
        _ => space,
    }
}

#[cfg(test)]
mod tests {
    use super::*;

    #[test]
    fn short_lines_stay() {
        let words = format!("a\n\n{}\nb", "x".repeat(79));
        assert_eq!(fold(&words), words);
    }

    #[test]
    fn long_lines_go_on_behind_a_gutter() {
        for part in ["x", "word ", "é", "granted   read ", "漢字"] {
            let line = part.repeat(100) + "\n";
            let folded = fold(&line);
            let mut joined = String::new();
            for (i, row) in folded.lines().enumerate() {
                assert!(widest(row) <= COLUMNS, "{row}");
                let gutter = if i == 0 { "" } else { GUTTER };
                joined += row.strip_prefix(gutter).expect("a gutter");
            }
            assert_eq!(joined + "\n", line);
        }
    }
}

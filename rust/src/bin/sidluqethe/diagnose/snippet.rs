//! The line of a refusal, with its number in a gutter and a caret below.

use crate::escape::{units, widest, Unit};

/// How many columns of a line are shown at most, and how many of them before
/// the caret: with the gutter and the dots less than 80, so that no terminal
/// breaks the line where a profile wants it to.
const MOST: usize = 65;
const BEFORE: usize = 40;

/// Two lines, each with its LF.
pub fn snippet(text: &[u8], line: u32, column: u32) -> String {
    let start = line_start(text, line);
    let end = line_end(text, start);
    let units = units(&text[start..end]);
    let offset = (column as usize).saturating_sub(1);
    let caret = units.iter().position(|u| offset < u.at + u.length);
    let caret = caret.unwrap_or(units.len());
    let (first, last) = window(&units, caret);
    let head = if first > 0 { "..." } else { "" };
    let tail = if last < units.len() { "..." } else { "" };
    let shown: String = units[first..last].iter().map(|u| &u.shown[..]).collect();
    let before: String = units[first..caret].iter().map(|u| &u.shown[..]).collect();
    let indent = head.len() + before.chars().map(columns).sum::<usize>();
    let line = format!("{line:>5} | {head}{shown}{tail}");
    format!("{}\n{:5} | {:indent$}^\n", line.trim_end(), "", "")
}

/// The place of a line and column, at most the text's end.
pub fn place(text: &[u8], line: u32, column: u32) -> usize {
    let start = line_start(text, line);
    let place = start.saturating_add((column as usize).saturating_sub(1));
    place.min(text.len())
}

/// The line of a place.
pub fn line_of(text: &[u8], place: usize) -> usize {
    1 + text[..place].iter().filter(|b| **b == b'\n').count()
}

/// The column of a place.
pub fn column_of(text: &[u8], place: usize) -> usize {
    let before = &text[..place];
    let start = before
        .iter()
        .rposition(|b| *b == b'\n')
        .map_or(0, |i| i + 1);
    1 + place - start
}

/// Where a line starts; lines count from 1.
fn line_start(text: &[u8], line: u32) -> usize {
    let before = (line as usize).saturating_sub(1);
    let lengths = text.split(|b| *b == b'\n').map(|line| line.len() + 1);
    let start: usize = lengths.take(before).sum();
    start.min(text.len())
}

fn line_end(text: &[u8], start: usize) -> usize {
    let rest = &text[start..];
    let length = rest.iter().position(|b| *b == b'\n');
    start + length.unwrap_or(rest.len())
}

/// The units that are shown: from the first, up to the last.
fn window(units: &[Unit], caret: usize) -> (usize, usize) {
    if width(units) <= MOST {
        return (0, units.len());
    }
    let mut first = caret;
    while first > 0 && width(&units[first - 1..caret]) <= BEFORE {
        first -= 1;
    }
    let mut last = caret;
    while last < units.len() && width(&units[first..=last]) <= MOST {
        last += 1;
    }
    (first, last)
}

/// At most so many columns.
fn width(units: &[Unit]) -> usize {
    units.iter().map(|unit| widest(&unit.shown)).sum()
}

/// The columns of a character on most terminals.
fn columns(c: char) -> usize {
    match u32::from(c) {
        // Marks that stand on the letter before them.
        0x300..=0x36f => 0,
        // Letters of East Asia, and pictures.
        0x1100..=0x115f | 0x2e80..=0xa4cf | 0xac00..=0xd7a3 | 0xf900..=0xfaff => 2,
        0xfe30..=0xfe6f | 0xff01..=0xff60 | 0xffe0..=0xffe6 => 2,
        0x1f300..=0x1f64f | 0x1f680..=0x1f6ff | 0x1f900..=0x1f9ff | 0x20000..=0x3fffd => 2,
        _ => 1,
    }
}

#[cfg(test)]
mod tests {
    use super::*;

    #[test]
    fn the_caret_stands_under_the_byte() {
        let text = b"profile p {\n\t/a \x1b rq,\n";
        let shown = snippet(text, 2, 7);
        assert_eq!(shown, "    2 | \\t/a \\x1b rq,\n      |           ^\n");
        let shown = snippet(text, 3, 1);
        assert_eq!(shown, "    3 |\n      | ^\n");
        let shown = snippet(text, 1, 12);
        assert_eq!(shown, "    1 | profile p {\n      |            ^\n");
    }

    #[test]
    fn long_lines_are_cut_around_the_caret() {
        let mut text = vec![b'a'; 500];
        text[249] = b'X';
        let shown = snippet(&text, 1, 250);
        let (line, caret) = shown.split_once('\n').unwrap();
        assert_eq!(line.len(), 8 + 3 + 65 + 3);
        assert_eq!(line.find('X'), caret.find('^'));
        assert!(line.contains("| ...a") && line.ends_with("a..."));
        let shown = snippet(&text, 1, 501);
        assert!(shown.starts_with("    1 | ...aaaa"));
        assert!(!shown.contains("a...\n"));
    }

    #[test]
    fn places_and_columns_agree() {
        let text = b"ab\n\ncd";
        for place_in in 0..=text.len() {
            let (line, column) = (line_of(text, place_in), column_of(text, place_in));
            assert_eq!(place(text, line as u32, column as u32), place_in);
        }
        assert_eq!(place(text, 9, 9), 6);
        assert_eq!(place(b"", 0, 0), 0);
    }
}

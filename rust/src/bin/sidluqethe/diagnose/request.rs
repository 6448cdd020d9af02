//! Refusals that have no place in the text: 1, 2, 3 and 11.

use super::{grouped, listed, Diagnosis};
use crate::escape::quote;

/// Refusal 1. Of a text whose end was not reached so many bytes were read.
pub fn long_text(length: u64, whole: bool) -> Diagnosis {
    let more = if whole { "" } else { "at least " };
    let found = format!("this has {more}{}", grouped(length));
    let wanted = format!("a text of at most 65,535 bytes; {found}");
    let hint = "split it into several files; comments and blanks count too";
    Diagnosis::new(wanted, hint)
}

/// Refusal 2: which of its reasons.
pub fn bad_path(path: &[u8]) -> Diagnosis {
    let double = path.windows(2).position(|pair| pair == b"//");
    let (found, hint) = if path.is_empty() {
        ("it is empty".to_string(), "give the path of a file")
    } else if path[0] != b'/' {
        let found = format!("{} begins with {}", quote(path), quote(&path[..1]));
        (found, "give the whole path, from the root")
    } else if path.contains(&0) {
        let found = format!("{} holds NUL", quote(path));
        (found, "no file's path holds a NUL byte")
    } else if let Some(at) = double {
        let found = format!("`//` stands at byte {} of {}", at + 1, quote(path));
        (found, "write one `/` for `//`: nothing is resolved here")
    } else if path.len() > 4_095 {
        let found = format!("it has {} bytes", grouped(path.len() as u64));
        (found, "4,095 bytes are the most")
    } else {
        return Diagnosis::default();
    };
    let wanted = "a path that begins with `/`, without NUL and `//`, of at most 4,095 bytes";
    Diagnosis::new(format!("{wanted}; {found}"), hint)
}

/// Refusal 3: the number that was asked for.
pub fn not_asked(written: &[u8]) -> Diagnosis {
    let wanted = format!("a number from 1 to 127; it is {}", quote(written));
    let hint = "add up r 1, w 2, a 4, m 8, l 16, k 32, x 64, or write the letters, as in `rw`";
    Diagnosis::new(wanted, hint)
}

/// Refusal 11: the names that the text does have.
pub fn no_profile<'a>(asked: &[u8], names: impl Iterator<Item = &'a [u8]>) -> Diagnosis {
    let names: Vec<&[u8]> = names.collect();
    let close = names.iter().find(|name| is_close(name, asked));
    let hint = match close {
        Some(name) => format!("is {} meant?", quote(name)),
        None => "names are compared byte for byte".to_string(),
    };
    if names.is_empty() {
        let wanted = format!(
            "the name of a profile; the text has none, so no {}",
            quote(asked)
        );
        return Diagnosis::new(wanted, "the text may be cut off, or the wrong file");
    }
    let names = listed(names.into_iter());
    let found = match asked {
        b"" => "the asked name is empty".to_string(),
        _ => format!("{} is none", quote(asked)),
    };
    let wanted = format!("a profile of this file: {names}; {found}");
    Diagnosis::new(wanted, hint)
}

/// Whether two names differ by case, blanks or the `/` in front only.
fn is_close(name: &[u8], asked: &[u8]) -> bool {
    plain(name) == plain(asked)
}

fn plain(name: &[u8]) -> Vec<u8> {
    let kept = |b: &&u8| !b.is_ascii_whitespace() && !b"/\"-_".contains(b);
    let kept = name.iter().filter(kept);
    kept.map(u8::to_ascii_lowercase).collect()
}

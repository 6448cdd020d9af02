//! What a request gets, and how it stands in the archive's bytes.

use crate::{ffi, Mode, Perms, Reason, Refusal};
use std::borrow::Cow;
use std::fmt;

/// The execute part of an answer.
#[derive(Clone, Copy, Debug, PartialEq, Eq, Hash)]
pub enum Execute {
    /// Execute was not asked for.
    NotAsked,
    /// No transition, or execute is denied.
    Denied,
    /// More than one transition.
    Conflict,
    /// The one transition, by this mode.
    ByMode(Mode),
}

impl fmt::Display for Execute {
    /// `not asked`, `denied`, `conflict`, or the mode as a profile writes it.
    fn fmt(&self, f: &mut fmt::Formatter<'_>) -> fmt::Result {
        match self {
            Execute::NotAsked => f.pad("not asked"),
            Execute::Denied => f.pad("denied"),
            Execute::Conflict => f.pad("conflict"),
            Execute::ByMode(mode) => mode.fmt(f),
        }
    }
}

/// What a request gets.
///
/// ```
/// use sidluqethe::{Perms, Policy, Refusal, Request};
///
/// let policy = Policy::read("profile step { /bin/* rpx -> tool, }")?;
/// let asked = Perms::READ | Perms::WRITE | Perms::EXECUTE;
/// let answer = policy.ask(&Request::new("step", "/bin/ls", asked))?;
/// assert!(answer.grants(Perms::READ) && !answer.grants(asked));
/// assert_eq!(
///     answer.to_string(),
///     "granted read, execute; recorded write; execute px to tool"
/// );
/// assert_eq!(answer.fields(), "65\t2\tpx\ttool");
/// # Ok::<(), Refusal>(())
/// ```
#[derive(Clone, Debug, PartialEq, Eq, Hash)]
#[non_exhaustive]
pub struct Answer {
    /// Asked permissions that the step gets.
    pub granted: Perms,
    /// Asked permissions, granted or not, that are recorded.
    pub recorded: Perms,
    /// The execute transition.
    pub execute: Execute,
    /// The transition's target, if it names one.
    pub target: Option<Vec<u8>>,
}

impl Answer {
    /// Whether all of these permissions are granted. Asking for nothing is
    /// refused, so nothing is never granted.
    pub const fn grants(&self, asked: Perms) -> bool {
        !asked.is_empty() && self.granted.contains(asked)
    }

    /// The answer as the program `cases` writes it: granted and recorded as
    /// numbers, execute and target, parted by tabs; `-` where execute is not
    /// asked for, or there is no target.
    pub fn fields(&self) -> String {
        let execute = match self.execute {
            Execute::NotAsked => "-".into(),
            other => other.to_string(),
        };
        let target = self.target.as_deref().map(String::from_utf8_lossy);
        let target = target.unwrap_or(Cow::Borrowed("-"));
        let (granted, recorded) = (self.granted.bits(), self.recorded.bits());
        format!("{granted}\t{recorded}\t{execute}\t{target}")
    }
}

impl fmt::Display for Answer {
    /// The answer in words, in one line.
    fn fmt(&self, f: &mut fmt::Formatter<'_>) -> fmt::Result {
        let (granted, recorded) = (self.granted.names(), self.recorded.names());
        let execute = self.execute;
        write!(
            f,
            "granted {granted}; recorded {recorded}; execute {execute}"
        )?;
        match &self.target {
            Some(target) => write!(f, " to {}", target.escape_ascii()),
            None => Ok(()),
        }
    }
}

/// Reads the archive's answer bytes. What most answers don't have is read
/// elsewhere, so that the rest is put into the caller.
#[inline]
pub(crate) fn decode(raw: &[u8; ffi::ANSWER]) -> Result<Answer, Refusal> {
    if raw[ffi::REFUSAL] != 0 {
        return Err(decode_refusal(raw));
    }
    Ok(Answer {
        granted: Perms::from_bits(raw[ffi::GRANTED]),
        recorded: Perms::from_bits(raw[ffi::RECORDED]),
        execute: decode_execute(raw[ffi::EXECUTE]),
        target: match raw[ffi::TARGET_LENGTH] {
            0 => None,
            length => Some(decode_target(raw, length)),
        },
    })
}

#[cold]
fn decode_refusal(raw: &[u8; ffi::ANSWER]) -> Refusal {
    Refusal {
        reason: decode_reason(raw[ffi::REFUSAL]),
        line: ffi::number(raw, ffi::LINE),
        column: ffi::number(raw, ffi::COLUMN),
    }
}

fn decode_target(raw: &[u8; ffi::ANSWER], length: u8) -> Vec<u8> {
    raw[ffi::TARGET..][..usize::from(length)].to_vec()
}

fn decode_reason(number: u8) -> Reason {
    match Reason::from_number(number) {
        Some(reason) => reason,
        None => panic!("the archive is of another version: refusal {number}"),
    }
}

/// 0, 1 and 2 stand for themselves, then come the modes.
#[inline]
fn decode_execute(number: u8) -> Execute {
    match number {
        0 => Execute::NotAsked,
        1 => Execute::Denied,
        2 => Execute::Conflict,
        _ => decode_mode(number),
    }
}

fn decode_mode(number: u8) -> Execute {
    match Mode::at(usize::from(number) - 3) {
        Some(mode) => Execute::ByMode(mode),
        None => panic!("the archive is of another version: execute {number}"),
    }
}

#[cfg(test)]
mod tests {
    use super::*;

    fn raw(bytes: &[u8]) -> [u8; ffi::ANSWER] {
        let mut raw = [0; ffi::ANSWER];
        raw[..bytes.len()].copy_from_slice(bytes);
        raw
    }

    #[test]
    fn refusals_are_decoded() {
        let bytes = [8, 0, 0, 0, 2, 1, 0, 0, 0, 0, 1, 0];
        let refusal = decode(&raw(&bytes)).unwrap_err();
        let expected = Refusal {
            reason: Reason::BadPermissions,
            line: 258,
            column: 65_536,
        };
        assert_eq!(refusal, expected);
        assert_eq!(
            refusal.to_string(),
            "refused 8 at line 258, column 65536: bad permissions"
        );
    }

    #[test]
    fn a_refusal_without_a_place_names_none() {
        let refusal = decode(&raw(&[2])).unwrap_err();
        assert_eq!((refusal.line, refusal.column), (0, 0));
        assert!(refusal.to_string().starts_with("refused 2: path empty"));
    }

    #[test]
    fn answers_are_decoded() {
        let answer = decode(&raw(b"\0\x40\0\x05\0\0\0\0\0\0\0\0\x04tool")).unwrap();
        assert_eq!(answer.fields(), "64\t0\tpx\ttool");
        assert_eq!(
            answer.to_string(),
            "granted execute; recorded nothing; execute px to tool"
        );
        let answer = decode(&raw(&[0, 1, 2, 0])).unwrap();
        assert_eq!(answer.fields(), "1\t2\t-\t-");
        assert_eq!(
            answer.to_string(),
            "granted read; recorded write; execute not asked"
        );
    }

    #[test]
    fn the_longest_target_is_decoded() {
        let mut bytes = vec![0, 64, 0, 4, 0, 0, 0, 0, 0, 0, 0, 0, 255];
        bytes.extend([b'a'; 255]);
        let target = decode(&raw(&bytes)).unwrap().target.unwrap();
        assert_eq!(target, [b'a'; 255]);
    }

    #[test]
    fn each_mode_has_its_number() {
        let written = "ux Ux px Px cx Cx ix pix Pix cix Cix pux PUx cux CUx";
        for (number, mode) in (3..).zip(written.split(' ')) {
            assert_eq!(decode_execute(number).to_string(), mode);
        }
    }

    #[test]
    #[should_panic(expected = "another version: refusal 12")]
    fn an_unknown_refusal_is_not_passed_on() {
        let _ = decode(&raw(&[12]));
    }

    #[test]
    #[should_panic(expected = "another version: execute 18")]
    fn an_unknown_execute_answer_is_not_passed_on() {
        let _ = decode(&raw(&[0, 64, 0, 18]));
    }
}

//! Why and where a text or a request is refused.

use std::error::Error;
use std::fmt;

/// Why a text or a request is refused.
///
/// ```
/// use sidluqethe::Reason;
///
/// assert_eq!(Reason::from_number(8), Some(Reason::BadPermissions));
/// assert_eq!(Reason::BadPermissions.number(), 8);
/// assert_eq!(Reason::BadPermissions.to_string(), "bad permissions");
/// ```
#[derive(Clone, Copy, Debug, PartialEq, Eq, Hash)]
#[non_exhaustive]
#[repr(u8)]
pub enum Reason {
    /// 1: the text has over 65,535 bytes.
    LongText = 1,
    /// 2: the path is empty, has over 4,095 bytes, does not start with `/`,
    /// or holds NUL or `//`.
    BadPath = 2,
    /// 3: the asked set is 0 or over 127.
    BadAsked = 3,
    /// 4: a token stands where another was wanted, or the text ends there.
    BadForm = 4,
    /// 5: a word of the language that is not taken, such as `capability`.
    NotTaken = 5,
    /// 6: a variable is badly named, set twice, not set, or set too late.
    BadVariable = 6,
    /// 7: a pattern or value has a bad form, or does not begin with `/`.
    BadPattern = 7,
    /// 8: a rule's permissions are none.
    BadPermissions = 8,
    /// 9: the text has too many profiles, rules, variables or values, or a
    /// name, target, pattern or value is too long or has too many expansions.
    TooMuch = 9,
    /// 10: two profiles have the same name.
    UsedTwice = 10,
    /// 11: no profile has the asked name.
    NoProfile = 11,
}

impl Reason {
    /// All reasons, in the order of their numbers. Later versions may have
    /// more.
    pub const ALL: &'static [Reason] = &[
        Reason::LongText,
        Reason::BadPath,
        Reason::BadAsked,
        Reason::BadForm,
        Reason::NotTaken,
        Reason::BadVariable,
        Reason::BadPattern,
        Reason::BadPermissions,
        Reason::TooMuch,
        Reason::UsedTwice,
        Reason::NoProfile,
    ];

    /// Its number, 1 to 11.
    pub const fn number(self) -> u8 {
        self as u8
    }

    /// The reason of this number.
    pub const fn from_number(number: u8) -> Option<Reason> {
        // 0 wraps to a place that is never reached.
        let place = number.wrapping_sub(1) as usize;
        if place < Reason::ALL.len() {
            Some(Reason::ALL[place])
        } else {
            None
        }
    }

    /// When it is given, in a few words.
    pub const fn meaning(self) -> &'static str {
        match self {
            Reason::LongText => "text over 65,535 bytes",
            Reason::BadPath => {
                "path empty, over 4,095 bytes, not starting `/`, holding NUL or `//`"
            }
            Reason::BadAsked => "asked set 0 or over 127",
            Reason::BadForm => "bad form",
            Reason::NotTaken => "word not taken",
            Reason::BadVariable => "bad variable",
            Reason::BadPattern => "bad pattern",
            Reason::BadPermissions => "bad permissions",
            Reason::TooMuch => "a size passed",
            Reason::UsedTwice => "profile name used twice",
            Reason::NoProfile => "no profile with that name",
        }
    }
}

impl fmt::Display for Reason {
    /// Its meaning.
    fn fmt(&self, f: &mut fmt::Formatter<'_>) -> fmt::Result {
        f.pad(self.meaning())
    }
}

/// A refusal: why, and where in the text. It grants nothing, records nothing
/// and names no target.
///
/// ```
/// use sidluqethe::{Policy, Reason};
///
/// let text = "profile step {\n  /data/* r, /tmp/** rq,\n}\n";
/// let refusal = Policy::read(text).unwrap_err();
/// assert_eq!(refusal.reason, Reason::BadPermissions);
/// assert_eq!((refusal.line, refusal.column), (2, 22));
/// assert_eq!(refusal.to_string(), "refused 8 at line 2, column 22: bad permissions");
/// ```
#[derive(Clone, Copy, Debug, PartialEq, Eq, Hash)]
#[non_exhaustive]
pub struct Refusal {
    /// Why.
    pub reason: Reason,
    /// The line of the offending token, from 1; 0 where the refusal is not at
    /// a place in the text: 1, 2, 3 and 11.
    pub line: u32,
    /// The bytes since the last LF before the token's first byte, from 1; at
    /// the text's end, one past the last byte of that line. 0 where the line
    /// is 0.
    pub column: u32,
}

impl Refusal {
    /// The reason's number, 1 to 11.
    pub const fn number(&self) -> u8 {
        self.reason.number()
    }
}

impl fmt::Display for Refusal {
    fn fmt(&self, f: &mut fmt::Formatter<'_>) -> fmt::Result {
        write!(f, "refused {}", self.number())?;
        if self.line != 0 {
            write!(f, " at line {}, column {}", self.line, self.column)?;
        }
        write!(f, ": {}", self.reason)
    }
}

impl Error for Refusal {}

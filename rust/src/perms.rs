//! Sets of permissions.

use std::error::Error;
use std::fmt;
use std::ops::{BitOr, BitOrAssign};
use std::str::FromStr;

/// A set of permissions.
///
/// The sum of the numbers that the seven permissions have. Any byte can be
/// asked for; 0 and numbers over 127 are refused
/// ([`Reason::BadAsked`](crate::Reason::BadAsked)).
///
/// ```
/// use sidluqethe::Perms;
///
/// let asked = Perms::READ | Perms::WRITE;
/// assert_eq!(asked, "rw".parse()?);
/// assert_eq!(asked, "3".parse()?);
/// assert_eq!(asked.to_string(), "rw");
/// assert_eq!(asked.names(), "read, write");
/// assert!(asked.contains(Perms::READ) && !asked.contains(Perms::EXECUTE));
///
/// let error = "rq".parse::<Perms>().unwrap_err();
/// assert!(error.to_string().starts_with("'q' is no permission"));
/// # Ok::<(), sidluqethe::PermsError>(())
/// ```
#[derive(Clone, Copy, Default, PartialEq, Eq, Hash)]
pub struct Perms(u8);

/// The letter and the name of each bit, lowest first; the last is none of the
/// seven permissions.
const BITS: [(char, &str); 8] = [
    ('r', "read"),
    ('w', "write"),
    ('a', "append"),
    ('m', "map"),
    ('l', "link"),
    ('k', "lock"),
    ('x', "execute"),
    ('?', "unknown"),
];

impl Perms {
    /// No permission.
    pub const NONE: Perms = Perms(0);
    /// `r`, 1
    pub const READ: Perms = Perms(1);
    /// `w`, 2
    pub const WRITE: Perms = Perms(2);
    /// `a`, 4
    pub const APPEND: Perms = Perms(4);
    /// `m`, 8: map into memory as code
    pub const MAP: Perms = Perms(8);
    /// `l`, 16: make a hard link of that name
    pub const LINK: Perms = Perms(16);
    /// `k`, 32
    pub const LOCK: Perms = Perms(32);
    /// `x`, 64
    pub const EXECUTE: Perms = Perms(64);

    /// The set of this number. Every byte is taken; 128 stands for no
    /// permission, so that a request with it is refused.
    pub const fn from_bits(bits: u8) -> Perms {
        Perms(bits)
    }

    /// The number of this set.
    pub const fn bits(self) -> u8 {
        self.0
    }

    /// The permissions of either set.
    #[must_use]
    pub const fn union(self, other: Perms) -> Perms {
        Perms(self.0 | other.0)
    }

    /// The permissions of this set that the other lacks.
    #[must_use]
    pub const fn difference(self, other: Perms) -> Perms {
        Perms(self.0 & !other.0)
    }

    /// Whether this set holds all of the other.
    pub const fn contains(self, other: Perms) -> bool {
        self.0 & other.0 == other.0
    }

    /// Whether the set is empty.
    pub const fn is_empty(self) -> bool {
        self.0 == 0
    }

    /// The set in words: `read, write`, or `nothing`.
    pub fn names(self) -> String {
        if self.is_empty() {
            return "nothing".into();
        }
        let names: Vec<&str> = self.held().map(|(_, name)| name).collect();
        names.join(", ")
    }

    /// The letters and names of the bits that it holds.
    fn held(self) -> impl Iterator<Item = (char, &'static str)> {
        let held = move |bit: &usize| self.0 >> bit & 1 == 1;
        (0..BITS.len()).filter(held).map(|bit| BITS[bit])
    }

    /// The permission of this letter.
    fn of_letter(letter: char) -> Option<Perms> {
        let bit = BITS[..7].iter().position(|(known, _)| *known == letter)?;
        Some(Perms(1 << bit))
    }
}

impl BitOr for Perms {
    type Output = Perms;

    /// The permissions of either set.
    fn bitor(self, other: Perms) -> Perms {
        self.union(other)
    }
}

impl BitOrAssign for Perms {
    fn bitor_assign(&mut self, other: Perms) {
        *self = self.union(other);
    }
}

impl fmt::Display for Perms {
    /// Its letters in the order `rwamlkx`; `-` where it is empty.
    fn fmt(&self, f: &mut fmt::Formatter<'_>) -> fmt::Result {
        if self.is_empty() {
            return f.pad("-");
        }
        let letters: String = self.held().map(|(letter, _)| letter).collect();
        f.pad(&letters)
    }
}

impl fmt::Debug for Perms {
    fn fmt(&self, f: &mut fmt::Formatter<'_>) -> fmt::Result {
        write!(f, "Perms({self})")
    }
}

impl FromStr for Perms {
    type Err = PermsError;

    /// Letters of `r w a m l k x`, each however often, or a decimal number
    /// from 1 to 127. The empty set can't be written: it can't be asked for.
    fn from_str(written: &str) -> Result<Perms, PermsError> {
        if written.is_empty() {
            return Err(PermsError(Fault::Empty));
        }
        if written.bytes().all(|byte| byte.is_ascii_digit()) {
            return match written.parse() {
                Ok(bits @ 1..=127) => Ok(Perms(bits)),
                _ => Err(PermsError(Fault::Number(written.into()))),
            };
        }
        let mut set = Perms::NONE;
        for letter in written.chars() {
            set |= Perms::of_letter(letter).ok_or(PermsError(Fault::Letter(letter)))?;
        }
        Ok(set)
    }
}

/// Why a word is no set of permissions that can be asked for.
///
/// Its message names the letter or number that is not taken, and what is.
#[derive(Clone, Debug, PartialEq, Eq)]
pub struct PermsError(Fault);

#[derive(Clone, Debug, PartialEq, Eq)]
enum Fault {
    Empty,
    Letter(char),
    Number(String),
}

impl fmt::Display for PermsError {
    fn fmt(&self, f: &mut fmt::Formatter<'_>) -> fmt::Result {
        match &self.0 {
            Fault::Empty => f.write_str("no permission is given")?,
            // Debug escapes what a terminal could act on.
            Fault::Letter(letter) => write!(f, "{letter:?} is no permission")?,
            Fault::Number(number) => write!(f, "{number} is no set of permissions")?,
        }
        f.write_str("; wanted letters of r w a m l k x, or a number from 1 to 127")
    }
}

impl Error for PermsError {}

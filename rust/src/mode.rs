//! Execute modes.

use std::fmt;

/// What an execute mode leads to.
#[derive(Clone, Copy, Debug, PartialEq, Eq, Hash)]
pub enum Kind {
    /// `ux`: no profile at all.
    Unconfined,
    /// `px`: another profile.
    Profile,
    /// `cx`: a child profile.
    Child,
    /// `ix`: the same profile.
    Inherit,
}

/// What an execute mode does where its profile is missing.
#[derive(Clone, Copy, Debug, PartialEq, Eq, Hash)]
pub enum Fallback {
    /// Nothing to fall back to.
    None,
    /// `pix` and the like: the same profile.
    Inherit,
    /// `pux` and the like: no profile at all.
    Unconfined,
}

/// An execute mode.
///
/// ```
/// use sidluqethe::{Fallback, Kind, Mode};
///
/// let mode = Mode { kind: Kind::Profile, fallback: Fallback::Inherit, scrubs: true };
/// assert_eq!(mode.to_string(), "Pix");
/// ```
#[derive(Clone, Copy, Debug, PartialEq, Eq, Hash)]
pub struct Mode {
    /// What it leads to.
    pub kind: Kind,
    /// What it falls back to.
    pub fallback: Fallback,
    /// Whether the environment is scrubbed.
    pub scrubs: bool,
}

const fn mode(kind: Kind, fallback: Fallback, scrubs: bool) -> Mode {
    Mode {
        kind,
        fallback,
        scrubs,
    }
}

/// The fifteen modes as written, in the order of their numbers in an answer.
const MODES: [(&str, Mode); 15] = [
    ("ux", mode(Kind::Unconfined, Fallback::None, false)),
    ("Ux", mode(Kind::Unconfined, Fallback::None, true)),
    ("px", mode(Kind::Profile, Fallback::None, false)),
    ("Px", mode(Kind::Profile, Fallback::None, true)),
    ("cx", mode(Kind::Child, Fallback::None, false)),
    ("Cx", mode(Kind::Child, Fallback::None, true)),
    ("ix", mode(Kind::Inherit, Fallback::None, false)),
    ("pix", mode(Kind::Profile, Fallback::Inherit, false)),
    ("Pix", mode(Kind::Profile, Fallback::Inherit, true)),
    ("cix", mode(Kind::Child, Fallback::Inherit, false)),
    ("Cix", mode(Kind::Child, Fallback::Inherit, true)),
    ("pux", mode(Kind::Profile, Fallback::Unconfined, false)),
    ("PUx", mode(Kind::Profile, Fallback::Unconfined, true)),
    ("cux", mode(Kind::Child, Fallback::Unconfined, false)),
    ("CUx", mode(Kind::Child, Fallback::Unconfined, true)),
];

impl Mode {
    /// The mode of this place in the order of answers.
    pub(crate) fn at(place: usize) -> Option<Mode> {
        MODES.get(place).map(|(_, mode)| *mode)
    }

    /// The mode of a rule's transition, as its record has it: 0 for none, else
    /// 1 + 2 * scrubs + 4 * kind + 16 * fallback.
    pub(crate) fn of_transition(number: u64) -> Option<Mode> {
        // The library goes by this bit, whatever the others are.
        if number & 1 == 0 {
            return None;
        }
        let kind = match number >> 2 & 3 {
            0 => Kind::Unconfined,
            1 => Kind::Profile,
            2 => Kind::Child,
            _ => Kind::Inherit,
        };
        let fallback = match number >> 4 {
            0 => Fallback::None,
            1 => Fallback::Inherit,
            _ => Fallback::Unconfined,
        };
        Some(mode(kind, fallback, number >> 1 & 1 == 1))
    }
}

impl fmt::Display for Mode {
    /// The mode as a profile writes it; `?` for one that no profile can write.
    fn fmt(&self, f: &mut fmt::Formatter<'_>) -> fmt::Result {
        let written = MODES.iter().find(|(_, mode)| mode == self);
        f.pad(written.map_or("?", |(written, _)| written))
    }
}

#[cfg(test)]
mod tests {
    use super::*;

    #[test]
    fn a_mode_is_read_off_its_letters() {
        for (written, mode) in MODES {
            let scrubs = written.starts_with(|letter: char| letter.is_uppercase());
            assert_eq!(mode.scrubs, scrubs, "{written}");
            let fallback = match written[1..].to_lowercase().as_str() {
                "x" => Fallback::None,
                "ix" => Fallback::Inherit,
                _ => Fallback::Unconfined,
            };
            assert_eq!(mode.fallback, fallback, "{written}");
            let kind = match written[..1].to_lowercase().as_str() {
                "u" => Kind::Unconfined,
                "p" => Kind::Profile,
                "c" => Kind::Child,
                _ => Kind::Inherit,
            };
            assert_eq!(mode.kind, kind, "{written}");
            assert_eq!(mode.to_string(), written);
        }
    }

    #[test]
    fn a_transition_has_its_number() {
        let known = [(1, "ux"), (3, "Ux"), (5, "px"), (13, "ix"), (23, "Pix")];
        for (number, written) in known {
            let mode = Mode::of_transition(number).unwrap();
            assert_eq!(mode.to_string(), written);
        }
        // The lowest bit says whether there is one, as in the library.
        for number in [0, 2, 12, 42] {
            assert_eq!(Mode::of_transition(number), None);
        }
        assert_eq!(Mode::of_transition(43).unwrap().to_string(), "CUx");
    }

    #[test]
    fn a_mode_that_cannot_be_written_is_shown_so() {
        let odd = mode(Kind::Inherit, Fallback::None, true);
        assert_eq!(odd.to_string(), "?");
    }
}

//! Sets of permissions: written, read, joined.

use sidluqethe::{Perms, PermsError};

/// The letters of a set, by its number alone.
fn letters(bits: u8) -> String {
    let letters = "rwamlkx".chars().enumerate();
    let held = letters.filter(|(bit, _)| bits >> bit & 1 == 1);
    held.map(|(_, letter)| letter).collect()
}

#[test]
fn every_set_is_written_and_read_back() {
    assert_eq!(Perms::from_bits(0).to_string(), "-");
    for bits in 1..=127 {
        let set = Perms::from_bits(bits);
        assert_eq!(set.bits(), bits);
        assert_eq!(set.to_string(), letters(bits));
        assert_eq!(set.to_string().parse(), Ok(set));
        assert_eq!(bits.to_string().parse(), Ok(set));
    }
}

/// Nothing can be asked for, so its sign is not read.
#[test]
fn the_empty_set_is_not_read() {
    assert!("-".parse::<Perms>().is_err());
}

#[test]
fn letters_may_stand_in_any_order_and_again() {
    let set = Perms::READ | Perms::WRITE | Perms::EXECUTE;
    for written in ["rwx", "xwr", "wrxxxrw"] {
        assert_eq!(written.parse(), Ok(set));
    }
    assert_eq!("007".parse(), Ok(Perms::from_bits(7)));
}

#[test]
fn what_is_not_taken_is_named() {
    let said = |written: &str| {
        let said = written.parse::<Perms>().unwrap_err().to_string();
        let taken = "; wanted letters of r w a m l k x, or a number from 1 to 127";
        said.strip_suffix(taken).expect(&said).to_string()
    };
    assert_eq!(said(""), "no permission is given");
    for (written, letter) in [
        ("q", "'q'"),
        ("rwq", "'q'"),
        ("R", "'R'"),
        ("px", "'p'"),
        ("+1", "'+'"),
        ("-1", "'-'"),
        ("1r", "'1'"),
        ("r1", "'1'"),
        ("r w", "' '"),
        (" r", "' '"),
        ("?", "'?'"),
        ("é", "'é'"),
        ("r\u{1b}[2J", "'\\u{1b}'"),
        ("\u{202e}r", "'\\u{202e}'"),
    ] {
        assert_eq!(said(written), format!("{letter} is no permission"));
    }
    for number in ["0", "128", "255", "256", "1000", "99999999999999999999"] {
        assert_eq!(said(number), format!("{number} is no set of permissions"));
    }
}

#[test]
fn a_fault_is_an_error() {
    let error: Box<dyn std::error::Error + Send + Sync> =
        Box::new(PermsError::clone(&"q".parse::<Perms>().unwrap_err()));
    assert!(error.to_string().contains("'q'"));
}

#[test]
fn sets_are_joined_and_compared() {
    let mut set = Perms::READ | Perms::LOCK;
    assert_eq!(set.bits(), 33);
    assert!(set.contains(Perms::READ) && !set.contains(Perms::READ | Perms::WRITE));
    assert_eq!(set.difference(Perms::from_bits(3)), Perms::LOCK);
    set |= Perms::WRITE;
    assert_eq!(set, Perms::from_bits(35));
    assert_eq!(set, set.union(Perms::READ));
    assert!(Perms::NONE.is_empty() && !set.is_empty());
    assert_eq!(Perms::default(), Perms::NONE);
    const ALL: Perms = Perms::READ.union(Perms::from_bits(126));
    assert_eq!(ALL.to_string(), "rwamlkx");
}

#[test]
fn sets_are_told_in_words() {
    assert_eq!(Perms::NONE.names(), "nothing");
    assert_eq!(Perms::EXECUTE.names(), "execute");
    assert_eq!(
        Perms::from_bits(127).names(),
        "read, write, append, map, link, lock, execute"
    );
    assert_eq!(format!("{:?}", Perms::from_bits(3)), "Perms(rw)");
    assert_eq!(
        format!("[{:>4}|{:<4}]", Perms::READ, Perms::NONE),
        "[   r|-   ]"
    );
}

/// 128 is no permission; a set with it never looks like one without it.
#[test]
fn the_eighth_bit_is_told() {
    assert_eq!(Perms::from_bits(129).to_string(), "r?");
    assert_eq!(Perms::from_bits(128).names(), "unknown");
    assert!(!Perms::from_bits(128).is_empty());
}

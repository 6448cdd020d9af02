//! Reasons of refusals: their numbers, their meanings, and one text or
//! request for each.

use sidluqethe::{decide, Perms, Policy, Reason, Refusal, Request};
use std::collections::HashSet;

/// Their type does not name their number, so that more may come.
const ALL: &[Reason] = Reason::ALL;

/// Numbers are turned into reasons before a program runs as well.
const EIGHTH: Option<Reason> = Reason::from_number(8);

#[test]
fn reasons_and_numbers_go_together() {
    assert_eq!((ALL.len(), EIGHTH), (11, Some(Reason::BadPermissions)));
    for (number, &reason) in (1..).zip(ALL) {
        assert_eq!(reason.number(), number);
        assert_eq!(Reason::from_number(number), Some(reason));
        assert_eq!(reason as u8, number);
        assert_eq!(reason.to_string(), reason.meaning());
    }
    for number in (0..=255).filter(|number| !(1..=11).contains(number)) {
        assert_eq!(Reason::from_number(number), None);
    }
    let meanings: HashSet<&str> = ALL.iter().map(|reason| reason.meaning()).collect();
    assert_eq!(meanings.len(), 11);
}

#[test]
fn meanings_are_those_of_the_rules() {
    let meanings: Vec<&str> = ALL.iter().map(|reason| reason.meaning()).collect();
    assert_eq!(
        meanings,
        [
            "text over 65,535 bytes",
            "path empty, over 4,095 bytes, not starting `/`, holding NUL or `//`",
            "asked set 0 or over 127",
            "bad form",
            "word not taken",
            "bad variable",
            "bad pattern",
            "bad permissions",
            "a size passed",
            "profile name used twice",
            "no profile with that name",
        ]
    );
}

/// The refusal of a text, or of a request for `/a` to the profile `/p`.
fn refusal(text: &str, path: &str, asked: u8) -> Refusal {
    let request = Request::new("/p", path, Perms::from_bits(asked));
    decide(text.as_bytes(), &request).unwrap_err()
}

#[test]
fn each_reason_is_given() {
    let long = "#".repeat(65_536);
    let pattern = format!("/p {{ /{} r, }}", "a".repeat(1_024));
    for (reason, line, column, text, path, asked) in [
        (Reason::LongText, 0, 0, &long[..], "/a", 1),
        (Reason::BadPath, 0, 0, "/p { /a r, }", "a", 1),
        (Reason::BadAsked, 0, 0, "/p { /a r, }", "/a", 0),
        (Reason::BadAsked, 0, 0, "/p { /a r, }", "/a", 128),
        (Reason::BadForm, 1, 11, "/p { /a r }", "/a", 1),
        (Reason::NotTaken, 2, 1, "/p {\nnetwork, }", "/a", 1),
        (Reason::BadVariable, 1, 6, "/p { /@{A} r, }", "/a", 1),
        (Reason::BadPattern, 1, 6, "/p { /a[ r, }", "/a", 1),
        (Reason::BadPermissions, 1, 9, "/p { /a q, }", "/a", 1),
        (Reason::TooMuch, 1, 6, &pattern, "/a", 1),
        (Reason::UsedTwice, 1, 7, "/p { }/p { }", "/a", 1),
        (Reason::NoProfile, 0, 0, "/q { /a r, }", "/a", 1),
    ] {
        let given = refusal(text, path, asked);
        assert_eq!(
            (given.reason, given.line, given.column),
            (reason, line, column)
        );
        assert_eq!(given.number(), reason.number());
    }
}

#[test]
fn a_refusal_is_told_with_its_place() {
    let given = Policy::read("/p {\n  /a r\n}").unwrap_err();
    assert_eq!(given.to_string(), "refused 4 at line 3, column 1: bad form");
    let given = refusal("", "/a", 1);
    assert_eq!(given.to_string(), "refused 11: no profile with that name");
    let error: Box<dyn std::error::Error + Send + Sync> = given.into();
    assert!(error.downcast_ref::<Refusal>().is_some());
}

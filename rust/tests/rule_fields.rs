//! Rules of a text, as the package tells them, and which of them match.

use sidluqethe::{Match, Perms, Policy, Reason, Request, Rule};
use std::fs;
use std::path::Path;

/// Text T.
fn sample() -> Policy {
    let file = Path::new(env!("CARGO_MANIFEST_DIR")).join("../samples/step.profile");
    let text = fs::read(&file).unwrap_or_else(|e| panic!("{}: {e}", file.display()));
    Policy::read(text).unwrap()
}

fn text<'a>(rule: &Rule<'a>) -> &'a str {
    std::str::from_utf8(rule.text).unwrap()
}

#[test]
fn the_rules_of_the_sample() {
    let policy = sample();
    let counts = (policy.profile_count(), policy.variable_count());
    assert_eq!((counts, policy.rule_count()), ((1, 1), 5));
    let rules: Vec<Rule> = policy.rules().collect();
    let texts: Vec<&str> = rules.iter().map(text).collect();
    assert_eq!(
        texts,
        [
            "@{RUN}in/* r,",
            "owner @{RUN}out/** rw,",
            "audit deny /runs/*/out/lock w,",
            "/bin/cat ix,",
            "/bin/* px -> tool,",
        ]
    );
    let places: Vec<_> = rules.iter().map(|rule| (rule.line, rule.column)).collect();
    assert_eq!(places, [(3, 3), (4, 9), (5, 14), (6, 3), (7, 3)]);
    let numbers: Vec<_> = rules.iter().map(|rule| rule.number).collect();
    assert_eq!(numbers, [0, 1, 2, 3, 4]);
    assert!(rules.iter().all(|rule| rule.profile == b"step"));

    assert!(rules[1].owner && !rules[1].deny && !rules[1].audit);
    assert_eq!(rules[1].pattern, b"@{RUN}out/**");
    assert_eq!(rules[1].perms, "rwa".parse().unwrap());
    assert_eq!((rules[1].mode, rules[1].target), (None, None));
    assert!(!rules[2].owner && rules[2].deny && rules[2].audit);
    assert_eq!(rules[3].perms, Perms::EXECUTE);
    assert_eq!(rules[3].mode.unwrap().to_string(), "ix");
    assert_eq!(rules[3].target, None);
    assert_eq!(rules[4].mode.unwrap().to_string(), "px");
    assert_eq!(rules[4].target, Some(&b"tool"[..]));
}

/// The ten marked cases: path, asked, owner, the numbers of the matching
/// rules, those of exact matches marked.
#[test]
fn the_matching_rules_of_the_marked_cases() {
    let policy = sample();
    for (path, asked, owner, wanted) in [
        ("/runs/a/in/x", 1, false, "0"),
        ("/runs/c/in/x", 1, false, ""),
        ("/runs/a/in/d/x", 1, false, ""),
        ("/runs/b/out/d/y", 3, true, "1"),
        ("/runs/b/out/d/y", 3, false, ""),
        ("/runs/a/out/lock", 3, true, "1 2"),
        ("/runs/b/out/y", 4, true, "1"),
        ("/bin/cat", 64, false, "3! 4"),
        ("/bin/ls", 64, false, "4"),
        ("/bin/cat", 65, false, "3! 4"),
    ] {
        let request = Request::new("step", path, Perms::from_bits(asked)).owner(owner);
        let found = policy.matching(&request).unwrap();
        let told = found.iter().map(|(rule, how)| match how {
            Match::Exact => format!("{}!", rule.number),
            Match::Other => rule.number.to_string(),
        });
        assert_eq!(told.collect::<Vec<_>>().join(" "), wanted, "{path}");
    }
}

/// Quotes, comments with commas and braces, several rules on a line, rules
/// over several lines, several profiles.
const ODD: &str = "# a { b, c }
@{A}=\"/a b\" /c # , {
profile one # { /x r,
{ # first, }
  # \"quoted\" , {
  @{A}/{x,y}, r,/b r,\"/c , # \\{\" w,audit # deny, owner
  deny
    owner # ,
    \"/d\"# ,
    rwx # ,
    ,
}profile \"two words\"{\t/e px ->\"t u\",/f Cix # ,
 -> # ->, t,
 t.v
 # ,
 , }
\"/three\" { }
/four { allow /g,h r # end,
\t,}";

#[test]
fn the_rules_of_an_odd_text() {
    let policy = Policy::read(ODD).unwrap();
    let names: Vec<&[u8]> = policy.profiles().collect();
    assert_eq!(names, [&b"one"[..], b"two words", b"/three", b"/four"]);
    let rules: Vec<Rule> = policy.rules().collect();
    let texts: Vec<&str> = rules.iter().map(text).collect();
    assert_eq!(
        texts,
        [
            "@{A}/{x,y}, r,",
            "/b r,",
            "\"/c , # \\{\" w,",
            "audit # deny, owner\n  deny\n    owner # ,\n    \"/d\"# ,\n    rwx # ,\n    ,",
            "/e px ->\"t u\",",
            "/f Cix # ,\n -> # ->, t,\n t.v\n # ,\n ,",
            "allow /g,h r # end,\n\t,",
        ]
    );
    let patterns: Vec<&[u8]> = rules.iter().map(|rule| rule.pattern).collect();
    let wanted: [&[u8]; 7] = [
        b"@{A}/{x,y},",
        b"/b",
        b"/c , # \\{",
        b"/d",
        b"/e",
        b"/f",
        b"/g,h",
    ];
    assert_eq!(patterns, wanted);
    let places: Vec<_> = rules.iter().map(|rule| (rule.line, rule.column)).collect();
    assert_eq!(
        places,
        [
            (6, 3),
            (6, 17),
            (6, 22),
            (9, 5),
            (12, 23),
            (12, 37),
            (18, 15)
        ]
    );
    let profiles: Vec<&[u8]> = rules.iter().map(|rule| rule.profile).collect();
    let (one, two): (&[u8], &[u8]) = (b"one", b"two words");
    assert_eq!(profiles, [one, one, one, one, two, two, b"/four"]);
    let targets: Vec<_> = rules.iter().filter_map(|rule| rule.target).collect();
    assert_eq!(targets, [&b"t u"[..], b"t.v"]);
    let modes = rules.iter().filter_map(|rule| rule.mode);
    let modes: Vec<String> = modes.map(|mode| mode.to_string()).collect();
    assert_eq!(modes, ["px", "Cix"]);
}

#[test]
fn a_denial_of_execute_has_no_mode() {
    let policy = Policy::read(ODD).unwrap();
    let rule = policy.rules().nth(3).unwrap();
    assert!(rule.audit && rule.deny && rule.owner);
    assert_eq!(rule.perms, "rwax".parse().unwrap());
    assert_eq!((rule.mode, rule.target), (None, None));
}

#[test]
fn each_mode_is_told() {
    for written in "ux Ux px Px cx Cx ix pix Pix cix Cix pux PUx cux CUx".split(' ') {
        let policy = Policy::read(format!("/p {{ /a {written}, }}")).unwrap();
        let rule = policy.rules().next().unwrap();
        assert_eq!(rule.mode.unwrap().to_string(), written);
        assert_eq!(rule.perms, Perms::EXECUTE);
    }
}

#[test]
fn a_text_without_rules_has_none() {
    for text in ["", "# c", "@{A}=/a\n", "/p { }"] {
        let policy = Policy::read(text).unwrap();
        assert_eq!(policy.rules().count(), 0);
        let request = Request::new("/p", "/a", Perms::READ);
        assert_eq!(policy.rule_match(0, &request), None);
    }
}

#[test]
fn what_is_refused_matches_nothing() {
    let policy = Policy::read("/p { /** r, }\n/q { /a r, }").unwrap();
    let how = |profile: &str, path: &str, rule| {
        let request = Request::new(profile, path, Perms::NONE);
        policy.rule_match(rule, &request)
    };
    // What is asked for plays no part.
    assert_eq!(how("/p", "/a", 0), Some(Match::Other));
    assert_eq!(how("/q", "/a", 1), Some(Match::Exact));
    assert_eq!(how("/q", "/a", 0), None, "another profile's");
    for rule in [2, 511, 512, 1 << 40, usize::MAX] {
        assert_eq!(how("/q", "/a", rule), None, "no such rule");
    }
    assert_eq!(how("/p", "a", 0), None, "a refused path");
    assert_eq!(how("/r", "/a", 0), None, "no such profile");
    let refused = |profile: &str, path: &str, asked| {
        let request = Request::new(profile, path, asked);
        policy.matching(&request).unwrap_err().reason
    };
    assert_eq!(refused("/p", "a", Perms::NONE), Reason::BadPath);
    assert_eq!(refused("/p", "/a", Perms::NONE), Reason::BadAsked);
    assert_eq!(refused("/r", "/a", Perms::READ), Reason::NoProfile);
}

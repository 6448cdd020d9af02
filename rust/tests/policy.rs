//! Reading once and asking often: every room, two threads, two texts.

use sidluqethe::{decide, Perms, Policy, Request};
use std::thread;

/// Two profiles, of two rules and of one.
const TEXT: &str = "@{A}=/a /b
profile one {
  @{A}/* r,
  deny /b/x r,
}
/two { /bin/cat ix, }
";

#[test]
fn a_policy_says_what_it_has_read() {
    let policy = Policy::read(TEXT).unwrap();
    let names: Vec<&[u8]> = policy.profiles().collect();
    assert_eq!(names, [&b"one"[..], b"/two"]);
    assert_eq!(policy.rule_count(), 3);
    assert_eq!(policy.text(), TEXT.as_bytes());
    assert_eq!(
        format!("{policy:?}"),
        "Policy { profiles: [\"one\", \"/two\"], rules: 3, .. }"
    );
}

#[test]
fn room_for_fewer_rules_is_told_at_the_first_that_finds_none() {
    let refused = |room| {
        let refusal = Policy::read_within(TEXT, room).unwrap_err();
        (refusal.number(), refusal.line, refusal.column)
    };
    assert_eq!(refused(0), (9, 3, 3));
    assert_eq!(refused(1), (9, 4, 8));
    assert_eq!(refused(2), (9, 6, 8));
    assert_eq!(Policy::read_within(TEXT, 3).unwrap().rule_count(), 3);
    assert_eq!(Policy::read_within(TEXT, 9_999).unwrap().rule_count(), 3);
    // 4 and 5 at that place come before it, 7 after it.
    let at = |text: &str| Policy::read_within(text, 0).unwrap_err().number();
    assert_eq!(at("/p { mount,"), 5);
    assert_eq!(at("/p { \"/a"), 4);
    assert_eq!(at("/p { x r, }"), 9);
    assert_eq!(at("/p { /a zz, }"), 9);
    assert!(Policy::read_within("/p { }", 0).is_ok());
}

/// Nothing can't be asked for, so an answer never grants it.
#[test]
fn nothing_is_never_granted() {
    let policy = Policy::read(TEXT).unwrap();
    let request = Request::new("one", "/a/x", Perms::READ);
    let answer = policy.ask(&request).unwrap();
    assert!(answer.grants(Perms::READ));
    assert!(!answer.grants(Perms::READ | Perms::WRITE));
    assert!(!answer.grants(Perms::NONE));
    let none = policy.ask(&Request::new("one", "/c/x", Perms::READ));
    assert!(!none.unwrap().grants(Perms::NONE));
}

#[test]
fn the_owner_mark_counts() {
    let policy = Policy::read("/p { owner /a r, }").unwrap();
    let request = Request::new(b"/p", b"/a", Perms::READ);
    assert_eq!(policy.ask(&request).unwrap().granted, Perms::NONE);
    let own = policy.ask(&request.owner(true)).unwrap();
    assert_eq!(own.granted, Perms::READ);
}

#[test]
fn refusals_come_in_their_order() {
    let policy = Policy::read(TEXT).unwrap();
    let number = |name: &[u8], path: &[u8], asked| {
        let refusal = policy
            .ask(&Request::new(name, path, Perms::from_bits(asked)))
            .unwrap_err();
        assert_eq!((refusal.line, refusal.column), (0, 0));
        refusal.number()
    };
    assert_eq!(number(b"x", b"a", 0), 2);
    assert_eq!(number(b"x", b"/a", 0), 3);
    assert_eq!(number(b"x", b"/a", 1), 11);
    assert_eq!(Policy::read(vec![b'#'; 65_536]).unwrap_err().number(), 1);
}

/// Of the same form, so that every place of one is a place of the other.
const OTHER: &str = "@{A}=/c /d
profile one {
  @{A}/* w,
  deny /b/x x,
}
/two { /bin/dog ux, }
";

/// A policy owns its text: what was read of another plays no part.
#[test]
fn each_policy_answers_by_its_own_text() {
    let policies = [TEXT, OTHER].map(|text| Policy::read(text).unwrap());
    let all = Perms::from_bits(127);
    let fields = |policy: &Policy, name: &str, path: &str| {
        let answer = policy.ask(&Request::new(name, path, all)).unwrap();
        let granted = answer.granted.to_string();
        let rules = policy.matching(&Request::new(name, path, all)).unwrap();
        (granted, rules.len())
    };
    for (name, path, first, second) in [
        ("one", "/a/x", ("r", 1), ("-", 0)),
        ("one", "/c/x", ("-", 0), ("wa", 1)),
        ("one", "/b/x", ("-", 2), ("-", 1)),
        ("/two", "/bin/cat", ("x", 1), ("-", 0)),
        ("/two", "/bin/dog", ("-", 0), ("x", 1)),
    ] {
        for (policy, (granted, rules)) in policies.iter().zip([first, second]) {
            let wanted = (granted.to_string(), rules);
            assert_eq!(fields(policy, name, path), wanted, "{path}");
            assert_eq!(fields(&policy.clone(), name, path), wanted, "{path}");
        }
    }
    assert_eq!(policies[0].text(), TEXT.as_bytes());
    assert_eq!(policies[1].text(), OTHER.as_bytes());
}

/// What threads may share and hand on.
fn shared<T: Send + Sync>(_: &T) {}

#[test]
fn threads_share_a_policy() {
    let policy = Policy::read(TEXT).unwrap();
    shared(&policy);
    let paths: Vec<Vec<u8>> = (0..2_000)
        .map(|n| format!("/{}/{n}", if n % 3 == 0 { "a" } else { "c" }).into_bytes())
        .collect();
    let work = || {
        let granted = |path: &&Vec<u8>| {
            let answer = policy
                .ask(&Request::new(b"one", path, Perms::READ))
                .unwrap();
            answer.granted == Perms::READ
        };
        paths.iter().filter(granted).count()
    };
    let (first, second) = thread::scope(|scope| {
        let (first, second) = (scope.spawn(work), scope.spawn(work));
        (first.join().unwrap(), second.join().unwrap())
    });
    assert_eq!((first, second), (667, 667));
}

#[test]
fn asking_gives_the_answers_of_decide() {
    let policy = Policy::read(TEXT).unwrap();
    for name in [&b"one"[..], b"/two", b"three"] {
        for path in [&b"/a/x"[..], b"/b/x", b"/b/y", b"/bin/cat", b"", b"/b//x"] {
            for asked in [0, 1, 64, 65, 127, 128] {
                let request = Request::new(name, path, Perms::from_bits(asked));
                let by_text = decide(TEXT.as_bytes(), &request);
                assert_eq!(policy.ask(&request), by_text);
            }
        }
    }
}

//! Text T: its ten marked cases and the profile that it lacks, as the command
//! tells them, with the rules that match.

use super::golden::compare;
use super::run::{command, ran, run, Folder, SAMPLES};

/// Path, PERMS and the owner mark; granted, recorded and execute.
type Case = (&'static str, &'static str, bool, [&'static str; 3]);

const CASES: [Case; 10] = [
    ("/runs/a/in/x", "1", false, ["read", "nothing", "not asked"]),
    ("/runs/c/in/x", "1", false, ["nothing", "read", "not asked"]),
    (
        "/runs/a/in/d/x",
        "1",
        false,
        ["nothing", "read", "not asked"],
    ),
    (
        "/runs/b/out/d/y",
        "3",
        true,
        ["read, write", "nothing", "not asked"],
    ),
    (
        "/runs/b/out/d/y",
        "3",
        false,
        ["nothing", "read, write", "not asked"],
    ),
    (
        "/runs/a/out/lock",
        "3",
        true,
        ["read", "write", "not asked"],
    ),
    (
        "/runs/b/out/y",
        "4",
        true,
        ["append", "nothing", "not asked"],
    ),
    (
        "/bin/cat",
        "64",
        false,
        ["execute", "nothing", "ix: keeps this profile"],
    ),
    (
        "/bin/ls",
        "64",
        false,
        ["execute", "nothing", "px: runs under the profile tool"],
    ),
    (
        "/bin/cat",
        "65",
        false,
        ["execute", "read", "ix: keeps this profile"],
    ),
];

fn ask(path: &str, perms: &str, owner: bool) -> super::run::Ran {
    let file = format!("{SAMPLES}/step.profile");
    let mut words = vec!["ask", &file, "step", path, perms];
    words.extend(owner.then_some("--owner"));
    run(&words)
}

/// The answers as the rules tell them.
#[test]
fn the_marked_cases_are_answered() {
    for (path, perms, owner, [granted, recorded, execute]) in CASES {
        let ran = ask(path, perms, owner);
        for line in [
            format!("granted   {granted}\n"),
            format!("recorded  {recorded}\n"),
            format!("execute   {execute}\n"),
        ] {
            assert!(ran.out.contains(&line), "{path} {perms}: {}", ran.out);
        }
    }
}

/// All that is printed, and the exit status.
#[test]
fn the_marked_cases_name_their_rules() {
    let mut all = String::new();
    for (number, (path, perms, owner, _)) in (1..).zip(CASES) {
        let ran = ask(path, perms, owner);
        assert_eq!(ran.err, "");
        let mark = if owner { " --owner" } else { "" };
        all += &format!("$ {number}. step {path} {perms}{mark}\n");
        all += &format!("{}status {}\n\n", ran.out, ran.status);
    }
    compare("marked-cases", &all);
}

/// Other answers: why each permission is refused, each kind of transition, a
/// rule on several lines.
#[test]
fn other_answers() {
    let text = "profile p {
  /a rw, deny /a* w, audit deny /[a]
    # deny /a r,
\twk,
  /x* pix, /x? CUx -> \"a b\",
  /c cx, /s Pix -> t, /u Ux, /i ix, deny /i x,
  owner /o rw, \"/my file\" r,
}
";
    let folder = Folder::new();
    folder.write("p", text);
    let mut all = String::new();
    for (path, perms) in [
        ("/a", "rwakx"),
        ("/x", "x"),
        ("/xx", "rx"),
        ("/c", "x"),
        ("/s", "x"),
        ("/u", "x"),
        ("/i", "x"),
        ("/o", "rm"),
        ("/my file", "r"),
    ] {
        let mut call = command(&["ask", "p", "p", path, perms]);
        let ran = ran(call.current_dir(folder.path()));
        assert_eq!(ran.err, "");
        all += &format!("$ p {path} {perms}\n{}status {}\n\n", ran.out, ran.status);
    }
    compare("answers", &all);
}

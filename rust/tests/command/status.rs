//! Exit statuses, and where what is said goes.

use super::run::{command, ran, run, run_with_input, Folder, SAMPLES};
use std::fs::OpenOptions;
use std::io::{Read, Write};
use std::process::Stdio;
use std::thread;
use std::time::Duration;

fn sample(name: &str) -> String {
    format!("{SAMPLES}/{name}")
}

fn ask(words: &[&str]) -> super::run::Ran {
    let file = sample("step.profile");
    let words = [&["ask", &file], words].concat();
    run(&words)
}

#[test]
fn all_granted_is_0() {
    let ran = ask(&["step", "/runs/a/in/x", "r"]);
    assert_eq!((ran.status, ran.err.as_str()), (0, ""));
    assert!(ran.out.contains("granted   read\n"), "{}", ran.out);
    let ran = ask(&["step", "/runs/b/out/y", "4", "--owner"]);
    assert_eq!(ran.status, 0);
}

#[test]
fn nothing_granted_is_1() {
    let ran = ask(&["step", "/runs/c/in/x", "r"]);
    assert_eq!((ran.status, ran.err.as_str()), (1, ""));
    assert!(ran.out.contains("granted   nothing\n"), "{}", ran.out);
}

#[test]
fn some_granted_is_1() {
    let ran = ask(&["step", "/bin/cat", "rx"]);
    assert_eq!((ran.status, ran.err.as_str()), (1, ""));
    assert!(ran.out.contains("granted   execute\n"), "{}", ran.out);
}

#[test]
fn a_refused_text_is_2() {
    let file = sample("half-saved.profile");
    let ran = run(&["ask", &file, "step", "/data/x", "r"]);
    assert_eq!((ran.status, ran.out.as_str()), (2, ""));
    assert!(ran.err.contains("refused 4"), "{}", ran.err);
}

#[test]
fn a_refused_request_is_2() {
    for (words, number) in [
        (["step", "runs", "r"], 2),
        (["step", "/x", "0"], 3),
        (["step", "/x", "128"], 3),
        (["step", "/x", "1000"], 3),
        (["other", "/x", "r"], 11),
    ] {
        let ran = ask(&words);
        assert_eq!((ran.status, ran.out.as_str()), (2, ""), "{words:?}");
        let refused = format!(": refused {number}: ");
        assert!(ran.err.contains(&refused), "{}", ran.err);
    }
}

#[test]
fn a_wrong_call_is_2() {
    let file = sample("step.profile");
    let calls: [&[&str]; 13] = [
        &[],
        &["aks"],
        &["help", "me"],
        &["ask"],
        &["ask", &file, "step", "/x"],
        &["ask", &file, "step", "/x", "r", "owner"],
        &["ask", &file, "step", "/x", "rq"],
        &["ask", &file, "step", "/x", ""],
        &["ask", &file, "step", "/x", "r", "--mine"],
        &["check"],
        &["explain"],
        &["explain", "0"],
        &["explain", "12"],
    ];
    for words in calls {
        is_a_wrong_call(words);
    }
}

/// Two lines on standard error, nothing on standard output.
fn is_a_wrong_call(words: &[&str]) {
    let ran = run(words);
    assert_eq!((ran.status, ran.out.as_str()), (2, ""), "{words:?}");
    let lines: Vec<&str> = ran.err.lines().collect();
    let [wrong, call] = lines[..] else {
        panic!("two lines: {:?}", ran.err);
    };
    assert!(wrong.starts_with("sidluqethe: "), "{wrong}");
    assert!(call.starts_with("call: sidluqethe "), "{call}");
}

/// What a word from elsewhere could be, to change what is asked.
const OPTIONS: [&str; 7] = ["-h", "--help", "-V", "--version", "--json", "--owner", "--"];

/// Whatever the four words are: one that is an option leaves fewer.
#[test]
fn a_word_of_ask_that_is_an_option_grants_nothing() {
    let file = sample("step.profile");
    let words = ["ask", &file, "step", "/runs/a/in/x", "r"];
    assert_eq!(run(&words).status, 0);
    for option in OPTIONS {
        for at in 1..5 {
            let mut words = words;
            words[at] = option;
            is_a_wrong_call(&words);
            // What the caller adds may not fill the gap.
            for added in ["--owner", "--json"] {
                is_a_wrong_call(&[&words[..], &[added]].concat());
                is_a_wrong_call(&[&["ask", added], &words[1..]].concat());
            }
        }
        is_a_wrong_call(&["ask", option, option, option, option]);
        is_a_wrong_call(&["ask", "--json", "--owner", "--", option]);
    }
}

#[test]
fn words_behind_two_dashes_are_no_options() {
    let file = sample("step.profile");
    for option in OPTIONS {
        let ran = run(&["ask", "--", &file, "step", option, "r"]);
        assert_eq!((ran.status, ran.out.as_str()), (2, ""), "{option}");
        assert!(ran.err.contains("refused 2"), "{}", ran.err);
        let ran = run(&["ask", "--", &file, option, "/runs/a/in/x", "r"]);
        assert!(ran.err.contains("refused 11"), "{}", ran.err);
        let ran = run(&["ask", "--", option, "step", "/runs/a/in/x", "r"]);
        assert_eq!(ran.status, 3, "{option}");
        is_a_wrong_call(&["ask", "--", &file, "step", "/runs/a/in/x", option]);
    }
}

/// `check FILE` and `explain N` have one word, which may come from elsewhere.
#[test]
fn a_file_is_not_accepted_by_help() {
    let file = sample("step.profile");
    for option in &OPTIONS[..4] {
        is_a_wrong_call(&["check", option]);
        is_a_wrong_call(&["check", &file, option]);
        is_a_wrong_call(&["check", option, &file]);
        is_a_wrong_call(&["explain", option]);
        is_a_wrong_call(&["explain", "4", option]);
        is_a_wrong_call(&[option, "check", &file]);
        is_a_wrong_call(&[option, "--json"]);
    }
    for option in OPTIONS {
        is_a_wrong_call(&["check", option]);
    }
}

#[test]
fn a_letter_that_is_not_taken_is_named() {
    let ran = ask(&["step", "/x", "rqw"]);
    assert!(ran.err.contains("`q` of PERMS `rqw`"), "{}", ran.err);
    assert!(ran
        .err
        .contains("letters of r w a m l k x, or a number from 1 to 127"));
}

#[test]
fn a_file_that_cannot_be_read_is_3() {
    let ran = run(&["ask", "/no/such/file", "step", "/x", "r"]);
    assert_eq!((ran.status, ran.out.as_str()), (3, ""));
    assert!(
        ran.err.starts_with("/no/such/file: No such file"),
        "{}",
        ran.err
    );
}

#[test]
fn several_files_end_with_the_highest() {
    let (good, cut) = (sample("step.profile"), sample("half-saved.profile"));
    for (files, status) in [
        (vec![&good[..], &good], 0),
        (vec![&cut, &good], 2),
        (vec!["/no/such/file", &cut, &good], 3),
    ] {
        let words = [&["check"], &files[..]].concat();
        let ran = run(&words);
        assert_eq!(ran.status, status, "{files:?}");
        assert!(ran
            .out
            .contains("accepted: 1 profile, 5 rules, 1 variable\n"));
        let with_json = run(&[&words[..], &["--json"]].concat());
        assert_eq!((with_json.status, with_json.err.as_str()), (status, ""));
        assert_eq!(with_json.out.lines().count(), files.len());
    }
}

#[test]
fn help_and_version_are_0() {
    let ways: [&[&str]; 5] = [
        &["--help"],
        &["-h"],
        &["help"],
        &["ask", "--help"],
        &["ask", "-h"],
    ];
    for words in ways {
        let ran = run(words);
        assert_eq!((ran.status, ran.err.as_str()), (0, ""), "{words:?}");
        for part in ["Exit status", "PERMS", "--owner", "JSON", "Examples"] {
            assert!(ran.out.contains(part), "{part}");
        }
        assert!(ran.out.lines().all(|line| line.len() < 80), "{}", ran.out);
    }
    for word in ["--version", "-V"] {
        let ran = run(&[word]);
        let version = format!("sidluqethe {}\n", sidluqethe::version());
        assert_eq!((ran.status, ran.out), (0, version));
    }
}

#[test]
fn every_refusal_is_explained() {
    for number in 1..=11 {
        let ran = run(&["explain", &number.to_string()]);
        assert_eq!((ran.status, ran.err.as_str()), (0, ""));
        assert!(ran.out.starts_with(&format!("refused {number}: ")));
        assert!(ran.out.contains("\nlooks like\n") && ran.out.contains("\nwhat to do\n"));
    }
}

#[test]
fn standard_input_is_read_for_a_dash() {
    let text = b"profile p {\n  /a r,\n}\n";
    let ran = run_with_input(&["ask", "-", "p", "/a", "r"], text);
    assert_eq!(ran.status, 0);
    assert!(
        ran.out.contains("  <stdin>:2:3: allow, exactly: /a r,\n"),
        "{}",
        ran.out
    );
    let ran = run_with_input(&["check", "-"], b"profile");
    assert_eq!(ran.status, 2);
    assert!(ran.err.starts_with("<stdin>:1:8: refused 4"), "{}", ran.err);
}

#[test]
fn two_dashes_end_the_options() {
    let folder = Folder::new();
    folder.write("--json", "profile -p {}");
    let mut call = command(&["check", "--", "--json"]);
    let ran = ran(call.current_dir(folder.path()));
    assert_eq!(ran.status, 2);
    assert!(ran.err.starts_with("--json:1:9: refused 4"), "{}", ran.err);
}

/// Nobody reads any more: no panic, and not the status of a grant.
#[test]
fn a_closed_pipe_is_3() {
    let file = sample("step.profile");
    let calls: [&[&str]; 3] = [
        &["--help"],
        &["check", &file],
        &["ask", &file, "step", "/runs/a/in/x", "r"],
    ];
    for words in calls {
        // Its reader ends before the command is started.
        let mut reader = std::process::Command::new("true");
        let mut reader = reader.stdin(Stdio::piped()).spawn().expect("true");
        let mut pipe = reader.stdin.take().expect("a pipe");
        reader.wait().expect("it ends");
        // A command that another test is starting may hold its end for a moment.
        while pipe.write_all(b" ").is_ok() {
            thread::sleep(Duration::from_millis(1));
        }
        let mut call = command(words);
        call.stdout(pipe).stderr(Stdio::piped());
        let child = call.spawn().expect("the command starts");
        let output = child.wait_with_output().expect("it ends");
        assert_eq!(output.status.code(), Some(3), "{words:?}");
        assert_eq!(output.stderr, b"", "{words:?}");
    }
}

#[test]
fn a_full_disk_is_3() {
    let full = OpenOptions::new().write(true).open("/dev/full");
    let mut call = command(&["--help"]);
    call.stdout(full.expect("/dev/full")).stderr(Stdio::piped());
    let mut child = call.spawn().expect("the command starts");
    let mut said = String::new();
    let mut err = child.stderr.take().expect("a pipe");
    err.read_to_string(&mut said).expect("words");
    assert_eq!(child.wait().expect("it ends").code(), Some(3));
    assert!(
        said.starts_with("sidluqethe: standard output: No space left"),
        "{said}"
    );
}

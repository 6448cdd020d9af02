//! `--json`: one well-formed object a line, with the fields that are promised.

use super::checker::check_lines;
use super::run::{run, Folder, SAMPLES};

#[test]
fn an_answer_is_an_object() {
    let file = format!("{SAMPLES}/step.profile");
    let path = "/runs/a/out/lock";
    let ran = run(&["ask", &file, "step", path, "rw", "--owner", "--json"]);
    assert_eq!((ran.status, ran.err.as_str()), (1, ""));
    assert_eq!(check_lines(&ran.out), 1);
    let expected = concat!(
        r#"{"file":"../samples/step.profile","profile":"step","path":"/runs/a/out/lock","#,
        r#""asked":["read","write"],"owner":true,"granted":["read"],"refused":["write"],"#,
        r#""recorded":["write"],"execute":null,"target":null,"rules":["#,
        r#"{"file":"../samples/step.profile","line":4,"column":9,"#,
        r#""text":"owner @{RUN}out/** rw,","deny":false,"exact":false,"perms":"rwa"},"#,
        r#"{"file":"../samples/step.profile","line":5,"column":14,"#,
        r#""text":"audit deny /runs/*/out/lock w,","deny":true,"exact":false,"perms":"wa"}"#,
        r#"],"status":1}"#,
        "\n"
    );
    assert_eq!(ran.out, expected);
}

#[test]
fn execute_answers_are_named() {
    let folder = Folder::new();
    let text = "profile p {\n /a px -> t,\n /b px,\n /b* ix,\n /c* ix,\n /c? px,\n /d r,\n}\n";
    let file = folder.write("p", text);
    for (path, execute, target, status) in [
        ("/a", "\"px\"", "\"t\"", 0),
        ("/b", "\"px\"", "null", 0),
        ("/cx", "\"conflict\"", "null", 1),
        ("/d", "\"denied\"", "null", 1),
    ] {
        let ran = run(&[&b"ask"[..], &file, b"p", path.as_bytes(), b"x", b"--json"]);
        assert_eq!(ran.status, status, "{path}");
        check_lines(&ran.out);
        let part = format!(r#""execute":{execute},"target":{target},"rules":["#);
        assert!(ran.out.contains(&part), "{}", ran.out);
    }
}

#[test]
fn refusals_errors_and_accepted_texts_are_objects() {
    let folder = Folder::new();
    let good = folder.write(
        "good",
        "@{A}=/a\nprofile p { @{A} r, }\nprofile \"q q\" {}\n",
    );
    let bad = folder.write("bad", "profile p {\n  r /data/x,\n}\n");
    let missing = folder.name(b"no\xff\n");
    let ran = run(&[&b"check"[..], b"--json", &good, &bad, &missing]);
    assert_eq!((ran.status, ran.err.as_str()), (3, ""));
    assert_eq!(check_lines(&ran.out), 3);
    let lines: Vec<&str> = ran.out.lines().collect();
    let accepted = r#","accepted":true,"profiles":["p","q q"],"rules":1,"variables":1}"#;
    assert!(lines[0].ends_with(accepted), "{}", lines[0]);
    let refused = concat!(
        r#","refusal":{"number":7,"meaning":"bad pattern","line":2,"column":3,"#,
        r#""wanted":"a pattern that begins with `/`, whatever is chosen in it; `r` comes first","#,
        r#""hint":"the path comes before the permissions: `/data/x r,`"}}"#
    );
    assert!(lines[1].ends_with(refused), "{}", lines[1]);
    assert!(lines[2].starts_with(r#"{"file":{"hex":""#), "{}", lines[2]);
    assert!(lines[2].ends_with(r#","error":"No such file or directory (os error 2)"}"#));
}

#[test]
fn refusals_of_a_request_are_objects() {
    let file = format!("{SAMPLES}/step.profile");
    for (words, number) in [
        (["step", "x", "r"], 2),
        (["step", "/x", "200"], 3),
        (["other", "/x", "r"], 11),
    ] {
        let ran = run(&[&["ask", &file], &words[..], &["--json"]].concat());
        assert_eq!((ran.status, ran.err.as_str()), (2, ""));
        assert_eq!(check_lines(&ran.out), 1);
        let part = format!(r#""refusal":{{"number":{number},"meaning":"#);
        assert!(ran.out.contains(&part), "{}", ran.out);
        assert!(
            ran.out.contains(r#""line":0,"column":0,"wanted":""#),
            "{}",
            ran.out
        );
    }
}

#[test]
fn explanations_are_objects() {
    for number in 1..=11 {
        let ran = run(&["explain", &number.to_string(), "--json"]);
        assert_eq!(check_lines(&ran.out), 1);
        assert!(ran
            .out
            .starts_with(&format!(r#"{{"number":{number},"meaning":"#)));
    }
}

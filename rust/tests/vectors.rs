//! The reference and the library against the requests and answers that the
//! repository stores: those of the program `cases`, the vectors among them.

mod reference;
mod rules;
mod vector;

use std::fs;
use std::path::{Path, PathBuf};
use std::thread;
use vector::{fields, hex, Request};

#[test]
fn reference_agrees_with_the_stored_answers() {
    check("the reference", |r| fields(&r.by_reference()));
}

#[test]
fn library_agrees_with_the_stored_answers() {
    check("the library", Request::by_library);
}

#[test]
fn reading_and_asking_agree_with_the_stored_answers() {
    check("reading and asking", |r| r.by_policy(&r.read()));
}

/// Which rules match, and how, is not stored: it is compared with what the
/// reference says, whose answers are the stored ones.
#[test]
fn rules_match_as_the_reference_says() {
    check("matching of rules", |request| {
        let judged = request.judged();
        if let (Ok(policy), Some(file)) = (request.read(), &judged.file) {
            rules::same_rules(&policy, file)
                .and_then(|()| rules::same_matches(request, &policy, &judged))
                .map_or_else(|difference| difference, |()| fields(&judged.answer))
        } else {
            fields(&judged.answer)
        }
    });
}

/// The same by a thread whose stack is small: the largest texts, accepted and
/// refused, are among them.
#[test]
fn a_small_stack_is_enough() {
    let thread = thread::Builder::new().stack_size(64 << 10);
    let work = || {
        check("a thread of 64 KiB", Request::by_library);
        check("a thread of 64 KiB that reads and asks", |r| {
            r.by_policy(&r.read())
        });
        check("a thread of 64 KiB that asks for matching rules", |r| {
            let read = r.read();
            if let Ok(policy) = &read {
                let found = policy.matching(&r.asked());
                assert_eq!(found.is_ok(), policy.ask(&r.asked()).is_ok());
            }
            r.by_policy(&read)
        });
    };
    let thread = thread.spawn(work).expect("a thread");
    thread.join().expect("an end without a panic");
}

// ------------------------------------------------------ the stored requests

/// There are more; a file that was cut short must not pass.
const LEAST: usize = 5_000;

/// The stored requests with the fields from 6 of their answers. They are in
/// the files `stdin` and `stdout` of the folder.
fn stored(folder: &Path, least: usize) -> Result<Vec<(String, String)>, String> {
    let (requests, answers) = (lines(folder, "stdin")?, lines(folder, "stdout")?);
    // The answers have a line of titles.
    let [_, answers @ ..] = &answers[..] else {
        return Err(format!("{}: no titles", folder.display()));
    };
    let (asked, answered) = (requests.len(), answers.len());
    if asked != answered || asked < least {
        let folder = folder.display();
        return Err(format!(
            "{folder}: {asked} requests and {answered} answers; wanted {least} or more"
        ));
    }
    let answers = answers.iter().map(|answer| expected(answer));
    let requests = requests.iter().map(|r| String::from_utf8_lossy(r).into());
    Ok(requests.zip(answers).collect())
}

/// The lines of a file. Each ends with LF.
fn lines(folder: &Path, name: &str) -> Result<Vec<Vec<u8>>, String> {
    let path = folder.join(name);
    let told = |what: &str| format!("no stored requests: {}: {what}", path.display());
    let bytes = fs::read(&path).map_err(|error| told(&error.to_string()))?;
    let Some(whole) = bytes.strip_suffix(b"\n") else {
        return Err(told("empty or cut short"));
    };
    Ok(whole.split(|b| *b == b'\n').map(<[u8]>::to_vec).collect())
}

/// The fields from 6 of a stored answer, which has its target in plain bytes.
fn expected(line: &[u8]) -> String {
    let tab = line.iter().rposition(|b| *b == b'\t').expect("a tab");
    let (front, target) = (&line[..=tab], &line[tab + 1..]);
    let front = String::from_utf8_lossy(front);
    match target {
        b"-" => format!("{front}-"),
        bytes => front.to_string() + &hex(bytes),
    }
}

fn check(who: &str, decide: impl Fn(&Request) -> String) {
    let folder = Path::new(env!("CARGO_MANIFEST_DIR")).join("../crates/cases");
    let stored = stored(&folder, LEAST).unwrap_or_else(|why| panic!("{why}"));
    let (mut count, mut wrong) = (0, 0);
    for (line, expected) in stored {
        count += 1;
        let (request, _) = Request::parse(&line).unwrap_or_else(|e| panic!("{count}: {e}"));
        let given = decide(&request);
        if given != expected {
            wrong += 1;
            println!("{count}: {line}\t{expected}\n  {who}: {given}");
        }
    }
    println!("{who} agrees on {} of {count} requests", count - wrong);
    assert_eq!(wrong, 0, "{who}: {wrong} answers differ");
}

/// A folder with these two files, where there are any.
fn folder(name: &str, files: Option<(&str, &str)>) -> PathBuf {
    let folder = Path::new(env!("CARGO_TARGET_TMPDIR")).join(name);
    let _ = fs::remove_dir_all(&folder);
    fs::create_dir_all(&folder).unwrap();
    if let Some((requests, answers)) = files {
        fs::write(folder.join("stdin"), requests).unwrap();
        fs::write(folder.join("stdout"), answers).unwrap();
    }
    folder
}

#[test]
fn missing_vectors_do_not_pass() {
    let missing = folder("vectors-missing", None);
    let why = stored(&missing, 1).unwrap_err();
    assert!(why.contains("no stored requests") && why.contains("vectors-missing"));

    let titles = "granted\trecorded\texecute\ttarget\n";
    let refused = |requests: &str, answers: &str| {
        let folder = folder("vectors-odd", Some((requests, answers)));
        let why = stored(&folder, 1).unwrap_err();
        assert!(why.contains("vectors-odd"), "{why}");
        why
    };
    assert!(refused("", "").contains("empty"));
    assert!(refused("", titles).contains("empty"));
    assert!(refused("00\t00\t2f\t1\t0\n", "").contains("empty"));
    assert!(refused("00\t00\t2f\t1\t0", titles).contains("cut short"));
    assert!(refused("00\t00\t2f\t1\t0\n", titles).contains("1 requests and 0 answers"));

    let answer = "refused\t4\t1\t1\t-\n";
    let one = Some(("00\t00\t2f\t1\t0\n", &format!("{titles}{answer}")[..]));
    let folder = folder("vectors-one", one);
    assert_eq!(stored(&folder, 1).unwrap().len(), 1);
    assert!(stored(&folder, 2).unwrap_err().contains("wanted 2 or more"));
}

//! Files that are none, or are not what they seem.

use super::run::{command, ran, run, Folder};
use std::fs::{self, OpenOptions};
use std::io::Write;
use std::path::PathBuf;
use std::process::{Command, Stdio};
use std::thread;

/// A text that grants: what must not be said where reading failed.
const TEXT: &str = "profile p {\n  /a r,\n}\n";

fn check_unreadable(ran: &super::run::Ran, file: &str, reason: &str) {
    assert_eq!((ran.status, ran.out.as_str()), (3, ""), "{}", ran.err);
    assert!(
        ran.err.starts_with(&format!("{file}: {reason}")),
        "{}",
        ran.err
    );
    assert_eq!(ran.err.lines().count(), 1, "{}", ran.err);
}

#[test]
fn a_directory_is_an_error() {
    check_unreadable(
        &run(&["ask", "/tmp", "p", "/a", "r"]),
        "/tmp",
        "Is a directory",
    );
    check_unreadable(&run(&["check", "/tmp"]), "/tmp", "Is a directory");
}

#[test]
fn a_missing_file_is_an_error() {
    let ran = run(&["check", "/no/such"]);
    check_unreadable(&ran, "/no/such", "No such file or directory");
    check_unreadable(&run(&["check", ""]), "", "No such file or directory");
}

#[test]
fn the_name_in_an_error_is_escaped() {
    let ran = run(&[&b"check"[..], b"no\x1b[2K\rsuch\xff\n"]);
    check_unreadable(&ran, "no\\x1b[2K\\rsuch\\xff\\n", "No such file");
}

/// The first read gives the whole text up to its `}`, the second fails.
const SHIM: &str = r#"
#define _GNU_SOURCE
#include <dlfcn.h>
#include <errno.h>
#include <stdlib.h>
#include <string.h>
#include <sys/stat.h>
#include <unistd.h>

ssize_t read(int fd, void *buffer, size_t length) {
    static int reads;
    static ssize_t (*next)(int, void *, size_t);
    struct stat here, marked;
    if (!next) next = (ssize_t (*)(int, void *, size_t))dlsym(RTLD_NEXT, "read");
    const char *file = getenv("FAILS_HALF_WAY");
    if (!file || fstat(fd, &here) || stat(file, &marked) || here.st_ino != marked.st_ino)
        return next(fd, buffer, length);
    if (reads++ == 0) return next(fd, buffer, length < 22 ? length : 22);
    errno = EIO;
    return -1;
}
"#;

/// Builds the shim.
fn shim(folder: &Folder) -> PathBuf {
    let source = folder.path().join("shim.c");
    let shim = folder.path().join("shim.so");
    fs::write(&source, SHIM).expect("a file");
    let mut cc = Command::new("cc");
    cc.args(["-shared", "-fPIC", "-o"]).arg(&shim);
    let built = cc.arg(&source).arg("-ldl").status();
    let built = built.expect("a C compiler, which this test needs");
    assert!(built.success(), "cc: {built}");
    shim
}

/// What was read before the error is a whole text: it must not be answered.
#[test]
fn a_read_that_fails_half_way_is_an_error() {
    let folder = Folder::new();
    let shim = shim(&folder);
    let file = folder.write("p", format!("{TEXT}\n# more\n"));
    let ask: [&[u8]; 5] = [b"ask", &file, b"p", b"/a", b"r"];
    let whole = run(&ask);
    assert_eq!(whole.status, 0, "{}", whole.err);
    for words in [&ask[..], &[b"check", &file]] {
        let mut call = command(words);
        call.env("LD_PRELOAD", &shim);
        call.env("FAILS_HALF_WAY", folder.path().join("p"));
        let name = String::from_utf8(file.clone()).expect("UTF-8");
        check_unreadable(&ran(&mut call), &name, "Input/output error");
    }
}

#[test]
fn a_read_error_at_once_is_an_error() {
    let ran = run(&["check", "/proc/self/mem"]);
    check_unreadable(&ran, "/proc/self/mem", "Input/output error");
}

#[test]
fn a_fifo_is_read_to_its_end() {
    let folder = Folder::new();
    let fifo = folder.name("fifo");
    let path = folder.path().join("fifo");
    let made = Command::new("mkfifo").arg(&path).status();
    assert!(made.expect("mkfifo").success());
    let mut call = command(&[&b"ask"[..], &fifo, b"p", b"/a", b"r"]);
    call.stdout(Stdio::piped()).stderr(Stdio::piped());
    let child = call.spawn().expect("the command starts");
    let writer = thread::spawn(move || {
        let mut pipe = OpenOptions::new().write(true).open(path).expect("a fifo");
        for part in TEXT.as_bytes().chunks(5) {
            pipe.write_all(part).expect("a reader");
            pipe.flush().expect("a reader");
        }
    });
    let output = child.wait_with_output().expect("it ends");
    writer.join().expect("all was written");
    assert_eq!(output.status.code(), Some(0));
}

#[test]
fn files_of_the_system_are_read() {
    // Its length is told as 0, and it is not.
    let ran = run(&["check", "/proc/self/status"]);
    assert_eq!(ran.status, 2);
    assert!(
        ran.err.starts_with("/proc/self/status:1:1: refused 4"),
        "{}",
        ran.err
    );
    assert_eq!(run(&["check", "/dev/null"]).status, 0);
}

#[test]
fn a_file_without_end_is_refused() {
    let ran = run(&["check", "/dev/zero"]);
    assert_eq!(ran.status, 2);
    assert!(ran.err.starts_with("/dev/zero: refused 1: "), "{}", ran.err);
    assert!(ran.err.contains("at least 16,777,216"), "{}", ran.err);
}

#[test]
fn the_longest_text_is_read_and_one_byte_more_is_refused() {
    let folder = Folder::new();
    for (length, status) in [(65_535, 0), (65_536, 2), (200_000, 2)] {
        let mut text = TEXT.as_bytes().to_vec();
        text.resize(length, b'\n');
        let file = folder.write("long", &text);
        let ran = run(&[&b"ask"[..], &file, b"p", b"/a", b"r"]);
        assert_eq!(ran.status, status, "{length}: {}", ran.err);
    }
}

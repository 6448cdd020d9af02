//! What a terminal shows: the command runs in tmux, and its screen is read.

use super::run::{command, program, ran, Folder};
use std::ffi::OsStr;
use std::os::unix::ffi::OsStrExt;
use std::process::{Command, Output};
use std::sync::atomic::{AtomicUsize, Ordering};
use std::thread::sleep;
use std::time::{Duration, Instant};

/// A terminal of its own; it ends with the test.
struct Terminal<'a> {
    folder: &'a Folder,
    /// The name of its server, which no other test has.
    server: String,
}

impl Terminal<'_> {
    fn tmux(&self, words: &[&[u8]]) -> Output {
        let mut tmux = Command::new("tmux");
        tmux.args(["-u", "-f", "/dev/null", "-L", &self.server]);
        tmux.args(words.iter().map(|word| OsStr::from_bytes(word)));
        tmux.env("TMUX_TMPDIR", self.folder.path())
            .env_remove("TMUX");
        tmux.env("LC_ALL", "C.UTF-8")
            .current_dir(self.folder.path());
        tmux.output().expect("tmux, which this test needs")
    }

    fn capture(&self) -> String {
        let output = self.tmux(&[b"capture-pane", b"-p"]);
        String::from_utf8_lossy(&output.stdout).into_owned()
    }

    /// Runs the command with these words; the screen and the title after it.
    fn show(folder: &Folder, words: &[&[u8]]) -> (String, String) {
        static COUNT: AtomicUsize = AtomicUsize::new(0);
        let server = format!("s{}", COUNT.fetch_add(1, Ordering::Relaxed));
        let terminal = Terminal { folder, server };
        let script = b"\"$0\" \"$@\"; echo \"ended with $?\"; exec sleep 60";
        let program = program();
        let start: [&[u8]; 8] = [
            b"new-session",
            b"-d",
            b"-x",
            b"80",
            b"-y",
            b"50",
            b"--",
            b"sh",
        ];
        let shell: [&[u8]; 3] = [b"-c", script, program.as_bytes()];
        let started = terminal.tmux(&[&start[..], &shell, words].concat());
        assert!(started.status.success(), "{started:?}");
        let deadline = Instant::now() + Duration::from_secs(30);
        let mut screen = String::new();
        while !screen.contains("ended with") && Instant::now() < deadline {
            sleep(Duration::from_millis(50));
            screen = terminal.capture();
        }
        let title = terminal.tmux(&[b"display-message", b"-p", b"#{pane_title}"]);
        (screen, String::from_utf8_lossy(&title.stdout).into_owned())
    }
}

impl Drop for Terminal<'_> {
    fn drop(&mut self) {
        self.tmux(&[b"kill-server"]);
    }
}

/// Clears the screen and draws an answer that grants: CSI as ESC and as C1,
/// a title, a bell, and letters from right to left.
const FORGED: &[u8] = b"\x1b]0;forged title\x07\x1b[2J\x1b[H\xc2\x9b2K\x9b2K\
    asked     read, write\x1b[1E\
    granted   read, write\x1b[1E\
    refused   nothing\x1b[1E\
    recorded  nothing\x1b[1E\
    execute   not asked\x1b[1E\
    \x1b[8m\xe2\x80\xae\r";

/// The same in a quoted pattern that is accepted: each `[` begins a class.
const FORGED_PATTERN: &[u8] = b"\x1b[2J]\x1b[H]\xc2\x9b2K\x9b2K\r\
    asked     read, write\x1b[1E]\r\
    granted   read, write\x1b[1E]\r\
    refused   nothing\x1b[1E]\r\
    recorded  nothing\x1b[1E]\r\
    execute   not asked\x1b[1E]\r\xe2\x80\xae\x07";

/// No line of the screen is one of the forged answer.
fn check_screen(screen: &str, title: &str) {
    assert!(screen.contains("ended with"), "it ends: {screen}");
    let forged = |line: &str| {
        let answers = [
            "granted   read, write",
            "refused   nothing",
            "recorded  nothing",
        ];
        let line = line.trim_start();
        answers.iter().any(|answer| line.starts_with(answer))
    };
    let line = screen.lines().find(|line| forged(line));
    assert_eq!(line, None, "a forged line on the screen:\n{screen}");
    assert!(!title.contains("forged title"), "{title}");
}

/// Its bytes are seen, in a line or in one that goes on.
fn check_escaped(screen: &str) {
    let lines = screen
        .lines()
        .map(|line| line.trim_start_matches("      | "));
    let joined: String = lines.map(str::trim_end).collect();
    assert!(joined.contains("\\x1b[2J"), "escaped bytes:\n{screen}");
}

#[test]
fn a_refused_profile_cannot_draw_a_grant() {
    let folder = Folder::new();
    let parts: [&[u8]; 3] = [b"profile step {\n  /data/* rq, #", FORGED, b"\n}\n"];
    folder.write("step.profile", parts.concat());
    let words: [&[u8]; 5] = [b"ask", b"step.profile", b"step", b"/data/x", b"rw"];
    let (screen, title) = Terminal::show(&folder, &words);
    check_screen(&screen, &title);
    check_escaped(&screen);
    assert!(screen.contains("step.profile:2:11: refused 8: bad permissions"));
    assert!(screen.contains("ended with 2"), "{screen}");
}

#[test]
fn an_accepted_profile_cannot_draw_a_grant() {
    let folder = Folder::new();
    let parts: [&[u8]; 3] = [
        b"profile step {\n  audit deny \"/data/{*,",
        FORGED_PATTERN,
        b"}\" r,\n}\n",
    ];
    folder.write("step.profile", parts.concat());
    let words: [&[u8]; 5] = [b"ask", b"step.profile", b"step", b"/data/x", b"r"];
    let (screen, title) = Terminal::show(&folder, &words);
    check_screen(&screen, &title);
    check_escaped(&screen);
    assert!(screen.contains("granted   nothing"), "{screen}");
    assert!(screen.contains("ended with 1"), "{screen}");
}

#[test]
fn a_file_name_cannot_draw_a_grant() {
    let words: [&[u8]; 5] = [b"ask", FORGED, b"step", b"/data/x", b"r"];
    let (screen, title) = Terminal::show(&Folder::new(), &words);
    check_screen(&screen, &title);
    check_escaped(&screen);
    assert!(screen.contains("ended with 3"), "{screen}");
}

/// A line that is just so long that the terminal breaks it before a forged one.
fn check_broken(before: &str, after: &str, perms: &[u8]) {
    let text = |pad: usize| {
        let pad = "x".repeat(pad);
        format!("{before}{pad}granted   read, write{after}")
    };
    let words: [&[u8]; 5] = [b"ask", b"step.profile", b"step", b"/data/x", perms];
    let folder = Folder::new();
    folder.write("step.profile", text(0));
    let ran = ran(command(&words).current_dir(folder.path()));
    let said = ran.out + &ran.err;
    let columns = |line: &str| line.find("granted   read, write");
    for at in said.lines().filter_map(columns) {
        folder.write("step.profile", text((80 - at % 80) % 80));
        let (screen, title) = Terminal::show(&folder, &words);
        check_screen(&screen, &title);
    }
    assert!(said.contains("granted   read, write"), "{said}");
}

#[test]
fn a_long_line_cannot_show_a_grant() {
    // A rule that matches, a token where another is wanted, a comment.
    let rule = "profile step {\n  audit deny \"/data/{*,";
    check_broken(rule, "}\" r,\n}\n", b"r");
    let token = "profile step {\n  /a r \"";
    check_broken(token, "\"\n}\n", b"r");
    let comment = "profile step {\n  /a rq, # ";
    check_broken(comment, "\n}\n", b"r");
}

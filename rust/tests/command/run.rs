//! Running the command, and a folder for its files.

use std::env;
use std::ffi::{OsStr, OsString};
use std::fs;
use std::io::Write;
use std::os::unix::ffi::OsStrExt;
use std::path::{Path, PathBuf};
use std::process::{self, Command, Output, Stdio};
use std::sync::atomic::{AtomicUsize, Ordering};

/// Text T and a text that is cut off.
pub const SAMPLES: &str = "../samples";

/// How a run ended.
#[derive(Debug, PartialEq, Eq)]
pub struct Ran {
    pub status: i32,
    pub out: String,
    pub err: String,
}

impl Ran {
    pub fn of(output: &Output) -> Ran {
        let text = |bytes: &[u8]| {
            // What is printed is always UTF-8.
            String::from_utf8(bytes.to_vec()).expect("UTF-8")
        };
        Ran {
            status: output.status.code().expect("an exit status"),
            out: text(&output.stdout),
            err: text(&output.stderr),
        }
    }
}

/// The program under test.
pub fn program() -> OsString {
    let built = env!("CARGO_BIN_EXE_sidluqethe");
    env::var_os("SIDLUQETHE_COMMAND").unwrap_or_else(|| built.into())
}

/// The command with these arguments, in the package's folder.
pub fn command<A: AsRef<[u8]>>(arguments: &[A]) -> Command {
    let mut command = Command::new(program());
    let arguments = arguments.iter().map(|a| OsStr::from_bytes(a.as_ref()));
    command.args(arguments).stdin(Stdio::null());
    command.current_dir(env!("CARGO_MANIFEST_DIR"));
    command
}

pub fn run<A: AsRef<[u8]>>(arguments: &[A]) -> Ran {
    ran(&mut command(arguments))
}

pub fn ran(command: &mut Command) -> Ran {
    Ran::of(&command.output().expect("the command starts"))
}

/// Runs with this on standard input.
pub fn run_with_input<A: AsRef<[u8]>>(arguments: &[A], input: &[u8]) -> Ran {
    let mut command = command(arguments);
    command.stdin(Stdio::piped());
    command.stdout(Stdio::piped()).stderr(Stdio::piped());
    let mut child = command.spawn().expect("the command starts");
    let mut pipe = child.stdin.take().expect("a pipe");
    let _ = pipe.write_all(input);
    drop(pipe);
    Ran::of(&child.wait_with_output().expect("it ends"))
}

/// A folder that goes away with the test.
pub struct Folder(PathBuf);

impl Folder {
    pub fn new() -> Folder {
        static COUNT: AtomicUsize = AtomicUsize::new(0);
        let count = COUNT.fetch_add(1, Ordering::Relaxed);
        let name = format!("sidluqethe-command-{}-{count}", process::id());
        let path = env::temp_dir().join(name);
        fs::create_dir_all(&path).expect("a folder");
        // Programs may run as someone else.
        Folder(path.canonicalize().expect("its path"))
    }

    pub fn path(&self) -> &Path {
        &self.0
    }

    /// The path of a file in the folder, as an argument.
    pub fn name(&self, name: impl AsRef<[u8]>) -> Vec<u8> {
        let path = self.0.join(OsStr::from_bytes(name.as_ref()));
        path.as_os_str().as_bytes().to_vec()
    }

    /// Writes a file; its path.
    pub fn write(&self, name: impl AsRef<[u8]>, text: impl AsRef<[u8]>) -> Vec<u8> {
        let path = self.name(name);
        fs::write(OsStr::from_bytes(&path), text).expect("a file");
        path
    }
}

impl Drop for Folder {
    fn drop(&mut self) {
        let _ = fs::remove_dir_all(&self.0);
    }
}

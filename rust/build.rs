//! Links `libsidluqethe.a`, the static archive of the proved library.
//!
//! Where `SIDLUQETHE_LIB_DIR` is set, it is the archive in that folder: that
//! of an installed library is `PREFIX/lib`. Otherwise the package stands in a
//! checkout, and `rt lib` in `crates/sidluqethe` makes the archive there
//! whenever a source of it has changed; this script copies it into `OUT_DIR`
//! and writes nothing else.
//!
//! A package with C of its own that depends on this one finds the header's
//! folder in `DEP_SIDLUQETHE_INCLUDE` and the archive's in
//! `DEP_SIDLUQETHE_ROOT`.

mod sources;

use std::env;
use std::fs;
use std::io;
use std::path::{Path, PathBuf};
use std::process::{exit, Command, ExitStatus, Stdio};

const ARCHIVE: &str = "libsidluqethe.a";
const HEADER: &str = "sidluqethe.h";
const FOLDER: &str = "SIDLUQETHE_LIB_DIR";
const INSTALLED: &str =
    "set SIDLUQETHE_LIB_DIR to PREFIX/lib of an installed library, the folder with libsidluqethe.a";

fn main() {
    println!("cargo:rerun-if-env-changed={FOLDER}");
    let given = env::var_os(FOLDER).filter(|folder| !folder.is_empty());
    let found = match given {
        Some(folder) => given_folder(Path::new(&folder)),
        None => made_folder(),
    };
    match found {
        Ok((folder, include)) => link(&folder, &include),
        Err(why) => {
            eprintln!("sidluqethe: {why}");
            exit(1);
        }
    }
}

fn link(folder: &Path, include: &Path) {
    let archive = folder.join(ARCHIVE);
    println!("cargo:rustc-link-search=native={}", folder.display());
    println!("cargo:rustc-link-lib=static={}", sources::CRATE);
    println!("cargo:rustc-env=SIDLUQETHE_ARCHIVE={}", archive.display());
    println!("cargo:root={}", folder.display());
    if include.join(HEADER).is_file() {
        println!("cargo:include={}", include.display());
    }
}

/// The folder of the caller's choice, and where its header would be.
fn given_folder(folder: &Path) -> Result<(PathBuf, PathBuf), String> {
    let named = env::current_dir().unwrap_or_default().join(folder);
    // The linker runs elsewhere, so a relative folder would not do.
    let whole = named.canonicalize().unwrap_or(named);
    let archive = whole.join(ARCHIVE);
    println!("cargo:rerun-if-changed={}", archive.display());
    if !archive.is_file() {
        let (folder, whole) = (folder.display(), whole.display());
        return Err(format!(
            "{FOLDER} is {folder} and there is no {ARCHIVE} in {whole}; {INSTALLED}, as a whole path"
        ));
    }
    let include = whole.parent().unwrap_or(&whole).join("include");
    Ok((whole, include))
}

/// `OUT_DIR` with a copy of the archive that `rt` makes in the checkout, and
/// the checkout's header.
fn made_folder() -> Result<(PathBuf, PathBuf), String> {
    let package = PathBuf::from(variable("CARGO_MANIFEST_DIR")?);
    let root = package.parent().unwrap_or(&package);
    let sources = sources::sources(root).map_err(|why| format!("{why}; {INSTALLED}"))?;
    for source in sources {
        println!("cargo:rerun-if-changed={}", source.display());
    }
    let made_in = root.join("crates").join(sources::CRATE);
    make(&made_in)?;
    let made = made_in.join("out").join(ARCHIVE);
    let folder = PathBuf::from(variable("OUT_DIR")?);
    fs::copy(&made, folder.join(ARCHIVE)).map_err(|e| {
        let made = made.display();
        format!("`rt lib` ended well, but {made}: {e}")
    })?;
    Ok((folder, root.join("include")))
}

fn variable(name: &str) -> Result<std::ffi::OsString, String> {
    env::var_os(name).ok_or(format!("{name} is not set: cargo runs this script"))
}

/// Has `rt` make the archive in the folder of its crate.
fn make(folder: &Path) -> Result<(), String> {
    let call = format!("`rt lib` in {}", folder.display());
    match run(folder) {
        Ok(status) if status.success() => Ok(()),
        Ok(status) => Err(format!("{call} failed ({status}); its output stands above")),
        Err(error) => Err(format!(
            "cannot start {call} ({error}); install the toolchain that README.md names, or {INSTALLED}"
        )),
    }
}

/// Runs `rt`; what it says goes to this script's standard error, since cargo
/// reads the standard output.
fn run(folder: &Path) -> io::Result<ExitStatus> {
    let mut child = Command::new("rt")
        .arg("lib")
        .current_dir(folder)
        .stdin(Stdio::null())
        .stdout(Stdio::piped())
        .spawn()?;
    if let Some(mut said) = child.stdout.take() {
        io::copy(&mut said, &mut io::stderr())?;
    }
    child.wait()
}

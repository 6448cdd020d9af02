//! build.rs, run by cargo in a small checkout with a stand-in for `rt` that
//! hands out the archive that these tests are linked to.

use std::env;
use std::fs;
use std::os::unix::fs::PermissionsExt;
use std::path::{Path, PathBuf};
use std::process::{self, Command};

/// Its crates: `other` is not named by the archive's.
const CRATES: &str = "flat:\nother: flat\nsidluqethe staticlib: flat io\n";

struct Checkout(PathBuf);

impl Checkout {
    fn new(name: &str) -> Checkout {
        // Not below this repository, whose list of crates is the only one there.
        let root = env::temp_dir().join(format!("sidluqethe-{name}-{}", process::id()));
        let _ = fs::remove_dir_all(&root);
        let package = Path::new(env!("CARGO_MANIFEST_DIR"));
        for part in ["Cargo.toml", "Cargo.lock", "build.rs", "sources.rs", "src"] {
            copy(&package.join(part), &root.join("rust").join(part));
        }
        let checkout = Checkout(root);
        checkout.write("crates.txt", CRATES);
        for name in ["flat", "other", "sidluqethe"] {
            checkout.write(&format!("crates/{name}/src/lib.rt"), "// 1\n");
        }
        checkout.write_rt();
        checkout
    }

    fn write(&self, file: &str, text: &str) {
        let path = self.0.join(file);
        fs::create_dir_all(path.parent().unwrap()).unwrap();
        fs::write(path, text).unwrap();
    }

    /// A `rt` that notes each call, by its words and its crate's folder, and
    /// puts an archive where `rt` puts it.
    fn write_rt(&self) {
        let noted = "echo \"$@ in ${PWD##*/}\" >>../../calls";
        let archive = env!("SIDLUQETHE_ARCHIVE");
        self.write(
            "bin/rt",
            &format!("#!/bin/sh\n{noted}\necho proving\nmkdir -p out && cp '{archive}' out\n"),
        );
        let rt = self.0.join("bin/rt");
        fs::set_permissions(rt, fs::Permissions::from_mode(0o755)).unwrap();
    }

    /// Runs `cargo build`; what it writes to standard error where it fails.
    fn build(&self, library: Option<&Path>) -> Result<(), String> {
        let bin = self.0.join("bin");
        // Where the stand-in is gone, there is no `rt` at all.
        let path = match bin.is_dir() {
            true => format!("{}:{}", bin.display(), env::var("PATH").unwrap()),
            false => String::new(),
        };
        let mut cargo = Command::new(env!("CARGO"));
        cargo
            .args(["build", "--offline", "--lib"])
            .current_dir(self.0.join("rust"))
            .env("PATH", path)
            .env("RUSTC", Path::new(env!("CARGO")).with_file_name("rustc"))
            .env("CARGO_TARGET_DIR", self.0.join("built"))
            .env_remove("SIDLUQETHE_LIB_DIR");
        if let Some(library) = library {
            cargo.env("SIDLUQETHE_LIB_DIR", library);
        }
        let output = cargo.output().unwrap();
        let said = String::from_utf8_lossy(&output.stderr).into_owned();
        output.status.success().then_some(()).ok_or(said)
    }

    /// How often `rt` was called, always in the same way.
    fn calls(&self) -> usize {
        let calls = fs::read_to_string(self.0.join("calls")).unwrap_or_default();
        assert!(calls.lines().all(|call| call == "lib in sidluqethe"));
        calls.lines().count()
    }

    /// The files that are not cargo's or the stand-in's.
    fn files(&self) -> Vec<(PathBuf, Vec<u8>)> {
        let mut files = Vec::new();
        for part in ["rust", "crates", "crates.txt"] {
            add_files(&self.0.join(part), &mut files);
        }
        files.sort();
        files
    }
}

impl Drop for Checkout {
    fn drop(&mut self) {
        let _ = fs::remove_dir_all(&self.0);
    }
}

fn copy(from: &Path, to: &Path) {
    if from.is_file() {
        fs::create_dir_all(to.parent().unwrap()).unwrap();
        fs::copy(from, to).unwrap();
        return;
    }
    for entry in fs::read_dir(from).unwrap() {
        let name = entry.unwrap().file_name();
        copy(&from.join(&name), &to.join(&name));
    }
}

fn add_files(path: &Path, files: &mut Vec<(PathBuf, Vec<u8>)>) {
    if path.ends_with("crates/sidluqethe/out") {
        return;
    }
    if path.is_file() {
        files.push((path.to_path_buf(), fs::read(path).unwrap()));
        return;
    }
    for entry in fs::read_dir(path).unwrap() {
        add_files(&entry.unwrap().path(), files);
    }
}

#[test]
fn the_archive_is_made_anew_when_a_source_of_it_changed() {
    let checkout = Checkout::new("sources");
    let files = checkout.files();
    checkout.build(None).unwrap();
    assert_eq!(checkout.calls(), 1);
    assert_eq!(checkout.files(), files, "only OUT_DIR is written");
    checkout.build(None).unwrap();
    assert_eq!(checkout.calls(), 1, "nothing changed");
    checkout.write("crates/flat/src/lib.rt", "// 2\n");
    checkout.build(None).unwrap();
    assert_eq!(checkout.calls(), 2, "a source changed");
    checkout.write("crates/flat/src/more.rt", "// 1\n");
    checkout.build(None).unwrap();
    assert_eq!(checkout.calls(), 3, "a source came");
    checkout.write("crates/other/src/lib.rt", "// 2\n");
    checkout.build(None).unwrap();
    assert_eq!(checkout.calls(), 3, "the archive does not use it");
    checkout.write("crates.txt", &CRATES.replace("flat io", "flat other"));
    checkout.build(None).unwrap();
    assert_eq!(checkout.calls(), 4, "the list of crates changed");
}

#[test]
fn a_library_that_is_there_needs_no_toolchain() {
    let checkout = Checkout::new("installed");
    let folder = Path::new(env!("SIDLUQETHE_ARCHIVE")).parent().unwrap();
    checkout.build(Some(folder)).unwrap();
    assert_eq!(checkout.calls(), 0);
}

#[test]
fn what_fails_says_what_to_do() {
    let checkout = Checkout::new("failures");
    let said = checkout.build(Some(Path::new("/nowhere"))).unwrap_err();
    assert!(said.contains("no libsidluqethe.a in /nowhere"), "{said}");
    assert!(said.contains("PREFIX/lib"), "{said}");

    checkout.write("bin/rt", "#!/bin/sh\necho not proved\nexit 7\n");
    let said = checkout.build(None).unwrap_err();
    assert!(
        said.contains("not proved") && said.contains("exit status: 7"),
        "{said}"
    );

    checkout.write("bin/rt", "#!/bin/sh\n");
    let said = checkout.build(None).unwrap_err();
    assert!(said.contains("ended well, but"), "{said}");

    fs::remove_dir_all(checkout.0.join("bin")).unwrap();
    let said = checkout.build(None).unwrap_err();
    assert!(said.contains("cannot start `rt lib`"), "{said}");
    assert!(
        said.contains("README.md") && said.contains("PREFIX/lib"),
        "{said}"
    );

    fs::remove_file(checkout.0.join("crates.txt")).unwrap();
    let said = checkout.build(None).unwrap_err();
    assert!(
        said.contains("crates.txt") && said.contains("PREFIX/lib"),
        "{said}"
    );
}

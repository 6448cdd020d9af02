//! The archive that the tests are linked to is that of this package: of its
//! version, and not older than its sources.

#[path = "../sources.rs"]
mod sources;

use std::fs;
use std::path::{Path, PathBuf};
use std::time::SystemTime;

#[test]
fn package_and_archive_have_one_version() {
    let mut parts = sidluqethe::version().split('.').map(str::parse::<u32>);
    let mut next = || parts.next().unwrap().unwrap();
    let number = 10_000 * next() + 100 * next() + next();
    assert_eq!(number, sidluqethe::library_version());
}

/// build.rs makes the archive anew; one in a folder of the caller's choice
/// may be left over. That of an installed library has no sources here.
#[test]
fn archive_is_not_older_than_its_sources() {
    let root = Path::new(env!("CARGO_MANIFEST_DIR")).join("..");
    let archive = Path::new(env!("SIDLUQETHE_ARCHIVE"));
    let own = root.join("target/staticlib").canonicalize();
    if own.ok().as_deref() != archive.parent() {
        println!("not asked: {} was made elsewhere", archive.display());
        return;
    }
    let made = changed(archive);
    let mut files = Vec::new();
    for source in sources::sources(&root).unwrap() {
        add_files(source, &mut files);
    }
    let newer: Vec<&PathBuf> = files.iter().filter(|file| changed(file) > made).collect();
    assert!(
        newer.is_empty(),
        "{} is older than {} of its sources, {} among them: run `tools/archive`",
        archive.display(),
        newer.len(),
        newer[0].display()
    );
    println!("the archive is not older than its {} sources", files.len());
}

/// A file, or all files below a folder.
fn add_files(path: PathBuf, files: &mut Vec<PathBuf>) {
    if !path.is_dir() {
        files.push(path);
        return;
    }
    for entry in fs::read_dir(&path).unwrap() {
        add_files(entry.unwrap().path(), files);
    }
}

fn changed(file: &Path) -> SystemTime {
    let about = fs::metadata(file).and_then(|about| about.modified());
    about.unwrap_or_else(|e| panic!("{}: {e}", file.display()))
}

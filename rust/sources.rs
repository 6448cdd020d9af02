//! What the archive is made of; for build.rs and for the test of its age.

use std::fs;
use std::path::{Path, PathBuf};

/// The crate whose archive is linked.
pub const CRATE: &str = "sidluqethe";

/// The list of crates, and the folders with sources of those that the
/// archive's crate is made of, itself included.
pub fn sources(root: &Path) -> Result<Vec<PathBuf>, String> {
    let list = root.join("crates.txt");
    let text = fs::read_to_string(&list).map_err(|e| format!("{}: {e}", list.display()))?;
    let names = names(&text).ok_or(format!("{}: no line `{CRATE} staticlib:`", list.display()))?;
    let mut sources = vec![list];
    for name in names {
        // A name without a folder is a crate of the toolchain.
        let parts = ["src", "specs", "proofs"];
        let folders = parts.map(|part| root.join("crates").join(name).join(part));
        sources.extend(folders.into_iter().filter(|folder| folder.is_dir()));
    }
    Ok(sources)
}

/// The archive's crate and those that its line names.
fn names(list: &str) -> Option<Vec<&str>> {
    let used = list
        .lines()
        .find_map(|line| line.strip_prefix(CRATE)?.strip_prefix(" staticlib:"))?;
    Some([CRATE].into_iter().chain(used.split_whitespace()).collect())
}

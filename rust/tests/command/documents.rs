//! What the documents show of the command is what it prints.

use super::run::{command, ran, Folder};
use std::fs;
use std::path::{Path, PathBuf};

/// A call as a document shows it, and what it says is printed.
type Example = (String, String);

#[test]
fn the_operators_page_shows_what_is_printed() {
    let folder = Folder::new();
    for samples in ["samples", "samples/operators"] {
        copy_files(&root().join(samples), &folder);
    }
    folder.write("long.profile", long_text());
    let page = read("docs/OPERATORS.md");
    let examples = examples(page.lines(), "```");
    assert!(examples.len() > 15, "examples are missing");
    compare(&examples, folder.path());
}

#[test]
fn the_manual_shows_what_is_printed() {
    let page = read("docs/sidluqethe.1").replace("\\-", "-");
    let page = page.replace("\\(ga", "`");
    let examples = examples(page.lines(), ".fi");
    assert!(examples.len() > 1, "examples are missing");
    compare(&examples, &root());
}

fn root() -> PathBuf {
    Path::new(env!("CARGO_MANIFEST_DIR")).join("..")
}

fn read(name: &str) -> String {
    fs::read_to_string(root().join(name)).unwrap_or_else(|e| panic!("{name}: {e}"))
}

fn copy_files(from: &Path, to: &Folder) {
    for entry in fs::read_dir(from).expect("a folder of samples") {
        let path = entry.expect("an entry").path();
        if let (true, Some(name)) = (path.is_file(), path.file_name()) {
            fs::copy(&path, to.path().join(name)).expect("a copy");
        }
    }
}

/// A text that is too long.
fn long_text() -> String {
    let rules = (0..3_000).map(|n| format!("  /data/run-{n:05}/** r,\n"));
    format!("profile step {{\n{}}}\n", rules.collect::<String>())
}

/// The lines from `$ sidluqethe` to the next such call or the block's end.
fn examples<'a>(lines: impl Iterator<Item = &'a str>, end: &str) -> Vec<Example> {
    let mut examples: Vec<Example> = Vec::new();
    let mut open = false;
    for line in lines {
        if let Some(call) = line.strip_prefix("$ sidluqethe ") {
            examples.push((call.to_string(), String::new()));
            open = true;
        } else if line.starts_with(end) {
            open = false;
        } else if let (true, Some((_, printed))) = (open, examples.last_mut()) {
            *printed += line;
            *printed += "\n";
        }
    }
    examples
}

fn compare(examples: &[Example], folder: &Path) {
    for (call, printed) in examples {
        let words: Vec<&str> = call.split_whitespace().collect();
        let ran = ran(command(&words).current_dir(folder));
        assert_eq!(&(ran.out + &ran.err), printed, "{call}");
    }
}

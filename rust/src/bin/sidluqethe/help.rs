//! What `--help` and `--version` print.

pub fn version() -> String {
    version_line(sidluqethe::version(), sidluqethe::library_version())
}

/// `sidluqethe 0.3.0`; and the archive's version where it is another.
fn version_line(package: &str, number: u32) -> String {
    let (major, minor, patch) = (number / 10_000, number / 100 % 100, number % 100);
    let library = format!("{major}.{minor}.{patch}");
    if library == package {
        return format!("sidluqethe {package}\n");
    }
    format!("sidluqethe {package} (library {library})\n")
}

pub const HELP: &str = "\
sidluqethe: does an AppArmor profile let a step have a file?

  sidluqethe ask FILE PROFILE PATH PERMS [--owner] [--json]
  sidluqethe check FILE... [--json]
  sidluqethe explain N [--json]
  sidluqethe --help | --version

ask       what profile PROFILE of FILE gives a step that asks for PATH, and the
          rules that match; no program is run, no file but FILE is looked at
check     whether each FILE is accepted; if not, where and why
explain   what refusal N (1 to 11) means and what to do

FILE      a profile's text; `-` is standard input
PERMS     letters of r read, w write, a append, m map, l link, k lock,
          x execute; or their sum from 1 to 127, with r 1, w 2, a 4, m 8,
          l 16, k 32, x 64
--owner   the file is the step's own: rules with `owner` count
--json    one object a line on standard output
--        ends the options: in a script, write it before words from elsewhere

Exit status
  0  everything asked is granted; every file is accepted; explained
  1  something asked is refused
  2  the text or the call is refused: refusals 1 to 11, wrong usage
  3  a file could not be read, or the answer could not be written
  With several files, the highest.

Answers go to standard output, refusals and errors to standard error. Bytes
that a terminal could act on, or that a reader would not see, are printed as
\\t, \\n, \\r, \\x1b, \\u{202e}, \\xff; a backslash is doubled where it could be
taken for one of these. On a terminal, what goes on after a long line has a
gutter before it.

JSON
  ask      file, profile, path, asked, owner, granted, refused, recorded,
           execute (null, \"denied\", \"conflict\" or a mode), target (or null),
           rules (each: file, line, column, text, deny, exact, perms), status
  check    file, accepted (true), profiles, rules, variables
  refusal  file, refusal (number, meaning, line, column, wanted, hint)
  reading  file, error
  explain  number, meaning, about, example, advice
  Bytes that are not UTF-8 are {\"hex\":\"...\"} in the place of a string. The
  perms of a rule are what it carries: with w comes a.

Examples
  sidluqethe ask step.profile step /runs/a/in/x r && run-step
  sidluqethe ask step.profile step /runs/a/out/y rw --owner
  sidluqethe check *.profile
  sidluqethe explain 4
";

#[cfg(test)]
mod tests {
    use super::*;

    #[test]
    fn a_library_of_another_version_is_told() {
        assert_eq!(version_line("0.3.0", 300), "sidluqethe 0.3.0\n");
        let other = version_line("0.3.0", 11_205);
        assert_eq!(other, "sidluqethe 0.3.0 (library 1.12.5)\n");
    }
}

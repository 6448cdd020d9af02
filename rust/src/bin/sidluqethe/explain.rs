//! What each refusal means, what it looks like, what to do.

use crate::json::{string, Object};
use sidluqethe::Reason;

struct Entry {
    about: &'static str,
    /// A text that is refused so, or a call.
    example: &'static str,
    advice: &'static str,
}

pub fn words(reason: Reason) -> String {
    let entry = entry(reason);
    let mut words = format!("refused {}: {reason}\n\n{}\n", reason.number(), entry.about);
    words += "\nlooks like\n";
    for line in entry.example.lines() {
        words += &format!("  {line}\n");
    }
    words + "\nwhat to do\n  " + &entry.advice.replace('\n', "\n  ") + "\n"
}

pub fn json(reason: Reason) -> String {
    let entry = entry(reason);
    let text = |text: &str| string(text.as_bytes());
    Object::default()
        .with("number", reason.number().to_string())
        .with("meaning", text(reason.meaning()))
        .with("about", text(entry.about))
        .with("example", text(entry.example))
        .with("advice", text(entry.advice))
        .line()
}

fn entry(reason: Reason) -> &'static Entry {
    &ENTRIES[usize::from(reason.number()).clamp(1, ENTRIES.len()) - 1]
}

const ENTRIES: [Entry; 11] = [
    Entry {
        about: "The file has more than 65,535 bytes. Nothing of it was read.",
        example: "sidluqethe check /var/log/syslog",
        advice: "Is it the right file? Comments and blanks count.\n\
                 Spread the profiles over several files, each with the variables that it uses.",
    },
    Entry {
        about: "The asked path is empty, has more than 4,095 bytes, does not begin with `/`, or\n\
                holds a NUL byte or `//`. The text was not read yet.",
        example: "sidluqethe ask FILE step data/x r\n\
                  sidluqethe ask FILE step /data//x r",
        advice: "Give the whole path as the step will use it, with single slashes.\n\
                 Nothing is resolved: `..`, links and a `/` at the end stand for themselves.",
    },
    Entry {
        about: "The asked set of permissions is 0 or over 127. The text was not read yet.",
        example: "sidluqethe ask FILE step /data/x 0",
        advice: "Write letters of r w a m l k x, or their sum:\n\
                 r 1, w 2, a 4, m 8, l 16, k 32, x 64.",
    },
    Entry {
        about: "Something stands where something else is wanted, or the text ends too early.\n\
                The place is that of the token that does not fit, or the text's end.",
        example: "profile step {\n  /data/* r\n  /tmp/** rw,\n}",
        advice: "Look at the end of the rule before: `,` ends a rule, `}` ends a profile, and\n\
                 variables are set before the first profile. Here `,` is missing behind `r`.\n\
                 At the text's end the file may be cut off: save or copy it again.\n\
                 At line 1, column 1 look for a byte order mark.",
    },
    Entry {
        about: "A statement of a kind that is not taken: this library takes variables, profiles\n\
                and file rules. The place is that of the word, or of the `#` of `#include`.",
        example: "profile step {\n  network inet stream,\n  /data/* r,\n}",
        advice: "Take the statement out of the text: it says nothing about files.\n\
                 Put what is included into the text; a comment is written `# include`.\n\
                 Flags, hats, and profiles inside profiles are not taken.",
    },
    Entry {
        about: "A variable is set twice with `=`, added to with `+=` before it is set, used\n\
                before it is set, or its name is not a letter followed by letters, digits\n\
                and `_`.",
        example: "@{RUN}=/runs/a/\nprofile step {\n  @{RUNS}in/* r,\n}",
        advice: "Set it with `=` before the first profile and add to it with `+=`.\n\
                 A value may use only variables that were first set before the one that it\n\
                 is given to.",
    },
    Entry {
        about: "A pattern or value is not well formed, or a pattern does not begin with `/`.\n\
                The place is the first byte of the pattern or value.",
        example: "profile step {\n  r /data/x,\n}",
        advice: "The path comes before the permissions: `/data/x r,`.\n\
                 Close every `[` and `{`; `{a,b}` has two alternatives or more, and no braces\n\
                 inside; `\\` before a mark makes it literal. Whatever is chosen in a pattern,\n\
                 it begins with `/`.",
    },
    Entry {
        about: "The permissions of a rule are not well formed, or `->` follows a mode that\n\
                takes none. The place is that of the permissions, or of the `->`.",
        example: "profile step {\n  /bin/* rx,\n}",
        advice: "Write letters of r w a m l k and at most one of the modes\n\
                 ux Ux px Px cx Cx ix pix Pix cix Cix pux PUx cux CUx; not `w` with `a`.\n\
                 Bare `x` is for `deny`, and there no other mode.\n\
                 `->` follows modes with p or c.",
    },
    Entry {
        about: "A size was passed: 32 profiles, 512 rules and 32 variables in a file; 16\n\
                values of a variable; 1,024 bytes in a pattern or value; 255 in a name or\n\
                target; 256 expansions of a pattern; 1,024 pieces in an expansion.",
        example: "@{A}=a b c d\nprofile step {\n  /@{A}@{A}@{A}@{A}@{A} r,\n}",
        advice: "Spread the profiles over several files, or write rules with fewer choices:\n\
                 each variable and each `{x,y}` multiplies the expansions of a pattern.",
    },
    Entry {
        about: "Two profiles of the file have the same name. The place is that of the second.",
        example: "profile step {\n  /data/* r,\n}\nprofile step {\n  /tmp/** rw,\n}",
        advice: "Give one of them another name, or put the rules of both into one profile.",
    },
    Entry {
        about: "The text is well formed, and holds no profile with the asked name.",
        example: "sidluqethe ask FILE stepp /data/x r",
        advice: "Names are compared byte for byte. `sidluqethe check --json FILE` lists them.\n\
                 A file that was cut off between two profiles has lost those behind the cut.",
    },
];

#[cfg(test)]
mod tests {
    use super::*;
    use sidluqethe::Policy;

    #[test]
    fn the_examples_are_refused_so() {
        for &reason in Reason::ALL {
            let example = entry(reason).example;
            if !matches!(reason.number(), 4..=10) {
                assert!(example.starts_with("sidluqethe "));
                continue;
            }
            let refusal = Policy::read(example).unwrap_err();
            assert_eq!(refusal.reason, reason, "{example}");
        }
    }

    #[test]
    fn lines_fit_a_terminal() {
        for &reason in Reason::ALL {
            let words = words(reason);
            assert!(
                words.lines().all(|line| line.chars().count() < 80),
                "{words}"
            );
        }
    }
}

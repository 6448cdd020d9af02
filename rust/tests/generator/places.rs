//! Texts that are refused at a place that request Two settles.

use super::rng::Rng;

/// Good statements of a preamble, comments and blanks.
const PREAMBLE: &[&str] = &[
    "@{A}=/a\n",
    "@{B}= /b /c \r\n",
    "@{A}+=\"/d\" # c\n",
    "# c\n",
    "#\r\n",
    "\n",
    "\r\n",
    "\r",
    "  ",
    "\t",
];

/// Assignments that are refused, most of them.
const ASSIGNMENTS: &[&str] = &[
    "@{A\"}=x",
    "@{\"}=x",
    "@{A\"B}+=\"x\"",
    "@{1\"}",
    "@{A\"",
    "@{A\"=x",
    "@{A\" }=x",
    "@{A }=x",
    "@{A\t",
    "@{A\r\n}=x",
    "@{A#}=x",
    "@{#include}=x",
    "@{A\0}=x",
    "@{",
    "@{A",
    "@{}=x",
    "@{1}=x",
    "@{1}",
    "@{A-}+=",
    "@{A}=x\n@{A}=x",
    "@{C}=x\n  @{C} =\"y",
    "@{U}+=x",
    "@{U} += \0",
    "@{V}=",
    "@{V} = \t",
    "@{V}=\r\n/a",
    "@{V}\t=\r",
    "@{V}=#c",
    "@{V}= # c\0",
    "@{V}=#\0",
    "@{V}= #include <x>",
    "@{V}=\0",
    "@{V} = \r\0",
    "@{V}=x\0",
    "@{V}=x #\0",
    "@{V}=x #include",
    "@{V}=x\n@{V}+=",
    "@{V}=x\n@{V} +=  #c",
    "@{V}=x\n@{V} +=\0",
    "@{V}\n  =x",
    "@{V} + =x",
    "@{V} # c\n",
    "@{V} # c\0",
    "@{V}",
    "@{V} \"=\" x",
    "@{V} \"=",
    "@{V}\0",
    "@{V} #include",
    "@{V}= x\"y",
    "@{V}=/a \"\"",
    "@{V}=\"/a\" \"[",
    "@{V}=/a \"[\"",
    "@{V}=/a {b,c}",
    "@{V}=/a \"@{W}\"",
    "@{V}=/a @{1}",
];

/// Heads that are refused, most of them.
const HEADS: &[&str] = &[
    "profile",
    "profile\r\n{",
    "profile \"a*b\" {",
    "profile \"\" {",
    "profile  a\"b {",
    "profile \"/p\0\" {",
    "\"/x\ty\" {",
    "\"p\" {",
    "/p {} /p {",
    "/p {} profile \"/p\" {",
    "/q (x) {",
    "/q \"{\" {",
    "/q \"{",
    "/q #c\n",
    "/q\0{",
    "network",
    "^h,\"x\"",
    "audit deny",
    "}",
    "# a\0",
    "#include",
    "q\0",
];

/// Rules that are refused, most of them.
const RULES: &[&str] = &[
    "\"/a{\" r,",
    "\"/a[\"r,",
    "\"/a\0\" r,",
    "\"/a\nb\" r,",
    "\"/@{U}\" r,",
    "audit \"x\" r,",
    "\"audit\" /a r,",
    "\"\" r,",
    "/a\"b\" r,",
    "/a[ r,",
    "/a@{1} r,",
    "deny  owner network,",
    "audit {",
    "audit allow\r\n\tprofile",
    "owner mount\0",
    "owner /{b,c}{d,e}{f,g}{h,i}{j,k}{l,m}{n,o}{p,q}{r,s} r,",
    "/a \"r\",",
    "/a ,",
    "/a  rq,",
    "/a xr\"y,",
    "deny /a ix,",
    "/a wa,",
    "/a r  -> t,",
    "/a ux\r->t,",
    "/a px->t,",
    "/a px -> ,",
    "/a px -> \"t*\",",
    "/a px ->t{,",
    "/a px -> \"t",
    "/a px --> t,",
    "/a r /b r,",
    "/a r \",\"",
    "/a r\0",
    "/a q\0",
    "/a #include\n r,",
    "# c\0\n",
    "@{V} = x,",
    "\0",
    ",",
    "/a r,, r,",
];

/// What a text may end with.
const ENDS: &[&str] = &[
    "", "", "\n", " \n\n", "\r\n", "\r", " ", "#c", " # c\n", "}",
];

pub fn text(rng: &mut Rng) -> Vec<u8> {
    let mut text = String::new();
    for _ in 0..rng.below(4) {
        text += rng.word(PREAMBLE);
    }
    pad(rng, &mut text);
    let faults = match rng.below(8) {
        0..=3 => ASSIGNMENTS,
        4 => HEADS,
        // No assignment may stand behind a profile.
        5 => {
            text += rng.word(&["/p { /a r, }", "/p {} ", "/p{}\n\t"]);
            ASSIGNMENTS
        }
        _ => {
            text += rng.word(&[
                "/p { ",
                "/p{",
                "profile \"/p\" { /a r,",
                "/p {\n  /b\r\nw,\t",
            ]);
            RULES
        }
    };
    pad(rng, &mut text);
    // Behind the first fault on a line others may stand.
    for _ in 0..rng.between(1, 3) {
        text += rng.word(faults);
        text += rng.word(&["", " ", " ", "\n"]);
    }
    text += rng.word(ENDS);
    text.into_bytes()
}

/// Seldom many blanks, so that columns need more than one byte.
fn pad(rng: &mut Rng, text: &mut String) {
    if rng.percent(15) {
        let count = rng.between(200, 700);
        *text += &rng.word(&[" ", "\r", "\t"]).repeat(count);
    }
}

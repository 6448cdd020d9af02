"""The requests that documents 01 and 02 (request Two) give answers to: text T with its eleven cases, every prefix of T and T with each
byte replaced, and an example for each sentence and each settled open point, with the answer that the sentence gives."""

T = b"""@{RUN}=/runs/a/ /runs/b/
profile step {
  @{RUN}in/* r,
  owner @{RUN}out/** rw,
  audit deny /runs/*/out/lock w,
  /bin/cat ix,
  /bin/* px -> tool,
}
"""
rows = []  # what it shows; text, name, path, asked, owner; the answer that the sentence gives, a refusal with its column or without, or None
MARK = "↓"  # stands before the offending token's first byte; it is no byte of the text


def b(x): return x if isinstance(x, bytes) else x.encode("latin-1")


def add(note, text, path="/a", asked=1, expected=None, owner=0, name="/p"):
    rows.append((note, b(text), b(name), b(path), asked, owner, expected))

# ---- the eleven cases of text T
for note, name, path, asked, owner, expected in [
    ("case 1", "step", "/runs/a/in/x", 1, 0, "1 0 - -"),
    ("case 2", "step", "/runs/c/in/x", 1, 0, "0 1 - -"),
    ("case 3", "step", "/runs/a/in/d/x", 1, 0, "0 1 - -"),
    ("case 4", "step", "/runs/b/out/d/y", 3, 1, "3 0 - -"),
    ("case 5", "step", "/runs/b/out/d/y", 3, 0, "0 3 - -"),
    ("case 6", "step", "/runs/a/out/lock", 3, 1, "1 2 - -"),
    ("case 7", "step", "/runs/b/out/y", 4, 1, "4 0 - -"),
    ("case 8", "step", "/bin/cat", 64, 0, "64 0 ix -"),
    ("case 9", "step", "/bin/ls", 64, 0, "64 0 px tool"),
    ("case 10", "step", "/bin/cat", 65, 0, "64 1 ix -"),
    ("case 11", "other", "/bin/cat", 64, 0, "refused 11 0 0 -"),
]: add(note, T, path, asked, expected, owner, name)

# ---- every proper prefix of T
for n in range(len(T)): add("T cut to %d bytes" % n, T[:n], "/runs/a/in/x", name="step")

# ---- T with the byte at each place replaced by NUL, then ", then }, then LF
for i in range(len(T)):
    for byte, called in [(b"\0", "NUL"), (b'"', '"'), (b"}", "}"), (b"\n", "LF")]:
        add("T with byte %d replaced by %s" % (i, called), T[:i] + byte + T[i+1:], "/runs/a/in/x", name="step")

def P(rules): return "/p { " + rules + " }\n"
def rule(note, pattern, path, matches, pre=""):
    add(note + ": `%s` on `%s`" % (pattern, path), pre + P(pattern + " r,"), path, 1, "1 0 - -" if matches else "0 1 - -")
def refused(note, text, number, line=1, **k):
    """Refused in that line, at the mark; without a mark at any column."""
    before, mark, behind = text.partition(MARK)
    assert not mark or before.count("\n") + 1 == line, note
    place = "%d %d" % (line, len(before) - before.rfind("\n")) if mark else "%d" % line
    add(note.replace(MARK, ""), before + behind, expected="refused %d %s -" % (number, place), **k)

# ---- reading the text
for blank, called in [(" ", "space"), ("\t", "tab"), ("\r", "CR"), ("\n", "LF")]:
    add("blank: " + called, blank.join(["profile", "/p", "{", "/a", "r", ",", "}"]), expected="1 0 - -")
for byte in "\x0b\x0c": refused("no blank: %r" % byte, "/p {↓" + byte + "/a r, }", 7)
add("`#` starts a comment", "# c\n/p { # { \" } r\n/a # c\nr #,\n, }#", expected="1 0 - -")
refused("`\\#` ends a token too", P("↓/a\\# r,\n r,"), 7)
refused("NUL in a comment", "# a↓\0b\n", 4)
refused("NUL ends an unquoted token", P("/a↓\0 r,"), 4)
refused("NUL in quotes", P('\n↓"/a\0" r,'), 4, 2)
refused("closing quote missing", '/p {\n↓"/a r,\n}"', 4, 2)
add("inside quotes `#` and blanks are ordinary", P('"/a #b\tc" r,'), "/a #b\tc", expected="1 0 - -")
refused("quote inside an unquoted token", P('↓/a"b" r,'), 4)
refused("`\\` never changes where a token ends: blank", P("↓/a\\ b r,"), 7)
refused("`\\` never changes where a token ends: quote", P('↓"/a\\"b" r,'), 7)
add("assignment, blanks around `=`", "@{A} \t=\r /a /b\n" + P("@{A} r,"), "/b", expected="1 0 - -")
add("assignment, `+=`", "@{A}=/b\n@{A}+=/a\n" + P("@{A} r,"), expected="1 0 - -")
refused("assignment, LF before `=`", "@{A}\n↓=/x\n", 4, 2)
refused("assignment, missing value at the `=`", "@{A}↓=\n/x\n", 4)
refused("assignment, missing value at the `+=`", "@{A}=/x\n@{A}↓+= # c\n", 4, 2)
refused("assignment, empty value", '@{A}=/x ↓""\n', 4)
for end, called in [(" ", "blank"), ("#", "`#`"), ("\0", "NUL"), ("", "end")]:
    refused("variable name, %s before `}`" % called, "\n↓@{A" + end, 4, 2)
for name in ["", "1", "_A", "A-B", "A.", "A,B"]: refused("malformed name `%s`" % name, "@{↓%s}=/x\n" % name, 6)
add("name of letter, digit, underscore", "@{A1_b}=/a\n" + P("@{A1_b} r,"), expected="1 0 - -")
refused("assignment after the first profile", "/p {}\n↓@{A}=/x\n", 4, 2)
refused("`=` on a set name", "@{A}=/x\n@{↓A}=/y\n", 6, 2)
refused("`+=` on an unset name", "@{↓A}+=/x\n", 6)
refused("use of an unset name", P("\n↓@{A} r,"), 6, 2)
refused("value using a later name", "@{A}=↓@{B}\n@{B}=/x\n", 6)
refused("value using its own name", "@{A}=↓@{A}\n", 6)
refused("value using a name first set later", "@{A}=/x\n@{B}=/y\n@{A}+=↓@{B}\n", 6, 3)
add("all uses read the final sets", "@{A}=/x\n@{B}=@{A}/b\n@{A}+=/y\n" + P("@{B} r,"), "/y/b", expected="1 0 - -")
for head in ["profile p {", "profile p{", "/p {", "/p{", 'profile "p q" {', '"/p q" {', "profile a.b_c-d+e/f {", "profile 0 {"]:
    name = head.replace("profile ", "").rstrip("{ ").strip('"')
    add("head `%s`" % head, head + "/a r,}", name=name, expected="1 0 - -")
for head in ["↓p {", '↓"p" {', "profile ↓.p {", "profile ↓_p {", "profile ↓a*b {", "profile ↓{", "profile ↓\"\" {", "profile ↓p:q {"]:
    refused("head `%s`" % head, head + "/a r,}", 4)
refused("a profile name used twice", "/p {}\n/q {}\nprofile ↓\"/p\" {}\n", 10, 3)
add("`}` ends the profile", "/p {}/q {/a r,}", name="/q", expected="1 0 - -")
for quals in ["", "audit", "allow", "deny", "owner", "audit allow", "audit deny", "allow owner", "deny owner", "audit owner", "audit allow owner", "audit deny owner"]:
    add("rule `%s /a r,`" % quals, P(quals + " /a r,"), owner=1, expected=
        "0 %d - -" % ("audit" in quals) if "deny" in quals else "1 %d - -" % ("audit" in quals))
for quals in ["owner ↓audit", "deny ↓audit", "allow ↓deny", "audit ↓audit", "owner ↓owner"]:
    refused("qualifiers out of order `%s`" % quals, P(quals + " /a r,"), 7)
add("unquoted pattern ends at a blank", P("/a,b r,"), "/a,b", expected="1 0 - -")
refused("missing PERMS", P("/a ↓,"), 4)
refused("quoted PERMS", P('/a ↓"r",'), 4)
refused("missing comma", P("/a r ↓/b r,"), 4)
add("`->` needs no blank after it", P("/a px ->t,"), asked=64, expected="64 0 px t")
add("TARGET ends at a comma", P('/a px -> t,/b r,'), "/b", expected="1 0 - -")
add("quoted TARGET with a space", P('/a px -> "t u",'), asked=64, expected="64 0 px t u")
refused("TARGET of a bad form", P("/a px -> ↓*,"), 4)
WORDS = "include abi alias capability network mount remount umount pivot_root ptrace signal dbus unix change_profile set link hat file mqueue io_uring userns all priority".split()
for word in WORDS + ["^h", "priority=1"]:
    refused("inside: `%s`" % word, "/p {\n↓" + word + " x,\n}", 5, 2)
    refused("inside, a comma after: `%s`" % word, P("↓" + word + ","), 5)
    refused("after qualifiers: `%s`" % word, P("audit deny owner\n↓" + word + " x,"), 5, 2)
    refused("outside: `%s`" % word, "\n↓" + word + " x", 5, 2)
    if word.startswith("^"): refused("no fixed word: `x%s`" % word, P("↓x" + word + " q,"), 7)
    else: refused("no fixed word: `/%s`" % word, P("/" + word + " ↓q,"), 8)
refused("quoted word is no fixed word", P('↓"network" r,'), 7)
refused("`#include`", "/p {\n↓#include <x>\n}", 5, 2)
refused("`profile` inside a profile", P("↓profile q {}"), 5)
refused("flags after a head's name", "/p\n↓flags=(complain) {}", 5, 2)
refused("lone `{` after a qualifier", P("audit ↓{ /a r, }"), 5)
refused("lone `{` without a qualifier is read as the pattern", P("↓{ /a r, }"), 7)
refused("any other word is read as the pattern", P("↓foo r,"), 7)
refused("outside, a qualifier", "↓audit /p {}", 4)
refused("outside, any other misfit", "\n↓}", 4, 2)
refused("misfit at the text's end", "/p {\n/a r\n\n↓", 4, 4)
add("empty text", "", expected="refused 11 0 0 -")

# ---- patterns
for path, m in [("/a", 1), ("/", 0), ("/ab", 0), ("/a/", 0)]: rule("literal", "/a", path, m)
for path, m in [("/a", 1), ("/", 0), ("/aa", 0)]: rule("one byte", "/?", path, m)
rule("one byte but `/`", "/a?b", "/a/b", 0)
for path, m in [("/", 1), ("/a", 1), ("/abc", 1), ("/a/b", 0), ("/a/", 0)]: rule("any number but `/`", "/*", path, m)
for path, m in [("/", 1), ("/a", 1), ("/a/b", 1), ("/a/", 1)]: rule("any number of any bytes", "/**", path, m)
for path, m in [("/a", 1), ("/b", 1), ("/c", 0), ("/", 0)]: rule("listed", "/[ab]", path, m)
for path, m in [("/a", 1), ("/b", 1), ("/c", 1), ("/d", 0), ("/-", 0)]: rule("range", "/[a-c]", path, m)
for path, m in [("/xa", 0), ("/xc", 0), ("/xd", 1), ("/x/", 1), ("/x", 0)]: rule("not listed, `/` included", "/x[^a-c]", path, m)
for path, m in [("/x.", 1), ("/x/", 0), ("/x0", 1)]: rule("range spans `/`", "/x[.-0]", path, m)
for path, m in [("/x.", 0), ("/x/", 1), ("/x0", 0)]: rule("range spans `/`", "/x[^.-0]", path, m)
for path, m in [("/*", 1), ("/a", 0)]: rule("`\\` makes literal", "/\\*", path, m)
rule("`\\` before a plain byte", "/\\a", "/a", 1)
for pattern in ["/a\\", "/[]", "/[^]", "/[b-a]", "/[a-]", "/[-a]", "/[+]", "/[a,b]", "/[/]", "/[a", "/a]", "/{a", "/a}", "/{a}", "/{}", "/{a,{b,c}}", "/^", "/a^b", "/@{A", "a", "*", "?a", "[a]", "{/a,b}", "{/a,}", "**/a"]:
    refused("refused: `%s`" % pattern, "\n" + P("↓" + pattern + " r,"), 7, 2)
for path, m in [("/a", 1), ("/b", 1), ("/c", 0), ("/", 0)]: rule("alternatives", "/{a,b}", path, m)
for path, m in [("/ax", 1), ("/bx", 1), ("/cxx", 1), ("/ab", 1), ("/bz", 0)]: rule("pieces and variables in alternatives", "/{a?,@{A},c*}", path, m, "@{A}=bx by\n")
refused("value with `{x,y}`", "@{A}=↓{/x,/y}\n", 7)
for path, m in [("/@a", 1), ("/a", 0)]: rule("`@` without `{`", "/@a", path, m)
rule("comma outside braces", "/a,b", "/a,b", 1)
for path, m in [("/1a2", 1), ("/1a1", 1), ("/2a1", 1), ("/1a3", 0)]: rule("each occurrence chooses on its own", "/@{A}a@{A}", path, m, "@{A}=1 2\n")
for path, m in [("/1", 1), ("/4", 1), ("/y", 1), ("/5", 0)]: rule("five expansions", "/{@{A},y}", path, m, "@{A}=1 2 3 4\n")
add("`{@{A},y}` four times: 625 expansions", "@{A}=1 2 3 4\n" + P("/{@{A},y}{@{A},y}{@{A},y}{@{A},y} r,"), expected="refused 9 2 6 -")
add("`{@{A},y}` three times: 125 expansions", "@{A}=1 2 3 4\n" + P("/{@{A},y}{@{A},y}{@{A},y} r,"), "/1y4", expected="1 0 - -")
for path, m in [("/a/b", 0), ("/ab", 1)]: rule("neighbouring stars never fuse", "/@{A}@{A}", path, m, "@{A}=*\n")
for path, m in [("/a/b", 1), ("/ab", 1)]: rule("`***` is `**`, `*`", "/***", path, m)
for path, m in [("/x/z", 1), ("/xy/z", 1), ("/xyy/z", 0), ("/x/yz", 0)]: rule("01's example", "/x{,y}/z", path, m)
for path, m in [("/home/notes", 1), ("/homenotes", 0), ("/home", 0)]: rule("01's example", "@{H}/notes", path, m, "@{H}=/home/\n")
rule("slashes join", "//a///b", "/a/b", 1)
for path, m in [("/a", 1), ("/b/a", 1)]: rule("slashes join over an empty choice", "/{,b}/a", path, m)
refused("an expansion without a first `/`", "@{A}=/x y\n" + P("↓@{A} r,"), 7, 2)
refused("an expansion that begins with a star", "@{A}=*\n" + P("↓@{A} r,"), 7, 2)

# ---- patterns: a match with no class and no star is exact, told by the transition beside another rule's
HOW = {"exactly": "64 0 ix -", "matches": "0 64 conflict -", "no": "64 0 px -"}
def how(note, pattern, path, answer, pre=""):
    add("%s: `%s` on `%s`" % (note, pattern[:60], path[:60]), pre + P(pattern + " ix, /** px,"), path, 64, HOW[answer])
for path, answer in [("/x/z", "exactly"), ("/xy/z", "exactly"), ("/xyy/z", "no")]: how("exact", "/x{,y}/z", path, answer)
for pattern, path, answer in [
    ("/***", "/a/b", "matches"), ("/a***b", "/a/x/b", "matches"), ("/*", "/a", "matches"), ("/*", "/a/b", "no"), ("/**", "/a/b", "matches"),
    ("/a?b", "/axb", "matches"), ("/a?b", "/a/b", "no"), ("/x[^a]y", "/x/y", "matches"), ("/x[^a]y", "/xay", "no"),
    ("/x//y", "/x/y", "exactly"), ("/a\\*", "/a*", "exactly"), ("/a\\*", "/ab", "no"),
]: how("exact", pattern, path, answer)
how("exact", "@{H}/notes", "/home/notes", "exactly", "@{H}=/home/\n")
for pattern, path, number in [("/x[a", "/x[a", 7), ("/x^", "/x^", 7), ("/@{B}", "/@{B}", 6), ("x", "/x", 7)]:
    refused("a refused pattern on its own bytes: `%s`" % pattern, P("↓" + pattern + " ix, /** px,"), number, path=path, asked=64)
letters = "".join("@{%s}=a b c d\n" % name for name in "ABCDE")
for path, answer in [("/a", "exactly"), ("/d", "exactly"), ("/y", "exactly"), ("/e", "no")]: how("5 expansions", "/{@{A},y}", path, answer, letters)
refused("5 expansions, one without a first `/`", letters + P("↓{@{A},y} r,"), 7, 6)
for path, answer in [("/dcba", "exactly"), ("/dcbe", "no")]: how("256 expansions", "/@{A}@{B}@{C}@{D}", path, answer, letters)
refused("257 expansions", letters + P("↓/{@{A}@{B}@{C}@{D},y} r,"), 9, 6, path="/dcba")
refused("1,024 expansions", letters + P("↓/@{A}@{B}@{C}@{D}@{E} r,"), 9, 6, path="/dcbaa")
value = "@{V}=%s\n" % ("a" * 1023)
how("1,024 pieces", "/@{V}", "/" + "a" * 1023, "exactly", value)
refused("1,025 pieces", value + P("↓//@{V} r,"), 9, 2, path="/" + "a" * 1023)
for n in (1024, 1025):
    add("value of %d bytes, not used" % n, "@{V}=%s\n" % ("a" * n) + P("/a r,"), expected="1 0 - -" if n == 1024 else "refused 9 1 6 -")
how("longest path", "/**", "/" + "a" * 4094, "matches")
add("path of one byte more", P("/** ix, /** px,"), "/" + "a" * 4095, 64, "refused 2 0 0 -")

# ---- permissions
for bit, letter in enumerate("rwamlkx"):
    written = "ix" if letter == "x" else letter
    carried = {"w": 6}.get(letter, 1 << bit)
    add("`%s` carries %d" % (written, carried), P("/a %s," % written), asked=63 if letter != "x" else 127, expected="%d %d %s -" % (carried, (63 if letter != "x" else 127) - carried, "ix" if letter == "x" else "-"))
add("letters with a mode", P("/a rwPx,"), asked=127, expected="71 56 Px -")
add("letters repeatable", P("/a rwrwkk,"), asked=63, expected="39 24 - -")
refused("`w` with `a`", P("/a ↓wa,"), 8)
refused("`a` with `w`", P("/a ↓arw,"), 8)
add("`w` denied carries a", P("/a a, deny /a w,"), asked=4, expected="0 0 - -")
MODES = "ux Ux px Px cx Cx ix pix Pix cix Cix pux PUx cux CUx".split()
for mode in MODES:
    add("mode `%s`" % mode, P("/a r%sk," % mode), asked=64, expected="64 0 %s -" % mode)
    p = "/a %s -> t," % mode
    if mode[0] in "pPcC": add("target with `%s`" % mode, P(p), asked=64, expected="64 0 %s t" % mode)
    else: refused("`->` with `%s`" % mode, P("/a %s\n↓-> t," % mode), 8, 2)
    refused("`deny` with `%s`" % mode, P("deny /a ↓%s," % mode), 8)
refused("`->` with letters", P("/a r ↓-> t,"), 8)
refused("`->` with `deny x`", P("deny /a x ↓-> t,"), 8)
refused("bare `x`", P("/a ↓x,"), 8)
add("bare `x` with `deny`", P("deny /a x, /a ix,"), asked=64, expected="0 0 denied -")
for perms in ["ixpx", "ixix", "q", "rz", "Pux", "pUx", "Iix", "uix", "R", "r+", "=", "ux-"]: refused("PERMS `%s`" % perms, P("/a ↓%s," % perms), 8)
refused("PERMS `xx` with `deny`", P("deny /a ↓xx,"), 8)

# ---- the answer
add("owner rule, no mark", P("owner /a r,"), expected="0 1 - -")
add("owner rule, mark", P("owner /a r,"), owner=1, expected="1 0 - -")
add("owner deny, no mark", P("/a r, owner deny /b r, deny owner /a r,").replace("owner deny /b r, ", ""), expected="1 0 - -")
add("owner deny, mark", P("/a r, deny owner /a r,"), owner=1, expected="0 0 - -")
add("not only the first rule", P("/b r, /a w, /a r,"), expected="1 0 - -")
add("deny before allow", P("deny /a r, /a r,"), expected="0 0 - -")
add("exact before others", P("/a ix, /* px,"), asked=64, expected="64 0 ix -")
add("exact before others, other order", P("/* px, /a ix,"), asked=64, expected="64 0 ix -")
add("two exact: conflict", P("/a ix, /a ux,"), asked=64, expected="0 64 conflict -")
add("two others: conflict", P("/* ix, /** ux,"), asked=64, expected="0 64 conflict -")
add("two targets: conflict", P("/a px -> t, /a px -> u,"), asked=64, expected="0 64 conflict -")
add("target and none: conflict", P("/a px -> t, /a px,"), asked=64, expected="0 64 conflict -")
add("equal transitions", P('/a px -> t, /a px -> "t",'), asked=64, expected="64 0 px t")
add("denial before conflict", P("/a ix, /a ux, deny /** x,"), asked=64, expected="0 0 denied -")
add("no transition", P("/a r,"), asked=64, expected="0 64 denied -")
add("not asked", P("/a rix,"), asked=1, expected="1 0 - -")
add("not asked, conflict unseen", P("/a ix, /a rux,"), asked=1, expected="1 0 - -")
add("one rule, literal and starred expansions, is exact", P("/{a,*} ix, /* ux,"), asked=64, expected="64 0 ix -")
add("one rule, only its starred expansion matches", P("/{b,*} ix, /* ux,"), asked=64, expected="0 64 conflict -")
add("recorded: granted with audit allow", P("audit /a r, /a w,"), asked=3, expected="3 1 - -")
add("recorded: refused, no rule", P("/a r,"), asked=3, expected="1 2 - -")
add("not recorded: denied", P("/a r, deny /a w,"), asked=3, expected="1 0 - -")
add("recorded: denied with audit deny", P("/a rw, audit deny /a w,"), asked=3, expected="1 2 - -")
add("recorded: audit allow of a denied bit", P("audit /a r, deny /a r,"), expected="0 0 - -")
add("recorded: x by an audit rule that did not decide", P("/a ix, audit /* ux,"), asked=64, expected="64 64 ix -")
add("other profiles count for nothing", P("/a r,") + "/q { deny /a r, }", expected="1 0 - -")
for n in (255, 256):
    add("target of %d bytes" % n, P("/a px -> %s," % ("t" * n)), asked=64, expected="64 0 px " + "t" * n if n == 255 else "refused 9 1 15 -")

# ---- refusals, their order and sizes named in 01
add("text of 65,535 bytes", P("/a r,") + "#" * (65535 - len(P("/a r,"))), expected="1 0 - -")
add("text of 65,536 bytes, before 2 and 3", "\0" * 65536, "", 0, expected="refused 1 0 0 -")
for path in ["", "a", "/a\0", "//", "/a//b", "a/"]: add("path %r" % path, "\0", path, 0, expected="refused 2 0 0 -")
add("path of 4,095 bytes", P("/** r,"), "/" + "a" * 4094, expected="1 0 - -")
add("path of 4,096 bytes", P("/** r,"), "/" + "a" * 4095, expected="refused 2 0 0 -")
for asked in (0, 128, 255): add("asked %d" % asked, "\0", asked=asked, expected="refused 3 0 0 -")
refused("text before 11", "↓\0", 4, name="x")
four = "".join("@{V%d}=a b c d\n" % i for i in range(5))
add("four variables of four values", four + P("/@{V0}@{V1}@{V2}@{V3} r,"), "/abcd", expected="1 0 - -")
add("five variables of four values", four + P("/@{V0}@{V1}@{V2}@{V3}@{V4} r,"), "/abcda", expected="refused 9 6 6 -")
long = "a" * 1023
add("pattern of 1,024 bytes", P("/%s r," % long), "/" + long, expected="1 0 - -")
refused("pattern of 1,025 bytes, before its form", P("↓/%s[ r," % long), 9)
add("quotes never counted", P('"/%s" r,' % long), "/" + long, expected="1 0 - -")
refused("form before a bad variable", P("↓/@{B}[ r,"), 7)
refused("a bad variable before the first `/`", P("↓a@{B} r,"), 6)
refused("expansions before the first `/`", four + P("↓@{V0}@{V0}@{V0}@{V0}@{V0} r,"), 9, 6)
refused("first offending token in reading order", "/p {\n/a ↓q,\n[ r,\n}", 8, 2)

# ---- sizes from both sides
for n in (32, 33):
    add("%d profiles" % n, "".join("/p%d {}\n" % i for i in range(n - 1)) + P("/a r,"), expected="1 0 - -" if n == 32 else "refused 9 33 1 -")
    add("%d variables" % n, "".join("@{V%d}=/a\n" % i for i in range(n)) + P("@{V0} r,"), expected="1 0 - -" if n == 32 else "refused 9 33 3 -")
for n in (512, 513):
    add("%d rules" % n, "/p {\n" + "/a r,\n" * n + "}\n", expected="1 0 - -" if n == 512 else "refused 9 514 1 -")
    add("%d rules in two profiles" % n, "/q {\n" + "/a r,\n" * 256 + "}\n/p {\n" + "/a r,\n" * (n - 256) + "}\n", expected="1 0 - -" if n == 512 else "refused 9 516 1 -")
for n in (16, 17):
    add("%d values" % n, "@{A}=" + " ".join("/%d" % i for i in range(n)) + "\n" + P("@{A} r,"), "/15", expected="1 0 - -" if n == 16 else "refused 9 1 60 -")
    add("%d values in two assignments" % n, "@{A}=/a\n@{A}+=" + " ".join("/%d" % i for i in range(n - 1)) + "\n" + P("@{A} r,"), "/14", expected="1 0 - -" if n == 16 else "refused 9 2 57 -")
for n in (1024, 1025):
    add("value of %d bytes" % n, "@{A}=/" + "a" * (n - 1) + "\n" + P("@{A} r,"), "/" + "a" * (n - 1), expected="1 0 - -" if n == 1024 else "refused 9 1 6 -")
    add("pattern of %d bytes" % n, P("/" + "a" * (n - 1) + " r,"), "/" + "a" * (n - 1), expected="1 0 - -" if n == 1024 else "refused 9 1 6 -")
for n in (255, 256):
    add("profile name of %d bytes" % n, "/" + "n" * (n - 1) + " { /a r, }", name="/" + "n" * (n - 1), expected="1 0 - -" if n == 255 else "refused 9 1 1 -")
for n in (65535, 65536):
    add("text of %d bytes" % n, P("/a r,") + " " * (n - len(P("/a r,"))), expected="1 0 - -" if n == 65535 else "refused 1 0 0 -")

# ---- open points
for note, text, number, line in [
    ("`#included`", P("↓#included\n"), 5, 1), ("`#include` then NUL", "↓#include \0", 5, 1),
    ("comment glued to a bad token", P("↓/a[#include\n"), 7, 1), ("comment glued to a good token", P("/a↓#include\n"), 5, 1),
    ('`^"x"`', P('↓^"x" r,'), 4, 1), ('`priority="1"`', P('↓priority="1" r,'), 4, 1), ('PERMS `r"x"`', P('/a ↓r"x",'), 4, 1),
    ('`@{A"}`', '@{↓A"}=/x\n', 4, 1), ('`^h,"x"`', P('↓^h,"x" r,'), 5, 1), ('head then `(a,"b")`', '/p ↓(a,"b") {}', 4, 1),
    ('`"audit"` at a rule\'s start', P('↓"audit" /a r,'), 7, 1), ('`"}"` at a rule\'s start', P('↓"}" r,'), 7, 1),
    ('`"{"` at a rule\'s start', P('↓"{" r,'), 7, 1), ('`"{"` after a head\'s name', '/p ↓"{" }', 5, 1),
    ("quoted `,`", P('/a r ↓","'), 4, 1), ("quoted `->`", P('/a px ↓"->" t,'), 4, 1), ("quoted `=`", '@{A} ↓"=" /x\n', 4, 1),
    ('`"profile"` outside', '↓"profile" p {}', 4, 1), ("empty PERMS", P('/a ↓"",'), 4, 1), ("empty target", P('/a px -> ↓"",'), 4, 1),
    ("empty pattern", P('↓"" r,'), 7, 1), ("bad PERMS, then NUL", "/p { /a ↓q\0", 8, 1), ("word, then NUL", "↓network\0", 5, 1),
    ("good PERMS, then NUL", "/p { /a r↓\0", 4, 1), ("name, LF, `#include`", "@{A}\n↓#include", 5, 2),
    ("name, end", "@{A}\n↓", 4, 2), ("`=`, `#include`", "@{A}↓= #include", 4, 1), ("value, `#include`", "@{A}=x ↓#include", 5, 1),
    ("`+ =`", "@{A}↓+ =x\n", 4, 1), ("`profile p {` as values", "@{A}=x profile p ↓{\n", 7, 1),
    ("malformed name before the operator", "@{↓1}", 6, 1), ("inside, `@{A} = x`", "@{A}=/x\n" + P("@{A} ↓= x,"), 8, 2),
    ("`profile{` outside", "↓profile{", 4, 1), ("`profile,` outside", "↓profile,", 4, 1), ("`profile{` inside", P("↓profile{ r,"), 7, 1),
    ("`profile,` inside", P("↓profile,"), 5, 1), ("`profile {`", "profile\n↓{", 4, 2), ("`/a{b,c} {`", "/a{↓b,c} {", 7, 1),
    ("NUL after a head's name", "/p↓\0{}", 4, 1), ("outside, a qualifier before a fixed word", "↓audit network", 4, 1),
    ("`include<x>` outside", "↓include<x>", 4, 1), ("`hat{` outside", "↓hat{", 4, 1), ("`include<x>` inside", P("↓include<x> r,"), 7, 1),
    ("`hat{` inside", P("↓hat{ r,"), 7, 1), ("`/a -> t,`", P("/a ↓-> t,"), 8, 1), ("`/a }`", "/p { /a ↓}", 8, 1), ("`/a px->t,`", P("/a ↓px->t,"), 8, 1),
    ("PERMS missing at the end", "/p {\n/a\n↓", 4, 3), ("`audit {`", P("audit ↓{ r,"), 5, 1), ("`audit }`", P("audit ↓} r,"), 7, 1),
    ("a comma where a pattern is wanted", P("/a r,↓, r,"), 7, 1), ("`audit,`", P("↓audit, r,"), 7, 1), ("`deny{`", P("↓deny{ r,"), 7, 1),
    ("`audit profile`", P("audit ↓profile,"), 5, 1), ("`-->`", P("/a px ↓--> t,"), 4, 1), ("`- >`", P("/a px ↓- > t,"), 4, 1),
    ("`->` with `ux` before the target", P("/a ux ↓-> \0,"), 8, 1), ("target `t{`", P("/a px -> ↓t{,"), 4, 1),
    ("long target with a bad byte", P("/a px -> ↓%s*," % ("t" * 300)), 4, 1), ("`->,`", P("/a px ->↓,"), 4, 1),
    ("`\\@{A}`", P("↓/\\@{A} r,"), 7, 1), ("`@{A,B}`", P("↓/@{A,B} r,"), 6, 1), ("`@{A\\}`", P("↓/@{A\\} r,"), 6, 1),
    ("`@{A{b}`", P("↓/@{A{b} r,"), 6, 1), ("`{a,@{A}`", P("↓/{a,@{A} r,"), 7, 1), ("`{a\\,b}`", P("↓/{a\\,b} r,"), 7, 1),
    ("form before a variable", P("↓/@{B}{ r,"), 7, 1),
    ("33rd variable", "".join("@{V%d}=x\n" % i for i in range(32)) + "@{↓V32}=x\n", 9, 33),
    ("33rd variable, no operator", "".join("@{V%d}=x\n" % i for i in range(32)) + "@{L}\n↓", 4, 34),
    ("33rd variable, `+=`", "".join("@{V%d}=x\n" % i for i in range(32)) + "@{↓L}+=x\n", 6, 33),
    ("33rd profile with a used name", "".join("/p%d {}\n" % i for i in range(32)) + "↓/p0 {}\n", 9, 33),
]: refused(note, text, number, line)
for note, text, path, asked, expected in [
    ("`# include` and `##include`", P("# include\n##include\n/a r,"), "/a", 1, "1 0 - -"),
    ("nothing after a closing quote", P('"/a"r,'), "/a", 1, "1 0 - -"),
    ("three values", '@{A}="x""y"z\n' + P("/@{A} r,"), "/z", 1, "1 0 - -"),
    ("CR in quotes", P('"/a\rb" r,'), "/a\rb", 1, "1 0 - -"),
    ("bytes from 128, VT, FF", P("/\xff\x80\x0b\x0c r,"), "/\xff\x80\x0b\x0c", 1, "1 0 - -"),
    ("`@{A}==x`", "@{A}==x\n" + P("/@{A} r,"), "/=x", 1, "1 0 - -"),
    ("one-byte braces", "/q {/a r,}/p {/a w,}", "/a", 2, "2 0 - -"),
    ("quoted head", '"/p" { /a r, }', "/a", 1, "1 0 - -"),
    ("`audit {,/a}/b`", P("audit {,/a}/b r,"), "/a/b", 1, "1 1 - -"),
    ("LF and comments between tokens", "profile # c\n/p\n#c\n{\naudit #c\n/a\n#c\npx # c\n->#c\nt\n,#c\n}", "/a", 64, "64 64 px t"),
    ("`\\/` comes first and joins", P("\\//a r,"), "/a", 1, "1 0 - -"),
    ("`\\@{A,B}`", P("/\\@{A,B} r,"), "/@B", 1, "1 0 - -"),
    ("`@@{A}`", "@{A}=x\n" + P("/@@{A} r,"), "/@x", 1, "1 0 - -"),
    ("`{,}`", P("/a{,} r,"), "/a", 1, "1 0 - -"),
    ("`\\**`", P("/\\** r,"), "/*ab", 1, "1 0 - -"),
    ("`**` takes zero bytes", P("/a** r,"), "/a", 1, "1 0 - -"),
    ("`ix` does not carry m", P("/a ix,"), "/a", 8, "0 8 - -"),
]: add(note, text, path, asked, expected)
add("an impossible asked name", P("/a r,"), name="\"/p\"", expected="refused 11 0 0 -")
add("an empty asked name", P("/a r,"), name="", expected="refused 11 0 0 -")

# ---- request Two: the settled places, in the open points' own signs (⏎ LF, ␍ CR, ␀ NUL; P{ a profile's head; refusal@line:column)
def settled(text, place):
    number, line, column = place.replace("@", ":").split(":")
    plain = text.replace("⏎", "\n").replace("␍", "\r").replace("␀", "\0").replace("P{", "/p {")
    note = text if len(text) < 60 else text[:20] + " … " + text[-20:]
    add("the settled place: `%s` is %s" % (note, place), plain, expected="refused %s %s %s -" % (number, line, column))
variables = "".join("@{V%d}=x⏎" % i for i in range(32))
for text, place in [
    # a quoted token is at its opening quote, a fault inside a token at the token's first byte
    ('P{ "/a{" r,', "7@1:6"), ('P{ "/a[^" r,', "7@1:6"), ('P{ "/@{U}" r,', "6@1:6"), ('P{ "x" r,', "7@1:6"), ('P{ /a px -> "t*",', "4@1:15"),
    ("P{ /a{ r,", "7@1:6"), ("P{ /a/b@{U} r,", "6@1:6"), ("@{A}=x y{", "7@1:8"), ('@{A}=x "y{"', "7@1:8"), ("profile p*q {", "4@1:9"),
    ('profile "p*q" {', "4@1:9"), ("P{ /a rq,", "8@1:9"), ('P{} profile "/p" {', "10@1:15"),
    # at the name of an assignment
    ("@{1}=x", "6@1:3"), ("@{}=x", "6@1:3"), ("@{A}=x⏎@{A}=x", "6@2:3"), ("@{A}+=x", "6@1:3"), (variables + "@{L}=x", "9@33:3"),
    ('@{A"}=x', "4@1:3"), ('@{"}=x', "4@1:3"), ('@{A"=x', "4@1:1"), ('@{A" }=x', "4@1:1"),
    # after the first profile
    ("P{} @{A}=x", "4@1:7"), ('P{} @{A"}=x', "4@1:7"), ("P{} @{1}=x", "4@1:7"), ("P{} @{A", "4@1:7"),
    # an assigned name without its `}`
    ("@{A }=x", "4@1:1"), ("@{A#}=x", "4@1:1"), ("@{A␀}=x", "4@1:1"), ("@{A", "4@1:1"), ("⏎ @{A⏎}=x", "4@2:2"),
    # no value, no operator
    ("@{A}=", "4@1:5"), ("@{A} = ⏎x", "4@1:6"), ("@{A}=x⏎@{A}+=", "4@2:5"), ("@{A}=x⏎@{A} += #c", "4@2:6"),
    ("@{A}⏎  =x", "4@2:3"), ("@{A} + =x", "4@1:6"), ("@{A}", "4@1:5"), ("@{A} ⏎", "4@2:1"),
    # NUL and comments
    ("@{A}=␀", "4@1:6"), ("@{A}= ␀", "4@1:7"), ("@{A}=#␀", "4@1:5"), ("@{A}= #include", "4@1:5"), ("@{A}=x ␀", "4@1:8"),
    ("@{A} ␀", "4@1:6"), ("@{A} #␀", "4@1:7"), ("# a␀", "4@1:4"), ("@{A}=x #␀", "4@1:9"), ('P{ "/a␀" r,', "4@1:6"), ('P{ "/a⏎" r,', "4@1:6"),
    # the text's end, CR, bytes
    ("P{⏎", "4@2:1"), ("P{", "4@1:5"), ("profile", "4@1:8"), ("profile ␍", "4@1:10"), ("P{ /a r", "4@1:10"), ("P{ /a r, #c", "4@1:14"),
    ("␍⏎␍}", "4@2:2"), ("P{ /\xc3\xa9 q,", "8@1:10"),
    # marks and first words
    ("P{ /a r, #include", "5@1:12"), ("P{ /a r -> t,", "8@1:11"), ("P{ audit deny network,", "5@1:17"), ("P{ owner⏎ ^h,", "5@2:2"),
    # several faults in a line; columns of two bytes and of three, the last there can be
    ("P{ /a rq, /b[ x,", "8@1:9"), ("P{ " + " " * 300 + "/b[ x,", "7@1:306"), ("P{" + " " * 65531, "4@1:65536"),
]: settled(text, place)

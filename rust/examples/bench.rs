//! Times asking and `decide` against plain C functions and prints Markdown
//! tables.
//!
//! `cargo run --release --example bench` measures everything in one run of
//! about a minute. For `valgrind --tool=callgrind` (`tools/instructions`)
//! only one kind of work is done, so many times: `bench ask KIND RULES TIMES`
//! asks requests of one profile that was read once, `bench fnmatch KIND
//! RULES TIMES` holds the same paths to its patterns, taken apart; `bench
//! decide RULES TIMES` asks requests of its text, `bench read RULES TIMES`
//! the same with a profile name that the text lacks, `bench fill RULES TIMES`
//! reads it into memory, `bench long TIMES` reads the long text, and `bench
//! lines TIMES` counts its LFs.

use sidluqethe::{decide, Perms, Policy, Reason, Request};
use std::env;
use std::ffi::CString;
use std::hint::black_box;
use std::time::Instant;

/// The two C functions compared with.
mod c {
    use std::ffi::{c_char, c_int, c_void, CString};

    extern "C" {
        fn fnmatch(pattern: *const c_char, string: *const c_char, flags: c_int) -> c_int;
        fn memchr(bytes: *const c_void, byte: c_int, count: usize) -> *const c_void;
    }

    /// `FNM_PATHNAME` of glibc and musl: wildcards don't match a `/`.
    const FNM_PATHNAME: c_int = 1;

    pub fn matches(pattern: &CString, path: &CString) -> bool {
        // SAFETY: both are strings that end with NUL; they are only read.
        unsafe { fnmatch(pattern.as_ptr(), path.as_ptr(), FNM_PATHNAME) == 0 }
    }

    pub fn holds(bytes: &[u8], byte: u8) -> bool {
        // SAFETY: the pointer and the length are those of one slice.
        unsafe { !memchr(bytes.as_ptr().cast(), byte.into(), bytes.len()).is_null() }
    }
}

const PATHS: usize = 10_000;
const ROUNDS: usize = 10;
/// At most so many rules are weighed in a round.
const WEIGHED: usize = 100_000;
/// Short work is done so many times in a round.
const PASSES: usize = 50;

/// A seeded source of numbers (SplitMix64).
struct Random(u64);

impl Random {
    fn below(&mut self, limit: usize) -> usize {
        self.0 = self.0.wrapping_add(0x9e37_79b9_7f4a_7c15);
        let mut z = self.0;
        z = (z ^ (z >> 30)).wrapping_mul(0xbf58_476d_1ce4_e5b9);
        z = (z ^ (z >> 27)).wrapping_mul(0x94d0_49bb_1331_11eb);
        ((z ^ (z >> 31)) % limit as u64) as usize
    }
}

/// The pattern of rule `n` and a path that it matches.
fn rule(n: usize, r: usize) -> (String, String) {
    let (pattern, path) = match n % 8 {
        0 => (format!("/usr/share/x{n}/*"), format!("f{r}")),
        1 => (format!("/var/lib/lab/run{n}/**"), format!("d{r}/out.txt")),
        2 => (format!("/etc/lab/x{n}/main.conf"), "main.conf".into()),
        3 => (
            format!("/srv/data/set{n}/part-????.bin"),
            format!("part-{:04}.bin", r % 10_000),
        ),
        4 => (
            format!("/home/lab/job{n}/in/[a-f0-9]*.txt"),
            format!("c{r}.txt"),
        ),
        5 => (format!("/opt/tools/v{n}/bin/*"), format!("tool{r}")),
        6 => (format!("/tmp/lab-{n}/[^.]*.log"), format!("x{r}.log")),
        _ => (
            format!("/var/cache/lab/c{n}/**/o?"),
            format!("d/{r}/o{}", r % 10),
        ),
    };
    let directory = pattern.find(['*', '?', '[']).unwrap_or(pattern.len());
    let directory = pattern[..directory].rfind('/').unwrap() + 1;
    let path = format!("{}{path}", &pattern[..directory]);
    (pattern, path)
}

/// What stands in front of each pattern and behind it: nothing, a variable of
/// two or of four values, one of two values and an alternation, or two
/// alternations in front.
#[derive(Clone, Copy)]
enum Kind {
    Plain,
    Two,
    Four,
    Mixed,
    Braces,
}

const KINDS: [Kind; 5] = [
    Kind::Plain,
    Kind::Two,
    Kind::Four,
    Kind::Mixed,
    Kind::Braces,
];

impl Kind {
    fn name(self) -> &'static str {
        match self {
            Kind::Plain => "plain",
            Kind::Two => "two",
            Kind::Four => "four",
            Kind::Mixed => "mixed",
            Kind::Braces => "braces",
        }
    }

    fn of(word: &str) -> Kind {
        let found = KINDS.into_iter().find(|kind| kind.name() == word);
        found.expect("plain, two, four, mixed or braces")
    }

    /// As the profile writes it, and each of its expansions.
    fn front(self) -> (&'static str, &'static [&'static str]) {
        let four = &[
            "/data/runs",
            "/archive/runs",
            "/scratch/runs",
            "/mnt/lab/runs",
        ];
        match self {
            Kind::Plain => ("", &[""]),
            Kind::Two | Kind::Mixed => ("@{RUNS}", &four[..2]),
            Kind::Four => ("@{RUNS}", four),
            Kind::Braces => (
                "/{data,archive}{,/old}",
                &["/data", "/archive", "/data/old", "/archive/old"],
            ),
        }
    }

    /// The same of what stands behind.
    fn back(self) -> (&'static str, &'static [&'static str]) {
        match self {
            Kind::Mixed => ("{,.gz}", &["", ".gz"]),
            _ => ("", &[""]),
        }
    }
}

/// A text of one profile with these patterns.
fn text<'a>(kind: Kind, patterns: impl Iterator<Item = &'a str>) -> Vec<u8> {
    let ((front, expansions), (back, _)) = (kind.front(), kind.back());
    let rule = |pattern| format!("  {front}{pattern}{back} r,\n");
    let rules: String = patterns.map(rule).collect();
    let variable = match kind {
        Kind::Two | Kind::Four | Kind::Mixed => format!("@{{RUNS}}={}\n", expansions.join(" ")),
        Kind::Plain | Kind::Braces => String::new(),
    };
    format!("{variable}profile lab {{\n{rules}}}\n").into_bytes()
}

/// A profile of so many rules, its patterns for C, each expansion by itself,
/// and paths: about one in eight matches, the others miss early, by a number
/// or at their end.
struct Load {
    text: Vec<u8>,
    patterns: Vec<CString>,
    paths: Vec<CString>,
}

fn load(kind: Kind, rules: usize) -> Load {
    let mut random = Random(rules as u64);
    let ((_, fronts), (_, backs)) = (kind.front(), kind.back());
    let patterns: Vec<String> = (0..rules).map(|n| rule(n, 0).0).collect();
    let paths = (0..PATHS).map(|_| {
        let (n, r) = (random.below(rules), random.below(100_000));
        let path = match random.below(10) {
            0 => rule(n, r).1,
            1..=5 => rule(n + 1_000, r).1,
            6..=7 => rule(n, r).1 + "/.more",
            _ => format!("/proc/{r}/task/{n}/status"),
        };
        CString::new(format!("{}{path}", fronts[r % fronts.len()])).unwrap()
    });
    let both = fronts
        .iter()
        .flat_map(|f| backs.iter().map(move |b| (f, b)));
    let both: Vec<_> = both.collect();
    let expanded = patterns
        .iter()
        .flat_map(|p| both.iter().map(move |(f, b)| format!("{f}{p}{b}")));
    Load {
        text: text(kind, patterns.iter().map(String::as_str)),
        paths: paths.collect(),
        patterns: expanded.map(|p| CString::new(p).unwrap()).collect(),
    }
}

/// How many of the paths may be read, by what was read once.
fn by_asking(policy: &Policy, paths: &[CString]) -> usize {
    let reads = |path: &&CString| {
        let request = Request::new("lab", path.as_bytes(), Perms::READ);
        let answer = policy.ask(&request);
        answer.expect("a good request").granted == Perms::READ
    };
    paths.iter().filter(reads).count()
}

/// How many of the paths may be read.
fn by_decide(text: &[u8], paths: &[CString]) -> usize {
    let reads = |path: &&CString| {
        let answer = decide(text, &Request::new("lab", path.as_bytes(), Perms::READ));
        answer.expect("an accepted text").granted == Perms::READ
    };
    paths.iter().filter(reads).count()
}

/// Has the text read for each of the paths, and nothing matched.
fn by_reading(text: &[u8], paths: &[CString]) -> usize {
    let is_read = |path: &&CString| {
        let answer = decide(text, &Request::new("absent", path.as_bytes(), Perms::READ));
        answer.is_err_and(|refusal| refusal.reason == Reason::NoProfile)
    };
    paths.iter().filter(is_read).count()
}

/// How many of the paths some pattern matches; all patterns are tried, as
/// `decide` weighs all rules.
fn by_fnmatch(patterns: &[CString], paths: &[CString]) -> usize {
    let matched = |path: &&CString| patterns.iter().filter(|p| c::matches(p, path)).count() > 0;
    paths.iter().filter(matched).count()
}

fn line_feeds(bytes: &[u8]) -> usize {
    let mut count = 0;
    for &byte in bytes {
        if byte == b'\n' {
            count += 1;
        }
    }
    count
}

/// Microseconds for each of `turns`, and the work's result.
fn time<T>(turns: usize, work: impl FnOnce() -> T) -> (f64, T) {
    let start = Instant::now();
    let result = black_box(work());
    (start.elapsed().as_secs_f64() * 1e6 / turns as f64, result)
}

/// The median of each column; of an even number of rows, the upper one.
fn medians<const N: usize>(rows: &[[f64; N]]) -> [f64; N] {
    std::array::from_fn(|column| {
        let mut values: Vec<f64> = rows.iter().map(|row| row[column]).collect();
        values.sort_by(f64::total_cmp);
        values[values.len() / 2]
    })
}

/// One row of the table: each round takes other paths and times the three
/// in turn, so that a busy machine slows all of them.
fn requests(rules: usize) {
    let load = load(Kind::Plain, rules);
    let asked = (PATHS / ROUNDS).min(WEIGHED / rules);
    let (mut granted, mut matched) = (0, 0);
    let mut rows = Vec::new();
    for paths in load.paths.chunks(asked).take(ROUNDS) {
        let (whole, count) = time(asked, || by_decide(&load.text, paths));
        granted += count;
        let (reading, count) = time(asked, || by_reading(&load.text, paths));
        assert_eq!(count, asked);
        let passes = || (0..PASSES).map(|_| by_fnmatch(&load.patterns, paths)).sum();
        let (loops, count): (f64, usize) = time(asked * PASSES, passes);
        matched += count / PASSES;
        let (ratio, matching) = (whole / loops, (whole - reading) / loops);
        let share = 100.0 * reading / whole;
        rows.push([whole, reading, loops, ratio, matching, share]);
    }
    let [whole, reading, loops, ratio, matching, share] = medians(&rows);
    let asked = asked * ROUNDS;
    println!(
        "| {rules} | {} | {asked} | {:.1}% | {:.1}% | {whole:.1} | {reading:.1} | {loops:.2} | {ratio:.0} | {matching:.0} | {share:.0}% | {:.0}% |",
        load.text.len(),
        100.0 * granted as f64 / asked as f64,
        100.0 * matched as f64 / asked as f64,
        100.0 - share,
    );
}

/// A text of 512 rules and 54,800 bytes.
fn long_text() -> Vec<u8> {
    let patterns: Vec<String> = (0..512)
        .map(|n| format!("/var/lib/lab/projects/department-{:02}/experiment-{n:04}/final-results/checkpoint-????/[a-f0-9]*/values/**", n % 37))
        .collect();
    text(Kind::Plain, patterns.iter().map(String::as_str))
}

fn any_path() -> [CString; 1] {
    [CString::new("/proc/1/status").unwrap()]
}

/// One row of the table of asking: all paths in each round.
fn asking(kind: Kind, rules: usize) {
    let load = load(kind, rules);
    let policy = Policy::read(&load.text[..]).expect("an accepted text");
    let (mut granted, mut matched) = (0, 0);
    let mut rows = Vec::new();
    for _ in 0..ROUNDS {
        let (ask, count) = time(PATHS, || by_asking(&policy, &load.paths));
        granted = count;
        let (loops, count) = time(PATHS, || by_fnmatch(&load.patterns, &load.paths));
        matched = count;
        rows.push([ask, loops, ask / loops]);
    }
    let [ask, loops, ratio] = medians(&rows);
    println!(
        "| {} | {rules} | {} | {:.1}% | {:.1}% | {ask:.3} | {loops:.3} | {ratio:.2} | {:.1} |",
        kind.name(),
        load.patterns.len(),
        100.0 * granted as f64 / PATHS as f64,
        100.0 * matched as f64 / PATHS as f64,
        ask * 40.0,
    );
}

fn reading() {
    let text = long_text();
    let path = any_path();
    let mut rows = Vec::new();
    for _ in 0..PASSES {
        let (read, count) = time(1, || by_reading(&text, &path));
        assert_eq!(count, 1);
        let passes = || (0..PASSES).any(|_| c::holds(black_box(&text), 0));
        let (find, found) = time(PASSES, passes);
        assert!(!found);
        let passes = || (0..PASSES).map(|_| line_feeds(black_box(&text))).sum();
        let (lines, count): (f64, usize) = time(PASSES, passes);
        assert_eq!(count, PASSES * 514);
        rows.push([read, find, lines, read / find, read / lines]);
    }
    let [read, find, lines, by_find, by_lines] = medians(&rows);
    let bytes = text.len();
    let each = 1e3 * read / bytes as f64;
    println!("Reading {bytes} bytes with 512 rules: {read:.0} µs, {each:.1} ns a byte.");
    println!("Reading / a pass of memchr ({find:.2} µs): {by_find:.0}.");
    println!("Reading / a loop that counts LFs ({lines:.2} µs): {by_lines:.0}.");
}

/// Does one kind of work so many times.
fn only(arguments: &[&str]) {
    let number = |word: &str| word.parse::<usize>().expect("a number");
    let count = match *arguments {
        ["ask", kind, rules, times] => {
            let load = load(Kind::of(kind), number(rules));
            let policy = Policy::read(&load.text[..]).expect("an accepted text");
            by_asking(&policy, &load.paths[..number(times)])
        }
        ["fnmatch", kind, rules, times] => {
            let load = load(Kind::of(kind), number(rules));
            by_fnmatch(&load.patterns, &load.paths[..number(times)])
        }
        ["fill", rules, times] => {
            let load = load(Kind::Plain, number(rules));
            let read = |_| Policy::read(&load.text[..]).expect("an accepted text");
            (0..number(times)).map(|n| read(n).rule_count()).sum()
        }
        ["decide", rules, times] => {
            let load = load(Kind::Plain, number(rules));
            by_decide(&load.text, &load.paths[..number(times)])
        }
        ["read", rules, times] => {
            let load = load(Kind::Plain, number(rules));
            by_reading(&load.text, &load.paths[..number(times)])
        }
        ["long", times] => {
            let (text, path) = (long_text(), any_path());
            (0..number(times)).map(|_| by_reading(&text, &path)).sum()
        }
        ["lines", times] => {
            let text = long_text();
            let times = 0..number(times);
            times.map(|_| line_feeds(black_box(&text))).sum()
        }
        _ => panic!("ask or fnmatch KIND RULES TIMES; decide, read or fill RULES TIMES; long or lines TIMES"),
    };
    println!("{count}");
}

fn main() {
    let arguments: Vec<String> = env::args().skip(1).collect();
    if !arguments.is_empty() {
        let words: Vec<&str> = arguments.iter().map(String::as_str).collect();
        return only(&words);
    }
    let start = Instant::now();
    println!("Medians of {ROUNDS} rounds, per request; ratios and shares are taken in each round.");
    println!("fnmatch takes `**` for `*`, so it matches less, and has no text to read.\n");
    println!("| rules | text bytes | requests | granted | fnmatch matched | decide µs | reading µs | fnmatch loop µs | decide / fnmatch | matching / fnmatch | reading share | matching share |");
    println!("|---|---|---|---|---|---|---|---|---|---|---|---|");
    for rules in [10, 100, 500] {
        requests(rules);
    }
    println!("\nRead once, asked {PATHS} times; fnmatch holds each path to each expansion.\n");
    println!("| front | rules | expansions | granted | fnmatch matched | ask µs | fnmatch loop µs | ask / fnmatch | 40,000 asks ms |");
    println!("|---|---|---|---|---|---|---|---|---|");
    for kind in KINDS {
        for rules in [10, 100, 500] {
            asking(kind, rules);
        }
    }
    println!("\nMedians of {PASSES} rounds:\n");
    reading();
    println!("\n{:.0} s in all.", start.elapsed().as_secs_f64());
}

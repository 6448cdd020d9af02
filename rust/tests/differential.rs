//! The library against the reference, on requests made from the grammar.

mod generator;
mod reference;
mod rules;
mod vector;

use generator::Stream;
use reference::text::File;
use reference::{Execute, Judgement, Match, Refusal};
use sidluqethe::Policy;
use std::collections::BTreeMap;
use std::env;
use std::time::Instant;
use vector::{fields, Request};

const SEED: u64 = 20_261_115;
const REQUESTS: usize = 200_000;

/// The run that counts: a fixed seed, at least 200,000 requests.
#[test]
fn differential() {
    compare(SEED, REQUESTS);
}

/// A run of any length: `SIDLUQETHE_SEED`, `SIDLUQETHE_REQUESTS`.
#[test]
#[ignore = "as long as it is asked to be"]
fn long() {
    let seed = number("SIDLUQETHE_SEED", SEED + 1);
    let requests = number("SIDLUQETHE_REQUESTS", 2_000_000);
    compare(seed, requests as usize);
}

fn number(variable: &str, otherwise: u64) -> u64 {
    match env::var(variable) {
        Ok(given) => given.parse().expect("a number"),
        Err(_) => otherwise,
    }
}

fn compare(seed: u64, requests: usize) {
    let start = Instant::now();
    let mut spread = Spread::default();
    let mut differences = 0;
    let mut last = None;
    for request in Stream::new(seed).take(requests) {
        let judged = request.judged();
        spread.count(&request, &judged);
        let new = last.as_ref() != Some(&request.text);
        if let Err(difference) = differs(&request, &judged, new) {
            differences += 1;
            println!("{}\t{}", request.line(), fields(&judged.answer));
            println!("  {difference}");
            assert!(differences < 20, "too many differences, seed {seed}");
        }
        last = Some(request.text);
    }
    println!(
        "compared {requests} requests, seed {seed}, {:?}",
        start.elapsed()
    );
    spread.print();
    assert_eq!(differences, 0, "seed {seed}");
}

/// What the library says where it differs. What is said of a text alone is
/// compared only where the text is new.
fn differs(request: &Request, judged: &Judgement, new: bool) -> Result<(), String> {
    let expected = fields(&judged.answer);
    let read = request.read();
    let (decided, asked) = (request.by_library(), request.by_policy(&read));
    if decided != expected || asked != expected {
        return Err(format!("the library: {decided}, by asking: {asked}"));
    }
    if new {
        in_every_room(&request.text, judged.file.as_ref())?;
    }
    match (&read, &judged.file) {
        (Ok(policy), Some(file)) => {
            if new {
                rules::same_rules(policy, file)?;
            }
            rules::same_matches(request, policy, judged)
        }
        (Err(_), None) => Ok(()),
        _ => Err(format!("the library has read {read:?}")),
    }
}

/// Reads the text with room for no rule, for one too few, for all and for
/// 512; what both say where they differ.
fn in_every_room(text: &[u8], file: Option<&File>) -> Result<(), String> {
    if text.len() > 65_535 {
        return Ok(());
    }
    let rules = file.map_or(1, |file| file.rules);
    for room in [0, rules.saturating_sub(1), rules, 512] {
        let expected = reference::text::read_within(text, room);
        let expected = expected
            .map(|file| file.rules)
            .map_err(|r| (r.number, r.line, r.column));
        let given = Policy::read_within(text, room)
            .map(|policy| policy.rule_count())
            .map_err(|r| (r.number(), r.line, r.column));
        if given != expected {
            return Err(format!("{room}: {expected:?}, the library {given:?}"));
        }
    }
    Ok(())
}

/// The generator reaches every kind of answer, by the reference alone.
#[test]
fn spread() {
    let start = Instant::now();
    let mut spread = Spread::default();
    for request in Stream::new(SEED).take(REQUESTS) {
        spread.count(&request, &request.judged());
    }
    println!(
        "judged {REQUESTS} requests, seed {SEED}, {:?}",
        start.elapsed()
    );
    spread.print();
    let wanted = (1..=11).map(|number| format!("refused {number:2}"));
    let modes = "ux Ux px Px cx Cx ix pix Pix cix Cix pux PUx cux CUx".split(' ');
    let executes = ["-", "denied", "conflict"].into_iter().chain(modes);
    let wanted = wanted.chain(executes.map(|execute| format!("execute {execute}")));
    let others = [
        "granted all",
        "granted some",
        "granted none",
        "recorded",
        "target",
        "rule matches exactly",
        "rule matches otherwise",
        "rule matches not",
    ];
    let others = others.into_iter().chain(PLACES.iter().copied());
    for kind in wanted.chain(others.map(String::from)) {
        assert!(spread.of(&kind) >= 10, "{kind}: {}", spread.of(&kind));
    }
}

/// Places of refusals that the generator reaches.
const PLACES: &[&str] = &[
    "at the end behind an LF, 4",
    "at the end of a line, 4",
    "at an assigned name, 4",
    "at an assigned name, 6",
    "at an assigned name, 9",
    "at `@{`, 4",
    "at `=`, 4",
    "at `+=`, 4",
    "at NUL, 4",
    "at a quote, 4",
    "at a quote, 5",
    "at a quote, 6",
    "at a quote, 7",
    "at a quote, 9",
    "at a quote, 10",
    "at `#`, 5",
    "at `->`, 8",
    "behind a CR",
    "column over 255",
    "column over 65535",
];

/// What a text is refused at, where it is no plain word.
fn place(front: &[u8], back: &[u8]) -> Option<&'static str> {
    let marks: [(&[u8], &str); 7] = [
        (b"@{", "`@{`"),
        (b"=", "`=`"),
        (b"+=", "`+=`"),
        (b"\0", "NUL"),
        (b"\"", "a quote"),
        (b"#", "`#`"),
        (b"->", "`->`"),
    ];
    if back.is_empty() {
        return Some(if front.ends_with(b"\n") {
            "the end behind an LF"
        } else {
            "the end of a line"
        });
    }
    if front.ends_with(b"@{") {
        return Some("an assigned name");
    }
    let mark = marks.iter().find(|(mark, _)| back.starts_with(mark));
    mark.map(|(_, name)| *name)
}

/// How many answers there are of each kind.
#[derive(Default)]
struct Spread(BTreeMap<String, usize>);

impl Spread {
    fn add(&mut self, kind: impl Into<String>) {
        *self.0.entry(kind.into()).or_default() += 1;
    }

    fn of(&self, kind: &str) -> usize {
        self.0.get(kind).copied().unwrap_or(0)
    }

    fn count(&mut self, request: &Request, judged: &Judgement) {
        for how in &judged.matches {
            self.add(match how {
                Match::Exact => "rule matches exactly",
                Match::Other => "rule matches otherwise",
                Match::No => "rule matches not",
            });
        }
        let answer = match &judged.answer {
            Err(refusal) => {
                self.add(format!("refused {:2}", refusal.number));
                return self.count_place(&request.text, refusal);
            }
            Ok(answer) => answer,
        };
        self.add("answered");
        self.add(match answer.granted {
            0 => "granted none",
            all if all == request.asked => "granted all",
            _ => "granted some",
        });
        if answer.recorded != 0 {
            self.add("recorded");
        }
        if answer.target.is_some() {
            self.add("target");
        }
        self.add(match answer.execute {
            Execute::NotAsked => "execute -".into(),
            Execute::Denied => "execute denied".into(),
            Execute::Conflict => "execute conflict".into(),
            Execute::Mode(mode) => format!("execute {mode}"),
        });
    }

    /// What stands where the text is refused.
    fn count_place(&mut self, text: &[u8], refusal: &Refusal) {
        let Refusal {
            number,
            line,
            column,
        } = *refusal;
        assert_eq!(line == 0, column == 0, "{refusal:?}");
        if line == 0 {
            return;
        }
        let mut lines = text.split_inclusive(|b| *b == b'\n');
        let start: usize = lines
            .by_ref()
            .take(line as usize - 1)
            .map(<[u8]>::len)
            .sum();
        let (front, back) = text.split_at(start + column as usize - 1);
        assert!(!front[start..].contains(&b'\n'), "{refusal:?}");
        if front[start..].contains(&b'\r') {
            self.add("behind a CR");
        }
        for over in [255, 65_535] {
            if column > over {
                self.add(format!("column over {over}"));
            }
        }
        if let Some(place) = place(front, back) {
            self.add(format!("at {place}, {number}"));
        }
    }

    fn print(&self) {
        for (kind, count) in &self.0 {
            println!("{count:8}  {kind}");
        }
    }
}

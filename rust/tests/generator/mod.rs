//! Requests made from the grammar, the same for the same seed.

mod draft;
mod faults;
mod pattern;
mod places;
mod rng;
mod sizes;

use super::vector::Request;
use draft::Draft;
use rng::Rng;

/// An endless stream of requests.
pub struct Stream {
    rng: Rng,
    waiting: Vec<Request>,
}

impl Stream {
    pub fn new(seed: u64) -> Stream {
        let mut rng = Rng::new(seed);
        // Each size several times, for its varieties.
        let mut waiting = Vec::new();
        for case in sizes::CASES {
            for turn in 0..40 {
                waiting.push(case(&mut rng, turn % 2));
            }
        }
        Stream { rng, waiting }
    }

    fn refill(&mut self) {
        let rng = &mut self.rng;
        if rng.below(500) == 0 {
            let case = *rng.pick(&sizes::CASES);
            let past = rng.below(2);
            self.waiting.push(case(rng, past));
            return;
        }
        let (draft, text) = text(rng);
        for _ in 0..rng.between(1, 4) {
            let request = request(rng, &draft, &text);
            self.waiting.push(request);
        }
    }
}

impl Iterator for Stream {
    type Item = Request;

    fn next(&mut self) -> Option<Request> {
        while self.waiting.is_empty() {
            self.refill();
        }
        self.waiting.pop()
    }
}

/// A text, and the draft that it was made from.
fn text(rng: &mut Rng) -> (Draft, Vec<u8>) {
    let mut draft = Draft::new(rng);
    let mut text;
    match rng.below(100) {
        0..=47 => text = draft.text(rng),
        48..=54 => {
            text = places::text(rng);
            draft = Draft::default();
            draft.names.push(b"/p".to_vec());
        }
        55..=71 => {
            faults::tokens(rng, &mut draft);
            text = draft.text(rng);
        }
        72..=83 => {
            text = draft.text(rng);
            faults::bytes(rng, &mut text);
        }
        84..=88 => {
            text = draft.text(rng);
            faults::cut(rng, &mut text);
        }
        89..=96 => {
            text = faults::pattern_soup(rng);
            draft = Draft::default();
            draft.names.push(b"/p".to_vec());
        }
        _ => text = faults::token_soup(rng),
    }
    (draft, text)
}

fn request(rng: &mut Rng, draft: &Draft, text: &[u8]) -> Request {
    let profile = match draft.names.len() {
        0 => None,
        count => Some(rng.below(count)),
    };
    Request {
        text: text.to_vec(),
        name: name(rng, draft, profile),
        path: path(rng, draft, profile),
        asked: asked(rng),
        owner: rng.coin(),
    }
}

fn name(rng: &mut Rng, draft: &Draft, profile: Option<usize>) -> Vec<u8> {
    match profile {
        Some(index) if rng.percent(97) => draft.names[index].clone(),
        _ => rng
            .word(&["", "p", "/p", "other", "P", "p ", "\"p\""])
            .into(),
    }
}

fn asked(rng: &mut Rng) -> u8 {
    match rng.below(40) {
        0 => rng.next() as u8,
        1 => *rng.pick(&[0, 127, 128, 255]),
        2..=15 => 1 << rng.below(7),
        16..=29 => rng.between(64, 127) as u8,
        _ => rng.between(1, 127) as u8,
    }
}

fn path(rng: &mut Rng, draft: &Draft, profile: Option<usize>) -> Vec<u8> {
    let mine = |entry: &&(usize, pattern::Nodes)| Some(entry.0) == profile;
    let patterns: Vec<_> = draft.patterns.iter().filter(mine).collect();
    let mut path = if patterns.is_empty() || rng.percent(8) {
        chance_path(rng)
    } else {
        let nodes = &rng.pick(&patterns).1;
        pattern::sample(rng, nodes, &draft.variables)
    };
    match rng.below(100) {
        0..=19 => near_miss(rng, &mut path),
        20 => path.extend(b"//"),
        21 => path.insert(rng.below(path.len() + 1), 0),
        22 => drop(path.drain(..rng.below(path.len() + 1))),
        _ => {}
    }
    path
}

fn chance_path(rng: &mut Rng) -> Vec<u8> {
    let mut path = vec![b'/'];
    for _ in 0..rng.below(6) {
        path.push(*rng.pick(b"abcx/./"));
    }
    path.dedup_by(|a, b| *a == b'/' && *b == b'/');
    path
}

/// One byte more, less or other than a match.
fn near_miss(rng: &mut Rng, path: &mut Vec<u8>) {
    let at = rng.between(1, path.len().max(1)).min(path.len());
    let byte = *rng.pick(b"abx/.\xff\"\n ");
    match rng.below(3) {
        0 => path.insert(at, byte),
        1 if at < path.len() => path[at] = byte,
        _ => drop(path.pop()),
    }
    path.dedup_by(|a, b| *a == b'/' && *b == b'/');
}

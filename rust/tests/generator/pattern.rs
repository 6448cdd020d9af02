//! Patterns: made as trees, so that they can be written and sampled.

use super::rng::Rng;

pub type Nodes = Vec<Node>;

#[derive(Clone)]
pub enum Node {
    Byte(u8),
    One,
    Star,
    Deep,
    Class(bool, Vec<(u8, u8)>),
    Choice(Vec<Nodes>),
    Use(usize),
}

/// A variable of the preamble; the last sets, over all assignments.
pub struct Variable {
    pub name: String,
    pub values: Vec<Nodes>,
}

const COMMON: &[u8] = b"aaabbbcx/./";
const RARE: &[u8] = b"_-+=,@>!~:0z9 #*?[]{}^\\\x0b\x80\xff";
const MEMBERS: &[u8] = b"abcxz.09_";

/// A pattern whose expansions all begin with `/`, if variables can be helped.
pub fn pattern(rng: &mut Rng, variables: &[Variable]) -> Nodes {
    let rooted: Vec<usize> = (0..variables.len())
        .filter(|v| variables[*v].values.iter().all(is_rooted))
        .collect();
    let mut nodes = match rng.below(10) {
        0..=2 if !rooted.is_empty() => vec![Node::Use(*rng.pick(&rooted))],
        3 => vec![Node::Choice(vec![
            vec![Node::Byte(b'/'), Node::Byte(b'a')],
            vec![Node::Byte(b'/'), Node::Byte(b'b'), Node::Byte(b'/')],
        ])],
        _ => vec![Node::Byte(b'/')],
    };
    for _ in 0..rng.below(7) {
        let node = node(rng, variables.len(), true);
        nodes.push(node);
    }
    nodes
}

/// A value; it uses only variables before its own.
pub fn value(rng: &mut Rng, own: usize) -> Nodes {
    let mut nodes = Vec::new();
    if rng.percent(80) {
        nodes.push(Node::Byte(b'/'));
    }
    for _ in 0..rng.between(usize::from(nodes.is_empty()), 4) {
        let node = node(rng, own, false);
        nodes.push(node);
    }
    nodes
}

fn is_rooted(value: &Nodes) -> bool {
    matches!(value.first(), Some(Node::Byte(b'/')))
}

fn node(rng: &mut Rng, variables: usize, choices: bool) -> Node {
    match rng.below(20) {
        0 => Node::One,
        1 | 2 => Node::Star,
        3 => Node::Deep,
        4 => class(rng),
        5 | 6 if choices => choice(rng, variables),
        7 | 8 if variables > 0 => Node::Use(rng.below(variables)),
        9 if rng.percent(40) => Node::Byte(*rng.pick(RARE)),
        _ => Node::Byte(*rng.pick(COMMON)),
    }
}

fn class(rng: &mut Rng) -> Node {
    let mut ranges = Vec::new();
    for _ in 0..rng.between(1, 3) {
        let (a, b) = (*rng.pick(MEMBERS), *rng.pick(MEMBERS));
        let single = rng.coin();
        ranges.push(if single { (a, a) } else { (a.min(b), a.max(b)) });
    }
    Node::Class(rng.percent(30), ranges)
}

fn choice(rng: &mut Rng, variables: usize) -> Node {
    let mut choices = Vec::new();
    for _ in 0..rng.between(2, 3) {
        let mut nodes = Vec::new();
        for _ in 0..rng.below(3) {
            let node = node(rng, variables, false);
            nodes.push(node);
        }
        choices.push(nodes);
    }
    Node::Choice(choices)
}

/// The pattern or value as a text writes it. Some bytes can't stand in a
/// token; an `a` takes their place.
pub fn write(rng: &mut Rng, nodes: &Nodes, variables: &[Variable], quoted: bool) -> Vec<u8> {
    let mut out = Vec::new();
    write_into(rng, &mut out, nodes, variables, quoted, false);
    out
}

fn write_into(
    rng: &mut Rng,
    out: &mut Vec<u8>,
    nodes: &Nodes,
    variables: &[Variable],
    quoted: bool,
    inside: bool,
) {
    for node in nodes {
        match node {
            Node::Byte(b' ' | b'#') if !quoted => out.push(b'a'),
            Node::Byte(byte) => {
                let must = b"*?[]{}^\\".contains(byte) || inside && *byte == b',';
                if must || *byte == b'@' && rng.coin() || rng.percent(3) {
                    out.push(b'\\');
                }
                out.push(*byte);
            }
            Node::One => out.push(b'?'),
            Node::Star => out.push(b'*'),
            Node::Deep => out.extend(b"**"),
            Node::Class(negated, ranges) => write_class(out, *negated, ranges),
            Node::Choice(choices) => {
                for (index, choice) in choices.iter().enumerate() {
                    out.push(if index == 0 { b'{' } else { b',' });
                    write_into(rng, out, choice, variables, quoted, true);
                }
                out.push(b'}');
            }
            Node::Use(index) => {
                out.extend(format!("@{{{}}}", variables[*index].name).as_bytes());
            }
        }
    }
}

fn write_class(out: &mut Vec<u8>, negated: bool, ranges: &[(u8, u8)]) {
    out.push(b'[');
    if negated {
        out.push(b'^');
    }
    for (low, high) in ranges {
        out.push(*low);
        if low != high {
            out.extend([b'-', *high]);
        }
    }
    out.push(b']');
}

/// A path that the pattern should take, mostly.
pub fn sample(rng: &mut Rng, nodes: &Nodes, variables: &[Variable]) -> Vec<u8> {
    let mut path = Vec::new();
    sample_into(rng, &mut path, nodes, variables);
    path.dedup_by(|a, b| *a == b'/' && *b == b'/');
    path
}

fn sample_into(rng: &mut Rng, path: &mut Vec<u8>, nodes: &Nodes, variables: &[Variable]) {
    for node in nodes {
        match node {
            Node::Byte(byte) => path.push(*byte),
            Node::One => path.push(*rng.pick(b"abcx.\xff")),
            Node::Star => fill(rng, path, b"abcx."),
            Node::Deep => fill(rng, path, b"ab/x."),
            Node::Class(true, _) => path.push(*rng.pick(b"abcx/_5~")),
            Node::Class(false, ranges) => {
                let (low, high) = *rng.pick(ranges);
                path.push(rng.between(low.into(), high.into()) as u8);
            }
            Node::Choice(choices) => {
                let choice = rng.pick(choices).clone();
                sample_into(rng, path, &choice, variables);
            }
            Node::Use(index) => {
                let value = rng.pick(&variables[*index].values).clone();
                sample_into(rng, path, &value, variables);
            }
        }
    }
}

fn fill(rng: &mut Rng, path: &mut Vec<u8>, from: &[u8]) {
    for _ in 0..rng.below(4) {
        path.push(*rng.pick(from));
    }
}

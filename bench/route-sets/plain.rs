//! The expansion of a route-set by std's maps and sets: the names that references lead to, then the pairs of a set and a
//! range, from direct ranges back to the sets that refer to them. It reads the registry of the benchmark alone.
use std::collections::{BTreeMap, BTreeSet};
use std::io::Read;
use std::time::Instant;

#[derive(Clone, Copy, PartialEq, Eq, PartialOrd, Ord)]
struct Range {
    address: u32,
    length: u8,
    low: u8,
    high: u8,
}

#[derive(Clone, Copy)]
enum Operator {
    Plain,
    Plus,
    Minus,
    Lengths(u8, u8),
}

impl Operator {
    fn read(text: &str) -> Operator {
        match text {
            "" => Operator::Plain,
            "^+" => Operator::Plus,
            "^-" => Operator::Minus,
            lengths => {
                let (low, high) = lengths[1..].split_once('-').unwrap_or((&lengths[1..], &lengths[1..]));
                Operator::Lengths(low.parse().unwrap(), high.parse().unwrap())
            }
        }
    }

    fn apply(self, range: Range) -> Option<Range> {
        let (low, high) = match self {
            Operator::Plain => (range.low, range.high),
            Operator::Plus => (range.low, 32),
            Operator::Minus => (range.low + 1, 32),
            Operator::Lengths(low, high) => (low.max(range.low), high),
        };
        (low <= high).then_some(Range { low, high, ..range })
    }
}

#[derive(Clone, PartialEq, Eq, PartialOrd, Ord)]
enum Node {
    AutNum(u32),
    Set(String),
}

enum Member {
    Range(Range),
    Reference(Node, Operator),
}

#[derive(Default)]
struct Registry {
    routes: Vec<(u32, Range)>,
    sets: BTreeMap<String, Vec<Member>>,
}

fn read_prefix(text: &str) -> Range {
    let (address, length) = text.split_once('/').unwrap();
    let address = address.split('.').fold(0, |bits, octet| bits << 8 | octet.parse::<u32>().unwrap());
    let length = length.parse().unwrap();
    Range { address, length, low: length, high: length }
}

fn read_member(item: &str) -> Member {
    let (front, back) = item.split_at(item.find('^').unwrap_or(item.len()));
    let operator = Operator::read(back);
    if front.contains('/') {
        return Member::Range(operator.apply(read_prefix(front)).unwrap());
    }
    match front.strip_prefix("AS").map(str::parse) {
        Some(Ok(number)) => Member::Reference(Node::AutNum(number), operator),
        _ => Member::Reference(Node::Set(front.to_string()), operator),
    }
}

fn read_registry(text: &str) -> Registry {
    let mut registry = Registry::default();
    for paragraph in text.split("\n\n").filter(|paragraph| !paragraph.trim().is_empty()) {
        let mut lines = paragraph.lines().map(|line| line.split_once(':').unwrap());
        let (class, key) = lines.next().map(|(name, value)| (name, value.trim())).unwrap();
        match class {
            "route" => {
                let origin = lines.find(|line| line.0 == "origin").unwrap().1.trim();
                registry.routes.push((origin[2..].parse().unwrap(), read_prefix(key)));
            }
            "route-set" => {
                let members = lines
                    .filter(|line| line.0 == "members")
                    .flat_map(|line| line.1.split(',').map(str::trim).map(read_member))
                    .collect();
                registry.sets.insert(key.to_string(), members);
            }
            _ => {}
        }
    }
    registry
}

/// The ranges of the set in order; none where more than `limit` names or pairs are reached.
fn expand(registry: &Registry, start: &Node, limit: usize) -> Option<Vec<Range>> {
    let mut origins: BTreeMap<u32, Vec<Range>> = BTreeMap::new();
    for (origin, range) in &registry.routes {
        origins.entry(*origin).or_default().push(*range);
    }

    let mut names = vec![start.clone()];
    let mut seen = BTreeSet::from([start.clone()]);
    let mut backward: BTreeMap<Node, Vec<(Node, Operator)>> = BTreeMap::new();
    let mut starts = Vec::new();
    let mut done = 0;
    while done < names.len() {
        let name = names[done].clone();
        done += 1;
        match &name {
            Node::AutNum(number) => {
                let ranges = origins.get(number).into_iter().flatten();
                starts.extend(ranges.map(|range| (name.clone(), *range)));
            }
            Node::Set(text) => {
                for member in registry.sets.get(text).into_iter().flatten() {
                    match member {
                        Member::Range(range) => starts.push((name.clone(), *range)),
                        Member::Reference(to, operator) => {
                            backward.entry(to.clone()).or_default().push((name.clone(), *operator));
                            if seen.insert(to.clone()) {
                                names.push(to.clone());
                            }
                        }
                    }
                }
            }
        }
        if names.len() > limit {
            return None;
        }
    }

    let mut pairs = Vec::new();
    let mut found = BTreeSet::new();
    for pair in starts {
        if found.insert(pair.clone()) {
            pairs.push(pair);
        }
    }
    let mut done = 0;
    while done < pairs.len() {
        let (name, range) = pairs[done].clone();
        done += 1;
        for (to, operator) in backward.get(&name).into_iter().flatten() {
            if let Some(range) = operator.apply(range) {
                let pair = (to.clone(), range);
                if found.insert(pair.clone()) {
                    pairs.push(pair);
                }
            }
        }
        if pairs.len() > limit {
            return None;
        }
    }

    let ranges: BTreeSet<Range> = pairs.iter().filter(|pair| pair.0 == *start).map(|pair| pair.1).collect();
    Some(ranges.into_iter().collect())
}

fn main() {
    let mut text = String::new();
    std::io::stdin().read_to_string(&mut text).unwrap();
    let registry = read_registry(&text);
    let begun = Instant::now();
    let ranges = expand(&registry, &Node::Set("RS-TOP".to_string()), 1_000_000).unwrap();
    let micros = begun.elapsed().as_micros();
    let lengths: u64 = ranges.iter().map(|range| u64::from(range.low) * 33 + u64::from(range.high)).sum();
    println!("{} {lengths} {micros}", ranges.len());
}

//! The prefixes of AS-TOP by std's maps: the ASes that its members lead to, and the routes of each. It reads the registry of the
//! benchmark alone, writes the answer to a file, and prints how many bytes it has and how many nanoseconds it took.
use std::collections::{BTreeMap, BTreeSet};
use std::fmt::Write;
use std::io::Read;
use std::net::Ipv4Addr;
use std::time::Instant;

#[derive(Default)]
struct Registry {
    sets: BTreeMap<String, Vec<String>>,
    routes: BTreeMap<u32, Vec<(u32, u8)>>,
}

fn number(name: &str) -> Option<u32> {
    name.strip_prefix("AS")?.parse().ok()
}

fn read(text: &str) -> Registry {
    let mut registry = Registry::default();
    for paragraph in text.split("\n\n") {
        let values: Vec<(&str, &str)> =
            paragraph.lines().map(|line| line.split_once(':').unwrap()).map(|(name, value)| (name, value.trim())).collect();
        match values.as_slice() {
            [("route", prefix), ("origin", origin), ..] => {
                let (address, length) = prefix.split_once('/').unwrap();
                let address = u32::from(address.parse::<Ipv4Addr>().unwrap());
                registry.routes.entry(number(origin).unwrap()).or_default().push((address, length.parse().unwrap()));
            }
            [("as-set", name), ("members", members), ..] => {
                registry.sets.insert(name.to_string(), members.split(", ").map(str::to_string).collect());
            }
            _ => {}
        }
    }
    registry
}

/// The numbers that the members of a set lead to, each set looked at once.
fn numbers(registry: &Registry, name: &str) -> BTreeSet<u32> {
    let (mut seen, mut open, mut found) = (BTreeSet::from([name]), vec![name], BTreeSet::new());
    while let Some(set) = open.pop() {
        for member in &registry.sets[set] {
            match number(member) {
                Some(number) => {
                    found.insert(number);
                }
                None if seen.insert(member) => open.push(member),
                None => {}
            }
        }
    }
    found
}

fn answer(registry: &Registry, name: &str) -> String {
    let mut prefixes: Vec<(u32, u8)> =
        numbers(registry, name).iter().filter_map(|number| registry.routes.get(number)).flatten().copied().collect();
    prefixes.sort_unstable();
    prefixes.dedup();
    let mut text = String::new();
    for (address, length) in prefixes {
        writeln!(text, "{}/{length}", Ipv4Addr::from(address)).unwrap();
    }
    text
}

fn main() {
    let mut text = String::new();
    std::io::stdin().read_to_string(&mut text).unwrap();
    let registry = read(text.trim_end());
    let start = Instant::now();
    let answer = answer(&registry, "AS-TOP");
    let asking = start.elapsed().as_nanos();
    std::fs::write(std::env::args().nth(1).unwrap(), &answer).unwrap();
    println!("{} {asking}", answer.len());
}

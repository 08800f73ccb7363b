//! The expansion of an as-set by std's maps and sets. It reads the registry of the benchmark alone.
use std::collections::{BTreeMap, BTreeSet};
use std::io::Read;
use std::time::Instant;

const RUNS: u32 = 7;

enum Member {
    AutNum(u32),
    Set(String),
}

#[derive(Default)]
struct AsSet {
    members: Vec<Member>,
    /// The maintainers whose ASes may say that they belong to the set.
    by_ref: BTreeSet<String>,
}

struct AutNum {
    number: u32,
    maintainer: String,
}

#[derive(Default)]
struct Registry {
    sets: BTreeMap<String, AsSet>,
    /// The ASes that say that they belong to a set, by its name.
    referrers: BTreeMap<String, Vec<AutNum>>,
}

fn member(item: &str) -> Member {
    match item.strip_prefix("AS-") {
        Some(_) => Member::Set(item.to_string()),
        None => Member::AutNum(item[2..].parse().unwrap()),
    }
}

/// The sets and ASes of a text in which `mnt-by` comes behind what a paragraph says of sets.
fn read(text: &str) -> Registry {
    let mut registry = Registry::default();
    let mut name = String::new();
    let mut set = String::new();
    for line in text.lines() {
        match line.split_once(": ") {
            Some(("as-set" | "aut-num" | "mntner", own)) => {
                name = own.to_string();
                set.clear();
            }
            Some(("members", list)) => {
                registry.sets.entry(name.clone()).or_default().members = list.split(", ").map(member).collect();
            }
            Some(("mbrs-by-ref", list)) => {
                registry.sets.entry(name.clone()).or_default().by_ref = list.split(", ").map(str::to_string).collect();
            }
            Some(("member-of", own)) => set = own.to_string(),
            Some(("mnt-by", own)) if !set.is_empty() => {
                let number = name[2..].parse().unwrap();
                registry.referrers.entry(set.clone()).or_default().push(AutNum { number, maintainer: own.to_string() });
            }
            _ => {}
        }
    }
    registry
}

/// The names that are reached, in the order in which they are found.
fn reached(registry: &Registry, start: &str) -> Vec<String> {
    let mut seen = BTreeSet::from([start.to_string()]);
    let mut names = vec![start.to_string()];
    let mut done = 0;
    while done < names.len() {
        for member in registry.sets.get(&names[done]).map_or(&[][..], |set| &set.members) {
            if let Member::Set(name) = member {
                if seen.insert(name.clone()) {
                    names.push(name.clone());
                }
            }
        }
        done += 1;
    }
    names
}

fn expand(registry: &Registry, start: &str) -> (Vec<u32>, Vec<String>) {
    let mut found = BTreeSet::new();
    let mut missing = BTreeSet::new();
    for name in reached(registry, start) {
        let Some(set) = registry.sets.get(&name) else {
            missing.insert(name);
            continue;
        };
        found.extend(set.members.iter().filter_map(|member| match member {
            Member::AutNum(number) => Some(*number),
            Member::Set(_) => None,
        }));
        if !set.by_ref.is_empty() {
            let referrers = registry.referrers.get(&name).map_or(&[][..], |referrers| referrers);
            found.extend(referrers.iter().filter(|own| set.by_ref.contains(&own.maintainer)).map(|own| own.number));
        }
    }
    (found.into_iter().collect(), missing.into_iter().collect())
}

fn main() {
    let mut text = String::new();
    std::io::stdin().read_to_string(&mut text).unwrap();
    let registry = read(&text);
    for _ in 0..RUNS {
        let start = Instant::now();
        let (found, missing) = expand(&registry, "AS-TOP");
        let micros = start.elapsed().as_micros();
        let sum = found.iter().fold(0u64, |sum, number| sum.wrapping_mul(31).wrapping_add(u64::from(*number)));
        println!("{} {} {sum} {micros}", found.len(), missing.len());
    }
}

// What main.rt does, by std's map of prefixes with a look-up for each of 33 lengths.
use std::collections::BTreeMap;
use std::time::Instant;

fn next(word: u64) -> u64 {
    word.wrapping_mul(6_364_136_223_846_793_005).wrapping_add(1_442_695_040_888_963_407)
}

fn masked(address: u32, length: u8) -> (u32, u8) {
    let mask = if length == 0 { 0 } else { u32::MAX << (32 - length) };
    (address & mask, length)
}

fn prefix_at(kind: u32, place: u32, word: u64) -> (u32, u8) {
    match kind {
        0 => masked((word >> 32) as u32, 24),
        1 => (place, 32),
        _ => masked((place / 9).wrapping_mul(256), 24 + (place % 9) as u8),
    }
}

fn asked_at(kind: u32, count: u32, word: u64) -> u32 {
    let asked = (word >> 32) as u32;
    let most = match kind {
        1 => count,
        2 => (count / 9).wrapping_mul(256),
        _ => 0,
    };
    if most == 0 { asked } else { asked % most }
}

fn closest(map: &BTreeMap<(u32, u8), u32>, asked: u32) -> Option<(u32, u8)> {
    (0..=32u8).rev().map(|length| masked(asked, length)).find(|prefix| map.contains_key(prefix))
}

fn main() {
    let words: Vec<u32> = std::env::args().skip(1).map(|word| word.parse().unwrap()).collect();
    let (kind, count, keep) = (words[0], words[1], words[2]);
    let mut map = BTreeMap::new();
    let mut fresh = 0u32;
    let start = Instant::now();
    let mut word = 42u64;
    if kind == 1 {
        map.insert((0, 0), 0);
    }
    for place in 0..count {
        word = next(word);
        fresh += map.insert(prefix_at(kind, place, word), place).is_none() as u32;
    }
    let inserted = start.elapsed();
    let start = Instant::now();
    let mut found = 0u64;
    word = 43;
    for _ in 0..count {
        word = next(word);
        if let Some((address, length)) = closest(&map, asked_at(kind, count, word)) {
            found = found.wrapping_add(address as u64).wrapping_add(length as u64);
        }
    }
    let looked = start.elapsed();
    let start = Instant::now();
    let mut gone = 0u32;
    word = 42;
    for place in 0..count {
        word = next(word);
        if keep == 0 {
            gone += map.remove(&prefix_at(kind, place, word)).is_some() as u32;
        }
    }
    let removed = start.elapsed();
    println!("{} {} {} {fresh} {found} {gone}", inserted.as_nanos(), looked.as_nanos(), removed.as_nanos());
}

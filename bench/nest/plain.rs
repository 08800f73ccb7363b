// What main.rt does, by std's maps: prefixes with a look-up for each of 33 lengths, other spans by first and last number.
use std::cmp::Reverse;
use std::collections::BTreeMap;
use std::time::Instant;

fn next(word: u64) -> u64 {
    word.wrapping_mul(6_364_136_223_846_793_005).wrapping_add(1_442_695_040_888_963_407)
}

fn span_at(kind: u32, place: u32, word: u64) -> (u32, u32) {
    match kind {
        0 => {
            let first = ((word >> 40) as u32).wrapping_mul(256);
            (first, first + 255)
        }
        1 => (place, place),
        _ => (place, u32::MAX - place),
    }
}

fn length_of(span: (u32, u32)) -> u8 {
    ((span.1 - span.0) as u64 + 1).leading_zeros() as u8 - 31
}

fn closest_prefix(map: &BTreeMap<(u32, u8), u32>, asked: u32) -> Option<u32> {
    (0..=32u8).rev().find_map(|length| {
        let mask = if length == 0 { 0 } else { u32::MAX << (32 - length) };
        map.get(&(asked & mask, length)).map(|_| asked & mask)
    })
}

fn closest_span(map: &BTreeMap<(u32, Reverse<u32>), u32>, asked: u32) -> Option<u32> {
    let to = (asked, Reverse(asked));
    map.range(..=to).rev().find(|(span, _)| span.1.0 >= asked).map(|(span, _)| span.0)
}

fn main() {
    let words: Vec<u32> = std::env::args().skip(1).map(|word| word.parse().unwrap()).collect();
    let (kind, count, keep) = (words[0], words[1], words[2]);
    let mut prefixes = BTreeMap::new();
    let mut spans = BTreeMap::new();
    let mut fresh = 0u32;
    let start = Instant::now();
    let mut word = 42u64;
    if kind == 1 {
        spans.insert((0, Reverse(u32::MAX)), 0);
    }
    for place in 0..count {
        word = next(word);
        let span = span_at(kind, place, word);
        let old = if kind == 0 {
            prefixes.insert((span.0, length_of(span)), place)
        } else {
            spans.insert((span.0, Reverse(span.1)), place)
        };
        fresh += old.is_none() as u32;
    }
    let inserted = start.elapsed();
    let start = Instant::now();
    let mut found = 0u64;
    word = 43;
    for _ in 0..count {
        word = next(word);
        let asked = (word >> 32) as u32;
        let asked = if kind == 1 { asked % count } else { asked };
        let first = if kind == 0 { closest_prefix(&prefixes, asked) } else { closest_span(&spans, asked) };
        found = found.wrapping_add(first.unwrap_or(0) as u64);
    }
    let looked = start.elapsed();
    let start = Instant::now();
    let mut gone = 0u32;
    word = 42;
    for place in 0..count {
        word = next(word);
        let span = span_at(kind, place, word);
        if keep == 0 {
            let old = if kind == 0 {
                prefixes.remove(&(span.0, length_of(span)))
            } else {
                spans.remove(&(span.0, Reverse(span.1)))
            };
            gone += old.is_some() as u32;
        }
    }
    let removed = start.elapsed();
    println!("{} {} {} {fresh} {found} {gone}", inserted.as_nanos(), looked.as_nanos(), removed.as_nanos());
}

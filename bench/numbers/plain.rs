// What main.rt does, by std's addresses.
use std::io::{Read, Write};
use std::net::Ipv4Addr;

const PASSES: u32 = 5;

fn print_line(out: &mut Vec<u8>, place: usize, line: &str) {
    if place % 2 == 0 {
        let address: Ipv4Addr = line.parse().unwrap();
        writeln!(out, "{address}").unwrap();
    } else {
        let (address, length) = line.split_once('/').unwrap();
        let address: Ipv4Addr = address.parse().unwrap();
        let length: u32 = length.parse().unwrap();
        let mask = u32::MAX.checked_shl(32 - length).unwrap_or(0);
        let address = Ipv4Addr::from(u32::from(address) & mask);
        writeln!(out, "{address}/{length}").unwrap();
    }
}

fn main() {
    let mut text = String::new();
    std::io::stdin().read_to_string(&mut text).unwrap();
    let mut printed = Vec::new();
    for _ in 0..PASSES {
        let mut out = Vec::with_capacity(text.len());
        for (place, line) in text.lines().enumerate() {
            print_line(&mut out, place, line);
        }
        printed = out;
    }
    std::io::stdout().write_all(&printed).unwrap();
}

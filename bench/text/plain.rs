//! The plain program that `run` compares with: it splits RPSL text into names and values, and counts them.
use std::io::Read;
use std::time::Instant;

struct Attribute {
    name: Vec<u8>,
    lines: Vec<Vec<u8>>,
}

#[derive(Default)]
struct Counts {
    paragraphs: usize,
    attributes: usize,
    lines: usize,
    bytes: usize,
}

impl Counts {
    fn add(&mut self, paragraph: Vec<Attribute>) {
        self.paragraphs += usize::from(!paragraph.is_empty());
        for attribute in &paragraph {
            self.attributes += 1;
            self.bytes += attribute.name.len();
            self.lines += attribute.lines.len();
            self.bytes += attribute.lines.iter().map(Vec::len).sum::<usize>();
        }
    }
}

fn is_blank(byte: u8) -> bool {
    matches!(byte, b' ' | b'\t' | b'\r')
}

fn trim(mut text: &[u8]) -> &[u8] {
    while let [first, rest @ ..] = text {
        if !is_blank(*first) {
            break;
        }
        text = rest;
    }
    while let [rest @ .., last] = text {
        if !is_blank(*last) {
            break;
        }
        text = rest;
    }
    text
}

fn count(text: &[u8]) -> Counts {
    let mut counts = Counts::default();
    let mut paragraph: Vec<Attribute> = Vec::new();
    for line in text.split(|byte| *byte == b'\n') {
        match line.iter().find(|byte| !is_blank(**byte)).map(|_| line[0]) {
            None => counts.add(std::mem::take(&mut paragraph)),
            Some(b'#' | b'%') => {}
            Some(b'+' | b' ' | b'\t' | b'\r') => {
                if let Some(attribute) = paragraph.last_mut() {
                    attribute.lines.push(trim(&line[1..]).to_vec());
                }
            }
            Some(_) => {
                if let Some(colon) = line.iter().position(|byte| *byte == b':') {
                    let name = trim(&line[..colon]).to_ascii_lowercase();
                    let lines = vec![trim(&line[colon + 1..]).to_vec()];
                    paragraph.push(Attribute { name, lines });
                }
            }
        }
    }
    counts.add(paragraph);
    counts
}

fn main() {
    let mut text = Vec::new();
    std::io::stdin().read_to_end(&mut text).expect("standard input can be read");
    let start = Instant::now();
    let Counts { paragraphs, attributes, lines, bytes } = count(&text);
    println!("{paragraphs} {attributes} {lines} {bytes} {}", start.elapsed().as_micros());
}

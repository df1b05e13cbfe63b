//! The file directory, client side: `sys0`, `dirsize` and `dir`.
use super::{Lines, any_hex, then_random};
use crate::hex::hex;
use crate::rng::Rng;

/// The fifteen known type codes.
const KNOWN: &[u8] = &[
    0x82, 0x83, 0x84, 0x85, 0x86, 0x87, 0x88, 0x89, 0x8A, 0x8D, 0x8E, 0x91, 0x92, 0x93, 0x94,
];
const RESERVED: u8 = 0x81;
/// Codes next to those.
const STRANGE: &[u8] = &[0x00, 0x80, 0x8B, 0x8C, 0x8F, 0x90, 0x95, 0xA5, 0xFF];
/// Lengths around the element sizes and the ends of a word.
const LENGTHS: &[u16] = &[
    0, 1, 2, 3, 4, 5, 6, 7, 11, 12, 13, 45, 46, 47, 49, 50, 51, 83, 84, 85, 168, 255, 256, 65534,
    65535,
];
/// Places and sizes at the ends of their ranges.
const FAR: &[u64] = &[
    65534,
    65535,
    65536,
    0xFFFF_FFFF,
    0x1_0000_0000,
    0x7FFF_FFFF_FFFF_FFFF,
    0x8000_0000_0000_0000,
    u64::MAX - 65535,
    u64::MAX - 1,
    u64::MAX,
];
/// The longest directory.
const MOST: usize = 65535;

const TYPES: &[&str] = &[
    "",
    "1",
    "17",
    "176",
    "1761",
    "1762",
    "1763",
    "1764",
    "1765",
    "1766",
    "1760",
    "1767",
    "1761-L",
    "1762-L24",
    "1763-L16",
    "1764-LSP",
    "1766-LEC",
    "1766-L32BWA",
    "1747-L552",
    "1747",
    "0176",
    "01761",
    " 1761",
    "1 761",
    "1761\0",
    "17610",
    "1763é",
    "é1763",
    "17é3",
    "1766€",
    "1٧66",
];

pub fn lines(rng: Rng) -> Lines {
    let first = vec![
        TYPES.iter().map(|t| sys0(t.as_bytes())).collect(),
        sizes(),
        codes(),
        pairs(),
        cuts(),
        places(),
        ends(),
    ];
    then_random(first, rng, random)
}

fn sys0(text: &[u8]) -> String {
    format!("sys0 {}", hex(text))
}
fn dir(first: u64, size: u64, data: &[u8]) -> String {
    format!("dir {first} {size} {}", hex(data))
}

/// A row's code and length word, in a row of so many bytes.
fn row(code: u8, length: u16, size: usize) -> Vec<u8> {
    let mut row = vec![code];
    row.extend(length.to_le_bytes());
    row.resize(size, 0);
    row
}

/// Replies of every length around 63, and sizes around the constant, by family.
fn sizes() -> Vec<String> {
    let mut list = Vec::new();
    for text in ["1761", "1762", "1763", "1764", "1766", "1747"] {
        let line = |raw: &[u8]| format!("dirsize {} {}", hex(text.as_bytes()), hex(raw));
        for n in [0, 1, 59, 60, 61, 62, 63, 64, 70] {
            list.push(line(&vec![0xAA; n]));
        }
        for size in [
            0u16, 1, 255, 256, 19967, 19968, 19969, 20291, 32767, 32768, 65535,
        ] {
            let mut raw = vec![0; 61];
            raw.extend(size.to_le_bytes());
            list.push(line(&raw));
        }
    }
    list
}

/// Every code as a row of its own, and with every length.
fn codes() -> Vec<String> {
    let mut list: Vec<String> = (0..=255).map(|c| dir(0, 3, &row(c, 300, 3))).collect();
    for &code in KNOWN {
        list.extend(LENGTHS.iter().map(|&n| dir(0, 3, &row(code, n, 3))));
    }
    list
}

/// Every code in front of I and of N: what counts, and what I's number becomes.
fn pairs() -> Vec<String> {
    let mut list = Vec::new();
    for code in 0..=255 {
        for next in [0x83, 0x89] {
            let rows = [row(code, 84, 4), row(next, 84, 4), row(0x83, 6, 4)];
            list.push(dir(0, 4, &rows.concat()));
        }
    }
    list
}

/// A directory cut at each length, for each size of a row.
fn cuts() -> Vec<String> {
    let mut list = Vec::new();
    let codes = [0x82, 0x83, 0x81, 0x8B, 0x8D];
    for size in [1, 2, 3, 4, 8, 10] {
        let whole: Vec<u8> = codes
            .iter()
            .flat_map(|&c| row(c, 168, size.max(3)))
            .collect();
        for n in 0..=whole.len() {
            list.push(dir(0, size as u64, &whole[..n]));
        }
    }
    list
}

/// First rows and row sizes of all sorts over one directory.
fn places() -> Vec<String> {
    let rows: Vec<u8> = [0x82, 0x83, 0x81, 0x89]
        .iter()
        .flat_map(|&c| row(c, 24, 5))
        .collect();
    let near = 0..=rows.len() as u64 + 2;
    let mut list = Vec::new();
    for first in near.clone().chain(FAR.iter().copied()) {
        for size in [0, 1, 2, 3, 5, 20, u64::MAX - 5, u64::MAX] {
            list.push(dir(first, size, &rows));
        }
    }
    for size in near.chain(FAR.iter().copied()) {
        list.push(dir(0, size, &rows));
        list.push(dir(5, size, &rows));
    }
    list
}

/// Around the longest directory: few, since each has a quarter of a megabyte.
fn ends() -> Vec<String> {
    let filled = |n: usize, byte: u8| vec![byte; n];
    vec![
        dir(0, 1, &filled(MOST, 0x81)),
        dir(0, 1, &filled(MOST + 1, 0x81)),
        dir(0, 0, &filled(MOST, 0x81)),
        dir(0, 0, &filled(MOST + 1, 0x81)),
        dir(0, 1, &filled(MOST, 0x89)),
        dir(0, 1, &[filled(MOST - 2, 0x89), filled(2, 0x81)].concat()),
        dir(0, 1, &[filled(MOST - 2, 0x83), filled(2, 0)].concat()),
        dir(65534, 1, &filled(MOST, 0x89)),
        dir(65533, 1, &[filled(MOST - 2, 0), vec![0x89, 0]].concat()),
        dir(65532, 3, &filled(MOST, 0x94)),
    ]
}

fn random(rng: &mut Rng) -> String {
    match rng.below(10) {
        0 => {
            let text = type_text(rng);
            format!("sys0 {}", any_hex(rng, &text))
        }
        1 | 2 => {
            let text = type_text(rng);
            let n = match rng.below(4) {
                0 => rng.below(90),
                _ => 61 + rng.below(5),
            };
            let raw = rng.bytes(n);
            format!("dirsize {} {}", any_hex(rng, &text), any_hex(rng, &raw))
        }
        _ => directory(rng),
    }
}

/// A type text, mostly near the five families; seldom one that isn't UTF-8.
fn type_text(rng: &mut Rng) -> Vec<u8> {
    let mut text = rng.pick(TYPES).as_bytes().to_vec();
    match rng.below(8) {
        0 => text.push(rng.byte() & 0x7F),
        1 if !text.is_empty() => {
            let at = rng.below(text.len());
            text[at] = rng.pick(b"01234567 -L");
        }
        2 => text.truncate(rng.below(6)),
        3 => text = format!("176{}", rng.below(10)).into_bytes(),
        4 if rng.once_in(40) => text.push(0x80 | rng.byte()),
        _ => {}
    }
    text
}

/// A place or a size: within the directory mostly, sometimes far away.
fn far(rng: &mut Rng, usual: u64) -> u64 {
    match rng.below(40) {
        0 => rng.pick(FAR),
        1 => rng.draw() >> rng.below(64),
        2 => usual.saturating_add(rng.below(4) as u64),
        _ => usual,
    }
}

fn code(rng: &mut Rng) -> u8 {
    match rng.below(10) {
        0 | 1 => RESERVED,
        2 => rng.pick(STRANGE),
        3 => rng.byte(),
        4 => 0x83,
        _ => rng.pick(KNOWN),
    }
}

fn directory(rng: &mut Rng) -> String {
    let size = match rng.below(8) {
        0 => 1 + rng.below(5),
        1 => 1 + rng.below(40),
        2 => 8,
        3 => 3,
        _ => 10,
    };
    let head = rng.pick(&[0, 0, 1, 2, 79, 93, 233]);
    let rows = match rng.below(2000) {
        0 => (MOST - head) / size,
        1..=20 => rng.below(600),
        _ => rng.below(24),
    };
    let mut data = match rng.once_in(3) {
        true => rng.bytes(head),
        false => vec![0; head],
    };
    for _ in 0..rows {
        let length = match rng.below(3) {
            0 => rng.pick(LENGTHS),
            1 => rng.draw() as u16,
            _ => rng.below(700) as u16,
        };
        let mut next = row(code(rng), length, size);
        if rng.once_in(4) && size > 3 {
            next[3..].fill(rng.byte());
        }
        data.extend(next);
    }
    if rng.once_in(4) {
        let cut = rng.below(size.min(data.len()) + 1);
        data.truncate(data.len() - cut);
    }
    let (first, step) = (far(rng, head as u64), far(rng, size as u64));
    format!("dir {first} {step} {}", any_hex(rng, &data))
}

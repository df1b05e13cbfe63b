//! Replies: `status`, `errtext` and `datalogparse`.
use super::{Lines, any_hex, then_random};
use crate::hex::hex;
use crate::rng::Rng;

/// Where a raw reply has its status, and what follows its header.
const STATUS: usize = 58;
const START: usize = 61;
/// Success, and the codes that have a text.
const KNOWN: &[u8] = &[
    0x00, 0x10, 0x20, 0x30, 0x40, 0x50, 0x60, 0x70, 0x80, 0x90, 0xF0,
];
/// Codes near those, and codes of the manual that have no text here.
const STRANGE: &[u8] = &[
    0x01, 0x0F, 0x11, 0x1F, 0x61, 0x9F, 0xA0, 0xB0, 0xC0, 0xE0, 0xEF, 0xF1, 0xFF,
];

pub fn lines(rng: Rng) -> Lines {
    let all = |f: &dyn Fn(u8) -> String| -> Vec<String> { (0..=255).map(f).collect() };
    let lengths = |call: &str, n: usize| format!("{call} {}", hex(&counted(n)));
    let first = vec![
        all(&|code| format!("errtext {code:02X}")),
        all(&|code| status(&reply(STATUS + 1, code, 0))),
        all(&|code| status(&reply(START + 1, code, 0x06))),
        all(&|extended| status(&reply(START + 1, 0xF0, extended))),
        (0..=70).map(|n| lengths("status", n)).collect(),
        (0..=70).map(|n| lengths("datalogparse", n)).collect(),
        (STATUS..70)
            .map(|n| status(&reply(n, 0xF0, 0xAB)))
            .collect(),
        entries(),
    ];
    then_random(first, rng, random)
}

fn counted(n: usize) -> Vec<u8> {
    (0..n).map(|i| (i * 7 + 1) as u8).collect()
}

/// A reply of `n` bytes with this status, and this byte behind the header.
fn reply(n: usize, code: u8, extended: u8) -> Vec<u8> {
    let mut raw = vec![0; n];
    for (at, byte) in [(STATUS, code), (START, extended)] {
        if let Some(b) = raw.get_mut(at) {
            *b = byte;
        }
    }
    raw
}

fn status(raw: &[u8]) -> String {
    format!("status {}", hex(raw))
}

/// Datalog entries that are UTF-8, and some that are not.
fn entries() -> Vec<String> {
    let some: [&[u8]; 8] = [
        b"2024-01-01,12:00,1",
        b"\0",
        b" ",
        "é€\u{10348}".as_bytes(),
        b"\xFF",
        b"a\xC3",
        b"\xC0\x80",
        b"\xED\xA0\x80",
    ];
    some.iter()
        .map(|e| format!("datalogparse {}", hex(&[&counted(START), *e].concat())))
        .collect()
}

fn random(rng: &mut Rng) -> String {
    match rng.below(8) {
        0 => {
            let code = code(rng);
            format!("errtext {}", any_hex(rng, &[code]))
        }
        1 | 2 => {
            let n = length(rng);
            let raw = rng.bytes(n);
            format!("datalogparse {}", any_hex(rng, &raw))
        }
        _ => {
            let n = length(rng);
            let mut raw = rng.bytes(n);
            if let Some(b) = raw.get_mut(STATUS) {
                *b = code(rng);
            }
            format!("status {}", any_hex(rng, &raw))
        }
    }
}

fn code(rng: &mut Rng) -> u8 {
    match rng.below(6) {
        0 => rng.byte(),
        1 => rng.pick(STRANGE),
        2 => 0xF0,
        _ => rng.pick(KNOWN),
    }
}

/// Mostly around the places that are read, seldom far more.
fn length(rng: &mut Rng) -> usize {
    match rng.below(200) {
        0 => rng.below(131_072),
        1..=9 => rng.below(600),
        10..=39 => rng.below(STATUS),
        _ => STATUS + rng.below(12),
    }
}

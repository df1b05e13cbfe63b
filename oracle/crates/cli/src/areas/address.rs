//! Address texts: `tag`.
use super::{Lines, any_hex, text_or_none, then_random, utf8};
use crate::hex::hex;
use crate::rng::Rng;

pub(super) const NAMES: &[&str] = &["PRE", "ACC", "EN", "TT", "DN", "CU", "CD", "OV", "UN", "UA"];
/// Texts that settle a rule of document 01's "Address spelling", and its worked rows.
pub(super) const SETTLED: &[&str] = &[
    "",
    "N7:0",
    "T4:123PRE",
    "I99:3.300/5",
    "B3/4095",
    "B3/4096",
    "N7:0{0}",
    "N7:0{127}",
    "N7:0{128}",
    "ST9:0{1}",
    "ST9:0{2}",
    "ST9:0{3}",
    "ST9:0{01}",
    "ST9:0{}",
    "N7:0/3{2}",
    "N7:0/3{0}",
    "N7:0/3{1}",
    "ST9:0255",
    "ST9:0256",
    "ST9:00255",
    "A9:0255",
    "A9:0256",
    "I999:0",
    "O000:0",
    "I1000:0",
    "I:0",
    "O:0",
    "I:255",
    "I:256",
    "I:0.999",
    "I:0.1000",
    "O:1.2/15",
    "O:1.2/16",
    "S:0",
    "S:255/15",
    "S:1/15{3}",
    "S:1{3}",
    "S2:1",
    "L9:0/15",
    "F8:0/15",
    "R6:0",
    "R6:0.LEN",
    "C5:0.PRE",
    "C5:0{PRE",
    "C5:0\0PRE",
    "C5:0\rPRE",
    "C5:0\nPRE",
    "C5:00PRE",
    "C5:0APRE",
    "T4:111EN",
    "T4:11EN",
    "T4:1EN",
    "C5:0000PRE",
    "C5:1234PRE",
    "T4:256.ACC",
    "T4:255.ACC",
    "T0:0.ACC",
    "T256:0.ACC",
    "t4:0.acc",
    "T4:0.ACC{1}",
    "N0:0",
    "N255:255",
    "N256:0",
    "N7:256",
    "N007:000",
    "N0007:0",
    "N7:0000",
    "N7:0/015",
    "N7:0/",
    "N7:",
    "N:0",
    "N7:0{",
    "N7:0}",
    "N7:0{1",
    "N7:0{1}x",
    "MG9:0",
    "PD9:0",
    "PLS9:0",
    "n7:0",
    "st9:0",
    "sT9:0",
    "X7:0",
    " N7:0",
    "N7:0 ",
    "N7:0.1",
];

pub fn settled() -> Vec<String> {
    SETTLED
        .iter()
        .map(|t| format!("tag {}", text_or_none(t.as_bytes())))
        .collect()
}

pub fn lines(rng: Rng) -> Lines {
    let mut short: Vec<Vec<u8>> = (0..=255).map(|b| vec![b]).collect();
    for a in b"NSITBO" {
        for b in b"7:/.{" {
            short.extend(b"0:/T".iter().map(|&c| vec![*a, *b, c]));
        }
    }
    let listed = |tags: Vec<Vec<u8>>| tags.iter().map(|t| format!("tag {}", hex(t))).collect();
    then_random(
        vec![settled(), listed(short), listed(utf8::tags())],
        rng,
        random,
    )
}

fn random(rng: &mut Rng) -> String {
    let mut tag = spelled(rng);
    match rng.below(20) {
        0..=2 => damage(rng, &mut tag),
        3 => {
            damage(rng, &mut tag);
            damage(rng, &mut tag);
        }
        4 => lengthen(rng, &mut tag),
        5 | 6 => utf8::put_character(rng, &mut tag),
        7..=9 => utf8::put_broken(rng, &mut tag),
        _ => {}
    }
    format!("tag {}", any_hex(rng, &tag))
}

/// Digits of a number up to `last` or near the ends of the ranges, sometimes with zeros before it.
pub(super) fn digits(rng: &mut Rng, last: usize, ends: &[u64]) -> String {
    let n = match rng.below(4) {
        0 => rng.below(260) as u64,
        1 => rng.pick(ends),
        _ => rng.below(last + 1) as u64,
    };
    let zeros = if rng.once_in(6) { rng.below(4) } else { 0 };
    format!("{}{n}", "0".repeat(zeros))
}

fn count(rng: &mut Rng) -> String {
    match rng.below(6) {
        0 => format!("{{{}}}", digits(rng, 3, &[0, 1, 2, 3, 127, 128, 255, 256])),
        1 => format!(
            "{{{}}}",
            rng.pick(&[u64::MAX, u64::MAX - 1, 1 << 63, 9_999_999_999_999_999_999])
        ),
        2 => format!("{{{}0}}", digits(rng, 12, &[u64::MAX, 1 << 61])),
        _ => String::new(),
    }
}

fn bit(rng: &mut Rng) -> String {
    match rng.below(3) {
        0 => format!("/{}", digits(rng, 15, &[0, 1, 9, 10, 15, 16, 99, 100])),
        _ => String::new(),
    }
}

/// One of the seven spellings, mostly in range, with letters and separators past U+007F.
pub(super) fn spelled(rng: &mut Rng) -> Vec<u8> {
    let file = digits(rng, 255, &[0, 1, 7, 254, 255, 256, 999, 1000]);
    let element = digits(rng, 255, &[0, 1, 9, 254, 255, 256, 999, 1000]);
    let (bit, count) = (bit(rng), count(rng));
    let text = match rng.below(7) {
        0 => {
            let (letter, name) = (rng.pick(&["C", "T"]), rng.pick(NAMES));
            let separator = match rng.below(2) {
                0 => utf8::character(rng),
                _ => char::from(rng.pick(b"./:0123456789A{ \0\r\n")),
            };
            format!("{letter}{file}:{element}{separator}{name}")
        }
        1 | 2 => format!(
            "{}{file}:{element}{bit}{count}",
            rng.pick(&["L", "F", "B", "N"])
        ),
        3 => {
            let ignored = if rng.once_in(2) { file } else { String::new() };
            let position = match rng.below(2) {
                0 => format!(
                    ".{}",
                    digits(rng, 999, &[0, 1, 254, 255, 256, 300, 999, 1000])
                ),
                _ => String::new(),
            };
            format!(
                "{}{ignored}:{element}{position}{bit}{count}",
                rng.pick(&["I", "O", "ı"])
            )
        }
        4 => format!("{}{file}:{element}{count}", rng.pick(&["ST", "A", "ſT"])),
        5 => format!("{}:{element}{bit}{count}", rng.pick(&["S", "ſ"])),
        _ => format!(
            "B{file}/{}{count}",
            digits(rng, 4095, &[0, 15, 16, 4094, 4095, 4096, 9999, 10000])
        ),
    };
    let mut tag = text.into_bytes();
    if rng.once_in(4) {
        let at = rng.below(tag.len());
        tag[at] = tag[at].to_ascii_lowercase();
    }
    tag
}

pub(super) fn damage(rng: &mut Rng, tag: &mut Vec<u8>) {
    let at = rng.below(tag.len() + 1);
    let byte = match rng.below(3) {
        0 => rng.byte(),
        _ => rng.pick(b"0123456789:/.{}NSTIOABCFL \n"),
    };
    match rng.below(3) {
        0 => tag.insert(at, byte),
        1 if at < tag.len() => tag[at] = byte,
        _ if at < tag.len() => drop(tag.remove(at)),
        _ => tag.push(byte),
    }
}

/// Around 255 bytes: by digits of the count, or with a character, whole or cut, near byte 255.
pub(super) fn lengthen(rng: &mut Rng, tag: &mut Vec<u8>) {
    let to = 252 + rng.below(7);
    match rng.below(5) {
        0 => {
            tag.extend(b"{");
            let n = rng
                .pick(&[240usize, 250, 255, 256, 300])
                .saturating_sub(tag.len() + 1)
                + rng.below(3);
            tag.extend((0..n).map(|_| rng.pick(b"0019")));
            tag.extend(b"}");
        }
        // accepted up to 255 bytes
        1 => {
            let start = rng.pick(&["ı:0", "ı99:3.300", "ſ:1", "ſ:1/15", "N7:0", "A9:0", "O:1/2"]);
            *tag = [start, "{"].concat().into_bytes();
            tag.resize(to - 2, b'0');
            tag.extend([rng.pick(b"019"), b'}']);
        }
        2 | 3 => {
            tag.extend(b"{");
            tag.resize(251 + rng.below(5), b'0');
            match rng.below(4) {
                0 => tag.extend(utf8::broken(rng)),
                _ => tag.extend(utf8::character(rng).to_string().bytes()),
            }
            let digits = rng.pick(&[0, 0, 1, 9]);
            tag.extend((0..digits).map(|_| b'1'));
            tag.extend(&b"}"[..rng.below(2)]);
        }
        _ => {
            let c = utf8::character(rng).to_string();
            while tag.len() < to {
                tag.extend(c.bytes());
            }
            if rng.once_in(2) {
                tag.truncate(to);
            }
        }
    }
}

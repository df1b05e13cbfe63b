//! Swap, text and element codecs: `swap`, `pairs`, `ascii`, `string`, `enc` and `dec`.
use super::{Lines, any_case, any_hex, then_random};
use crate::hex::hex;
use crate::rng::Rng;

/// Code and element size: the simulator's twelve, then the three that it does not know.
pub(super) const TYPES: &[(u8, usize)] = &[
    (0x82, 2),
    (0x83, 2),
    (0x84, 2),
    (0x85, 2),
    (0x86, 6),
    (0x87, 6),
    (0x88, 6),
    (0x89, 2),
    (0x8A, 4),
    (0x8D, 84),
    (0x8E, 2),
    (0x91, 4),
    (0x92, 50),
    (0x93, 46),
    (0x94, 12),
];
const KNOWN: usize = 12;
/// Codes that no type has.
const STRANGE: &[u8] = &[0x00, 0x80, 0x81, 0x8B, 0x8C, 0x8F, 0x90, 0x95, 0xA5, 0xFF];

/// Field names of T, C and R.
const FIELDS: [&[&str]; 3] = [
    &["PRE", "ACC", "EN", "TT", "DN"],
    &["PRE", "ACC", "CU", "CD", "DN", "OV", "UN", "UA"],
    &["LEN", "POS", "EN", "EU", "DN", "EM", "ER", "UL", "IN", "FD"],
];
const OTHER_NAMES: &[&str] = &["", "P", "PR", "PREE", "EM0", "FDD", "XX", "WORD0", "BITS"];

/// Around every bound of a word, a long and a number of the protocol.
const BOUNDS: &[i64] = &[
    0,
    1,
    -1,
    2,
    255,
    256,
    -32768,
    -32769,
    32767,
    32768,
    65535,
    65536,
    -65536,
    2147483647,
    2147483648,
    -2147483648,
    -2147483649,
    4294967295,
    4294967296,
    i64::MAX,
    i64::MIN,
];

/// Zeros, subnormals, ones, the largest; then infinities and NaN.
const FINITE: &[u32] = &[
    0x0000_0000,
    0x8000_0000,
    0x0000_0001,
    0x8000_0001,
    0x007F_FFFF,
    0x807F_FFFF,
    0x0080_0000,
    0x3F80_0000,
    0xBF80_0000,
    0x3F80_0001,
    0x4B80_0001,
    0x7F7F_FFFF,
    0xFF7F_FFFF,
];
const NOT_FINITE: &[u32] = &[
    0x7F80_0000,
    0xFF80_0000,
    0x7F80_0001,
    0x7FC0_0000,
    0x7FFF_FFFF,
    0xFFC0_0001,
];

pub fn lines(rng: Rng) -> Lines {
    let counted = |n: usize| -> Vec<u8> { (0..n).map(|i| (i * 7 + 1) as u8).collect() };
    let bytes = |call: &str| -> Vec<String> {
        (0..=40)
            .map(|n| format!("{call} {}", hex(&counted(n))))
            .collect()
    };
    let texts = |call: &str, most: usize| -> Vec<String> {
        let some = [0x00, 0x20, 0x41, 0x62, 0x7F, 0x80, 0xE9, 0xFF];
        let mut list = Vec::new();
        for a in some {
            list.push(format!("{call} {a:02X}"));
            list.extend(some.map(|b| format!("{call} {a:02X}{b:02X}")));
        }
        list.extend((0..=most).map(|n| format!("{call} {}", hex(&letters(n)))));
        list
    };
    let first = vec![
        bytes("swap"),
        bytes("pairs"),
        texts("ascii", 6),
        texts("string", 90),
        kinds(),
        sizes(),
        numbers(),
        fields(),
        element_texts(),
        decoded(),
    ];
    then_random(first, rng, random)
}

/// a, b, c .. z, a ..
fn letters(n: usize) -> Vec<u8> {
    (b'a'..=b'z').cycle().take(n).collect()
}

fn enc(code: u8, bytes: &[u8], value: &str) -> String {
    format!("enc {code:02X} {} {value}", hex(bytes))
}
fn dec(code: u8, bytes: &[u8]) -> String {
    format!("dec {code:02X} {}", hex(bytes))
}

/// Every kind of value against every type.
fn kinds() -> Vec<String> {
    let mut list = Vec::new();
    for value in [
        "int 5",
        "float 3F800000",
        "float 7FC00000",
        "text 4142",
        "text -",
        "text FF",
        "words 1,2,3",
        "field 505245 7",
        "field 4C454E 7",
        "field 58 99999",
    ] {
        list.extend(TYPES.iter().map(|&(c, n)| enc(c, &vec![0x11; n], value)));
        list.extend(STRANGE.iter().map(|&c| enc(c, &[0x11; 84], value)));
    }
    list
}

/// A value that suits the type.
fn suiting(code: u8) -> &'static str {
    match code {
        0x8A => "float C0490FDB",
        0x8D | 0x8E => "text 5A",
        0x86..=0x88 => "words 258,-2,65535",
        _ => "int -2",
    }
}

/// Elements that are one byte short, whole, and longer.
fn sizes() -> Vec<String> {
    let mut list = Vec::new();
    for &(code, size) in TYPES {
        for n in [0, 1, size - 1, size, size + 1, size + 2, 2 * size] {
            let bytes: Vec<u8> = (0..n).map(|i| (0xA0 + i) as u8).collect();
            list.push(enc(code, &bytes, suiting(code)));
            list.push(dec(code, &bytes));
        }
    }
    list.extend(STRANGE.iter().map(|&c| dec(c, &[0; 84])));
    list
}

/// Every bound as a number of each type that takes one, and at each of the three words.
fn numbers() -> Vec<String> {
    let mut list = Vec::new();
    for &n in BOUNDS {
        for code in [0x82, 0x83, 0x84, 0x85, 0x89] {
            list.push(enc(code, &[0x55, 0xAA], &format!("int {n}")));
        }
        list.push(enc(0x91, &[0x55; 4], &format!("int {n}")));
        for code in [0x86, 0x87, 0x88] {
            let old = [1, 2, 3, 4, 5, 6];
            for words in [
                format!("{n},17,18"),
                format!("17,{n},18"),
                format!("17,18,{n}"),
            ] {
                list.push(enc(code, &old, &format!("words {words}")));
            }
        }
    }
    for bits in FINITE.iter().chain(NOT_FINITE) {
        list.push(enc(0x8A, &[0; 4], &format!("float {bits:08X}")));
    }
    list
}

/// Every name, also of the other types, on each of T, C and R.
fn fields() -> Vec<String> {
    let mut list = Vec::new();
    let mut names: Vec<&str> = FIELDS.concat();
    names.extend(OTHER_NAMES);
    names.sort_unstable();
    names.dedup();
    for name in names {
        for code in [0x86, 0x87, 0x88] {
            for (old, n) in [(0x00, 1), (0xFF, 0), (0x00, -32768), (0xFF, 32768)] {
                let value = format!("field {} {n}", hex(name.as_bytes()));
                list.push(enc(code, &[old; 6], &value));
            }
            let small = hex(name.to_lowercase().as_bytes());
            list.push(enc(code, &[0x5A; 6], &format!("field {small} -32769")));
        }
    }
    for &n in BOUNDS {
        list.push(enc(0x86, &[0; 6], &format!("field 505245 {n}")));
        list.push(enc(0x87, &[0; 6], &format!("field 6f76 {n}")));
        list.push(enc(0x88, &[0; 6], &format!("field 506f53 {n}")));
    }
    list
}

/// Every length of text.
fn element_texts() -> Vec<String> {
    let mut list = Vec::new();
    for n in (0..=90).chain([200, 255, 256, 300]) {
        let value = format!("text {}", hex(&letters(n)));
        list.push(enc(0x8D, &[0xEE; 84], &value));
        if n < 6 {
            list.push(enc(0x8E, &[0xEE; 2], &value));
        }
    }
    for text in ["é", "aé", "éa", "€", "a€", "\u{10348}", "\0", "\u{7F}", " "] {
        let value = format!("text {}", hex(text.as_bytes()));
        list.push(enc(0x8D, &[0xEE; 84], &value));
        list.push(enc(0x8E, &[0xEE; 2], &value));
    }
    // 82 and 83 bytes of two-byte characters
    for tail in ["", "a"] {
        let value = format!("text {}", hex(("é".repeat(41) + tail).as_bytes()));
        list.push(enc(0x8D, &[0xEE; 84], &value));
    }
    list
}

/// Contents of every type: all bits alike, each bit of a status word, bounds of words, lengths of text.
fn decoded() -> Vec<String> {
    let mut list = Vec::new();
    for &(code, size) in TYPES {
        for fill in [0x00, 0xFF, 0x80, 0x7F, 0x01] {
            // all bits set is NaN: left to the float patterns
            if code != 0x8A || fill != 0xFF {
                list.push(dec(code, &vec![fill; size]));
            }
        }
    }
    for code in [0x86, 0x87, 0x88] {
        for bit in 0..16 {
            let word = (1u16 << bit).to_le_bytes();
            list.push(dec(code, &[word[0], word[1], 1, 0, 0xFE, 0xFF]));
        }
    }
    for word in [0u16, 1, 32767, 32768, 65535] {
        let [a, b] = word.to_le_bytes();
        for code in [0x82, 0x83, 0x84, 0x85, 0x89] {
            list.push(dec(code, &[a, b]));
        }
        list.push(dec(0x86, &[0, 0, a, b, b, a]));
        list.push(dec(0x91, &[a, b, 0, 0]));
        list.push(dec(0x91, &[0, 0, a, b]));
    }
    for bits in FINITE.iter().chain(NOT_FINITE) {
        list.push(dec(0x8A, &bits.to_le_bytes()));
    }
    for n in (0..=90).chain([255, 256, 32767, 32768, 65535]) {
        let mut element = (n as u16).to_le_bytes().to_vec();
        element.extend(letters(82));
        list.push(dec(0x8D, &element));
    }
    for text in [[0x41, 0x42], [0x00, 0x41], [0xE9, 0xFF], [0x20, 0x20]] {
        list.push(dec(0x8E, &text));
    }
    list
}

fn random(rng: &mut Rng) -> String {
    match rng.below(16) {
        n @ 0..=1 => {
            let length = length(rng, 100);
            let bytes = rng.bytes(length);
            format!("{} {}", ["swap", "pairs"][n], any_hex(rng, &bytes))
        }
        n @ 2..=3 => {
            let length = if n == 2 {
                rng.below(8)
            } else {
                length(rng, 90)
            };
            let bytes = match rng.below(3) {
                0 => rng.bytes(length),
                _ => printable(rng, length),
            };
            format!("{} {}", ["ascii", "string"][n - 2], any_hex(rng, &bytes))
        }
        4..=11 => random_enc(rng),
        _ => random_dec(rng),
    }
}

/// Up to `usual`, seldom far more.
fn length(rng: &mut Rng, usual: usize) -> usize {
    match rng.below(100) {
        0 => rng.below(3000),
        1..=3 => rng.below(400),
        _ => rng.below(usual + 1),
    }
}

fn printable(rng: &mut Rng, n: usize) -> Vec<u8> {
    (0..n).map(|_| 0x20 + rng.below(0x5F) as u8).collect()
}

/// A code, and how many bytes its element has (2 where no type has the code).
fn code(rng: &mut Rng) -> (u8, usize) {
    match rng.below(60) {
        0 => (rng.pick(STRANGE), 2),
        1 => {
            let any = rng.byte();
            let known = TYPES.iter().find(|t| t.0 == any);
            known.copied().unwrap_or((any, 2))
        }
        2 => rng.pick(&TYPES[KNOWN..]),
        _ => rng.pick(&TYPES[..KNOWN]),
    }
}

/// Mostly the element's own size, else shorter or longer.
fn size(rng: &mut Rng, size: usize) -> usize {
    match rng.below(20) {
        0 => size - 1,
        1 => rng.below(size),
        2 => size + 1,
        3 => size + rng.below(2 * size + 8),
        _ => size,
    }
}

fn number(rng: &mut Rng) -> i64 {
    let r = rng.draw();
    match rng.below(6) {
        0 => rng.pick(BOUNDS),
        1 => rng.pick(BOUNDS).saturating_add(rng.below(7) as i64 - 3),
        2 => i64::from(r as i8),
        3 => i64::from(r as i16),
        4 => i64::from(r as i32),
        _ => (r as i64) >> rng.below(64),
    }
}

/// A number's digits, seldom with zeros before them.
fn spelled(rng: &mut Rng, n: i64) -> String {
    if !rng.once_in(30) {
        return n.to_string();
    }
    let sign = if n < 0 { "-" } else { "" };
    format!("{sign}{}{}", "0".repeat(rng.below(30)), n.unsigned_abs())
}

fn float(rng: &mut Rng) -> u32 {
    let bits = rng.draw() as u32;
    match rng.below(12) {
        0 => rng.pick(FINITE),
        1 => bits & 0x807F_FFFF,
        2 => (f64::from(bits as i32) / 8.0) as f32 as i32 as u32,
        3 => rng.pick(NOT_FINITE),
        4 => bits | 0x7F80_0000,
        _ if bits & 0x7F80_0000 == 0x7F80_0000 => bits & !0x0080_0000,
        _ => bits,
    }
}

fn text(rng: &mut Rng) -> Vec<u8> {
    let n = if rng.once_in(8) {
        80 + rng.below(6)
    } else {
        length(rng, 90)
    };
    match rng.below(24) {
        0 => rng.bytes(n),
        1..=4 => {
            let some = ["a", "é", "ÿ", "€", "\u{10348}", "\u{80}", "\0", "Z"];
            let mut text = String::new();
            while text.len() < n {
                text.push_str(rng.pick(&some));
            }
            text.into_bytes()
        }
        _ => printable(rng, n),
    }
}

fn field_name(rng: &mut Rng, code: u8) -> Vec<u8> {
    let own = match code {
        0x86..=0x88 => usize::from(code - 0x86),
        _ => rng.below(3),
    };
    let name = rng.pick(FIELDS[own]);
    let mut name = any_case(rng, name).into_bytes();
    match rng.below(20) {
        0 => {
            let other = rng.below(3);
            let other = rng.pick(FIELDS[other]);
            name = any_case(rng, other).into_bytes();
        }
        1 => {
            let at = rng.below(name.len());
            name[at] = rng.pick(b"ABCDEFILMNOPRSTUVX");
        }
        2 => {
            let at = rng.below(name.len());
            name[at] ^= 1 << rng.below(8);
        }
        3 => {
            let extra = 1 + rng.below(4);
            name.extend(printable(rng, extra));
        }
        4 => name.truncate(rng.below(name.len())),
        5 => {
            let n = length(rng, 12);
            name = rng.bytes(n);
        }
        _ => {}
    }
    name
}

fn random_enc(rng: &mut Rng) -> String {
    let (code, element) = code(rng);
    let n = size(rng, element);
    let old = rng.bytes(n);
    let suiting: &[&str] = match code {
        0x8A => &["float"],
        0x8D | 0x8E => &["text"],
        0x86..=0x88 => &["words", "field", "field"],
        _ => &["int"],
    };
    let kind = match rng.below(6) {
        0 => rng.pick(&["int", "float", "text", "words", "field"]),
        _ => rng.pick(suiting),
    };
    let value = match kind {
        "float" => {
            let bits = float(rng);
            any_hex(rng, &bits.to_be_bytes())
        }
        "text" => {
            let text = text(rng);
            any_hex(rng, &text)
        }
        "words" => {
            // mostly three good ones
            let mut word = || match rng.below(8) {
                0 => number(rng),
                _ => rng.below(98304) as i64 - 32768,
            };
            let words = [word(), word(), word()];
            words.map(|n| spelled(rng, n)).join(",")
        }
        "field" => {
            let name = field_name(rng, code);
            let n = number(rng);
            format!("{} {}", any_hex(rng, &name), spelled(rng, n))
        }
        _ => {
            let n = number(rng);
            spelled(rng, n)
        }
    };
    let (code, old) = (any_hex(rng, &[code]), any_hex(rng, &old));
    format!("enc {code} {old} {kind} {value}")
}

fn random_dec(rng: &mut Rng) -> String {
    let (code, element) = code(rng);
    let n = size(rng, element);
    let mut bytes = rng.bytes(n);
    if n >= element {
        match code {
            0x8A => {
                let bits = float(rng);
                bytes[..4].copy_from_slice(&bits.to_le_bytes());
            }
            0x8D => {
                if rng.once_in(2) {
                    bytes[2..84].copy_from_slice(&printable(rng, 82));
                }
                if !rng.once_in(6) {
                    bytes[0] = rng.below(91) as u8;
                    bytes[1] = 0;
                }
            }
            _ => {}
        }
    }
    format!("dec {} {}", any_hex(rng, &[code]), any_hex(rng, &bytes))
}

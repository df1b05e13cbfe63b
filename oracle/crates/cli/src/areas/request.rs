//! Requests: `read`, `write`, `proc`, `datalogreq`, `dirsizereq` and `dirreadreq`; and every call that has an output, in less room.
use super::address::{SETTLED, damage, lengthen, spelled};
use super::{Lines, any_hex, text_or_none, then_random, utf8};
use crate::rng::Rng;

/// The default requester.
pub(super) const REQ: &str = "091009101971";
/// Writes that settle a rule: tag, kind and value.
const WRITES: &[(&str, &str)] = &[
    ("N7:0/3", "bool 1"),
    ("N7:0/3", "bool 0"),
    ("N7:0/15", "bool 1"),
    ("N7:0/0", "bool 01"),
    ("N7:0/3{0}", "bool 1"),
    ("N7:0/3{1}", "bool 1"),
    ("L9:0/15", "bool 1"),
    ("F8:0/3", "bool 1"),
    ("S:1/15", "bool 1"),
    ("I:3.300/5", "bool 1"),
    ("O:255.999/0", "bool 1"),
    ("I:3", "bool 1"),
    ("B3/4095", "bool 1"),
    ("B255/4095", "bool 0"),
    ("C5:0.CU", "bool 1"),
    ("T4:255.UA", "bool 1"),
    ("T4:0.PRE", "raw FFFF0100"),
    ("C5:255.ACC", "raw FFFF0100"),
    ("T255:12.EN", "raw FFFF0100"),
    ("N7:0/3", "raw 080008"),
    ("N7:0{128}", "raw FFFF01000200"),
    ("ST9:0", "text 616263"),
    ("ST9:0", "text -"),
    ("ST9:0{1}", "text 616263"),
    ("A9:0", "text -"),
    ("A9:0", "text 61"),
    ("A9:0{1}", "text 6162"),
    ("A9:0{0}", "text 616263"),
    // 3 before 4: a bit with a count, and a value that doesn't suit
    ("N7:0/3{2}", "text 61"),
    ("N7:0/3{2}", "bool 1"),
    // 3 before 5: a bit with a count, and raw bytes too few or too many
    ("N7:0/3{2}", "raw -"),
    // 2 before 4 and 5
    ("X7:0", "text 61"),
    ("ST9:0{3}", "raw -"),
    // 4: true or false without a bit, on PRE and ACC; text elsewhere, or with a count
    ("N7:0", "bool 1"),
    ("T4:0.PRE", "bool 1"),
    ("C5:0.ACC", "bool 0"),
    ("A9:0", "bool 1"),
    ("N7:0", "text 61"),
    ("N7:0/3", "text 61"),
    ("T4:0.EN", "text 61"),
    ("A9:0{2}", "text 6162"),
    ("ST9:0{2}", "text 6162"),
];
/// Writes with a character past U+007F in the tag (A2 of document 02).
const CHARACTERS: &[(&str, &str)] = &[
    ("ı:3.300/5", "bool 1"),
    ("ı:3.300", "raw FFFF0100"),
    ("ı:3.300", "bool 1"),
    ("ı:3/5{2}", "bool 1"),
    ("ſ:1/15", "bool 1"),
    ("ſ:1/15", "text 61"),
    ("ſt9:0", "text 616263"),
    ("ſT9:0{2}", "text 616263"),
    ("ſT9:0{3}", "text 616263"),
    ("T4:0éPRE", "raw FFFF0100"),
    ("C5:255€ACC", "raw FFFF0100"),
    ("T4:1😀EN", "bool 1"),
    ("T4:1😀PRE", "bool 1"),
    ("T4:1\u{10FFFF}EN", "text 61"),
    ("T4:1ééEN", "bool 1"),
    ("N7:ı/3", "bool 1"),
];
/// Rooms near the bounds of question 6.
const ROOMS: &[u64] = &[
    0,
    1,
    17,
    18,
    22,
    23,
    26,
    27,
    28,
    29,
    95,
    283,
    284,
    285,
    300,
    u64::MAX,
];

/// Every rule once, and question 6 beside its neighbours.
pub fn settled() -> Vec<String> {
    let reads = SETTLED
        .iter()
        .map(|t| format!("read {} {REQ} 4660", tag(t)));
    let writes = WRITES
        .iter()
        .map(|(t, value)| format!("write {} {REQ} 4660 {value}", tag(t)));
    let bounds = ["room 26 ", "room 27 ", "room 283 write", "room 284 write"];
    let rooms = in_rooms()
        .into_iter()
        .filter(|l| bounds.iter().any(|b| l.starts_with(b)));
    reads.chain(writes).chain(rooms).collect()
}

pub fn lines(rng: Rng) -> Lines {
    let raw = (0..=300).map(|n| format!("write {} {REQ} 0 raw {}", tag("N7:0"), bytes(n)));
    let queues = (0..=255).map(|q| format!("datalogreq {q}"));
    let texts = (0..=100).map(|n| {
        let t = ["ST9:0", "A9:0"][n % 2];
        format!("write {} {REQ} 0 text {}", tag(t), bytes(n))
    });
    then_random(
        vec![
            settled(),
            raw.collect(),
            queues.collect(),
            texts.collect(),
            in_rooms(),
            characters(),
        ],
        rng,
        random,
    )
}

/// Characters past U+007F, and bytes that aren't well-formed.
fn characters() -> Vec<String> {
    let reads = utf8::tags();
    let reads = reads
        .iter()
        .map(|t| format!("read {} {REQ} 4660", text_or_none(t)));
    let writes = CHARACTERS
        .iter()
        .map(|(t, value)| format!("write {} {REQ} 4660 {value}", tag(t)));
    let broken = utf8::BROKEN.iter().map(|b| {
        let t = text_or_none(&[b"T4:1", *b, b"EN"].concat());
        format!("write {t} {REQ} 4660 bool 1")
    });
    writes.chain(broken).chain(reads).collect()
}

fn tag(text: &str) -> String {
    text_or_none(text.as_bytes())
}

fn bytes(n: usize) -> String {
    let bytes: Vec<u8> = (0..n).map(|i| (i * 7 + 33) as u8).collect();
    text_or_none(&bytes)
}

/// Question 6 of every builder, and what comes before it.
fn in_rooms() -> Vec<String> {
    let long = "N7:0".to_string() + &"0".repeat(256);
    let mut list = Vec::new();
    for room in ROOMS {
        for t in [
            "N7:0",
            "I99:3.300/5",
            "X7:0",
            "N7:0/3{2}",
            "N7:0{128}",
            &long,
        ] {
            list.push(format!("room {room} read {} {REQ} 1", tag(t)));
        }
        for (t, value) in [
            ("N7:0/3", "bool 1"),
            ("N7:0", "bool 1"),
            ("N7:0", "raw 01"),
            ("N7:0", "raw 0102"),
        ] {
            list.push(format!("room {room} write {} {REQ} 1 {value}", tag(t)));
        }
        list.push(format!("room {room} proc {REQ} 1"));
        list.push(format!("room {room} datalogreq 7"));
        list.push(format!("room {room} dirsizereq {} {REQ} 1", tag("1766")));
        list.push(format!("room {room} dirreadreq 03 65535 80 {REQ} 1"));
        list.push(format!("room {room} dirreadreq 03 65536 80 {REQ} 1"));
    }
    // status texts need 96 bytes, the files of a directory a row each
    for room in [0, 84, 95, 96, 97] {
        for status in ["00", "10", "A0", "F0"] {
            list.push(format!("room {room} status {}{status}", "00".repeat(58)));
            list.push(format!("room {room} errtext {status}"));
        }
        list.push(format!("room {room} status -"));
    }
    // a text that is read needs 82 bytes
    for room in [0, 3, 81, 82] {
        list.push(format!(
            "room {room} dec 8D 030062610063{}",
            "00".repeat(78)
        ));
        list.push(format!("room {room} dec 8D 0300"));
        list.push(format!("room {room} dec 8E 6261"));
        list.push(format!("room {room} dec 89 6261"));
    }
    for room in 0..5 {
        for data in [
            "-",
            "890200890200890200",
            "890200810000910400",
            "8902008902",
            "FF0000FF0000",
        ] {
            list.push(format!("room {room} dir 0 3 {data}"));
            list.push(format!("room {room} dir 0 0 {data}"));
        }
    }
    list
}

fn random(rng: &mut Rng) -> String {
    let line = match rng.below(10) {
        0..=3 => format!("read {} {}", any_tag(rng), asker(rng)),
        4..=6 => {
            let (t, asker) = (any_tag(rng), asker(rng));
            format!("write {t} {asker} {}", value(rng))
        }
        7 => format!("proc {}", asker(rng)),
        8 => {
            let text = rng.pick(&[
                "1761", "1762-L40", "1763", "1764", "1766-LEC", "1747", "176", "17666", "", "1765",
                "5/05",
            ]);
            format!(
                "dirsizereq {} {}",
                any_hex_or_none(rng, text.as_bytes()),
                asker(rng)
            )
        }
        _ => {
            let offset = match rng.below(3) {
                0 => rng.pick(&[0, 1, 254, 255, 256, 65534, 65535, 65536, 1 << 32, u64::MAX]),
                1 => rng.below(70_000) as u64,
                _ => rng.below(600) as u64,
            };
            format!(
                "dirreadreq {:02X} {offset} {} {}",
                rng.byte(),
                rng.byte(),
                asker(rng)
            )
        }
    };
    match rng.below(6) {
        0 => format!("room {} {line}", rng.pick(ROOMS)),
        _ => line,
    }
}

fn any_hex_or_none(rng: &mut Rng, bytes: &[u8]) -> String {
    match bytes {
        [] => "-".to_string(),
        some => any_hex(rng, some),
    }
}

fn any_tag(rng: &mut Rng) -> String {
    let mut text = spelled(rng);
    match rng.below(20) {
        0 => damage(rng, &mut text),
        1 if rng.once_in(2) => lengthen(rng, &mut text),
        2 => utf8::put_character(rng, &mut text),
        3 => utf8::put_broken(rng, &mut text),
        _ => {}
    }
    any_hex_or_none(rng, &text)
}

pub(super) fn asker(rng: &mut Rng) -> String {
    let req = match rng.below(3) {
        0 => REQ.to_string(),
        _ => {
            let id = rng.bytes(6);
            any_hex(rng, &id)
        }
    };
    let sequence = match rng.below(3) {
        0 => rng.pick(&[0, 1, 255, 256, 65534, 65535]),
        _ => rng.below(65536),
    };
    format!("{req} {sequence}")
}

pub(super) fn value(rng: &mut Rng) -> String {
    match rng.below(4) {
        0 | 1 => format!("bool {}", rng.below(2)),
        2 => {
            let n = match rng.below(3) {
                0 => rng.pick(&[0, 1, 2, 3, 4, 256, 257, 258, 300]),
                _ => rng.below(12),
            };
            let data = rng.bytes(n);
            format!("raw {}", any_hex_or_none(rng, &data))
        }
        _ => {
            let n = match rng.below(3) {
                0 => rng.pick(&[0, 1, 2, 3, 81, 82, 83, 84, 200]),
                _ => rng.below(6),
            };
            let text = rng.bytes(n);
            format!("text {}", any_hex_or_none(rng, &text))
        }
    }
}

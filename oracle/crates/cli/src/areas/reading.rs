//! The two readings of a tag (A12 of document 02): `new` before `tag`, `read` and `write`, and `dotted`.
use super::address::{NAMES, SETTLED, damage, digits, lengthen, spelled};
use super::request::{REQ, asker, value};
use super::{Lines, any_case, any_hex, in_turn, listed, text_or_none, utf8};
use crate::answer::Oracle;
use crate::rng::Rng;

/// Tags that settle a rule.
const TEXTS: &[&str] = &[
    // kept: a full stop or a slash
    "T4:12.PRE",
    "T4:12/PRE",
    "t4:0.acc",
    "c5:255/ua",
    "T255:001.EN",
    "C1:00/Cu",
    // retired: a digit, whichever cut is the longest
    "T4:123PRE",
    "T4:12PRE",
    "T4:1234PRE",
    "T4:001PRE",
    "T4:0000PRE",
    "T4:2555PRE",
    "T4:12ACC",
    "C5:11EN",
    // retired: signs, letters that names have too, a blank, control characters
    "T4:12:PRE",
    "T4:12{PRE",
    "T4:12}PRE",
    "T4:12,PRE",
    "T4:12-PRE",
    "T4:12\\PRE",
    "T4:12 PRE",
    "T4:12\0PRE",
    "T4:12\rPRE",
    "T4:12\u{7F}PRE",
    "T4:12APRE",
    "T4:1PPRE",
    "T4:1EEN",
    "c5:1uun",
    // letters of a name before another: T4:12C, and UN
    "T4:12CUN",
    "T4:12CDN",
    "T4:12TTT",
    // retired: characters of two, three and four bytes
    "C5:1éCU",
    "C5:1€CU",
    "C5:1😀CU",
    "C5:123\u{10FFFF}CU",
    // retired: characters that look like a full stop or a slash, or whose code ends as theirs
    "T4:1．PRE",
    "T4:1／PRE",
    "T4:1⁄PRE",
    "T4:1…PRE",
    "T4:1\u{12E}PRE",
    "T4:1\u{12F}PRE",
    "T4:1\u{202E}PRE",
    "T4:1\u{202F}PRE",
    "T4:1\u{1002E}PRE",
    "T4:1\u{1002F}PRE",
    "T4:1\u{2E2F}PRE",
    "T4:1\u{2F2E}PRE",
    // 2 before 39: no address, and an odd separator
    "T4:2565PRE",
    "T4:256éPRE",
    "T256:12:PRE",
    "T0:123PRE",
    "T4:12345PRE",
    "T4:1\nPRE",
    "T4:1ééPRE",
    "T4:1.:PRE",
    "T4:1:.PRE",
    "T4:123PRE{1}",
    "T4:12:PR",
    "R6:1:EN",
    // 2 with a full stop or a slash
    "T4:256.PRE",
    "T256:1/PRE",
    "T4:.PRE",
    "T4:1./PRE",
    "T4:12.PRE{1}",
    "R6:0.EN",
    // other types: no difference
    "N7:0",
    "N7:0{2}",
    "N7:0/3{2}",
    "n007:000{007}",
    "B3/4095{0}",
    "I99:3.300/5",
    "ı:0{2}",
    "O:1.2/15",
    "S:1/15{3}",
    "ſT9:0{2}",
    "A9:0255",
    "L9:0/15",
    "F8:0",
    "X7:0",
    "",
];

/// Reads as a new entry: 39, and each other number. (39 and 3 are never both answered with no, nor 39 and 5 of a read: a timer has no count.)
const READS: &[&str] = &[
    "T4:123PRE",
    "C5:1éCU",
    "T4:12.PRE",
    "C5:12/CU",
    "T4:2565PRE",
    "N7:0/3{2}",
    "N7:0{128}",
    "ST9:0{3}",
    "N7:0",
    "ı:3.300/5",
];

/// Writes as a new entry: tag, kind and value.
const WRITES: &[(&str, &str)] = &[
    // 39 alone, before 4, before 5
    ("T4:123PRE", "raw FFFF0100"),
    ("T4:1😀EN", "bool 1"),
    ("T4:123PRE", "bool 1"),
    ("C5:1éEN", "text 61"),
    ("T4:123PRE", "raw -"),
    ("C5:12:ACC", "raw 01"),
    // 2 before 39, 4 and 5
    ("T4:2565PRE", "bool 1"),
    ("T256:1éEN", "raw -"),
    // kept: 4, 5 and accepted
    ("T4:12.PRE", "bool 1"),
    ("C5:12/EN", "text 61"),
    ("T4:12/PRE", "raw -"),
    ("T4:12.PRE", "raw FFFF0100"),
    ("T4:12/EN", "bool 1"),
    // other types
    ("N7:0/3{2}", "bool 1"),
    ("N7:0", "bool 1"),
    ("N7:0", "raw 01"),
    ("N7:0/3", "bool 1"),
    ("ſt9:0", "text 616263"),
];

/// Lines about the words before a call: what they need comes first, from left to right, then whether the call takes them, then its own fields.
const SHAPES: &[&str] = &[
    "new",
    "new ",
    "new  tag 4E373A30",
    "new new",
    "new new tag 4E373A30",
    "new nothing",
    "new #",
    "New tag 4E373A30",
    "new tag",
    "new tag ",
    "new tag 4",
    "new tag 4E373A30 0",
    "new read 4E373A30 091009101971",
    "new write 4E373A30 091009101971 0",
    "new write 4E373A30 091009101971 0 word 1",
    "new dotted",
    "new dotted 4E373A30",
    "new dotted 0G",
    "new ft",
    "new ft 89",
    "new proc 091009101971 0",
    "new datalogreq 999",
    "new dump",
    "new sim",
    "new spoil",
    "new cmd -",
    "new room",
    "new room 1",
    "new room x",
    "new room 1 new",
    "new room x new",
    "new room x dotted",
    "new room -1 tag 4E373A30",
    "new room 1 tag",
    "new room 1 tag 4E373A30",
    "new room 1 dotted 4E373A30",
    "new room 1 new tag 4E373A30",
    "new room 1 room 2 tag 4E373A30",
    "new new room 1 tag 4E373A30",
    "room new",
    "room new tag 4E373A30",
    "room 1 new",
    "room x new",
    "room x new dotted",
    "room 1 new tag",
    "room 1 new tag 4E373A30",
    "room 1 new new tag 4E373A30",
    "room 1 new ft 89",
    "room 1 new room 2 tag 4E373A30",
    "room 1 new room x tag 4E373A30",
    "room 1 room 2 new tag 4E373A30",
    "room 255 new dotted 4E373A30",
    "room 1 dotted",
    "room x dotted 4E373A30",
    "dotted",
    "dotted ",
    "dotted 0",
    "dotted 4E373A30 0",
    "dotted new 4E373A30",
    "tag new 4E373A30",
];

/// Rooms near the bounds of question 6.
const ROOMS: &[u64] = &[
    0,
    1,
    26,
    27,
    28,
    253,
    254,
    255,
    256,
    283,
    284,
    285,
    u64::MAX,
];

/// Every rule once.
pub fn settled() -> Vec<String> {
    let tags = TEXTS.iter().map(|t| tag(t.as_bytes()));
    let both = tags.flat_map(|t| [format!("new tag {t}"), format!("dotted {t}")]);
    let reads = READS.iter().map(|t| read(t));
    let writes = WRITES.iter().map(|(t, v)| write(t, v));
    let bounds = ["room 0 ", "room 254 dotted", "room 255 dotted"];
    let rooms = in_rooms()
        .into_iter()
        .filter(|l| l.len() < 255 && bounds.iter().any(|b| l.starts_with(b)));
    let shapes = SHAPES.iter().map(|l| l.to_string());
    both.chain(reads)
        .chain(writes)
        .chain(rooms)
        .chain(shapes)
        .collect()
}

pub fn lines(mut rng: Rng) -> Lines {
    let others = SETTLED.iter().map(|t| t.as_bytes().to_vec());
    let others: Vec<Vec<u8>> = others.chain(utf8::tags()).collect();
    let first = vec![
        settled(),
        readings(&separators()),
        readings(&names()),
        readings(&elements()),
        readings(&others),
        lengths(),
        in_rooms(),
    ];
    let first = in_turn(first.into_iter().map(listed).collect());
    let rest = std::iter::repeat_with(move || random(&mut rng)).flatten();
    Box::new(first.chain(rest.map(String::into_bytes)))
}

fn tag(bytes: &[u8]) -> String {
    text_or_none(bytes)
}

fn read(text: &str) -> String {
    format!("new read {} {REQ} 4660", tag(text.as_bytes()))
}

fn write(text: &str, value: &str) -> String {
    format!("new write {} {REQ} 4660 {value}", tag(text.as_bytes()))
}

/// Each tag as a new entry, by one call after the other, and its text.
fn readings(tags: &[Vec<u8>]) -> Vec<String> {
    let each = tags.iter().enumerate().flat_map(|(i, t)| {
        let t = tag(t);
        let new = match i % 4 {
            0 => format!("new read {t} {REQ} 1"),
            1 => format!("new write {t} {REQ} 1 raw FFFF0100"),
            _ => format!("new tag {t}"),
        };
        [new, format!("dotted {t}")]
    });
    each.collect()
}

/// Every character below U+0080, ends of the UTF-8 table, look-alikes, and bytes that are no character, as the separator.
fn separators() -> Vec<Vec<u8>> {
    let low = (0..128).map(char::from);
    let ends = utf8::ENDS.iter().filter_map(|&code| char::from_u32(code));
    let all = low.chain(ends).chain(utf8::ALIKE.iter().copied());
    let well = all.map(|c| c.to_string().into_bytes());
    well.chain(utf8::BROKEN.iter().map(|b| b.to_vec()))
        .zip(["T4:12|PRE", "C5:1|EN", "t4:123|acc"].iter().cycle())
        .map(|(separator, text)| {
            let (before, name) = text.split_once('|').expect("its place");
            [before.as_bytes(), &separator, name.as_bytes()].concat()
        })
        .collect()
}

/// Each name in capitals, small and mixed letters behind each sort of separator.
fn names() -> Vec<Vec<u8>> {
    let mut list = Vec::new();
    for name in NAMES {
        let mixed = name[..1].to_lowercase() + &name[1..];
        for name in [name.to_string(), name.to_lowercase(), mixed] {
            for before in [
                "T4:12.",
                "C5:0/",
                "T4:123",
                "C5:12:",
                "T4:1é",
                "C5:255€",
                "T1:0😀",
            ] {
                list.push(format!("{before}{name}").into_bytes());
            }
        }
    }
    list
}

/// Elements of none to six digits, the last of which may be the separator.
fn elements() -> Vec<Vec<u8>> {
    let ends = [
        "255", "256", "2555", "2556", "2560", "0255", "00255", "999", "9999",
    ];
    let zeros = (0..=6).map(|k| "0".repeat(k));
    let counted = (1..=6).map(|k| "123456"[..k].to_string());
    let all = zeros.chain(counted).chain(ends.map(String::from));
    all.flat_map(|e| {
        ["PRE", ".PRE", "/PRE", "éPRE", "EN"].map(|end| format!("T4:{e}{end}").into_bytes())
    })
    .collect()
}

/// An address of so many bytes by the zeros of its count.
fn long(start: &str, n: usize) -> Vec<u8> {
    let mut text = [start, "{"].concat().into_bytes();
    text.resize(n - 2, b'0');
    text.extend(b"2}");
    text
}

/// Tags of about 255 bytes. A timer's is short, so one that goes on is none.
fn lengths() -> Vec<String> {
    let tags: Vec<Vec<u8>> = (253..=257)
        .flat_map(|n| ["N7:0", "ſ:1/15", "T4:123PRE", "T4:12.PRE"].map(|start| long(start, n)))
        .collect();
    let each = tags.iter().flat_map(|t| {
        let t = tag(t);
        [
            format!("new tag {t}"),
            format!("dotted {t}"),
            format!("new read {t} {REQ} 1"),
        ]
    });
    each.collect()
}

/// Question 6, and what comes before it.
fn in_rooms() -> Vec<String> {
    let mut list = Vec::new();
    let broken = tag(b"T4:1\x80PRE");
    let text = |t: &str| tag(t.as_bytes());
    for room in [0, 26, 27] {
        // 1, 2, 39, 3, 5, then 6
        let mut tags = [
            "T4:2565PRE",
            "T4:123PRE",
            "N7:0/3{2}",
            "N7:0{128}",
            "T4:12.PRE",
        ]
        .map(text)
        .to_vec();
        tags.push(broken.clone());
        for t in tags {
            list.push(format!("room {room} new read {t} {REQ} 1"));
            list.push(format!("new room {room} read {t} {REQ} 1"));
        }
    }
    for room in [0, 283, 284] {
        // 39, 4, 5, then 6
        for (t, value) in [
            ("T4:123PRE", "raw FFFF0100"),
            ("T4:12.PRE", "bool 1"),
            ("T4:12/PRE", "raw -"),
            ("T4:12/PRE", "raw FFFF0100"),
        ] {
            list.push(format!("room {room} new write {} {REQ} 1 {value}", text(t)));
            list.push(format!("new room {room} write {} {REQ} 1 {value}", text(t)));
        }
    }
    for room in [0, 8, 9, 253, 254, 255, 256, u64::MAX] {
        // 1, 2, then 6, whatever the text's length
        let mut tags = [
            "X7:0",
            "T4:2565PRE",
            "T4:123PRE",
            "T4:12/PRE",
            "C5:1😀CU",
            "N7:0{2}",
        ]
        .map(text)
        .to_vec();
        tags.extend([
            broken.clone(),
            tag(&long("N7:0", 255)),
            tag(&long("N7:0", 256)),
        ]);
        list.extend(tags.iter().map(|t| format!("room {room} dotted {t}")));
    }
    list
}

/// A timer or counter, mostly in range, with any separator.
fn timer(rng: &mut Rng) -> Vec<u8> {
    let (letter, name) = (rng.pick(&["C", "T"]), rng.pick(NAMES));
    let file = match rng.below(6) {
        0 => digits(rng, 255, &[0, 1, 254, 255, 256, 999, 1000]),
        _ => (1 + rng.below(255)).to_string(),
    };
    let element = match rng.below(6) {
        0 => digits(rng, 255, &[0, 1, 9, 254, 255, 256, 999, 1000]),
        _ => rng.below(256).to_string(),
    };
    let separator = match rng.below(8) {
        0 => '.',
        1 => '/',
        2 | 3 => char::from(b'0' + rng.below(10) as u8),
        4 => char::from(rng.below(128) as u8),
        5 => char::from(rng.pick(b":{}-, \0\r\nPREACCENTTDNUOV")),
        _ => utf8::character(rng),
    };
    let name = match rng.below(3) {
        0 => any_case(rng, name),
        _ => name.to_string(),
    };
    format!("{letter}{file}:{element}{separator}{name}").into_bytes()
}

fn any_tag(rng: &mut Rng) -> Vec<u8> {
    let mut tag = match rng.below(10) {
        0 | 1 => spelled(rng),
        _ => timer(rng),
    };
    match rng.below(24) {
        0 | 1 => damage(rng, &mut tag),
        2 if rng.once_in(2) => lengthen(rng, &mut tag),
        3 => utf8::put_character(rng, &mut tag),
        4 => utf8::put_broken(rng, &mut tag),
        _ => {}
    }
    tag
}

/// The text that the oracle writes.
fn dotted(tag: &str) -> Option<String> {
    let line = format!("dotted {tag}").into_bytes();
    let answer = String::from_utf8(Oracle::new(false).line(&line)).ok()?;
    answer.strip_prefix("ok ").map(String::from)
}

/// A line; or the stored reading of a tag, its text with a full stop, and that one as a new entry: it names the same address.
fn random(rng: &mut Rng) -> Vec<String> {
    let bytes = any_tag(rng);
    let t = any_hex(rng, &bytes);
    let (new, line) = match rng.below(12) {
        0..=3 => (true, format!("tag {t}")),
        4 | 5 => (true, format!("read {t} {}", asker(rng))),
        6 | 7 => {
            let asker = asker(rng);
            (true, format!("write {t} {asker} {}", value(rng)))
        }
        8 | 9 => (false, format!("dotted {t}")),
        _ => {
            let own = [format!("tag {t}"), format!("dotted {t}")];
            let again = dotted(&t).map(|d| format!("new tag {d}"));
            return own.into_iter().chain(again).collect();
        }
    };
    let room = rng.pick(ROOMS);
    let line = match (rng.below(8), new) {
        (0, true) => format!("room {room} new {line}"),
        (1, true) => format!("new room {room} {line}"),
        (_, true) => format!("new {line}"),
        (0..=2, false) => format!("room {room} {line}"),
        (_, false) => line,
    };
    vec![line]
}

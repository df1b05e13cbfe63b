//! Characters past U+007F and bytes that aren't well-formed UTF-8 (A2 of document 02), for the tags of the areas.
use crate::rng::Rng;

/// Texts that settle a rule of A2.
pub(super) const TEXTS: &[&str] = &[
    // U+0131 is an I, U+017F an S; bytes are kept
    "ı:0",
    "i:0",
    "ı:0{2}",
    "ı7:0",
    "ı99:3.300/5",
    "ı99:3.300/5{1}",
    "ı:0/3{2}",
    "ı000:255.999/15",
    "ı1000:0",
    "ı:256",
    "ı:0.1000",
    "ı:0/16",
    "ſ:1",
    "ſ:1{3}",
    "ſ:1/15{3}",
    "ſ:255/15",
    "ſ:256",
    "ſ2:1",
    "ſt9:0",
    "ſT9:0",
    "ſT9:0{2}",
    "ſt9:0{3}",
    "ſT9:0255",
    "ſt9:0256",
    "ı",
    "ı:",
    "ſ",
    "ſ:",
    "ſT",
    // no other letter is one of them, and they are no other letter
    "ıı:0",
    "ſſ9:0",
    "sſ9:0",
    "Sı9:0",
    "ıT9:0",
    "ſŧ9:0",
    "STſ9:0",
    "İ:0",
    "I\u{307}:0",
    "і:0",
    "Ｉ:0",
    "ş:1",
    "ß:1",
    "ẛ:1",
    "ﬅ9:0",
    "Ѕ:1",
    "ŧ4:1.PRE",
    "Т4:1.PRE",
    "С5:1.PRE",
    "А9:0",
    "\u{212B}9:0",
    "\u{212A}9:0",
    "Ν7:0",
    "ñ:0",
    "ű:0",
    "Ŀ:1",
    "ƿ:1",
    "\u{10131}:0",
    "\u{1017F}:1",
    // digits and signs
    "Nı:0",
    "N7:ı",
    "N7:0/ı",
    "I:0.ı",
    "N7:0{ı}",
    "N7:0{ſ}",
    "B3/ı",
    "N²:0",
    "N７:0",
    "N7:０",
    "N7:٣",
    "N7：0",
    "N7:0／3",
    "I:0．1",
    "B3⁄5",
    "N7:0｛2}",
    "N7:0{2｝",
    "N7:0{２}",
    // the separator of a timer or counter
    "T4:1éPRE",
    "T4:1€PRE",
    "T4:1😀PRE",
    "t4:12éacc",
    "C5:12\u{7F}EN",
    "C5:12\u{80}EN",
    "C5:1\u{85}EN",
    "C5:1\u{A0}EN",
    "C5:1\u{10A}EN",
    "C5:1\u{7FF}EN",
    "C5:1\u{800}EN",
    "C5:1\u{FFF}EN",
    "C5:1\u{1000}EN",
    "C5:1\u{2028}EN",
    "C5:1\u{2029}EN",
    "C5:1\u{D7FF}EN",
    "C5:1\u{E000}EN",
    "C5:1\u{FEFF}EN",
    "C5:1\u{FFFF}EN",
    "C5:1\u{10000}EN",
    "C5:1\u{1000A}EN",
    "C5:1\u{10FFFF}EN",
    "T4:1ıPRE",
    "T4:1ſACC",
    "T4:1１PRE",
    "T4:123éPRE",
    "T4:1234éPRE",
    "T4:256éPRE",
    "T256:1éPRE",
    // one character, and not a newline
    "T4:1ééPRE",
    "T4:1e\u{301}PRE",
    "T4:1.éPRE",
    "T4:1é.PRE",
    "T4:1é1PRE",
    "T4:1\néPRE",
    "T4:1é\nPRE",
    "T4:1\r\nPRE",
    "T4:éPRE",
    "T4é1.PRE",
    "T4:1é",
    "T4:1éPR",
    "T4:1éPRE{1}",
    "R6:1éEN",
    // names
    "T4:0.PRſ",
    "T4:0.PRÉ",
    "T4:0.РRE",
    "T4:0.ACС",
    "T4:0.ıEN",
    "T4:1éPREé",
    "T4:0.E\u{301}N",
    // in front and behind
    "\u{FEFF}N7:0",
    "éN7:0",
    "N7:0é",
    "N7:0{2}é",
    "N7:0\u{307}",
    "N7:0\u{A0}",
    // nothing else
    "é",
    "€",
    "😀",
    "\u{80}",
    "\u{10FFFF}",
];

/// Sequences that aren't well-formed, the ends of each kind among them.
pub(super) const BROKEN: &[&[u8]] = &[
    // a byte that stands behind others only
    b"\x80",
    b"\xBF",
    b"\xC3\xA9\xA9",
    b"\xE2\x82\xAC\x80",
    b"\xF0\x9F\x98\x80\x80",
    // cut
    b"\xC2",
    b"\xC4",
    b"\xC5",
    b"\xDF",
    b"\xE0",
    b"\xE9",
    b"\xEF",
    b"\xE0\xA0",
    b"\xE2\x82",
    b"\xED\x9F",
    b"\xEF\xBF",
    b"\xF0",
    b"\xF4",
    b"\xF0\x90",
    b"\xF4\x8F",
    b"\xF0\x9F\x98",
    b"\xF4\x8F\xBF",
    // in more bytes than it needs: NUL, newline, slash, I, ı, ſ and the last ones
    b"\xC0\x80",
    b"\xC0\x8A",
    b"\xC0\xAF",
    b"\xC1\x89",
    b"\xC1\xBF",
    b"\xE0\x80\x80",
    b"\xE0\x80\x8A",
    b"\xE0\x84\xB1",
    b"\xE0\x85\xBF",
    b"\xE0\x9F\xBF",
    b"\xF0\x80\x80\x80",
    b"\xF0\x80\x84\xB1",
    b"\xF0\x8F\xBF\xBF",
    // surrogates, alone and two
    b"\xED\xA0\x80",
    b"\xED\xAF\xBF",
    b"\xED\xB0\x80",
    b"\xED\xBF\xBF",
    b"\xED\xA0\xBD\xED\xB8\x80",
    // above U+10FFFF
    b"\xF4\x90\x80\x80",
    b"\xF4\xBF\xBF\xBF",
    b"\xF5\x80\x80\x80",
    b"\xF7\xBF\xBF\xBF",
    b"\xF8\x88\x80\x80\x80",
    b"\xFB\xBF\xBF\xBF\xBF",
    b"\xFC\x84\x80\x80\x80\x80",
    b"\xFD\xBF\xBF\xBF\xBF\xBF",
    b"\xFE",
    b"\xFF",
    b"\xFE\xFF",
];

/// The texts, then each broken sequence alone, in a letter's place, as a separator and behind.
pub(super) fn tags() -> Vec<Vec<u8>> {
    let mut list: Vec<Vec<u8>> = TEXTS.iter().map(|t| t.as_bytes().to_vec()).collect();
    for b in BROKEN {
        list.push(b.to_vec());
        list.push([b, &b":0"[..]].concat());
        list.push([b"T4:1", *b, b"PRE"].concat());
        list.push([b"N7:0", *b].concat());
    }
    list
}

/// Ends of the rows of the UTF-8 table, the two letters, and line ends of other texts.
pub(super) const ENDS: &[u32] = &[
    0x80, 0x7FF, 0x800, 0xFFF, 0x1000, 0xCFFF, 0xD000, 0xD7FF, 0xE000, 0xFFFF, 0x10000, 0x3FFFF,
    0x40000, 0xFFFFF, 0x100000, 0x10FFFF, 0x131, 0x17F, 0x85, 0x2028,
];

/// Characters that look like a sign of a tag, or share bytes with ı and ſ.
pub(super) const ALIKE: &[char] = &[
    'ı', 'ſ', 'İ', 'і', 'Ι', 'Ｉ', 'ş', 'ß', 'ẛ', 'ﬅ', 'Ѕ', 'ŧ', 'Т', 'С', 'А', 'В', 'О', 'Е', 'Ν',
    '\u{212A}', '\u{212B}', '²', '０', '１', '７', '٣', '：', '／', '．', '｛', '｝', '⁄',
    '\u{301}', '\u{307}', '\u{A0}', '\u{FEFF}', 'ñ', 'ű', 'Ŀ', 'ƿ', 'é', '€', '😀',
];

/// Signs that tags have, and a newline.
const SIGNS: &[u8] = b"0123456789:/.{}NSTIOABCFLPREDUV\n";

/// The bytes that the table's pattern of so many makes of a code, in its rows or not.
fn pattern(code: u32, bytes: usize) -> Vec<u8> {
    let part = |i: usize| code >> (6 * (bytes - 1 - i));
    let mut all: Vec<u8> = (0..bytes).map(|i| 0x80 | (part(i) & 0x3F) as u8).collect();
    all[0] = 0xFF << (8 - bytes) | part(0) as u8;
    all
}

/// A character past U+007F: one of ALIKE, one near an end, one whose low byte is a sign, or any of two, three or four bytes.
pub(super) fn character(rng: &mut Rng) -> char {
    loop {
        let code = match rng.below(5) {
            0 => u32::from(rng.pick(ALIKE)),
            1 => rng.pick(ENDS) + rng.below(5) as u32 - 2,
            2 => {
                let rows = rng.pick(&[0x7, 0xFF, 0x10FF]);
                u32::from(rng.pick(SIGNS)) + 0x100 * (1 + rng.below(rows)) as u32
            }
            _ => {
                let (from, to) = rng.pick(&[(0x80, 0x800), (0x800, 0x10000), (0x10000, 0x110000)]);
                (from + rng.below(to - from)) as u32
            }
        };
        if let Some(c) = char::from_u32(code).filter(|c| !c.is_ascii()) {
            return c;
        }
    }
}

/// Bytes that aren't well-formed, or a character's with one changed.
pub(super) fn broken(rng: &mut Rng) -> Vec<u8> {
    match rng.below(10) {
        0 => rng.pick(BROKEN).to_vec(),
        // a byte that stands behind others only
        1 => vec![0x80 + rng.below(0x40) as u8],
        // cut
        2 | 3 => {
            let mut bytes = character(rng).to_string().into_bytes();
            bytes.truncate(1 + rng.below(bytes.len() - 1));
            bytes
        }
        // one byte changed
        4 => {
            let mut bytes = character(rng).to_string().into_bytes();
            let at = rng.below(bytes.len());
            bytes[at] = rng.byte();
            bytes
        }
        // in more bytes than it needs
        5..=7 => {
            let c = match rng.below(3) {
                0 => character(rng),
                _ => char::from(rng.pick(SIGNS)),
            };
            let least = c.len_utf8() + 1;
            pattern(c.into(), least.max(2 + rng.below(4)))
        }
        // surrogates
        8 => pattern(0xD800 + rng.below(0x800) as u32, 3),
        // above U+10FFFF, and bytes that no row has
        _ => match rng.below(5) {
            0 | 1 => pattern(0x110000 + rng.below(0x30000) as u32, 4),
            2 => pattern(0x140000 + rng.below(0xC0000) as u32, 4),
            3 => pattern(0x200000 + rng.below(0x3E00000) as u32, 5),
            _ => {
                let n = rng.below(4);
                let mut bytes = vec![0xF5 + rng.below(11) as u8];
                bytes.extend((0..n).map(|_| 0x80 + rng.below(0x40) as u8));
                bytes
            }
        },
    }
}

/// Puts bytes in front of a character of the tag or in its place, or behind the last.
fn put(rng: &mut Rng, tag: &mut Vec<u8>, bytes: &[u8]) {
    let begins = |i: &usize| tag.get(*i).is_none_or(|b| b & 0xC0 != 0x80);
    let places: Vec<usize> = (0..=tag.len()).filter(begins).collect();
    let k = rng.below(places.len());
    let to = match rng.below(2) {
        0 => k,
        _ => (k + 1).min(places.len() - 1),
    };
    tag.splice(places[k]..places[to], bytes.iter().copied());
}

pub(super) fn put_character(rng: &mut Rng, tag: &mut Vec<u8>) {
    let c = character(rng).to_string();
    put(rng, tag, c.as_bytes());
}

pub(super) fn put_broken(rng: &mut Rng, tag: &mut Vec<u8>) {
    let bytes = broken(rng);
    put(rng, tag, &bytes);
}

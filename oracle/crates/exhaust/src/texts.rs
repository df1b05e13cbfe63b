//! Addresses and read requests. The Rust has the stored reading alone: what is expected of the other one and of dotted texts is made of its answer, and
//! of the separator, which is found here from the text's end.
use crate::Tally;
use ciplink::slc::pccc::{self, Requestor};
use ciplink::Error;
use slc_link::{DOTTED_ROOM, REQUEST_ROOM, Reading, Refused};

const SEQUENCE: u16 = 0x1234;
/// The codes of T and C.
const TIMED: [u8; 2] = [0x86, 0x87];

/// Code, file, element, position, sub-element, bit, count, bytes kept.
type Fields = (u8, u16, u16, Option<u16>, Option<u16>, bool, u64, usize);
type Answer = Result<Fields, u8>;

/// What is asked of a text.
#[derive(Debug, PartialEq)]
struct Answers {
    stored: Answer,
    new: Answer,
    /// where the stored reading accepts it
    more: Option<More>,
}

#[derive(Debug, PartialEq)]
struct More {
    request: Result<Vec<u8>, u8>,
    dotted: Result<String, u8>,
    /// the dotted text as a new entry
    again: Answer,
}

/// The text that the Rust takes; 1 above 255 bytes, and for what isn't UTF-8 by the standard library's own test.
fn text_of(bytes: &[u8]) -> Result<&str, u8> {
    if bytes.len() > 255 {
        return Err(1);
    }
    std::str::from_utf8(bytes).map_err(|_| 1)
}

/// Document 01's 2 is the Rust's `None`.
fn rust_address(text: &str) -> Answer {
    let a = pccc::parse_tag(text).ok_or(2)?;
    Ok((
        a.file_type.code(),
        a.file_number,
        a.element_number,
        a.pos_number,
        a.sub_element,
        a.bit,
        a.element_count as u64,
        a.tag.len(),
    ))
}

/// The message, or document 01's number for the Rust's error.
fn rust_request(text: &str, requestor: &Requestor) -> Result<Vec<u8>, u8> {
    match pccc::read_request(text, requestor, SEQUENCE) {
        Ok((_, message)) => Ok(message),
        Err(Error::Data(_)) => Err(5),
        Err(_) => Err(3),
    }
}

/// An accepted timer or counter as what stands before its separator, that character, and its name: PRE or ACC, else two letters.
fn cut(text: &str) -> (&str, char, &str) {
    let three = text.len() - 3;
    let long = text.get(three..).is_some_and(|name| ["PRE", "ACC"].iter().any(|n| n.eq_ignore_ascii_case(name)));
    let (front, name) = text.split_at(if long { three } else { three + 1 });
    let mut before = front.chars();
    let separator = before.next_back().expect("a separator");
    (before.as_str(), separator, name)
}

/// The Rust's answers, and what they come to in the new reading and with a full stop.
fn rust_answers(text: &[u8], requestor: &Requestor) -> Answers {
    let (text, address) = match text_of(text).and_then(|text| Ok((text, rust_address(text)?))) {
        Ok(accepted) => accepted,
        Err(refused) => return Answers { stored: Err(refused), new: Err(refused), more: None },
    };
    let (mut new, mut dotted, mut again) = (Ok(address), text.to_owned(), address);
    if TIMED.contains(&address.0) {
        let (before, separator, name) = cut(text);
        if !['.', '/'].contains(&separator) {
            new = Err(39);
        }
        dotted = format!("{before}.{name}");
        // all of it is kept
        again.7 = dotted.len();
    }
    let request = rust_request(text, requestor);
    Answers { stored: Ok(address), new, more: Some(More { request, dotted: Ok(dotted), again: Ok(again) }) }
}

fn our_address(text: &[u8], reading: Reading) -> Answer {
    let a = slc_link::parse_tag(text, reading).map_err(Refused::number)?;
    Ok((a.file_type.code(), a.file_number, a.element_number, a.position, a.sub_element, a.bit, a.element_count, a.kept))
}

fn our_request(text: &[u8]) -> Result<Vec<u8>, u8> {
    let mut out = [0; REQUEST_ROOM];
    match slc_link::read_request(text, Reading::Stored, slc_link::Requestor::default(), SEQUENCE, &mut out) {
        Ok(request) => Ok(request.message.to_vec()),
        Err(refused) => Err(refused.number()),
    }
}

fn our_more(text: &[u8]) -> More {
    let mut out = [0; DOTTED_ROOM];
    let dotted = slc_link::dotted(text, &mut out).map(String::from).map_err(Refused::number);
    let again = our_address(dotted.as_deref().unwrap_or("").as_bytes(), Reading::New);
    More { request: our_request(text), dotted, again }
}

fn our_answers(text: &[u8]) -> Answers {
    let stored = our_address(text, Reading::Stored);
    Answers { new: our_address(text, Reading::New), more: stored.ok().map(|_| our_more(text)), stored }
}

/// Answers that `--faults` makes wrong, one of them in each area.
fn spoil(text: &[u8], ours: &mut Answers) {
    match text {
        b"N7:1" | b"T4:1\xED\xA0\x80PRE" => ours.stored = Err(2),
        // ı
        b"\xC4\xB19:0" => ours.new = Err(39),
        b"\xC4\xB1:0{000001}" => ours.more.iter_mut().for_each(|more| more.dotted = Ok("ı:0".into())),
        _ => {}
    }
}

fn one(t: &mut Tally, text: &[u8], requestor: &Requestor) {
    let (rust, mut ours) = (rust_answers(text, requestor), our_answers(text));
    if t.spoilt {
        spoil(text, &mut ours);
    }
    t.compare(text, rust.stored.is_ok(), rust, ours);
}

/// The characters of a text, each as its bytes.
fn each(text: &str) -> Vec<&[u8]> {
    text.char_indices().map(|(i, c)| &text.as_bytes()[i..i + c.len_utf8()]).collect()
}

/// `text`, and all texts of it and at most `more` signs.
fn begun(t: &mut Tally, text: &mut Vec<u8>, signs: &[&[u8]], more: usize, requestor: &Requestor) {
    one(t, text, requestor);
    if more == 0 {
        return;
    }
    let n = text.len();
    for sign in signs {
        text.extend_from_slice(sign);
        begun(t, text, signs, more - 1, requestor);
        text.truncate(n);
    }
}

/// The two halves of the work, in two threads.
fn halves(t: &mut Tally, half: impl Fn(&mut Tally, usize) + Sync) {
    let spoilt = t.spoilt;
    let part = |odd: usize| {
        let mut part = Tally { spoilt, ..Tally::default() };
        half(&mut part, odd);
        part
    };
    std::thread::scope(|s| {
        let other = s.spawn(|| part(1));
        t.add(part(0));
        t.add(other.join().expect("the other half"));
    });
}

/// `start`, and all texts of it and at most `more` signs; each thread has every second sign behind `start`.
fn every(t: &mut Tally, start: &str, signs: &str, more: usize) {
    let signs = each(signs);
    halves(t, |part, odd| {
        for sign in signs.iter().skip(odd).step_by(2) {
            begun(part, &mut [start.as_bytes(), sign].concat(), &signs, more - 1, &Requestor::default());
        }
    });
    one(t, start.as_bytes(), &Requestor::default());
}

pub fn short(t: &mut Tally) {
    let all: String = (0..128u8).map(char::from).collect();
    every(t, "", &all, 4);
}

pub fn signs(t: &mut Tally) {
    every(t, "", "NTIS710:./{}P", 7);
}

pub fn forms(t: &mut Tally) {
    let starts = ["N7:", "B3/", "B3:", "I:", "I1:", "O", "S:", "S2:", "ST9:", "A9:", "L9:", "F8:", "T4:1", "C5:2", "R6:0"];
    for start in starts {
        every(t, start, "0159:./{}PRACEDNTU ", 5);
    }
}

pub fn letters(t: &mut Tally) {
    for start in ["ı", "ı1:", "ſ", "ſ:", "ſT9:", "T4:1", "C5:2é", "N7:0"] {
        every(t, start, "0159:./{}PRACEDNTU ıſé", 5);
    }
}

/// Where a character is put: the letter, digits, signs, the separator, names, count, in front and behind.
const PLACES: [&str; 30] = [
    "?", "?:0", "?9:0", "?t9:0", "S?9:0", "?4:1.PRE", "?3/5", "?N7:0", "N?:0", "N7?0", "N8:?", "N7:0?", "N7:0?3", "N7:0/?", "N7:0{?}", "N7:0?2}",
    "N7:0{2?", "N7:0{2}?", "I?0", "I:0?1", "I:0.?", "B3?5", "S:1?15", "T4:?.PRE", "T4:1?PRE", "T4:1?.PRE", "T4:1.?RE", "T4:1.AC?", "T4:1.?N",
    "T4:1.PRE?",
];

pub fn characters(t: &mut Tally) {
    halves(t, |part, odd| {
        let requestor = Requestor::default();
        for place in PLACES.iter().skip(odd).step_by(2) {
            let (front, behind) = place.split_once('?').expect("a place");
            let mut text = String::new();
            for c in '\0'..=char::MAX {
                text.clear();
                text.push_str(front);
                text.push(c);
                text.push_str(behind);
                one(part, text.as_bytes(), &requestor);
            }
        }
    });
}

/// Signs of tags, and the ends of the rows of the UTF-8 table with their neighbours.
const BYTES: [u8; 31] = [
    0x00, 0x0A, 0x2E, 0x31, 0x49, 0x7F, 0x80, 0x8F, 0x90, 0x9F, 0xA0, 0xB1, 0xBF, 0xC0, 0xC1, 0xC2, 0xC4, 0xC5, 0xDF, 0xE0, 0xE1, 0xEC, 0xED, 0xEE,
    0xEF, 0xF0, 0xF1, 0xF3, 0xF4, 0xF5, 0xFF,
];

/// As the separator of a timer, and as the letter.
fn sequence(t: &mut Tally, bytes: &[u8], requestor: &Requestor) {
    one(t, &[b"T4:1", bytes, b"PRE"].concat(), requestor);
    one(t, &[bytes, b":0"].concat(), requestor);
}

pub fn sequences(t: &mut Tally) {
    let requestor = Requestor::default();
    for a in 0..=255 {
        sequence(t, &[a], &requestor);
        for b in 0..=255 {
            sequence(t, &[a, b], &requestor);
        }
    }
    halves(t, |part, odd| {
        for a in BYTES.into_iter().skip(odd).step_by(2) {
            for b in BYTES {
                for c in BYTES {
                    sequence(part, &[a, b, c], &requestor);
                    for d in BYTES {
                        sequence(part, &[a, b, c, d], &requestor);
                    }
                }
            }
        }
    });
}

/// Zeros up to `at`, then `c`, then zeros, `length` bytes in all, so that `c` may be cut.
fn zeros_around(start: &str, at: usize, c: &str, length: usize) -> Vec<u8> {
    let mut text = start.as_bytes().to_vec();
    text.resize(at, b'0');
    text.extend_from_slice(c.as_bytes());
    text.resize(length, b'0');
    text
}

pub fn long(t: &mut Tally) {
    let requestor = Requestor::default();
    for start in ["ı:0{", "ſ:1/2{", "N7:0{"] {
        for at in start.len()..=298 {
            one(t, &zeros_around(start, at, "1}", at + 2), &requestor);
        }
    }
    for c in ["é", "€", "😀"] {
        for length in 0..=300 {
            let all: Vec<u8> = c.bytes().cycle().take(length).collect();
            one(t, &all, &requestor);
        }
        for at in 240..=260 {
            for length in at + 1..=270 {
                one(t, &zeros_around("N7:0{", at, c, length), &requestor);
            }
        }
    }
}

//! The cases: the calls of the baseline, and commands to processors of 1, 9, 64 and 256 files.
use crate::ours;
use ciplink::Value;
use ciplink::slc::pccc::{self, Requestor};
use ciplink_sim::config::{FileConfig, SlcConfig};
use ciplink_sim::slc::{Slc, access};
use slc_link::sys::{SLC_LATIN1, SLC_RAW, SLC_READING_NEW, SLC_READING_STORED, SLC_TRUE};
use std::cell::RefCell;
use std::hint::black_box;
use std::rc::Rc;

pub type Call = Box<dyn FnMut() -> usize>;

pub struct Case {
    pub name: String,
    /// calls in a timed run
    pub n: u64,
    /// the Rust, where it has such a call with this answer
    pub rust: Option<Call>,
    pub ours: Call,
    /// the yardstick in C, where there is one
    pub hand: Option<Call>,
}

const MANY: u64 = 300_000;
const SEQUENCE: u16 = 0x1234;
/// the functions that by_hand.c has
const HAND: [u8; 2] = [0xA2, 0xAB];
const HEAD: &str = "07 09 10 09 10 19 71 0F 00 34 12";

fn unhex(s: &str) -> Vec<u8> {
    let digits: String = s.split_whitespace().collect();
    digits
        .as_bytes()
        .chunks(2)
        .map(|p| u8::from_str_radix(std::str::from_utf8(p).expect("digits"), 16).expect("a byte"))
        .collect()
}

fn command(parameters: &str) -> Vec<u8> {
    unhex(&format!("{HEAD} {parameters}"))
}

/// What stands behind the name of a case.
fn said(reading: u8) -> &'static str {
    if reading == SLC_READING_NEW { ", new entry" } else { "" }
}

/// The Rust has the stored reading alone: a new entry that is refused for its separator has no counterpart.
fn parse_tag(tag: &'static str, reading: u8) -> Case {
    let refused = ours::parse_tag(tag, reading).refused;
    assert_eq!(pccc::parse_tag(tag).is_some(), refused != 2, "parse_tag {tag}");
    let rust = move || pccc::parse_tag(black_box(tag)).map_or(0, |a| a.element_count);
    Case {
        name: format!("parse_tag {tag}{}", said(reading)),
        n: MANY,
        rust: if refused == 39 { None } else { Some(Box::new(rust)) },
        ours: Box::new(move || ours::parse_tag(black_box(tag), reading).element_count as usize),
        hand: None,
    }
}

fn dotted(tag: &'static str, text: &str) -> Case {
    let mut out = [0u8; 284];
    let length = ours::dotted(tag, &mut out).length;
    assert_eq!(text.as_bytes(), &out[..length], "dotted {tag}");
    Case {
        name: format!("dotted {tag}"),
        n: MANY,
        rust: None,
        ours: Box::new(move || ours::dotted(black_box(tag), black_box(&mut out)).length),
        hand: None,
    }
}

fn read_request(tag: &'static str, reading: u8) -> Case {
    let requestor = Requestor::default();
    let mut out = [0u8; 284];
    let (_, message) = pccc::read_request(tag, &requestor, SEQUENCE).expect("a request");
    let length = ours::read_request(tag, reading, SEQUENCE, &mut out).length;
    assert_eq!(message, out[..length], "read_request {tag}");
    let rust = move || pccc::read_request(black_box(tag), black_box(&requestor), black_box(SEQUENCE)).map_or(0, |r| r.1.len());
    Case {
        name: format!("read_request {tag}{}", said(reading)),
        n: MANY,
        rust: Some(Box::new(rust)),
        ours: Box::new(move || ours::read_request(black_box(tag), reading, black_box(SEQUENCE), black_box(&mut out)).length),
        hand: None,
    }
}

fn write_request(tag: &'static str, what: &str, value: Value, kind: u8, bytes: Vec<u8>) -> Case {
    let requestor = Requestor::default();
    let mut out = [0u8; 284];
    let (_, message) = pccc::write_request(tag, &value, &requestor, SEQUENCE).expect("a request");
    let length = ours::write_request(tag, kind, &bytes, SEQUENCE, &mut out).length;
    assert_eq!(message, out[..length], "write_request {tag}");
    Case {
        name: format!("write_request {tag} {what}"),
        n: MANY,
        rust: Some(Box::new(move || {
            pccc::write_request(black_box(tag), black_box(&value), &requestor, black_box(SEQUENCE)).map_or(0, |r| r.1.len())
        })),
        ours: Box::new(move || ours::write_request(black_box(tag), kind, black_box(&bytes), black_box(SEQUENCE), black_box(&mut out)).length),
        hand: None,
    }
}

/// 256 rows of 10 bytes from byte 79 on (an SLC 5/05): row i has code CODES[i % 16] (15 known codes, then 81), length word 84 * i.
fn directory256() -> Vec<u8> {
    const CODES: [u8; 16] = [0x82, 0x83, 0x84, 0x85, 0x86, 0x87, 0x88, 0x89, 0x8A, 0x8D, 0x8E, 0x91, 0x92, 0x93, 0x94, 0x81];
    let mut d = vec![0u8; 79 + 256 * 10];
    for i in 0..256usize {
        let row = 79 + 10 * i;
        d[row] = CODES[i % 16];
        d[row + 1..row + 3].copy_from_slice(&((84 * i) as u16).to_le_bytes());
    }
    d
}

fn parse_file_directory() -> Case {
    let bytes = directory256();
    let same = bytes.clone();
    let mut out = vec![[0u32; 4]; 256];
    let files = pccc::parse_file_directory(79, 10, &bytes).expect("files").len();
    assert_eq!(files, ours::parse_file_directory(79, 10, &bytes, &mut out).length, "parse_file_directory");
    Case {
        name: "parse_file_directory 256 rows".into(),
        n: 3_000,
        rust: Some(Box::new(move || pccc::parse_file_directory(79, 10, black_box(&bytes)).map_or(0, |f| f.len()))),
        ours: Box::new(move || ours::parse_file_directory(79, 10, black_box(&same), black_box(&mut out)).length),
        hand: None,
    }
}

/// The two processors, with the same files.
#[derive(Clone)]
struct Pair {
    rust: Rc<RefCell<Slc>>,
    ours: Rc<RefCell<ours::Processor>>,
    what: String,
}

impl Pair {
    /// So many files N of 100 elements; none: the nine default ones.
    fn new(files: u32, text: &str) -> Pair {
        let mut config = SlcConfig { processor_type: text.into(), ..SlcConfig::default() };
        let mut list = Vec::new();
        for i in 0..files {
            config.files.push(FileConfig::new(i as _, "N", 100));
            list.push([i, 0x89, 100]);
        }
        Pair {
            rust: Rc::new(RefCell::new(Slc::new(&config).expect("a processor"))),
            ours: Rc::new(RefCell::new(ours::Processor::new(&list, text))),
            what: if files == 0 { "9 default files".into() } else { format!("{files} files N") },
        }
    }

    fn case(&self, name: &str, bytes: Vec<u8>) -> Case {
        let (rust, ours) = (self.rust.clone(), self.ours.clone());
        let same = bytes.clone();
        let reply = access::pccc(&mut rust.borrow_mut(), &bytes).expect("a reply");
        let length = ours.borrow_mut().pccc(&bytes);
        assert_eq!(reply, ours.borrow().reply[..length], "pccc {name}");
        let hand = HAND.contains(&bytes[11]).then(|| self.by_hand(&bytes, &reply));
        Case {
            name: format!("pccc {name}, {}", self.what),
            n: if self.what.starts_with("256") { 30_000 } else { MANY },
            rust: Some(Box::new(move || access::pccc(&mut rust.borrow_mut(), black_box(&bytes)).map_or(0, |r| r.len()))),
            ours: Box::new(move || ours.borrow_mut().pccc(black_box(&same))),
            hand,
        }
    }

    fn by_hand(&self, bytes: &[u8], reply: &[u8]) -> Call {
        let (ours, same) = (self.ours.clone(), bytes.to_vec());
        let length = ours.borrow_mut().by_hand(bytes);
        assert_eq!(reply, &ours.borrow().reply[..length], "by hand");
        Box::new(move || ours.borrow_mut().by_hand(black_box(&same)))
    }
}

fn default_files() -> Vec<Case> {
    let p = Pair::new(0, "1747-L552");
    let mut write200 = command("AB C8 07 89 00 00 F0 0F");
    write200.extend(0..200u8);
    vec![
        p.case("read 2", command("A2 02 07 89 05 00")),
        p.case("read 200", command("A2 C8 07 89 00 00")),
        p.case("masked write 2", command("AB 02 07 89 05 00 F0 0F 34 12")),
        p.case("masked write 200", write200),
        p.case("directory read 80", command("A1 50 00 01 00")),
        p.case("directory size", command("A1 04 00 01 23")),
        p.case("bad file", command("A2 02 63 89 05 00")),
        p.case("diagnostic status", unhex("07 09 10 09 10 19 71 06 00 34 12 03")),
    ]
}

/// Commands to the last file, which the Rust finds by its map and ours in its pass over the records.
fn many_files(files: u32) -> Vec<Case> {
    let p = Pair::new(files, "1766-LEC");
    let last = if files == 256 { "FF FF 00".into() } else { format!("{:02X}", files - 1) };
    vec![
        p.case("read 2", command(&format!("A2 02 {last} 89 05 00"))),
        p.case("masked write 2", command(&format!("AB 02 {last} 89 05 00 F0 0F 34 12"))),
        p.case("directory read 80", command("A1 50 00 03 00")),
    ]
}

pub fn all() -> Vec<Case> {
    let tags = ["N7:0", "T4:123PRE", "I99:3.300/5", "B3/4095", "S:1/15{18446744073709551616}", "X7:0", "ı:0", "T4:1éPRE"];
    let mut cases: Vec<Case> = tags.map(|tag| parse_tag(tag, SLC_READING_STORED)).into();
    cases.extend(["N7:0", "T4:12.PRE", "T4:123PRE"].map(|tag| parse_tag(tag, SLC_READING_NEW)));
    cases.extend([("T4:123PRE", "T4:12.PRE"), ("N7:0", "N7:0"), ("T4:1€PRE", "T4:1.PRE")].map(|(tag, text)| dotted(tag, text)));
    cases.extend(["N7:0", "I99:3.300/5"].map(|tag| read_request(tag, SLC_READING_STORED)));
    cases.push(read_request("N7:0", SLC_READING_NEW));
    let raw = |n: u32| (0..n).map(|i| i as u8).collect::<Vec<u8>>();
    let six = vec![0xFF, 0xFF, 1, 2, 3, 4];
    cases.push(write_request("N7:0/3", "true", Value::Bool(true), SLC_TRUE, vec![]));
    cases.push(write_request("N7:0", "raw 6", Value::Bytes(six.clone()), SLC_RAW, six));
    cases.push(write_request("N7:0", "raw 257", Value::Bytes(raw(257)), SLC_RAW, raw(257)));
    cases.push(write_request("ST9:0", "text abc", Value::String("abc".into()), SLC_LATIN1, b"abc".to_vec()));
    cases.push(parse_file_directory());
    cases.extend(default_files());
    for files in [1, 9, 64, 256] {
        cases.extend(many_files(files));
    }
    cases
}

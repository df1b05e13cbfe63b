//! Commands to the simulated processor: the fields of a command in turn, each with every value that is listed for it, and the command as it
//! is where it ends at any of them.
use crate::Tally;
use ciplink_sim::config::{FileConfig, SlcConfig};
use ciplink_sim::slc::{Slc, access};
use slc_link::{File, FileType, Processor, REPLY_ROOM, Refused};

/// The fields behind the id, TNS included. An entry may end inside its field.
const HEADS: [&[u8]; 6] = [
    &[0x0F, 0x00, 0x34, 0x12],
    &[0x06, 0x00, 0x34, 0x12],
    &[0x4F, 0x00, 0x34, 0x12],
    &[0x0F, 0x10, 0xFF, 0xFF],
    &[0x0F, 0x00, 0x34],
    &[0x00, 0x00, 0x00, 0x00],
];
const SIZES: [u8; 11] = [0, 1, 2, 3, 4, 6, 8, 9, 84, 200, 255];
const FILES: [&[u8]; 11] =
    [&[0], &[1], &[3], &[4], &[7], &[9], &[254], &[0xFF], &[0xFF, 7], &[0xFF, 7, 0], &[0xFF, 0xFF, 0]];
const CODES: [u8; 9] = [0x01, 0x03, 0x82, 0x85, 0x86, 0x89, 0x8A, 0x8D, 0xA5];
const ELEMENTS: [&[u8]; 9] = [&[0], &[1], &[2], &[0x23], &[0x2B], &[99], &[0xFF], &[0xFF, 0x02, 0x00], &[0xFF, 0x00, 0x80]];
const LAST: [&[u8]; 6] = [&[0], &[1], &[2], &[6], &[0xFF, 0x01, 0x00], &[0xFF, 0x01]];
/// A mask and values, cut and whole.
const TAILS: [&[u8]; 7] = [
    &[0xFF],
    &[0xFF, 0x00],
    &[0x0F, 0xF0, 0x34],
    &[0x0F, 0xF0, 0x34, 0x12],
    &[0x00, 0x00, 0x11, 0x22, 0x33, 0x44],
    &[0xFF, 0xFF, 0x11, 0x22, 0x33, 0x44, 0x55, 0x66],
    &[0xA5; 90],
];

pub struct Pair {
    rust: Slc,
    ours: Processor,
    reply: [u8; REPLY_ROOM],
}

impl Pair {
    /// Files by number, type and elements; none: the default ones.
    fn new(text: &str, files: &[(u32, FileType, u32)], log: &[&str]) -> Pair {
        let mut config = SlcConfig { processor_type: text.into(), ..SlcConfig::default() };
        config.files = files.iter().map(|(n, t, e)| FileConfig::new(*n as u16, t.name().as_str(), *e)).collect();
        config.datalog = log.iter().map(|s| s.to_string()).collect();
        let list: Vec<File> = files.iter().map(|&(number, file_type, elements)| File { number, file_type, elements }).collect();
        let entries: Vec<&[u8]> = log.iter().map(|s| s.as_bytes()).collect();
        Pair {
            rust: Slc::new(&config).expect("the Rust's processor"),
            ours: Processor::new(&list, text.as_bytes(), &entries).expect("our processor"),
            reply: [0; REPLY_ROOM],
        }
    }

    fn ask(&mut self, t: &mut Tally, command: &[u8]) {
        let rust = access::pccc(&mut self.rust, command);
        let ours = self.ours.pccc(command, &mut self.reply);
        // document 01's 18 is the Rust's `None`
        let mut ours = match ours {
            Ok(reply) => Ok(Some(reply)),
            Err(Refused::Command) => Ok(None),
            Err(other) => Err(other),
        };
        if t.spoilt && t.inputs == 1000 {
            ours = Ok(Some(&[]));
        }
        let good = rust.as_ref().is_some_and(|r| r.get(r[0] as usize + 1) == Some(&0));
        t.compare(command, good, Ok(rust.as_deref()), ours);
        if good || t.inputs % 4096 == 0 {
            self.compare_files(t, command);
        }
    }

    fn compare_files(&self, t: &mut Tally, command: &[u8]) {
        let data: usize = access::files(&self.rust).iter().map(|(.., bytes)| bytes.len()).sum();
        let mut at = 0;
        let mut same = data == self.ours.data().len() && access::datalog(&self.rust).len() == self.ours.datalog_left();
        for (_, _, bytes) in access::files(&self.rust) {
            same = same && self.ours.data().get(at..at + bytes.len()) == Some(bytes);
            at += bytes.len();
        }
        if !same {
            t.differences += 1;
            println!("  {command:02X?}: leaves other files");
        }
    }
}

/// The command so far, and all that begin with it.
fn extend(p: &mut Pair, t: &mut Tally, command: &mut Vec<u8>, fields: &[&[&[u8]]]) {
    p.ask(t, command);
    let Some((first, rest)) = fields.split_first() else { return };
    for value in *first {
        let n = command.len();
        command.extend_from_slice(value);
        extend(p, t, command, rest);
        command.truncate(n);
    }
}

fn every(p: &mut Pair, t: &mut Tally, id: &[u8]) {
    let functions: Vec<[u8; 1]> = (0..=255).map(|b| [b]).collect();
    let all: Vec<&[u8]> = functions.iter().map(|f| &f[..]).collect();
    let known: [&[u8]; 4] = [&[0xA1], &[0xA2], &[0xAA], &[0xAB]];
    let sizes: Vec<[u8; 1]> = SIZES.map(|b| [b]).into();
    let sizes: Vec<&[u8]> = sizes.iter().map(|s| &s[..]).collect();
    let codes: Vec<[u8; 1]> = CODES.map(|b| [b]).into();
    let codes: Vec<&[u8]> = codes.iter().map(|s| &s[..]).collect();
    // every function byte, with a few parameters, behind every head
    let mut command = id.to_vec();
    extend(p, t, &mut command, &[&HEADS, &all, &sizes[..3], &FILES[..2], &codes[..2], &ELEMENTS[..2], &LAST[..2]]);
    // the known functions with every field
    command = id.to_vec();
    extend(p, t, &mut command, &[&HEADS[..1], &known, &sizes, &FILES, &codes, &ELEMENTS, &LAST, &TAILS]);
}

/// The three processors, with the requester's id that each is asked with.
fn pairs() -> [(Pair, &'static [u8]); 3] {
    use FileType::*;
    let types = [O, I, S, B, T, C, R, N, F, ST, A, L];
    let twelve: Vec<(u32, FileType, u32)> = types.iter().zip([0, 1, 2, 3, 4, 5, 7, 9, 100, 200, 254, 255]).map(|(&f, n)| (n, f, 3)).collect();
    [
        (Pair::new("1747-L552", &[], &["a", "two", ""]), &[7, 9, 16, 9, 16, 25, 113]),
        (Pair::new("1766-LEC", &twelve, &[]), &[1, 0]),
        (Pair::new("", &[(7, N, 128), (255, N, 1)], &["entry"]), &[2, 1, 2]),
    ]
}

pub fn all(t: &mut Tally) {
    for (mut p, id) in pairs() {
        every(&mut p, t, id);
        if t.spoilt {
            return;
        }
    }
}

/// A number as an address field: one byte below 255, else FF and a word.
fn address(n: u16) -> Vec<u8> {
    if n < 255 { vec![n as u8] } else { [&[0xFF], &n.to_le_bytes()[..]].concat() }
}

/// Every read of 0 to 255 bytes, and every write of 0 to 7, from each element on and from each of its first five words, to the second element behind the end.
pub fn bounds(t: &mut Tally) {
    for (mut p, id) in pairs() {
        let files: Vec<(u16, u8, usize)> = access::files(&p.rust).iter().map(|(n, code, bytes)| (*n, *code, bytes.len())).collect();
        for (number, code, length) in files {
            let elements = length / access::element_size(code).expect("one of the twelve");
            for element in 0..elements as u16 + 2 {
                for word in 0..5 {
                    let place = |function: u8, size: u8| {
                        let head = [id, &[0x0F, 0, 0x34, 0x12, function, size]].concat();
                        [head, address(number), vec![code], address(element), address(word)].concat()
                    };
                    for size in 0..=255 {
                        p.ask(t, &place(0xA2, size));
                    }
                    for size in 0..8u8 {
                        let values: Vec<u8> = (0..size).map(|i| element as u8 ^ word as u8 ^ size << 4 ^ i).collect();
                        p.ask(t, &[place(0xAA, size), values.clone()].concat());
                        p.ask(t, &[place(0xAB, size), vec![0x0F, 0xA5], values].concat());
                    }
                }
            }
        }
        if t.spoilt {
            return;
        }
    }
}

//! The Rust original and the proved library in one process, on every input of sets that are stated below, none left out.
//! `exhaust [AREA..]` compares; `exhaust --faults` shows that a wrong answer in each area is found.
mod commands;
mod replies;
mod rows;
mod texts;
mod words;

use std::process::exit;

/// What the areas count, and whether ours is spoilt on purpose.
#[derive(Default)]
pub struct Tally {
    pub inputs: u64,
    pub accepted: u64,
    pub differences: u64,
    pub spoilt: bool,
}

impl Tally {
    fn spoilt() -> Tally {
        Tally { spoilt: true, ..Tally::default() }
    }

    /// One input, and the two answers.
    pub fn compare<T: PartialEq + std::fmt::Debug>(&mut self, input: &[u8], accepted: bool, rust: T, ours: T) {
        self.inputs += 1;
        self.accepted += u64::from(accepted);
        if rust != ours {
            self.differences += 1;
            if self.differences <= 5 && !self.spoilt {
                println!("  {input:02X?}: the Rust {rust:?}, ours {ours:?}");
            }
        }
    }

    pub fn add(&mut self, other: Tally) {
        self.inputs += other.inputs;
        self.accepted += other.accepted;
        self.differences += other.differences;
    }
}

type Area = (&'static str, &'static str, fn(&mut Tally));

const AREAS: [Area; 12] = [
    ("short", "every text of at most 4 bytes below 128: parse_tag in both readings; where the stored one accepts it read_request, and dotted with its text as a new entry", texts::short),
    ("signs", "every text of at most 7 of the signs N T I S 7 1 0 : . / { } P: the same", texts::signs),
    ("forms", "15 beginnings, as N7: and T4:1, with at most 5 of 19 signs behind: the same", texts::forms),
    ("letters", "8 beginnings, as ı and ſT9: and T4:1, with at most 5 of 22 signs behind, ı, ſ and é among them: the same", texts::letters),
    ("characters", "every character of Unicode in 30 places, as ?:0 and T4:1?PRE (texts.rs lists them): the same", texts::characters),
    ("sequences", "every sequence of 1 or 2 bytes, and of 3 or 4 out of 31 around the ends of the UTF-8 table, as the letter of ?:0 and as the separator of T4:1?PRE: the same, 1 where it isn't UTF-8", texts::sequences),
    ("long", "counts of zeros in texts of up to 300 bytes; é, € and 😀 over and over, of up to 300, and at bytes 240 to 260, whole and cut: the same, 1 above 255 bytes", texts::long),
    ("commands", "every command made of the fields that commands.rs lists, to three processors: pccc, and the files that it leaves", commands::all),
    ("bounds", "every read of 0 to 255 bytes and every write of 0 to 7, from every element and each of its first five words, of every file: the same", commands::bounds),
    ("rows", "every directory of at most 6 of the bytes 00 01 82 83 89 8D FF, with rows of 1 to 4 bytes from byte 0 to 3 on: parse_file_directory", rows::all),
    ("replies", "every status with every extended one, in raw replies of every length to 64; every size of a directory: request_status, parse_datalog, parse_file_directory_size", replies::all),
    ("words", "every word as N, S, B, O and I, and every whole number from -70,000 to 70,000: decode_element, encode_element", words::all),
];

fn main() {
    let args: Vec<String> = std::env::args().skip(1).collect();
    if args == ["--faults"] {
        for (name, _, run) in AREAS {
            let mut t = Tally::spoilt();
            run(&mut t);
            println!("{name}: a wrong answer is {}", if t.differences == 1 { "found" } else { "NOT found" });
            if t.differences != 1 {
                exit(1);
            }
        }
        return;
    }
    if let Some(a) = args.iter().find(|a| !AREAS.iter().any(|(name, ..)| name == a)) {
        eprintln!("exhaust: no area {a}");
        exit(2);
    }
    let mut all = 0;
    for (name, what, run) in AREAS {
        if args.is_empty() || args.iter().any(|a| a == name) {
            let mut t = Tally::default();
            run(&mut t);
            println!("{name}: {what}: {} inputs, {} accepted, {} differences", t.inputs, t.accepted, t.differences);
            all += t.differences;
        }
    }
    exit(i32::from(all != 0));
}

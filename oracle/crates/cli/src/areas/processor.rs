//! The simulated processor: runs of commands and element accesses on many layouts.
use super::{Lines, text_or_none};
use crate::hex::hex;
use crate::rng::Rng;

/// Type codes of the simulator with their element sizes.
const TYPES: &[(u8, usize)] = super::codec::TYPES.split_at(12).0;
/// The default files: type code and elements, by number.
const DEFAULTS: &[(u8, usize)] = &[
    (0x82, 8),
    (0x83, 8),
    (0x84, 83),
    (0x85, 32),
    (0x86, 16),
    (0x87, 16),
    (0x88, 8),
    (0x89, 100),
    (0x8A, 50),
];
/// Type texts, with first row, row size, type and size element of their family.
const FAMILIES: &[(&str, [usize; 4])] = &[
    ("1761-L32BWA", [93, 8, 0x00, 0x23]),
    ("1762-L40BXB", [233, 10, 0x02, 0x28]),
    ("1763-L16AWA", [233, 10, 0x02, 0x28]),
    ("1764-LSP", [233, 10, 0x02, 0x28]),
    ("1766-LEC", [233, 10, 0x03, 0x2B]),
    ("1747-L551", [79, 10, 0x01, 0x23]),
    ("1765", [79, 10, 0x01, 0x23]),
    ("176", [79, 10, 0x01, 0x23]),
    ("", [79, 10, 0x01, 0x23]),
];

#[derive(Clone, Copy)]
struct File {
    code: u8,
    size: usize,
    number: usize,
    elements: usize,
}

/// The processor that the lines speak of, as far as they need it.
struct Layout {
    files: Vec<File>,
    family: [usize; 4],
}

impl Layout {
    fn directory(&self) -> usize {
        let last = self.files.iter().map(|f| f.number).max().unwrap_or(0);
        self.family[0] + self.family[1] * (last + 1)
    }
    fn total(&self) -> usize {
        self.files.iter().map(|f| f.elements * f.size).sum()
    }
}

/// The stored sample has its runs from so many lines; behind them long texts come more often.
const SAMPLED: usize = 60_000;

pub fn lines(mut rng: Rng) -> Lines {
    let mut written = 0;
    let mut layout = Layout {
        files: Vec::new(),
        family: FAMILIES[0].1,
    };
    let mut left = 0;
    // before any processor: 16
    let first = [
        "cmd 07091009101971060000000003",
        "get 89 7 0",
        "hash",
        "dump",
        "directory",
    ];
    let first = first.into_iter().map(|l: &str| l.as_bytes().to_vec());
    let rest = std::iter::repeat_with(move || {
        if left == 0 {
            let (line, new, spoilt) = sim(&mut rng);
            left = if spoilt { 2 } else { 5 + rng.below(60) };
            layout = new;
            return line.into_bytes();
        }
        left -= 1;
        written += 1;
        let text = match written > SAMPLED && rng.once_in(80) {
            true => long_text(&mut rng, &layout),
            false => None,
        };
        text.unwrap_or_else(|| step(&mut rng, &layout)).into_bytes()
    });
    Box::new(first.chain(rest))
}

/// The line, the layout that it builds, and whether it is one that most likely builds none.
fn sim(rng: &mut Rng) -> (String, Layout, bool) {
    let (text, family) = rng.pick(FAMILIES);
    let mut files = if rng.once_in(4) {
        Vec::new()
    } else {
        some_files(rng)
    };
    let mut text = text.as_bytes().to_vec();
    let mut log = datalog(rng);
    let layout = Layout {
        files: match files.is_empty() {
            true => defaults(),
            false => files.clone(),
        },
        family,
    };
    let mut listed: Vec<String> = files
        .drain(..)
        .map(|f| shown(f.code, f.number as u64, f.elements as u64))
        .collect();
    let spoilt = rng.once_in(5);
    if spoilt {
        spoil(rng, &mut listed, &mut text, &mut log);
        if rng.once_in(3) {
            spoil(rng, &mut listed, &mut text, &mut log);
        }
    }
    let listed = match listed.is_empty() {
        true => "-".to_string(),
        false => listed.join(","),
    };
    let log = match log.is_empty() {
        true => "-".to_string(),
        false => log.join(","),
    };
    (
        format!("sim {} {listed} {log}", text_or_none(&text)),
        layout,
        spoilt,
    )
}

fn shown(code: u8, number: u64, elements: u64) -> String {
    format!("{code:02X}:{number}:{elements}")
}

fn defaults() -> Vec<File> {
    let size = |code| TYPES.iter().find(|t| t.0 == code).map_or(2, |t| t.1);
    DEFAULTS
        .iter()
        .enumerate()
        .map(|(number, &(code, elements))| File {
            code,
            size: size(code),
            number,
            elements,
        })
        .collect()
}

/// One file to all 256, in any order; often small, sometimes empty, sometimes up to the last byte.
fn some_files(rng: &mut Rng) -> Vec<File> {
    let count = match rng.below(8) {
        0 => 256,
        1 => 1,
        2 => 30 + rng.below(100),
        _ => 1 + rng.below(12),
    };
    let mut numbers: Vec<usize> = match rng.below(3) {
        0 => (0..256).rev().take(count).collect(),
        1 => (0..count).collect(),
        _ => (0..256).collect(),
    };
    rng.shuffle(&mut numbers);
    numbers.truncate(count);
    let mut room = 65_535;
    let most = if rng.once_in(3) { 12 } else { 60 };
    let mut files: Vec<File> = numbers
        .into_iter()
        .map(|number| {
            let (code, size) = rng.pick(TYPES);
            let elements = rng.below(most).min(room / size);
            room -= elements * size;
            File {
                code,
                size,
                number,
                elements,
            }
        })
        .collect();
    if rng.once_in(6) {
        // one more byte would be too many
        let last = files.len() - 1;
        files[last].elements += room / files[last].size;
    }
    files
}

fn datalog(rng: &mut Rng) -> Vec<String> {
    let count = match rng.below(6) {
        0 => 64,
        1 => 1 + rng.below(6),
        2 => 2,
        _ => 0,
    };
    (0..count)
        .map(|_| {
            let n = match rng.below(5) {
                0 => rng.pick(&[0, 1, 255]),
                _ => rng.below(12),
            };
            let text: Vec<u8> = (0..n).map(|_| 32 + rng.below(95) as u8).collect();
            match text.is_empty() {
                true => ".".to_string(),
                false => hex(&text),
            }
        })
        .collect()
}

/// What building refuses with 11 to 15.
fn spoil(rng: &mut Rng, files: &mut Vec<String>, text: &mut Vec<u8>, log: &mut Vec<String>) {
    let at = rng.below(files.len() + 1);
    match rng.below(8) {
        0 => {
            let code = rng.pick(&[
                0x00, 0x80, 0x81, 0x8B, 0x8C, 0x8F, 0x90, 0x92, 0x93, 0x94, 0xFF,
            ]);
            files.insert(at, shown(code, rng.below(256) as u64, 1));
        }
        1 => {
            let number = rng.pick(&[256, 65_535, 65_536, u64::MAX]);
            files.insert(at, shown(0x89, number, 1));
        }
        2 if !files.is_empty() => {
            let twice = files[rng.below(files.len())].clone();
            files.insert(at, twice);
        }
        3 => *text = vec![b'1'; 12 + rng.below(3)],
        4 => text.push(128 + rng.below(128) as u8),
        5 => {
            let elements = rng.pick(&[16_384, 32_767, 32_768, 1 << 32, u64::MAX]);
            files.insert(at, shown(0x91, 77, elements));
        }
        6 => *log = vec!["41".to_string(); 65],
        _ => log.push("42".repeat(256)),
    }
}

fn step(rng: &mut Rng, l: &Layout) -> String {
    match rng.below(40) {
        0..=29 => {
            let command = command(rng, l);
            let line = format!("cmd {}", text_or_none(&command));
            match rng.below(40) {
                0 => format!("room {} {line}", rng.pick(&[0, 64, 513, 514, 515])),
                _ => line,
            }
        }
        30..=32 => {
            let f = some_file(rng, l);
            let line = format!(
                "get {:02X} {} {}",
                some_code(rng, f),
                some_number(rng, f),
                near(rng, f.elements)
            );
            match rng.below(8) {
                0 => format!("room {} {line}", rng.pick(&[0, 81, 82, 83])),
                _ => line,
            }
        }
        33 | 34 => {
            let f = some_file(rng, l);
            format!(
                "set {:02X} {} {} {}",
                some_code(rng, f),
                some_number(rng, f),
                near(rng, f.elements),
                value(rng, f.code)
            )
        }
        35 => {
            let f = some_file(rng, l);
            let n = f.elements * f.size + usize::from(rng.once_in(8));
            format!(
                "fill {} {}",
                some_number(rng, f),
                text_or_none(&rng.bytes(n.min(2000)))
            )
        }
        36 if l.total() < 3000 => "dump".to_string(),
        37 => "directory".to_string(),
        _ => "hash".to_string(),
    }
}

/// A text around 82 bytes on an ST element, where there is one.
fn long_text(rng: &mut Rng, l: &Layout) -> Option<String> {
    let st: Vec<File> = l
        .files
        .iter()
        .copied()
        .filter(|f| f.code == 0x8D && f.elements > 0)
        .collect();
    if st.is_empty() {
        return None;
    }
    let f = rng.pick(&st);
    let text = vec![b'a'; 80 + rng.below(6)];
    let element = rng.below(f.elements);
    Some(format!("set 8D {} {element} text {}", f.number, hex(&text)))
}

fn some_file(rng: &mut Rng, l: &Layout) -> File {
    match l.files.len() {
        0 => File {
            code: 0x89,
            size: 2,
            number: 7,
            elements: 1,
        },
        n => l.files[rng.below(n)],
    }
}

fn some_code(rng: &mut Rng, f: File) -> u8 {
    match rng.below(12) {
        0 => rng.pick(TYPES).0,
        1 => rng.byte(),
        _ => f.code,
    }
}

fn some_number(rng: &mut Rng, f: File) -> u64 {
    match rng.below(12) {
        0 => rng.below(256) as u64,
        1 => rng.pick(&[256, 65_535, 65_536, u64::MAX]),
        _ => f.number as u64,
    }
}

fn near(rng: &mut Rng, n: usize) -> u64 {
    match rng.below(8) {
        0 => n as u64,
        1 => n as u64 + 1,
        2 => rng.pick(&[0, 65_535, 65_536, 1 << 32, u64::MAX]),
        3 => n.saturating_sub(1) as u64,
        _ => rng.below(n + 1) as u64,
    }
}

fn value(rng: &mut Rng, code: u8) -> String {
    let whole = |rng: &mut Rng| match rng.below(3) {
        0 => rng.pick(&[
            -32_769i64,
            -32_768,
            -1,
            0,
            1,
            32_767,
            32_768,
            65_535,
            65_536,
            -2_147_483_649,
            2_147_483_647,
        ]),
        _ => rng.below(70_000) as i64 - 2000,
    };
    let kind = match rng.below(10) {
        0 => rng.below(5),
        _ => match code {
            0x8A => 1,
            0x8D | 0x8E => 2,
            0x86..=0x88 => 3 + rng.below(2),
            _ => 0,
        },
    };
    match kind {
        0 => format!("int {}", whole(rng)),
        1 => format!("float {:08X}", rng.below(0x7F80_0000)),
        2 => {
            let n = match rng.below(4) {
                0 => rng.pick(&[0, 1, 2, 82, 83]),
                _ => rng.below(9),
            };
            let text: Vec<u8> = (0..n).map(|_| 32 + rng.below(95) as u8).collect();
            format!("text {}", text_or_none(&text))
        }
        3 => format!("words {},{},{}", whole(rng), whole(rng), whole(rng)),
        _ => {
            let name = rng.pick(&[
                "PRE", "ACC", "LEN", "POS", "EN", "DN", "TT", "CU", "fd", "Ov", "XX", "",
            ]);
            format!("field {} {}", text_or_none(name.as_bytes()), whole(rng))
        }
    }
}

/// One byte below 255, else FF and a word; now and then FF and a word where a byte would do.
fn push_address(rng: &mut Rng, out: &mut Vec<u8>, n: usize) {
    if n >= 255 || rng.once_in(10) {
        out.push(0xFF);
        out.extend((n as u16).to_le_bytes());
    } else {
        out.push(n as u8);
    }
}

fn command(rng: &mut Rng, l: &Layout) -> Vec<u8> {
    let id = match rng.below(12) {
        0 => rng.pick(&[0, 1, 2, 3, 12, 254, 255]),
        _ => 7,
    };
    let mut c = vec![id as u8];
    c.extend(rng.bytes(id.max(1) - 1));
    let cmd = match rng.below(16) {
        0 => rng.byte(),
        1 => 0x06,
        _ => 0x0F,
    };
    c.extend([cmd, rng.pick(&[0, 0, 0, 0xFF]), rng.byte(), rng.byte()]);
    match cmd {
        0x06 => c.push(rng.pick(&[3, 3, 3, 0, 1, 0x0F])),
        _ => function(rng, l, &mut c),
    }
    match rng.below(12) {
        0 => c.truncate(rng.below(c.len() + 1)),
        1 => {
            let n = 1 + rng.below(4);
            c.extend(rng.bytes(n));
        }
        2 if rng.once_in(3) => {
            let at = rng.below(c.len());
            c[at] = rng.byte();
        }
        _ => {}
    }
    c
}

fn function(rng: &mut Rng, l: &Layout, c: &mut Vec<u8>) {
    let f = some_file(rng, l);
    match rng.below(12) {
        0 => directory(rng, l, c),
        1 => {
            // the datalog needs no last address
            c.extend([0xA2, rng.byte()]);
            push_address(rng, c, f.number);
            c.push(0xA5);
            let queue = rng.below(256);
            push_address(rng, c, queue);
            if rng.once_in(2) {
                c.push(0);
            }
        }
        n => {
            let function = match n {
                2 => rng.byte(),
                3 | 4 => 0xA1,
                5..=7 => 0xA2,
                8 => 0xAA,
                _ => 0xAB,
            };
            access(rng, f, function, c);
        }
    }
}

fn access(rng: &mut Rng, f: File, function: u8, c: &mut Vec<u8>) {
    let length = f.elements * f.size;
    let element = match rng.below(10) {
        0 => rng.pick(&[0, 254, 255, 256, 65_535]),
        1 => f.elements,
        _ => rng.below(f.elements + 1),
    };
    let sub = match rng.below(4) {
        0 => rng.pick(&[1, 2, 5, 254, 255, 300, 65_535]),
        _ => rng.below(3),
    };
    let at = element * f.size + if function == 0xA1 { 0 } else { 2 * sub };
    let size = match rng.below(6) {
        0 => rng.pick(&[0, 1, 254, 255]),
        1 => length.saturating_sub(at).min(255),
        2 => (length.saturating_sub(at) + 1).min(255),
        3 => f.size.min(255),
        _ => rng.below(12),
    };
    c.extend([function, size as u8]);
    let number = some_number(rng, f) as usize % 65_536;
    push_address(rng, c, number);
    c.push(some_code(rng, f));
    push_address(rng, c, element % 65_536);
    if function != 0xA1 {
        push_address(rng, c, sub);
    }
    if function == 0xAB {
        let mask = match rng.below(4) {
            0 => vec![0xFF, 0xFF],
            1 => vec![0, 0],
            _ => rng.bytes(2),
        };
        c.extend(mask);
    }
    if function == 0xAA || function == 0xAB {
        c.extend(rng.bytes(size));
    }
}

fn directory(rng: &mut Rng, l: &Layout, c: &mut Vec<u8>) {
    let [_, _, code, size_element] = l.family;
    let length = l.directory();
    let element = match rng.below(3) {
        0 => size_element,
        1 => (length / 2 + 1).saturating_sub(rng.below(50)),
        _ => rng.below(length / 2 + 1),
    };
    let size = match rng.below(3) {
        0 => rng.below(11),
        1 => length.saturating_sub(2 * element).min(255),
        _ => rng.below(256),
    };
    c.extend([0xA1, size as u8]);
    push_address(rng, c, 0);
    c.push(if rng.once_in(8) {
        rng.below(5) as u8
    } else {
        code as u8
    });
    push_address(rng, c, element % 65_536);
}

//! The client's directory.
use crate::Tally;
use ciplink::slc::pccc;
use slc_link::{FileType, ListedFile, Refused};

const BYTES: [u8; 7] = [0x00, 0x01, 0x82, 0x83, 0x89, 0x8D, 0xFF];
const MOST: usize = 6;

/// Code, number, elements, length of each file; document 01's 9 is the Rust's error.
type Listed = Result<Vec<(u32, u32, u32, u32)>, u8>;

fn rust(first: usize, row: usize, bytes: &[u8]) -> Listed {
    let files = pccc::parse_file_directory(first, row, bytes).map_err(|_| 9)?;
    Ok(files
        .iter()
        .map(|(name, f)| {
            let (letters, number) = name.split_at(name.find(|c: char| c.is_ascii_digit()).expect("a number"));
            let t = FileType::from_name(letters.as_bytes()).expect("a type's name");
            (u32::from(t.code()), number.parse().expect("a number"), f.elements as u32, f.length as u32)
        })
        .collect())
}

fn ours(first: usize, row: usize, bytes: &[u8]) -> Listed {
    let mut out = [ListedFile::default(); MOST];
    let files = slc_link::parse_file_directory(first, row, bytes, &mut out).map_err(Refused::number)?;
    Ok(files.iter().map(|f| (f.code, f.number, f.elements, f.length)).collect())
}

pub fn all(t: &mut Tally) {
    for length in 0..=MOST {
        for mut n in 0..BYTES.len().pow(length as u32) {
            let mut bytes = [0; MOST];
            for b in &mut bytes[..length] {
                *b = BYTES[n % BYTES.len()];
                n /= BYTES.len();
            }
            let bytes = &bytes[..length];
            for first in 0..4 {
                for row in 1..5 {
                    let answer = rust(first, row, bytes);
                    let mut same = ours(first, row, bytes);
                    if t.spoilt && t.inputs == 1000 {
                        same = Err(8);
                    }
                    t.compare(bytes, answer.is_ok(), answer, same);
                }
            }
        }
    }
}

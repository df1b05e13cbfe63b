//! Raw replies: their status in words, the directory's size, the datalog entry.
use crate::Tally;
use ciplink::Value;
use ciplink::slc::pccc;
use slc_link::{Refused, STATUS_ROOM};

/// Where a raw reply has its status, and where it ends at the most.
const STATUS: usize = 58;
const MOST: usize = 64;

fn status(t: &mut Tally, raw: &[u8]) {
    let rust = pccc::request_status(raw);
    let mut out = [0; STATUS_ROOM];
    let mut ours = slc_link::request_status(raw, &mut out).map(|text| text.map(String::from));
    if t.spoilt && t.inputs == 1000 {
        ours = Ok(None);
    }
    t.compare(raw, rust.is_none(), Ok(rust), ours);
}

fn entry(t: &mut Tally, raw: &[u8]) {
    let rust = match pccc::parse_datalog(raw) {
        Value::String(text) => text.into_bytes(),
        Value::Bytes(bytes) => bytes,
        other => unreachable!("{other:?}"),
    };
    t.compare(raw, true, &rust[..], slc_link::parse_datalog(raw));
}

fn size(t: &mut Tally, raw: &[u8], family: &str) {
    let rust = pccc::parse_file_directory_size(raw, &pccc::sys0_info(family)).ok_or(25);
    let ours = slc_link::parse_file_directory_size(raw, slc_link::sys0_info(family.as_bytes())).map_err(Refused::number);
    t.compare(raw, rust.is_ok(), rust, ours);
}

pub fn all(t: &mut Tally) {
    for length in 0..=MOST {
        for code in 0..=255 {
            for extended in 0..=255 {
                let mut raw = [0xA5; MOST];
                raw[STATUS] = code;
                raw[61] = extended;
                status(t, &raw[..length]);
                entry(t, &raw[..length]);
            }
        }
    }
    for word in 0..=u16::MAX {
        for family in ["1747", "1761", "1762", "1763", "1764", "1766", "", "17"] {
            let mut raw = [0; MOST];
            raw[61..63].copy_from_slice(&word.to_le_bytes());
            for length in 60..=MOST {
                size(t, &raw[..length], family);
            }
        }
    }
}

//! Elements that are one word.
use crate::Tally;
use ciplink_sim::slc::access;
use slc_link::{Element, FileType, Refused, Value};

const TYPES: [FileType; 5] = [FileType::N, FileType::S, FileType::B, FileType::O, FileType::I];

fn decoded(t: &mut Tally, file_type: FileType, word: u16) {
    let bytes = word.to_le_bytes();
    let rust = access::decode(file_type.code(), &bytes).and_then(|json| json.as_i64());
    let mut ours = match slc_link::decode_element(file_type, &bytes, &mut []) {
        Ok(Element::Whole(n)) => Some(i64::from(n)),
        _ => None,
    };
    if t.spoilt && t.inputs == 1000 {
        ours = None;
    }
    t.compare(&bytes, true, rust, ours);
}

/// The element's bytes afterwards, and whether it was set; document 01's 22 is the Rust's error.
fn encoded(t: &mut Tally, file_type: FileType, whole: i64) {
    let (mut theirs, mut bytes) = ([0xA5; 2], [0xA5; 2]);
    let rust = access::encode(file_type.code(), &whole.into(), &mut theirs).expect("one of the twelve").map_err(|_| Refused::Number);
    let ours = slc_link::encode_element(file_type, Value::Whole(whole), &mut bytes);
    t.compare(&whole.to_le_bytes(), rust.is_ok(), (rust, theirs), (ours, bytes));
}

pub fn all(t: &mut Tally) {
    for file_type in TYPES {
        for word in 0..=u16::MAX {
            decoded(t, file_type, word);
        }
        for whole in -70_000..=70_000 {
            encoded(t, file_type, whole);
        }
    }
}

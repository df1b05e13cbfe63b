//! What each call can be refused with: the last column of PROTOCOL.md's table of calls. It stands in the code only here.
use crate::protocol::TOLD;

/// The number that `new` before a call adds.
const RETIRED: u32 = 39;

/// A call, the numbers that it can be refused with, and the one that `room` before it adds (0 for a call without an output).
#[rustfmt::skip]
pub const REFUSED: &[(&str, &[u32], u32)] = &[
    ("tag", &[1, 2], 0),
    ("dotted", &[1, 2], 6),
    ("read", &[1, 2, 3, 5], 6),
    ("write", &[1, 2, 3, 4, 5], 6),
    ("wvalue", &[1, 2, 4], 0),
    ("proc", &[], 6),
    ("datalogreq", &[], 6),
    ("dirsizereq", &[], 6),
    ("dirreadreq", &[26], 6),
    ("dirsize", &[25], 0),
    ("dir", &[7, 8, 9], 10),
    ("status", &[], 6),
    ("errtext", &[], 6),
    ("reply", &[1, 2, 27], 0),
    ("enc", &[19, 20, 21, 22, 23], 0),
    ("dec", &[19, 20], 24),
    ("sim", &[11, 12, 13, 14, 15], 0),
    ("fill", &[16, 19], 0),
    ("cmd", &[16, 18], 17),
    ("msg", &[16], 0),
    ("get", &[16, 19], 24),
    ("set", &[16, 19, 20, 21, 22, 23], 0),
    ("dump", &[16], 0),
    ("hash", &[16], 0),
    ("directory", &[16], 0),
];

/// Calls that no area writes, and why.
pub const NOT_GENERATED: &[(&str, &str)] = &[
    ("reply", "request A1, not built yet; 27 is its number alone"),
    ("wvalue", "request A1, not built yet"),
    (
        "msg",
        "the oracle's alone: document 01 leaves `Slc::message` out",
    ),
    (
        "spoil",
        "the Rust has no such data; lines of it stand in oracle/data/by-hand",
    ),
];

/// The numbers of a call, also behind `room`, `new` or `room new`; None where nothing is listed.
pub fn numbers(name: &str) -> Option<Vec<u32>> {
    let (in_room, name) = cut(name, "room ");
    let (new, name) = cut(name, "new ");
    let (_, own, added) = REFUSED.iter().find(|r| r.0 == name)?;
    let mut list = own.to_vec();
    list.extend(in_room.then_some(*added));
    list.extend(new.then_some(RETIRED));
    list.sort_unstable();
    Some(list)
}

/// Does the text begin with this? What is behind it.
fn cut<'a>(text: &'a str, begin: &str) -> (bool, &'a str) {
    match text.strip_prefix(begin) {
        Some(rest) => (true, rest),
        None => (false, text),
    }
}

/// Does `room` before the call have an effect?
pub fn has_output(call: &str) -> bool {
    REFUSED.iter().any(|r| r.0 == call && r.2 > 0)
}

/// Every name that `numbers` knows and the generator writes.
pub fn generated() -> Vec<String> {
    let left_out = |call: &str| NOT_GENERATED.iter().any(|n| n.0 == call);
    let mut list = Vec::new();
    for before in ["", "room ", "new ", "room new "] {
        let (room, new) = (before.contains("room"), before.contains("new"));
        let some = REFUSED
            .iter()
            .filter(|(call, ..)| !left_out(call))
            .filter(|(call, ..)| (!room || has_output(call)) && (!new || TOLD.contains(call)));
        list.extend(some.map(|(call, ..)| format!("{before}{call}")));
    }
    list
}

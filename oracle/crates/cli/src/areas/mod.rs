//! What `generate` writes, by area. An area is a file here with a function `lines`, and a row of `AREAS`; `utf8` is what several of them use.
mod address;
mod codec;
mod directory;
mod file_type;
mod processor;
mod reading;
mod reply;
mod request;
mod room;
mod syntax;
mod utf8;

use crate::hex::hex;
use crate::protocol::TOLD;
use crate::rng::Rng;

/// Lines without their newlines. An area's lines never end: small cases in order first, then random ones.
pub type Lines = Box<dyn Iterator<Item = Vec<u8>>>;

struct Area {
    name: &'static str,
    calls: &'static [&'static str],
    lines: fn(Rng) -> Lines,
}

#[rustfmt::skip]
const AREAS: &[Area] = &[
    Area { name: "file_type", calls: &["ft", "ftname", "simft"], lines: file_type::lines },
    Area { name: "address", calls: &["tag"], lines: address::lines },
    Area { name: "request", calls: &["read", "write", "proc", "datalogreq", "dirsizereq", "dirreadreq", "room"], lines: request::lines },
    Area { name: "reading", calls: &["tag", "dotted", "read", "write", NEW, "room"], lines: reading::lines },
    Area { name: "processor", calls: &["sim", "cmd", "get", "set", "fill", "dump", "hash", "directory"], lines: processor::lines },
    Area { name: "codec", calls: &["swap", "pairs", "ascii", "string", "enc", "dec"], lines: codec::lines },
    Area { name: "reply", calls: &["status", "errtext", "datalogparse"], lines: reply::lines },
    Area { name: "directory", calls: &["sys0", "dirsize", "dir"], lines: directory::lines },
    Area { name: ROOM, calls: &["room", "datalogreq", "hash", "directory"], lines: room::lines },
];

/// The area of calls behind `room`.
const ROOM: &str = "room";

/// The word before a call whose tag is a new entry.
const NEW: &str = "new";

/// The area of damaged lines. It damages what the other areas write, so a call that is not yet ported is never in it.
const SYNTAX: &str = "syntax";

/// The names of all areas.
pub fn names() -> Vec<&'static str> {
    AREAS.iter().map(|a| a.name).chain([SYNTAX]).collect()
}

/// The areas that the stored sample is made from: `room` writes lines of the others again.
pub fn sampled() -> Vec<String> {
    let others = names().into_iter().filter(|&name| name != ROOM);
    others.map(String::from).collect()
}

/// The calls of these areas, without `room` and `new`, which are words before a call; also those that `new` stands before.
pub fn calls() -> Vec<String> {
    let mut list = Vec::new();
    for area in AREAS.iter().filter(|a| a.name != ROOM) {
        let own = || area.calls.iter().filter(|&&c| c != ROOM && c != NEW);
        list.extend(own().map(|c| c.to_string()));
        if area.calls.contains(&NEW) {
            let told = own().filter(|&c| TOLD.contains(c));
            list.extend(told.map(|c| format!("{NEW} {c}")));
        }
    }
    list
}

/// One line of each area in turn; all areas where none is named. None for an unknown name.
pub fn lines(seed: u64, chosen: &[String]) -> Option<Lines> {
    if chosen.iter().any(|c| !names().contains(&c.as_str())) {
        return None;
    }
    let wanted = |name: &str| chosen.is_empty() || chosen.iter().any(|c| c == name);
    let areas: Vec<&Area> = AREAS.iter().filter(|a| wanted(a.name)).collect();
    let mut parts: Vec<Lines> = areas
        .iter()
        .map(|a| (a.lines)(Rng::new(seed, a.name)))
        .collect();
    if wanted(SYNTAX) {
        // alone, it damages the lines of every area
        let damaged: Vec<&Area> = if areas.is_empty() {
            AREAS.iter().collect()
        } else {
            areas
        };
        let mut calls: Vec<&str> = Vec::new();
        for call in damaged.iter().flat_map(|a| a.calls) {
            if !calls.contains(call) {
                calls.push(call);
            }
        }
        let whole = damaged
            .iter()
            .map(|a| (a.lines)(Rng::new(!seed, a.name)))
            .collect();
        parts.push(syntax::lines(Rng::new(seed, SYNTAX), calls, in_turn(whole)));
    }
    Some(in_turn(parts))
}

/// One line of each part in turn; a part that has ended is left out.
fn in_turn(mut parts: Vec<Lines>) -> Lines {
    let mut at = 0;
    Box::new(std::iter::from_fn(move || {
        while !parts.is_empty() {
            at %= parts.len();
            if let Some(line) = parts[at].next() {
                at += 1;
                return Some(line);
            }
            drop(parts.remove(at));
        }
        None
    }))
}

/// Lines that settle a rule each: all of them are in the stored sample.
pub fn settled() -> Vec<Vec<u8>> {
    let lines = [address::settled(), request::settled(), reading::settled()];
    lines
        .into_iter()
        .flatten()
        .map(String::into_bytes)
        .collect()
}

/// A byte string.
fn text_or_none(bytes: &[u8]) -> String {
    match bytes {
        [] => "-".to_string(),
        some => hex(some),
    }
}

/// A list of lines as a part.
fn listed(list: Vec<String>) -> Lines {
    Box::new(list.into_iter().map(String::into_bytes))
}

/// `first` in turn, then what `random` makes, without end.
fn then_random(
    first: Vec<Vec<String>>,
    mut rng: Rng,
    random: impl Fn(&mut Rng) -> String + 'static,
) -> Lines {
    let first = in_turn(first.into_iter().map(listed).collect());
    let rest = std::iter::repeat_with(move || random(&mut rng).into_bytes());
    Box::new(first.chain(rest))
}

/// Hexadecimal digits in capitals, small or mixed.
fn any_hex(rng: &mut Rng, bytes: &[u8]) -> String {
    let digits = hex(bytes);
    match rng.below(6) {
        0 => digits.to_lowercase(),
        1 => any_case(rng, &digits),
        _ => digits,
    }
}

/// Each letter in either case.
fn any_case(rng: &mut Rng, text: &str) -> String {
    text.chars()
        .map(|c| {
            if rng.once_in(2) {
                c.to_ascii_lowercase()
            } else {
                c.to_ascii_uppercase()
            }
        })
        .collect()
}

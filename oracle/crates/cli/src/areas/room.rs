//! Calls behind `room`: what the areas without a processor write, in less room than it needs, just enough and more; and calls that have no output.
use super::{Lines, address, codec, directory, file_type, in_turn, reading, reply};
use crate::protocol::bare;
use crate::rng::Rng;

/// Rooms near the bounds of 6, 24 and 10.
const ROOMS: &[u64] = &[
    0,
    1,
    26,
    27,
    81,
    82,
    83,
    95,
    96,
    97,
    254,
    255,
    283,
    284,
    u64::MAX,
];

pub fn lines(mut rng: Rng) -> Lines {
    let areas = [
        file_type::lines,
        address::lines,
        codec::lines,
        reply::lines,
        directory::lines,
        readings,
        requests,
    ];
    let parts = areas.map(|lines| lines(Rng::new(rng.draw(), "room")));
    let mut whole = in_turn(parts.into());
    Box::new(std::iter::repeat_with(move || {
        let line = whole.next().unwrap_or_default();
        let room = match rng.below(4) {
            0 => rng.pick(ROOMS),
            _ if line.starts_with(b"dir ") => rng.below(24) as u64,
            _ if line.starts_with(b"dotted ") => 250 + rng.below(10) as u64,
            _ => 80 + rng.below(20) as u64,
        };
        [format!("room {room} ").as_bytes(), &line].concat()
    }))
}

/// New entries and texts with a full stop. Lines that have their `room` already are left out but for some, which are none of the protocol then.
fn readings(mut rng: Rng) -> Lines {
    let lines = reading::lines(Rng::new(rng.draw(), "room"));
    Box::new(lines.filter(move |l| !bare(l).room || rng.once_in(20)))
}

/// What needs 27 bytes, and what looks at a processor and has no output.
fn requests(mut rng: Rng) -> Lines {
    Box::new(std::iter::repeat_with(move || {
        let queue = rng.byte();
        let some = [
            format!("datalogreq {queue}"),
            "hash".into(),
            "directory".into(),
        ];
        some[rng.below(3)].clone().into_bytes()
    }))
}

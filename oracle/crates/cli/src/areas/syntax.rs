//! Damaged lines: what the other areas write, with words, fields, blanks or bytes that don't belong there.
use super::Lines;
use crate::protocol::{CALLS, Count, LONGEST, bare, call, parse, split};
use crate::rng::Rng;

/// Fields that are wrong in most places: empty, signs, digits too few and too many, numbers past a bound, letters
/// that are no digit, other separators, kinds, and bytes that no field has.
const ODD: &[&[u8]] = &[
    b"",
    b"-",
    b"--",
    b"+",
    b"0",
    b"1",
    b"2",
    b"+1",
    b"-1",
    b"-0",
    b"--1",
    b"1-",
    b"00",
    b"000",
    b"0000",
    b"89",
    b"8a",
    b"089",
    b"0x89",
    b"0G",
    b"g0",
    b"-0A",
    b"0A-",
    b"8 9",
    b"3F800000",
    b"3F8000000",
    b"3F80000000",
    b"0000000000000000000000000000000000000001",
    b"-000000000000000000000000000000000000001",
    b"65536",
    b"4294967296",
    b"9223372036854775807",
    b"9223372036854775808",
    b"-9223372036854775808",
    b"-9223372036854775809",
    b"18446744073709551615",
    b"18446744073709551616",
    b"99999999999999999999999999999999",
    b"1,2,3",
    b"-1,-2,-3",
    b"1,2",
    b"1,2,3,4",
    b",,",
    b"1,,3",
    b"1,2,3,",
    b"1, 2,3",
    b"1,+2,3",
    b"1;2;3",
    b"1,2,9223372036854775808",
    b"int",
    b"INT",
    b"intt",
    b"field",
    b"text",
    b"float",
    b"words",
    b"raw",
    b"\r",
    b"00\r",
    b"1\r",
    b"\0",
    b"00\0",
    b"1\0",
    b"0\t0",
    b"\x80\xFF",
    b"0\xC3\xA9",
    b"\xB2",
    b"#",
];

/// Bytes that are put into lines.
const BYTES: &[u8] = b"  -+,.:#0019AFGafgx\0\r\t\x7F\x80\xFF";

const ECHOED: &[&[u8]] = &[
    b"",
    b"#",
    b"# a comment",
    b"#\0\x01\r",
    b"# \x80\xC3\xA9\xFF",
    b"#ft 89",
    b"##",
];

/// Lines whose first field is no call.
const STRANGERS: &[&[u8]] = &[
    b" ",
    b"  ",
    b"\r",
    b"\t",
    b"\0",
    b"-",
    b"0",
    b"ok",
    b"error",
    b"refused 19",
    b" #",
    b"\xEF\xBB\xBF",
];

/// `whole` are lines of the areas that have `calls`.
pub fn lines(mut rng: Rng, calls: Vec<&'static str>, mut whole: Lines) -> Lines {
    let samples = samples(&calls, &mut whole);
    let mut first: Vec<Vec<u8>> = Vec::new();
    first.extend(ECHOED.iter().chain(STRANGERS).map(|l| l.to_vec()));
    for word in &calls {
        first.extend(near_words(word));
    }
    for sample in &samples {
        first.extend(damaged(sample));
    }
    first.extend(long(&calls, &samples));
    let may = may_stand(calls);
    let first: Vec<Vec<u8>> = first.into_iter().filter(|l| may(l)).collect();
    let rest = std::iter::repeat_with(move || {
        loop {
            let line = random(&mut rng, &mut whole);
            if may(&line) {
                return line;
            }
        }
    });
    Box::new(first.into_iter().chain(rest))
}

/// No call of an area that isn't chosen, and none that would change another area's processor.
fn may_stand(calls: Vec<&'static str>) -> impl Fn(&[u8]) -> bool {
    const CHANGES: [&[u8]; 5] = [b"sim", b"fill", b"set", b"cmd", b"msg"];
    move |line| {
        let word = line.split(|&b| b == b' ').next().unwrap_or_default();
        let foreign = call(word).is_some() && !calls.iter().any(|c| c.as_bytes() == word);
        let changes = CHANGES.contains(&word) && parse(line).is_ok();
        !foreign && !changes && !line.contains(&b'\n')
    }
}

/// In place of a kind: `new` and `room` both stand before a call.
const BOTH: &[u8] = b"new and room";

/// A whole line of each call, and of each of its kinds.
fn samples(calls: &[&str], whole: &mut Lines) -> Vec<Vec<u8>> {
    let mut wanted: Vec<(&[u8], &[u8])> = Vec::new();
    for (name, count, _) in CALLS.iter().filter(|c| calls.contains(&c.0)) {
        match count {
            Count::Of(_) => wanted.push((name.as_bytes(), b"")),
            Count::Rest(_) => {
                wanted.push((name.as_bytes(), b""));
                if ["new", "room"].iter().all(|w| calls.contains(w)) {
                    wanted.push((name.as_bytes(), BOTH));
                }
            }
            Count::Kind(_, kinds) => {
                wanted.extend(kinds.iter().map(|k| (name.as_bytes(), k.0.as_bytes())));
            }
        }
    }
    let mut found = Vec::new();
    for line in whole.take(10_000) {
        if wanted.is_empty() {
            break;
        }
        let (fields, before) = (split(&line), bare(&line));
        let kind: &[u8] = match call(fields[0]) {
            Some((_, Count::Kind(at, _), _)) => fields.get(*at).copied().unwrap_or_default(),
            Some(_) if before.new && before.room => BOTH,
            _ => b"",
        };
        let here = wanted.iter().position(|w| *w == (fields[0], kind));
        if let Some(at) = here.filter(|_| parse(&line).is_ok()) {
            wanted.remove(at);
            found.push(line);
        }
    }
    found
}

/// Words that are almost a call's.
fn near_words(word: &str) -> Vec<Vec<u8>> {
    let w = word.as_bytes();
    let mut capital = w.to_vec();
    capital[0] = capital[0].to_ascii_uppercase();
    let mut flipped = w.to_vec();
    flipped[0] |= 0x80;
    vec![
        w.to_vec(),
        w[..w.len() - 1].to_vec(),
        w[1..].to_vec(),
        capital,
        w.to_ascii_uppercase(),
        flipped,
        [w, b"x"].concat(),
        [w, b" "].concat(),
        [b" ", w].concat(),
        [w, b"\r"].concat(),
        [w, b"\0"].concat(),
        [w, b"-"].concat(),
        [w, b"\t89"].concat(),
        [w, w].concat(),
        [w, b" ", w].concat(),
    ]
}

/// Every way to spoil one field, to leave it out, to write it twice, and to spoil the blanks.
fn damaged(sample: &[u8]) -> Vec<Vec<u8>> {
    let fields = split(sample);
    let joined = |f: &[&[u8]]| f.join(&b' ');
    let mut list = vec![sample.to_vec()];
    for tail in [" ", "  ", " -", " 00", " 1", "\r", "\0", " \r", "0", "-"] {
        list.push([sample, tail.as_bytes()].concat());
    }
    list.push([b" ", sample].concat());
    for at in 0..fields.len() {
        list.push(joined(&fields[..at]));
        let mut f = fields.clone();
        f.remove(at);
        list.push(joined(&f));
        f.insert(at, fields[at]);
        f.insert(at, fields[at]);
        list.push(joined(&f));
        f[at] = b"";
        list.push(joined(&f));
        f.remove(at);
        for odd in ODD {
            f[at] = odd;
            list.push(joined(&f));
        }
        f[at] = fields[at];
        if at > 0 {
            let tab = [joined(&f[..at]), joined(&f[at..])].join(&b'\t');
            list.push(tab);
            // two fields spoilt: the left one is named
            f[at - 1] = b"0G";
            f[at] = b"+";
            list.push(joined(&f));
        }
    }
    list.retain(|l| !l.is_empty());
    list
}

/// Lines around the longest. Few, since each has a quarter of a megabyte.
fn long(calls: &[&str], samples: &[Vec<u8>]) -> Vec<Vec<u8>> {
    let stretched = |line: &[u8], to: usize| {
        let mut l = line.to_vec();
        l.resize(to, b'0');
        l
    };
    let mut list = Vec::new();
    for (name, count, _) in CALLS.iter().filter(|c| calls.contains(&c.0)) {
        if matches!(count, Count::Of(2)) {
            list.push(stretched(format!("{name} ").as_bytes(), LONGEST));
        }
    }
    // the last field longer at its end, and a value with zeros before it
    for sample in samples {
        let fields = split(sample);
        let (last, front) = fields.split_last().expect("a field");
        match call(fields[0]) {
            Some((_, Count::Of(3..), _)) => list.push(stretched(sample, LONGEST)),
            Some((_, Count::Kind(..), _)) => {
                let zeros = vec![b'0'; LONGEST - sample.len()];
                list.push([front.join(&b' '), [&zeros, *last].concat()].join(&b' '));
            }
            _ => {}
        }
    }
    if let Some(sample) = samples.last() {
        for to in [LONGEST - 1, LONGEST + 1] {
            list.push(stretched(sample, to));
        }
    }
    for (line, to) in [
        ("# ", LONGEST),
        ("# ", LONGEST + 1),
        ("nothing ", LONGEST),
        ("nothing ", LONGEST + 2),
    ] {
        list.push(stretched(line.as_bytes(), to));
    }
    list.push(vec![b' '; LONGEST]);
    list
}

fn random(rng: &mut Rng, whole: &mut Lines) -> Vec<u8> {
    let mut line = next(rng, whole);
    if rng.once_in(3000) {
        let to = LONGEST + rng.below(5) - 2;
        line.resize(to, rng.pick(b"00 F"));
        return line;
    }
    let times = if rng.once_in(4) { 2 } else { 1 };
    for _ in 0..times {
        line = spoilt(rng, line, whole);
    }
    line
}

/// A line from further on, so that small cases and random ones both come early.
fn next(rng: &mut Rng, whole: &mut Lines) -> Vec<u8> {
    whole.nth(rng.below(12)).unwrap_or_default()
}

fn spoilt(rng: &mut Rng, mut line: Vec<u8>, whole: &mut Lines) -> Vec<u8> {
    let at = rng.below(line.len() + 1);
    let on = at.min(line.len().saturating_sub(1));
    match rng.below(16) {
        0 if !line.is_empty() => {
            line.remove(on);
            line
        }
        1 => {
            line.insert(at, rng.pick(BYTES));
            line
        }
        2 if !line.is_empty() => {
            line[on] = rng.pick(BYTES);
            line
        }
        3 if !line.is_empty() => {
            line[on] = rng.byte();
            line
        }
        4 => {
            line.truncate(at);
            line
        }
        5 => {
            line.push(rng.pick(BYTES));
            line
        }
        6 if rng.once_in(8) => {
            line.insert(0, b'#');
            line
        }
        7 if rng.once_in(8) => {
            let n = rng.below(40);
            rng.bytes(n)
        }
        8 => {
            let other = next(rng, whole);
            let other = split(&other);
            [&line[..], rng.pick(&other)].join(&b' ')
        }
        _ => {
            let mut fields = split(&line);
            // the last field, mostly a value, more often than the others
            let at = match rng.below(3) {
                0 => fields.len() - 1,
                _ => rng.below(fields.len()),
            };
            match rng.below(5) {
                0 => {
                    fields.remove(at);
                }
                1 => fields.insert(at, fields[at]),
                2 => {
                    let with = rng.below(fields.len());
                    fields.swap(at, with);
                }
                3 => fields.insert(at, rng.pick(ODD)),
                _ => fields[at] = rng.pick(ODD),
            }
            fields.join(&b' ')
        }
    }
}

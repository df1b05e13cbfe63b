//! `vectors DIR BY-HAND SEED N`: writes DIR/stdin and DIR/stdout, the sample that the repository's gate replays.
//!
//! It takes the lines that settle a rule, then of N generated lines some of every call, kind, type and answer, with tags below U+0080 and
//! past it, up to `ROOM` bytes; the answers are the oracle's, and lines that the Rust cannot be asked are left out. A call of which there
//! is no line is an error. Then come the lines of BY-HAND: `> request` and `< answer`, comments as they are. Where the oracle can answer
//! one of these, it must give the same answer.
use oracle::answer::{Oracle, not_asked};
use oracle::areas;
use oracle::protocol::{Bare, Count, bare, call, split};
use oracle::report::row_name;
use oracle::rng::Rng;
use std::collections::{BTreeMap, BTreeSet};
use std::process::ExitCode;

/// Bytes of both files, and of a request with its answer.
const ROOM: usize = 185_000;
const SHORT: usize = 999;
/// So many longer ones, up to this size, are taken as well.
const LONGER: (usize, usize) = (2, 3_000);

/// Bytes of runs on processors, each from its `sim` on, and of one of them.
const RUNS: usize = 30_000;
const RUN: usize = 4_000;
/// Calls whose answers depend on the lines before: these are taken by whole runs.
const STATEFUL: &[&[u8]] = &[
    b"sim",
    b"cmd",
    b"get",
    b"set",
    b"fill",
    b"dump",
    b"hash",
    b"directory",
];

const CODES: &[&[u8]] = &[
    b"82", b"83", b"84", b"85", b"86", b"87", b"88", b"89", b"8A", b"8D", b"8E", b"91", b"92",
    b"93", b"94",
];

/// Calls whose first field is a type code.
const TYPED: &[&str] = &["ft", "simft", "enc", "dec"];

/// Calls whose whole question is one code: one line of each is enough, and of codes that stand for nothing some.
const BY_CODE: &[&str] = &["ft", "simft", "errtext"];
const NONE: &[u8] = b"ok none";

/// Calls with a tag, in hexadecimal.
const TAGGED: &[&str] = &["tag", "dotted", "read", "write"];

/// Has the tag a byte above 127?
fn past_ascii(tag: &[u8]) -> bool {
    tag.chunks(2).any(|b| b"89ABCDEFabcdef".contains(&b[0]))
}

/// What a line shows: its call (none for echoed lines and strange words), with `new` and `room` before it, and its sort of answer. Errors stand by
/// the line's first word.
type Group = (String, Vec<u8>);

/// The group of a line, and the part of the group: the type code, where it is a known one, the kind, and whether a tag goes past U+007F. A group
/// behind `room` has one part.
fn group(line: &[u8], answer: &[u8]) -> (Group, Vec<u8>) {
    if line == answer {
        return ((String::new(), Vec::new()), Vec::new());
    }
    let first = call(split(line)[0]).map_or("", |c| c.0);
    let Bare { room, fields, .. } = bare(line);
    let found = call(fields[0]).filter(|_| !answer.starts_with(b"error "));
    let Some((name, count, _)) = found else {
        return ((first.into(), answer.to_vec()), Vec::new());
    };
    let sort = match answer.starts_with(b"ok ") && answer != NONE && *name != "ftname" {
        true => b"ok".to_vec(),
        false => answer.to_vec(),
    };
    let mut part = fields.get(1).map_or(Vec::new(), |f| f.to_ascii_uppercase());
    let known = TYPED.contains(name) && CODES.contains(&&part[..]);
    if !known && !BY_CODE.contains(name) {
        part.clear();
    }
    if let Count::Kind(at, _) = count {
        part.extend(fields[*at]);
    }
    if TAGGED.contains(name) && past_ascii(fields[1]) {
        part.push(b'+');
    }
    if room {
        part.clear();
    }
    ((row_name(line), sort), part)
}

/// The line's call, `new` with it, also behind `room`.
fn word(line: &[u8]) -> String {
    let line = bare(line);
    let name = line.fields[0].escape_ascii();
    match line.new {
        true => format!("new {name}"),
        false => name.to_string(),
    }
}

/// Is it one of a processor?
fn stateful(line: &[u8]) -> bool {
    STATEFUL.contains(&bare(line).fields[0])
}

/// Runs on processors that the Rust can be asked about whole.
fn runs(seed: u64, n: usize) -> Vec<Vec<u8>> {
    let lines = areas::lines(seed, &["processor".to_string()]).expect("an area");
    let mut all: Vec<(Vec<Vec<u8>>, usize)> = Vec::new();
    let mut oracle = Oracle::new(false);
    for line in lines.take(n).filter(|l| stateful(l)) {
        let answer = oracle.line(&line);
        if line.starts_with(b"sim ") || all.is_empty() {
            all.push((Vec::new(), 0));
        }
        let (run, size) = all.last_mut().expect("a run");
        *size += line.len() + answer.len() + 2;
        if not_asked(&answer).is_some() {
            *size = RUN + 1;
        }
        run.push(line);
    }
    let mut used = 0;
    let mut taken = Vec::new();
    for (run, size) in all.into_iter().filter(|r| r.1 <= RUN) {
        if used + size <= RUNS {
            used += size;
            taken.extend(run);
        }
    }
    taken
}

/// How many lines of a group are taken at most, after one of each part; of codes that stand for nothing, as many as there is room for.
fn most((call, answer): &Group) -> usize {
    match (&call[..], answer.starts_with(b"error ")) {
        ("", true) => 40,
        ("", false) | (_, true) => 12,
        (call, false) if BY_CODE.contains(&call) => 0,
        _ => usize::MAX,
    }
}

/// A generated line: its place, its bytes, and the size of request and answer.
type Line = (usize, Vec<u8>, usize);

/// Lines of the sample, as they were generated.
fn sample(seed: u64, n: usize, room: usize) -> Vec<Vec<u8>> {
    let mut oracle = Oracle::new(false);
    let mut groups: BTreeMap<Group, BTreeMap<Vec<u8>, Vec<Line>>> = BTreeMap::new();
    let mut longer: Vec<Line> = Vec::new();
    let settled = areas::settled();
    let mut met: BTreeSet<Vec<u8>> = settled.iter().cloned().collect();
    let lines = areas::lines(seed, &areas::sampled()).expect("areas");
    for (at, line) in lines.take(n).enumerate() {
        let answer = oracle.line(&line);
        let size = line.len() + answer.len() + 2;
        if not_asked(&answer).is_some()
            || stateful(&line)
            || size > LONGER.1
            || !met.insert(line.clone())
        {
            continue;
        }
        if size > SHORT {
            longer.push((at, line, size));
        } else {
            let (group, part) = group(&line, &answer);
            let parts = groups.entry(group).or_default();
            parts.entry(part).or_default().push((at, line, size));
        }
    }
    let mut rng = Rng::new(seed, "vectors");
    rng.shuffle(&mut longer);
    longer.truncate(LONGER.0);
    let sized = |line: Vec<u8>| {
        let size = line.len() + Oracle::new(false).line(&line).len() + 2;
        (0, line, size)
    };
    let mut taken: Vec<Line> = settled.into_iter().map(sized).chain(longer).collect();
    let mut used: usize = taken.iter().map(|t| t.2).sum();
    let mut take = |line: Line| {
        let fits = used + line.2 <= room;
        if fits {
            used += line.2;
            taken.push(line);
        }
        fits
    };
    // one of each part, then of each group in turn some more, part by part, as long as there is room
    let mut rest: Vec<(usize, Vec<Line>)> = Vec::new();
    for (group, mut parts) in groups {
        let mut left = Vec::new();
        if BY_CODE.contains(&&group.0[..]) && group.1 == NONE {
            parts.retain(|code, lines| {
                let known = CODES.contains(&&code[..]);
                left.extend(lines.pop_if(|_| !known));
                known
            });
            rng.shuffle(&mut left);
        }
        let mut parts: Vec<Vec<Line>> = parts.into_values().collect();
        parts.iter_mut().for_each(|lines| rng.shuffle(lines));
        for line in parts.iter_mut().filter_map(Vec::pop) {
            take(line);
        }
        while left.len() < most(&group) && parts.iter().any(|p| !p.is_empty()) {
            left.extend(parts.iter_mut().filter_map(Vec::pop));
        }
        left.reverse();
        // more of what a call with many parts does than of what it refuses
        let share = match group.1 == b"ok" {
            true => 1 + parts.len() / 3,
            false => 1,
        };
        rest.push((share, left));
    }
    while rest.iter().any(|(_, left)| !left.is_empty()) {
        for (share, left) in &mut rest {
            for _ in 0..*share {
                if !left.pop().is_none_or(&mut take) {
                    left.clear();
                }
            }
        }
    }
    // lines with a NUL last, so that tools take the files for text
    taken.sort_by_key(|t| (t.1.contains(&0), t.0));
    taken.into_iter().map(|t| t.1).collect()
}

/// A request and its answer.
type Pair = (Vec<u8>, Vec<u8>);

/// The requests and answers worked by hand, and their comments.
fn by_hand(text: &[u8]) -> Result<Vec<Pair>, String> {
    let mut list = Vec::new();
    let mut request: Option<&[u8]> = None;
    let text = text.strip_suffix(b"\n").unwrap_or(text);
    for (i, line) in text.split(|&b| b == b'\n').enumerate() {
        match (line, request) {
            ([] | [b'#', ..], None) => list.push((line.to_vec(), line.to_vec())),
            ([b'>', b' ', r @ ..], None) => request = Some(r),
            ([b'<', b' ', a @ ..], Some(r)) => {
                list.push((r.to_vec(), a.to_vec()));
                request = None;
            }
            _ => return Err(format!("line {} has no place there", i + 1)),
        }
    }
    match request {
        None => Ok(list),
        Some(_) => Err("the last request has no answer".into()),
    }
}

fn run(dir: &str, hand: &str, seed: u64, n: usize) -> Result<String, String> {
    let text = std::fs::read(hand).map_err(|e| format!("{hand}: {e}"))?;
    let worked = by_hand(&text).map_err(|e| format!("{hand}: {e}"))?;
    let (mut stdin, mut stdout) = (Vec::new(), Vec::new());
    let mut put = |request: &[u8], answer: &[u8]| {
        stdin.extend([request, b"\n"].concat());
        stdout.extend([answer, b"\n"].concat());
    };
    let mut oracle = Oracle::new(false);
    let head = b"# Lines of oracle/bin/generate, with the oracle's answers";
    put(head, head);
    let room: usize = worked.iter().map(|(r, a)| r.len() + a.len() + 2).sum();
    let room = ROOM.saturating_sub(room + RUNS + 2 * (head.len() + 1));
    let mut generated = 0;
    let mut missing: BTreeSet<String> = areas::calls().into_iter().collect();
    for line in sample(seed, n, room).into_iter().chain(runs(seed, n)) {
        // asked again, since an answer may depend on the lines before
        let answer = oracle.line(&line);
        if not_asked(&answer).is_none() {
            put(&line, &answer);
            if !answer.starts_with(b"error ") {
                missing.remove(&word(&line));
            }
            generated += 1;
        }
    }
    if let Some(call) = missing.first() {
        return Err(format!("no line of {call}: N, ROOM or RUNS is too small"));
    }
    let mut alone = 0;
    for (request, answer) in &worked {
        let theirs = oracle.line(request);
        if not_asked(&theirs).is_some() {
            alone += 1;
        } else if theirs != *answer {
            return Err(format!(
                "{hand}: {}: the oracle answers {} and not {}",
                request.escape_ascii(),
                theirs.escape_ascii(),
                answer.escape_ascii()
            ));
        }
        put(request, answer);
    }
    let said = format!(
        "{generated} generated lines and {} worked by hand ({alone} that the Rust cannot be asked), {} bytes",
        worked.iter().filter(|(r, a)| r != a).count(),
        stdin.len() + stdout.len()
    );
    std::fs::create_dir_all(dir)
        .and_then(|()| std::fs::write(format!("{dir}/stdin"), &stdin))
        .and_then(|()| std::fs::write(format!("{dir}/stdout"), &stdout))
        .map_err(|e| format!("{dir}: {e}"))?;
    Ok(said)
}

fn main() -> ExitCode {
    let args: Vec<String> = std::env::args().skip(1).collect();
    let [dir, hand, seed, n] = &args[..] else {
        eprintln!("usage: vectors DIR BY-HAND SEED N");
        return ExitCode::from(2);
    };
    let (Ok(seed), Ok(n)) = (seed.parse(), n.parse()) else {
        eprintln!("vectors: SEED and N are numbers");
        return ExitCode::from(2);
    };
    match run(dir, hand, seed, n) {
        Ok(said) => {
            eprintln!("vectors: {dir}: {said}");
            ExitCode::SUCCESS
        }
        Err(e) => {
            eprintln!("vectors: {e}");
            ExitCode::FAILURE
        }
    }
}

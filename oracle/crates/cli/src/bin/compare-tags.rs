//! `compare-tags SEED N`: N lines of tags, read as new entries by `oracle tags` and by our program `tags`, compared line by line.
//!
//! The program is the shell command in TAGS. Each batch of lines goes to fresh programs, and each cuts its input into
//! pieces of other sizes: a pipe in packet mode hands over one piece a read. Every other batch lacks its last newline.
//! Exit status: 0 no difference, 1 some, 2 not run.
use oracle::areas;
use oracle::hex::unhex;
use oracle::protocol::bare;
use oracle::rng::Rng;
use std::collections::BTreeMap;
use std::io::{self, PipeWriter, Read, Write};
use std::os::fd::AsRawFd;
use std::process::{Command, ExitCode, Stdio};

const BATCH: usize = 50_000;
const SHOWN: usize = 10;
/// The least and the largest piece of a batch, in turn; none: the pipe as it is, read in what is there.
const PIECES: &[Option<(usize, usize)>] = &[
    None,
    Some((1, 4096)),
    Some((1, 3)),
    Some((1, 300)),
    Some((4095, 4096)),
];

unsafe extern "C" {
    fn fcntl(fd: i32, command: i32, ...) -> i32;
}
const F_SETFL: i32 = 4;
const O_DIRECT: i32 = 0o40000;

/// What is written at once is read at once, up to 4096 bytes.
fn packets(pipe: &PipeWriter) -> io::Result<()> {
    if unsafe { fcntl(pipe.as_raw_fd(), F_SETFL, O_DIRECT) } < 0 {
        return Err(io::Error::last_os_error());
    }
    Ok(())
}

fn write_pieces(
    pipe: &mut PipeWriter,
    mut input: &[u8],
    rng: &mut Rng,
    sizes: (usize, usize),
) -> io::Result<()> {
    while !input.is_empty() {
        let n = sizes.0 + rng.below(sizes.1 - sizes.0 + 1);
        let (piece, rest) = input.split_at(n.min(input.len()));
        pipe.write_all(piece)?;
        input = rest;
    }
    Ok(())
}

/// What a program prints for the input, and how it ended where that was badly.
fn answers(
    mut program: Command,
    input: &[u8],
    rng: &mut Rng,
    sizes: Option<(usize, usize)>,
) -> io::Result<(Vec<u8>, Option<String>)> {
    let (stdin, mut pipe) = io::pipe()?;
    let mut child = program.stdin(stdin).stdout(Stdio::piped()).spawn()?;
    drop(program); // and with it the end of the pipe that only the child shall have
    let mut stdout = child.stdout.take().expect("stdout");
    let mut output = Vec::new();
    std::thread::scope(|s| {
        s.spawn(move || -> io::Result<()> {
            // a program that ends early shows by its number of answers
            match sizes {
                None => pipe.write_all(input),
                Some(sizes) => {
                    packets(&pipe).and_then(|()| write_pieces(&mut pipe, input, rng, sizes))
                }
            }
        });
        stdout.read_to_end(&mut output)
    })?;
    let status = child.wait()?;
    Ok((output, (!status.success()).then(|| status.to_string())))
}

/// What long lines are made of: single bytes, and characters of two, three and four.
const UNITS: &[&[u8]] = &[
    b"A",
    b"0",
    b"{",
    b"\0",
    b"\r",
    b"\x80",
    "ı".as_bytes(),
    "ſ".as_bytes(),
    "€".as_bytes(),
    "😀".as_bytes(),
    "a😀".as_bytes(),
];

/// A unit again and again, `n` bytes: the last may be cut.
fn repeated(unit: &[u8], n: usize) -> Vec<u8> {
    unit.iter().copied().cycle().take(n).collect()
}

/// The tags of the generator's lines, whichever call they have.
fn tags(seed: u64) -> Option<impl Iterator<Item = Vec<u8>>> {
    let lines = areas::lines(seed, &["address".into(), "reading".into()])?;
    Some(lines.filter_map(|line| unhex(bare(&line).fields.get(1)?)))
}

/// Any line: the generator's tags (also with a newline in them), and now and then any bytes, none or very many.
fn line(rng: &mut Rng, tags: &mut impl Iterator<Item = Vec<u8>>) -> Vec<u8> {
    match rng.below(2000) {
        0 => {
            let n = rng.pick(&[300, 4094, 4095, 4096, 4097, 65535, 65536, 70000]) + rng.below(3);
            repeated(rng.pick(UNITS), n)
        }
        1..=20 => {
            let n = 253 + rng.below(5);
            (0..n).map(|_| rng.pick(b"0123456789")).collect()
        }
        21..=60 => {
            let n = rng.below(20);
            rng.bytes(n)
        }
        61..=80 => Vec::new(),
        81..=120 => {
            let n = 248 + rng.below(13);
            repeated(rng.pick(UNITS), n)
        }
        _ => tags.next().expect("the areas never end"),
    }
}

/// Lines as both programs have them: a last newline may be missing.
fn lines(bytes: &[u8]) -> Vec<&[u8]> {
    let mut lines: Vec<&[u8]> = bytes.split(|&b| b == b'\n').collect();
    lines.pop_if(|l| l.is_empty());
    lines
}

#[derive(Default)]
struct Report {
    lines: usize,
    kinds: BTreeMap<String, usize>,
    differences: usize,
    shown: Vec<String>,
    failures: Vec<String>,
}

impl Report {
    fn line(&mut self, at: usize, tag: &[u8], oracle: &[u8], ours: &[u8]) {
        let kind = if oracle.starts_with(b"refused ") {
            String::from_utf8_lossy(oracle).into()
        } else {
            "ok".into()
        };
        *self.kinds.entry(kind).or_default() += 1;
        if oracle == ours {
            return;
        }
        self.differences += 1;
        if self.shown.len() < SHOWN {
            let cut = |l: &[u8]| l[..l.len().min(60)].escape_ascii().to_string();
            self.shown.push(format!(
                "line {at}, {} bytes: {}\n  oracle: {}\n  ours:   {}",
                tag.len(),
                cut(tag),
                cut(oracle),
                cut(ours)
            ));
        }
    }

    fn batch(&mut self, input: &[u8], oracle: &[u8], ours: &[u8]) {
        let (tags, theirs, our) = (lines(input), lines(oracle), lines(ours));
        for (i, tag) in tags.iter().enumerate() {
            if let (Some(a), Some(b)) = (theirs.get(i), our.get(i)) {
                self.line(self.lines + i + 1, tag, a, b);
            }
        }
        for (who, n) in [("the oracle", theirs.len()), ("the program", our.len())] {
            if n != tags.len() {
                self.failures.push(format!(
                    "lines from {} on: {who} gave {n} answers to {} lines",
                    self.lines + 1,
                    tags.len()
                ));
            }
        }
        if oracle.last() != ours.last() {
            self.failures
                .push("one of the two left out the last newline".into());
        }
        self.lines += tags.len();
    }

    fn print(&self) {
        let kinds: Vec<String> = self
            .kinds
            .iter()
            .map(|(k, n)| format!("{k}: {n}"))
            .collect();
        println!(
            "lines: {}  {}  differences: {}",
            self.lines,
            kinds.join("  "),
            self.differences
        );
        for (n, d) in self.shown.iter().enumerate() {
            println!("difference {}, {d}", n + 1);
        }
        for f in &self.failures {
            println!("{f}");
        }
    }
}

fn run(seed: u64, n: usize, ours: &str) -> Result<Report, String> {
    let mut rng = Rng::new(seed, "tags");
    let mut tags = tags(seed).ok_or("there is no area address or reading")?;
    let here = std::env::current_exe().map_err(|e| e.to_string())?;
    let mut report = Report::default();
    for (k, from) in (0..n).step_by(BATCH).enumerate() {
        let batch: Vec<Vec<u8>> = (from..n.min(from + BATCH))
            .map(|_| line(&mut rng, &mut tags))
            .collect();
        let mut input = batch.join(&b'\n');
        if k % 2 == 0 {
            input.push(b'\n');
        }
        let mut oracle = Command::new(here.with_file_name("oracle"));
        oracle.arg("tags");
        let mut shell = Command::new("sh");
        shell.arg("-c").arg(ours);
        let (a, bad) = answers(oracle, &input, &mut rng, None)
            .map_err(|e| format!("the oracle does not run: {e}"))?;
        let (b, worse) = answers(shell, &input, &mut rng, PIECES[k % PIECES.len()])
            .map_err(|e| format!("the program does not run: {e}"))?;
        report.batch(&input, &a, &b);
        for (who, status) in [("the oracle", bad), ("the program", worse)] {
            if let Some(status) = status {
                report.failures.push(format!("{who} ended with {status}"));
            }
        }
        eprintln!(
            "compare-tags: {} of {n} lines, {} differences",
            from + batch.len(),
            report.differences
        );
    }
    Ok(report)
}

fn main() -> ExitCode {
    let args: Vec<String> = std::env::args().skip(1).collect();
    let numbers = match &args[..] {
        [seed, n] => seed.parse().ok().zip(n.parse().ok()),
        _ => None,
    };
    let ours = std::env::var("TAGS").unwrap_or_default();
    let (Some((seed, n)), false) = (numbers, ours.is_empty()) else {
        eprintln!("usage: TAGS=COMMAND compare-tags SEED N");
        return ExitCode::from(2);
    };
    match run(seed, n, &ours) {
        Ok(report) => {
            report.print();
            ExitCode::from(u8::from(
                report.differences > 0 || !report.failures.is_empty(),
            ))
        }
        Err(e) => {
            eprintln!("compare-tags: {e}");
            ExitCode::from(2)
        }
    }
}

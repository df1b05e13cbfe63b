//! The oracle: one request a line on standard input, one answer a line on standard output (PROTOCOL.md).
//!
//! `oracle`        document 01's view: its added questions are asked (1 as document 02's A2 has it), refusals are its numbers
//! `oracle --raw`  the Rust's view: no added question, the Rust's own errors
//! `oracle tags`   the program `tags` of document 01 (lines are tags; read request or `refused n`); lines are new entries (document 02's A12)
//! `oracle tags stored`  the same of a stored list's lines, as before A12
//! `oracle short N [ALPHABET]`  all tags of at most N bytes that the stored reading accepts, of those below 128 or of ALPHABET's (document 02's A13), in hexadecimal
use ciplink::slc::pccc::{self, Requestor};
use oracle::answer::Oracle;
use oracle::hex::hex;
use oracle::protocol::Tag;
use std::io::{self, BufRead, BufReader, BufWriter, Write};
use std::process::ExitCode;

/// Writes `answer` of each line of standard input. Bytes are taken as they are; a last newline may be missing.
fn each_line(mut answer: impl FnMut(&[u8]) -> Vec<u8>) -> io::Result<()> {
    let mut input = BufReader::with_capacity(1 << 16, io::stdin().lock());
    let mut out = BufWriter::with_capacity(1 << 16, io::stdout().lock());
    let mut line = Vec::new();
    loop {
        line.clear();
        if input.read_until(b'\n', &mut line)? == 0 {
            return out.flush();
        }
        if line.last() == Some(&b'\n') {
            line.pop();
        }
        out.write_all(&answer(&line))?;
        out.write_all(b"\n")?;
        if input.buffer().is_empty() {
            out.flush()?; // whoever waits for an answer before the next request gets it
        }
    }
}

/// `new`: the lines are new entries, else those of a stored list.
fn tags(new: bool) -> io::Result<()> {
    let oracle = Oracle::new(false);
    let requestor = Requestor::default();
    each_line(|line| {
        let bytes = line.to_vec();
        match oracle.read(Tag { bytes, new }, &requestor, 0) {
            Ok(answer) => answer.trim_start_matches("ok ").into(),
            Err(answer) => answer.into(),
        }
    })
}

/// Every accepted tag of at most `max` bytes over `alphabet` (ascending bytes), shorter first, then by byte.
fn short(max: usize, alphabet: &[u8]) -> io::Result<()> {
    let mut out = BufWriter::new(io::stdout().lock());
    let k = alphabet.len();
    for len in 0..=max {
        let mut idx = vec![0usize; len];
        let mut text: Vec<u8> = vec![*alphabet.first().unwrap_or(&0); len];
        'all: loop {
            if std::str::from_utf8(&text).is_ok_and(|t| pccc::parse_tag(t).is_some()) {
                writeln!(out, "{}", hex(&text))?;
            }
            let mut p = len;
            loop {
                if p == 0 {
                    break 'all;
                }
                p -= 1;
                idx[p] += 1;
                if idx[p] < k {
                    text[p] = alphabet[idx[p]];
                    break;
                }
                idx[p] = 0;
                text[p] = alphabet[0];
            }
        }
    }
    out.flush()
}

fn main() -> ExitCode {
    let args: Vec<String> = std::env::args().skip(1).collect();
    let args: Vec<&str> = args.iter().map(String::as_str).collect();
    let done = match args[..] {
        [] | ["--raw"] => {
            let mut oracle = Oracle::new(!args.is_empty());
            each_line(|line| oracle.line(line))
        }
        ["tags"] => tags(true),
        ["tags", "stored"] => tags(false),
        ["short", max] if max.parse::<usize>().is_ok() => {
            short(max.parse().unwrap_or(0), &Vec::from_iter(0..128))
        }
        ["short", max, alphabet] if max.parse::<usize>().is_ok() => {
            let mut bytes = alphabet.as_bytes().to_vec();
            bytes.sort_unstable();
            bytes.dedup();
            short(max.parse().unwrap_or(0), &bytes)
        }
        _ => {
            eprintln!("usage: oracle [--raw | tags [stored] | short N [ALPHABET]]");
            return ExitCode::from(2);
        }
    };
    match done {
        Ok(()) => ExitCode::SUCCESS,
        Err(e) if e.kind() == io::ErrorKind::BrokenPipe => ExitCode::SUCCESS,
        Err(e) => {
            eprintln!("oracle: {e}");
            ExitCode::FAILURE
        }
    }
}

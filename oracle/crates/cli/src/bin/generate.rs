//! `generate SEED N [AREA..]`: N lines of the line protocol, the same ones for the same SEED and AREAs.
use std::io::{BufWriter, ErrorKind, Write};
use std::process::ExitCode;

fn main() -> ExitCode {
    let args: Vec<String> = std::env::args().skip(1).collect();
    let numbers = match args.get(..2) {
        Some([seed, n]) => seed.parse().ok().zip(n.parse().ok()),
        _ => None,
    };
    let made: Option<(_, usize)> = numbers.and_then(|(seed, n)| {
        let lines = oracle::areas::lines(seed, &args[2..])?;
        Some((lines, n))
    });
    let Some((lines, n)) = made else {
        eprintln!("usage: generate SEED N [AREA..]");
        eprintln!("areas: {}", oracle::areas::names().join(" "));
        return ExitCode::from(2);
    };
    let mut out = BufWriter::with_capacity(1 << 16, std::io::stdout().lock());
    let written = lines
        .take(n)
        .try_for_each(|line| {
            out.write_all(&line)?;
            out.write_all(b"\n")
        })
        .and_then(|()| out.flush());
    match written {
        Ok(()) => ExitCode::SUCCESS,
        Err(e) if e.kind() == ErrorKind::BrokenPipe => ExitCode::SUCCESS,
        Err(e) => {
            eprintln!("generate: {e}");
            ExitCode::FAILURE
        }
    }
}

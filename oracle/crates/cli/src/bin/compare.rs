//! `compare [--report FILE] [SEED [N [AREA..]]]`: generated lines, answered by the oracle and by our console, compared
//! line by line. Without SEED a fresh one, without N a million lines; the report goes to standard output and to FILE.
//!
//! The console is the shell command in CONSOLE. Each batch of lines goes to fresh programs, so a processor does
//! not outlive its batch on either side. Exit status: 0 no difference, 1 some, 2 not run.
use oracle::areas;
use oracle::report::Report;
use std::io::{Read, Write};
use std::process::{Command, ExitCode, Stdio};

const BATCH: usize = 100_000;
const LINES: usize = 1_000_000;

/// What a program wrote and how it ended.
struct Answers {
    lines: Vec<Vec<u8>>,
    failed: Option<String>,
}

/// Gives the input to a program while its output is read.
fn answers(mut program: Command, input: &[u8]) -> std::io::Result<Answers> {
    let mut child = program
        .stdin(Stdio::piped())
        .stdout(Stdio::piped())
        .spawn()?;
    let mut stdin = child.stdin.take().expect("stdin");
    let mut stdout = child.stdout.take().expect("stdout");
    let mut output = Vec::new();
    std::thread::scope(|s| {
        // a program that ends early shows by its number of answers
        s.spawn(move || drop(stdin.write_all(input)));
        stdout.read_to_end(&mut output)
    })?;
    let status = child.wait()?;
    let mut lines: Vec<Vec<u8>> = output.split(|&b| b == b'\n').map(<[u8]>::to_vec).collect();
    if lines.last().is_some_and(Vec::is_empty) {
        lines.pop();
    }
    let failed = (!status.success()).then(|| status.to_string());
    Ok(Answers { lines, failed })
}

fn run(seed: u64, n: usize, areas: &[String], console: &str) -> Result<Report, String> {
    let mut lines = areas::lines(seed, areas)
        .ok_or_else(|| format!("areas: {}", areas::names().join(" ")))?
        .take(n);
    let here = std::env::current_exe().map_err(|e| e.to_string())?;
    let mut report = Report::default();
    let mut done = 0;
    loop {
        let batch: Vec<Vec<u8>> = lines.by_ref().take(BATCH).collect();
        if batch.is_empty() {
            return Ok(report);
        }
        let mut input = batch.join(&b'\n');
        input.push(b'\n');
        let mut shell = Command::new("sh");
        shell.arg("-c").arg(console);
        let oracle = Command::new(here.with_file_name("oracle"));
        let (theirs, ours) = std::thread::scope(|s| {
            let theirs = s.spawn(|| answers(oracle, &input));
            let ours = answers(shell, &input);
            (theirs.join().expect("thread"), ours)
        });
        let theirs = theirs.map_err(|e| format!("the oracle does not run: {e}"))?;
        let ours = ours.map_err(|e| format!("the console does not run: {e}"))?;
        for (i, line) in batch.iter().enumerate() {
            if let (Some(a), Some(b)) = (theirs.lines.get(i), ours.lines.get(i)) {
                report.line(done + i + 1, line, a, b);
            }
        }
        for (who, a) in [("the oracle", &theirs), ("the console", &ours)] {
            if a.lines.len() != batch.len() {
                report.failures.push(format!(
                    "lines {} to {}: {who} gave {} answers to {} lines",
                    done + 1,
                    done + batch.len(),
                    a.lines.len(),
                    batch.len()
                ));
            }
            if let Some(status) = &a.failed {
                report.failures.push(format!(
                    "lines {} to {}: {who} ended with {status}",
                    done + 1,
                    done + batch.len()
                ));
            }
        }
        done += batch.len();
        eprintln!(
            "compare: {done} of {n} lines, {} differences",
            report.differences()
        );
        if !report.failures.is_empty() {
            return Ok(report);
        }
    }
}

/// A seed that no one has chosen.
fn fresh() -> Result<u64, String> {
    let mut bytes = [0; 4];
    let mut random = std::fs::File::open("/dev/urandom").map_err(|e| e.to_string())?;
    random.read_exact(&mut bytes).map_err(|e| e.to_string())?;
    Ok(u32::from_le_bytes(bytes).into())
}

/// Compares, writes the report, and says whether all was well.
fn compare(args: &[String], console: &str) -> Result<bool, String> {
    const USAGE: &str = "usage: CONSOLE=COMMAND compare [--report FILE] [SEED [N [AREA..]]]";
    let (file, args) = match args {
        [flag, file, rest @ ..] if flag == "--report" => (Some(file), rest),
        all => (None, all),
    };
    let seed = args
        .first()
        .map_or_else(fresh, |s| s.parse().map_err(|_| USAGE.into()));
    let n = args
        .get(1)
        .map_or(Ok(LINES), |n| n.parse().map_err(|_| USAGE));
    let (seed, n) = (seed?, n?);
    if console.is_empty() {
        return Err(USAGE.into());
    }
    let save = |text: &str| match file {
        Some(file) => std::fs::write(file, text).map_err(|e| format!("{file}: {e}")),
        None => Ok(()),
    };
    save("")?; // a file that can't be written shows before the work
    let areas = args.get(2..).unwrap_or_default();
    eprintln!("compare: seed {seed}");
    let report = run(seed, n, areas, console)?;
    let of = match areas {
        [] => "all areas".to_string(),
        some => some.join(" "),
    };
    let text = report.text(
        &format!("{n} lines of seed {seed} ({of})"),
        areas.is_empty(),
    );
    print!("{text}");
    save(&text)?;
    Ok(report.good())
}

fn main() -> ExitCode {
    let args: Vec<String> = std::env::args().skip(1).collect();
    let console = std::env::var("CONSOLE").unwrap_or_default();
    match compare(&args, &console) {
        Ok(true) => ExitCode::SUCCESS,
        Ok(false) => ExitCode::FAILURE,
        Err(e) => {
            eprintln!("compare: {e}");
            ExitCode::from(2)
        }
    }
}

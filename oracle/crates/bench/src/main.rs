//! The Rust original and the proved library in one process, on the same inputs.
//! `bench` prints nanoseconds a call (medians); `bench list` the cases; `bench CASE rust|ours|hand N` runs one side N times, for callgrind.
//! Before anything is timed each case's two answers are compared.
mod cases;
mod ours;

use cases::{Call, Case};
use std::hint::black_box;
use std::time::Instant;

const RUNS: usize = 15;

/// The median of several runs, in nanoseconds a call.
fn median(n: u64, call: &mut dyn FnMut() -> usize) -> f64 {
    let mut runs: Vec<f64> = (0..RUNS)
        .map(|_| {
            let start = Instant::now();
            let mut sum = 0usize;
            for _ in 0..n {
                sum = sum.wrapping_add(call());
            }
            black_box(sum);
            start.elapsed().as_nanos() as f64 / n as f64
        })
        .collect();
    runs.sort_by(f64::total_cmp);
    runs[RUNS / 2]
}

/// The nanoseconds of a side; nothing where the case hasn't it.
fn shown(n: u64, side: &mut Option<Call>) -> String {
    side.as_mut().map_or(String::new(), |call| format!("{:.0}", median(n, call)))
}

fn one_side(case: &mut Case, side: &str, n: u64) {
    let call = match side {
        "rust" => case.rust.as_mut(),
        "ours" => Some(&mut case.ours),
        _ => case.hand.as_mut(),
    };
    let Some(call) = call else {
        return println!("{} has no {side}", case.name);
    };
    let mut sum = 0usize;
    for _ in 0..n {
        sum = sum.wrapping_add(call());
    }
    println!("{} {side} {n} {sum}", case.name);
}

fn main() {
    let mut all = cases::all();
    let args: Vec<String> = std::env::args().skip(1).collect();
    let words: Vec<&str> = args.iter().map(String::as_str).collect();
    match words[..] {
        ["list"] => all.iter().for_each(|c| println!("{}", c.name)),
        [name, side @ ("rust" | "ours" | "hand"), n] => {
            let case = all.iter_mut().find(|c| c.name == name).expect("a case of `bench list`");
            one_side(case, side, n.parse().expect("a count"));
        }
        [] => {
            for c in &mut all {
                let (rust, ours) = (shown(c.n, &mut c.rust), median(c.n, &mut c.ours));
                println!("{}|{rust}|{ours:.0}|{}", c.name, shown(c.n, &mut c.hand));
            }
        }
        _ => {
            eprintln!("usage: bench [list | CASE rust|ours|hand N]");
            std::process::exit(2);
        }
    }
}

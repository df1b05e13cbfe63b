//! What `compare` counts, and the report that it writes.
use crate::answer::not_asked;
use crate::hex::unhex;
use crate::protocol::{TOLD, bare, call};
use crate::refusals::{NOT_GENERATED, generated, has_output, numbers};
use std::collections::{BTreeMap, BTreeSet};
use std::fmt::Write as _;

/// Differences that are shown.
const SHOWN: usize = 10;
/// Columns of the report's text.
const WIDTH: usize = 150;

type Counts<K> = BTreeMap<K, usize>;

fn add<K: Ord>(counts: &mut Counts<K>, key: K, n: usize) {
    *counts.entry(key).or_default() += n;
}

/// `key:count` of each.
fn shown<K: ToString>(counts: &Counts<K>) -> Vec<String> {
    let item = |(k, v): (&K, &usize)| format!("{}:{v}", k.to_string().replace(' ', "-"));
    counts.iter().map(item).collect()
}
fn list<K: ToString>(counts: &Counts<K>) -> String {
    shown(counts).join(" ")
}

/// Counts of one call. Refusals, errors and what the Rust cannot be asked are counted by their names.
#[derive(Default)]
struct Row {
    lines: usize,
    ok: usize,
    refused: Counts<u32>,
    error: Counts<String>,
    not_asked: Counts<&'static str>,
    /// Our refusals where the Rust cannot be asked.
    ours: BTreeSet<u32>,
    differences: usize,
}

impl Row {
    fn add(&mut self, other: &Row) {
        self.lines += other.lines;
        self.ok += other.ok;
        self.differences += other.differences;
        for (k, v) in &other.refused {
            add(&mut self.refused, *k, *v);
        }
        for (k, v) in &other.error {
            add(&mut self.error, k.clone(), *v);
        }
        for (k, v) in &other.not_asked {
            add(&mut self.not_asked, k, *v);
        }
    }
    /// Refusals, errors and what the Rust cannot be asked, as far as there are any.
    fn sorts(&self) -> Vec<String> {
        let mut items = Vec::new();
        for (name, counts) in [
            ("refused", shown(&self.refused)),
            ("error", shown(&self.error)),
            ("Rust not asked", shown(&self.not_asked)),
        ] {
            let named = counts.first().map(|first| format!("{name} {first}"));
            items.extend(named.into_iter().chain(counts.into_iter().skip(1)));
        }
        items
    }
    fn occurred(&self, number: u32) -> bool {
        self.refused.contains_key(&number) || self.ours.contains(&number)
    }
}

/// The number of `refused N`.
fn refusal(answer: &[u8]) -> Option<u32> {
    let digits = answer.strip_prefix(b"refused ")?;
    std::str::from_utf8(digits).ok()?.parse().ok()
}

fn is_ok(answer: &[u8]) -> bool {
    answer == b"ok" || answer.starts_with(b"ok ")
}

/// The row in which a line is counted. `room` before a call that has an output, and `new` before one that is told its reading, are rows of their own.
pub fn row_name(line: &[u8]) -> String {
    if line.is_empty() || line[0] == b'#' {
        return "(echo)".into();
    }
    let line = bare(line);
    let name = call(line.fields[0]).map(|c| c.0);
    let told = name.is_some_and(|c| TOLD.contains(&c));
    let output = name.is_some_and(has_output);
    match name {
        _ if line.new && !told => "new".into(),
        _ if line.room && !output => "room".into(),
        None => "(no call)".into(),
        Some(c) => {
            let room = if line.room { "room " } else { "" };
            let new = if line.new { "new " } else { "" };
            format!("{room}{new}{c}")
        }
    }
}

/// Function and status of a command that was replied to.
fn replied(line: &[u8], answer: &[u8]) -> Option<(String, String)> {
    let command = unhex(line.strip_prefix(b"cmd ")?)?;
    let reply = unhex(answer.strip_prefix(b"ok ")?)?;
    let id = usize::from(*command.first()?);
    let function = match (command.get(id)?, command.get(id + 4)) {
        (0x0F, Some(f @ (0xA1 | 0xA2 | 0xAA | 0xAB))) => format!("{f:02X}"),
        (0x06, Some(0x03)) => "06 03".into(),
        _ => "others".into(),
    };
    Some((function, format!("{:02X}", reply.get(id + 1)?)))
}

#[derive(Default)]
pub struct Report {
    rows: BTreeMap<String, Row>,
    /// Why the Rust cannot be asked, and our answers' sorts.
    alone: BTreeMap<&'static str, Counts<String>>,
    /// Commands by function and status.
    replies: BTreeMap<String, Counts<String>>,
    shown: Vec<String>,
    pub failures: Vec<String>,
}

impl Report {
    /// Counts a line with its two answers.
    pub fn line(&mut self, at: usize, line: &[u8], oracle: &[u8], ours: &[u8]) {
        let row = self.rows.entry(row_name(line)).or_default();
        row.lines += 1;
        let text = String::from_utf8_lossy(oracle);
        let right = if let Some(why) = not_asked(oracle) {
            add(&mut row.not_asked, why, 1);
            row.ours.extend(refusal(ours));
            let sort = refusal(ours).map_or("ok".into(), |n| format!("refused {n}"));
            add(self.alone.entry(why).or_default(), sort, 1);
            is_ok(ours) || refusal(ours).is_some()
        } else {
            if let Some(why) = text.strip_prefix("error ") {
                add(&mut row.error, why.into(), 1);
            } else if let Some(n) = refusal(oracle) {
                add(&mut row.refused, n, 1);
            } else {
                row.ok += 1;
            }
            if let Some((function, status)) = replied(line, oracle) {
                add(self.replies.entry(function).or_default(), status, 1);
            }
            oracle == ours
        };
        if !right {
            row.differences += 1;
            if self.shown.len() < SHOWN {
                self.shown.push(format!(
                    "line {at}: {}\n  oracle: {}\n  ours:   {}",
                    cut(line),
                    cut(oracle),
                    cut(ours)
                ));
            }
        }
    }

    pub fn differences(&self) -> usize {
        self.rows.values().map(|r| r.differences).sum()
    }

    /// No difference, no side that failed, and no number that the table of refusals hasn't.
    pub fn good(&self) -> bool {
        self.differences() == 0 && self.failures.is_empty() && self.unlisted().is_empty()
    }

    /// Rows with numbers, in which `keep` leaves some.
    fn with_numbers<'a>(
        names: impl Iterator<Item = &'a String>,
        keep: impl Fn(&str) -> Vec<u32>,
    ) -> Vec<String> {
        let some = names.map(|name| (name, keep(name)));
        some.filter(|(_, list)| !list.is_empty())
            .map(|(name, list)| {
                let list: Vec<String> = list.iter().map(u32::to_string).collect();
                format!("{name}: {}", list.join(" "))
            })
            .collect()
    }

    /// Numbers that a call can be refused with and never was. `all`: of every call that is generated, else of those that occurred.
    fn gaps(&self, all: bool) -> Vec<String> {
        let names = generated();
        let asked = names
            .iter()
            .filter(|n| all || self.rows.contains_key(n.as_str()));
        Self::with_numbers(asked, |name| {
            let mut list = numbers(name).unwrap_or_default();
            list.retain(|&n| !self.rows.get(name).is_some_and(|r| r.occurred(n)));
            list
        })
    }

    /// Numbers that occurred though the table of refusals hasn't them.
    fn unlisted(&self) -> Vec<String> {
        let calls = self.rows.keys().filter(|n| n.as_str() != "room");
        Self::with_numbers(calls, |name| {
            let known = numbers(name).unwrap_or_default();
            let found = self.rows[name].refused.keys().copied();
            found.filter(|n| !known.contains(n)).collect()
        })
    }

    /// The report of a run whose lines and seed `title` names.
    pub fn text(&self, title: &str, all: bool) -> String {
        let mut summary = format!("{title}: {} differences", self.differences());
        if !self.failures.is_empty() {
            let compared: usize = self.rows.values().map(|r| r.lines).sum();
            let _ = write!(summary, ", stopped by a failure after {compared} lines");
        }
        let mut out = format!("{summary}\n\n");
        self.table(&mut out);
        let alone = self
            .alone
            .iter()
            .map(|(why, c)| format!("{why} {}", list(c)));
        put(
            &mut out,
            "the Rust could not be asked, ours then",
            &Vec::from_iter(alone),
        );
        let replies = self.replies.iter().map(|(f, c)| format!("{f} {}", list(c)));
        put(
            &mut out,
            "commands by function, status:count",
            &Vec::from_iter(replies),
        );
        put(
            &mut out,
            "numbers that never occurred, by call",
            &self.gaps(all),
        );
        let left_out = NOT_GENERATED.iter().map(|(call, why)| {
            let list: Vec<String> = numbers(call)
                .unwrap_or_default()
                .iter()
                .map(u32::to_string)
                .collect();
            format!("{call} [{}] ({why})", list.join(" "))
        });
        put(
            &mut out,
            "calls that are not generated, their numbers",
            &Vec::from_iter(left_out),
        );
        let unlisted = self.unlisted();
        if !unlisted.is_empty() {
            put(
                &mut out,
                "NUMBERS THAT THE TABLE OF REFUSALS HASN'T",
                &unlisted,
            );
        }
        for (n, d) in self.shown.iter().enumerate() {
            let _ = writeln!(out, "difference {}, {d}", n + 1);
        }
        for f in &self.failures {
            let _ = writeln!(out, "{f}");
        }
        let _ = writeln!(out, "{summary}");
        out
    }

    /// A row for each call, then the sums.
    fn table(&self, out: &mut String) {
        let _ = writeln!(
            out,
            "{:15} {:>8} {:>8} {:>12}",
            "call", "lines", "ok", "differences"
        );
        let mut all = Row::default();
        self.rows.values().for_each(|r| all.add(r));
        let sums = ("all".to_string(), all);
        for (name, r) in self.rows.iter().chain([(&sums.0, &sums.1)]) {
            let counts = format!("{name:15} {:8} {:8} {:12}  ", r.lines, r.ok, r.differences);
            wrapped(out, &counts, &r.sorts(), " ");
        }
        out.push('\n');
    }
}

/// A part of the report: its name and its items, or `none`.
fn put(out: &mut String, name: &str, items: &[String]) {
    match items {
        [] => wrapped(out, &format!("{name}: "), &["none".into()], ""),
        some => wrapped(out, &format!("{name}: "), some, "; "),
    }
}

/// Items in lines of at most WIDTH columns.
fn wrapped(out: &mut String, first: &str, items: &[String], between: &str) {
    let mut line = first.to_string();
    for (i, item) in items.iter().enumerate() {
        if line.len() + item.len() > WIDTH {
            let _ = writeln!(out, "{}", line.trim_end());
            line = "  ".into();
        }
        line += item;
        if i + 1 < items.len() {
            line += between;
        }
    }
    let _ = writeln!(out, "{}", line.trim_end());
}

/// At most 200 characters, bytes that don't print spelled out.
fn cut(text: &[u8]) -> String {
    let shown = text.escape_ascii().to_string();
    if shown.len() <= 200 {
        return shown;
    }
    format!("{}.. ({} bytes)", &shown[..200], text.len())
}

//! The answers. Every answer about bytes comes from the unchanged original; here stand only the questions that
//! document 01 marks as added (1 as document 02's A2 has it), what A12 adds over it, and the numbers of the original's errors.
use crate::hex::hex;
use crate::protocol::{Call, ElementValue, File, Tag, WriteValue, parse};
use ciplink::slc::pccc::{self, Address, FileType, Requestor};
use ciplink::{Error, Value};
use ciplink_sim::config::{FileConfig, SlcConfig};
use ciplink_sim::slc::{Slc, access};
use serde_json::{Value as Json, json};
use std::fmt::Write as _;

/// Why the Rust cannot be asked, if that is what an answer says.
pub fn not_asked(answer: &[u8]) -> Option<&'static str> {
    const REASONS: [&str; 6] = ["type", "utf8", "nojson", "utf8 datalog", "lost", "spoilt"];
    match answer.strip_prefix(b"err ") {
        Some(why) => REASONS.into_iter().find(|r| r.as_bytes() == why),
        None => (answer == b"ok f:null").then_some("f:null"),
    }
}

/// Both sides are an answer; `Err` is one that ends the work early.
type Answer = Result<String, String>;

fn refused(n: u32) -> String {
    format!("refused {n}")
}
fn ok(bytes: &[u8]) -> Answer {
    Ok(format!("ok {}", hex(bytes)))
}
fn ok_or_none(text: Option<&str>) -> Answer {
    match text {
        None => Ok("ok none".into()),
        Some(t) => ok(t.as_bytes()),
    }
}
fn latin1(b: &[u8]) -> String {
    b.iter().map(|&c| char::from(c)).collect()
}
fn to_latin1(s: &str) -> Vec<u8> {
    s.chars()
        .map(|c| u8::try_from(u32::from(c)).unwrap_or(b'?'))
        .collect()
}
/// The text that the Rust wants where it takes a `str`.
fn utf8(b: Vec<u8>) -> Result<String, String> {
    String::from_utf8(b).map_err(|_| "err utf8".into())
}
/// The Rust's own error, for `--raw`.
fn raw_error(e: &Error) -> String {
    let kind = match e {
        Error::Request { .. } => "request",
        Error::Response(_) => "response",
        Error::Data(_) => "data",
        Error::Comm(_) => "comm",
        Error::BufferEmpty => "empty",
    };
    format!("err {kind} {}", hex(e.to_string().as_bytes()))
}

/// The processor that `sim` built.
enum Processor {
    None,
    Built(Box<Slc>),
    /// The last `sim` or a `set` could not be put to the Rust: its state would not be the other side's.
    Lost,
}

pub struct Oracle {
    raw: bool,
    processor: Processor,
}

impl Oracle {
    /// `raw`: no added question is asked, and the Rust's own errors are shown.
    pub fn new(raw: bool) -> Oracle {
        Oracle {
            raw,
            processor: Processor::None,
        }
    }

    /// The answer to a line, without a newline.
    pub fn line(&mut self, line: &[u8]) -> Vec<u8> {
        match parse(line) {
            Err(why) => format!("error {}", why.word()).into_bytes(),
            Ok(None) => line.to_vec(),
            Ok(Some(call)) => match self.call(call) {
                Ok(answer) | Err(answer) => answer.into_bytes(),
            },
        }
    }

    fn call(&mut self, call: Call) -> Answer {
        match call {
            Call::Tag(tag) => self.tag(tag),
            Call::Dotted(bytes) => self.dotted(bytes),
            Call::Read(tag, req, seq) => self.read(tag, &req, seq),
            Call::Write(tag, req, seq, value) => self.write(tag, &req, seq, &value),
            Call::WritableValue(tag, value) => self.writable_value(tag, &value),
            Call::Processor(req, seq) => ok(&pccc::processor_type_request(&req, seq)),
            Call::DatalogRequest(queue) => ok(&pccc::datalog_request(queue)),
            Call::Sys0(text) => {
                let i = pccc::sys0_info(&utf8(text)?);
                Ok(format!(
                    "ok {} {} {:02X} {:02X} {:02X} {}",
                    i.file_position,
                    i.row_size,
                    i.file_type,
                    i.size_element,
                    i.size_len,
                    i.size_const
                ))
            }
            Call::DirectorySizeRequest(text, req, seq) => {
                let info = pccc::sys0_info(&utf8(text)?);
                ok(&pccc::file_directory_size_request(&info, &req, seq))
            }
            Call::DirectoryReadRequest(file_type, offset, size, req, seq) => {
                let offset = usize::try_from(offset).unwrap_or(usize::MAX);
                match pccc::file_directory_read_request(file_type, offset, size, &req, seq) {
                    Ok(message) => ok(&message),
                    Err(e) if self.raw => Ok(raw_error(&e)),
                    Err(_) => Err(refused(26)),
                }
            }
            Call::DirectorySize(text, reply) => {
                let info = pccc::sys0_info(&utf8(text)?);
                match pccc::parse_file_directory_size(&reply, &info) {
                    Some(n) => Ok(format!("ok {n}")),
                    None => Err(refused(25)),
                }
            }
            Call::DirectoryRows(first, row, data) => self.directory_rows(first, row, &data),
            Call::Status(reply) => ok_or_none(pccc::request_status(&reply).as_deref()),
            Call::ErrorText(status) => ok_or_none(pccc::pccc_error_text(status)),
            Call::ParseDatalog(reply) => match pccc::parse_datalog(&reply) {
                Value::String(s) => ok(s.as_bytes()),
                Value::Bytes(b) => ok(&b),
                other => Err(format!("err internal {other:?}")),
            },
            Call::Reply(tag, data) => self.reply(tag, &data),
            Call::FileType(code) => Ok(shown_type(FileType::from_code(code))),
            Call::FileTypeName(name) => Ok(shown_type(FileType::from_name(&latin1(&name)))),
            Call::SimFileType(code) => Ok(sim_file_type(code).unwrap_or("ok none".into())),
            Call::Swap(bytes) => ok(&pccc::slc_string_swap(&bytes)),
            Call::Pairs(mut bytes) => {
                access::pairs(&mut bytes);
                ok(&bytes)
            }
            Call::Ascii(text) => encoded(pccc::encode_pccc_ascii, &text),
            Call::String(text) => encoded(pccc::encode_pccc_string, &text),
            Call::Encode(code, bytes, value) => self.encode(code, bytes, value),
            Call::Decode(code, bytes) => {
                let size = element_size(code, &bytes)?;
                match access::decode(code, &bytes[..size]) {
                    Some(value) => shown_element(code, &value),
                    None => Err("err type".into()),
                }
            }
            Call::Sim(text, files, log) => self.sim(text, &files, log),
            Call::Fill(number, bytes) => {
                let slc = self.slc()?;
                // a test aid: 19 where there is no such file, or another number of bytes fills it
                match u16::try_from(number) {
                    Ok(n) if access::fill(slc, n, &bytes) => Ok("ok".into()),
                    _ => Err(refused(19)),
                }
            }
            Call::Command(bytes) => match access::pccc(self.slc()?, &bytes) {
                Some(reply) => ok(&reply),
                None => Err(refused(18)),
            },
            Call::Message(bytes) => ok(&access::message(self.slc()?, &bytes)),
            Call::Get(code, number, element) => {
                let slc = self.slc()?;
                let address = element_address(slc, code, number, element)?;
                let value = slc.value(&address).map_err(|_| refused(19))?;
                shown_element(code, &value)
            }
            Call::Set(code, number, element, value) => self.set(code, number, element, value),
            Call::Dump => {
                let slc = self.slc()?;
                let mut out = format!("ok {}", access::files(slc).len());
                for (n, c, d) in access::files(slc) {
                    let _ = write!(out, " {n}:{c:02X}:{}", hex(d));
                }
                let log = access::datalog(slc);
                let _ = write!(out, " log {}", log.len());
                for e in log {
                    let _ = write!(out, " {}", hex(e));
                }
                Ok(out)
            }
            Call::Hash => {
                let slc = self.slc()?;
                let mut h: u64 = 0xcbf29ce484222325;
                for (_, _, d) in access::files(slc) {
                    for &b in d {
                        h = (h ^ u64::from(b)).wrapping_mul(0x100000001b3);
                    }
                }
                Ok(format!("ok {h:016X} {}", access::datalog(slc).len()))
            }
            Call::Directory => ok(&access::directory(self.slc()?)),
            Call::Spoil => {
                self.processor = Processor::Lost;
                Err("err spoilt".into())
            }
            Call::Room(room, call) => self.in_room(room, *call),
        }
    }

    /// The answer, or 6, 10, 17 or 24 where the output would need more room. (The Rust's outputs are vectors.)
    fn in_room(&mut self, room: u64, call: Call) -> Answer {
        let bytes = match call {
            Call::Read(..)
            | Call::Processor(..)
            | Call::DatalogRequest(..)
            | Call::DirectorySizeRequest(..)
            | Call::DirectoryReadRequest(..) => 27,
            Call::Write(..) => 284,
            Call::Dotted(..) => 255,
            Call::Status(..) | Call::ErrorText(..) => 96,
            _ => 0,
        };
        let rows = matches!(call, Call::DirectoryRows(..));
        if !self.raw && matches!(call, Call::Command(..)) && room < 514 {
            self.slc()?; // 16 comes first
            return Err(refused(17));
        }
        let answer = self.call(call)?;
        if self.raw || answer == "ok none" {
            return Ok(answer);
        }
        let files = || answer.split(' ').nth(1).and_then(|n| n.parse::<u64>().ok());
        match room {
            _ if room < bytes => Err(refused(6)),
            _ if rows && files().is_some_and(|n| room < n) => Err(refused(10)),
            0..82 if answer.starts_with("ok s:") => Err(refused(24)),
            _ => Ok(answer),
        }
    }

    /// Questions 1 and 2, then 39 of a new entry. In raw mode a tag is UTF-8 of any length, and the Rust has one reading.
    fn address(&self, tag: Tag) -> Result<(String, Address), String> {
        let Tag { bytes, new } = tag;
        if !self.raw && (bytes.len() > 255 || std::str::from_utf8(&bytes).is_err()) {
            return Err(refused(1));
        }
        let text = utf8(bytes)?;
        let Some(a) = pccc::parse_tag(&text) else {
            return Err(if self.raw { "none".into() } else { refused(2) });
        };
        if !self.raw && new && cut(&text, &a)?.is_some_and(|c| !matches!(c.separator, '.' | '/')) {
            return Err(refused(39));
        }
        Ok((text, a))
    }

    /// The text of a tag of a stored list.
    fn dotted(&self, bytes: Vec<u8>) -> Answer {
        let (text, a) = self.address(Tag { bytes, new: false })?;
        match cut(&text, &a)? {
            Some(Cut { before, name, .. }) => ok(format!("{before}.{name}").as_bytes()),
            None => ok(text.as_bytes()),
        }
    }

    fn tag(&self, tag: Tag) -> Answer {
        let (_, a) = self.address(tag)?;
        let opt = |v: Option<u16>| v.map_or("-".to_string(), |v| v.to_string());
        Ok(format!(
            "ok {:02X} {} {} {} {} {} {} {}",
            a.file_type.code(),
            a.file_number,
            a.element_number,
            opt(a.pos_number),
            opt(a.sub_element),
            u8::from(a.bit),
            a.element_count,
            a.tag.len()
        ))
    }

    pub fn read(&self, tag: Tag, req: &Requestor, seq: u16) -> Answer {
        let (tag, a) = self.address(tag)?;
        self.built(&a, pccc::read_request(&tag, req, seq))
    }

    fn write(&self, tag: Tag, req: &Requestor, seq: u16, value: &WriteValue) -> Answer {
        let (tag, a) = self.address(tag)?;
        if !self.raw && a.bit && a.element_count > 1 {
            return Err(refused(3));
        }
        if !self.raw && !write_suits(&a, value) {
            return Err(refused(4));
        }
        self.built(&a, pccc::write_request(&tag, &value_of(value), req, seq))
    }

    /// The message, or 3, 4 or 5 for the Rust's error.
    fn built(&self, a: &Address, r: ciplink::Result<(Address, Vec<u8>)>) -> Answer {
        match r {
            Ok((b, _)) if *a != b => Err("err internal two addresses".into()),
            Ok((_, message)) => ok(&message),
            Err(e) if self.raw => Ok(raw_error(&e)),
            Err(Error::Request { .. }) if a.bit && a.element_count > 1 => Err(refused(3)),
            Err(Error::Request { .. }) => Err(refused(4)),
            Err(Error::Data(_)) => Err(refused(5)),
            Err(e) => Err(raw_error(&e)),
        }
    }

    fn writable_value(&self, tag: Tag, value: &WriteValue) -> Answer {
        let (_, a) = self.address(tag)?;
        match pccc::writeable_value(&a, &value_of(value)) {
            Ok(bytes) => ok(&bytes),
            Err(e) if self.raw => Ok(raw_error(&e)),
            Err(_) => Err(refused(4)),
        }
    }

    fn directory_rows(&self, first: u64, row: u64, data: &[u8]) -> Answer {
        if !self.raw && data.len() > 65535 {
            return Err(refused(7));
        }
        let place = |n: u64| usize::try_from(n).unwrap_or(usize::MAX);
        match pccc::parse_file_directory(place(first), place(row), data) {
            Ok(files) => {
                let mut s = format!("ok {}", files.len());
                for (name, file) in &files {
                    let cut = name
                        .find(|c: char| c.is_ascii_digit())
                        .unwrap_or(name.len());
                    let (name, number) = name.split_at(cut);
                    let t = FileType::from_name(name).ok_or("err internal name")?;
                    let _ = write!(
                        s,
                        " {:02X}:{number}:{}:{}",
                        t.code(),
                        file.elements,
                        file.length
                    );
                }
                Ok(s)
            }
            Err(e) if self.raw => Ok(raw_error(&e)),
            Err(_) if row == 0 => Err(refused(8)),
            Err(_) => Err(refused(9)),
        }
    }

    fn reply(&self, tag: Tag, data: &[u8]) -> Answer {
        let (_, a) = self.address(tag)?;
        match pccc::parse_read_reply(&a, data) {
            Ok(v) => {
                let list = match v {
                    Value::Array(l) => l,
                    one => vec![one],
                };
                let mut s = format!("ok {}", list.len());
                for v in &list {
                    let _ = match v {
                        Value::Bool(b) => write!(s, " b:{}", u8::from(*b)),
                        Value::Int(n) => write!(s, " w:{n}"),
                        Value::DInt(n) => write!(s, " l:{n}"),
                        Value::Real(x) => write!(s, " f:{:08X}", x.to_bits()),
                        Value::String(t) => write!(s, " s:{}", hex(&to_latin1(t))),
                        other => return Err(format!("err internal {other:?}")),
                    };
                }
                Ok(s)
            }
            Err(e) if self.raw => Ok(raw_error(&e)),
            Err(_) => Err(refused(27)),
        }
    }

    fn encode(&self, code: u8, mut bytes: Vec<u8>, value: ElementValue) -> Answer {
        let size = element_size(code, &bytes)?;
        if access::name_of_code(code).is_none() {
            return Err("err type".into());
        }
        if !self.raw && !element_suits(code, &value) {
            return Err(refused(20));
        }
        let json = json_of(value)?;
        // the Rust stores the words before a bad one: a refusal leaves this copy behind
        let element = &mut bytes[..size];
        match access::encode(code, &json, element) {
            None => Err("err type".into()),
            Some(Ok(())) => ok(&bytes),
            Some(Err(text)) if self.raw => Ok(format!(
                "err element {} {}",
                hex(text.as_bytes()),
                hex(&bytes)
            )),
            Some(Err(text)) => Err(element_refusal(&text)),
        }
    }

    fn slc(&mut self) -> Result<&mut Slc, String> {
        match &mut self.processor {
            Processor::Built(slc) => Ok(slc),
            Processor::None => Err(refused(16)),
            Processor::Lost => Err("err lost".into()),
        }
    }

    fn sim(&mut self, text: Vec<u8>, files: &[File], log: Vec<Vec<u8>>) -> Answer {
        self.processor = Processor::None;
        let mut config = SlcConfig::default();
        let mut total = 0u128;
        for f in files {
            // a code outside the twelve is handed to the Rust as a name that it does not know
            let name = access::name_of_code(f.code).unwrap_or("?");
            let size = access::element_size(f.code).unwrap_or(0) as u128;
            total = total.saturating_add(size * u128::from(f.elements));
            let number = u16::try_from(f.number).unwrap_or(u16::MAX);
            let elements = u32::try_from(f.elements).unwrap_or(u32::MAX);
            config.files.push(FileConfig::new(number, name, elements));
        }
        if self.raw && total > 1 << 24 {
            return Err("err too big".into()); // keeps the oracle small
        }
        if !self.raw && total > 65535 {
            // 14, unless 11, 12 or 13 come first: the Rust is asked about those without the bytes
            config.files.iter_mut().for_each(|f| f.elements = 0);
        }
        config.processor_type = if self.raw {
            utf8(text)?
        } else if text.iter().any(|&c| c >= 128) {
            "?".repeat(12) // (added) a text of 12 bytes draws the same refusal at the same place
        } else {
            latin1(&text)
        };
        let entries: Vec<Option<String>> = log
            .iter()
            .map(|e| String::from_utf8(e.clone()).ok())
            .collect();
        config.datalog = entries.iter().flatten().cloned().collect();
        let slc = match Slc::new(&config) {
            Ok(slc) => slc,
            Err(e) if self.raw => {
                return Ok(format!("err config {}", hex(e.to_string().as_bytes())));
            }
            Err(e) => {
                let e = e.to_string();
                return Err(refused(if e.ends_with("unknown file type") {
                    11
                } else if e.contains("number above 255") {
                    12
                } else {
                    13
                }));
            }
        };
        if !self.raw {
            if total > 65535 {
                return Err(refused(14));
            }
            if log.len() > 64 || log.iter().any(|e| e.len() > 255) {
                return Err(refused(15));
            }
        }
        if entries.iter().any(Option::is_none) {
            self.processor = Processor::Lost;
            return Err("err utf8 datalog".into());
        }
        self.processor = Processor::Built(Box::new(slc));
        Ok("ok".into())
    }

    fn set(&mut self, code: u8, number: u64, element: u64, value: ElementValue) -> Answer {
        let raw = self.raw;
        let slc = self.slc()?;
        let address = element_address(slc, code, number, element)?;
        if !raw && !element_suits(code, &value) {
            return Err(refused(20));
        }
        let json = match json_of(value) {
            Ok(json) => json,
            Err(why) => {
                self.processor = Processor::Lost;
                return Err(why);
            }
        };
        let mut changed = slc.clone();
        match changed.set_value(&address, &json) {
            Ok(()) => {
                *slc = changed;
                Ok("ok".into())
            }
            Err(e) if raw => {
                *slc = changed; // what the Rust had stored before it met the bad part stays
                Ok(format!("err config {}", hex(e.to_string().as_bytes())))
            }
            Err(e) => {
                let text = e.to_string();
                let own = text.strip_prefix(&format!("{address}: ")).unwrap_or(&text);
                Err(element_refusal(own))
            }
        }
    }
}

/// The text of a timer's or counter's address around its separator.
struct Cut<'a> {
    before: &'a str,
    separator: char,
    name: &'a str,
}

/// Where the separator of an accepted address stands; None for the other types. The Rust takes nothing behind the name of a timer or counter, a count
/// neither, so a name ends the text. No name ends another one, so it is one alone, and the separator is the character before it. What stands before
/// that has to be the element that the Rust read: it may have cut the digits elsewhere otherwise.
fn cut<'a>(text: &'a str, a: &Address) -> Result<Option<Cut<'a>>, String> {
    const NAMES: [&str; 10] = ["PRE", "ACC", "EN", "TT", "DN", "CU", "CD", "OV", "UN", "UA"];
    if !matches!(a.file_type, FileType::C | FileType::T) {
        return Ok(None);
    }
    let ended_by = |end: &str| {
        let (front, name) = text.split_at_checked(text.len().checked_sub(end.len())?)?;
        let mut front = front.chars();
        let separator = front.next_back()?;
        let before = front.as_str();
        let element: u16 = before.split_once(':')?.1.parse().ok()?;
        let found = name.eq_ignore_ascii_case(end) && a.element_number == element;
        found.then_some(Cut {
            before,
            separator,
            name,
        })
    };
    let cut = NAMES.into_iter().find_map(ended_by);
    cut.map(Some).ok_or("err internal separator".into())
}

fn shown_type(t: Option<FileType>) -> String {
    match t {
        None => "ok none".into(),
        Some(t) => format!(
            "ok {} {} {:02X}",
            hex(t.name().as_bytes()),
            t.element_size(),
            t.code()
        ),
    }
}

fn sim_file_type(code: u8) -> Option<String> {
    let name = access::name_of_code(code)?;
    let size = access::element_size(code)?;
    let mut out = format!("ok {} {size} {code:02X}", hex(name.as_bytes()));
    let bits = access::bits(code)?;
    if !bits.is_empty() {
        for name in access::words(code)?.iter().chain(bits) {
            let _ = write!(out, " {}", hex(name.as_bytes()));
        }
    }
    Some(out)
}

fn encoded(f: fn(&Value) -> ciplink::Result<Vec<u8>>, text: &[u8]) -> Answer {
    match f(&Value::String(latin1(text))) {
        Ok(bytes) => ok(&bytes),
        Err(e) => Err(raw_error(&e)),
    }
}

/// Question 19 of `enc` and `dec`: the element's size, where the code is known and there are as many bytes.
fn element_size(code: u8, bytes: &[u8]) -> Result<usize, String> {
    match FileType::from_code(code) {
        Some(t) if t.element_size() <= bytes.len() => Ok(t.element_size()),
        _ => Err(refused(19)),
    }
}

/// Question 19 of `get` and `set`: the Rust's spelling of an element that is there.
fn element_address(slc: &Slc, code: u8, number: u64, element: u64) -> Result<String, String> {
    access::name_of_code(code)
        .map(|name| format!("{name}{number}:{element}"))
        .filter(|address| access::element(slc, address).is_some())
        .ok_or_else(|| refused(19))
}

/// Question 20. Part of it is added: JSON lets a whole number stand for a float.
fn element_suits(code: u8, value: &ElementValue) -> bool {
    match value {
        ElementValue::Float(_) => code == 0x8A,
        ElementValue::Text(_) => matches!(code, 0x8D | 0x8E),
        ElementValue::Words(_) | ElementValue::Field(..) => matches!(code, 0x86..=0x88),
        ElementValue::Int(_) => matches!(code, 0x82..=0x85 | 0x89 | 0x91),
    }
}

/// The value as the Rust takes it. It has no text but UTF-8, and JSON has no NaN and no infinity.
fn json_of(value: ElementValue) -> Result<Json, String> {
    Ok(match value {
        ElementValue::Int(n) => json!(n),
        ElementValue::Float(bits) => match f32::from_bits(bits) {
            x if x.is_finite() => json!(f64::from(x)),
            _ => return Err("err nojson".into()),
        },
        ElementValue::Text(text) => Json::String(utf8(text)?),
        ElementValue::Words(words) => json!(words),
        ElementValue::Field(name, n) => {
            let mut fields = serde_json::Map::new();
            fields.insert(latin1(&name), json!(n));
            Json::Object(fields)
        }
    })
}

/// Document 01's number of an error of the simulator's `encode_element`.
fn element_refusal(text: &str) -> String {
    if text.starts_with("unknown field") {
        refused(21)
    } else if text.ends_with("out of range") {
        refused(22)
    } else if text.starts_with("string longer than 82") {
        refused(23)
    } else if text.starts_with("expected") {
        refused(20)
    } else {
        format!("err internal {}", hex(text.as_bytes()))
    }
}

/// What the simulator's `decode_element` gave.
fn shown_element(code: u8, value: &Json) -> Answer {
    Ok(match value {
        Json::Null => "ok f:null".into(), // NaN or an infinity: JSON has lost the bits
        Json::Number(n) if code == 0x8A => {
            let x = n.as_f64().ok_or("err internal float")?;
            format!("ok f:{:08X}", (x as f32).to_bits())
        }
        Json::Number(n) => format!("ok i:{n}"),
        Json::String(t) => format!("ok s:{}", hex(&to_latin1(t))),
        Json::Object(m) => {
            let [first, second] = access::words(code).ok_or("err internal words")?;
            let mut out = format!("ok t:{}:{}:", m[first], m[second]);
            for bit in access::bits(code).ok_or("err internal bits")? {
                out.push(if m[*bit] == Json::Bool(true) {
                    '1'
                } else {
                    '0'
                });
            }
            out
        }
        other => return Err(format!("err internal {other}")),
    })
}

fn value_of(value: &WriteValue) -> Value {
    match value {
        WriteValue::Raw(bytes) => Value::Bytes(bytes.clone()),
        WriteValue::Bool(b) => Value::Bool(*b),
        WriteValue::Text(text) => Value::String(latin1(text)),
        WriteValue::Word(n) | WriteValue::Long(n) => Value::LInt(*n),
        WriteValue::Float(bits) => Value::Real(f32::from_bits(*bits)),
    }
}

/// Question 4 (added), with the words, longs and floats of document 02's A1.
fn write_suits(a: &Address, value: &WriteValue) -> bool {
    let single = a.element_count <= 1;
    let preset = matches!(a.file_type, FileType::T | FileType::C)
        && matches!(a.sub_element, Some(pccc::CT_PRE | pccc::CT_ACC));
    match value {
        WriteValue::Raw(_) => true,
        WriteValue::Bool(_) => a.bit && !preset,
        WriteValue::Text(_) => matches!(a.file_type, FileType::A | FileType::ST) && single,
        WriteValue::Word(n) => {
            let plain = matches!(
                a.file_type,
                FileType::N | FileType::B | FileType::S | FileType::O | FileType::I
            ) && !a.bit;
            (plain || preset) && single && i16::try_from(*n).is_ok()
        }
        WriteValue::Long(n) => {
            a.file_type == FileType::L && !a.bit && single && i32::try_from(*n).is_ok()
        }
        WriteValue::Float(_) => a.file_type == FileType::F && !a.bit && single,
    }
}

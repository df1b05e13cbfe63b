//! The shapes of the line protocol (PROTOCOL.md): a line becomes a `Call`, or the reason why it is none.
//! What a call means is asked elsewhere, so no line is answered before all of its fields were read.
use crate::hex::unhex;
use ciplink::slc::pccc::Requestor;

/// The longest line in bytes, without its newline.
pub const LONGEST: usize = 262_144;

/// Why a line is none of the protocol; the first reason found is answered.
#[derive(Clone, Copy, Debug, PartialEq, Eq)]
pub enum Why {
    Line,
    Call,
    Fields,
    Kind,
    Hex,
    Number,
}

impl Why {
    pub fn word(self) -> &'static str {
        match self {
            Why::Line => "line",
            Why::Call => "call",
            Why::Fields => "fields",
            Why::Kind => "kind",
            Why::Hex => "hex",
            Why::Number => "number",
        }
    }
}

/// A tag, and whether it is read as a new entry or as one of a stored list (A12 of document 02).
#[derive(Clone, Debug)]
pub struct Tag {
    pub bytes: Vec<u8>,
    pub new: bool,
}

/// The value of `write` and `wvalue`.
#[derive(Clone, Debug)]
pub enum WriteValue {
    Raw(Vec<u8>),
    Bool(bool),
    Text(Vec<u8>),
    Word(i64),
    Long(i64),
    Float(u32),
}

/// The value of `enc` and `set`.
#[derive(Clone, Debug)]
pub enum ElementValue {
    Int(i64),
    Float(u32),
    Text(Vec<u8>),
    Words([i64; 3]),
    Field(Vec<u8>, i64),
}

/// A file of `sim`.
#[derive(Clone, Copy, Debug)]
pub struct File {
    pub code: u8,
    pub number: u64,
    pub elements: u64,
}

/// A line whose fields all have their shape, in the order of the line.
#[derive(Clone, Debug)]
pub enum Call {
    Tag(Tag),
    Dotted(Vec<u8>),
    Read(Tag, Requestor, u16),
    Write(Tag, Requestor, u16, WriteValue),
    WritableValue(Tag, WriteValue),
    Processor(Requestor, u16),
    DatalogRequest(u8),
    Sys0(Vec<u8>),
    DirectorySizeRequest(Vec<u8>, Requestor, u16),
    DirectoryReadRequest(u8, u64, u8, Requestor, u16),
    DirectorySize(Vec<u8>, Vec<u8>),
    DirectoryRows(u64, u64, Vec<u8>),
    Status(Vec<u8>),
    ErrorText(u8),
    ParseDatalog(Vec<u8>),
    Reply(Tag, Vec<u8>),
    FileType(u8),
    FileTypeName(Vec<u8>),
    SimFileType(u8),
    Swap(Vec<u8>),
    Pairs(Vec<u8>),
    Ascii(Vec<u8>),
    String(Vec<u8>),
    Encode(u8, Vec<u8>, ElementValue),
    Decode(u8, Vec<u8>),
    Sim(Vec<u8>, Vec<File>, Vec<Vec<u8>>),
    Fill(u64, Vec<u8>),
    Command(Vec<u8>),
    Message(Vec<u8>),
    Get(u8, u64, u64),
    Set(u8, u64, u64, ElementValue),
    Dump,
    Hash,
    Directory,
    Spoil,
    /// A call whose output has so many bytes, or rows.
    Room(u64, Box<Call>),
}

/// How many fields a line has, the call's word included.
#[derive(Clone, Copy)]
pub enum Count {
    Of(usize),
    /// The place of the KIND field, and the kinds with the number of fields behind it.
    Kind(usize, &'static [(&'static str, usize)]),
    /// At least so many: another call stands behind its own fields.
    Rest(usize),
}
use Count::{Kind, Of, Rest};

const WRITE_KINDS: &[(&str, usize)] = &[("raw", 1), ("bool", 1), ("text", 1)];
/// With the kinds of A1 of document 02, which `write` doesn't know yet.
const VALUE_KINDS: &[(&str, usize)] = &[
    ("raw", 1),
    ("bool", 1),
    ("text", 1),
    ("word", 1),
    ("long", 1),
    ("float", 1),
];
const ELEMENT_KINDS: &[(&str, usize)] = &[
    ("int", 1),
    ("float", 1),
    ("text", 1),
    ("words", 1),
    ("field", 2),
];

const SPOIL_KINDS: &[(&str, usize)] = &[
    ("files", 1),
    ("typelen", 1),
    ("logat", 1),
    ("logleft", 1),
    ("record", 5),
    ("text", 2),
    ("log", 2),
];

type Reader = fn(&mut Fields) -> Result<Call, Why>;

/// Every call: its word, its number of fields, and how they are read.
#[rustfmt::skip]
pub const CALLS: &[(&str, Count, Reader)] = &[
    ("tag", Of(2), |f| Ok(Call::Tag(f.tag()?))),
    ("dotted", Of(2), |f| Ok(Call::Dotted(f.bytes()?))),
    ("read", Of(4), |f| Ok(Call::Read(f.tag()?, f.req()?, f.seq()?))),
    ("write", Kind(4, WRITE_KINDS), |f| Ok(Call::Write(f.tag()?, f.req()?, f.seq()?, f.write_value()?))),
    ("wvalue", Kind(2, VALUE_KINDS), |f| Ok(Call::WritableValue(f.tag()?, f.write_value()?))),
    ("proc", Of(3), |f| Ok(Call::Processor(f.req()?, f.seq()?))),
    ("datalogreq", Of(2), |f| Ok(Call::DatalogRequest(f.byte()?))),
    ("sys0", Of(2), |f| Ok(Call::Sys0(f.bytes()?))),
    ("dirsizereq", Of(4), |f| Ok(Call::DirectorySizeRequest(f.bytes()?, f.req()?, f.seq()?))),
    ("dirreadreq", Of(6), |f| Ok(Call::DirectoryReadRequest(f.code()?, f.number()?, f.byte()?, f.req()?, f.seq()?))),
    ("dirsize", Of(3), |f| Ok(Call::DirectorySize(f.bytes()?, f.bytes()?))),
    ("dir", Of(4), |f| Ok(Call::DirectoryRows(f.number()?, f.number()?, f.bytes()?))),
    ("status", Of(2), |f| Ok(Call::Status(f.bytes()?))),
    ("errtext", Of(2), |f| Ok(Call::ErrorText(f.code()?))),
    ("datalogparse", Of(2), |f| Ok(Call::ParseDatalog(f.bytes()?))),
    ("reply", Of(3), |f| Ok(Call::Reply(f.tag()?, f.bytes()?))),
    ("ft", Of(2), |f| Ok(Call::FileType(f.code()?))),
    ("ftname", Of(2), |f| Ok(Call::FileTypeName(f.bytes()?))),
    ("simft", Of(2), |f| Ok(Call::SimFileType(f.code()?))),
    ("swap", Of(2), |f| Ok(Call::Swap(f.bytes()?))),
    ("pairs", Of(2), |f| Ok(Call::Pairs(f.bytes()?))),
    ("ascii", Of(2), |f| Ok(Call::Ascii(f.bytes()?))),
    ("string", Of(2), |f| Ok(Call::String(f.bytes()?))),
    ("enc", Kind(3, ELEMENT_KINDS), |f| Ok(Call::Encode(f.code()?, f.bytes()?, f.element_value()?))),
    ("dec", Of(3), |f| Ok(Call::Decode(f.code()?, f.bytes()?))),
    ("sim", Of(4), |f| Ok(Call::Sim(f.bytes()?, f.files()?, f.log()?))),
    ("fill", Of(3), |f| Ok(Call::Fill(f.number()?, f.bytes()?))),
    ("cmd", Of(2), |f| Ok(Call::Command(f.bytes()?))),
    ("msg", Of(2), |f| Ok(Call::Message(f.bytes()?))),
    ("get", Of(4), |f| Ok(Call::Get(f.code()?, f.number()?, f.number()?))),
    ("set", Kind(4, ELEMENT_KINDS), |f| Ok(Call::Set(f.code()?, f.number()?, f.number()?, f.element_value()?))),
    ("dump", Of(1), |_| Ok(Call::Dump)),
    ("hash", Of(1), |_| Ok(Call::Hash)),
    ("directory", Of(1), |_| Ok(Call::Directory)),
    ("spoil", Kind(1, SPOIL_KINDS), |f| f.spoil()),
    ("room", Rest(3), |f| Ok(Call::Room(f.number()?, Box::new(f.call("room")?)))),
    ("new", Rest(2), |f| f.call("new")),
];

/// The calls that are told the reading of their tag: those that `new` may stand before. `dotted` names its reading itself.
pub const TOLD: &[&str] = &["tag", "read", "write", "wvalue", "reply"];

/// The number of fields and the reader of a call, None for a word that is no call.
pub fn call(word: &[u8]) -> Option<&'static (&'static str, Count, Reader)> {
    CALLS.iter().find(|(name, ..)| name.as_bytes() == word)
}

/// The fields of a line.
pub fn split(line: &[u8]) -> Vec<&[u8]> {
    line.split(|&b| b == b' ').collect()
}

/// The call of a line, None for an empty line or a comment.
pub fn parse(line: &[u8]) -> Result<Option<Call>, Why> {
    if line.len() > LONGEST {
        return Err(Why::Line);
    }
    if line.is_empty() || line[0] == b'#' {
        return Ok(None);
    }
    parse_fields(&split(line), &[]).map(Some)
}

/// A line without `new` and `room ROOM`: which of them stand before its call, and the call's own fields, whatever their shapes.
pub struct Bare<'a> {
    pub new: bool,
    pub room: bool,
    pub fields: Vec<&'a [u8]>,
}

pub fn bare(line: &[u8]) -> Bare<'_> {
    let (mut new, mut room) = (false, false);
    let fields = split(line);
    let mut left = &fields[..];
    loop {
        left = match left {
            [b"new", rest @ ..] if !new && !rest.is_empty() => {
                new = true;
                rest
            }
            [b"room", _, rest @ ..] if !room && !rest.is_empty() => {
                room = true;
                rest
            }
            _ => break,
        };
    }
    let fields = left.to_vec();
    Bare { new, room, fields }
}

/// `before`: which of `new` and `room` stand before these fields. Each is taken once.
fn parse_fields(fields: &[&[u8]], before: &[&'static str]) -> Result<Call, Why> {
    let (name, count, read) = call(fields[0]).ok_or(Why::Call)?;
    let told = TOLD.contains(name) || matches!(count, Rest(_));
    if before.contains(name) || (before.contains(&"new") && !told) {
        return Err(Why::Call);
    }
    let expected = match *count {
        Of(n) => n,
        Kind(at, kinds) => {
            let kind = fields.get(at).ok_or(Why::Fields)?;
            let known = kinds.iter().find(|(name, _)| name.as_bytes() == *kind);
            at + 1 + known.ok_or(Why::Kind)?.1
        }
        Rest(least) => fields.len().max(least),
    };
    if fields.len() != expected {
        return Err(Why::Fields);
    }
    let left = &fields[1..];
    read(&mut Fields { left, before })
}

/// The fields that are still to be read; their number is already right.
pub struct Fields<'a> {
    left: &'a [&'a [u8]],
    before: &'a [&'static str],
}

impl<'a> Fields<'a> {
    fn next(&mut self) -> &'a [u8] {
        let (first, rest) = self.left.split_first().expect("the number of fields");
        self.left = rest;
        first
    }
    /// The call that stands behind this word and what belongs to it.
    fn call(&mut self, word: &'static str) -> Result<Call, Why> {
        parse_fields(self.left, &[self.before, &[word]].concat())
    }
    fn tag(&mut self) -> Result<Tag, Why> {
        let new = self.before.contains(&"new");
        let bytes = self.bytes()?;
        Ok(Tag { bytes, new })
    }
    fn bytes(&mut self) -> Result<Vec<u8>, Why> {
        match self.next() {
            b"" => Err(Why::Hex),
            b"-" => Ok(Vec::new()),
            digits => unhex(digits).ok_or(Why::Hex),
        }
    }
    /// Exactly N bytes, two digits each.
    fn exact<const N: usize>(&mut self) -> Result<[u8; N], Why> {
        exact(self.next())
    }
    fn code(&mut self) -> Result<u8, Why> {
        Ok(self.exact::<1>()?[0])
    }
    fn bits(&mut self) -> Result<u32, Why> {
        Ok(u32::from_be_bytes(self.exact()?))
    }
    fn req(&mut self) -> Result<Requestor, Why> {
        let [a, b, c, d, e, f] = self.exact()?;
        Ok(Requestor {
            vid: [a, b],
            vsn: [c, d, e, f],
        })
    }
    fn number(&mut self) -> Result<u64, Why> {
        unsigned(self.next()).ok_or(Why::Number)
    }
    /// A number that the type T holds.
    fn narrow<T: TryFrom<u64>>(&mut self) -> Result<T, Why> {
        T::try_from(self.number()?).map_err(|_| Why::Number)
    }
    fn seq(&mut self) -> Result<u16, Why> {
        self.narrow()
    }
    fn byte(&mut self) -> Result<u8, Why> {
        self.narrow()
    }
    fn signed(&mut self) -> Result<i64, Why> {
        signed(self.next()).ok_or(Why::Number)
    }
    fn flag(&mut self) -> Result<bool, Why> {
        match self.number()? {
            0 => Ok(false),
            1 => Ok(true),
            _ => Err(Why::Number),
        }
    }
    fn words(&mut self) -> Result<[i64; 3], Why> {
        let words: Option<Vec<i64>> = self.next().split(|&b| b == b',').map(signed).collect();
        words.and_then(|w| w.try_into().ok()).ok_or(Why::Number)
    }
    fn write_value(&mut self) -> Result<WriteValue, Why> {
        Ok(match self.next() {
            b"raw" => WriteValue::Raw(self.bytes()?),
            b"bool" => WriteValue::Bool(self.flag()?),
            b"text" => WriteValue::Text(self.bytes()?),
            b"word" => WriteValue::Word(self.signed()?),
            b"long" => WriteValue::Long(self.signed()?),
            b"float" => WriteValue::Float(self.bits()?),
            _ => return Err(Why::Kind),
        })
    }
    fn element_value(&mut self) -> Result<ElementValue, Why> {
        Ok(match self.next() {
            b"int" => ElementValue::Int(self.signed()?),
            b"float" => ElementValue::Float(self.bits()?),
            b"text" => ElementValue::Text(self.bytes()?),
            b"words" => ElementValue::Words(self.words()?),
            b"field" => ElementValue::Field(self.bytes()?, self.signed()?),
            _ => return Err(Why::Kind),
        })
    }
    /// A number; or numbers with a code among them or behind.
    fn spoil(&mut self) -> Result<Call, Why> {
        let (before, behind) = match self.next() {
            b"record" => (2, 2),
            b"text" | b"log" => (1, 0),
            _ => return self.number().map(|_| Call::Spoil),
        };
        for _ in 0..before {
            self.number()?;
        }
        self.code()?;
        for _ in 0..behind {
            self.number()?;
        }
        Ok(Call::Spoil)
    }
    /// `-`, or CODE:number:elements joined by `,`. A missing part is an empty one.
    fn files(&mut self) -> Result<Vec<File>, Why> {
        let text = self.next();
        if text == b"-" {
            return Ok(Vec::new());
        }
        text.split(|&b| b == b',')
            .map(|file| {
                let mut parts = file.splitn(3, |&b| b == b':');
                let [code] = exact(parts.next().unwrap_or_default())?;
                let mut number = || unsigned(parts.next().unwrap_or_default()).ok_or(Why::Number);
                Ok(File {
                    code,
                    number: number()?,
                    elements: number()?,
                })
            })
            .collect()
    }
    /// `-`, or entries joined by `,`, each `.` (empty) or hexadecimal digits.
    fn log(&mut self) -> Result<Vec<Vec<u8>>, Why> {
        let text = self.next();
        if text == b"-" {
            return Ok(Vec::new());
        }
        text.split(|&b| b == b',')
            .map(|entry| match entry {
                b"" => Err(Why::Hex),
                b"." => Ok(Vec::new()),
                digits => unhex(digits).ok_or(Why::Hex),
            })
            .collect()
    }
}

fn exact<const N: usize>(digits: &[u8]) -> Result<[u8; N], Why> {
    unhex(digits)
        .and_then(|b| b.try_into().ok())
        .ok_or(Why::Hex)
}

fn unsigned(text: &[u8]) -> Option<u64> {
    if text.is_empty() {
        return None;
    }
    text.iter().try_fold(0u64, |n, &c| {
        let digit = char::from(c).to_digit(10)?;
        n.checked_mul(10)?.checked_add(u64::from(digit))
    })
}

fn signed(text: &[u8]) -> Option<i64> {
    match text.strip_prefix(b"-") {
        Some(digits) => 0i64.checked_sub_unsigned(unsigned(digits)?),
        None => i64::try_from(unsigned(text)?).ok(),
    }
}

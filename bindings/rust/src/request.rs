use crate::{sys, FileType, Refused};

/// How a tag is read. The two differ in the separator before the name of a timer's or counter's field or bit alone.
///
/// ```
/// use slc_link::{parse_tag, Reading, Refused};
///
/// // the digit 3 is the separator
/// assert_eq!(parse_tag("T4:123PRE", Reading::Stored)?.element_number, 12);
/// assert_eq!(parse_tag("T4:123PRE", Reading::New), Err(Refused::Separator));
/// assert_eq!(parse_tag("T4:12.PRE", Reading::New)?, parse_tag("T4:12.PRE", Reading::Stored)?);
/// # Ok::<(), Refused>(())
/// ```
#[derive(Clone, Copy, Debug, PartialEq, Eq, Hash)]
pub enum Reading {
    /// A new entry: the separator is a full stop or a slash, and a spelling that only a stored list may have is refused with 39.
    New,
    /// One of a stored list: the separator is any character but a newline.
    Stored,
}

/// The address that a tag spells.
#[derive(Clone, Copy, Debug, PartialEq, Eq, Hash)]
pub struct Address {
    /// The type of the file.
    pub file_type: FileType,
    /// The file's number.
    pub file_number: u16,
    /// The element's number.
    pub element_number: u16,
    /// The position; only I and O have one.
    pub position: Option<u16>,
    /// The bit, or what the name of a field stands for: PRE 1, ACC 2, else a bit. On I and O it is 0 where no bit is named.
    pub sub_element: Option<u16>,
    /// Whether the tag names a bit, or a field of T or C.
    pub bit: bool,
    /// The count.
    pub element_count: u64,
    /// How many bytes of the tag are kept: those before `{`, or all of C, of T, and of S with a bit.
    pub kept: usize,
}

/// A request: the address that it is for, and the message, which stands in the output.
#[derive(Clone, Copy, Debug, PartialEq, Eq, Hash)]
pub struct Request<'o> {
    /// The address.
    pub address: Address,
    /// The message.
    pub message: &'o [u8],
}

/// Who asks: two vendor bytes and four serial bytes, as sent.
#[derive(Clone, Copy, Debug, PartialEq, Eq, Hash)]
pub struct Requestor {
    /// The vendor bytes.
    pub vid: [u8; 2],
    /// The serial bytes.
    pub vsn: [u8; 4],
}

/// What a request writes.
#[derive(Clone, Copy, Debug, PartialEq, Eq, Hash)]
#[non_exhaustive]
pub enum WriteValue<'a> {
    /// A mask word and the data, as they are.
    Raw(&'a [u8]),
    /// A bit.
    Bool(bool),
    /// Latin-1 text, for A and ST.
    Text(&'a [u8]),
}

impl Reading {
    fn c(self) -> u8 {
        match self {
            Reading::New => sys::SLC_READING_NEW,
            Reading::Stored => sys::SLC_READING_STORED,
        }
    }
}

impl Address {
    fn of(found: sys::slc_address) -> Result<Address, Refused> {
        Refused::test(found.refused)?;
        Ok(Address {
            file_type: FileType::from_code(found.code).expect("an address has one of the fifteen types"),
            file_number: found.file_number,
            element_number: found.element_number,
            position: (found.has_position != 0).then_some(found.position),
            sub_element: (found.has_sub_element != 0).then_some(found.sub_element),
            bit: found.bit != 0,
            element_count: found.element_count,
            kept: found.kept,
        })
    }
}

impl Requestor {
    pub(crate) fn c(self) -> sys::slc_requestor {
        sys::slc_requestor { vid: self.vid, vsn: self.vsn }
    }
}

/// The default requester, 09 10 and 09 10 19 71.
impl Default for Requestor {
    fn default() -> Requestor {
        let q = unsafe { sys::slc_default_requestor() };
        Requestor { vid: q.vid, vsn: q.vsn }
    }
}

fn request(built: sys::slc_request, out: &[u8]) -> Result<Request<'_>, Refused> {
    Ok(Request { address: Address::of(built.address)?, message: &out[..built.length] })
}

/// The address that a tag spells, in one of the two readings. The tag is UTF-8, as text or as bytes. Where a file letter is read, a dotless ı is an I
/// and a long ſ an S; the separator of a timer or counter address is one character that isn't a newline, in a new entry a full stop or a slash.
/// Refused: 1, 2, 39.
///
/// ```
/// use slc_link::{parse_tag, FileType, Reading, Refused};
///
/// let address = parse_tag("ı:0", Reading::New)?;
/// assert_eq!((address.file_type, address.kept), (FileType::I, 4));
/// assert_eq!(parse_tag("T4:1éPRE".as_bytes(), Reading::Stored)?.sub_element, Some(1));
/// assert_eq!(parse_tag(b"T4:1\xE9PRE", Reading::Stored), Err(Refused::TagBytes));
/// # Ok::<(), Refused>(())
/// ```
pub fn parse_tag(tag: impl AsRef<[u8]>, reading: Reading) -> Result<Address, Refused> {
    let tag = tag.as_ref();
    Address::of(unsafe { sys::slc_parse_tag(tag.as_ptr(), tag.len(), reading.c()) })
}

/// The text of a tag of a stored list with a timer's or counter's separator replaced by a full stop; any other tag as it is, with its count. The text
/// is accepted as a new entry and names the same address; only `kept` may be less, where the separator had several bytes. `out` needs 255 bytes, however short the text is. Refused: 1, 2, 6.
///
/// ```
/// use slc_link::{dotted, Refused, DOTTED_ROOM};
///
/// let mut out = [0; DOTTED_ROOM];
/// assert_eq!(dotted("T4:123PRE", &mut out)?, "T4:12.PRE");
/// assert_eq!(dotted("N7:0{2}", &mut out)?, "N7:0{2}");
/// # Ok::<(), Refused>(())
/// ```
pub fn dotted<'o>(tag: impl AsRef<[u8]>, out: &'o mut [u8]) -> Result<&'o str, Refused> {
    let tag = tag.as_ref();
    let text = unsafe { sys::slc_dotted(tag.as_ptr(), tag.len(), out.as_mut_ptr(), out.len()) }.of(out)?;
    Ok(std::str::from_utf8(text).expect("an accepted tag is UTF-8"))
}

/// The message that reads what a tag names, which is UTF-8, as text or as bytes; `out` needs 27 bytes. Refused: 1, 2, 39, 3, 5, 6.
pub fn read_request<'o>(
    tag: impl AsRef<[u8]>,
    reading: Reading,
    q: Requestor,
    sequence: u16,
    out: &'o mut [u8],
) -> Result<Request<'o>, Refused> {
    let tag = tag.as_ref();
    let built = unsafe { sys::slc_read_request(tag.as_ptr(), tag.len(), reading.c(), q.c(), sequence, out.as_mut_ptr(), out.len()) };
    request(built, out)
}

/// The message that writes to what a tag names, which is UTF-8, as text or as bytes; `out` needs 284 bytes. Refused: 1, 2, 39, 3 to 6.
pub fn write_request<'o>(
    tag: impl AsRef<[u8]>,
    reading: Reading,
    value: WriteValue,
    q: Requestor,
    sequence: u16,
    out: &'o mut [u8],
) -> Result<Request<'o>, Refused> {
    let tag = tag.as_ref();
    let (kind, bytes): (u8, &[u8]) = match value {
        WriteValue::Raw(bytes) => (sys::SLC_RAW, bytes),
        WriteValue::Bool(false) => (sys::SLC_FALSE, &[]),
        WriteValue::Bool(true) => (sys::SLC_TRUE, &[]),
        WriteValue::Text(text) => (sys::SLC_LATIN1, text),
    };
    let built = unsafe {
        sys::slc_write_request(
            tag.as_ptr(),
            tag.len(),
            reading.c(),
            kind,
            bytes.as_ptr(),
            bytes.len(),
            q.c(),
            sequence,
            out.as_mut_ptr(),
            out.len(),
        )
    };
    request(built, out)
}

/// The message that asks for the processor's type; `out` needs 27 bytes. Refused: 6.
pub fn processor_type_request(q: Requestor, sequence: u16, out: &mut [u8]) -> Result<&[u8], Refused> {
    unsafe { sys::slc_processor_type_request(q.c(), sequence, out.as_mut_ptr(), out.len()) }.of(out)
}

/// The message that asks for the oldest entry of a datalog queue; `out` needs 27 bytes. Refused: 6.
pub fn datalog_request(queue: u8, out: &mut [u8]) -> Result<&[u8], Refused> {
    unsafe { sys::slc_datalog_request(queue, out.as_mut_ptr(), out.len()) }.of(out)
}

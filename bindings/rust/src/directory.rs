use crate::{sys, FileType, Refused, Requestor};

/// Where a processor keeps its file directory.
#[derive(Clone, Copy, Debug, PartialEq, Eq, Hash)]
pub struct Sys0Info {
    /// Place of the first row.
    pub file_position: usize,
    /// Bytes of a row.
    pub row_size: usize,
    /// Type code that reads the directory.
    pub file_type: u8,
    /// Element that holds the directory's size.
    pub size_element: u8,
    /// How many bytes are asked of that element.
    pub size_len: u8,
    /// What the processor adds to the size.
    pub size_const: u16,
}

/// A file of a directory.
#[repr(C)]
#[derive(Clone, Copy, Debug, Default, PartialEq, Eq, Hash)]
pub struct ListedFile {
    /// The type code, one of the fifteen.
    pub code: u32,
    /// The file's number.
    pub number: u32,
    /// How many elements it has.
    pub elements: u32,
    /// How many bytes it has.
    pub length: u32,
}

// a ListedFile is lent to C as the four numbers that it is
const _: () = assert!(size_of::<ListedFile>() == size_of::<[u32; 4]>() && align_of::<ListedFile>() == align_of::<[u32; 4]>());

impl ListedFile {
    /// The type; `None` where the code is none of the fifteen.
    pub fn file_type(&self) -> Option<FileType> {
        FileType::from_code(u8::try_from(self.code).ok()?)
    }
}

impl Sys0Info {
    fn c(self) -> sys::slc_sys0 {
        let Sys0Info { file_position, row_size, file_type, size_element, size_len, size_const } = self;
        sys::slc_sys0 { file_position, row_size, file_type, size_element, size_len, size_const }
    }
}

/// Where a processor keeps its directory, by its type text.
pub fn sys0_info(plc_type: &[u8]) -> Sys0Info {
    let sys::slc_sys0 { file_position, row_size, file_type, size_element, size_len, size_const } =
        unsafe { sys::slc_sys0_info(plc_type.as_ptr(), plc_type.len()) };
    Sys0Info { file_position, row_size, file_type, size_element, size_len, size_const }
}

/// The message that asks for the directory's size; `out` needs 27 bytes. Refused: 6.
pub fn file_directory_size_request(info: Sys0Info, q: Requestor, sequence: u16, out: &mut [u8]) -> Result<&[u8], Refused> {
    unsafe { sys::slc_file_directory_size_request(info.c(), q.c(), sequence, out.as_mut_ptr(), out.len()) }.of(out)
}

/// The message that reads `size` bytes of the directory from an offset on; `out` needs 27 bytes. Refused: 26, 6.
pub fn file_directory_read_request(
    file_type: u8,
    offset: usize,
    size: u8,
    q: Requestor,
    sequence: u16,
    out: &mut [u8],
) -> Result<&[u8], Refused> {
    unsafe { sys::slc_file_directory_read_request(file_type, offset, size, q.c(), sequence, out.as_mut_ptr(), out.len()) }.of(out)
}

fn size(found: sys::slc_directory_size) -> Result<i32, Refused> {
    Refused::test(found.refused)?;
    Ok(found.bytes)
}

/// The directory's size in a reply that begins with the requester's id, as [`Processor::pccc`](crate::Processor::pccc) gives it, less what the
/// processor adds; it may be negative. Refused: 25, where the reply has less than two bytes of data.
pub fn reply_directory_size(reply: &[u8], info: Sys0Info) -> Result<i32, Refused> {
    size(unsafe { sys::slc_reply_directory_size(reply.as_ptr(), reply.len(), info.c()) })
}

/// As [`reply_directory_size`], of a connected reply with its encapsulation, whose id has 7 bytes: its PCCC begins at byte 50 of `raw`. Refused:
/// 25, where that has less than 63 bytes.
pub fn parse_file_directory_size(raw: &[u8], info: Sys0Info) -> Result<i32, Refused> {
    size(unsafe { sys::slc_parse_file_directory_size(raw.as_ptr(), raw.len(), info.c()) })
}

/// The files of a directory's rows, which stand in the output. Refused: 7 to 10.
pub fn parse_file_directory<'o>(
    file_position: usize,
    row_size: usize,
    bytes: &[u8],
    out: &'o mut [ListedFile],
) -> Result<&'o [ListedFile], Refused> {
    let rows = out.as_mut_ptr().cast::<[u32; 4]>();
    unsafe { sys::slc_parse_file_directory(file_position, row_size, bytes.as_ptr(), bytes.len(), rows, out.len()) }.of(out)
}

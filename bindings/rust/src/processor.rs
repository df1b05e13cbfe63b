use crate::{sys, Element, FileType, Refused, Value};

const MOST_FILES: usize = 256;
const MOST_DATA: usize = 65_535;

/// A file that a processor is to have.
#[derive(Clone, Copy, Debug, PartialEq, Eq, Hash)]
pub struct File {
    /// The number, at most 255.
    pub number: u32,
    /// The type, one of the simulated processor's twelve.
    pub file_type: FileType,
    /// How many elements it has.
    pub elements: u32,
}

/// A file that a processor has.
#[derive(Clone, Copy, Debug, PartialEq, Eq, Hash)]
pub struct FileRecord {
    /// The number.
    pub number: u8,
    /// The type.
    pub file_type: FileType,
    /// Where its bytes begin in the data.
    pub start: usize,
    /// How many bytes it has.
    pub length: usize,
}

/// An element of a processor.
#[derive(Clone, Copy, Debug, PartialEq, Eq, Hash)]
pub struct Spot {
    /// The file's number.
    pub number: u16,
    /// The file's type.
    pub file_type: FileType,
    /// The element's index.
    pub element: usize,
}

/// The simulated processor, with its file records, its data and its datalog. It stays sound (question 16), since only the library changes it.
#[derive(Clone, Debug)]
pub struct Processor {
    slc: sys::slc_processor,
    table: Vec<sys::slc_file_record>,
    memory: Vec<u8>,
    log: Vec<u8>,
}

/// The entries end to end, each behind its length word. One above 65,535 bytes, which has none, is refused as any above 255 is.
fn end_to_end(datalog: &[&[u8]]) -> Vec<u8> {
    let mut log = Vec::new();
    for entry in datalog {
        let length = u16::try_from(entry.len()).unwrap_or(u16::MAX);
        log.extend(length.to_le_bytes());
        log.extend(&entry[..usize::from(length)]);
    }
    log
}

impl Processor {
    /// A processor of these files, of this type text and of these datalog entries, the oldest first. No files: the default ones. The data is
    /// zeros. Refused: 11 to 15.
    pub fn new(files: &[File], type_text: &[u8], datalog: &[&[u8]]) -> Result<Processor, Refused> {
        let files: Vec<[u32; 3]> = files.iter().map(|f| [f.number, u32::from(f.file_type.code()), f.elements]).collect();
        let log = end_to_end(datalog);
        let mut table = vec![sys::slc_file_record { number: 0, code: 0, start: 0, length: 0 }; MOST_FILES];
        let mut memory = vec![0; MOST_DATA];
        let built = unsafe {
            sys::slc_new(
                table.as_mut_ptr(),
                table.len(),
                memory.as_mut_ptr(),
                memory.len(),
                log.as_ptr(),
                log.len(),
                datalog.len(),
                files.as_ptr(),
                files.len(),
                type_text.as_ptr(),
                type_text.len(),
            )
        };
        Refused::test(built.refused)?;
        table.truncate(built.slc.files);
        memory.truncate(table.last().map_or(0, |f| usize::from(f.start) + usize::from(f.length)));
        table.shrink_to_fit();
        memory.shrink_to_fit();
        Ok(Processor { slc: built.slc, table, memory, log })
    }

    /// The reply to a command, from the requester's id on, which stands in `reply`; that needs 514 bytes. A command that the processor can't
    /// do has a reply too, which says so. Refused: 17, 18.
    pub fn pccc<'r>(&mut self, command: &[u8], reply: &'r mut [u8]) -> Result<&'r [u8], Refused> {
        let done = unsafe {
            sys::slc_pccc(
                self.slc,
                self.table.as_ptr(),
                self.table.len(),
                self.memory.as_mut_ptr(),
                self.memory.len(),
                self.log.as_ptr(),
                self.log.len(),
                command.as_ptr(),
                command.len(),
                reply.as_mut_ptr(),
                reply.len(),
            )
        };
        Refused::test(done.refused)?;
        self.slc = done.slc;
        Ok(&reply[..done.length])
    }

    /// Reads an element; for text, `text` needs 82 bytes. Refused: 19, 24.
    pub fn read<'t>(&self, at: Spot, text: &'t mut [u8]) -> Result<Element<'t>, Refused> {
        let at = sys::slc_spot { number: at.number, code: at.file_type.code(), element: at.element };
        let read = unsafe {
            sys::slc_read(
                self.slc,
                self.table.as_ptr(),
                self.table.len(),
                self.memory.as_ptr(),
                self.memory.len(),
                self.log.as_ptr(),
                self.log.len(),
                at,
                text.as_mut_ptr(),
                text.len(),
            )
        };
        Element::of(read, text)
    }

    /// Sets an element. Refused: 19 to 23.
    pub fn set(&mut self, at: Spot, value: Value) -> Result<(), Refused> {
        let (value, text) = value.parts();
        let to = sys::slc_setting { number: at.number, code: at.file_type.code(), element: at.element, value };
        let refused = unsafe {
            sys::slc_set(
                self.slc,
                self.table.as_ptr(),
                self.table.len(),
                self.memory.as_mut_ptr(),
                self.memory.len(),
                self.log.as_ptr(),
                self.log.len(),
                to,
                text.as_ptr(),
                text.len(),
            )
        };
        Refused::test(refused)
    }

    /// Its files, by their numbers.
    pub fn files(&self) -> impl Iterator<Item = FileRecord> + '_ {
        self.table.iter().map(|f| FileRecord {
            number: f.number as u8,
            file_type: FileType::from_code(f.code).expect("a file has one of the twelve types"),
            start: usize::from(f.start),
            length: usize::from(f.length),
        })
    }

    /// The bytes of all files, end to end.
    pub fn data(&self) -> &[u8] {
        &self.memory
    }

    /// How many datalog entries are left.
    pub fn datalog_left(&self) -> usize {
        self.slc.log_left
    }
}

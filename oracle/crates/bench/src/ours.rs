//! The proved calls on buffers that are made once: an output of 284 bytes, a reply of 514, 256 records, 65,535 bytes of data. A reading is a number,
//! `SLC_READING_NEW` or `SLC_READING_STORED`.
use slc_link::sys::*;

type Pccc = unsafe extern "C" fn(
    slc_processor,
    *const slc_file_record,
    usize,
    *mut u8,
    usize,
    *const u8,
    usize,
    *const u8,
    usize,
    *mut u8,
    usize,
) -> slc_done;

unsafe extern "C" {
    /// by_hand.c, which the header's own declaration of `slc_pccc` is for too.
    fn by_hand_pccc(
        slc: slc_processor,
        table: *const slc_file_record,
        table_len: usize,
        memory: *mut u8,
        memory_len: usize,
        log: *const u8,
        log_len: usize,
        command: *const u8,
        command_len: usize,
        reply: *mut u8,
        reply_len: usize,
    ) -> slc_done;
}

pub fn parse_tag(tag: &str, reading: u8) -> slc_address {
    unsafe { slc_parse_tag(tag.as_ptr(), tag.len(), reading) }
}

pub fn dotted(tag: &str, out: &mut [u8]) -> slc_written {
    unsafe { slc_dotted(tag.as_ptr(), tag.len(), out.as_mut_ptr(), out.len()) }
}

pub fn read_request(tag: &str, reading: u8, sequence: u16, out: &mut [u8]) -> slc_request {
    unsafe { slc_read_request(tag.as_ptr(), tag.len(), reading, slc_default_requestor(), sequence, out.as_mut_ptr(), out.len()) }
}

pub fn write_request(tag: &str, kind: u8, bytes: &[u8], sequence: u16, out: &mut [u8]) -> slc_request {
    unsafe {
        slc_write_request(
            tag.as_ptr(),
            tag.len(),
            SLC_READING_STORED,
            kind,
            bytes.as_ptr(),
            bytes.len(),
            slc_default_requestor(),
            sequence,
            out.as_mut_ptr(),
            out.len(),
        )
    }
}

pub fn parse_file_directory(first: usize, row: usize, bytes: &[u8], out: &mut [[u32; 4]]) -> slc_written {
    unsafe { slc_parse_file_directory(first, row, bytes.as_ptr(), bytes.len(), out.as_mut_ptr(), out.len()) }
}

/// A processor with its lent memories.
pub struct Processor {
    slc: slc_processor,
    table: Vec<slc_file_record>,
    memory: Vec<u8>,
    pub reply: [u8; 514],
}

impl Processor {
    /// No files: document 01's default ones.
    pub fn new(files: &[[u32; 3]], text: &str) -> Processor {
        let mut table = vec![slc_file_record { number: 0, code: 0, start: 0, length: 0 }; 256];
        let mut memory = vec![0u8; 65535];
        let log: [u8; 0] = [];
        let built = unsafe {
            slc_new(
                table.as_mut_ptr(),
                table.len(),
                memory.as_mut_ptr(),
                memory.len(),
                log.as_ptr(),
                0,
                0,
                files.as_ptr(),
                files.len(),
                text.as_ptr(),
                text.len(),
            )
        };
        assert_eq!(built.refused, 0, "the processor is built");
        Processor { slc: built.slc, table, memory, reply: [0; 514] }
    }

    pub fn pccc(&mut self, command: &[u8]) -> usize {
        self.ask(slc_pccc, command)
    }

    pub fn by_hand(&mut self, command: &[u8]) -> usize {
        self.ask(by_hand_pccc, command)
    }

    #[inline(always)]
    fn ask(&mut self, pccc: Pccc, command: &[u8]) -> usize {
        let log: [u8; 0] = [];
        let done = unsafe {
            pccc(
                self.slc,
                self.table.as_ptr(),
                self.table.len(),
                self.memory.as_mut_ptr(),
                self.memory.len(),
                log.as_ptr(),
                0,
                command.as_ptr(),
                command.len(),
                self.reply.as_mut_ptr(),
                self.reply.len(),
            )
        };
        self.slc = done.slc;
        assert_eq!(done.refused, 0, "the command is answered");
        done.length
    }
}

//! The C interface as it is, `include/slc_link.h`, which says what each call does and what a caller must keep to.
//! `bindings/test-header` compares the declarations with the header and with the library.
#![allow(non_camel_case_types, missing_docs)]

#[repr(C)]
#[derive(Clone, Copy, Debug)]
pub struct slc_file_type {
    pub known: u8,
    pub code: u8,
    pub element_size: u8,
    pub simulated: u8,
    pub bits: u8,
    pub name_len: u8,
    pub name: [u8; 3],
}

#[repr(C)]
#[derive(Clone, Copy, Debug)]
pub struct slc_name {
    pub len: u8,
    pub text: [u8; 3],
}

#[repr(C)]
#[derive(Clone, Copy, Debug)]
pub struct slc_field {
    pub kind: u8,
    pub index: u8,
}

#[repr(C)]
#[derive(Clone, Copy, Debug)]
pub struct slc_written {
    pub refused: u8,
    pub length: usize,
}

pub const SLC_WHOLE: u8 = 0;
pub const SLC_FLOAT: u8 = 1;
pub const SLC_TEXT: u8 = 2;
pub const SLC_WORDS: u8 = 3;
pub const SLC_FIELD: u8 = 4;

#[repr(C)]
#[derive(Clone, Copy, Debug)]
pub struct slc_value {
    pub kind: u8,
    pub a: i64,
    pub b: i64,
    pub c: i64,
}

#[repr(C)]
#[derive(Clone, Copy, Debug)]
pub struct slc_element {
    pub refused: u8,
    pub kind: u8,
    pub whole: i32,
    pub bits: u32,
    pub length: usize,
    pub word1: i16,
    pub word2: i16,
    pub status: u16,
}

pub const SLC_READING_NEW: u8 = 0;
pub const SLC_READING_STORED: u8 = 1;

#[repr(C)]
#[derive(Clone, Copy, Debug)]
pub struct slc_address {
    pub refused: u8,
    pub code: u8,
    pub file_number: u16,
    pub element_number: u16,
    pub has_position: u8,
    pub position: u16,
    pub has_sub_element: u8,
    pub sub_element: u16,
    pub bit: u8,
    pub element_count: u64,
    pub kept: usize,
}

#[repr(C)]
#[derive(Clone, Copy, Debug)]
pub struct slc_requestor {
    pub vid: [u8; 2],
    pub vsn: [u8; 4],
}

#[repr(C)]
#[derive(Clone, Copy, Debug)]
pub struct slc_request {
    pub address: slc_address,
    pub length: usize,
}

pub const SLC_RAW: u8 = 0;
pub const SLC_FALSE: u8 = 1;
pub const SLC_TRUE: u8 = 2;
pub const SLC_LATIN1: u8 = 3;

#[repr(C)]
#[derive(Clone, Copy, Debug)]
pub struct slc_part {
    pub from: usize,
    pub length: usize,
}

#[repr(C)]
#[derive(Clone, Copy, Debug)]
pub struct slc_sys0 {
    pub file_position: usize,
    pub row_size: usize,
    pub file_type: u8,
    pub size_element: u8,
    pub size_len: u8,
    pub size_const: u16,
}

#[repr(C)]
#[derive(Clone, Copy, Debug)]
pub struct slc_directory_size {
    pub refused: u8,
    pub bytes: i32,
}

#[repr(C)]
#[derive(Clone, Copy, Debug)]
pub struct slc_file_record {
    pub number: u16,
    pub code: u8,
    pub start: u16,
    pub length: u16,
}

#[repr(C)]
#[derive(Clone, Copy, Debug)]
pub struct slc_processor {
    pub files: usize,
    pub type_text: [u8; 11],
    pub type_len: usize,
    pub log_at: usize,
    pub log_left: usize,
}

#[repr(C)]
#[derive(Clone, Copy, Debug)]
pub struct slc_built {
    pub slc: slc_processor,
    pub refused: u8,
}

#[repr(C)]
#[derive(Clone, Copy, Debug)]
pub struct slc_done {
    pub slc: slc_processor,
    pub refused: u8,
    pub length: usize,
}

#[repr(C)]
#[derive(Clone, Copy, Debug)]
pub struct slc_spot {
    pub number: u16,
    pub code: u8,
    pub element: usize,
}

#[repr(C)]
#[derive(Clone, Copy, Debug)]
pub struct slc_setting {
    pub number: u16,
    pub code: u8,
    pub element: usize,
    pub value: slc_value,
}

#[repr(C)]
#[derive(Clone, Copy, Debug)]
pub struct slc_line {
    pub bytes: [u8; 256],
    pub kept: usize,
}

#[repr(C)]
#[derive(Clone, Copy, Debug)]
pub struct slc_fed {
    pub line: slc_line,
    pub taken: usize,
    pub used: usize,
}

extern "C" {
    pub fn slc_type_of_code(code: u8) -> slc_file_type;
    pub fn slc_type_of_name(name: *const u8, name_len: usize) -> slc_file_type;
    pub fn slc_bit_name(code: u8, i: usize) -> slc_name;
    pub fn slc_word_name(code: u8, i: usize) -> slc_name;
    pub fn slc_field_of(code: u8, name: *const u8, name_len: usize) -> slc_field;
    pub fn slc_string_swap(bytes: *const u8, bytes_len: usize, out: *mut u8, out_len: usize) -> slc_written;
    pub fn slc_swap_pairs(bytes: *mut u8, bytes_len: usize);
    pub fn slc_encode_ascii(text: *const u8, text_len: usize, out: *mut u8, out_len: usize) -> slc_written;
    pub fn slc_encode_string(text: *const u8, text_len: usize, out: *mut u8, out_len: usize) -> slc_written;
    pub fn slc_encode_element(code: u8, value: slc_value, text: *const u8, text_len: usize, element: *mut u8, element_len: usize) -> u8;
    pub fn slc_decode_element(code: u8, element: *const u8, element_len: usize, text: *mut u8, text_len: usize) -> slc_element;
    pub fn slc_parse_tag(tag: *const u8, tag_len: usize, reading: u8) -> slc_address;
    pub fn slc_dotted(tag: *const u8, tag_len: usize, out: *mut u8, out_len: usize) -> slc_written;
    pub fn slc_default_requestor() -> slc_requestor;
    pub fn slc_read_request(
        tag: *const u8,
        tag_len: usize,
        reading: u8,
        q: slc_requestor,
        sequence: u16,
        out: *mut u8,
        out_len: usize,
    ) -> slc_request;
    pub fn slc_write_request(
        tag: *const u8,
        tag_len: usize,
        reading: u8,
        kind: u8,
        bytes: *const u8,
        bytes_len: usize,
        q: slc_requestor,
        sequence: u16,
        out: *mut u8,
        out_len: usize,
    ) -> slc_request;
    pub fn slc_processor_type_request(q: slc_requestor, sequence: u16, out: *mut u8, out_len: usize) -> slc_written;
    pub fn slc_datalog_request(queue: u8, out: *mut u8, out_len: usize) -> slc_written;
    pub fn slc_request_status(raw: *const u8, raw_len: usize, out: *mut u8, out_len: usize) -> slc_written;
    pub fn slc_reply_status(reply: *const u8, reply_len: usize, out: *mut u8, out_len: usize) -> slc_written;
    pub fn slc_error_text(status: u8, out: *mut u8, out_len: usize) -> slc_written;
    pub fn slc_parse_datalog(raw: *const u8, raw_len: usize) -> slc_part;
    pub fn slc_reply_datalog(reply: *const u8, reply_len: usize) -> slc_part;
    pub fn slc_question(number: u8, out: *mut u8, out_len: usize) -> slc_written;
    pub fn slc_sys0_info(plc_type: *const u8, plc_type_len: usize) -> slc_sys0;
    pub fn slc_file_directory_size_request(info: slc_sys0, q: slc_requestor, sequence: u16, out: *mut u8, out_len: usize) -> slc_written;
    pub fn slc_file_directory_read_request(
        file_type: u8,
        offset: usize,
        size: u8,
        q: slc_requestor,
        sequence: u16,
        out: *mut u8,
        out_len: usize,
    ) -> slc_written;
    pub fn slc_parse_file_directory_size(raw: *const u8, raw_len: usize, info: slc_sys0) -> slc_directory_size;
    pub fn slc_reply_directory_size(reply: *const u8, reply_len: usize, info: slc_sys0) -> slc_directory_size;
    pub fn slc_parse_file_directory(
        file_position: usize,
        row_size: usize,
        bytes: *const u8,
        bytes_len: usize,
        out: *mut [u32; 4],
        out_len: usize,
    ) -> slc_written;
    pub fn slc_new(
        table: *mut slc_file_record,
        table_len: usize,
        memory: *mut u8,
        memory_len: usize,
        log: *const u8,
        log_len: usize,
        count: usize,
        files: *const [u32; 3],
        files_len: usize,
        text: *const u8,
        text_len: usize,
    ) -> slc_built;
    pub fn slc_pccc(
        slc: slc_processor,
        table: *const slc_file_record,
        table_len: usize,
        memory: *mut u8,
        memory_len: usize,
        log: *const u8,
        log_len: usize,
        command: *const u8,
        command_len: usize,
        reply: *mut u8,
        reply_len: usize,
    ) -> slc_done;
    pub fn slc_read(
        slc: slc_processor,
        table: *const slc_file_record,
        table_len: usize,
        memory: *const u8,
        memory_len: usize,
        log: *const u8,
        log_len: usize,
        at: slc_spot,
        text: *mut u8,
        text_len: usize,
    ) -> slc_element;
    pub fn slc_set(
        slc: slc_processor,
        table: *const slc_file_record,
        table_len: usize,
        memory: *mut u8,
        memory_len: usize,
        log: *const u8,
        log_len: usize,
        to: slc_setting,
        text: *const u8,
        text_len: usize,
    ) -> u8;
    pub fn slc_line_empty() -> slc_line;
    pub fn slc_tags_feed(line: slc_line, piece: *const u8, piece_len: usize, out: *mut u8, out_len: usize) -> slc_fed;
    pub fn slc_tags_finish(line: slc_line, out: *mut u8, out_len: usize) -> usize;
}

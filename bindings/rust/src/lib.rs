//! The SLC planner link: addresses, requests, replies, the file directory and a simulated processor for the data files of SLC 500 and
//! MicroLogix processors over PCCC.
//!
//! Every call is a proved function of the library `libslc_link.a`; this package lends it slices and turns its answers into enums. A call that
//! the library refuses is an [`Err`] with the question that was answered with no ([`Refused`]); it changes no lent byte. Output
//! goes to slices that the caller lends, and what was written is handed back as a part of them. Nothing is allocated but by
//! [`Processor::new`] and by cloning a [`Processor`]. A tag is UTF-8, as text or as bytes, and a call is told how it is read ([`Reading`]); names and
//! all other texts are Latin-1 bytes.
//!
//! ```
//! use slc_link::{read_request, FileType, Processor, Reading, Refused, Requestor, Spot, Value, COMMAND_AT, DATA_AT, REPLY_ROOM, REQUEST_ROOM};
//!
//! // the message that reads N7:0; its PCCC command begins behind the six bytes of service and path
//! let mut out = [0; REQUEST_ROOM];
//! let request = read_request("N7:0", Reading::New, Requestor::default(), 0x1234, &mut out)?;
//! assert_eq!(request.address.file_type, FileType::N);
//! let command = &request.message[COMMAND_AT..];
//!
//! // a processor with the default files answers it
//! let mut processor = Processor::new(&[], b"1747-L552", &[])?;
//! processor.set(Spot { number: 7, file_type: FileType::N, element: 0 }, Value::Whole(15))?;
//! let mut reply = [0; REPLY_ROOM];
//! let reply = processor.pccc(command, &mut reply)?;
//! assert_eq!(reply[DATA_AT..], [15, 0]);
//!
//! // a bit can't be read with a count above 1
//! let refused = read_request("N7:0/3{2}", Reading::New, Requestor::default(), 0, &mut out).unwrap_err();
//! assert_eq!(refused, Refused::BitCount);
//! # Ok::<(), Refused>(())
//! ```
#![deny(missing_docs)]

mod directory;
mod element;
mod file_type;
mod processor;
mod refused;
mod reply;
mod request;
pub mod sys;
mod tags;
mod text;

pub use directory::{
    file_directory_read_request, file_directory_size_request, parse_file_directory, parse_file_directory_size, reply_directory_size,
    sys0_info, ListedFile, Sys0Info,
};
pub use element::{decode_element, encode_element, Element, Value};
pub use file_type::{Field, FileType, Name, UnknownCode};
pub use processor::{File, FileRecord, Processor, Spot};
pub use refused::{Question, Refused, UnknownNumber};
pub use reply::{error_text, parse_datalog, reply_datalog, reply_status, request_status};
pub use request::{
    datalog_request, dotted, parse_tag, processor_type_request, read_request, write_request, Address, Reading, Request, Requestor,
    WriteValue,
};
pub use tags::Tags;
pub use text::{encode_ascii, encode_string, string_swap, swap_pairs};

/// Bytes of output that every request but a write needs (question 6).
pub const REQUEST_ROOM: usize = 27;
/// Bytes of output that a write request needs (question 6).
pub const WRITE_ROOM: usize = 284;
/// Bytes of output that a status text or a question needs (question 6).
pub const STATUS_ROOM: usize = 96;
/// Bytes that the memory of a reply needs (question 17).
pub const REPLY_ROOM: usize = 514;
/// Bytes that the memory of a text needs (question 24).
pub const TEXT_ROOM: usize = 82;
/// Bytes of output that [`dotted`] needs (question 6).
pub const DOTTED_ROOM: usize = 255;
/// Bytes of output that [`Tags`] needs for each byte of input.
pub const TAG_ROOM: usize = 64;
/// The place in a message where its PCCC command begins, behind CIP service and path.
pub const COMMAND_AT: usize = 6;
/// The place in a reply where its data begins, where the requester's id has the usual 7 bytes.
pub const DATA_AT: usize = 11;

#[cfg(test)]
mod tests;

use crate::{sys, Refused};

fn text(written: sys::slc_written, out: &[u8]) -> Result<Option<&str>, Refused> {
    let text = std::str::from_utf8(written.of(out)?).expect("status texts are ASCII");
    Ok((!text.is_empty()).then_some(text))
}

/// The status of a reply in words, `None` for success; the reply begins with the requester's id, as [`Processor::pccc`](crate::Processor::pccc)
/// gives it. `out` needs 96 bytes for a text. Refused: 6.
pub fn reply_status<'o>(reply: &[u8], out: &'o mut [u8]) -> Result<Option<&'o str>, Refused> {
    text(unsafe { sys::slc_reply_status(reply.as_ptr(), reply.len(), out.as_mut_ptr(), out.len()) }, out)
}

/// The datalog entry of a reply that begins with the requester's id: a part of it, empty where the reply is too short.
pub fn reply_datalog(reply: &[u8]) -> &[u8] {
    let part = unsafe { sys::slc_reply_datalog(reply.as_ptr(), reply.len()) };
    &reply[part.from..][..part.length]
}

/// As [`reply_status`], of a connected reply with its encapsulation, whose id has 7 bytes: its PCCC begins at byte 50 of `raw`. Refused: 6.
pub fn request_status<'o>(raw: &[u8], out: &'o mut [u8]) -> Result<Option<&'o str>, Refused> {
    text(unsafe { sys::slc_request_status(raw.as_ptr(), raw.len(), out.as_mut_ptr(), out.len()) }, out)
}

/// The text of a status code, `None` where it has none; `out` needs 96 bytes for a text. Refused: 6.
pub fn error_text(status: u8, out: &mut [u8]) -> Result<Option<&str>, Refused> {
    text(unsafe { sys::slc_error_text(status, out.as_mut_ptr(), out.len()) }, out)
}

/// As [`reply_datalog`], of a connected reply with its encapsulation, whose id has 7 bytes: its PCCC begins at byte 50 of `raw`.
pub fn parse_datalog(raw: &[u8]) -> &[u8] {
    let part = unsafe { sys::slc_parse_datalog(raw.as_ptr(), raw.len()) };
    &raw[part.from..][..part.length]
}

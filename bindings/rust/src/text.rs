use crate::{sys, Refused};

/// The bytes with each pair swapped, an odd length padded with a zero first. Refused: 6.
pub fn string_swap<'o>(bytes: &[u8], out: &'o mut [u8]) -> Result<&'o [u8], Refused> {
    unsafe { sys::slc_string_swap(bytes.as_ptr(), bytes.len(), out.as_mut_ptr(), out.len()) }.of(out)
}

/// Swaps each pair in place; an odd last byte stays.
pub fn swap_pairs(bytes: &mut [u8]) {
    unsafe { sys::slc_swap_pairs(bytes.as_mut_ptr(), bytes.len()) }
}

/// The 2 bytes of an A element with this text. Refused: 6.
pub fn encode_ascii<'o>(text: &[u8], out: &'o mut [u8]) -> Result<&'o [u8], Refused> {
    unsafe { sys::slc_encode_ascii(text.as_ptr(), text.len(), out.as_mut_ptr(), out.len()) }.of(out)
}

/// The 84 bytes of an ST element with this text. Refused: 6.
pub fn encode_string<'o>(text: &[u8], out: &'o mut [u8]) -> Result<&'o [u8], Refused> {
    unsafe { sys::slc_encode_string(text.as_ptr(), text.len(), out.as_mut_ptr(), out.len()) }.of(out)
}

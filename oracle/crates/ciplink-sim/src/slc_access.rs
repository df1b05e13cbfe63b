//! SHIM (not from the original): a child module of slc.rs, so it may call slc.rs's private items. No logic.
use super::*;

/// `Slc::pccc`.
pub fn pccc(slc: &mut Slc, data: &[u8]) -> Option<Vec<u8>> {
    slc.pccc(data)
}
/// `Slc::message` without faults and without a limit: the CIP wrapper around `pccc`.
pub fn message(slc: &mut Slc, data: &[u8]) -> Vec<u8> {
    slc.message(data, usize::MAX, &Faults::default())
}
/// `Slc::element`.
pub fn element(slc: &Slc, address: &str) -> Option<(u16, usize)> {
    slc.element(address).ok()
}
fn of(code: u8) -> Option<FileType> {
    FileType::ALL.into_iter().find(|t| t.code() == code)
}
/// `FileType::name` of a code (the simulator's twelve).
pub fn name_of_code(code: u8) -> Option<&'static str> {
    of(code).map(FileType::name)
}
/// `FileType::element_size` of a code.
pub fn element_size(code: u8) -> Option<usize> {
    of(code).map(FileType::element_size)
}
/// `FileType::words` of a code.
pub fn words(code: u8) -> Option<[&'static str; 2]> {
    of(code).map(FileType::words)
}
/// `FileType::bits` of a code.
pub fn bits(code: u8) -> Option<&'static [&'static str]> {
    of(code).map(FileType::bits)
}
/// `swap_pairs`.
pub fn pairs(data: &mut [u8]) {
    swap_pairs(data);
}
/// `encode_element` on `out`, which must have the element's size.
pub fn encode(code: u8, value: &Json, out: &mut [u8]) -> Option<Result<(), String>> {
    Some(encode_element(of(code)?, value, out))
}
/// `decode_element` of `data`, which must have the element's size.
pub fn decode(code: u8, data: &[u8]) -> Option<Json> {
    Some(decode_element(of(code)?, data))
}
/// Number, type code and bytes of every file, ascending.
pub fn files(slc: &Slc) -> Vec<(u16, u8, &[u8])> {
    slc.files
        .iter()
        .map(|(n, f)| (*n, f.file_type.code(), f.data.as_slice()))
        .collect()
}
/// Overwrites the bytes of a file (to start from chosen contents).
pub fn fill(slc: &mut Slc, number: u16, bytes: &[u8]) -> bool {
    match slc.files.get_mut(&number) {
        Some(f) if f.data.len() == bytes.len() => {
            f.data.copy_from_slice(bytes);
            true
        }
        _ => false,
    }
}
pub fn datalog(slc: &Slc) -> Vec<&[u8]> {
    slc.datalog.iter().map(|s| s.as_bytes()).collect()
}
pub fn processor_type(slc: &Slc) -> &str {
    &slc.processor_type
}
pub fn directory(slc: &Slc) -> Vec<u8> {
    slc.directory()
}

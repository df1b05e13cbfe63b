use crate::sys;

/// The program `tags` on slices: a read request in capital hexadecimal for each line of the input, or `refused` and the number, with the
/// default requester and sequence 0. The input, lines of tags that are read as new entries ([`Reading::New`](crate::Reading::New)), comes in
/// pieces, cut anyhow, also inside a character.
///
/// ```
/// let mut tags = slc_link::Tags::new();
/// let mut out = [0; 64 * 10];
/// assert_eq!(tags.feed(b"N7:0/3{2}\n", &mut out), (10, &b"refused 3\n"[..]));
/// assert_eq!(tags.feed(b"T4:123PRE\n", &mut out), (10, &b"refused 39\n"[..]));
/// assert_eq!(tags.feed(b"N7:0", &mut out), (4, &b""[..]));
/// assert_eq!(tags.finish(&mut out), b"4B0220672401070910091019710F000000A20207890000\n");
/// ```
#[derive(Clone, Debug)]
pub struct Tags {
    line: sys::slc_line,
}

impl Tags {
    /// No byte has been read yet.
    pub fn new() -> Tags {
        Tags { line: unsafe { sys::slc_line_empty() } }
    }

    /// How many bytes of the piece were taken, and the answers to the lines that end in them. As many are taken as `out` has 64 bytes for.
    pub fn feed<'o>(&mut self, piece: &[u8], out: &'o mut [u8]) -> (usize, &'o [u8]) {
        let fed = unsafe { sys::slc_tags_feed(self.line, piece.as_ptr(), piece.len(), out.as_mut_ptr(), out.len()) };
        self.line = fed.line;
        (fed.taken, &out[..fed.used])
    }

    /// The answer to a last line that has no newline. `out` needs 64 bytes; with less, nothing is written.
    pub fn finish(self, out: &mut [u8]) -> &[u8] {
        let used = unsafe { sys::slc_tags_finish(self.line, out.as_mut_ptr(), out.len()) };
        &out[..used]
    }
}

impl Default for Tags {
    fn default() -> Tags {
        Tags::new()
    }
}

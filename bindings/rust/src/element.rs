use crate::{sys, FileType, Refused};

/// A value to set. An [`f32`] is one too: `1.5.into()`.
#[derive(Clone, Copy, Debug, PartialEq, Eq, Hash)]
#[non_exhaustive]
pub enum Value<'a> {
    /// A whole number, for O, I, S, B, N and L.
    Whole(i64),
    /// The bits of a float, for F.
    Float(u32),
    /// Latin-1 text, for A and ST.
    Text(&'a [u8]),
    /// The three words of T, C and R.
    Words(i64, i64, i64),
    /// One named field of T, C and R.
    Field(&'a [u8], i64),
}

/// A value that was read.
#[derive(Clone, Copy, Debug, PartialEq, Eq, Hash)]
#[non_exhaustive]
pub enum Element<'t> {
    /// A whole number, of O, I, S, B, N and L.
    Whole(i32),
    /// The bits of a float (see [`Element::float`]), of F.
    Float(u32),
    /// Latin-1 text, of A and ST.
    Text(&'t [u8]),
    /// T, C and R.
    Fields {
        /// Word 1: PRE, in R LEN.
        word1: i16,
        /// Word 2: ACC, in R POS.
        word2: i16,
        /// Word 0, with the bits that have no name cleared.
        status: u16,
    },
}

impl<'a> Value<'a> {
    /// The value for C, and the text beside it.
    pub(crate) fn parts(self) -> (sys::slc_value, &'a [u8]) {
        let value = |kind, a| sys::slc_value { kind, a, b: 0, c: 0 };
        match self {
            Value::Whole(n) => (value(sys::SLC_WHOLE, n), &[]),
            Value::Float(bits) => (value(sys::SLC_FLOAT, i64::from(bits)), &[]),
            Value::Text(text) => (value(sys::SLC_TEXT, 0), text),
            Value::Words(a, b, c) => (sys::slc_value { kind: sys::SLC_WORDS, a, b, c }, &[]),
            Value::Field(name, n) => (value(sys::SLC_FIELD, n), name),
        }
    }
}

/// The float, with all of its bits.
impl From<f32> for Value<'_> {
    fn from(number: f32) -> Self {
        Value::Float(number.to_bits())
    }
}

impl<'t> Element<'t> {
    /// The float, with all of its bits; `None` where it is another kind of value.
    pub fn float(self) -> Option<f32> {
        match self {
            Element::Float(bits) => Some(f32::from_bits(bits)),
            _ => None,
        }
    }

    pub(crate) fn of(read: sys::slc_element, text: &'t [u8]) -> Result<Self, Refused> {
        Refused::test(read.refused)?;
        Ok(match read.kind {
            sys::SLC_WHOLE => Element::Whole(read.whole),
            sys::SLC_FLOAT => Element::Float(read.bits),
            sys::SLC_TEXT => Element::Text(&text[..read.length]),
            _ => Element::Fields { word1: read.word1, word2: read.word2, status: read.status },
        })
    }
}

/// Sets the element that these bytes begin with. Refused: 19 to 23.
pub fn encode_element(file_type: FileType, value: Value, element: &mut [u8]) -> Result<(), Refused> {
    let (value, text) = value.parts();
    let refused =
        unsafe { sys::slc_encode_element(file_type.code(), value, text.as_ptr(), text.len(), element.as_mut_ptr(), element.len()) };
    Refused::test(refused)
}

/// Reads the element that these bytes begin with; for text, `text` needs 82 bytes. Refused: 19, 20, 24.
pub fn decode_element<'t>(file_type: FileType, element: &[u8], text: &'t mut [u8]) -> Result<Element<'t>, Refused> {
    let read = unsafe { sys::slc_decode_element(file_type.code(), element.as_ptr(), element.len(), text.as_mut_ptr(), text.len()) };
    Element::of(read, text)
}

use crate::sys;
use std::error::Error;
use std::fmt;

/// The type of a data file, by its PCCC type code.
#[derive(Clone, Copy, Debug, PartialEq, Eq, Hash)]
#[repr(u8)]
pub enum FileType {
    /// Outputs.
    O = 0x82,
    /// Inputs.
    I = 0x83,
    /// Status.
    S = 0x84,
    /// Bits.
    B = 0x85,
    /// Timers.
    T = 0x86,
    /// Counters.
    C = 0x87,
    /// Control.
    R = 0x88,
    /// Integers.
    N = 0x89,
    /// Floats.
    F = 0x8A,
    /// Strings.
    ST = 0x8D,
    /// ASCII.
    A = 0x8E,
    /// Longs.
    L = 0x91,
    /// Messages.
    MG = 0x92,
    /// PID loops.
    PD = 0x93,
    /// Programmable limit switches.
    PLS = 0x94,
}

/// A code that no type has.
#[derive(Clone, Copy, Debug, PartialEq, Eq, Hash)]
pub struct UnknownCode(pub u8);

/// A name of at most three bytes, all of them ASCII; empty where there is none.
#[derive(Clone, Copy, PartialEq, Eq, Hash)]
pub struct Name {
    text: [u8; 3],
    len: u8,
}

/// What a name stands for in an element of T, C or R.
#[derive(Clone, Copy, Debug, PartialEq, Eq, Hash)]
pub enum Field {
    /// Word 1 or 2.
    Word(u8),
    /// A bit of word 0, from 15 down.
    Bit(u8),
}

impl FileType {
    /// All fifteen, by their codes.
    pub const ALL: [FileType; 15] = {
        use FileType::*;
        [O, I, S, B, T, C, R, N, F, ST, A, L, MG, PD, PLS]
    };

    fn of(found: sys::slc_file_type) -> Option<FileType> {
        if found.known == 0 {
            return None;
        }
        FileType::ALL.into_iter().find(|t| t.code() == found.code)
    }

    fn about(self) -> sys::slc_file_type {
        unsafe { sys::slc_type_of_code(self.code()) }
    }

    /// The type of a code.
    pub fn from_code(code: u8) -> Option<FileType> {
        FileType::of(unsafe { sys::slc_type_of_code(code) })
    }

    /// The type of a name in capital letters.
    pub fn from_name(name: &[u8]) -> Option<FileType> {
        FileType::of(unsafe { sys::slc_type_of_name(name.as_ptr(), name.len()) })
    }

    /// The PCCC type code.
    pub fn code(self) -> u8 {
        self as u8
    }

    /// Bytes of an element.
    pub fn element_size(self) -> usize {
        usize::from(self.about().element_size)
    }

    /// Whether it is one of the simulated processor's twelve.
    pub fn simulated(self) -> bool {
        self.about().simulated != 0
    }

    /// The name.
    pub fn name(self) -> Name {
        let about = self.about();
        Name { text: about.name, len: about.name_len }
    }

    /// How many status bits have a name.
    pub fn bits(self) -> usize {
        usize::from(self.about().bits)
    }

    /// The name of bit 15 - i of word 0.
    pub fn bit_name(self, i: usize) -> Name {
        Name::of(unsafe { sys::slc_bit_name(self.code(), i) })
    }

    /// The name of word i + 1.
    pub fn word_name(self, i: usize) -> Name {
        Name::of(unsafe { sys::slc_word_name(self.code(), i) })
    }

    /// What a name, in either case, stands for in an element of T, C or R.
    pub fn field(self, name: &[u8]) -> Option<Field> {
        let found = unsafe { sys::slc_field_of(self.code(), name.as_ptr(), name.len()) };
        match found.kind {
            1 => Some(Field::Word(found.index + 1)),
            2 => Some(Field::Bit(15 - found.index)),
            _ => None,
        }
    }
}

impl TryFrom<u8> for FileType {
    type Error = UnknownCode;

    fn try_from(code: u8) -> Result<FileType, UnknownCode> {
        FileType::from_code(code).ok_or(UnknownCode(code))
    }
}

impl fmt::Display for UnknownCode {
    fn fmt(&self, f: &mut fmt::Formatter<'_>) -> fmt::Result {
        write!(f, "no file type has the code {:02X}", self.0)
    }
}

impl Error for UnknownCode {}

impl Name {
    fn of(name: sys::slc_name) -> Name {
        Name { text: name.text, len: name.len }
    }

    /// Its bytes.
    pub fn as_bytes(&self) -> &[u8] {
        &self.text[..usize::from(self.len)]
    }

    /// Its text.
    pub fn as_str(&self) -> &str {
        std::str::from_utf8(self.as_bytes()).expect("names are ASCII")
    }
}

impl fmt::Display for Name {
    fn fmt(&self, f: &mut fmt::Formatter<'_>) -> fmt::Result {
        f.pad(self.as_str())
    }
}

impl fmt::Debug for Name {
    fn fmt(&self, f: &mut fmt::Formatter<'_>) -> fmt::Result {
        write!(f, "{:?}", self.as_str())
    }
}

impl fmt::Display for FileType {
    fn fmt(&self, f: &mut fmt::Formatter<'_>) -> fmt::Result {
        self.name().fmt(f)
    }
}

use crate::{sys, STATUS_ROOM};
use std::error::Error;
use std::fmt;

/// The question that was answered with no, named by what it asks about; docs/QUESTIONS.md has the questions in full, and the order in which each
/// call asks. Its number is the one of C, and [`Refused::try_from`] takes that.
///
/// ```
/// use slc_link::Refused;
///
/// assert_eq!(Refused::BitCount.number(), 3);
/// assert_eq!(Refused::try_from(3), Ok(Refused::BitCount));
/// assert_eq!(Refused::BitCount.to_string(), "refused 3: Is the tag free of a bit together with a count above 1? No.");
/// ```
#[derive(Clone, Copy, Debug, PartialEq, Eq, Hash)]
#[repr(u8)]
#[non_exhaustive]
#[allow(missing_docs)]
pub enum Refused {
    TagBytes = 1,
    Tag = 2,
    BitCount = 3,
    Value = 4,
    Size = 5,
    OutputRoom = 6,
    DirectoryLength = 7,
    RowSize = 8,
    RowCut = 9,
    FilesRoom = 10,
    FileType = 11,
    FileNumber = 12,
    TypeText = 13,
    DataRoom = 14,
    Datalog = 15,
    Unsound = 16,
    ReplyRoom = 17,
    Command = 18,
    NoElement = 19,
    Kind = 20,
    Field = 21,
    Number = 22,
    TextLength = 23,
    TextRoom = 24,
    ReplyLength = 25,
    Offset = 26,
    Separator = 39,
}

/// A number that no refusal has.
#[derive(Clone, Copy, Debug, PartialEq, Eq, Hash)]
pub struct UnknownNumber(pub u8);

/// The text of a question, all of it ASCII.
#[derive(Clone, Copy, PartialEq, Eq, Hash)]
pub struct Question {
    text: [u8; STATUS_ROOM],
    len: usize,
}

impl Question {
    /// Its text.
    pub fn as_str(&self) -> &str {
        std::str::from_utf8(&self.text[..self.len]).expect("questions are ASCII")
    }
}

impl fmt::Display for Question {
    fn fmt(&self, f: &mut fmt::Formatter<'_>) -> fmt::Result {
        f.pad(self.as_str())
    }
}

impl fmt::Debug for Question {
    fn fmt(&self, f: &mut fmt::Formatter<'_>) -> fmt::Result {
        write!(f, "{:?}", self.as_str())
    }
}

impl Refused {
    /// All of them, by their numbers.
    pub const ALL: &'static [Refused] = {
        use Refused::*;
        &[
            TagBytes,
            Tag,
            BitCount,
            Value,
            Size,
            OutputRoom,
            DirectoryLength,
            RowSize,
            RowCut,
            FilesRoom,
            FileType,
            FileNumber,
            TypeText,
            DataRoom,
            Datalog,
            Unsound,
            ReplyRoom,
            Command,
            NoElement,
            Kind,
            Field,
            Number,
            TextLength,
            TextRoom,
            ReplyLength,
            Offset,
            Separator,
        ]
    };

    /// The number of the question.
    pub fn number(self) -> u8 {
        self as u8
    }

    /// The question.
    pub fn question(self) -> Question {
        let mut text = [0; STATUS_ROOM];
        let said = unsafe { sys::slc_question(self.number(), text.as_mut_ptr(), text.len()) };
        Question { text, len: said.length }
    }

    /// What a call of C says in `refused`.
    pub(crate) fn test(refused: u8) -> Result<(), Refused> {
        match refused {
            0 => Ok(()),
            number => Err(Refused::try_from(number).expect("the archive is of this package's version")),
        }
    }
}

impl TryFrom<u8> for Refused {
    type Error = UnknownNumber;

    fn try_from(number: u8) -> Result<Refused, UnknownNumber> {
        Refused::ALL.iter().copied().find(|r| r.number() == number).ok_or(UnknownNumber(number))
    }
}

impl fmt::Display for Refused {
    fn fmt(&self, f: &mut fmt::Formatter<'_>) -> fmt::Result {
        write!(f, "refused {}: {} No.", self.number(), self.question())
    }
}

impl fmt::Display for UnknownNumber {
    fn fmt(&self, f: &mut fmt::Formatter<'_>) -> fmt::Result {
        write!(f, "no refusal has the number {}", self.0)
    }
}

impl Error for Refused {}
impl Error for UnknownNumber {}

impl sys::slc_written {
    /// What was written, as a part of the output.
    pub(crate) fn of<T>(self, out: &[T]) -> Result<&[T], Refused> {
        Refused::test(self.refused)?;
        Ok(&out[..self.length])
    }
}

use core::fmt;

/// What is wrong with a word of a line.
#[derive(Clone, Copy, Debug, PartialEq, Eq)]
#[non_exhaustive]
pub enum Fault {
    /// The word has no meaning in its place.
    UnknownWord = 1,
    /// The line needs another word.
    Missing = 2,
    /// The value is not written as it has to be.
    BadNumber = 3,
    /// The value is out of its range.
    OutOfRange = 4,
    /// The word was given before.
    Twice = 5,
    /// The word is not UTF-8.
    BadUtf8 = 6,
}

impl Fault {
    pub(crate) fn of(number: u32) -> Fault {
        match number {
            1 => Fault::UnknownWord,
            2 => Fault::Missing,
            3 => Fault::BadNumber,
            4 => Fault::OutOfRange,
            5 => Fault::Twice,
            _ => Fault::BadUtf8,
        }
    }
}

/// What is wrong with the word, as the end of a sentence.
impl fmt::Display for Fault {
    fn fmt(&self, f: &mut fmt::Formatter<'_>) -> fmt::Result {
        f.write_str(match self {
            Fault::UnknownWord => "has no meaning in its place",
            Fault::Missing => "is missing",
            Fault::BadNumber => "is not written as such a value has to be",
            Fault::OutOfRange => "is out of its range",
            Fault::Twice => "was given before",
            Fault::BadUtf8 => "is not UTF-8",
        })
    }
}

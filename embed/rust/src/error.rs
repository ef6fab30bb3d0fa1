use crate::fault::Fault;
use crate::packet_error::PacketError;
use crate::raw::{explain, sys};
use crate::refusal::Refusal;
use crate::text::text_of;
use alloc::string::String;
use core::fmt;

/// Why a call failed. Nothing has changed then, unless the documentation of the call says
/// otherwise.
#[derive(Clone, Copy, Debug, PartialEq, Eq)]
#[non_exhaustive]
pub enum Error {
    /// An allocation failed.
    Memory,
    /// A setting, a field of the packet or the time is out of its range.
    OutOfRange,
    /// The command is refused.
    Refused(Refusal),
    /// The line cannot be read.
    Faulty {
        /// What is wrong.
        fault: Fault,
        /// The index of the word that is wrong, counted from 1.
        word: usize,
    },
    /// The line is no command: it is blank or a comment, it asks for a text, or it is a line of a
    /// script, for a packet, a poll or a time.
    NoCommand,
    /// A port of the drain is not closed yet.
    OpenPorts,
    /// A field of a packet that is built is out of its range.
    Packet(PacketError),
}

impl From<PacketError> for Error {
    fn from(error: PacketError) -> Error {
        Error::Packet(error)
    }
}

impl Error {
    /// That of a code that says that a call did not succeed.
    pub(crate) fn of(code: u32) -> Error {
        match code {
            sys::QTREE_MEMORY => Error::Memory,
            sys::QTREE_NO_COMMAND => Error::NoCommand,
            _ => Refusal::of(code).map_or(Error::OutOfRange, Error::Refused),
        }
    }
}

impl Error {
    /// Writes why [`Device::command`](crate::Device::command) did not carry out a line and returned
    /// this error, as `qtree play --explain` does: the line with its number, a mark under the word
    /// at which it failed, and a sentence on what to do. If the line is no command, the sentence
    /// says what the line is, and which call does what it asks for.
    ///
    /// Returns `None` if the line is neither refused nor faulty nor such a line.
    ///
    /// ```
    /// # use qtree::{Device, Error, Settings};
    /// let mut device = Device::open(Settings::default())?;
    /// let line = "tc qdisc add dev wan root handle 1: pfifo limt 100";
    /// let why = device.command(line, 0).unwrap_err();
    /// assert!(why.explain(line, 7).is_some_and(|text| text.starts_with("line 7: tc qdisc add")));
    /// let why = device.command("tc qdisc show", 0).unwrap_err();
    /// assert!(why.explain("tc qdisc show", 8).is_some_and(|text| text.contains("in Rust Device::show")));
    /// # Ok::<(), Error>(())
    /// ```
    #[must_use]
    pub fn explain(&self, line: &str, number: u64) -> Option<String> {
        let mut found = sys::Fault::default();
        let code = match *self {
            Error::Refused(refusal) => refusal as u32,
            Error::Faulty { fault, word } => {
                found = sys::Fault {
                    word,
                    number: fault as u32,
                };
                sys::QTREE_FAULTY
            }
            Error::Memory => sys::QTREE_MEMORY,
            Error::NoCommand => sys::QTREE_NO_COMMAND,
            Error::OutOfRange | Error::OpenPorts | Error::Packet(_) => return None,
        };
        text_of(|text| explain(line.as_bytes(), number, code, &found, text)).ok()
    }
}

impl fmt::Display for Error {
    fn fmt(&self, f: &mut fmt::Formatter<'_>) -> fmt::Result {
        match self {
            Error::Memory => f.write_str("an allocation failed"),
            Error::OutOfRange => f.write_str("an argument is out of its range"),
            Error::Refused(refusal) => write!(f, "the command is refused: {refusal}"),
            Error::Faulty { fault, word } => {
                write!(f, "the line cannot be read: word {word} {fault}")
            }
            Error::NoCommand => f.write_str("the line is no command, and changes no tree"),
            Error::OpenPorts => f.write_str("a port is not closed yet"),
            Error::Packet(error) => error.fmt(f),
        }
    }
}

impl core::error::Error for Error {}

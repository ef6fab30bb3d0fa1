use crate::cause::Cause;
use crate::raw::sys;
use core::fmt;

/// The fields of a lost packet that a program needs in order to reuse its bytes.
#[derive(Clone, Copy, Default)]
#[repr(transparent)]
pub struct Lost(pub(crate) sys::Lost);

impl Lost {
    /// The program's own number for the packet's bytes.
    #[must_use]
    pub fn buf(&self) -> u32 {
        self.0.buf
    }

    /// The index of the port that placed it, if it came by a ring; otherwise the program's own
    /// number.
    #[must_use]
    pub fn port(&self) -> u32 {
        self.0.port
    }

    /// Its number among the packets of its port, if it came by a ring; otherwise the program's own
    /// number.
    #[must_use]
    pub fn number(&self) -> u64 {
        self.0.number
    }

    /// Why it is lost; `Unknown` in a place into which no loss was written.
    #[must_use]
    pub fn cause(&self) -> Cause {
        Cause::of(self.0.cause).unwrap_or(Cause::Unknown)
    }
}

impl PartialEq for Lost {
    fn eq(&self, other: &Lost) -> bool {
        let fields = |l: &Lost| (l.buf(), l.port(), l.number(), l.cause());
        fields(self) == fields(other)
    }
}

impl Eq for Lost {}

impl fmt::Debug for Lost {
    fn fmt(&self, f: &mut fmt::Formatter<'_>) -> fmt::Result {
        f.debug_struct("Lost")
            .field("buf", &self.buf())
            .field("number", &self.number())
            .field("cause", &self.cause())
            .finish()
    }
}

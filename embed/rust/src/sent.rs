use crate::raw::sys;
use core::fmt;

/// The fields of a packet that a program needs in order to transmit it.
#[derive(Clone, Copy, Default)]
#[repr(transparent)]
pub struct Sent(pub(crate) sys::Sent);

impl Sent {
    /// The program's own number for the packet's bytes.
    #[must_use]
    pub fn buf(&self) -> u32 {
        self.0.buf
    }

    /// Its length in bytes.
    #[allow(clippy::len_without_is_empty)]
    #[must_use]
    pub fn len(&self) -> u16 {
        self.0.len
    }

    /// Its ECN codepoint, 0 to 3. If it is 3, the program writes this mark into the packet's bytes
    /// with [`mark_head`](crate::mark_head).
    #[must_use]
    pub fn ecn(&self) -> u8 {
        self.0.ecn
    }

    /// The index of the port that placed it, if it came by a ring; otherwise the program's own
    /// number.
    #[must_use]
    pub fn port(&self) -> u32 {
        self.0.port
    }

    /// Its number among the packets of its port, which a [`Port`](crate::Port) counts from 1, if it
    /// came by a ring; otherwise the program's own number.
    #[must_use]
    pub fn number(&self) -> u64 {
        self.0.number
    }
}

impl PartialEq for Sent {
    fn eq(&self, other: &Sent) -> bool {
        let fields = |s: &Sent| (s.buf(), s.len(), s.ecn(), s.port(), s.number());
        fields(self) == fields(other)
    }
}

impl Eq for Sent {}

impl fmt::Debug for Sent {
    fn fmt(&self, f: &mut fmt::Formatter<'_>) -> fmt::Result {
        f.debug_struct("Sent")
            .field("buf", &self.buf())
            .field("len", &self.len())
            .field("ecn", &self.ecn())
            .finish()
    }
}

use core::fmt;

/// Why a packet is lost. For the first three causes it is refused on arrival, and for the others it
/// is dropped.
#[derive(Clone, Copy, Debug, PartialEq, Eq)]
#[non_exhaustive]
pub enum Cause {
    /// It is longer than the device's mtu, or than a tbf's burst.
    TooLong = 1,
    /// No filter of a drr takes it.
    NoClass = 2,
    /// Its pfifo or bfifo is at its limit.
    OverLimit = 3,
    /// CoDel dropped it (RFC 8289).
    CoDel = 4,
    /// An fq_codel over its limit dropped it from the flow with the most bytes (RFC 8290).
    FatFlow = 5,
    /// A command removed its qdisc.
    Purged = 6,
    /// The library is newer than this crate, and has this cause in addition.
    Unknown = 0,
}

impl Cause {
    /// The greatest number that a cause can have in any version with the same major number. So an
    /// array that has a place for each cause needs one place more.
    ///
    /// ```
    /// # use qtree::{Cause, Device, Error, Packet, Settings};
    /// # let mut device = Device::open(Settings::default())?;
    /// # device.arrive(&Packet::builder(1515).build()?, 0)?;
    /// let mut lost = [0; Cause::MOST + 1];
    /// for loss in device.losses() {
    ///     lost[loss.cause as usize] += 1;
    /// }
    /// assert_eq!(lost[Cause::TooLong as usize], 1);
    /// # Ok::<(), Error>(())
    /// ```
    pub const MOST: usize = 9;

    /// That of a code; `None` where it is no cause.
    pub(crate) fn of(code: u32) -> Option<Cause> {
        Some(match code {
            1 => Cause::TooLong,
            2 => Cause::NoClass,
            3 => Cause::OverLimit,
            4 => Cause::CoDel,
            5 => Cause::FatFlow,
            6 => Cause::Purged,
            later if (1..=Cause::MOST as u32).contains(&later) => Cause::Unknown,
            _ => return None,
        })
    }
}

/// The name of the cause, as reports write it.
impl fmt::Display for Cause {
    fn fmt(&self, f: &mut fmt::Formatter<'_>) -> fmt::Result {
        fmt::Debug::fmt(self, f)
    }
}

#[cfg(test)]
mod tests {
    use super::*;

    #[test]
    fn a_later_cause_is_one() {
        for code in 1..=9 {
            let cause = Cause::of(code).expect("a cause");
            assert!(cause as u32 == if code <= 6 { code } else { 0 });
        }
        assert_eq!(
            (Cause::of(0), Cause::of(10), Cause::of(u32::MAX)),
            (None, None, None)
        );
    }
}

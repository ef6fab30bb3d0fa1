use crate::device::Device;
use crate::raw::sys;
use crate::report::Report;
use crate::set_up_error::SetUpError;
use crate::undone::Undone;
use alloc::vec::Vec;

impl Device {
    /// Makes the tree what a whole file of tc lines says, even while packets are queued. The file
    /// may include blank lines and comments. A program calls this when it starts, and again
    /// whenever its file has changed.
    ///
    /// What the tree has already with the same words stays, with its packets. What differs is
    /// changed, or replaced if it cannot be changed, and then its packets are lost. What is gone
    /// from the file is deleted, and what is new is added. After `Ok` the tree is what the lines
    /// make of a new device, apart from packets and counters.
    ///
    /// ```
    /// # use qtree::{Device, Error, Packet, SetUpError, Settings};
    /// let mut device = Device::open(Settings::default())?;
    /// let file = "# the uplink
    /// tc qdisc add dev wan root handle 1: tbf rate 20mbit burst 3028 latency 50ms
    /// tc qdisc add dev wan parent 1:1 handle 10: fq_codel
    /// ";
    /// assert_eq!(device.set_up(file, 0)?.added, 2);
    /// device.arrive(&Packet::builder(1500).build()?, 0)?;
    /// let report = device.set_up(file.replace("20mbit", "30mbit"), 0)?;
    /// assert_eq!(report.to_string(), "0 added, 1 changed, 0 deleted");
    /// assert_eq!(device.totals().queued.packets, 1);
    ///
    /// let typo = device.set_up(file.replace("fq_codel", "fq_codl"), 0).unwrap_err();
    /// assert_eq!(typo.to_string(), "line 3: the line cannot be read: word 10 has no meaning in its place");
    /// # Ok::<(), Box<dyn std::error::Error>>(())
    /// ```
    ///
    /// # Errors
    ///
    /// - `Undone` with each line that cannot be carried out on a new device. Nothing has changed.
    /// - `OutOfRange` if the time is out of its range. Nothing has changed.
    /// - `Memory` if an allocation fails. What was done before that stays, and the same call does
    ///   the rest.
    pub fn set_up(&mut self, text: impl AsRef<[u8]>, now: u64) -> Result<Report, SetUpError> {
        let mut undone = Vec::new();
        let mut room = 16;
        loop {
            undone
                .try_reserve_exact(room)
                .map_err(|_| SetUpError::Memory(Report::default()))?;
            undone.resize(room, sys::Undone::default());
            let (code, report) = self.0.set_up(text.as_ref(), now, &mut undone);
            match code {
                sys::QTREE_DONE => return Ok(Report::of(&report)),
                sys::QTREE_UNDONE if report.undone > room => room = report.undone,
                sys::QTREE_UNDONE => return Err(refused(&undone[..report.undone])),
                sys::QTREE_MEMORY => return Err(SetUpError::Memory(Report::of(&report))),
                _ => return Err(SetUpError::OutOfRange),
            }
            undone.clear();
        }
    }
}

/// The error of a file with lines that are not done.
fn refused(undone: &[sys::Undone]) -> SetUpError {
    let mut lines = Vec::new();
    if lines.try_reserve_exact(undone.len()).is_err() {
        return SetUpError::Memory(Report::default());
    }
    lines.extend(undone.iter().map(Undone::of));
    SetUpError::Undone(lines)
}

use super::sys;
use crate::lost::Lost;
use crate::packet::Packet;
use crate::sent::Sent;
use alloc::vec::Vec;
use core::ptr;

/// A place with an open device.
#[derive(Debug)]
pub(crate) struct RawDevice(pub(super) sys::Device);

// SAFETY: nothing in a device belongs to one thread: the library keeps no memory of threads, which its proof of `Send` says too.
unsafe impl Send for RawDevice {}

impl RawDevice {
    pub(crate) fn open(settings: &sys::Settings) -> Result<RawDevice, u32> {
        let mut place = sys::Device {
            at: ptr::null_mut(),
            state: 0,
        };
        // SAFETY: the place is closed, and `settings` is another one.
        match unsafe { sys::qtree_open(&mut place, settings) } {
            sys::QTREE_DONE => Ok(RawDevice(place)),
            code => Err(code),
        }
    }

    /// The fault is that of a faulty line, else 0.
    pub(crate) fn command(&mut self, line: &[u8], now: u64) -> (u32, sys::Fault) {
        let mut fault = sys::Fault::default();
        // SAFETY: the device is open; pointer and length are those of `line`.
        let code =
            unsafe { sys::qtree_command(&mut self.0, line.as_ptr(), line.len(), now, &mut fault) };
        (code, fault)
    }

    /// Lines that are not done are written to the first of the places.
    pub(crate) fn set_up(
        &mut self,
        text: &[u8],
        now: u64,
        undone: &mut [sys::Undone],
    ) -> (u32, sys::Report) {
        let mut report = sys::Report::default();
        let (at, len) = (text.as_ptr(), text.len());
        let (places, room) = (undone.as_mut_ptr(), undone.len());
        // SAFETY: the device is open; pointers and lengths are those of `text` and `undone`, which do not overlap.
        let code =
            unsafe { sys::qtree_set_up(&mut self.0, at, len, now, &mut report, places, room) };
        (code, report)
    }

    pub(crate) fn arrive(&mut self, packet: &sys::Packet, now: u64) -> u32 {
        // SAFETY: the device is open, and `packet` is another place.
        unsafe { sys::qtree_arrive(&mut self.0, packet, now) }
    }

    pub(crate) fn arrive_frame(
        &mut self,
        bytes: &[u8],
        len: u16,
        buf: u32,
        hash: u32,
        now: u64,
    ) -> u32 {
        let (at, count) = (bytes.as_ptr(), bytes.len());
        // SAFETY: the device is open; pointer and length are those of `bytes`.
        unsafe { sys::qtree_arrive_frame(&mut self.0, at, count, len, buf, hash, now) }
    }

    pub(crate) fn arrive_frame_seeded(
        &mut self,
        bytes: &[u8],
        len: u16,
        buf: u32,
        seed: u32,
        now: u64,
    ) -> u32 {
        let (at, count) = (bytes.as_ptr(), bytes.len());
        // SAFETY: the device is open; pointer and length are those of `bytes`.
        unsafe { sys::qtree_arrive_frame_seeded(&mut self.0, at, count, len, buf, seed, now) }
    }

    pub(crate) fn arrive_frame_numbered(
        &mut self,
        bytes: &[u8],
        len: u16,
        buf: u32,
        number: u64,
        hash: u32,
        now: u64,
    ) -> u32 {
        let (at, count) = (bytes.as_ptr(), bytes.len());
        // SAFETY: the device is open; pointer and length are those of `bytes`.
        unsafe {
            sys::qtree_arrive_frame_numbered(&mut self.0, at, count, len, buf, number, hash, now)
        }
    }

    /// Writes what each packet that arrives is answered into `codes`, which has room for all; also how many arrived.
    pub(crate) fn arrive_many(
        &mut self,
        packets: &[Packet],
        codes: &mut [u8],
        now: u64,
    ) -> (u32, usize) {
        let (at, count) = (packets.as_ptr().cast(), packets.len());
        let (room, places, mut done) = (codes.as_mut_ptr(), codes.len(), 0);
        // SAFETY: the device is open; pointers and lengths are those of `packets`, as `Packet` is laid out like one of C, and of `codes`.
        let code =
            unsafe { sys::qtree_arrive_many(&mut self.0, at, count, room, places, &mut done, now) };
        (code, done)
    }

    pub(crate) fn poll(&mut self, now: u64) -> (u32, sys::Packet) {
        let mut packet = sys::Packet::default();
        // SAFETY: the device is open, and `packet` is another place.
        let code = unsafe { sys::qtree_poll(&mut self.0, now, &mut packet) };
        (code, packet)
    }

    pub(crate) fn poll_buf(&mut self, now: u64) -> (u32, sys::Sent) {
        let mut sent = sys::Sent::default();
        // SAFETY: the device is open, and `sent` is another place.
        let code = unsafe { sys::qtree_poll_buf(&mut self.0, now, &mut sent) };
        (code, sent)
    }

    /// Also how many packets there are.
    pub(crate) fn poll_bufs(&mut self, now: u64, sent: &mut [Sent]) -> (u32, usize) {
        let (at, mut count) = (sent.as_mut_ptr().cast(), 0);
        // SAFETY: the device is open; pointer and length are those of `sent`, as `Sent` is laid out like one of C.
        let code = unsafe { sys::qtree_poll_bufs(&mut self.0, now, at, sent.len(), &mut count) };
        (code, count)
    }

    /// Polls up to `most` times, and appends what that gives to `sent`, which has room for so many; also how many there are.
    pub(crate) fn poll_many(
        &mut self,
        now: u64,
        most: usize,
        sent: &mut Vec<Packet>,
    ) -> (u32, usize) {
        let room = &mut sent.spare_capacity_mut()[..most];
        let (at, mut count) = (room.as_mut_ptr().cast(), 0);
        // SAFETY: the device is open; `at` leads to `most` packets, as `Packet` is laid out like one of C, and they are written alone.
        let code = unsafe { sys::qtree_poll_many(&mut self.0, now, at, most, &mut count) };
        // SAFETY: the first `count` packets of the room are written.
        unsafe { sent.set_len(sent.len() + count) };
        (code, count)
    }

    pub(crate) fn ready_at(&self) -> (u32, u64) {
        let mut moment = 0;
        // SAFETY: the device is open, and `moment` is another place.
        let code = unsafe { sys::qtree_ready_at(&self.0, &mut moment) };
        (code, moment)
    }

    pub(crate) fn most_packets(&self) -> u64 {
        let mut packets = 0;
        // SAFETY: the device is open, so the answer is QTREE_DONE, and `packets` is another place.
        unsafe { sys::qtree_most_packets(&self.0, &mut packets) };
        packets
    }

    pub(crate) fn reap(&mut self) -> (u32, sys::Loss) {
        let mut loss = sys::Loss::default();
        // SAFETY: the device is open, and `loss` is another place.
        let code = unsafe { sys::qtree_reap(&mut self.0, &mut loss) };
        (code, loss)
    }

    /// Also what was done, and when to come back.
    pub(crate) fn turn(
        &mut self,
        now: u64,
        sent: &mut [Sent],
        lost: &mut [Lost],
    ) -> (u32, sys::Turned) {
        let mut turned = sys::Turned::default();
        let (polled, room) = (sent.as_mut_ptr().cast(), sent.len());
        let (reaped, lost_room) = (lost.as_mut_ptr().cast(), lost.len());
        // SAFETY: the device is open; pointers and lengths are those of `sent` and `lost`, whose types are laid out like C's.
        let code = unsafe {
            sys::qtree_turn(
                &mut self.0,
                now,
                polled,
                room,
                reaped,
                lost_room,
                &mut turned,
            )
        };
        (code, turned)
    }

    pub(crate) fn stats(&self, (place, major, minor): (u32, u16, u16)) -> (u32, sys::Row) {
        let mut row = sys::Row::default();
        // SAFETY: the device is open, and `row` is another place.
        let code = unsafe { sys::qtree_stats(&self.0, place, major, minor, &mut row) };
        (code, row)
    }

    pub(crate) fn oldest(&self, (place, major, minor): (u32, u16, u16)) -> (u32, u64) {
        let mut moment = 0;
        // SAFETY: the device is open, and `moment` is another place.
        let code = unsafe { sys::qtree_oldest(&self.0, place, major, minor, &mut moment) };
        (code, moment)
    }

    pub(crate) fn service(&self, (place, major, minor): (u32, u16, u16)) -> (u32, sys::Promise) {
        let mut promise = sys::Promise::default();
        // SAFETY: the device is open, and `promise` is another place.
        let code = unsafe { sys::qtree_service(&self.0, place, major, minor, &mut promise) };
        (code, promise)
    }

    pub(crate) fn lateness(&self, (place, major, minor): (u32, u16, u16)) -> (u32, u64) {
        let mut late = 0;
        // SAFETY: the device is open, and `late` is another place.
        let code = unsafe { sys::qtree_lateness(&self.0, place, major, minor, &mut late) };
        (code, late)
    }

    pub(crate) fn worst(&self, (place, major, minor): (u32, u16, u16)) -> (u32, sys::Delay) {
        let mut delay = sys::Delay::default();
        // SAFETY: the device is open, and `delay` is another place.
        let code = unsafe { sys::qtree_worst(&self.0, place, major, minor, &mut delay) };
        (code, delay)
    }

    pub(crate) fn latest(
        &self,
        (place, major, minor): (u32, u16, u16),
        len: u16,
    ) -> (u32, sys::Departure) {
        let mut departure = sys::Departure::default();
        // SAFETY: the device is open, and `departure` is another place.
        let code = unsafe { sys::qtree_latest(&self.0, place, major, minor, len, &mut departure) };
        (code, departure)
    }

    /// Also the length of the text, which is written where there is room for it.
    pub(crate) fn show(&self, what: u32, text: &mut [u8]) -> (u32, usize) {
        let mut needed = 0;
        // SAFETY: the device is open; pointer and length are those of `text`.
        let code =
            unsafe { sys::qtree_show(&self.0, what, text.as_mut_ptr(), text.len(), &mut needed) };
        (code, needed)
    }

    pub(crate) fn node(&self, index: usize) -> (u32, sys::NodeView) {
        let mut view = sys::NodeView::default();
        // SAFETY: the device is open, and `view` is another place.
        let code = unsafe { sys::qtree_node(&self.0, index, &mut view) };
        (code, view)
    }

    pub(crate) fn class(&self, index: usize, which: usize) -> (u32, sys::ClassView) {
        let mut view = sys::ClassView::default();
        // SAFETY: the device is open, and `view` is another place.
        let code = unsafe { sys::qtree_class(&self.0, index, which, &mut view) };
        (code, view)
    }

    pub(crate) fn events(&self) -> (u64, usize) {
        let (mut events, mut recorded) = (0, 0);
        // SAFETY: the device is open, and the numbers are other places.
        unsafe { sys::qtree_events(&self.0, &mut events, &mut recorded) };
        (events, recorded)
    }

    pub(crate) fn recorded(&self, index: usize) -> (u32, sys::Event) {
        let mut event = sys::Event::default();
        // SAFETY: the device is open, and `event` is another place.
        let code = unsafe { sys::qtree_recorded(&self.0, index, &mut event) };
        (code, event)
    }

    /// Also the length of the line, which is written where there is room for it.
    pub(crate) fn recorded_line(&self, index: usize, text: &mut [u8]) -> (u32, usize) {
        let (at, room, mut needed) = (text.as_mut_ptr(), text.len(), 0);
        // SAFETY: the device is open; pointer and length are those of `text`.
        let code = unsafe { sys::qtree_recorded_line(&self.0, index, at, room, &mut needed) };
        (code, needed)
    }

    /// Also the length of the script, which is written where there is room for it.
    pub(crate) fn recorded_script(&self, text: &mut [u8]) -> (u32, usize) {
        let (at, room, mut needed) = (text.as_mut_ptr(), text.len(), 0);
        // SAFETY: the device is open; pointer and length are those of `text`.
        let code = unsafe { sys::qtree_recorded_script(&self.0, at, room, &mut needed) };
        (code, needed)
    }

    pub(crate) fn keep_last(&mut self, places: u32) -> u32 {
        // SAFETY: the device is open.
        unsafe { sys::qtree_keep_last(&mut self.0, places) }
    }

    pub(crate) fn last_noted(&self) -> (u64, usize) {
        let (mut noted, mut kept) = (0, 0);
        // SAFETY: the device is open, and the numbers are other places.
        unsafe { sys::qtree_last_noted(&self.0, &mut noted, &mut kept) };
        (noted, kept)
    }

    pub(crate) fn last_event(&self, index: usize) -> (u32, sys::Event) {
        let mut event = sys::Event::default();
        // SAFETY: the device is open, and `event` is another place.
        let code = unsafe { sys::qtree_last_event(&self.0, index, &mut event) };
        (code, event)
    }

    /// Also the length of the line, which is written where there is room for it.
    pub(crate) fn last_line(&self, index: usize, text: &mut [u8]) -> (u32, usize) {
        let (at, room, mut needed) = (text.as_mut_ptr(), text.len(), 0);
        // SAFETY: the device is open; pointer and length are those of `text`.
        let code = unsafe { sys::qtree_last_line(&self.0, index, at, room, &mut needed) };
        (code, needed)
    }
}

impl Drop for RawDevice {
    fn drop(&mut self) {
        // SAFETY: the device is open, and nothing uses it afterwards.
        unsafe { sys::qtree_close(&mut self.0) }
    }
}

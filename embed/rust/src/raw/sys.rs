//! What `embed/include/qtree.h` declares, all of it. `embed/check-header` compares this file with the header and the library's
//! sources: fields, their offsets, arguments and numbers.
#![allow(dead_code)]
use core::mem::{offset_of, size_of};

// The numbers of answers that no enum of the crate has.
pub const QTREE_DONE: u32 = 0;
pub const QTREE_IDLE: u32 = 30;
pub const QTREE_LATER: u32 = 31;
pub const QTREE_NOTHING: u32 = 32;
pub const QTREE_FULL: u32 = 33;
pub const QTREE_FAULTY: u32 = 40;
pub const QTREE_NO_COMMAND: u32 = 41;
pub const QTREE_OUT_OF_RANGE: u32 = 42;
pub const QTREE_ROOM: u32 = 43;
pub const QTREE_UNDONE: u32 = 44;
pub const QTREE_ARRIVED: u32 = 0;
pub const QTREE_POLLED: u32 = 1;
pub const QTREE_ROOT: u32 = 1;
pub const QTREE_PFIFO: u32 = 1;
pub const QTREE_BFIFO: u32 = 2;
pub const QTREE_PRIO: u32 = 3;
pub const QTREE_TBF: u32 = 4;
pub const QTREE_DRR: u32 = 5;
pub const QTREE_FQ_CODEL: u32 = 6;
pub const QTREE_IS_CLOSED: u32 = 50;
pub const QTREE_IS_OPEN: u32 = 51;
pub const QTREE_MEMORY: u32 = 90;

#[repr(C)]
#[derive(Debug)]
pub struct Device {
    pub at: *mut u8,
    pub state: u64,
}

#[repr(C)]
#[derive(Debug)]
pub struct Port {
    pub at: *mut u8,
    pub state: u64,
}

#[repr(C)]
#[derive(Debug)]
pub struct Outlet {
    pub at: *mut u8,
    pub state: u64,
}

#[repr(C)]
#[derive(Clone, Copy, Default)]
pub struct Settings {
    pub txqueuelen: u32,
    pub recorder: u32,
    pub mtu: u16,
}

#[repr(C)]
#[derive(Clone, Copy, Default)]
pub struct Packet {
    pub src_high: u64,
    pub src_low: u64,
    pub dst_high: u64,
    pub dst_low: u64,
    pub number: u64,
    pub port: u32,
    pub buf: u32,
    pub hash: u32,
    pub len: u16,
    pub sport: u16,
    pub dport: u16,
    pub proto: u8,
    pub family: u8,
    pub prio: u8,
    pub ecn: u8,
}

#[repr(C)]
#[derive(Clone, Copy, Default)]
pub struct Sent {
    pub number: u64,
    pub port: u32,
    pub buf: u32,
    pub len: u16,
    pub ecn: u8,
}

#[repr(C)]
#[derive(Clone, Copy, Default)]
pub struct Loss {
    pub packet: Packet,
    pub cause: u32,
}

#[repr(C)]
#[derive(Clone, Copy, Default)]
pub struct Count {
    pub packets: u64,
    pub bytes: u64,
}

#[repr(C)]
#[derive(Clone, Copy, Default)]
pub struct Row {
    pub arrived: Count,
    pub sent: Count,
    pub refused: Count,
    pub dropped: Count,
    pub queued: Count,
    pub marked: Count,
}

#[repr(C)]
#[derive(Clone, Copy, Default)]
pub struct Promise {
    pub link: u64,
    pub rate: u64,
    pub part: u64,
    pub slack: u64,
}

#[repr(C)]
#[derive(Clone, Copy, Default)]
pub struct Delay {
    pub bytes: u64,
    pub ns: u64,
    pub late: u64,
}

#[repr(C)]
#[derive(Clone, Copy, Default)]
pub struct Lost {
    pub number: u64,
    pub port: u32,
    pub buf: u32,
    pub cause: u32,
}

#[repr(C)]
#[derive(Clone, Copy, Default)]
pub struct Turned {
    pub sent: usize,
    pub lost: usize,
    pub again: u64,
}

#[repr(C)]
#[derive(Clone, Copy, Default)]
pub struct Departure {
    pub bytes: u64,
    pub at: u64,
    pub late: u64,
}

#[repr(C)]
#[derive(Clone, Copy, Default)]
pub struct NodeView {
    pub row: Row,
    pub limit: u64,
    pub rate: u64,
    pub target: u64,
    pub interval: u64,
    pub burst: u32,
    pub flows: u32,
    pub new_flows: u32,
    pub old_flows: u32,
    pub quantum: u32,
    pub drop_batch: u32,
    pub kind: u32,
    pub place: u32,
    pub handle: u16,
    pub parent_major: u16,
    pub parent_minor: u16,
    pub mtu: u16,
    pub ecn: u8,
    pub bands: u8,
    pub priomap: [u8; 16],
}

#[repr(C)]
#[derive(Clone, Copy, Default)]
pub struct ClassView {
    pub deficit: u64,
    pub quantum: u32,
    pub kind: u32,
    pub major: u16,
    pub minor: u16,
    pub active: u8,
}

#[repr(C)]
#[derive(Clone, Copy, Default)]
pub struct Fault {
    pub word: usize,
    pub number: u32,
}

#[repr(C)]
#[derive(Clone, Copy, Default)]
pub struct Report {
    pub lines: u64,
    pub added: u64,
    pub changed: u64,
    pub deleted: u64,
    pub undone: usize,
}

#[repr(C)]
#[derive(Clone, Copy, Default)]
pub struct Undone {
    pub fault: Fault,
    pub line: u64,
    pub code: u32,
}

#[repr(C)]
#[derive(Clone, Copy, Default)]
pub struct Event {
    pub packet: Packet,
    pub moment: u64,
    pub kind: u32,
}

#[repr(C)]
#[derive(Clone, Copy, Default)]
pub struct Layout {
    pub device: usize,
    pub settings: usize,
    pub packet: usize,
    pub loss: usize,
    pub row: usize,
    pub event: usize,
}

/// Asserts the bytes of a struct, and the offset of each field.
macro_rules! layout {
    ($name:ident, $size:literal: $($field:ident $offset:literal),*) => {
        const _: () = assert!(size_of::<$name>() == $size);
        $(const _: () = assert!(offset_of!($name, $field) == $offset);)*
        const _: fn($name) = |$name { $($field: _),* }| ();
    };
}

layout!(Device, 16: at 0, state 8);
layout!(Port, 16: at 0, state 8);
layout!(Outlet, 16: at 0, state 8);
layout!(Settings, 12: txqueuelen 0, recorder 4, mtu 8);
layout!(Packet, 64: src_high 0, src_low 8, dst_high 16, dst_low 24, number 32, port 40, buf 44, hash 48, len 52,
    sport 54, dport 56, proto 58, family 59, prio 60, ecn 61);
layout!(Sent, 24: number 0, port 8, buf 12, len 16, ecn 18);
layout!(Loss, 72: packet 0, cause 64);
layout!(Lost, 24: number 0, port 8, buf 12, cause 16);
layout!(Turned, 24: sent 0, lost 8, again 16);
layout!(Count, 16: packets 0, bytes 8);
layout!(Row, 96: arrived 0, sent 16, refused 32, dropped 48, queued 64, marked 80);
layout!(Promise, 32: link 0, rate 8, part 16, slack 24);
layout!(Delay, 24: bytes 0, ns 8, late 16);
layout!(Departure, 24: bytes 0, at 8, late 16);
layout!(NodeView, 192: row 0, limit 96, rate 104, target 112, interval 120, burst 128, flows 132, new_flows 136,
    old_flows 140, quantum 144, drop_batch 148, kind 152, place 156, handle 160, parent_major 162, parent_minor 164,
    mtu 166, ecn 168, bands 169, priomap 170);
layout!(ClassView, 24: deficit 0, quantum 8, kind 12, major 16, minor 18, active 20);
layout!(Fault, 16: word 0, number 8);
layout!(Report, 40: lines 0, added 8, changed 16, deleted 24, undone 32);
layout!(Undone, 32: fault 0, line 16, code 24);
layout!(Event, 80: packet 0, moment 64, kind 72);
layout!(Layout, 48: device 0, settings 8, packet 16, loss 24, row 32, event 40);

unsafe extern "C" {
    pub safe fn qtree_version() -> u32;
    pub fn qtree_open(device: *mut Device, settings: *const Settings) -> u32;
    pub fn qtree_close(device: *mut Device);
    pub fn qtree_command(
        device: *mut Device,
        line: *const u8,
        line_len: usize,
        now: u64,
        fault: *mut Fault,
    ) -> u32;
    pub fn qtree_set_up(
        device: *mut Device,
        text: *const u8,
        text_len: usize,
        now: u64,
        report: *mut Report,
        undone: *mut Undone,
        room: usize,
    ) -> u32;
    pub fn qtree_read_head(bytes: *const u8, count: usize, seed: u32, packet: *mut Packet);
    pub fn qtree_read_fields(bytes: *const u8, count: usize, packet: *mut Packet);
    pub fn qtree_read_fields_hashed(bytes: *const u8, count: usize, hash: u32, packet: *mut Packet);
    pub fn qtree_mark_head(bytes: *mut u8, count: usize) -> bool;
    pub fn qtree_ip_at(bytes: *const u8, count: usize) -> usize;
    pub fn qtree_hash(seed: u32, packet: *mut Packet) -> u32;
    pub fn qtree_arrive(device: *mut Device, packet: *const Packet, now: u64) -> u32;
    pub fn qtree_arrive_frame(
        device: *mut Device,
        bytes: *const u8,
        count: usize,
        len: u16,
        buf: u32,
        hash: u32,
        now: u64,
    ) -> u32;
    pub fn qtree_arrive_frame_seeded(
        device: *mut Device,
        bytes: *const u8,
        count: usize,
        len: u16,
        buf: u32,
        seed: u32,
        now: u64,
    ) -> u32;
    pub fn qtree_arrive_frame_numbered(
        device: *mut Device,
        bytes: *const u8,
        count: usize,
        len: u16,
        buf: u32,
        number: u64,
        hash: u32,
        now: u64,
    ) -> u32;
    pub fn qtree_arrive_many(
        device: *mut Device,
        packets: *const Packet,
        count: usize,
        codes: *mut u8,
        codes_len: usize,
        done: *mut usize,
        now: u64,
    ) -> u32;
    pub fn qtree_poll(device: *mut Device, now: u64, packet: *mut Packet) -> u32;
    pub fn qtree_poll_many(
        device: *mut Device,
        now: u64,
        packets: *mut Packet,
        room: usize,
        count: *mut usize,
    ) -> u32;
    pub fn qtree_poll_buf(device: *mut Device, now: u64, sent: *mut Sent) -> u32;
    pub fn qtree_poll_bufs(
        device: *mut Device,
        now: u64,
        sent: *mut Sent,
        room: usize,
        count: *mut usize,
    ) -> u32;
    pub fn qtree_ready_at(device: *const Device, moment: *mut u64) -> u32;
    pub fn qtree_most_packets(device: *const Device, packets: *mut u64) -> u32;
    pub fn qtree_reap(device: *mut Device, loss: *mut Loss) -> u32;
    pub fn qtree_reap_many(
        device: *mut Device,
        losses: *mut Loss,
        room: usize,
        count: *mut usize,
    ) -> u32;
    pub fn qtree_turn(
        device: *mut Device,
        now: u64,
        sent: *mut Sent,
        room: usize,
        lost: *mut Lost,
        lost_room: usize,
        turned: *mut Turned,
    ) -> u32;
    pub fn qtree_ring_open(port: *mut Port, outlet: *mut Outlet, index: u32, places: usize) -> u32;
    pub fn qtree_offer(port: *mut Port, packet: *const Packet) -> u32;
    pub fn qtree_offer_many(
        port: *mut Port,
        packets: *const Packet,
        count: usize,
        placed: *mut usize,
    ) -> u32;
    pub fn qtree_take_in(
        device: *mut Device,
        outlet: *mut Outlet,
        now: u64,
        most: usize,
        taken: *mut usize,
    ) -> u32;
    pub fn qtree_port_share(port: *const Port, share: *mut Count) -> u32;
    pub fn qtree_outlet_share(outlet: *const Outlet, share: *mut Count) -> u32;
    pub fn qtree_port_close(port: *mut Port);
    pub fn qtree_outlet_close(outlet: *mut Outlet);
    pub fn qtree_stats(
        device: *const Device,
        place: u32,
        major: u16,
        minor: u16,
        row: *mut Row,
    ) -> u32;
    pub fn qtree_oldest(
        device: *const Device,
        place: u32,
        major: u16,
        minor: u16,
        moment: *mut u64,
    ) -> u32;
    pub fn qtree_totals(device: *const Device, row: *mut Row) -> u32;
    pub fn qtree_service(
        device: *const Device,
        place: u32,
        major: u16,
        minor: u16,
        promise: *mut Promise,
    ) -> u32;
    pub fn qtree_lateness(
        device: *const Device,
        place: u32,
        major: u16,
        minor: u16,
        late: *mut u64,
    ) -> u32;
    pub fn qtree_worst(
        device: *const Device,
        place: u32,
        major: u16,
        minor: u16,
        delay: *mut Delay,
    ) -> u32;
    pub fn qtree_latest(
        device: *const Device,
        place: u32,
        major: u16,
        minor: u16,
        len: u16,
        departure: *mut Departure,
    ) -> u32;
    pub fn qtree_show(
        device: *const Device,
        what: u32,
        text: *mut u8,
        room: usize,
        needed: *mut usize,
    ) -> u32;
    pub fn qtree_events(device: *const Device, events: *mut u64, recorded: *mut usize) -> u32;
    pub fn qtree_recorded(device: *const Device, index: usize, event: *mut Event) -> u32;
    pub fn qtree_recorded_line(
        device: *const Device,
        index: usize,
        text: *mut u8,
        room: usize,
        needed: *mut usize,
    ) -> u32;
    pub fn qtree_recorded_script(
        device: *const Device,
        text: *mut u8,
        room: usize,
        needed: *mut usize,
    ) -> u32;
    pub fn qtree_keep_last(device: *mut Device, places: u32) -> u32;
    pub fn qtree_last_noted(device: *const Device, noted: *mut u64, kept: *mut usize) -> u32;
    pub fn qtree_last_event(device: *const Device, index: usize, event: *mut Event) -> u32;
    pub fn qtree_last_line(
        device: *const Device,
        index: usize,
        text: *mut u8,
        room: usize,
        needed: *mut usize,
    ) -> u32;
    pub fn qtree_node(device: *const Device, index: usize, view: *mut NodeView) -> u32;
    pub fn qtree_class(
        device: *const Device,
        index: usize,
        which: usize,
        view: *mut ClassView,
    ) -> u32;
    pub fn qtree_name_of(
        what: u32,
        number: u32,
        text: *mut u8,
        room: usize,
        needed: *mut usize,
    ) -> u32;
    pub fn qtree_explain(
        line: *const u8,
        line_len: usize,
        number: u64,
        code: u32,
        fault: *const Fault,
        text: *mut u8,
        room: usize,
        needed: *mut usize,
    ) -> u32;
    pub fn qtree_layout_of(layout: *mut Layout);
    pub fn qtree_sample(settings: *mut Settings, loss: *mut Loss, row: *mut Row, event: *mut Event);
    pub fn qtree_sample_fault(fault: *mut Fault);
    pub safe fn qtree_size_of(what: u32) -> usize;
}

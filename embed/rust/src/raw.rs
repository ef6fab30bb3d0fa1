//! The calls of the library over places that Rust owns. All of the crate's `unsafe` is here.
//!
//! A place is opened when it is made, is written by the library alone, and is closed when it is
//! dropped. So every pointer below is that of a reference or a slice that is borrowed for the call,
//! and none overlaps another of its call.

mod device;
mod head;
mod outlet;
mod port;
pub(crate) mod sys;
mod text;

pub(crate) use device::RawDevice;
pub(crate) use head::{hash, ip_at, mark_head, read_hashed, read_head};
pub(crate) use outlet::RawOutlet;
pub(crate) use port::{RawPort, open_ring};
pub(crate) use text::explain;

//! The same work in plain Rust, as one would write it for speed and without proofs.
//!
//! The device of this folder (`device.rs`, `setup.rs`, `tree.rs`) is that of `tools/disagree` alone, which compares reports: the
//! benchmark has the one of `lean`.

pub mod active;
pub mod bucket;
pub mod codel;
#[allow(dead_code, reason = "the device of `tools/disagree` asks for all of it")]
pub mod fifo;
#[allow(dead_code, reason = "the device of `tools/disagree` asks for all of it")]
pub mod filter;
pub mod flows;
pub mod gap;
pub mod head;
pub mod line;
pub mod line_tc;
pub mod line_work;
pub mod packet;
pub mod place;
pub mod pool;
pub mod ring;
pub mod row;
pub mod signals;
mod winners;
pub mod words;
pub mod work;

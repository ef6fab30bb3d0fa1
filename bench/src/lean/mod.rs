//! The device once more, in the leanest plain Rust that we know for the same answers: what the benchmark compares a device of
//! Rattle with. A packet goes down by reference in one walk, is copied once into its place and once out of it, and the usual
//! way writes each counter once. What is lost or marked is booked on ways that are cold.
//!
//! Packets, rows, signals, buckets, active lists and the reader of lines are those of `plain`, which have that form as well.

mod device;
mod fifo;
mod filters;
mod flow;
mod fq_codel;
mod node;
mod setup;
mod slab;
mod winners;

pub mod player;
pub mod ports;
pub mod work;

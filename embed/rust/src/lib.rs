//! A packet scheduler in userspace with the behaviour of Linux traffic control: safe Rust over a
//! library that is proved in Rattle.
//!
//! A [`Device`] is one scheduler: a tree of queueing disciplines (*qdiscs*), which lines of `tc`
//! set up. A program describes each packet to the device in a [`Packet`], and keeps the packet's
//! bytes itself. It finds the bytes again by [`Packet::buf`], a number of its own that comes back
//! when the packet is sent or lost.
//!
//! ```
//! use qtree::{Device, Fate, Packet, Polled, Settings};
//!
//! let mut device = Device::open(Settings::default())?;
//! device.command("tc qdisc add dev wan root handle 1: fq_codel limit 1000", 0)?;
//! let packet = Packet::builder(1500).buf(7).build()?;
//! assert_eq!(device.arrive(&packet, 0)?, Fate::Kept);
//! match device.poll(10)? {
//!     Polled::Packet(packet) => assert_eq!(packet.buf(), 7),
//!     Polled::Idle | Polled::Later => unreachable!(),
//! }
//! # Ok::<(), qtree::Error>(())
//! ```
//!
//! # What a program does
//!
//! 1. It opens a device with [`Device::open`], and sets it up with [`Device::command`], line by
//!    line, or with [`Device::set_up`], by a whole file.
//! 2. For each frame that comes in, it finds the IP header with [`ip_at`], reads the header with
//!    [`Packet::read`], and lets the packet arrive with [`Device::arrive`].
//!    [`Device::arrive_frame`] does the last two together.
//! 3. As long as the time of [`Device::ready_at`] is not after now, it polls with [`Device::poll`],
//!    and transmits the packets that it gets. If a packet's [`Packet::ecn`] is 3, it first writes
//!    this mark into the packet's bytes with [`mark_head`].
//! 4. It takes the lost packets from [`Device::losses`], each with its [`Cause`], and reuses their
//!    buffers. Losses that no program takes keep memory.
//! 5. It sleeps until the time of [`Device::ready_at`], or until a packet comes in.
//!
//! [`Device::turn`] does the third, the fourth and the question of the fifth by one call, for a
//! program that needs no whole packets to send and to reuse them.
//!
//! # Times
//!
//! A time is a number of nanoseconds since an instant that the program chooses, and is at most
//! [`MOMENT_MAX`]. The device reads no clock: the program passes the time to each call. Time never
//! goes back: the latest time that has counted so far counts in place of a time before it.
//!
//! # Lines of tc
//!
//! A device has the qdiscs pfifo, bfifo, prio, tbf, drr and fq_codel. In this tree a tbf limits a
//! link to 20 Mbit/s, and a drr shares it two to one among two customers, whose packets a filter
//! tells apart by their destination:
//!
//! ```
//! use qtree::{Device, Place, Settings};
//!
//! let mut device = Device::open(Settings::default())?;
//! for line in [
//!     "tc qdisc add dev wan root handle 1: tbf rate 20mbit burst 3028 latency 50ms",
//!     "tc qdisc add dev wan parent 1:1 handle 2: drr",
//!     "tc class add dev wan parent 2: classid 2:1 drr quantum 3000",
//!     "tc class add dev wan parent 2: classid 2:2 drr quantum 1500",
//!     "tc qdisc add dev wan parent 2:1 handle 21: fq_codel",
//!     "tc qdisc add dev wan parent 2:2 handle 22: fq_codel",
//!     "tc filter add dev wan parent 2: prio 1 flower dst_ip 10.0.1.0/24 classid 2:1",
//!     "tc filter add dev wan parent 2: prio 2 protocol all flower classid 2:2",
//! ] {
//!     device.command(line, 0)?;
//! }
//! assert_eq!(device.nodes().len(), 4);
//! assert_eq!(device.service(Place::Class(2, 1)).and_then(|it| it.rate), Some(13_333_333));
//! # Ok::<(), qtree::Error>(())
//! ```
//!
//! The name after `dev` means nothing. In the repository and in each package, the page
//! `LANGUAGE.md` has all lines and options, `DISCIPLINES.md` has the rules of each qdisc, and
//! `EMBEDDING.md` has whole programs.
//!
//! # Threads
//!
//! A [`Device`] may move to another thread, but only one thread at a time uses it. If many threads
//! bring packets, they do so through a [`Drain`]: each of them has a [`Port`] of its own and needs
//! no lock, and a [`Gauge`] reads the counters on any thread. No call waits for another thread.
//!
//! # What is proved
//!
//! What each function of the library does to a device, and what it returns, is proved for every call
//! that keeps to the library's rules. This crate is plain Rust over these functions, which is tested
//! and not proved. It keeps to the rules about pointers, structs and threads. These are up to the
//! program:
//!
//! - No call is made from a signal handler, or in the child of a fork of a program with threads.
//! - A thread that makes a call has at least 64 KB of stack left.
//! - `malloc`, `realloc` and `free` are those of the C library, or behave as those have to.
//! - The system is Linux on a processor with pointers of 64 bits and little-endian byte order. The
//!   library that Rattle's kit builds for x86-64 needs x86-64-v2 or later (SSE4.2 and POPCNT).
//!
//! # Linking
//!
//! The crate is `no_std` and has no dependencies. The library is linked statically: `build.rs` takes
//! `libqtree.a` from the folder that the environment variable `QTREE_LIB` names. If the variable is
//! not set, it looks first in the crate's own folder `lib`, where a package has the library, and
//! then where `make -C embed/c` leaves it in the repository.
#![no_std]
#![deny(missing_docs, unsafe_code, unsafe_op_in_unsafe_fn)]

extern crate alloc;

mod board;
mod builder;
mod cause;
mod class;
mod count;
mod device;
mod drain;
mod error;
mod event;
mod fate;
mod fault;
mod gauge;
mod head;
mod latest;
mod loss;
mod losses;
mod lost;
mod node;
mod offer_error;
mod outlet;
mod packet;
mod packet_error;
mod place;
mod polled;
mod port;
mod qdisc;
#[allow(unsafe_code)]
mod raw;
mod refusal;
mod report;
mod ring_state;
mod row;
mod sent;
mod service;
mod set_up;
mod set_up_error;
mod settings;
mod settled;
mod show;
mod text;
mod turn;
mod turned;
mod undone;
mod worst;

pub use builder::PacketBuilder;
pub use cause::Cause;
pub use class::{Class, DrrTurn};
pub use count::Count;
pub use device::Device;
pub use drain::Drain;
pub use error::Error;
pub use event::{Event, EventKind};
pub use fate::Fate;
pub use fault::Fault;
pub use gauge::Gauge;
pub use head::{ip_at, mark_head};
pub use latest::Latest;
pub use loss::Loss;
pub use losses::Losses;
pub use lost::Lost;
pub use node::{ListedFlows, Node};
pub use offer_error::OfferError;
pub use packet::Packet;
pub use packet_error::PacketError;
pub use place::Place;
pub use polled::Polled;
pub use port::Port;
pub use qdisc::{FqCodel, Qdisc};
pub use refusal::Refusal;
pub use report::Report;
pub use row::Row;
pub use sent::Sent;
pub use service::Service;
pub use set_up_error::SetUpError;
pub use settings::Settings;
pub use settled::Settled;
pub use show::Show;
pub use turn::Turn;
pub use turned::Turned;
pub use undone::Undone;
pub use worst::Worst;

/// The program of the crate's page.
#[cfg(doctest)]
#[doc = include_str!("../README.md")]
struct Page;

/// The latest time that a call takes: 2^62 nanoseconds.
pub const MOMENT_MAX: u64 = 1 << 62;

/// The version of the library that is linked: its major number and its minor number.
#[must_use]
pub fn version() -> (u16, u16) {
    let version = raw::sys::qtree_version();
    ((version >> 16) as u16, version as u16)
}

//! A ring between one sender and one receiver, each of whom keeps what it last saw of the other.

use super::packet::Packet;
use std::cell::UnsafeCell;
use std::mem::MaybeUninit;
use std::sync::Arc;
use std::sync::atomic::{AtomicUsize, Ordering};

/// A number on a line of the cache of its own.
#[repr(align(64))]
struct Place(AtomicUsize);

struct Shared {
    slots: Box<[UnsafeCell<MaybeUninit<Packet>>]>,
    /// How many packets were received, and placed.
    received: Place,
    placed: Place,
}

// SAFETY: a slot is written by the sender alone before it counts as placed, and read by the receiver alone before it counts
// as received.
unsafe impl Sync for Shared {}
unsafe impl Send for Shared {}

pub struct Sender {
    shared: Arc<Shared>,
    placed: usize,
    received: usize,
}

pub struct Receiver {
    shared: Arc<Shared>,
    received: usize,
    placed: usize,
}

/// Both ends of a ring of so many packets.
pub fn ring(places: usize) -> (Sender, Receiver) {
    let slot = || UnsafeCell::new(MaybeUninit::uninit());
    let shared = Arc::new(Shared {
        slots: (0..places).map(|_| slot()).collect(),
        received: Place(AtomicUsize::new(0)),
        placed: Place(AtomicUsize::new(0)),
    });
    let sender = Sender {
        shared: Arc::clone(&shared),
        placed: 0,
        received: 0,
    };
    let receiver = Receiver {
        shared,
        received: 0,
        placed: 0,
    };
    (sender, receiver)
}

impl Sender {
    /// Whether the packet was placed, with the port and its count of placed packets: not where the ring is full.
    #[inline(always)]
    pub fn offer(&mut self, packet: &Packet, port: u32) -> bool {
        let shared = &*self.shared;
        let places = shared.slots.len();
        if self.placed - self.received == places {
            self.received = shared.received.0.load(Ordering::Acquire);
            if self.placed - self.received == places {
                return false;
            }
        }
        let slot = shared.slots[self.placed % places].get();
        self.placed += 1;
        let number = self.placed as u64;
        // SAFETY: the receiver has received what was in the slot.
        unsafe {
            (*slot).write(Packet {
                port,
                number,
                ..*packet
            })
        };
        shared.placed.0.store(self.placed, Ordering::Release);
        true
    }

    /// How many of the packets were placed, from the first on, as by [`Sender::offer`]: all show at once.
    #[inline(always)]
    pub fn offer_many(&mut self, packets: &[Packet], port: u32) -> usize {
        let shared = &*self.shared;
        let places = shared.slots.len();
        if places - (self.placed - self.received) < packets.len() {
            self.received = shared.received.0.load(Ordering::Acquire);
        }
        let room = places - (self.placed - self.received);
        let count = room.min(packets.len());
        for packet in &packets[..count] {
            let slot = shared.slots[self.placed % places].get();
            self.placed += 1;
            let number = self.placed as u64;
            // SAFETY: the receiver has received what was in the slot.
            unsafe {
                (*slot).write(Packet {
                    port,
                    number,
                    ..*packet
                })
            };
        }
        shared.placed.0.store(self.placed, Ordering::Release);
        count
    }
}

impl Receiver {
    /// The first packet, which stays until [`Receiver::step`].
    #[inline(always)]
    pub fn first(&mut self) -> Option<&Packet> {
        let shared = &*self.shared;
        if self.received == self.placed {
            self.placed = shared.placed.0.load(Ordering::Acquire);
            if self.received == self.placed {
                return None;
            }
        }
        let slot = shared.slots[self.received % shared.slots.len()].get();
        // SAFETY: the sender has placed a packet there, and writes there again only after it is received.
        Some(unsafe { (*slot).assume_init_ref() })
    }

    /// The first packet is received. There is one.
    #[inline(always)]
    pub fn step(&mut self) {
        self.received += 1;
        self.shared.received.0.store(self.received, Ordering::Release);
    }
}

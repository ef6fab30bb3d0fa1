//! What `qtree play` does with a script of packets, polls and commands that set the tree up, by the reader and the device
//! beside this module.

use super::device::{Device, Polled};
use crate::plain::head::{Ecn, FlowKey, Head, one_at_a_time};
use crate::plain::line::{Arrival, Line, read_line};
use crate::plain::packet::{Packet, Put};
use std::io::{self, BufWriter, Read, Write};

/// What `qtree play` gives a device where its options say nothing.
const MTU: u16 = 1514;
const TXQUEUELEN: u32 = 1000;
const RECORDER: usize = 4096;

struct Player {
    device: Device,
    packets: u32,
    at: u64,
    sent: Packet,
}

/// Plays the script on standard input and writes its report to standard output. A line that is refused, or that asks for a
/// text of show or totals, is an error.
pub fn play() -> io::Result<()> {
    let mut script = Vec::new();
    io::stdin().read_to_end(&mut script)?;
    let mut output = BufWriter::with_capacity(1 << 16, io::stdout().lock());
    let mut player = Player {
        device: Device::new(MTU, TXQUEUELEN, RECORDER),
        packets: 0,
        at: 0,
        sent: Packet::NONE,
    };
    for line in script.split(|byte| *byte == b'\n') {
        player.run_line(line, &mut output)?;
    }
    output.flush()
}

impl Player {
    fn run_line(&mut self, line: &[u8], output: &mut impl Write) -> io::Result<()> {
        match read_line(line) {
            Ok(Line::Blank) => {}
            Ok(Line::At(ns)) => self.at = ns,
            Ok(Line::Tc(command)) => {
                let done = self.device.command(&command);
                done.ok_or(io::ErrorKind::InvalidInput)?;
            }
            Ok(Line::Pkt(arrival)) => {
                let packet = self.numbered(&arrival);
                self.arrive(&packet)?;
            }
            Ok(Line::Frame { len, head }) => {
                let packet = self.framed(len, &head);
                self.arrive(&packet)?;
            }
            Ok(Line::Poll(polls)) => {
                for _ in 0..polls {
                    self.poll(output)?;
                }
            }
            Ok(_) | Err(_) => return Err(io::ErrorKind::InvalidData.into()),
        }
        Ok(())
    }

    fn arrive(&mut self, packet: &Packet) -> io::Result<()> {
        match self.device.arrive(packet, self.at) {
            Put::Kept | Put::Lost(_) => Ok(()),
            Put::NoMemory => Err(io::ErrorKind::OutOfMemory.into()),
        }
    }

    fn numbered(&mut self, arrival: &Arrival) -> Packet {
        let key = FlowKey {
            family: arrival.family,
            proto: arrival.proto,
            src: arrival.src,
            dst: arrival.dst,
            sport: arrival.sport,
            dport: arrival.dport,
        };
        let (prio, ecn) = (arrival.prio, Ecn::from_bits(arrival.ecn));
        let hash = arrival.hash.unwrap_or_else(|| one_at_a_time(0, &key.bytes()));
        self.packet(arrival.len, &Head { key, prio, ecn }, hash)
    }

    fn framed(&mut self, len: u16, head: &Head) -> Packet {
        self.packet(len, head, one_at_a_time(0, &head.key.bytes()))
    }

    fn packet(&mut self, len: u16, head: &Head, hash: u32) -> Packet {
        self.packets += 1;
        Packet {
            port: 0,
            number: self.packets.into(),
            buf: self.packets,
            len,
            key: head.key,
            hash,
            prio: head.prio,
            ecn: head.ecn,
        }
    }

    fn poll(&mut self, output: &mut impl Write) -> io::Result<()> {
        match self.device.poll(self.at, &mut self.sent) {
            Polled::Packet => {
                let Packet { number, len, ecn, .. } = self.sent;
                let mark = if ecn == Ecn::Ce { " ce" } else { "" };
                writeln!(output, "sent {number} {len}{mark}")
            }
            Polled::Idle => output.write_all(b"idle\n"),
            Polled::Later => output.write_all(b"later\n"),
        }
    }
}

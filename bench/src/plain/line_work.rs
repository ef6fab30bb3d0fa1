//! The workload of `crates/q_bench/src/lines.rt`, over the plain reader.

use super::line::{
    Arrival, ClassId, Command, FqCodel, Keys, Kind, Line, Place, Prefix, TbfLimit, bits, read_line as read,
};
use crate::inputs::Lines;

#[inline(never)]
pub fn read_line(lines: &Lines, passes: u32) -> u64 {
    let mut sum: u64 = 0;
    for _ in 0..passes {
        let mut start = 0;
        for end in &lines.ends {
            let end = *end as usize;
            let Some(line) = lines.text.get(start..end) else {
                return 0;
            };
            sum = sum.rotate_left(5).wrapping_add(said(line));
            start = end;
        }
    }
    sum
}

fn said(line: &[u8]) -> u64 {
    match read(line) {
        Ok(Line::At(ns)) => ns,
        Ok(Line::Pkt(arrival)) => of_packet(&arrival),
        Ok(Line::Poll(polls)) => 2 << 60 | u64::from(polls),
        Ok(Line::Tc(command)) => of_command(&command),
        Ok(_) => 4 << 60,
        Err(_) => 6 << 60,
    }
}

fn of_packet(arrival: &Arrival) -> u64 {
    let numbers = u64::from(arrival.hash.unwrap_or(0)) << 32
        ^ u64::from(arrival.ecn) << 24
        ^ u64::from(arrival.prio) << 16
        ^ u64::from(arrival.len);
    let kind = u64::from(arrival.family) << 8 ^ u64::from(arrival.proto);
    let ports = u64::from(arrival.sport) << 40 ^ u64::from(arrival.dport) << 20;
    numbers ^ kind ^ ports ^ of_address(arrival.src) ^ of_address(arrival.dst) << 1
}

fn of_address(address: u128) -> u64 {
    (address >> 64) as u64 ^ address as u64
}

fn of_command(command: &Command) -> u64 {
    match *command {
        Command::QdiscAdd { place, handle, kind } => {
            of_place(place) << 4 ^ u64::from(handle.unwrap_or(0)) << 40 ^ of_kind(&kind)
        }
        Command::FilterAdd {
            parent,
            prio,
            keys,
            class,
            ..
        } => u64::from(parent) << 48 ^ of_class(class) ^ u64::from(prio) << 32 ^ of_keys(&keys),
        _ => 7 << 60,
    }
}

fn of_place(place: Place) -> u64 {
    match place {
        Place::Class(class) => of_class(class),
        Place::Root => 1,
    }
}

fn of_class(class: ClassId) -> u64 {
    u64::from(class.major) << 16 ^ u64::from(class.minor)
}

fn of_kind(kind: &Kind) -> u64 {
    match *kind {
        Kind::Pfifo { limit } => u64::from(limit.unwrap_or(0)),
        Kind::Bfifo { limit } => 1 << 60 ^ u64::from(limit.unwrap_or(0)),
        Kind::Tbf { rate, burst, limit } => {
            let limit = match limit {
                TbfLimit::Bytes(bytes) => u64::from(bytes),
                TbfLimit::Latency(latency) => 1 << 59 ^ latency,
            };
            2 << 60 ^ rate << 8 ^ u64::from(burst) << 16 ^ limit
        }
        Kind::FqCodel(options) => of_fq_codel(&options),
        _ => 4 << 60,
    }
}

fn of_fq_codel(options: &FqCodel) -> u64 {
    let counts = u64::from(options.limit.unwrap_or(0)) << 8
        ^ u64::from(options.flows.unwrap_or(0)) << 32
        ^ u64::from(options.quantum.unwrap_or(0)) << 16
        ^ u64::from(options.drop_batch.unwrap_or(0));
    let times = options.target.unwrap_or(0) ^ options.interval.unwrap_or(0) << 4;
    3 << 60 ^ counts ^ times ^ u64::from(options.ecn.unwrap_or(false)) << 63
}

fn of_keys(keys: &Keys) -> u64 {
    let ports = u64::from(keys.src_port.unwrap_or(0)) << 20 ^ u64::from(keys.dst_port.unwrap_or(0));
    u64::from(keys.ip_proto.unwrap_or(0)) << 4 ^ ports ^ of_prefix(keys.src_ip) ^ of_prefix(keys.dst_ip) << 1
}

fn of_prefix(prefix: Option<Prefix>) -> u64 {
    match prefix {
        Some(prefix) => of_address(bits(prefix.address)) ^ u64::from(prefix.len) << 36,
        None => 0,
    }
}

//! The rows of the reader: each reads lines of one kind.

use crate::inputs::{self, Xorshift};
use crate::plain::line_work;
use crate::rattle;
use crate::rows::{Row, Sides};
use std::net::{Ipv4Addr, Ipv6Addr};

pub fn all() -> Vec<Row> {
    let mut rows = lines();
    rows.extend(tc_lines());
    rows
}

/// Packets and polls, each row of one kind.
fn lines() -> Vec<Row> {
    vec![
        read_line("poll", |random| match random.below(2) {
            0 => "poll".to_string(),
            _ => format!("poll {}", 1 + random.below(100)),
        }),
        read_line("pkt", |random| format!("pkt {}", 60 + random.below(1454))),
        read_line("pkt, all options, IPv4", |random| {
            let source = Ipv4Addr::from_bits(random.next() as u32);
            let destination = Ipv4Addr::from_bits(random.next() as u32);
            packet(random, &source.to_string(), &destination.to_string())
        }),
        read_line("pkt, all options, IPv6", |random| {
            let source = Ipv6Addr::from_bits(ipv6(random));
            let destination = Ipv6Addr::from_bits(ipv6(random));
            packet(random, &source.to_string(), &destination.to_string())
        }),
    ]
}

/// Lines of tc, each row of one kind.
fn tc_lines() -> Vec<Row> {
    vec![
        read_line("tc qdisc, pfifo", |random| {
            let (handle, limit) = (1 + random.below(0xfffe), random.below(100_000));
            format!("tc qdisc add dev eth0 root handle {handle:x}: pfifo limit {limit}")
        }),
        read_line("tc qdisc, tbf", |random| {
            let (handle, rate) = (1 + random.below(0xfffe), 1 + random.below(1000));
            let (burst, latency) = (1 + random.below(1000), random.below(1000));
            format!(
                "tc qdisc add dev eth0 root handle {handle:x}: tbf rate {rate}mbit burst {burst}kb latency {latency}ms"
            )
        }),
        read_line("tc qdisc, fq_codel", |random| {
            let (minor, handle) = (1 + random.below(0xffff), 1 + random.below(0xfffe));
            let (limit, flows) = (1 + random.below(100_000), 1 + random.below(65536));
            let (target, interval) = (random.below(100), 1 + random.below(1000));
            format!(
                "tc qdisc add dev eth0 parent 1:{minor:x} handle {handle:x}: fq_codel limit {limit} flows {flows} \
                 quantum 1514 target {target}ms interval {interval}ms noecn drop_batch 64"
            )
        }),
        read_line("tc filter", |random| {
            let source = Ipv4Addr::from_bits(random.next() as u32);
            let (prio, len) = (1 + random.below(0xffff), random.below(33));
            let (port, minor) = (random.below(0x10000), 1 + random.below(0xffff));
            format!(
                "tc filter add dev eth0 parent 1: prio {prio} protocol ip flower ip_proto tcp src_ip {source}/{len} \
                 dst_port {port} classid 1:{minor:x}"
            )
        }),
    ]
}

/// A `pkt` line with every option.
fn packet(random: &mut Xorshift, source: &str, destination: &str) -> String {
    let (len, hash, prio) = (60 + random.below(1454), random.below(1 << 32), random.below(16));
    let (sport, dport, ecn) = (random.below(0x10000), random.below(0x10000), random.below(4));
    let proto = ["tcp", "udp", "sctp", "11"][random.below(4) as usize];
    format!(
        "pkt {len} hash {hash} prio {prio} ip_proto {proto} src_ip {source} dst_ip {destination} \
         src_port {sport} dst_port {dport} ecn {ecn}"
    )
}

/// An address of version 6, half of them with a run of zero groups.
fn ipv6(random: &mut Xorshift) -> u128 {
    let (high, low) = (random.next() | 1 << 61, random.next());
    let low = if random.below(2) == 0 { low & 0xffff } else { low };
    u128::from(high) << 64 | u128::from(low)
}

fn read_line(name: &str, line: impl FnMut(&mut Xorshift) -> String + Clone + 'static) -> Row {
    Row {
        name: format!("read_line, {name}"),
        ops: 8192,
        passes: 20,
        sides: Box::new(move || {
            Sides::of(
                inputs::lines(8192, line.clone()),
                |lines, passes| rattle::read_line(lines, passes),
                |lines, passes| line_work::read_line(lines, passes),
            )
        }),
    }
}

//! The texts of show and totals.

use super::plain::device::Device;
use super::plain::fifo::Limit;
use super::plain::filter::{Filters, Network};
use super::plain::line::Object;
use super::plain::row::{Row, Totals};
use super::plain::tree::{Discipline, Node};
use std::io::{self, Write};

/// The node that has a class, and the class's minor number.
type Above<'a> = Option<(&'a Node, u16)>;

impl Device {
    pub fn show(&self, object: Object, counters: bool, output: &mut Vec<u8>) -> io::Result<()> {
        show_from(&self.root, None, object, counters, output)
    }

    pub fn totals(&self, output: &mut Vec<u8>) -> io::Result<()> {
        output.extend(b"device");
        write_row(&self.top, false, output)
    }
}

fn show_from(node: &Node, above: Above, object: Object, counters: bool, output: &mut Vec<u8>) -> io::Result<()> {
    match object {
        Object::Qdisc => {
            show_qdisc(node, above, output)?;
            if counters {
                let is_marking = matches!(node.discipline, Discipline::FqCodel(_));
                write_row(&node.row, is_marking, output)?;
            }
        }
        Object::Class => show_classes(node, output)?,
        Object::Filter => show_filters(node, output)?,
    }
    for (place, child) in node.below().iter().enumerate() {
        let above = Some((node, node.minor_at(place)));
        show_from(child, above, object, counters, output)?;
    }
    Ok(())
}

fn handle_of(node: &Node) -> u16 {
    node.handle.unwrap_or(0)
}

fn show_qdisc(node: &Node, above: Above, output: &mut Vec<u8>) -> io::Result<()> {
    let kind = match &node.discipline {
        Discipline::Fifo(fifo) => match fifo.limit {
            Limit::Packets(_) => "pfifo",
            Limit::Bytes(_) => "bfifo",
        },
        Discipline::Prio { .. } => "prio",
        Discipline::Tbf { .. } => "tbf",
        Discipline::Drr { .. } => "drr",
        Discipline::FqCodel(_) => "fq_codel",
    };
    write!(output, "qdisc {kind} {:x}: ", handle_of(node))?;
    match above {
        None => write!(output, "root")?,
        Some((parent, minor)) => write!(output, "parent {:x}:{minor:x}", handle_of(parent))?,
    }
    show_options(&node.discipline, output)?;
    writeln!(output)
}

fn show_options(discipline: &Discipline, output: &mut Vec<u8>) -> io::Result<()> {
    match discipline {
        Discipline::Fifo(fifo) => match fifo.limit {
            Limit::Packets(limit) => write!(output, " limit {limit}p"),
            Limit::Bytes(limit) => write!(output, " limit {limit}b"),
        },
        Discipline::Prio { priomap, bands } => {
            write!(output, " bands {} priomap", bands.len())?;
            priomap.iter().try_for_each(|band| write!(output, " {band}"))
        }
        Discipline::Tbf {
            bucket, burst, limit, ..
        } => write!(output, " rate {}bit burst {burst}b limit {limit}b", bucket.rate),
        Discipline::Drr { .. } => Ok(()),
        Discipline::FqCodel(queue) => {
            let law = &queue.law;
            write!(
                output,
                " limit {}p flows {} quantum {} target {}ns interval {}ns {} drop_batch {}",
                queue.limit,
                queue.flows,
                queue.quantum,
                law.target,
                law.interval,
                if law.ecn { "ecn" } else { "noecn" },
                queue.drop_batch,
            )
        }
    }
}

fn write_row(row: &Row, is_marking: bool, output: &mut Vec<u8>) -> io::Result<()> {
    let names = ["arrived", "sent", "refused", "dropped", "queued", "marked"];
    let shown = if is_marking { 6 } else { 5 };
    for (name, Totals { packets, bytes }) in names.iter().zip(row.totals()).take(shown) {
        write!(output, " {name} {packets}p {bytes}b")?;
    }
    writeln!(output)
}

fn show_classes(node: &Node, output: &mut Vec<u8>) -> io::Result<()> {
    let handle = handle_of(node);
    for place in 0..node.below().len() {
        let minor = node.minor_at(place);
        match &node.discipline {
            Discipline::Prio { .. } => writeln!(output, "class prio {handle:x}:{minor:x}")?,
            Discipline::Tbf { .. } => writeln!(output, "class tbf {handle:x}:{minor:x}")?,
            Discipline::Drr { active, .. } => {
                let class = &active.classes[place];
                write!(output, "class drr {handle:x}:{minor:x} quantum {}", class.quantum)?;
                if class.is_active {
                    writeln!(output, " active deficit {}", class.deficit)?;
                } else {
                    writeln!(output, " asleep")?;
                }
            }
            Discipline::Fifo(_) | Discipline::FqCodel(_) => {}
        }
    }
    Ok(())
}

fn show_filters(node: &Node, output: &mut Vec<u8>) -> io::Result<()> {
    let handle = handle_of(node);
    for index in 0..node.filters.rest.len() {
        let filter = &node.filters.rest[index];
        write!(output, "filter parent {handle:x}: prio {}", filter.prio)?;
        show_keys(&node.filters, index, output)?;
        let minor = node.minor_at(filter.place.into());
        writeln!(output, " classid {handle:x}:{minor:x}")?;
    }
    Ok(())
}

fn show_keys(filters: &Filters, index: usize, output: &mut Vec<u8>) -> io::Result<()> {
    let (word, rest) = (&filters.words[index], &filters.rest[index]);
    let asked = |shift: u32, mask: u64| {
        let is_asked = (word.mask >> shift) & mask != 0;
        is_asked.then_some((word.value >> shift) & mask)
    };
    let protocol = match asked(40, 0xff) {
        None => "all",
        Some(4) => "ip",
        Some(_) => "ipv6",
    };
    write!(output, " protocol {protocol}")?;
    if let Some(proto) = asked(32, 0xff) {
        write!(output, " ip_proto {proto:x}")?;
    }
    for (name, network) in [("src_ip", &rest.src), ("dst_ip", &rest.dst)] {
        if let Some(network) = network {
            write!(output, " {name} ")?;
            show_network(network, output)?;
        }
    }
    for (name, shift) in [("src_port", 0), ("dst_port", 16)] {
        if let Some(port) = asked(shift, 0xffff) {
            write!(output, " {name} {port}")?;
        }
    }
    Ok(())
}

fn show_network(network: &Network, output: &mut Vec<u8>) -> io::Result<()> {
    let address = network.address;
    if network.family == 4 {
        let [a, b, c, d] = (address as u32).to_be_bytes();
        return write!(output, "{a}.{b}.{c}.{d}/{}", 32 - network.rest);
    }
    for shift in (0..8).rev() {
        let group = address >> (16 * shift) & 0xffff;
        let end = if shift == 0 { "" } else { ":" };
        write!(output, "{group:x}{end}")?;
    }
    write!(output, "/{}", 128 - network.rest)
}

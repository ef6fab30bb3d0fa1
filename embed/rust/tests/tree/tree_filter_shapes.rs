//! Filters that compare many different things: a packet goes where the first that takes it says, as when each is compared.
use crate::bench;
use crate::chance::Chance;
use crate::lines::{self, New};
use qtree::{Device, Error, Fate, Packet, Place};
use std::net::{IpAddr, Ipv4Addr, Ipv6Addr};

const BANDS: u8 = 16;

// A packet that is IP: the version and bits of its addresses, the protocol above and the ports.
#[derive(Clone, Copy, Debug)]
struct Flow {
    family: u8,
    proto: u8,
    addresses: [u128; 2],
    ports: [u16; 2],
}

impl Flow {
    // Numbers of which many filters compare some.
    fn by(chance: &mut Chance) -> Flow {
        let family = if chance.hits(2) { 4 } else { 6 };
        let bits = if family == 4 { 32 } else { 128 };
        let mut address = || u128::from(chance.wide() & 3) << (bits - 2 - chance.below(30));
        let addresses = [address(), address()];
        Flow {
            family,
            proto: [6, 17, 50][chance.place(3)],
            addresses,
            ports: [chance.short(40), chance.short(40)],
        }
    }

    fn address(self, side: usize) -> IpAddr {
        let bits = self.addresses[side];
        match self.family {
            4 => Ipv4Addr::from(u32::try_from(bits).expect("32 bits")).into(),
            _ => Ipv6Addr::from(bits).into(),
        }
    }

    fn packet(self) -> Result<Packet, Error> {
        let built = Packet::builder(100).addresses(self.address(0), self.address(1));
        let built = built.proto(self.proto).ports(self.ports[0], self.ports[1]);
        Ok(built.number(0, 1).hash(0).build()?)
    }
}

// A filter that takes this flow, or would if it compared less: some keys of it, and prefixes of any length.
#[derive(Clone, Copy, Debug)]
struct Filter {
    of: Flow,
    prio: u16,
    minor: u16,
    versioned: bool,
    proto: bool,
    lens: [Option<u8>; 2],
    ports: [bool; 2],
}

impl Filter {
    fn by(chance: &mut Chance) -> Filter {
        let of = Flow::by(chance);
        let mut len =
            || (!chance.hits(3)).then(|| chance.byte(if of.family == 4 { 33 } else { 129 }));
        let lens = [len(), len()];
        Filter {
            of,
            prio: chance.short(60) + 1,
            minor: chance.short(BANDS.into()) + 1,
            versioned: chance.hits(2),
            proto: chance.hits(3),
            lens,
            ports: [chance.hits(4), chance.hits(4)],
        }
    }

    fn line(&self) -> String {
        let protocol = match (self.versioned, self.of.family) {
            (false, _) => "all",
            (true, 4) => "ip",
            (true, _) => "ipv6",
        };
        let mut keys = String::new();
        if self.proto {
            keys += &format!(" ip_proto {:x}", self.of.proto);
        }
        for (side, name) in ["src", "dst"].iter().enumerate() {
            if let Some(len) = self.lens[side] {
                keys += &format!(" {name}_ip {}/{len}", self.of.address(side));
            }
            if self.ports[side] {
                keys += &format!(" {name}_port {}", self.of.ports[side]);
            }
        }
        format!(
            "tc filter add dev wan parent 1: protocol {protocol} prio {} flower{keys} classid 1:{:x}",
            self.prio, self.minor
        )
    }

    fn takes(&self, flow: &Flow) -> bool {
        let same_family = flow.family == self.of.family;
        let bits: u32 = if self.of.family == 4 { 32 } else { 128 };
        let begins = |side: usize, len: u8| {
            let rest = bits - u32::from(len);
            let [a, b] = [flow.addresses[side], self.of.addresses[side]];
            same_family && (rest == 128 || a >> rest == b >> rest)
        };
        (!self.versioned || same_family)
            && (!self.proto || flow.proto == self.of.proto)
            && [0, 1]
                .iter()
                .all(|side| self.lens[*side].is_none_or(|len| begins(*side, len)))
            && [0, 1]
                .iter()
                .all(|side| !self.ports[*side] || flow.ports[*side] == self.of.ports[*side])
    }
}

// The filters of a device, beside it, in the order in which they are asked.
struct Filters {
    device: Device,
    list: Vec<Filter>,
}

impl Filters {
    fn none() -> Result<Filters, Error> {
        let mut device = bench::device(10_000)?;
        device.command(&lines::graft(Place::Root, 1, New::Prio(BANDS)), 0)?;
        Ok(Filters {
            device,
            list: Vec::new(),
        })
    }

    fn add(&mut self, filter: Filter) -> Result<(), Error> {
        self.device.command(&filter.line(), 0)?;
        let place = self
            .list
            .iter()
            .take_while(|it| it.prio <= filter.prio)
            .count();
        self.list.insert(place, filter);
        Ok(())
    }

    fn remove(&mut self, prio: u16) -> Result<(), Error> {
        if self.list.iter().any(|it| it.prio == prio) {
            self.device.command(&lines::del_filters(1, prio), 0)?;
            self.list.retain(|it| it.prio != prio);
        }
        Ok(())
    }

    // The packets that arrived at each band.
    fn arrived(&self) -> Vec<u64> {
        let rows = (1..=u16::from(BANDS)).map(|minor| self.device.stats(Place::Class(1, minor)));
        rows.map(|row| row.map_or(0, |row| bench::packets(row)[0]))
            .collect()
    }

    fn compare(&mut self, flow: Flow) -> Result<bool, Error> {
        let before = self.arrived();
        assert_eq!(
            self.device.arrive(&flow.packet()?, 0)?,
            Fate::Kept,
            "{flow:?}"
        );
        let after = self.arrived();
        let first = self.list.iter().find(|it| it.takes(&flow));
        let minor = first.map_or(1, |it| it.minor);
        for (place, counted) in after.iter().enumerate() {
            let more = u64::from(place + 1 == usize::from(minor));
            assert_eq!(
                *counted,
                before[place] + more,
                "{flow:?} to {minor}, by {first:?}"
            );
        }
        Ok(first.is_some())
    }
}

#[test]
fn the_first_of_many_shapes_decides() -> Result<(), Error> {
    let mut chance = Chance::new(7);
    let (mut taken, mut left) = (0, 0);
    for most in [8, 16, 17, 18, 64, 127, 129, 200, 256] {
        let mut filters = Filters::none()?;
        while filters.list.len() < most {
            filters.add(Filter::by(&mut chance))?;
            let flow = match chance.hits(2) {
                true => filters.list[chance.place(filters.list.len())].of,
                false => Flow::by(&mut chance),
            };
            match filters.compare(flow)? {
                true => taken += 1,
                false => left += 1,
            }
            if chance.hits(40) {
                filters.remove(chance.short(60) + 1)?;
            }
        }
        for _ in 0..100 {
            filters.compare(Flow::by(&mut chance))?;
        }
        for prio in 1..=60 {
            filters.remove(prio)?;
            filters.compare(Flow::by(&mut chance))?;
        }
    }
    assert!(taken > 300 && left > 20, "{taken} {left}");
    Ok(())
}

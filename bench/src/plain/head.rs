/// The fields as Rattle lays them out.
#[repr(C)]
#[derive(Clone, Copy, Default)]
pub struct FlowKey {
    pub src: u128,
    pub dst: u128,
    pub sport: u16,
    pub dport: u16,
    pub proto: u8,
    pub family: u8,
}

impl FlowKey {
    pub const NONE: FlowKey = FlowKey {
        src: 0,
        dst: 0,
        sport: 0,
        dport: 0,
        proto: 0,
        family: 0,
    };

    pub fn bytes(&self) -> [u8; 38] {
        let mut bytes = [0; 38];
        bytes[0] = self.family;
        bytes[1] = self.proto;
        bytes[2..18].copy_from_slice(&self.src.to_be_bytes());
        bytes[18..34].copy_from_slice(&self.dst.to_be_bytes());
        bytes[34..36].copy_from_slice(&self.sport.to_be_bytes());
        bytes[36..38].copy_from_slice(&self.dport.to_be_bytes());
        bytes
    }
}

#[derive(Clone, Copy, Default, PartialEq, Eq)]
#[repr(u8)]
pub enum Ecn {
    #[default]
    NotEct,
    Ect1,
    Ect0,
    Ce,
}

impl Ecn {
    /// The codepoint in the low two bits.
    pub fn from_bits(traffic: u8) -> Ecn {
        match traffic & 3 {
            0 => Ecn::NotEct,
            1 => Ecn::Ect1,
            2 => Ecn::Ect0,
            _ => Ecn::Ce,
        }
    }
}

#[derive(Clone, Copy, Default)]
pub struct Head {
    pub key: FlowKey,
    pub prio: u8,
    pub ecn: Ecn,
}

pub fn read_head(packet: &[u8]) -> Head {
    let head = match packet.first() {
        Some(first) if first >> 4 == 4 => read_ipv4(packet),
        Some(first) if first >> 4 == 6 => read_ipv6(packet),
        _ => None,
    };
    head.unwrap_or_default()
}

fn read_ipv4(packet: &[u8]) -> Option<Head> {
    let fixed: &[u8; 20] = packet.first_chunk()?;
    let header = usize::from(fixed[0] & 0x0f) * 4;
    if header < 20 || packet.len() < header {
        return None;
    }
    let proto = fixed[9];
    let fragment_offset = u16::from_be_bytes([fixed[6], fixed[7]]) & 0x1fff;
    let (sport, dport) = match fragment_offset {
        0 => read_ports(proto, &packet[header..]),
        _ => (0, 0),
    };
    let key = FlowKey {
        family: 4,
        proto,
        src: u32::from_be_bytes([fixed[12], fixed[13], fixed[14], fixed[15]]).into(),
        dst: u32::from_be_bytes([fixed[16], fixed[17], fixed[18], fixed[19]]).into(),
        sport,
        dport,
    };
    Some(head_of(key, fixed[1]))
}

fn read_ipv6(packet: &[u8]) -> Option<Head> {
    let (fixed, rest) = packet.split_first_chunk::<40>()?;
    let traffic = fixed[0] << 4 | fixed[1] >> 4;
    let proto = fixed[6];
    let (sport, dport) = read_ports(proto, rest);
    let (addresses, _) = fixed[8..].as_chunks::<16>();
    let key = FlowKey {
        family: 6,
        proto,
        src: u128::from_be_bytes(addresses[0]),
        dst: u128::from_be_bytes(addresses[1]),
        sport,
        dport,
    };
    Some(head_of(key, traffic))
}

fn read_ports(proto: u8, payload: &[u8]) -> (u16, u16) {
    match (proto, payload) {
        (6 | 17 | 132, [a, b, c, d, ..]) => (u16::from_be_bytes([*a, *b]), u16::from_be_bytes([*c, *d])),
        _ => (0, 0),
    }
}

const PRIO: [u8; 16] = [0, 0, 0, 0, 2, 2, 2, 2, 6, 6, 6, 6, 4, 4, 4, 4];

fn head_of(key: FlowKey, traffic: u8) -> Head {
    let prio = PRIO[usize::from(traffic >> 1 & 0x0f)];
    let ecn = Ecn::from_bits(traffic);
    Head { key, prio, ecn }
}

/// Bob Jenkins' one-at-a-time hash.
pub fn one_at_a_time(seed: u32, bytes: &[u8]) -> u32 {
    let mut hash = seed;
    for byte in bytes {
        hash = hash.wrapping_add(u32::from(*byte));
        hash = hash.wrapping_add(hash << 10);
        hash ^= hash >> 6;
    }
    hash = hash.wrapping_add(hash << 3);
    hash ^= hash >> 11;
    hash.wrapping_add(hash << 15)
}

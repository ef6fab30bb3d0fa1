//! Sends the packets of a device over a socket that is full at times. A packet that it refuses is kept, and goes before any other.
use qtree::{Device, Packet, Polled, Sent, Settings};
use std::error::Error;
use std::io::{self, ErrorKind};
use std::os::unix::net::UnixDatagram;

/// A socket, and the packet that it refused. A device takes no packet back, so the link keeps this one, and sends it before any other.
struct Link {
    socket: UnixDatagram,
    kept: Option<Sent>,
}

impl Link {
    /// Sends until no packet is due or the socket is full, and returns whether it is full.
    fn send(&mut self, device: &mut Device, now: u64) -> Result<bool, qtree::Error> {
        loop {
            let next = match self.kept.take() {
                Some(packet) => Some(packet),
                None => poll_due(device, now)?,
            };
            let Some(packet) = next else { return Ok(false) };
            match self.socket.send(&bytes_of(packet.buf())) {
                Err(error) if error.kind() == ErrorKind::WouldBlock => {
                    self.kept = Some(packet);
                    return Ok(true);
                }
                // Sent, or failed by an error that another attempt would not mend: a program frees the buffer.
                _ => {}
            }
        }
    }
}

/// Polls where a packet is due, since a poll that gives nothing is an event too.
fn poll_due(device: &mut Device, now: u64) -> Result<Option<Sent>, qtree::Error> {
    if device.ready_at().is_none_or(|due| due > now) {
        return Ok(None);
    }
    match device.poll_buf(now)? {
        Polled::Packet(packet) => Ok(Some(packet)),
        _ => Ok(None),
    }
}

/// The bytes of a packet begin with its number.
fn bytes_of(buf: u32) -> [u8; 1000] {
    let mut bytes = [0; 1000];
    bytes[..4].copy_from_slice(&buf.to_ne_bytes());
    bytes
}

/// The other end of the link takes the packets that are there.
fn receive(socket: &UnixDatagram, received: &mut Vec<u32>) -> io::Result<()> {
    let mut bytes = [0; 1000];
    loop {
        match socket.recv(&mut bytes) {
            Err(error) if error.kind() == ErrorKind::WouldBlock => return Ok(()),
            len => assert_eq!(len?, bytes.len()),
        }
        received.push(u32::from_ne_bytes([bytes[0], bytes[1], bytes[2], bytes[3]]));
    }
}

fn main() -> Result<(), Box<dyn Error>> {
    let (near, far) = UnixDatagram::pair()?;
    near.set_nonblocking(true)?;
    far.set_nonblocking(true)?;
    let mut device = Device::open(Settings::default())?;
    device.command("tc qdisc add dev wan root handle 1: pfifo limit 900", 0)?;
    for buf in 0..1000 {
        device.arrive(&Packet::builder(1000).buf(buf).build()?, 0)?;
    }
    let lost = device.losses().count(); // a program frees their buffers
    let mut link = Link {
        socket: near,
        kept: None,
    };
    let (mut received, mut refused) = (Vec::new(), 0);
    while link.send(&mut device, 0)? {
        refused += 1;
        receive(&far, &mut received)?; // a program sleeps until its runtime says that the socket has room
    }
    receive(&far, &mut received)?;
    assert!(received.iter().copied().eq(0..900) && lost == 100 && refused > 0);
    println!(
        "{} of 1000 sent, {refused} of them kept for a while",
        received.len()
    );
    Ok(())
}

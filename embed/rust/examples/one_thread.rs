use qtree::{Device, Packet, Polled, Settings};

fn main() -> Result<(), qtree::Error> {
    let mut device = Device::open(Settings::default())?;
    let line = "tc qdisc add dev wan root handle 1: tbf rate 8mbit burst 2000 latency 50ms";
    device.command(line, 0)?;
    for buf in 0..3 {
        device.arrive(&Packet::builder(1000).buf(buf).build()?, 0)?;
    }
    while let Some(now) = device.ready_at() {
        if let Polled::Packet(packet) = device.poll(now)? {
            println!("{} at {now}", packet.buf());
        }
    }
    for loss in device.losses() {
        println!("{} lost, {}", loss.packet.buf(), loss.cause);
    }
    Ok(())
}

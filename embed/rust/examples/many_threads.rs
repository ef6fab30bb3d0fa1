use qtree::{Drain, OfferError, Packet, PacketError, Settings};
use std::thread;

fn main() -> Result<(), qtree::Error> {
    let (mut drain, ports) = Drain::open(Settings::default(), 2, 64)?;
    let gauge = drain.gauge();
    for mut port in ports {
        thread::spawn(move || {
            for buf in 0..1000 {
                let packet = Packet::builder(1000).buf(buf).build()?;
                while port.offer(&packet) == Err(OfferError::Full) {
                    thread::yield_now();
                }
            }
            Ok::<(), PacketError>(())
        });
    }
    let mut sent = Vec::new();
    while drain.open_ports() > 0 {
        drain.turn(0, 64, &mut sent)?;
        sent.clear(); // a program transmits each packet's buf
    }
    assert!(drain.settle(0)?.adds_up);
    drain.turn(0, 1000, &mut sent)?;
    let row = gauge.read();
    println!("{} of {} sent", row.sent.packets, row.arrived.packets);
    Ok(())
}

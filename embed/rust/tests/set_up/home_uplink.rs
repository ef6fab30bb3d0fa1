//! An uplink whose file is read again while packets wait.
use qtree::{Device, Packet, Settings};

const BEFORE: &str = "# a home uplink of a little more than 20 Mbit/s
tc qdisc add dev eth0 root handle 1: tbf rate 20mbit burst 3000 latency 50ms
tc qdisc add dev eth0 parent 1:1 handle 10: prio bands 2 priomap 1 1 1 1 1 1 1 1 1 1 1 1 1 1 1 1
tc filter add dev eth0 parent 10: protocol ip prio 1 flower ip_proto udp dst_port 53 classid 10:1
tc qdisc add dev eth0 parent 10:2 handle 20: fq_codel
";

// The provider gives more, and DNS is not alone in front.
const AFTER: &str = "# a home uplink of a little more than 30 Mbit/s
tc qdisc add dev eth0 root handle 1: tbf rate 30mbit burst 3000 latency 50ms
tc qdisc add dev eth0 parent 1:1 handle 10: prio bands 2 priomap 1 1 1 1 1 1 1 1 1 1 1 1 1 1 1 1
tc filter add dev eth0 parent 10: protocol ip prio 1 flower ip_proto udp dst_port 53 classid 10:1
tc filter add dev eth0 parent 10: protocol ip prio 2 flower ip_proto tcp dst_port 22 classid 10:1
tc qdisc add dev eth0 parent 10:2 handle 20: fq_codel
";

#[test]
fn an_uplink_is_set_up_again() -> Result<(), Box<dyn std::error::Error>> {
    let mut device = Device::open(Settings::default())?;
    // What each file in turn adds, changes and deletes.
    let files = [
        (BEFORE, (4, 0, 0)),
        (AFTER, (1, 1, 0)),
        (AFTER, (0, 0, 0)),
        (BEFORE, (0, 1, 1)),
    ];
    for (number, (text, counts)) in files.into_iter().enumerate() {
        let report = device.set_up(text, 0)?;
        let found = (report.added, report.changed, report.deleted);
        assert_eq!(found, counts, "file {number}");
        if number == 0 {
            fill(&mut device)?;
        }
        assert_eq!(device.totals().queued.packets, 10, "file {number}");
    }
    Ok(())
}

fn fill(device: &mut Device) -> Result<(), qtree::Error> {
    for number in 0..10 {
        let packet = Packet::builder(1000).number(0, number).hash(0).build()?;
        device.arrive(&packet, 0)?;
    }
    Ok(())
}

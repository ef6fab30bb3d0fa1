//! Lines that are not done, and that nothing is done then.
use qtree::{Device, Error, Fault, Refusal, SetUpError, Settings};

const FILE: &str = "# ten lines that a new device does not do, among two that it does
tc qdisc add dev eth0 root handle 1: prio

tc qdisc add dev eth0 root handle 2: pfifo
tc qdisc add dev eth0 parent 1:9 pfifo
tc qdisc ad dev eth0 parent 1:1 pfifo
tc qdisc add dev eth0 parent 1:1 pfifo limit x
tc qdisc show dev eth0
pkt 100
tc qdisc add dev eth0 parent 1:1 pfifo
poll
at 5
tc qdisc replace dev eth0 parent 1:1 pfifo
tc filter del dev eth0 parent 1: prio 3";

const UNDONE: [(u64, Error); 10] = [
    (4, Error::Refused(Refusal::Exists)),
    (5, Error::Refused(Refusal::NoClass)),
    (6, faulty(Fault::UnknownWord, 3)),
    (7, faulty(Fault::BadNumber, 10)),
    (8, Error::NoCommand),
    (9, Error::NoCommand),
    (11, Error::NoCommand),
    (12, Error::NoCommand),
    (13, faulty(Fault::UnknownWord, 3)),
    (14, Error::Refused(Refusal::NoFilter)),
];

const fn faulty(fault: Fault, word: usize) -> Error {
    Error::Faulty { fault, word }
}

// A device that a file has set up already.
fn device() -> Result<Device, Box<dyn std::error::Error>> {
    let mut device = Device::open(Settings::default())?;
    device.set_up("tc qdisc add dev eth0 root handle 7: pfifo limit 3", 0)?;
    assert_eq!(device.nodes()[0].handle, Some(7));
    Ok(device)
}

// The call asks for more room where there are more lines than it has room for.
#[test]
fn every_number_of_undone_lines_is_reported() -> Result<(), Box<dyn std::error::Error>> {
    let mut device = device()?;
    for count in [1, 15, 16, 17, 18, 32, 33, 1000] {
        let Err(SetUpError::Undone(undone)) = device.set_up("tc qdisc ad\n".repeat(count), 0)
        else {
            panic!("{count} lines are done");
        };
        assert!(undone.iter().map(|it| it.line).eq(1..=count as u64));
    }
    Ok(())
}

#[test]
fn lines_that_are_not_done_are_told() -> Result<(), Box<dyn std::error::Error>> {
    let mut device = device()?;
    let before = (device.nodes(), device.events());
    let Err(SetUpError::Undone(undone)) = device.set_up(FILE, 0) else {
        panic!("it is done");
    };
    let undone: Vec<(u64, Error)> = undone.iter().map(|it| (it.line, it.why)).collect();
    assert_eq!(undone, UNDONE);
    assert_eq!((device.nodes(), device.events()), before);
    let done = (1..).zip(FILE.lines()).map(|(number, line)| {
        let is_undone = UNDONE.iter().any(|(undone, _)| *undone == number);
        if is_undone { "#" } else { line }
    });
    let report = device.set_up(done.collect::<Vec<_>>().join("\n"), 0)?;
    assert_eq!((report.lines, report.added), (14, 2));
    Ok(())
}

#[test]
fn an_empty_file_leaves_an_implicit_root() -> Result<(), Box<dyn std::error::Error>> {
    let mut device = device()?;
    device.set_up("", 0)?;
    assert_eq!(device.nodes()[0].handle, None);
    Ok(())
}

//! A link of two customers that is set up by a whole file, and again when the file has changed.
use qtree::{Device, Error, Fault, Packet, Refusal, SetUpError, Settings};

const SHARES: &str = "# two customers
tc qdisc add dev wan root handle 1: drr
tc class add dev wan parent 1: classid 1:1 drr quantum 3000
tc class add dev wan parent 1: classid 1:2 drr quantum 1500
tc qdisc add dev wan parent 1:1 handle 11: fq_codel
tc filter add dev wan parent 1: prio 1 flower src_port 1 classid 1:1
tc filter add dev wan parent 1: prio 2 flower classid 1:2
";

fn with_packets(text: &str) -> Result<Device, Box<dyn std::error::Error>> {
    let mut device = Device::open(Settings::default())?;
    let report = device.set_up(text, 0)?;
    assert_eq!(report.to_string(), "6 added, 0 changed, 0 deleted");
    for buf in 0..10 {
        device.arrive(&Packet::builder(1000).buf(buf).build()?, 0)?;
    }
    Ok(device)
}

#[test]
fn packets_stay_where_their_lines_stay() -> Result<(), Box<dyn std::error::Error>> {
    let mut device = with_packets(SHARES)?;
    let report = device.set_up(SHARES.replace("3000", "4500"), 1)?;
    assert_eq!((report.added, report.changed, report.deleted), (0, 1, 0));
    assert_eq!(device.totals().queued.packets, 10);
    let again = device.set_up(SHARES.replace("3000", "4500").into_bytes(), 2)?;
    assert_eq!(again.to_string(), "everything was there already");
    let report = device.set_up("", 3)?;
    assert_eq!((report.lines, report.deleted), (0, 1));
    assert_eq!(device.losses().count(), 10);
    Ok(())
}

#[test]
fn lines_that_are_not_done_are_told() -> Result<(), Box<dyn std::error::Error>> {
    let mut device = with_packets(SHARES)?;
    let wrong = SHARES
        .replace("fq_codel", "fq_codl")
        .replace("classid 1:2\n", "classid 1:3\n");
    let Err(SetUpError::Undone(undone)) = device.set_up(&wrong, 1) else {
        panic!("it is done");
    };
    let [typo, missing] = undone.as_slice() else {
        panic!("{undone:?}");
    };
    assert_eq!(typo.line, 5);
    let fault = Fault::UnknownWord;
    assert_eq!(typo.why, Error::Faulty { fault, word: 10 });
    assert_eq!(missing.line, 7);
    assert_eq!(missing.why, Error::Refused(Refusal::NoClass));
    assert_eq!(
        missing.to_string(),
        "line 7: the command is refused: there is no such class"
    );
    let line = wrong.lines().nth(4).unwrap_or_default();
    let sentence = typo.why.explain(line, typo.line).unwrap_or_default();
    assert!(sentence.starts_with("line 5: tc qdisc add dev wan parent 1:1 handle 11: fq_codl\n"));
    assert_eq!(device.totals().queued.packets, 10);
    Ok(())
}

#[test]
fn many_lines_are_not_done() -> Result<(), Error> {
    let mut device = Device::open(Settings::default())?;
    let error = device.set_up("poll\n".repeat(100), 0);
    let Err(SetUpError::Undone(undone)) = &error else {
        panic!("it is done");
    };
    assert_eq!(undone.len(), 100);
    for (number, it) in (1..).zip(undone) {
        assert_eq!((it.line, it.why), (number, Error::NoCommand));
    }
    let said = error.map_err(|it| it.to_string()).unwrap_err();
    assert_eq!(
        said,
        "line 1: the line is no command, and changes no tree; 99 more lines are not done"
    );
    let late = device.set_up("", u64::MAX);
    assert_eq!(late, Err(SetUpError::OutOfRange));
    Ok(())
}

//! Random events written as lines of a script. Each line says its event; and what a device records
//! of the script plays to the same report again.
use crate::commands::Command;
use crate::events::{EVENTS, What, events};
use crate::grounds::{ground, opened, refusal};
use crate::lines::{line, script};
use crate::script::{end, packet, play};
use qtree::{Device, Error, Event, EventKind, Packet, Settings};
use std::collections::BTreeSet;

const SEED: u64 = 77;

/// Each event happens to a device of its own, which does it and records it.
#[test]
fn a_line_says_its_event() -> Result<(), Error> {
    let events = events(SEED)?;
    assert_eq!(events.len(), EVENTS);
    let mut done = [0; 10];
    for (_, what) in &events {
        let line = line(what);
        let is_done = match what {
            What::Arrive(packet) => expect_arrival(packet, &line).map(|()| true)?,
            What::Poll => expect_poll(&line).map(|()| true)?,
            What::Command(command) => expect_command(command, &line)?,
        };
        done[kind_of(what)] += u32::from(is_done);
    }
    assert!(done.iter().all(|count| *count >= 50), "{done:?}");
    Ok(())
}

// The line that is recorded is the one that was written, and says all of the packet but its port,
// its number and its buffer.
fn expect_arrival(sent: &Packet, line: &str) -> Result<(), Error> {
    let mut device = opened(&[])?;
    device.arrive(sent, 0)?;
    expect_last(&device, EventKind::Arrived(*sent), line)?;
    let words: Vec<&str> = line.split(' ').collect();
    let read = packet(&words, sent.number());
    let fields = |it: &Packet| {
        let ends = (it.src(), it.dst(), it.ports(), it.proto());
        (ends, it.hash(), it.len(), it.prio(), it.ecn())
    };
    assert_eq!(fields(&read), fields(sent), "{line}");
    assert_eq!(device.command(line, 0), Err(Error::NoCommand), "{line}");
    Ok(())
}

fn expect_poll(line: &str) -> Result<(), Error> {
    let mut device = opened(&[])?;
    device.poll(0)?;
    expect_last(&device, EventKind::Polled, line)?;
    assert_eq!(device.command(line, 0), Err(Error::NoCommand), "{line}");
    Ok(())
}

// Whether the line is done: then it is read as a command whose line it is again. If what it names
// cannot be in one tree, it is refused for that.
fn expect_command(command: &Command, line: &str) -> Result<bool, Error> {
    let mut device = opened(&ground(command))?;
    let before = device.recorded_script()?;
    let refusal = refusal(command);
    let expected = refusal.map_or(Ok(()), |why| Err(Error::Refused(why)));
    assert_eq!(device.command(line, 0), expected, "{line} after {before}");
    if refusal.is_some() {
        assert_eq!(device.recorded_script()?, before, "{line}");
        return Ok(false);
    }
    expect_last(&device, EventKind::Commanded(line.to_owned()), line)?;
    assert_eq!(device.recorded_script()?, format!("{before}{line}\n"));
    Ok(true)
}

// The last event that was recorded, and its line.
fn expect_last(device: &Device, kind: EventKind, line: &str) -> Result<(), Error> {
    let (_, recorded) = device.events();
    let last = device.recorded(recorded - 1)?.map(|event| event.kind);
    assert_eq!(last, Some(kind), "{line}");
    assert_eq!(device.recorded_script()?.lines().last(), Some(line));
    Ok(())
}

fn kind_of(what: &What) -> usize {
    match what {
        What::Arrive(_) => 0,
        What::Poll => 1,
        What::Command(command) => match command {
            Command::QdiscAdd(..) => 2,
            Command::QdiscChange(..) => 3,
            Command::QdiscDel(..) => 4,
            Command::ClassAdd(..) => 5,
            Command::ClassChange(..) => 6,
            Command::ClassDel(..) => 7,
            Command::FilterAdd(..) => 8,
            Command::FilterDel(..) => 9,
        },
    }
}

/// What was recorded is what was done. It is recorded again when it is played, and its report is
/// the first one but for the refusals.
#[test]
fn a_recorded_session_is_played_again() -> Result<(), Error> {
    let events = events(SEED)?;
    let (again, first, refused) = recorded(&script(&events))?;
    let done = events.iter().enumerate();
    let done = done.filter(|(i, _)| !refused.contains(i));
    expect_same(&again, &script(done.map(|(_, event)| event)));
    let (same, second, refused) = recorded(&again)?;
    expect_same(&same, &again);
    assert_eq!(refused, BTreeSet::new());
    let told = first.iter().filter(|line| !line.starts_with("line "));
    assert_eq!(told.collect::<Vec<_>>(), second.iter().collect::<Vec<_>>());
    let done = again.lines().filter(|line| line.starts_with("tc ")).count();
    expect_all_is_told(&first, done);
    Ok(())
}

// Each line of a script is that of the other.
fn expect_same(script: &str, other: &str) {
    for (i, (line, expected)) in script.lines().zip(other.lines()).enumerate() {
        assert_eq!(line, expected, "line {}", i + 1);
    }
    assert!(script == other, "one goes on");
}

// Plays a script; the script of what the device recorded, the report, and which events were
// refused.
fn recorded(script: &str) -> Result<(String, Vec<String>, BTreeSet<usize>), Error> {
    let mut device = Device::open(Settings {
        recorder: 20_000,
        ..Settings::default()
    })?;
    let played = play(&mut device, script)?;
    let mut report = played.report;
    report.extend(end(&mut device)?);
    expect_lines(&device)?;
    Ok((device.recorded_script()?, report, played.refused))
}

// Each recorded event by itself is the one of the script.
fn expect_lines(device: &Device) -> Result<(), Error> {
    let (_, recorded) = device.events();
    let mut events = Vec::new();
    for i in 0..recorded {
        events.extend(device.recorded(i)?);
    }
    let script = device.recorded_script()?;
    let mut now = 0;
    let mut lines = script.lines();
    for Event { moment, kind, .. } in events {
        if moment != now {
            assert_eq!(lines.next(), Some(format!("at {moment}").as_str()));
            now = moment;
        }
        let line = match kind {
            EventKind::Arrived(packet) => line(&What::Arrive(packet)),
            EventKind::Polled => line(&What::Poll),
            EventKind::Commanded(line) => line,
        };
        assert_eq!(lines.next(), Some(line.as_str()));
    }
    assert_eq!(lines.next(), None);
    Ok(())
}

// Packets were sent and lost, polls gave none, and commands were done and refused.
fn expect_all_is_told(report: &[String], done: usize) {
    let count = |begin: &str| report.iter().filter(|line| line.starts_with(begin)).count();
    let (sent, lost, refused) = (count("sent "), count("lost "), count("line "));
    let (idle, later) = (count("idle"), count("later"));
    assert!(sent >= 300 && lost >= 300, "{sent} {lost}");
    assert!(idle >= 30 && later >= 30, "{idle} {later}");
    assert!(done >= 100 && refused >= 100, "{done} {refused}");
}

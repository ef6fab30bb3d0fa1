//! For each command a device on which it is done, unless it contradicts itself: then no device does
//! it.
use crate::commands::{Class, Command};
use crate::lines::qdisc;
use qtree::{Device, Error, Place, Refusal, Settings};

/// A new device after these lines, which records.
pub fn opened(lines: &[String]) -> Result<Device, Error> {
    let mut device = Device::open(Settings {
        recorder: 8,
        ..Settings::default()
    })?;
    for line in lines {
        device.command(line, 0)?;
    }
    Ok(device)
}

/// What a device needs so that it does this command.
pub fn ground(command: &Command) -> Vec<String> {
    match command {
        Command::QdiscAdd(place, ..) => place_made(*place),
        Command::QdiscChange(place, major, kind) => qdisc_made(*place, *major, &kind.before),
        Command::QdiscDel(place, major) => qdisc_made(*place, *major, " pfifo"),
        Command::ClassAdd(_, (major, _), _) => vec![drr_made(*major)],
        Command::ClassChange(_, class, _) | Command::ClassDel(_, class) => class_made(*class),
        Command::FilterAdd(parent, filter) => class_made((*parent, filter.class.1)),
        Command::FilterDel(parent, prio) => {
            let mut lines = class_made((*parent, 1));
            lines.push(format!(
                "tc filter add dev wan parent {parent:x}: prio {prio} flower classid {parent:x}:1"
            ));
            lines
        }
    }
}

/// How it is refused there, if what it names cannot be in one tree.
pub fn refusal(command: &Command) -> Option<Refusal> {
    match command {
        Command::QdiscAdd(place, major, _) => {
            is_below_itself(Some(*place), *major).then_some(Refusal::HandleTaken)
        }
        Command::QdiscChange(place, major, _) | Command::QdiscDel(place, major) => {
            is_below_itself(*place, *major).then_some(Refusal::NoQdisc)
        }
        Command::ClassAdd(parent, class, _) => {
            is_of_another(*parent, *class).then_some(Refusal::NoParent)
        }
        Command::ClassChange(parent, class, _) | Command::ClassDel(parent, class) => parent
            .is_some_and(|parent| is_of_another(parent, *class))
            .then_some(Refusal::NoParent),
        Command::FilterAdd(parent, filter) => {
            is_of_another(*parent, filter.class).then_some(Refusal::NoClass)
        }
        Command::FilterDel(..) => None,
    }
}

// Whether the class is of another qdisc than this one.
fn is_of_another(parent: u16, (major, _): Class) -> bool {
    parent != major
}

// Whether the qdisc has the handle of the one whose class it is in.
fn is_below_itself(place: Option<Place>, handle: Option<u16>) -> bool {
    matches!((place, handle), (Some(Place::Class(major, _)), Some(handle)) if major == handle)
}

fn drr_made(major: u16) -> String {
    format!("tc qdisc add dev wan root handle {major:x}: drr")
}

fn class_made((major, minor): Class) -> Vec<String> {
    let class = format!("tc class add dev wan parent {major:x}: classid {major:x}:{minor:x} drr");
    vec![drr_made(major), class]
}

fn place_made(place: Place) -> Vec<String> {
    match place {
        Place::Class(major, minor) => class_made((major, minor)),
        _ => Vec::new(),
    }
}

// The place, and this qdisc in it; at the root where no place is named.
fn qdisc_made(place: Option<Place>, major: Option<u16>, words: &str) -> Vec<String> {
    let at_place = place.unwrap_or(Place::Root);
    let mut lines = place_made(at_place);
    if !is_below_itself(place, major) {
        let qdisc = qdisc(Some(at_place), major);
        lines.push(format!("tc qdisc add dev wan{qdisc}{words}"));
    }
    lines
}

//! Random files in turn on a device whose packets go on, against a new device after the last one.
use crate::chance::Chance;
use crate::comparing::tree;
use crate::files::{edited, file};
use qtree::{Device, EventKind, Node, Packet, Place, Qdisc, Settings};

type Tried<T> = Result<T, Box<dyn std::error::Error>>;

#[test]
fn trees_agree_after_random_files() -> Tried<()> {
    let mut chance = Chance::new(17);
    for _round in 0..1000 {
        check_files(&mut chance)?;
    }
    Ok(())
}

// Three files in turn on a new device.
fn check_files(chance: &mut Chance) -> Tried<()> {
    let mut device = Device::open(Settings::default())?;
    let mut text = String::new();
    for now in [0, 1_000_000, 2_000_000] {
        text = if chance.hits(2) && !text.is_empty() {
            edited(chance, &text)?
        } else {
            let drawn = chance.below(60);
            file(chance, drawn)?
        };
        check_file(&mut device, &text, now)?;
        traffic(&mut device, chance, now)?;
    }
    Ok(())
}

// A file on the device, and on a new one.
fn check_file(device: &mut Device, text: &str, now: u64) -> Tried<()> {
    let mut new = Device::open(Settings::default())?;
    play(&mut new, text, 0)?;
    let before = device.nodes();
    play(device, text, now)?;
    // A line names a number that a device chooses.
    let exact = text.contains(" 800");
    assert_eq!(tree(&new, exact)?, tree(device, exact)?, "after {text}");
    expect_kept(&before, &new.nodes(), &device.nodes(), text);
    // The same file once more asks for nothing.
    let events = device.events();
    let again = play(device, text, now)?;
    assert!(again.is_empty(), "{again:?} again after {text}");
    assert_eq!(device.events(), events, "after {text}");
    Ok(())
}

// The commands that were done. A command names the root as a place only where the tree is emptied,
// and the lines are done as they stand.
fn play(device: &mut Device, text: &str, now: u64) -> Tried<Vec<String>> {
    device.keep_last(200)?;
    let report = device.set_up(text, now)?;
    let mut commands = Vec::new();
    for event in device.last_events()? {
        match event.kind {
            EventKind::Commanded(line) => commands.push(line),
            other => panic!("{other:?} by {text}"),
        }
    }
    let count = report.added + report.changed + report.deleted;
    assert_eq!(commands.len() as u64, count, "{commands:?} by {text}");
    let is_emptied = commands
        .iter()
        .any(|line| line.starts_with("tc qdisc del dev eth0 root"));
    assert!(!is_emptied, "{commands:?} by {text}");
    Ok(commands)
}

// A leaf whose line, and each above it, says what it said has the packets that it had.
fn expect_kept(before: &[Node], new: &[Node], after: &[Node], text: &str) {
    for leaf in before.iter().filter(|it| is_leaf(it)) {
        if says_the_same(before, leaf, new) {
            let queued = find(after, leaf).map(|it| it.row.queued);
            assert_eq!(queued, Some(leaf.row.queued), "{leaf} after {text}");
        }
    }
}

fn is_leaf(node: &Node) -> bool {
    let is_queue = matches!(
        node.qdisc,
        Qdisc::Pfifo { .. } | Qdisc::Bfifo { .. } | Qdisc::FqCodel(_)
    );
    is_queue && node.handle.is_some()
}

// Whether a new device has the qdisc, and each above it.
fn says_the_same(before: &[Node], node: &Node, new: &[Node]) -> bool {
    if find(new, node).is_none_or(|it| it.qdisc != node.qdisc) {
        return false;
    }
    let Place::Class(major, _) = node.place else {
        return true;
    };
    before
        .iter()
        .find(|it| it.handle == Some(major))
        .is_some_and(|above| says_the_same(before, above, new))
}

fn find<'a>(nodes: &'a [Node], node: &Node) -> Option<&'a Node> {
    nodes
        .iter()
        .find(|it| it.handle == node.handle && it.place == node.place)
}

fn traffic(device: &mut Device, chance: &mut Chance, now: u64) -> Result<(), qtree::Error> {
    for number in 0..40 {
        if chance.hits(3) {
            device.poll(now)?;
        } else {
            device.arrive(&packet(chance, number)?, now)?;
        }
    }
    Ok(())
}

fn packet(chance: &mut Chance, number: u64) -> Result<Packet, qtree::Error> {
    let len = chance.upto(1500) as u16;
    let prio = chance.below(2) as u8;
    let hash = chance.below(1 << 32) as u32;
    let builder = Packet::builder(len).number(0, number).prio(prio);
    Ok(builder.hash(hash).build()?)
}

//! Trees as what show prints of them, but for counters, deficits and the order of classes.
use qtree::{Device, Error, Node, Place, Show};

/// The qdiscs of a device, each with its settings, its classes and its filters, in an order of its
/// own. With `exact` each has the number that its line names; else a number from 8001 (hexadecimal)
/// up, which the device chose, counts as 8001.
pub fn tree(device: &Device, exact: bool) -> Result<Vec<String>, Error> {
    let filters = device.show(Show::Filters)?;
    let nodes = device.nodes();
    let mut tree: Vec<String> = nodes.iter().map(|it| told(it, &filters, exact)).collect();
    tree.sort();
    Ok(tree)
}

fn told(node: &Node, filters: &str, exact: bool) -> String {
    let number = |major: u16| if exact { major } else { major.min(0x8001) };
    let handle = node.handle.map(number);
    let place = match node.place {
        Place::Class(major, minor) => Place::Class(number(major), minor),
        place => place,
    };
    let mut classes: Vec<(u16, Option<u32>)> = node
        .classes
        .iter()
        .map(|it| (it.minor, it.turn.map(|turn| turn.quantum)))
        .collect();
    classes.sort();
    let filters = filters_of(node, filters);
    format!(
        "{handle:x?} at {place}: {:?}, classes {classes:x?}, filters {filters:?}",
        node.qdisc
    )
}

// The lines of its filters, in their order.
fn filters_of<'a>(node: &Node, filters: &'a str) -> Vec<&'a str> {
    let Some(handle) = node.handle else {
        return Vec::new();
    };
    let parent = format!("filter parent {handle:x}: ");
    filters
        .lines()
        .filter(|line| line.starts_with(&parent))
        .collect()
}

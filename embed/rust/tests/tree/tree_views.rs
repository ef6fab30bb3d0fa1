//! What is shown of a tree of one pfifo, and a command that it refuses.
use crate::bench::{self, Call, KEPT, play, play_small};
use crate::lines::New;
use qtree::{Error, Place, Qdisc, Refusal, Show};

// An implicit pfifo of two packets at the root is all that is shown.
#[test]
fn a_pfifo_is_shown_alone() -> Result<(), Error> {
    let device = bench::device(2)?;
    let nodes = device.nodes();
    assert_eq!(nodes.len(), 1);
    assert_eq!((nodes[0].handle, nodes[0].place), (None, Place::Root));
    assert_eq!(nodes[0].qdisc, Qdisc::Pfifo { limit: 2 });
    assert_eq!(nodes[0].classes, []);
    assert_eq!(device.show(Show::Classes)?, "");
    assert_eq!(device.show(Show::Filters)?, "");
    Ok(())
}

#[test]
fn a_pfifo_takes_no_filter() -> Result<(), Error> {
    play_small(2, &[Call::Unfilter(1, Some(Refusal::NoQdisc))])
}

#[test]
fn a_flow_is_listed_as_new_and_then_as_old() -> Result<(), Error> {
    play(&[
        Call::Graft(Place::Root, 1, New::Prio(3), None),
        Call::Graft(Place::Class(1, 3), 2, New::Fair(300), None),
        Call::Put(1, 100, 2, KEPT),
        Call::Put(2, 100, 3, KEPT),
        Call::Flows(3, Some((2, 0))),
        Call::Take(1),
        Call::Flows(3, Some((2, 0))),
        // The first flow has no packet left, and goes behind the old flows before the second
        // sends.
        Call::Take(2),
        Call::Flows(3, Some((1, 1))),
        Call::Take(0),
        Call::Flows(3, Some((0, 0))),
        // Bands have no flows, and there is no fifth node.
        Call::Flows(2, None),
        Call::Flows(4, None),
    ])
}

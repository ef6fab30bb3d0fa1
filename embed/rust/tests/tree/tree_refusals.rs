//! Each refusal of each command, and commands that two neighbours in the order of refusals would
//! refuse: the earlier is reported.
//!
//! Memory, the last of each, is refused by an allocator and not by a tree, so that no row has it.
use crate::bench::{Call, played};
use crate::lines::{
    New, add_class, add_filter, change, change_class, del_class, del_filters, graft, prune,
};
use qtree::Place::{Class, Root};
use qtree::{Error, Refusal};

// The refusals of a tree that these calls make. Each line comes twice, since what is refused
// changes nothing.
fn refused(calls: &[Call], rows: &[(String, Refusal)]) -> Result<(), Error> {
    let mut device = played(100, calls)?;
    for (row, (line, refusal)) in rows.iter().enumerate() {
        for _ in 0..2 {
            let answer = device.command(line, 0);
            assert_eq!(answer, Err(Error::Refused(*refusal)), "row {row}: {line}");
        }
    }
    Ok(())
}

// A prio, 1:, over a pfifo, a drr with the class 3:5, a tbf with its implicit leaf, and an
// fq_codel. Filters lead to the fourth band of the prio and to the class of the drr.
const SMALL_TREE: [Call; 8] = [
    Call::Graft(Root, 1, New::Prio(4), None),
    Call::Graft(Class(1, 1), 2, New::Pfifo, None),
    Call::Graft(Class(1, 2), 3, New::Drr, None),
    Call::Graft(Class(1, 3), 4, New::Tbf(3000), None),
    Call::Graft(Class(1, 4), 5, New::FqCodel(5), None),
    Call::AddClass(3, 5, 0, None),
    Call::Match(1, 4, 7, None),
    Call::Match(3, 5, 7, None),
];

#[test]
fn a_new_qdisc_is_refused() -> Result<(), Error> {
    refused(
        &SMALL_TREE,
        &[
            // Not with NotClassful: a parent that is not there is of no kind.
            (graft(Class(9, 1), 1, New::Pfifo), Refusal::NoParent),
            // With NoClass: a qdisc without classes has none of the name.
            (graft(Class(2, 1), 6, New::Pfifo), Refusal::NotClassful),
            (graft(Class(5, 1), 2, New::Pfifo), Refusal::NotClassful),
            // Not with Exists: there is nothing in a class that is not there.
            (graft(Class(1, 5), 6, New::Pfifo), Refusal::NoClass),
            (graft(Class(3, 1), 6, New::Pfifo), Refusal::NoClass),
            (graft(Class(4, 2), 2, New::Pfifo), Refusal::NoClass),
            (graft(Root, 6, New::Pfifo), Refusal::Exists),
            // With HandleTaken.
            (graft(Class(1, 1), 2, New::Pfifo), Refusal::Exists),
            (graft(Class(4, 1), 2, New::Pfifo), Refusal::HandleTaken),
            (graft(Class(3, 5), 1, New::Pfifo), Refusal::HandleTaken),
        ],
    )
}

#[test]
fn a_change_is_refused() -> Result<(), Error> {
    refused(
        &SMALL_TREE,
        &[
            // Not with CannotChange: a qdisc that is not there is of no kind.
            (change(None, 9, New::Pfifo), Refusal::NoQdisc),
            (change(Some(Class(9, 1)), 0, New::Pfifo), Refusal::NoQdisc),
            (change(Some(Class(2, 1)), 2, New::Pfifo), Refusal::NoQdisc),
            (change(Some(Class(1, 5)), 0, New::Pfifo), Refusal::NoQdisc),
            // An implicit leaf, and one with the handle of a qdisc that could be changed.
            (change(Some(Class(3, 5)), 0, New::Pfifo), Refusal::NoQdisc),
            (change(Some(Class(3, 5)), 2, New::Pfifo), Refusal::NoQdisc),
            (change(Some(Class(1, 1)), 1, New::Prio(4)), Refusal::NoQdisc),
            (change(None, 2, New::Bfifo(1)), Refusal::CannotChange),
            (change(Some(Root), 1, New::Drr), Refusal::CannotChange),
            (change(None, 5, New::Flows(2)), Refusal::CannotChange),
            // With Busy, were it a prio: a filter leads to the class 3:5.
            (change(None, 3, New::Prio(2)), Refusal::CannotChange),
            // With SmallBurst, were it a tbf.
            (change(None, 1, New::Tbf(1)), Refusal::CannotChange),
            // Not with SmallBurst: a prio has no burst. Not with TooMany: bands that are named are
            // there, so that none come.
            (change(None, 1, New::Prio(3)), Refusal::Busy),
            // Not with TooMany: a tbf gets no node more.
            (change(None, 4, New::Tbf(1499)), Refusal::SmallBurst),
        ],
    )
}

#[test]
fn a_removal_is_refused() -> Result<(), Error> {
    refused(
        &SMALL_TREE,
        &[
            (prune(None, 9), Refusal::NoQdisc),
            (prune(Some(Class(9, 1)), 0), Refusal::NoQdisc),
            (prune(Some(Class(2, 1)), 2), Refusal::NoQdisc),
            (prune(Some(Class(1, 5)), 0), Refusal::NoQdisc),
            (prune(Some(Class(4, 1)), 0), Refusal::NoQdisc),
            (prune(Some(Class(4, 1)), 4), Refusal::NoQdisc),
            (prune(Some(Class(1, 1)), 3), Refusal::NoQdisc),
        ],
    )
}

#[test]
fn a_class_is_refused() -> Result<(), Error> {
    refused(
        &SMALL_TREE,
        &[
            (add_class(1, (3, 1), 0), Refusal::NoParent),
            (change_class(1, (3, 5), 0), Refusal::NoParent),
            (del_class(1, (3, 5)), Refusal::NoParent),
            // With NoQdisc.
            (add_class(8, (9, 1), 0), Refusal::NoParent),
            (change_class(8, (9, 1), 0), Refusal::NoParent),
            (del_class(8, (9, 1)), Refusal::NoParent),
            // Not with NotClassful, nor that with CannotChange: a qdisc is of one kind, or is not
            // there.
            (add_class(9, (9, 1), 0), Refusal::NoQdisc),
            (change_class(0, (9, 1), 0), Refusal::NoQdisc),
            (del_class(0, (9, 1)), Refusal::NoQdisc),
            (add_class(2, (2, 1), 0), Refusal::NotClassful),
            (change_class(5, (5, 1), 0), Refusal::NotClassful),
            (del_class(0, (2, 1)), Refusal::NotClassful),
            // With Exists.
            (add_class(1, (1, 1), 0), Refusal::CannotChange),
            (add_class(4, (4, 1), 0), Refusal::CannotChange),
            // With NoClass.
            (change_class(0, (1, 9), 0), Refusal::CannotChange),
            (del_class(4, (4, 2)), Refusal::CannotChange),
            (add_class(3, (3, 5), 0), Refusal::Exists),
            (change_class(3, (3, 4), 0), Refusal::NoClass),
            // Not with Busy: no filter leads to a class that is not there.
            (del_class(0, (3, 4)), Refusal::NoClass),
            (del_class(3, (3, 5)), Refusal::Busy),
        ],
    )
}

#[test]
fn a_filter_is_refused() -> Result<(), Error> {
    refused(
        &SMALL_TREE,
        &[
            // Not with NotClassful: a qdisc that is not there is of no kind.
            (add_filter(9, (9, 1), None), Refusal::NoQdisc),
            (del_filters(9, 1), Refusal::NoQdisc),
            (add_filter(4, (4, 1), None), Refusal::NotClassful),
            // With NoClass.
            (add_filter(2, (2, 1), None), Refusal::NotClassful),
            (add_filter(5, (1, 1), None), Refusal::NotClassful),
            // With NoFilter.
            (del_filters(2, 1), Refusal::NotClassful),
            (del_filters(4, 1), Refusal::NotClassful),
            (add_filter(1, (1, 5), None), Refusal::NoClass),
            (add_filter(3, (3, 1), None), Refusal::NoClass),
            (add_filter(1, (3, 1), None), Refusal::NoClass),
            (del_filters(1, 2), Refusal::NoFilter),
            (del_filters(3, 65535), Refusal::NoFilter),
        ],
    )
}

// A tree of 256 nodes. Seven prios, 1: to 7:, each in the first band of the one above, lead to a
// drr, 8:, on the eighth level. The next bands of 1: have nine prios, a drr with a class, 29:, and
// a pfifo.
#[test]
fn a_tree_too_deep_or_with_too_many_nodes_is_refused() -> Result<(), Error> {
    let added = |major, minor, handle, new| Call::Graft(Class(major, minor), handle, new, None);
    let mut calls = vec![Call::Graft(Root, 1, New::Prio(16), None)];
    calls.extend((1..7).map(|above| added(above, 1, above + 1, New::Prio(16))));
    calls.extend((2..10).map(|band| added(1, band, band + 18, New::Prio(16))));
    calls.extend([
        added(7, 1, 8, New::Drr),
        added(1, 10, 28, New::Prio(14)),
        added(1, 11, 29, New::Drr),
        Call::AddClass(29, 1, 0, None),
        added(1, 12, 30, New::Pfifo),
        Call::Nodes(256),
    ]);
    refused(
        &calls,
        &[
            // With TooDeep.
            (graft(Class(7, 2), 8, New::Prio(2)), Refusal::HandleTaken),
            // With TooMany.
            (graft(Class(7, 2), 9, New::Prio(2)), Refusal::TooDeep),
            (graft(Class(6, 2), 9, New::Prio(2)), Refusal::TooMany),
            // The implicit leaf goes, and a qdisc and its leaf come.
            (graft(Class(1, 16), 9, New::Tbf(1500)), Refusal::TooMany),
            // With TooMany, were it a prio.
            (change(None, 30, New::Prio(2)), Refusal::CannotChange),
            (change(None, 28, New::Prio(15)), Refusal::TooMany),
            // With TooMany. Not with TooDeep: a drr on the last level has no class.
            (add_class(29, (29, 1), 0), Refusal::Exists),
            // With TooMany.
            (add_class(8, (8, 1), 0), Refusal::TooDeep),
            (add_class(29, (29, 2), 0), Refusal::TooMany),
        ],
    )
}

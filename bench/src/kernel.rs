//! The kernel's own disciplines, by `bench/kernel.c`, where they are at hand: `bench/run` sets `kernel` then.

use crate::devices::Tree;
use crate::inputs::Plan;
use crate::rows::Work;
use std::rc::Rc;

/// An arrival and a poll, as `pairs` in `devices.rs`; `None` where the kernel has no such thing.
pub fn pairs(tree: Tree, plan: Rc<Plan>, step: u32) -> Option<Work> {
    linked::pairs(tree, plan, step)
}

/// Two arrivals and a poll, as `losses` in `devices.rs`, so many a pass.
pub fn losses(tree: Tree, inputs: Rc<(Plan, Vec<u32>)>, turns: usize) -> Option<Work> {
    linked::losses(tree, inputs, turns)
}

/// The loop of [`pairs`] without a qdisc.
pub fn harness(plan: Rc<Plan>) -> Option<Work> {
    linked::harness(plan)
}

#[cfg(not(kernel))]
mod linked {
    use super::{Plan, Rc, Tree, Work};

    pub fn pairs(_: Tree, _: Rc<Plan>, _: u32) -> Option<Work> {
        None
    }

    pub fn losses(_: Tree, _: Rc<(Plan, Vec<u32>)>, _: usize) -> Option<Work> {
        None
    }

    pub fn harness(_: Rc<Plan>) -> Option<Work> {
        None
    }
}

#[cfg(kernel)]
mod linked {
    use super::{Plan, Rc, Tree, Work};

    /// The packets of a plan and the tree for them, as `bench/kernel.c` declares them.
    #[repr(C)]
    struct Load {
        hashes: *const u32,
        prios: *const u8,
        ports: *const u16,
        packets: u32,
        shape: u32,
        flows: u32,
        drop_batch: u32,
        queued: u32,
        limit: u32,
        ecn: bool,
    }

    impl Load {
        fn of(tree: &Tree, plan: &Plan) -> Load {
            Load {
                hashes: plan.hashes.as_ptr(),
                prios: plan.prios.as_ptr(),
                ports: plan.ports.as_ptr(),
                packets: plan.hashes.len() as u32,
                shape: tree.shape as u32,
                flows: tree.flows,
                drop_batch: tree.drop_batch,
                queued: tree.queued,
                limit: tree.limit(),
                ecn: plan.ecn,
            }
        }
    }

    unsafe extern "C" {
        fn kernel_pairs(load: &Load, step: u32, passes: u32) -> u64;
        fn kernel_losses(load: &Load, waits: *const u32, len: usize) -> u64;
        fn kernel_harness(load: &Load, passes: u32) -> u64;
    }

    // SAFETY, of every call below: the pointers are those of slices that are borrowed for the call.

    pub fn pairs(tree: Tree, plan: Rc<Plan>, step: u32) -> Option<Work> {
        Some(Box::new(move |passes| unsafe {
            kernel_pairs(&Load::of(&tree, &plan), step, passes)
        }))
    }

    pub fn losses(tree: Tree, inputs: Rc<(Plan, Vec<u32>)>, turns: usize) -> Option<Work> {
        Some(Box::new(move |passes| {
            let (plan, waits) = &*inputs;
            let waits = &waits[..passes as usize * turns];
            unsafe { kernel_losses(&Load::of(&tree, plan), waits.as_ptr(), waits.len()) }
        }))
    }

    pub fn harness(plan: Rc<Plan>) -> Option<Work> {
        let tree = Tree {
            shape: crate::devices::Shape::Pfifo,
            flows: 1,
            drop_batch: 1,
            queued: 0,
            random: false,
            lazy: false,
        };
        Some(Box::new(move |passes| unsafe {
            kernel_harness(&Load::of(&tree, &plan), passes)
        }))
    }
}

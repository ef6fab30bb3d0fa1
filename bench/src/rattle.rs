//! The workloads of `crates/q_bench`, which `rt lib` builds as a static library.

use crate::devices::Tree;
use crate::inputs::{Lines, Plan};
use crate::plain::work::FlowLoad;

// A slice crosses as a pointer and a length, and an allocator takes no room among the parameters. Nothing compares these
// declarations with those in `crates/q_bench/src`.
unsafe extern "C" {
    fn q_bench_read_head(table: *const u8, len: usize, passes: u32) -> u64;
    fn q_bench_hash(table: *const u8, len: usize, passes: u32) -> u64;
    fn q_bench_fifo(queued: u32, lens: *const u16, len: usize, passes: u32) -> u64;
    fn q_bench_codel(queued: u32, lens: *const u16, lens_len: usize, moments: *const u64, moments_len: usize) -> u64;
    safe fn q_bench_gap(interval: u64, first: u32, counts: u32, passes: u32) -> u64;
    fn q_bench_spend(
        rate: u64,
        burst: u32,
        spends: *const u64,
        spends_len: usize,
        passes: u32,
    ) -> u64;
    fn q_bench_flows(
        flows: u32,
        limit: u32,
        drop_batch: u32,
        queued: u32,
        takes: bool,
        hashes: *const u32,
        len: usize,
        passes: u32,
    ) -> u64;
    fn q_bench_turn(classes: u16, quantum: u32, lens: *const u16, len: usize, passes: u32) -> u64;
    fn q_bench_read_line(text: *const u8, text_len: usize, ends: *const u32, ends_len: usize, passes: u32) -> u64;
    fn q_bench_pairs(
        shape: u32,
        flows: u32,
        drop_batch: u32,
        ecn: bool,
        queued: u32,
        hashes: *const u32,
        hashes_len: usize,
        prios: *const u8,
        prios_len: usize,
        ports: *const u16,
        ports_len: usize,
        step: u32,
        passes: u32,
    ) -> u64;
    fn q_bench_losses(
        shape: u32,
        flows: u32,
        drop_batch: u32,
        ecn: bool,
        queued: u32,
        hashes: *const u32,
        hashes_len: usize,
        prios: *const u8,
        prios_len: usize,
        ports: *const u16,
        ports_len: usize,
        waits: *const u32,
        waits_len: usize,
    ) -> u64;
    fn q_bench_harness(
        hashes: *const u32,
        hashes_len: usize,
        prios: *const u8,
        prios_len: usize,
        ports: *const u16,
        ports_len: usize,
        step: u32,
        passes: u32,
    ) -> u64;
}

// SAFETY, of every call below: each pointer and length are those of one slice, which is borrowed for the call, and the
// exported functions require nothing else.

pub fn read_head(table: &[u8], passes: u32) -> u64 {
    unsafe { q_bench_read_head(table.as_ptr(), table.len(), passes) }
}

pub fn hash(table: &[u8], passes: u32) -> u64 {
    unsafe { q_bench_hash(table.as_ptr(), table.len(), passes) }
}

pub fn fifo(queued: u32, lens: &[u16], passes: u32) -> u64 {
    unsafe { q_bench_fifo(queued, lens.as_ptr(), lens.len(), passes) }
}

pub fn codel(queued: u32, lens: &[u16], moments: &[u64]) -> u64 {
    unsafe { q_bench_codel(queued, lens.as_ptr(), lens.len(), moments.as_ptr(), moments.len()) }
}

pub fn gap(interval: u64, first: u32, counts: u32, passes: u32) -> u64 {
    q_bench_gap(interval, first, counts, passes)
}

pub fn spend(rate: u64, burst: u32, spends: &[u64], passes: u32) -> u64 {
    unsafe { q_bench_spend(rate, burst, spends.as_ptr(), spends.len(), passes) }
}

pub fn flows(load: &FlowLoad, hashes: &[u32], passes: u32) -> u64 {
    unsafe {
        q_bench_flows(
            load.flows,
            load.limit,
            load.drop_batch,
            load.queued,
            load.takes,
            hashes.as_ptr(),
            hashes.len(),
            passes,
        )
    }
}

pub fn turn(classes: u16, quantum: u32, lens: &[u16], passes: u32) -> u64 {
    unsafe { q_bench_turn(classes, quantum, lens.as_ptr(), lens.len(), passes) }
}

pub fn read_line(lines: &Lines, passes: u32) -> u64 {
    unsafe {
        q_bench_read_line(
            lines.text.as_ptr(),
            lines.text.len(),
            lines.ends.as_ptr(),
            lines.ends.len(),
            passes,
        )
    }
}

pub fn pairs(tree: &Tree, plan: &Plan, step: u32, passes: u32) -> u64 {
    unsafe {
        q_bench_pairs(
            tree.shape as u32,
            tree.flows,
            tree.drop_batch,
            plan.ecn,
            tree.queued,
            plan.hashes.as_ptr(),
            plan.hashes.len(),
            plan.prios.as_ptr(),
            plan.prios.len(),
            plan.ports.as_ptr(),
            plan.ports.len(),
            step,
            passes,
        )
    }
}

pub fn losses(tree: &Tree, plan: &Plan, waits: &[u32]) -> u64 {
    unsafe {
        q_bench_losses(
            tree.shape as u32,
            tree.flows,
            tree.drop_batch,
            plan.ecn,
            tree.queued,
            plan.hashes.as_ptr(),
            plan.hashes.len(),
            plan.prios.as_ptr(),
            plan.prios.len(),
            plan.ports.as_ptr(),
            plan.ports.len(),
            waits.as_ptr(),
            waits.len(),
        )
    }
}

pub fn harness(plan: &Plan, step: u32, passes: u32) -> u64 {
    unsafe {
        q_bench_harness(
            plan.hashes.as_ptr(),
            plan.hashes.len(),
            plan.prios.as_ptr(),
            plan.prios.len(),
            plan.ports.as_ptr(),
            plan.ports.len(),
            step,
            passes,
        )
    }
}

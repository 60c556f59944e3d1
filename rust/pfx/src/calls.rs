//! The library's calls, as functions over slices. Each of these meets what the library asks of a caller, so that whoever calls
//! them owes nothing: what the calls promise is in `include/pfx.h`.
//!
//! The library's functions ask for this alone: no pointer is null, each is aligned and points to as many initialised elements as
//! the length beside it says, and what is written overlaps nothing else that is passed. A reference and a slice are so (a slice
//! with no elements too), and a `&mut` is the only way to what it points to while it lives.

use crate::Weight;

/// What the library shows of a set.
#[repr(C)]
#[derive(Clone, Copy, Default)]
pub struct Shown {
    pub hyper: u32,
    pub idle: u32,
    pub load: u64,
}

mod library {
    use super::{Shown, Weight};

    extern "C" {
        pub fn pfx_set(workers: u32, weights: *const Weight, count: usize, set: *mut Shown, task: *mut u16) -> u32;

        pub fn pfx_check(
            workers: u32,
            weights: *const Weight,
            count: usize,
            slot: u64,
            allocs: *const u64,
            allocs_len: usize,
            task: *mut u16,
        ) -> u32;

        pub fn pfx_next(
            workers: u32,
            weights: *const Weight,
            count: usize,
            slot: u64,
            allocs: *const u64,
            allocs_len: usize,
            row: *mut u16,
            row_len: usize,
        ) -> u32;

        pub fn pfx_plan(
            workers: u32,
            weights: *const Weight,
            count: usize,
            slots: usize,
            slot: *mut u64,
            allocs: *mut u64,
            allocs_len: usize,
            rows: *mut u16,
            rows_len: usize,
            made: *mut usize,
        ) -> u32;
    }
}

pub fn set(workers: u32, weights: &[Weight], shown: &mut Shown, task: &mut u16) -> u32 {
    // SAFETY: pointer and length are those of one slice, the other two pointers are of references of their own, and `Weight`
    // and `Shown` are laid out as in pfx.h.
    unsafe { library::pfx_set(workers, weights.as_ptr(), weights.len(), shown, task) }
}

pub fn check(workers: u32, weights: &[Weight], slot: u64, allocs: &[u64], task: &mut u16) -> u32 {
    // SAFETY: each pointer and the length beside it are those of one slice, and `task` is a reference of its own.
    unsafe { library::pfx_check(workers, weights.as_ptr(), weights.len(), slot, allocs.as_ptr(), allocs.len(), task) }
}

pub fn next(workers: u32, weights: &[Weight], slot: u64, allocs: &[u64], row: &mut [u16]) -> u32 {
    // SAFETY: each pointer and the length beside it are those of one slice, and `row`, which is written, is a `&mut`, so that it
    // overlaps neither of the others.
    unsafe {
        library::pfx_next(
            workers,
            weights.as_ptr(),
            weights.len(),
            slot,
            allocs.as_ptr(),
            allocs.len(),
            row.as_mut_ptr(),
            row.len(),
        )
    }
}

pub fn plan(
    workers: u32,
    weights: &[Weight],
    slots: usize,
    slot: &mut u64,
    allocs: &mut [u64],
    rows: &mut [u16],
    made: &mut usize,
) -> u32 {
    // SAFETY: each pointer and the length beside it are those of one slice, and all that is written is behind a `&mut` of its
    // own, so that none of it overlaps another.
    unsafe {
        library::pfx_plan(
            workers,
            weights.as_ptr(),
            weights.len(),
            slots,
            slot,
            allocs.as_mut_ptr(),
            allocs.len(),
            rows.as_mut_ptr(),
            rows.len(),
            made,
        )
    }
}

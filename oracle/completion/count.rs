//! The counters that the counted copy raises, and the branches that it passes. The other copies hold this module too and raise nothing.
use std::cell::Cell;

pub const BRANCHES: usize = 64;

thread_local! {
    static SUM: Cell<u32> = const { Cell::new(0) };
    static LONGEST: Cell<u32> = const { Cell::new(0) };
    static RUNGS: Cell<u32> = const { Cell::new(0) };
    static BACKWARD: Cell<u32> = const { Cell::new(0) };
    static PASSED: Cell<u64> = const { Cell::new(0) };
}

#[derive(Clone, Copy, Debug, PartialEq, Eq, Default)]
pub struct Counts {
    pub longest_sum: u32,
    pub rungs: u32,
    pub backward: u32,
    /// one bit a branch
    pub passed: u64,
}

pub fn begin() {
    LONGEST.set(0);
    RUNGS.set(0);
    BACKWARD.set(0);
    PASSED.set(0);
}

pub fn taken() -> Counts {
    Counts { longest_sum: LONGEST.get(), rungs: RUNGS.get(), backward: BACKWARD.get(), passed: PASSED.get() }
}

#[inline]
pub fn sum_begins() {
    SUM.set(0);
}
#[inline]
pub fn term() {
    SUM.set(SUM.get() + 1);
    if SUM.get() > LONGEST.get() {
        LONGEST.set(SUM.get());
    }
}
#[inline]
pub fn rung() {
    RUNGS.set(RUNGS.get() + 1);
}
#[inline]
pub fn backward_step() {
    BACKWARD.set(BACKWARD.get() + 1);
}
#[inline]
pub fn branch(b: u32) {
    PASSED.set(PASSED.get() | 1 << b);
}

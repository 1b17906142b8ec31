//! The calls of the library on seats of a table.

use super::handle::{Call, Handle, Open, Part};
use super::replies::{RawOptions, RawReply};
use super::Status;
use crate::Counts;

/// The part of a table.
#[derive(Debug)]
pub(crate) enum OfTable {}

/// A seat of a table.
pub(crate) type RawTable = Handle<OfTable>;

extern "C" {
    fn mvrlu_raw_table_open(options: &RawOptions, seats: *mut RawTable, count: usize) -> i32;
    fn mvrlu_raw_table_close(seat: &mut RawTable, last: &mut u64) -> i32;
    fn mvrlu_raw_table_tidy(seat: &mut RawTable, live: &mut u32) -> i32;
    fn mvrlu_raw_table_counts(seat: &mut RawTable, counts: &mut Counts) -> i32;
    fn mvrlu_raw_table_add(seat: &mut RawTable, key: u32, told: &mut RawReply) -> i32;
    fn mvrlu_raw_table_del(seat: &mut RawTable, key: u32, told: &mut RawReply) -> i32;
    fn mvrlu_raw_table_has(seat: &mut RawTable, key: u32, told: &mut RawReply) -> i32;
    fn mvrlu_raw_table_next(seat: &mut RawTable, key: u32, told: &mut RawReply) -> i32;
    fn mvrlu_raw_table_size(seat: &mut RawTable, told: &mut RawReply) -> i32;
    fn mvrlu_raw_table_split(seat: &mut RawTable, told: &mut RawReply) -> i32;
}

// SAFETY: these are the calls of the library on seats of a table, and it asks no more of its caller.
unsafe impl Part for OfTable {
    type Options = RawOptions;
    const OPEN: Open<Self> = mvrlu_raw_table_open;
    const CLOSE: Call<Self, u64> = mvrlu_raw_table_close;
    const TIDY: Call<Self, u32> = mvrlu_raw_table_tidy;
    const COUNT: Call<Self, Counts> = mvrlu_raw_table_counts;
}

/// Each call is safe: a seat is closed, or it is as the library left it. It and what is written are references, which are valid and
/// unshared for the length of the call, and the library keeps none of them.
impl RawTable {
    pub(crate) fn add(&mut self, key: u32, told: &mut RawReply) -> Status {
        // SAFETY: as said above.
        Status::of(unsafe { mvrlu_raw_table_add(self, key, told) })
    }

    pub(crate) fn del(&mut self, key: u32, told: &mut RawReply) -> Status {
        // SAFETY: as said above.
        Status::of(unsafe { mvrlu_raw_table_del(self, key, told) })
    }

    pub(crate) fn has(&mut self, key: u32, told: &mut RawReply) -> Status {
        // SAFETY: as said above.
        Status::of(unsafe { mvrlu_raw_table_has(self, key, told) })
    }

    pub(crate) fn next(&mut self, key: u32, told: &mut RawReply) -> Status {
        // SAFETY: as said above.
        Status::of(unsafe { mvrlu_raw_table_next(self, key, told) })
    }

    pub(crate) fn size(&mut self, told: &mut RawReply) -> Status {
        // SAFETY: as said above.
        Status::of(unsafe { mvrlu_raw_table_size(self, told) })
    }

    pub(crate) fn split(&mut self, told: &mut RawReply) -> Status {
        // SAFETY: as said above.
        Status::of(unsafe { mvrlu_raw_table_split(self, told) })
    }
}

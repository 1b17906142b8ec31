//! The calls of the library on seats of sets.

use super::handle::{Call, Handle, Open, Part};
use super::replies::{RawOptions, RawReply};
use super::Status;
use crate::block::Command;
use crate::sets::{Entry, Set};
use crate::Counts;
use std::mem::size_of;

/// The part of sets.
#[derive(Debug)]
pub(crate) enum OfSets {}

/// A seat of sets.
pub(crate) type RawSets = Handle<OfSets>;

/// A command of a block as the library reads it.
#[repr(C)]
#[derive(Clone, Copy, Debug)]
pub(crate) struct RawCommand {
    op: u32,
    set: u32,
    other: u32,
    key: u32,
    value: u64,
}

/// What the library tells of a walk.
#[repr(C)]
#[derive(Clone, Copy, Debug, Default)]
pub(crate) struct RawWalk {
    pub(crate) time: u64,
    pub(crate) count: u64,
    next: u32,
    more: u32,
}

const _: () = assert!(size_of::<RawWalk>() == 24 && size_of::<Entry>() == 16 && size_of::<RawCommand>() == 24);

extern "C" {
    fn mvrlu_raw_sets_open(options: &RawOptions, seats: *mut RawSets, count: usize) -> i32;
    fn mvrlu_raw_sets_close(seat: &mut RawSets, last: &mut u64) -> i32;
    fn mvrlu_raw_sets_tidy(seat: &mut RawSets, live: &mut u32) -> i32;
    fn mvrlu_raw_sets_counts(seat: &mut RawSets, counts: &mut Counts) -> i32;
    fn mvrlu_raw_sets_add(seat: &mut RawSets, set: u32, key: u32, told: &mut RawReply) -> i32;
    fn mvrlu_raw_sets_put(seat: &mut RawSets, set: u32, key: u32, value: u64, told: &mut RawReply) -> i32;
    fn mvrlu_raw_sets_del(seat: &mut RawSets, set: u32, key: u32, told: &mut RawReply) -> i32;
    fn mvrlu_raw_sets_has(seat: &mut RawSets, set: u32, key: u32, told: &mut RawReply) -> i32;
    fn mvrlu_raw_sets_get(seat: &mut RawSets, set: u32, key: u32, told: &mut RawReply) -> i32;
    fn mvrlu_raw_sets_next(seat: &mut RawSets, set: u32, key: u32, told: &mut RawReply) -> i32;
    fn mvrlu_raw_sets_size(seat: &mut RawSets, set: u32, told: &mut RawReply) -> i32;
    fn mvrlu_raw_sets_move(seat: &mut RawSets, from: u32, to: u32, key: u32, told: &mut RawReply) -> i32;
    fn mvrlu_raw_sets_pair(seat: &mut RawSets, first: u32, second: u32, key: u32, told: &mut RawReply) -> i32;
    fn mvrlu_raw_sets_block(
        seat: &mut RawSets,
        commands: *const RawCommand,
        count: usize,
        told: *mut RawReply,
        room: usize,
    ) -> i32;
    fn mvrlu_raw_sets_walk(
        seat: &mut RawSets,
        set: u32,
        from: u32,
        entries: *mut Entry,
        room: usize,
        told: &mut RawWalk,
    ) -> i32;
}

impl RawWalk {
    /// The least key for which there was no room.
    pub(crate) fn next(&self) -> Option<u32> {
        (self.more != 0).then_some(self.next)
    }
}

impl RawCommand {
    pub(crate) fn of(command: Command) -> RawCommand {
        let (op, set, other, key, value) = match command {
            Command::Add { set, key } => (1, set, set, key, 0),
            Command::Del { set, key } => (2, set, set, key, 0),
            Command::Move { from, to, key } => (3, from, to, key, 0),
            Command::Put { set, key, value } => (4, set, set, key, value),
            Command::Has { set, key } => (5, set, set, key, 0),
            Command::Get { set, key } => (6, set, set, key, 0),
            Command::Pair { first, second, key } => (7, first, second, key, 0),
        };
        RawCommand { op, set: set.number(), other: other.number(), key, value }
    }
}

// SAFETY: these are the calls of the library on seats of sets, and it asks no more of its caller.
unsafe impl Part for OfSets {
    type Options = RawOptions;
    const OPEN: Open<Self> = mvrlu_raw_sets_open;
    const CLOSE: Call<Self, u64> = mvrlu_raw_sets_close;
    const TIDY: Call<Self, u32> = mvrlu_raw_sets_tidy;
    const COUNT: Call<Self, Counts> = mvrlu_raw_sets_counts;
}

/// Each call is safe: a seat is closed, or it is as the library left it. It and what is read or written are references, which are
/// valid and, where written, unshared for the length of the call, and the library keeps none of them.
impl RawSets {
    pub(crate) fn add(&mut self, set: Set, key: u32, told: &mut RawReply) -> Status {
        // SAFETY: as said above.
        Status::of(unsafe { mvrlu_raw_sets_add(self, set.number(), key, told) })
    }

    pub(crate) fn put(&mut self, set: Set, key: u32, value: u64, told: &mut RawReply) -> Status {
        // SAFETY: as said above.
        Status::of(unsafe { mvrlu_raw_sets_put(self, set.number(), key, value, told) })
    }

    pub(crate) fn del(&mut self, set: Set, key: u32, told: &mut RawReply) -> Status {
        // SAFETY: as said above.
        Status::of(unsafe { mvrlu_raw_sets_del(self, set.number(), key, told) })
    }

    pub(crate) fn has(&mut self, set: Set, key: u32, told: &mut RawReply) -> Status {
        // SAFETY: as said above.
        Status::of(unsafe { mvrlu_raw_sets_has(self, set.number(), key, told) })
    }

    pub(crate) fn get(&mut self, set: Set, key: u32, told: &mut RawReply) -> Status {
        // SAFETY: as said above.
        Status::of(unsafe { mvrlu_raw_sets_get(self, set.number(), key, told) })
    }

    pub(crate) fn next(&mut self, set: Set, key: u32, told: &mut RawReply) -> Status {
        // SAFETY: as said above.
        Status::of(unsafe { mvrlu_raw_sets_next(self, set.number(), key, told) })
    }

    pub(crate) fn size(&mut self, set: Set, told: &mut RawReply) -> Status {
        // SAFETY: as said above.
        Status::of(unsafe { mvrlu_raw_sets_size(self, set.number(), told) })
    }

    pub(crate) fn move_key(&mut self, from: Set, to: Set, key: u32, told: &mut RawReply) -> Status {
        // SAFETY: as said above.
        Status::of(unsafe { mvrlu_raw_sets_move(self, from.number(), to.number(), key, told) })
    }

    pub(crate) fn pair(&mut self, first: Set, second: Set, key: u32, told: &mut RawReply) -> Status {
        // SAFETY: as said above.
        Status::of(unsafe { mvrlu_raw_sets_pair(self, first.number(), second.number(), key, told) })
    }

    pub(crate) fn block<const N: usize>(&mut self, commands: &[RawCommand; N], told: &mut [RawReply; N]) -> Status {
        // SAFETY: as said above; the pointers and the counts are those of two arrays that are borrowed for the call.
        Status::of(unsafe { mvrlu_raw_sets_block(self, commands.as_ptr(), N, told.as_mut_ptr(), N) })
    }

    pub(crate) fn walk(&mut self, set: Set, from: u32, entries: &mut [Entry], told: &mut RawWalk) -> Status {
        // SAFETY: as said above; the pointer and the count are those of one slice that is borrowed mutably.
        Status::of(unsafe { mvrlu_raw_sets_walk(self, set.number(), from, entries.as_mut_ptr(), entries.len(), told) })
    }
}

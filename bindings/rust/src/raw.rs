//! The calls of the library. What it asks of its caller is kept by the types here, and all unsafe code of the package is here: the
//! calls on seats of objects, in `sets` and `table` those on seats of sets and of a table, and in `handle` those that all have.

pub(crate) mod handle;
pub(crate) mod replies;
pub(crate) mod sets;
pub(crate) mod table;

use crate::{Counts, Options, Tag, Words};
use handle::{Call, Handle, Open, Part};
use std::mem::size_of;

/// The part of objects.
#[derive(Debug)]
pub(crate) enum OfObjects {}

/// A seat of objects.
pub(crate) type RawSeat = Handle<OfObjects>;

/// The options as the library reads them.
#[repr(C)]
pub(crate) struct RawOptions {
    size: u32,
    objects: u32,
    slots: u32,
    write_max: u32,
    opening_time: u64,
}

const _: () = assert!(size_of::<RawOptions>() == 24);

extern "C" {
    fn mvrlu_raw_open(options: &RawOptions, seats: *mut RawSeat, count: usize) -> i32;
    fn mvrlu_raw_close(seat: &mut RawSeat, last: &mut u64) -> i32;
    fn mvrlu_raw_prepare(seat: &mut RawSeat) -> i32;
    fn mvrlu_raw_tidy(seat: &mut RawSeat, live: &mut u32) -> i32;
    fn mvrlu_raw_count(seat: &mut RawSeat, counts: &mut Counts) -> i32;
    fn mvrlu_raw_grace(seat: &mut RawSeat, time: &mut u64) -> i32;
    fn mvrlu_raw_enter(seat: &mut RawSeat) -> i32;
    fn mvrlu_raw_read(seat: &mut RawSeat, object: u32, words: &mut Words) -> i32;
    fn mvrlu_raw_read_pair(seat: &mut RawSeat, object: u32, place: u32, words: &mut [u64; 2]) -> i32;
    fn mvrlu_raw_lock(seat: &mut RawSeat, object: u32, by: &mut u64) -> i32;
    fn mvrlu_raw_vacant(seat: &mut RawSeat, hint: &mut u32, object: &mut u32) -> i32;
    fn mvrlu_raw_write(seat: &mut RawSeat, object: u32, words: &Words) -> i32;
    fn mvrlu_raw_time(seat: &mut RawSeat, time: &mut u64) -> i32;
    fn mvrlu_raw_commit(seat: &mut RawSeat, tag: &Tag, time: &mut u64) -> i32;
    fn mvrlu_raw_abort(seat: &mut RawSeat) -> i32;
    fn mvrlu_raw_leave(seat: &mut RawSeat) -> i32;
}

/// What a call answers on a seat that is open, and, of the calls for a section, inside one. In a block it is what a command came to.
#[derive(Clone, Copy, Debug, PartialEq, Eq)]
pub(crate) enum Status {
    Done,
    No,
    Again,
    Busy,
    Stale,
    Short,
    LogFull,
    Full,
    Worn,
    NoSet,
    SameSet,
    BadNumber,
    NoMemory,
    Inside,
    BadObject,
    NotLocked,
    Empty,
    Holding,
    SetFull,
    BadPlace,
}

impl Status {
    fn of(code: i32) -> Status {
        match code {
            0 => Status::Done,
            1 => Status::No,
            2 => Status::Again,
            3 => Status::Busy,
            4 => Status::Stale,
            5 => Status::Short,
            6 => Status::LogFull,
            -1 => Status::Full,
            -2 => Status::Worn,
            -3 => Status::NoSet,
            -4 => Status::SameSet,
            -7 => Status::BadNumber,
            -8 => Status::NoMemory,
            -13 => Status::Inside,
            -14 => Status::BadObject,
            -15 => Status::NotLocked,
            -16 => Status::Empty,
            -17 => Status::Holding,
            -18 => Status::SetFull,
            -19 => Status::BadPlace,
            // Closed, in use, null, moved, outside, bad command and bad block: the types of this package let no such call be made.
            other => unreachable!("libmvrlu answered {other}"),
        }
    }

    /// Of a call that has only one answer here.
    pub(crate) fn must_be_done(self) {
        if self != Status::Done {
            self.is_unexpected()
        }
    }

    /// Of a call that never gives this answer.
    pub(crate) fn is_unexpected(self) -> ! {
        unreachable!("libmvrlu answered {self:?}")
    }
}

// SAFETY: these are the calls of the library on seats of objects, and it asks no more of its caller.
unsafe impl Part for OfObjects {
    type Options = RawOptions;
    const OPEN: Open<Self> = mvrlu_raw_open;
    const CLOSE: Call<Self, u64> = mvrlu_raw_close;
    const TIDY: Call<Self, u32> = mvrlu_raw_tidy;
    const COUNT: Call<Self, Counts> = mvrlu_raw_count;
}

impl RawOptions {
    pub(crate) fn of(options: Options) -> RawOptions {
        let Options { objects, slots, write_max, opening_time } = options;
        RawOptions { size: size_of::<RawOptions>() as u32, objects, slots, write_max, opening_time }
    }
}

/// Each call is safe: a seat is closed, or it is as the library left it. It and what is read or written are references, which are
/// valid and, where written, unshared for the length of the call, and the library keeps none of them.
impl RawSeat {
    pub(crate) fn prepare(&mut self) -> Status {
        // SAFETY: as said above.
        Status::of(unsafe { mvrlu_raw_prepare(self) })
    }

    pub(crate) fn grace(&mut self, time: &mut u64) -> Status {
        // SAFETY: as said above.
        Status::of(unsafe { mvrlu_raw_grace(self, time) })
    }

    pub(crate) fn enter(&mut self) -> Status {
        // SAFETY: as said above.
        Status::of(unsafe { mvrlu_raw_enter(self) })
    }

    pub(crate) fn read(&mut self, object: u32, words: &mut Words) -> Status {
        // SAFETY: as said above.
        Status::of(unsafe { mvrlu_raw_read(self, object, words) })
    }

    pub(crate) fn read_pair(&mut self, object: u32, place: u32, words: &mut [u64; 2]) -> Status {
        // SAFETY: as said above.
        Status::of(unsafe { mvrlu_raw_read_pair(self, object, place, words) })
    }

    pub(crate) fn lock(&mut self, object: u32, by: &mut u64) -> Status {
        // SAFETY: as said above.
        Status::of(unsafe { mvrlu_raw_lock(self, object, by) })
    }

    pub(crate) fn vacant(&mut self, hint: &mut u32, object: &mut u32) -> Status {
        // SAFETY: as said above.
        Status::of(unsafe { mvrlu_raw_vacant(self, hint, object) })
    }

    pub(crate) fn write(&mut self, object: u32, words: &Words) -> Status {
        // SAFETY: as said above.
        Status::of(unsafe { mvrlu_raw_write(self, object, words) })
    }

    pub(crate) fn time(&mut self, time: &mut u64) -> Status {
        // SAFETY: as said above.
        Status::of(unsafe { mvrlu_raw_time(self, time) })
    }

    pub(crate) fn commit(&mut self, tag: &Tag, time: &mut u64) -> Status {
        // SAFETY: as said above.
        Status::of(unsafe { mvrlu_raw_commit(self, tag, time) })
    }

    pub(crate) fn abort(&mut self) -> Status {
        // SAFETY: as said above.
        Status::of(unsafe { mvrlu_raw_abort(self) })
    }

    pub(crate) fn leave(&mut self) -> Status {
        // SAFETY: as said above.
        Status::of(unsafe { mvrlu_raw_leave(self) })
    }
}

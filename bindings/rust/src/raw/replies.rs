//! What the calls on sets and on a table read and write alike.

use super::Status;
use std::mem::size_of;

/// The options as the library reads them.
#[repr(C)]
pub(crate) struct RawOptions {
    size: u32,
    objects: u32,
    slots: u32,
    opening_time: u64,
}

/// What the library tells of a call.
#[repr(C)]
#[derive(Clone, Copy, Debug, Default)]
pub(crate) struct RawReply {
    pub(crate) value: u64,
    pub(crate) time: u64,
    committed: u32,
    second: u32,
    status: i32,
}

const _: () = assert!(size_of::<RawOptions>() == 24 && size_of::<RawReply>() == 32);

impl RawOptions {
    pub(crate) fn of(objects: u32, slots: u32, opening_time: u64) -> RawOptions {
        RawOptions { size: size_of::<RawOptions>() as u32, objects, slots, opening_time }
    }
}

impl RawReply {
    pub(crate) fn status(&self) -> Status {
        Status::of(self.status)
    }

    pub(crate) fn committed(&self) -> bool {
        self.committed != 0
    }

    /// Of a pair.
    pub(crate) fn both(&self) -> (bool, bool) {
        (self.value != 0, self.second != 0)
    }
}

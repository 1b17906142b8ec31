//! What seats of objects, of sets and of a table have in common.

use super::Status;
use crate::{Counts, OpenError, SEATS_MAX};
use std::ffi::c_void;
use std::fmt::Debug;
use std::marker::PhantomData;
use std::mem::size_of;
use std::ptr::null_mut;

/// What the library owns of a seat: closed, or the block of an open one. It may be moved between calls, and isn't copied.
#[repr(C)]
#[derive(Debug)]
pub(crate) struct Handle<P> {
    is_open: u8,
    at: *mut c_void,
    part: PhantomData<P>,
}

/// What opens a domain with the seats of a slice.
pub(crate) type Open<P> = unsafe extern "C" fn(&<P as Part>::Options, *mut Handle<P>, usize) -> i32;

/// A call on a seat that tells this.
pub(crate) type Call<P, T> = unsafe extern "C" fn(&mut Handle<P>, &mut T) -> i32;

/// A part of the library: the calls that each part has, on its own seats.
///
/// # Safety
///
/// Each of the calls is safe on a seat that is closed, or as the library left it, and on references that are valid for the length
/// of the call; of the opening, the pointer and the count are those of one slice.
pub(crate) unsafe trait Part: Sized + Debug {
    /// The options as the library reads them.
    type Options;
    const OPEN: Open<Self>;
    const CLOSE: Call<Self, u64>;
    const TIDY: Call<Self, u32>;
    const COUNT: Call<Self, Counts>;
}

const _: () = assert!(size_of::<Handle<()>>() == 16 && size_of::<Counts>() == 48);

// SAFETY: `Send` is proved of the library's own type of a seat, in each part. What hands a seat to another thread orders the two,
// and the calls of a seat take it by `&mut`, so one thread uses it at a time.
unsafe impl<P: Part> Send for Handle<P> {}

/// Each call is safe, as is said at [`Part`]: the fields of a seat are seen by the library alone, and no copy of it is ever made. It and
/// what is written are references that are unshared for the length of the call, and the library keeps none of them.
impl<P: Part> Handle<P> {
    const CLOSED: Handle<P> = Handle { is_open: 0, at: null_mut(), part: PhantomData };

    /// Opens a domain with so many seats, 1 to [`SEATS_MAX`], and makes of each what it is to be: all of them or none.
    pub(crate) fn open_all<S>(options: P::Options, seats: usize, make: fn(Self) -> S) -> Result<Vec<S>, OpenError> {
        let mut opened = [Self::CLOSED; SEATS_MAX];
        let wanted = opened.get_mut(..seats).ok_or(OpenError::BadNumber)?;
        // SAFETY: as said above.
        match Status::of(unsafe { P::OPEN(&options, wanted.as_mut_ptr(), wanted.len()) }) {
            Status::Done => Ok(opened.into_iter().take(seats).map(make).collect()),
            Status::BadNumber => Err(OpenError::BadNumber),
            Status::NoMemory => Err(OpenError::NoMemory),
            other => other.is_unexpected(),
        }
    }

    /// Closes it. The last time of its domain, where it was open and the last one.
    pub(crate) fn close(&mut self) -> Option<u64> {
        let mut last = 0;
        if self.is_open == 0 {
            return None;
        }
        // SAFETY: as said above.
        match Status::of(unsafe { P::CLOSE(self, &mut last) }) {
            Status::Done => Some(last),
            Status::No => None,
            other => other.is_unexpected(),
        }
    }

    pub(crate) fn tidy(&mut self, live: &mut u32) -> Status {
        // SAFETY: as said above.
        Status::of(unsafe { P::TIDY(self, live) })
    }

    pub(crate) fn count(&mut self, counts: &mut Counts) -> Status {
        // SAFETY: as said above.
        Status::of(unsafe { P::COUNT(self, counts) })
    }
}

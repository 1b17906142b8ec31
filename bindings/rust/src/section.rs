//! Sections: reading, locking, writing and committing.

use crate::errors::{Holding, Misuse, Refused, Uncommitted};
use crate::raw::{RawSeat, Status};
use crate::{Tag, Words, WORDS};
use std::mem::forget;

/// A section of a seat: all it reads is of one state, the snapshot of when it began, with its own writes laid over it.
///
/// It borrows the seat mutably. Dropped, it gives up all that it holds, and the history has no entry of it.
///
/// ```
/// # fn main() -> Result<(), Box<dyn std::error::Error>> {
/// let mut seats = mvrlu::open(mvrlu::Options::default(), 1)?;
/// let mut section = seats[0].enter();
/// section.lock(5)?;
/// section.write(5, [1, 2, 3, 4, 5, 6])?;
/// assert_eq!(section.read_pair(5, 2)?, [3, 4]);
/// let mut tried = section.commit([0; 4]);
/// while let Err(mvrlu::Uncommitted::Again { section, .. }) = tried {
///     tried = section.commit([0; 4]);
/// }
/// assert_eq!(tried.ok(), Some(1));
/// # Ok(())
/// # }
/// ```
///
/// A seat doesn't end before its section:
///
/// ```compile_fail,E0505
/// fn closes(seat: mvrlu::Seat) {
///     let mut seat = seat;
///     let mut section = seat.enter();
///     drop(seat);
///     section.time();
/// }
/// ```
#[derive(Debug)]
#[must_use = "a section that is dropped is given up"]
pub struct Section<'seat> {
    raw: &'seat mut RawSeat,
}

impl<'seat> Section<'seat> {
    /// The section that the seat is in.
    pub(crate) fn of(raw: &'seat mut RawSeat) -> Section<'seat> {
        Section { raw }
    }

    /// Reads the words of an object: those of the snapshot, or the section's own where it wrote the object.
    ///
    /// # Errors
    ///
    /// [`Misuse::NoObject`].
    pub fn read(&mut self, object: u32) -> Result<Words, Misuse> {
        let mut words = [0; WORDS];
        match self.raw.read(object, &mut words) {
            Status::Done => Ok(words),
            Status::BadObject => Err(Misuse::NoObject { object }),
            other => other.is_unexpected(),
        }
    }

    /// Reads two words of an object: that of `place`, 0 to 4, and the next one.
    ///
    /// # Errors
    ///
    /// [`Misuse::NoObject`], or else [`Misuse::NoPair`].
    pub fn read_pair(&mut self, object: u32, place: u32) -> Result<[u64; 2], Misuse> {
        let mut words = [0; 2];
        match self.raw.read_pair(object, place, &mut words) {
            Status::Done => Ok(words),
            Status::BadObject => Err(Misuse::NoObject { object }),
            Status::BadPlace => Err(Misuse::NoPair { place }),
            other => other.is_unexpected(),
        }
    }

    /// Locks an object, so that it takes part in the commit with the words that it has. What the section holds already stays
    /// held.
    ///
    /// # Errors
    ///
    /// Each [`Refused`]; of misuses [`Misuse::NoObject`] alone. The section is as it was.
    pub fn lock(&mut self, object: u32) -> Result<(), Refused> {
        let mut by = 0;
        match self.raw.lock(object, &mut by) {
            Status::Done => Ok(()),
            Status::Busy => Err(Refused::Busy { seat: by as usize }),
            Status::Stale => Err(Refused::Stale { time: by }),
            Status::LogFull => Err(Refused::LogFull),
            Status::SetFull => Err(Refused::SetFull),
            Status::BadObject => Err(Misuse::NoObject { object }.into()),
            other => other.is_unexpected(),
        }
    }

    /// Locks the first vacant object from `hint` on, and behind the last one from 0 on, and tells its number: one whose words are
    /// all 0 in the snapshot, and which the section doesn't hold. `hint` is the number behind it then. `None` where no object of
    /// the domain is vacant. An object is vacant again once zeros are written to it.
    ///
    /// # Errors
    ///
    /// Each [`Refused`] of the object that was found, but no misuse. The section is as it was, and `hint` is behind that object.
    ///
    /// ```
    /// # fn main() -> Result<(), Box<dyn std::error::Error>> {
    /// # let mut seats = mvrlu::open(mvrlu::Options::default(), 1)?;
    /// let mut section = seats[0].enter();
    /// let mut hint = 7;
    /// assert_eq!(section.vacant(&mut hint)?, Some(7));
    /// assert_eq!(section.vacant(&mut hint)?, Some(8));
    /// # Ok(())
    /// # }
    /// ```
    pub fn vacant(&mut self, hint: &mut u32) -> Result<Option<u32>, Refused> {
        let mut object = 0;
        match self.raw.vacant(hint, &mut object) {
            Status::Done => Ok(Some(object)),
            Status::Full => Ok(None),
            // What refused it is told by a lock.
            Status::Busy | Status::Stale => self.lock(object).map(|()| Some(object)),
            Status::LogFull => Err(Refused::LogFull),
            Status::SetFull => Err(Refused::SetFull),
            other => other.is_unexpected(),
        }
    }

    /// Gives a locked object new words. Nobody else sees them before the commit.
    ///
    /// # Errors
    ///
    /// [`Misuse::NotLocked`], also where the domain has no such object.
    pub fn write(&mut self, object: u32, words: Words) -> Result<(), Misuse> {
        match self.raw.write(object, &words) {
            Status::Done => Ok(()),
            Status::NotLocked => Err(Misuse::NotLocked { object }),
            other => other.is_unexpected(),
        }
    }

    /// The time of the snapshot: how many entries of the history it sees, 0 to 2^45 - 1.
    pub fn time(&mut self) -> u64 {
        let mut time = 0;
        self.raw.time(&mut time).must_be_done();
        time
    }

    /// Commits all that is locked, as one entry of the history with this tag, and tells the entry's time: 1 for the first
    /// entry, up to 2^45 - 1.
    ///
    /// # Errors
    ///
    /// Each [`Uncommitted`]. Nothing was committed.
    pub fn commit(self, tag: Tag) -> Result<u64, Uncommitted<'seat>> {
        let mut time = 0;
        match self.raw.commit(&tag, &mut time) {
            Status::Done => {
                self.forget_ended();
                Ok(time)
            }
            Status::Again => Err(Uncommitted::Again { section: self, time }),
            Status::Empty => Err(Uncommitted::Empty { section: self }),
            Status::Worn => Err(Uncommitted::Worn),
            other => other.is_unexpected(),
        }
    }

    /// Leaves a section that holds nothing.
    ///
    /// # Errors
    ///
    /// [`Holding`], with the section as it was.
    pub fn leave(self) -> Result<(), Holding<'seat>> {
        match self.raw.leave() {
            Status::Done => {
                self.forget_ended();
                Ok(())
            }
            Status::Holding => Err(Holding { section: self }),
            other => other.is_unexpected(),
        }
    }

    /// Gives up all that is locked, and leaves. It is what dropping the section does.
    pub fn abort(self) {
        drop(self);
    }

    /// Of a section that the library has ended: there is nothing to give up.
    fn forget_ended(self) {
        forget(self);
    }
}

impl Drop for Section<'_> {
    fn drop(&mut self) {
        self.raw.abort().must_be_done();
    }
}

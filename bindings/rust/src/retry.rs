//! Work that is tried again where another seat came first.

use crate::errors::{Refused, Uncommitted, Unfinished};
use crate::seat::Seat;
use crate::section::Section;
use std::thread::yield_now;

/// Where work took place in the one history.
///
/// ```
/// # fn main() -> Result<(), Box<dyn std::error::Error>> {
/// # let mut seats = mvrlu::open(mvrlu::Options::default(), 1)?;
/// let wrote = seats[0].retry(9, |section| section.lock(4))?;
/// let read = seats[0].retry(9, |section| Ok(section.read(4)?))?;
/// assert_eq!((wrote.at, read.at), (mvrlu::At::Commit(1), mvrlu::At::Read(1)));
/// # Ok(())
/// # }
/// ```
#[derive(Clone, Copy, Debug, PartialEq, Eq)]
pub enum At {
    /// It is the entry of this time, 1 to 2^45 - 1.
    Commit(u64),
    /// It locked nothing, and read the state of this time, 0 to 2^45 - 1.
    Read(u64),
}

/// What work came to that was done.
///
/// ```
/// # fn main() -> Result<(), Box<dyn std::error::Error>> {
/// # let mut seats = mvrlu::open(mvrlu::Options::default(), 1)?;
/// let mvrlu::Done { value, at } = seats[0].retry(9, |section| Ok(section.read(4)?[0]))?;
/// assert_eq!((value, at), (0, mvrlu::At::Read(0)));
/// # Ok(())
/// # }
/// ```
#[derive(Clone, Copy, Debug, PartialEq, Eq)]
pub struct Done<T> {
    /// What the work answered in the section that was committed or left.
    pub value: T,
    /// Where it took place.
    pub at: At,
}

impl<T> Done<T> {
    pub(crate) fn map<U>(self, change: impl FnOnce(T) -> U) -> Done<U> {
        Done { value: change(self.value), at: self.at }
    }
}

/// How many times something may still be tried again.
struct Tries {
    left: u32,
}

impl Tries {
    /// Takes one, and tells whether there was one.
    fn take(&mut self) -> bool {
        let some = self.left > 0;
        self.left = self.left.saturating_sub(1);
        some
    }
}

impl Seat {
    /// Does work in a section and commits what it locked, with a tag of zeros; where it locked nothing, the section is left.
    ///
    /// Where another seat came first, the work is done anew in a new section, or the commit is tried again: at most `limit`
    /// times, 0 or more, both counted together. Between two sections the thread yields where another seat has to go on. Work
    /// that finds out by reading that there is nothing to do locks nothing and answers so. Room is made in the log before each
    /// section; where there is too little, work that only reads goes on, and a lock is refused by [`Refused::LogFull`].
    ///
    /// # Errors
    ///
    /// [`Unfinished`]: what the work was refused by, where that doesn't pass or `limit` was reached, or why the commit wasn't
    /// made. Nothing was committed, and the seat is outside a section.
    ///
    /// ```
    /// # fn main() -> Result<(), Box<dyn std::error::Error>> {
    /// # let mut seats = mvrlu::open(mvrlu::Options::default(), 1)?;
    /// let taken = seats[0].retry(100, |section| {
    ///     let mut words = section.read(3)?;
    ///     if words[0] == 0 {
    ///         return Ok(false); // nothing is locked, so the section is left
    ///     }
    ///     section.lock(3)?; // refused where the object was written since
    ///     words[0] -= 1;
    ///     section.write(3, words)?;
    ///     Ok(true)
    /// })?;
    /// assert!(!taken.value);
    /// # Ok(())
    /// # }
    /// ```
    pub fn retry<T>(
        &mut self,
        limit: u32,
        mut work: impl FnMut(&mut Section<'_>) -> Result<T, Refused>,
    ) -> Result<Done<T>, Unfinished> {
        let mut tries = Tries { left: limit };
        loop {
            // What it tells is told by a lock as well, and a section that only reads needs no room.
            let _ = self.prepare();
            let mut section = self.enter();
            match work(&mut section) {
                Ok(value) => return finish(section, value, &mut tries),
                Err(why) if why.may_pass() && tries.take() => {
                    section.abort();
                    if why.waits_for_another() {
                        yield_now();
                    }
                }
                Err(why) => return Err(Unfinished::Refused(why)),
            }
        }
    }
}

/// Ends the section in which the work was done.
fn finish<T>(mut section: Section<'_>, value: T, tries: &mut Tries) -> Result<Done<T>, Unfinished> {
    loop {
        // No call reads a tag.
        match section.commit([0; 4]) {
            Ok(time) => return Ok(Done { value, at: At::Commit(time) }),
            Err(Uncommitted::Again { section: same, .. }) if tries.take() => section = same,
            Err(Uncommitted::Again { time, .. }) => return Err(Unfinished::Again { time }),
            Err(Uncommitted::Empty { mut section }) => return Ok(Done { value, at: At::Read(section.time()) }),
            Err(Uncommitted::Worn) => return Err(Unfinished::Worn),
        }
    }
}

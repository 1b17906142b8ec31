//! Seats: opening, closing, and what is done outside a section.

use crate::errors::{OpenError, Short};
use crate::options::Options;
use crate::raw::{RawOptions, RawSeat, Status};
use crate::section::Section;

/// A seat of a domain: what a thread enters sections with, in lines of memory of its own.
///
/// It may go to another thread, and no two threads use it at once. Dropped, it is closed; the domain ends with its last seat.
///
/// ```
/// # fn main() -> Result<(), mvrlu::OpenError> {
/// let mut seats = mvrlu::open(mvrlu::Options::default(), 2)?;
/// let mut second = seats.remove(1);
/// let reader = std::thread::spawn(move || second.enter().time());
/// assert_eq!(seats[0].enter().time(), 0);
/// assert_eq!(reader.join().unwrap(), 0);
/// # Ok(())
/// # }
/// ```
///
/// It isn't shared between threads, and begins no section while one of it is there:
///
/// ```compile_fail,E0277
/// fn shares<T: Sync>() {}
/// shares::<mvrlu::Seat>();
/// ```
///
/// ```compile_fail,E0499
/// fn two_at_once(seat: &mut mvrlu::Seat) {
///     let mut first = seat.enter();
///     let second = seat.enter();
///     first.time();
/// }
/// ```
#[derive(Debug)]
#[repr(align(128))]
pub struct Seat {
    raw: RawSeat,
}

/// The counts of a seat's log.
#[repr(C)]
#[derive(Clone, Copy, Debug, Default, PartialEq, Eq)]
pub struct Counts {
    /// Commits of the seat.
    pub commits: u64,
    /// Sections that were given up while they held something.
    pub aborts: u64,
    /// Versions that were written back into their objects.
    pub back: u64,
    /// Slots that were freed, in all.
    pub freed: u64,
    /// Entries of the seat that change nothing, made for room.
    pub rests: u64,
    /// Slots that are live now.
    pub live: u64,
}

/// Opens a domain of objects whose words are all 0, with so many seats, 1 to [`SEATS_MAX`](crate::SEATS_MAX). The seat at each place of the vector
/// has the place as its number.
///
/// # Errors
///
/// [`OpenError::BadNumber`] where a number is out of its range, and [`OpenError::NoMemory`]. Nothing is left behind.
pub fn open(options: Options, seats: usize) -> Result<Vec<Seat>, OpenError> {
    RawSeat::open_all(RawOptions::of(options), seats, |raw| Seat { raw })
}

impl Seat {
    /// Makes room in the seat's log for one section that locks as many objects as it may. A section that only reads needs no
    /// room.
    ///
    /// # Errors
    ///
    /// [`Short`] where the oldest write set of the log is still needed, as by a section that reads it.
    pub fn prepare(&mut self) -> Result<(), Short> {
        match self.outside(RawSeat::prepare) {
            Status::Done => Ok(()),
            Status::Short => Err(Short),
            other => other.is_unexpected(),
        }
    }

    /// Reclaims what nobody reads any more of the seat's log, and tells how many slots are live afterwards.
    pub fn tidy(&mut self) -> u32 {
        let mut live = 0;
        self.outside(|raw| raw.tidy(&mut live)).must_be_done();
        live
    }

    /// Tells the counts of the seat's log.
    pub fn count(&mut self) -> Counts {
        let mut counts = Counts::default();
        self.outside(|raw| raw.count(&mut counts)).must_be_done();
        counts
    }

    /// Tells a time that no section of the domain is below, now or ever: what a commit of that time or an earlier one took out of
    /// the objects is read by no section any more. Each seat in a section holds it back, at most to the section's time.
    pub fn grace(&mut self) -> u64 {
        let mut time = 0;
        self.outside(|raw| raw.grace(&mut time)).must_be_done();
        time
    }

    /// Begins a section. Its snapshot is the whole history at one moment of this call.
    pub fn enter(&mut self) -> Section<'_> {
        self.outside(RawSeat::enter).must_be_done();
        Section::of(&mut self.raw)
    }

    /// Closes the seat, as dropping it does. Where it was the last one of its domain, all seats have met, and the time of the last
    /// entry is told, or the opening time where there is none.
    ///
    /// ```
    /// # fn main() -> Result<(), mvrlu::OpenError> {
    /// let mut seats = mvrlu::open(mvrlu::Options { opening_time: 70, ..Default::default() }, 2)?;
    /// let (second, mut first) = (seats.remove(1), seats.remove(0));
    /// first.retry(0, |section| section.lock(3)).unwrap();
    /// assert_eq!((first.close(), second.close()), (None, Some(71)));
    /// # Ok(())
    /// # }
    /// ```
    pub fn close(mut self) -> Option<u64> {
        self.raw.close()
    }

    /// Makes a call that is for a seat outside a section. A section that was leaked (`std::mem::forget`) is given up first.
    fn outside(&mut self, mut call: impl FnMut(&mut RawSeat) -> Status) -> Status {
        match call(&mut self.raw) {
            Status::Inside => {
                self.raw.abort().must_be_done();
                call(&mut self.raw)
            }
            other => other,
        }
    }
}

impl Drop for Seat {
    fn drop(&mut self) {
        self.raw.close();
    }
}

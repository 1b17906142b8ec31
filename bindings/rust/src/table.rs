//! A growing table: opening a domain of one, and calls on it, each of which is one commit or one read.

use crate::errors::{Failed, OpenError};
use crate::raw::replies::{RawOptions, RawReply};
use crate::raw::table::RawTable;
use crate::replies::{ask, calls_of_each_seat, is_yes};
use crate::retry::Done;

/// The fewest objects that a domain of a table may have.
pub const TABLE_OBJECTS_MIN: u32 = 1_048_578;
/// The most objects that a domain of a table may have.
pub const TABLE_OBJECTS_MAX: u32 = 16_777_216;
/// The least slots that the log of a seat of a table may have.
pub const TABLE_SLOTS_MIN: u32 = 65;
/// The most buckets that a table may have.
pub const TABLE_BUCKETS_MAX: u32 = 1_048_576;

/// The numbers of a domain of a table that its opener chooses.
///
/// ```
/// let options = mvrlu::TableOptions { objects: mvrlu::TABLE_OBJECTS_MIN + 999, ..Default::default() };
/// assert_eq!(options.slots, 1024);
/// ```
#[derive(Clone, Copy, Debug, PartialEq, Eq)]
pub struct TableOptions {
    /// How many objects there are, [`TABLE_OBJECTS_MIN`] to [`TABLE_OBJECTS_MAX`]. 1,048,577 are the table and the heads of its buckets,
    /// and each key takes one of the others.
    pub objects: u32,
    /// How many versions the log of each seat holds, [`TABLE_SLOTS_MIN`] to [`SLOTS_MAX`](crate::SLOTS_MAX). A split takes up to 64.
    pub slots: u32,
    /// The time of the opening state, 0 to 2^45 - 1.
    pub opening_time: u64,
}

impl Default for TableOptions {
    /// 2,097,152 objects, so 1,048,575 keys, 1,024 slots, and the opening time 0.
    fn default() -> TableOptions {
        TableOptions { objects: 2_097_152, slots: 1024, opening_time: 0 }
    }
}

/// What a split came to that was done, or that there is nothing to split.
///
/// ```
/// # let mut seats = mvrlu::open_table(mvrlu::TableOptions::default(), 1).unwrap();
/// assert_eq!(seats[0].split(), Ok(mvrlu::Split::Done { time: 1 }));
/// ```
#[derive(Clone, Copy, Debug, PartialEq, Eq)]
pub enum Split {
    /// There is one bucket more.
    Done {
        /// The time of the commit, 1 to 2^45 - 1.
        time: u64,
    },
    /// There are [`TABLE_BUCKETS_MAX`] buckets, and none is left to be split.
    Whole,
    /// The bucket that is next has more than 61 keys, which one commit can't write. It can be split once keys of it were taken out.
    Long {
        /// How many keys it has.
        keys: u64,
    },
}

/// A seat of a domain of one hash table of keys, which grows from 16 buckets up to [`TABLE_BUCKETS_MAX`], in lines of memory of its own. It
/// may go to another thread, and no two threads use it at once. Dropped, it is closed; the domain ends with its last seat.
///
/// A call makes one section: where it changes something it is one commit, and else it reads one state. None waits, and none but
/// [`retry`](GrowingTable::retry) tries again. The table grows where its user splits: behind each second key that was added, a bucket
/// has two keys in the mean.
///
/// ```
/// # fn main() -> Result<(), Box<dyn std::error::Error>> {
/// let mut seats = mvrlu::open_table(mvrlu::TableOptions::default(), 2)?;
/// let [first, second] = seats.as_mut_slice() else { unreachable!() };
/// let mut added = 0;
/// for key in [17, 3, 17, 9] {
///     if first.retry(100, |table| table.add(key))?.value {
///         added += 1;
///         if added % 2 == 0 {
///             let _ = first.split(); // one that was given up is left to the next
///         }
///     }
/// }
/// assert_eq!((second.size()?.value, second.next(4)?.value), (3, Some(9)));
/// # Ok(())
/// # }
/// ```
///
/// ```compile_fail,E0277
/// fn shares<T: Sync>() {}
/// shares::<mvrlu::GrowingTable>();
/// ```
#[derive(Debug)]
#[repr(align(128))]
pub struct GrowingTable {
    raw: RawTable,
}

/// Opens a domain of an empty table of 16 buckets, with so many seats, 1 to [`SEATS_MAX`](crate::SEATS_MAX).
///
/// # Errors
///
/// [`OpenError::BadNumber`] where a number is out of its range, and [`OpenError::NoMemory`]. Nothing is left behind.
pub fn open_table(options: TableOptions, seats: usize) -> Result<Vec<GrowingTable>, OpenError> {
    let TableOptions { objects, slots, opening_time } = options;
    RawTable::open_all(RawOptions::of(objects, slots, opening_time), seats, |raw| GrowingTable { raw })
}

calls_of_each_seat!(GrowingTable);

/// `add`, `del` and `split` fail by each that [`may_pass`](Failed::may_pass) and by [`Failed::Worn`], and `add` by [`Failed::Full`] too. A
/// call that fails changes nothing.
impl GrowingTable {
    /// Adds a key. Tells whether it wasn't there.
    pub fn add(&mut self, key: u32) -> Result<Done<bool>, Failed> {
        Ok(ask(&mut self.raw, |raw, told| raw.add(key, told))?.map(|(yes, _)| yes))
    }

    /// Takes a key out. Tells whether it was there.
    pub fn del(&mut self, key: u32) -> Result<Done<bool>, Failed> {
        Ok(ask(&mut self.raw, |raw, told| raw.del(key, told))?.map(|(yes, _)| yes))
    }

    /// Whether a key is there.
    pub fn has(&mut self, key: u32) -> Result<Done<bool>, Failed> {
        Ok(ask(&mut self.raw, |raw, told| raw.has(key, told))?.map(|(yes, _)| yes))
    }

    /// The least key that isn't below this one. It searches every bucket.
    pub fn next(&mut self, key: u32) -> Result<Done<Option<u32>>, Failed> {
        Ok(ask(&mut self.raw, |raw, told| raw.next(key, told))?.map(|(yes, told)| yes.then_some(told.value as u32)))
    }

    /// How many keys there are. It reads every one of them.
    pub fn size(&mut self) -> Result<Done<u64>, Failed> {
        Ok(ask(&mut self.raw, |raw, told| raw.size(told))?.map(|(_, told)| told.value))
    }

    /// Splits the bucket that is next, by one commit, which leaves the keys as they are. One that was given up may be left to the next.
    pub fn split(&mut self) -> Result<Split, Failed> {
        let mut told = RawReply::default();
        let status = self.raw.split(&mut told);
        Ok(match (is_yes(status, told)?, told.value) {
            (true, _) => Split::Done { time: told.time },
            (false, 0) => Split::Whole,
            (false, keys) => Split::Long { keys },
        })
    }
}

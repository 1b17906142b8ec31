//! Sets: opening a domain of thirty of them, and commands on them, each of which is one commit or one read.

use crate::errors::{Failed, OpenError};
use crate::raw::replies::{RawOptions, RawReply};
use crate::raw::sets::{RawCommand, RawSets, RawWalk};
use crate::raw::Status;
use crate::replies::{ask, calls_of_each_seat};
use crate::retry::{At, Done};

/// The fewest objects that a domain of sets may have.
pub const SETS_OBJECTS_MIN: u32 = 181;
/// The most objects that a domain of sets may have.
pub const SETS_OBJECTS_MAX: u32 = 16_777_216;

/// The numbers of a domain of sets that its opener chooses.
///
/// ```
/// let options = mvrlu::SetsOptions { objects: 8192, ..Default::default() };
/// assert_eq!(options.slots, 1024);
/// ```
#[derive(Clone, Copy, Debug, PartialEq, Eq)]
pub struct SetsOptions {
    /// How many objects there are, [`SETS_OBJECTS_MIN`] to [`SETS_OBJECTS_MAX`]. 180 are the heads of the sets; each key of a
    /// list or a table takes one of the others, and a tree of n keys 2n - 1.
    pub objects: u32,
    /// How many versions the log of each seat holds, [`SLOTS_MIN`](crate::SLOTS_MIN) to [`SLOTS_MAX`](crate::SLOTS_MAX).
    pub slots: u32,
    /// The time of the opening state, 0 to 2^45 - 1.
    pub opening_time: u64,
}

impl Default for SetsOptions {
    /// 4,096 objects, 1,024 slots, and the opening time 0.
    fn default() -> SetsOptions {
        SetsOptions { objects: 4096, slots: 1024, opening_time: 0 }
    }
}

/// One of the thirty sets of a domain, each a map from keys to values: ten of each kind, with the numbers 0 to 9.
///
/// ```
/// # let mut seats = mvrlu::open_sets(mvrlu::SetsOptions::default(), 1).unwrap();
/// let tenth = mvrlu::Set::List(10);
/// assert_eq!(seats[0].has(tenth, 5), Err(mvrlu::Failed::NoSet));
/// ```
#[derive(Clone, Copy, Debug, PartialEq, Eq, Hash)]
pub enum Set {
    /// A sorted list.
    List(u8),
    /// A hash table.
    Table(u8),
    /// A tree.
    Tree(u8),
}

impl Set {
    /// Its number in the library; one too great for a set that isn't there.
    pub(crate) fn number(self) -> u32 {
        let (base, number) = match self {
            Set::List(number) => (0, number),
            Set::Table(number) => (10, number),
            Set::Tree(number) => (20, number),
        };
        if number < 10 {
            base + u32::from(number)
        } else {
            u32::MAX
        }
    }
}

/// A key of a set, with its value.
#[repr(C)]
#[derive(Clone, Copy, Debug, Default, PartialEq, Eq)]
pub struct Entry {
    /// The key.
    pub key: u32,
    /// Its value.
    pub value: u64,
}

/// Some of the entries of a set, all of one state.
#[derive(Clone, Debug, PartialEq, Eq)]
pub struct Walk {
    /// By rising keys.
    pub entries: Vec<Entry>,
    /// The least key for which there was no room.
    pub next: Option<u32>,
}

/// A seat of a domain of sets, in lines of memory of its own. It may go to another thread, and no two threads use it at once.
/// Dropped, it is closed; the domain ends with its last seat.
///
/// A call makes one section: where it changes something it is one commit, and else it reads one state. None waits, and none but
/// [`retry`](Sets::retry) tries again.
///
/// ```
/// # fn main() -> Result<(), Box<dyn std::error::Error>> {
/// use mvrlu::{Command, Set};
/// let mut seats = mvrlu::open_sets(mvrlu::SetsOptions::default(), 2)?;
/// let [first, second] = seats.as_mut_slice() else { unreachable!() };
/// let (waiting, running) = (Set::Tree(0), Set::Table(0));
/// assert!(first.retry(100, |sets| sets.put(waiting, 17, 500))?.value);
/// assert!(first.retry(100, |sets| sets.move_key(waiting, running, 17))?.value);
/// assert_eq!(second.get(running, 17)?.value, Some(500));
/// # Ok(())
/// # }
/// ```
///
/// ```compile_fail,E0277
/// fn shares<T: Sync>() {}
/// shares::<mvrlu::Sets>();
/// ```
#[derive(Debug)]
#[repr(align(128))]
pub struct Sets {
    raw: RawSets,
}

/// Opens a domain of thirty empty sets, with so many seats, 1 to [`SEATS_MAX`](crate::SEATS_MAX).
///
/// # Errors
///
/// [`OpenError::BadNumber`] where a number is out of its range, and [`OpenError::NoMemory`]. Nothing is left behind.
pub fn open_sets(options: SetsOptions, seats: usize) -> Result<Vec<Sets>, OpenError> {
    let SetsOptions { objects, slots, opening_time } = options;
    RawSets::open_all(RawOptions::of(objects, slots, opening_time), seats, |raw| Sets { raw })
}

calls_of_each_seat!(Sets);

/// Each call fails by [`Failed::NoSet`] where a set isn't one of the thirty, and `add`, `put`, `del` and `move_key` by each that
/// [`may_pass`](Failed::may_pass), by [`Failed::Full`] and by [`Failed::Worn`]. A call that fails changes nothing.
impl Sets {
    /// Adds a key, with the value 0. Tells whether it wasn't there.
    pub fn add(&mut self, set: Set, key: u32) -> Result<Done<bool>, Failed> {
        Ok(ask(&mut self.raw, |raw, told| raw.add(set, key, told))?.map(|(yes, _)| yes))
    }

    /// Gives a key a value, and adds it where it isn't there. Tells whether it hadn't this value.
    pub fn put(&mut self, set: Set, key: u32, value: u64) -> Result<Done<bool>, Failed> {
        Ok(ask(&mut self.raw, |raw, told| raw.put(set, key, value, told))?.map(|(yes, _)| yes))
    }

    /// Takes a key out. Tells whether it was there.
    pub fn del(&mut self, set: Set, key: u32) -> Result<Done<bool>, Failed> {
        Ok(ask(&mut self.raw, |raw, told| raw.del(set, key, told))?.map(|(yes, _)| yes))
    }

    /// Moves a key with its value to another set. Tells whether it was in the first and not in the second. Fails by
    /// [`Failed::SameSet`] too.
    pub fn move_key(&mut self, from: Set, to: Set, key: u32) -> Result<Done<bool>, Failed> {
        Ok(ask(&mut self.raw, |raw, told| raw.move_key(from, to, key, told))?.map(|(yes, _)| yes))
    }

    /// Whether a key is there.
    pub fn has(&mut self, set: Set, key: u32) -> Result<Done<bool>, Failed> {
        Ok(ask(&mut self.raw, |raw, told| raw.has(set, key, told))?.map(|(yes, _)| yes))
    }

    /// The value of a key that is there.
    pub fn get(&mut self, set: Set, key: u32) -> Result<Done<Option<u64>>, Failed> {
        Ok(ask(&mut self.raw, |raw, told| raw.get(set, key, told))?.map(|(yes, told)| yes.then_some(told.value)))
    }

    /// The least key that isn't below this one.
    pub fn next(&mut self, set: Set, key: u32) -> Result<Done<Option<u32>>, Failed> {
        Ok(ask(&mut self.raw, |raw, told| raw.next(set, key, told))?
            .map(|(yes, told)| yes.then_some(told.value as u32)))
    }

    /// How many keys there are.
    pub fn size(&mut self, set: Set) -> Result<Done<u64>, Failed> {
        Ok(ask(&mut self.raw, |raw, told| raw.size(set, told))?.map(|(_, told)| told.value))
    }

    /// Whether a key is in the first set, and whether it is in the second, in one state.
    pub fn pair(&mut self, first: Set, second: Set, key: u32) -> Result<Done<(bool, bool)>, Failed> {
        Ok(ask(&mut self.raw, |raw, told| raw.pair(first, second, key, told))?.map(|(_, told)| told.both()))
    }

    /// The entries of a set whose key isn't below `from`, by rising keys, at most so many of them and all of one state. A further
    /// walk, from its `next`, is of a later state. Fails by [`Failed::NoMemory`] too.
    ///
    /// ```
    /// # fn main() -> Result<(), Box<dyn std::error::Error>> {
    /// use mvrlu::{Entry, Set};
    /// let mut seats = mvrlu::open_sets(mvrlu::SetsOptions::default(), 1)?;
    /// for key in [30, 10, 20] {
    ///     seats[0].put(Set::Tree(0), key, 1)?;
    /// }
    /// let walk = seats[0].walk(Set::Tree(0), 11, 1)?.value;
    /// assert_eq!(walk.entries, [Entry { key: 20, value: 1 }]);
    /// assert_eq!(walk.next, Some(30));
    /// # Ok(())
    /// # }
    /// ```
    pub fn walk(&mut self, set: Set, from: u32, at_most: usize) -> Result<Done<Walk>, Failed> {
        let mut entries = vec![Entry::default(); at_most];
        let mut told = RawWalk::default();
        match self.raw.walk(set, from, &mut entries, &mut told) {
            Status::Done => {}
            Status::NoMemory => return Err(Failed::NoMemory),
            Status::NoSet => return Err(Failed::NoSet),
            other => other.is_unexpected(),
        }
        entries.truncate(told.count as usize);
        Ok(Done { value: Walk { entries, next: told.next() }, at: At::Read(told.time) })
    }

    /// Makes a block.
    pub(crate) fn ask_block<const N: usize>(&mut self, commands: &[RawCommand; N], told: &mut [RawReply; N]) -> Status {
        self.raw.block(commands, told)
    }
}

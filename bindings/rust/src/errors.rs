//! What calls are refused by.

use crate::options::{OBJECTS_MAX, SEATS_MAX, SLOTS_MAX, SLOTS_MIN, WRITE_MAX};
use crate::section::Section;
use crate::sets::SETS_OBJECTS_MIN;
use crate::table::{TABLE_OBJECTS_MIN, TABLE_SLOTS_MIN};
use std::error::Error;
use std::fmt::{Display, Formatter, Result};

/// Why a domain wasn't opened.
///
/// ```
/// assert_eq!(mvrlu::open(mvrlu::Options::default(), 65).err(), Some(mvrlu::OpenError::BadNumber));
/// ```
#[derive(Clone, Copy, Debug, PartialEq, Eq)]
pub enum OpenError {
    /// The count of seats or a number of the options is out of its range.
    BadNumber,
    /// There is too little memory.
    NoMemory,
}

/// A section's call that names what isn't there. It left the section as it was.
///
/// ```
/// # let mut seats = mvrlu::open(mvrlu::Options::default(), 1).unwrap();
/// let mut section = seats[0].enter();
/// assert_eq!(section.read(1024), Err(mvrlu::Misuse::NoObject { object: 1024 }));
/// ```
#[derive(Clone, Copy, Debug, PartialEq, Eq)]
pub enum Misuse {
    /// The domain has no object of this number.
    NoObject {
        /// The number.
        object: u32,
    },
    /// No pair of words begins at this place, as it isn't 0 to 4.
    NoPair {
        /// The place.
        place: u32,
    },
    /// The section doesn't hold the object.
    NotLocked {
        /// The object's number.
        object: u32,
    },
}

/// Why an object wasn't locked, or why work on a section stopped.
///
/// ```
/// # let mut seats = mvrlu::open(mvrlu::Options::default(), 2).unwrap();
/// # let [first, second] = seats.as_mut_slice() else { unreachable!() };
/// let mut holder = first.enter();
/// holder.lock(3).unwrap();
/// assert_eq!(second.enter().lock(3), Err(mvrlu::Refused::Busy { seat: 0 }));
/// ```
#[derive(Clone, Copy, Debug, PartialEq, Eq)]
pub enum Refused {
    /// Another seat holds the object. End the section, and begin again later.
    Busy {
        /// The other seat's number, 0 to 63.
        seat: usize,
    },
    /// The object was written after the section began. End it, and enter anew.
    Stale {
        /// The time of that write, 1 to 2^45 - 1.
        time: u64,
    },
    /// The seat's log has no free slot. End the section, and prepare.
    LogFull,
    /// The section holds as many objects as it may.
    SetFull,
    /// The call names what isn't there.
    Misuse(Misuse),
}

impl Refused {
    /// Whether a new section may do better.
    pub(crate) fn may_pass(self) -> bool {
        self.waits_for_another() || matches!(self, Refused::Stale { .. })
    }

    /// Whether another seat has to end its section for that.
    pub(crate) fn waits_for_another(self) -> bool {
        matches!(self, Refused::Busy { .. } | Refused::LogFull)
    }
}

impl From<Misuse> for Refused {
    fn from(why: Misuse) -> Refused {
        Refused::Misuse(why)
    }
}

/// Why a section wasn't committed.
///
/// ```
/// # let mut seats = mvrlu::open(mvrlu::Options::default(), 1).unwrap();
/// match seats[0].enter().commit([0; 4]) {
///     Err(mvrlu::Uncommitted::Empty { section }) => section.leave().unwrap(),
///     other => panic!("{other:?}"),
/// };
/// ```
#[derive(Debug)]
pub enum Uncommitted<'seat> {
    /// Another seat's entry came first. Commit again at once.
    Again {
        /// The section, as it was.
        section: Section<'seat>,
        /// The time of that entry, 1 to 2^45 - 1.
        time: u64,
    },
    /// The section holds nothing.
    Empty {
        /// The section, as it was.
        section: Section<'seat>,
    },
    /// The last time, 2^45 - 1, was reached: the domain only reads from then on. The section was given up.
    Worn,
}

/// The section wasn't left, as it holds something, which is to be committed or given up.
///
/// ```
/// # let mut seats = mvrlu::open(mvrlu::Options::default(), 1).unwrap();
/// let mut section = seats[0].enter();
/// section.lock(3).unwrap();
/// let mvrlu::Holding { section } = section.leave().unwrap_err();
/// section.abort();
/// ```
#[derive(Debug)]
pub struct Holding<'seat> {
    /// The section, as it was.
    pub section: Section<'seat>,
}

/// The seat's log has too little room for a section that locks as many objects as it may, as its oldest write set is still
/// needed, as by a section that reads it. Let other seats end their sections, and prepare again.
///
/// ```
/// # let mut seats = mvrlu::open(mvrlu::Options::default(), 1).unwrap();
/// if let Err(mvrlu::Short) = seats[0].prepare() {
///     std::thread::yield_now();
/// }
/// ```
#[derive(Clone, Copy, Debug, PartialEq, Eq)]
pub struct Short;

/// Why work that was tried again wasn't done.
///
/// ```
/// # let mut seats = mvrlu::open(mvrlu::Options::default(), 1).unwrap();
/// let why = seats[0].retry(9, |section| section.lock(1024)).unwrap_err();
/// assert_eq!(why, mvrlu::Unfinished::Refused(mvrlu::Misuse::NoObject { object: 1024 }.into()));
/// ```
#[derive(Clone, Copy, Debug, PartialEq, Eq)]
pub enum Unfinished {
    /// The last section was refused this.
    Refused(Refused),
    /// Another seat's entry came before the last commit that was tried.
    Again {
        /// The time of that entry, 1 to 2^45 - 1.
        time: u64,
    },
    /// The last time, 2^45 - 1, was reached: the domain only reads from then on.
    Worn,
}

/// Why a call on sets or on a table was not done. It changed nothing.
///
/// ```
/// # let mut seats = mvrlu::open_sets(mvrlu::SetsOptions { objects: 181, slots: 64, opening_time: 0 }, 1).unwrap();
/// # let list = mvrlu::Set::List(0);
/// seats[0].add(list, 1).unwrap();
/// assert_eq!(seats[0].add(list, 2), Err(mvrlu::Failed::Full { time: 1 }));
/// ```
#[derive(Clone, Copy, Debug, PartialEq, Eq)]
pub enum Failed {
    /// Another seat holds an object that the call wanted to change. Make it again.
    Busy {
        /// The other seat's number, 0 to 63.
        seat: usize,
    },
    /// Such an object was written after the call began. Make it again.
    Stale {
        /// The time of that write, 1 to 2^45 - 1.
        time: u64,
    },
    /// Another seat's entry came first. Make it again.
    Again {
        /// The time of that entry, 1 to 2^45 - 1.
        time: u64,
    },
    /// The seat's log has too little room, as what it holds is still read. Make it again.
    Short,
    /// There are too few vacant objects for what the call adds.
    Full {
        /// The time of the state in which that is so.
        time: u64,
    },
    /// The last time, 2^45 - 1, was reached: the domain only reads from then on.
    Worn,
    /// There is too little memory for a block or a walk of the sets, which takes some until it is done.
    NoMemory,
    /// A set isn't one of the thirty.
    NoSet,
    /// A move between a set and itself.
    SameSet,
}

impl Failed {
    /// Whether the same call may do better.
    pub fn may_pass(self) -> bool {
        matches!(self, Failed::Busy { .. } | Failed::Stale { .. } | Failed::Again { .. } | Failed::Short)
    }
}

impl Display for OpenError {
    fn fmt(&self, to: &mut Formatter<'_>) -> Result {
        match self {
            OpenError::BadNumber => write!(
                to,
                "a number is out of its range: seats 1 to {SEATS_MAX}, objects 1 to {OBJECTS_MAX}, \
                 slots {SLOTS_MIN} to {SLOTS_MAX}, write_max 1 to {WRITE_MAX} and less than the slots; \
                 of sets objects from {SETS_OBJECTS_MIN}; of a table objects from {TABLE_OBJECTS_MIN} and slots from {TABLE_SLOTS_MIN}"
            ),
            OpenError::NoMemory => write!(to, "too little memory"),
        }
    }
}

impl Display for Misuse {
    fn fmt(&self, to: &mut Formatter<'_>) -> Result {
        match self {
            Misuse::NoObject { object } => write!(to, "the domain has no object {object}"),
            Misuse::NoPair { place } => write!(to, "no pair of words begins at place {place}"),
            Misuse::NotLocked { object } => write!(to, "the section does not hold object {object}"),
        }
    }
}

impl Display for Refused {
    fn fmt(&self, to: &mut Formatter<'_>) -> Result {
        match self {
            Refused::Busy { seat } => write!(to, "seat {seat} holds the object"),
            Refused::Stale { time } => write!(to, "the object was written at time {time}, after the section began"),
            Refused::LogFull => write!(to, "the seat's log has no free slot"),
            Refused::SetFull => write!(to, "the section holds as many objects as it may"),
            Refused::Misuse(why) => why.fmt(to),
        }
    }
}

const WORN: &str = "the last time was reached";

fn write_rival(to: &mut Formatter<'_>, time: u64) -> Result {
    write!(to, "another seat's entry of time {time} came first")
}

impl Display for Uncommitted<'_> {
    fn fmt(&self, to: &mut Formatter<'_>) -> Result {
        match self {
            Uncommitted::Again { time, .. } => write_rival(to, *time),
            Uncommitted::Empty { .. } => write!(to, "the section holds nothing"),
            Uncommitted::Worn => write!(to, "{WORN}"),
        }
    }
}

impl Display for Holding<'_> {
    fn fmt(&self, to: &mut Formatter<'_>) -> Result {
        write!(to, "the section holds something")
    }
}

impl Display for Short {
    fn fmt(&self, to: &mut Formatter<'_>) -> Result {
        write!(to, "the seat's log has too little room")
    }
}

impl Display for Failed {
    fn fmt(&self, to: &mut Formatter<'_>) -> Result {
        match self {
            Failed::Busy { seat } => write!(to, "seat {seat} holds an object of the change"),
            Failed::Stale { time } => write!(to, "an object of the change was written at time {time}, after it began"),
            Failed::Again { time } => write_rival(to, *time),
            Failed::Short => Short.fmt(to),
            Failed::Full { time } => write!(to, "too few objects are vacant at time {time}"),
            Failed::Worn => write!(to, "{WORN}"),
            Failed::NoMemory => OpenError::NoMemory.fmt(to),
            Failed::NoSet => write!(to, "there is no such set"),
            Failed::SameSet => write!(to, "a move between a set and itself"),
        }
    }
}

impl Display for Unfinished {
    fn fmt(&self, to: &mut Formatter<'_>) -> Result {
        match self {
            Unfinished::Refused(why) => why.fmt(to),
            Unfinished::Again { time } => write_rival(to, *time),
            Unfinished::Worn => write!(to, "{WORN}"),
        }
    }
}

impl Error for OpenError {}
impl Error for Misuse {}
impl Error for Refused {}
impl Error for Uncommitted<'_> {}
impl Error for Holding<'_> {}
impl Error for Short {}
impl Error for Unfinished {}
impl Error for Failed {}

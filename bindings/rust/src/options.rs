//! The numbers of a domain.

/// The most objects that a domain may have.
pub const OBJECTS_MAX: u32 = 16_777_216;
/// The least slots that the log of a seat may have.
pub const SLOTS_MIN: u32 = 64;
/// The most slots that the log of a seat may have.
pub const SLOTS_MAX: u32 = 4096;
/// The most objects that a domain may let a section lock.
pub const WRITE_MAX: u32 = 64;
/// The most seats that a domain may have.
pub const SEATS_MAX: usize = 64;

/// The numbers of a domain that its opener chooses.
///
/// An open domain takes 64 bytes an object, and for each slot of each seat's log 128 bytes of shared words and about 100 of
/// the seat's notes. No call but [`open`](crate::open) takes memory.
///
/// ```
/// let options = mvrlu::Options { objects: 100, ..Default::default() };
/// assert_eq!((options.slots, options.write_max), (1024, 16));
/// ```
#[derive(Clone, Copy, Debug, PartialEq, Eq)]
pub struct Options {
    /// How many objects there are, 1 to [`OBJECTS_MAX`]. Their numbers begin at 0.
    pub objects: u32,
    /// How many versions the log of each seat holds, [`SLOTS_MIN`] to [`SLOTS_MAX`].
    pub slots: u32,
    /// How many objects one section may lock, 1 to [`WRITE_MAX`], and less than `slots`.
    pub write_max: u32,
    /// The time of the opening state, 0 to 2^45 - 1.
    pub opening_time: u64,
}

impl Default for Options {
    /// 1,024 objects, 1,024 slots, 16 objects that one section may lock, and the opening time 0.
    fn default() -> Options {
        Options { objects: 1024, slots: 1024, write_max: 16, opening_time: 0 }
    }
}

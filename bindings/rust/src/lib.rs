//! Objects of six 64-bit words, sets of keys, and a table of keys that grows, which threads share, read and written in multi-version
//! sections: safe Rust over the static library `libmvrlu`, of which is proved, over every interleaving, what each call promises.
//!
//! **The model of objects.** [`open`] makes a domain of objects, whose words are all 0 at first, and a [`Seat`] for each thread. A
//! thread enters a [`Section`] with its seat, and all its reads see the one state of that moment, whatever others commit
//! meanwhile. Readers and writers never wait for each other. To write, a section locks each object, gives it new words, and
//! commits: the commit takes place whole, at one time of the one commit history, or not at all. The domain ends with its last
//! seat: all of them have met then, and [`Seat::close`] tells the last time.
//!
//! ```
//! # fn main() -> Result<(), Box<dyn std::error::Error>> {
//! let options = mvrlu::Options { objects: 8, ..Default::default() };
//! let mut seats = mvrlu::open(options, 2)?;
//! let [writer, reader] = seats.as_mut_slice() else { unreachable!() };
//! let mut before = reader.enter();
//! let done = writer.retry(100, |section| {
//!     section.lock(3)?;
//!     section.lock(7)?;
//!     section.write(3, [1; 6])?;
//!     section.write(7, [2; 6])?;
//!     Ok(())
//! })?;
//! assert_eq!(done.at, mvrlu::At::Commit(1));
//! assert_eq!(before.read(3)?, [0; 6]); // a section that began before it sees none of it
//! drop(before);
//! let mut after = reader.enter(); // and one that begins after it sees all of it
//! assert_eq!((after.read(3)?, after.read(7)?), ([1; 6], [2; 6]));
//! # Ok(())
//! # }
//! ```
//!
//! **The model of sets.** [`open_sets`] makes a domain of thirty maps from keys to values, ten lists, ten hash tables and ten
//! trees, and a [`Sets`] for each thread. Each call is one section: a commit where it changes something, else a read of one
//! state. So is a [block](Sets::block) of up to 8 commands.
//!
//! **The model of a table.** [`open_table`] makes a domain of one hash table of keys without values, and a [`GrowingTable`] for each
//! thread. Each call is one section here too. It grows by [splits](GrowingTable::split), each of one bucket by one commit, from 16
//! buckets to 1,048,576.
//!
//! **Times.** A time counts entries of the history: commits, and rests, which change no object and which a seat makes where only
//! a later time lets it reclaim. The state of the opening time is that of all words 0, and the last time is 2^45 - 1.
//!
//! **Isolation.** It is snapshot isolation: two sections that lock different objects may both commit though each read what
//! the other wrote (write skew). Lock what a commit depends on; a locked object that is not written keeps its words.
//!
//! **Misuse.** The types exclude most of it: a seat is used by one thread at a time, a section ends before its seat does
//! anything else, and nothing is closed twice. What remains, as a number of an object that the domain doesn't have, is an
//! error that left all as it was. No call waits. None tries again but [`Seat::retry`], [`Sets::retry`] and [`GrowingTable::retry`], and
//! a lock once, where its object's chain was cut meanwhile.
//!
//! **Place.** The archive's calls carry the contracts, which are proved; that this package hands on what they answer, and that
//! a seat which is dropped gives up what it holds, is tested. `build.rs` looks for `libmvrlu.a` in the folder that
//! `MVRLU_LIB_DIR` names, or else asks `pkg-config`. All unsafe code is in the module `raw`.
#![deny(missing_docs, unsafe_op_in_unsafe_fn, clippy::undocumented_unsafe_blocks)]

mod block;
mod errors;
mod options;
mod raw;
mod replies;
mod retry;
mod seat;
mod section;
mod sets;
mod table;

pub use block::{Answer, Command, BLOCK_MAX};
pub use errors::{Failed, Holding, Misuse, OpenError, Refused, Short, Uncommitted, Unfinished};
pub use options::{Options, OBJECTS_MAX, SEATS_MAX, SLOTS_MAX, SLOTS_MIN, WRITE_MAX};
pub use retry::{At, Done};
pub use seat::{open, Counts, Seat};
pub use section::Section;
pub use sets::{open_sets, Entry, Set, Sets, SetsOptions, Walk, SETS_OBJECTS_MAX, SETS_OBJECTS_MIN};
pub use table::{open_table, GrowingTable, Split, TableOptions};
pub use table::{TABLE_BUCKETS_MAX, TABLE_OBJECTS_MAX, TABLE_OBJECTS_MIN, TABLE_SLOTS_MIN};

/// How many words an object has.
pub const WORDS: usize = 6;

/// The words of an object.
pub type Words = [u64; WORDS];

/// Four words of the caller's own that stand in the history with a commit. No call reads them back.
pub type Tag = [u64; 4];

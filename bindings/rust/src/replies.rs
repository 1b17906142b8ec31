//! What seats of sets and of a table have in common: each call is a section of its own, and tells a reply.

use crate::errors::Failed;
use crate::raw::handle::{Handle, Part};
use crate::raw::replies::RawReply;
use crate::raw::Status;
use crate::retry::{At, Done};

/// What a call came to: whether it was `yes`, and what else the library told.
pub(crate) type Answer = (bool, RawReply);

/// Makes a call on a seat.
pub(crate) fn ask<P: Part>(
    raw: &mut Handle<P>,
    call: impl FnOnce(&mut Handle<P>, &mut RawReply) -> Status,
) -> Result<Done<Answer>, Failed> {
    let mut told = RawReply::default();
    let status = call(raw, &mut told);
    done(status, told)
}

/// What a call came to with its place, or why it was not done.
pub(crate) fn done(status: Status, told: RawReply) -> Result<Done<Answer>, Failed> {
    let yes = is_yes(status, told)?;
    let at = if told.committed() { At::Commit(told.time) } else { At::Read(told.time) };
    Ok(Done { value: (yes, told), at })
}

/// Whether a call came to `yes`, or why it was not done.
pub(crate) fn is_yes(status: Status, told: RawReply) -> Result<bool, Failed> {
    match status {
        Status::Done => Ok(true),
        Status::No => Ok(false),
        Status::Busy => Err(Failed::Busy { seat: told.value as usize }),
        Status::Stale => Err(Failed::Stale { time: told.value }),
        Status::Again => Err(Failed::Again { time: told.value }),
        Status::Short => Err(Failed::Short),
        Status::Full => Err(Failed::Full { time: told.time }),
        Status::Worn => Err(Failed::Worn),
        Status::NoMemory => Err(Failed::NoMemory),
        Status::NoSet => Err(Failed::NoSet),
        Status::SameSet => Err(Failed::SameSet),
        other => other.is_unexpected(),
    }
}

/// The calls that seats of sets and of a table have alike, for a type whose field `raw` is the library's.
macro_rules! calls_of_each_seat {
    ($seat:ident) => {
        impl $seat {
            /// Reclaims what nobody reads any more of the seat's log, and tells how many slots are live afterwards.
            pub fn tidy(&mut self) -> u32 {
                let mut live = 0;
                self.raw.tidy(&mut live).must_be_done();
                live
            }

            /// Tells the counts of the seat's log.
            pub fn count(&mut self) -> $crate::Counts {
                let mut counts = $crate::Counts::default();
                self.raw.count(&mut counts).must_be_done();
                counts
            }

            /// Closes the seat, as dropping it does. Where it was the last one of its domain, all seats have met, and the time of the
            /// last entry is told, or the opening time where there is none.
            pub fn close(mut self) -> Option<u64> {
                self.raw.close()
            }

            /// Makes a call, and makes it again where another seat came first, at most `limit` times, 0 or more. The thread yields
            /// before each of these.
            ///
            /// # Errors
            ///
            /// What the last call failed by.
            pub fn retry<T>(
                &mut self,
                limit: u32,
                mut call: impl FnMut(&mut $seat) -> Result<T, $crate::Failed>,
            ) -> Result<T, $crate::Failed> {
                for _ in 0..limit {
                    match call(self) {
                        Err(why) if why.may_pass() => std::thread::yield_now(),
                        other => return other,
                    }
                }
                call(self)
            }
        }

        impl Drop for $seat {
            fn drop(&mut self) {
                self.raw.close();
            }
        }
    };
}

pub(crate) use calls_of_each_seat;

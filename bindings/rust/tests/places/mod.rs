//! What a call is expected to come to, with its place.

use mvrlu::{At, Done, Failed};

pub fn committed<T>(value: T, time: u64) -> Result<Done<T>, Failed> {
    Ok(Done { value, at: At::Commit(time) })
}

pub fn read<T>(value: T, time: u64) -> Result<Done<T>, Failed> {
    Ok(Done { value, at: At::Read(time) })
}

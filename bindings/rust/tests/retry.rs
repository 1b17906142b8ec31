//! Work that is tried again.

use mvrlu::{open, At, Done, Misuse, Options, Refused, Seat, Section, Unfinished};
use std::cell::Cell;

const SLOTS: u32 = 64;
const SMALL: Options = Options { objects: 16, slots: SLOTS, write_max: 4, opening_time: 0 };

fn open_two() -> [Seat; 2] {
    open(SMALL, 2).unwrap().try_into().unwrap()
}

/// Adds 1 to the first word of the object, and tells what it was.
fn count(seat: &mut Seat, object: u32, limit: u32) -> Result<Done<u64>, Unfinished> {
    seat.retry(limit, |section| {
        section.lock(object)?;
        let mut words = section.read(object)?;
        words[0] += 1;
        section.write(object, words)?;
        Ok(words[0] - 1)
    })
}

#[test]
fn where_it_took_place() {
    let [mut seat, _] = open_two();
    assert_eq!(count(&mut seat, 3, 0), Ok(Done { value: 0, at: At::Commit(1) }));
    assert_eq!(count(&mut seat, 3, 0), Ok(Done { value: 1, at: At::Commit(2) }));
    let read = seat.retry(0, |section| Ok(section.read(3)?[0]));
    assert_eq!(read, Ok(Done { value: 2, at: At::Read(2) }));
}

#[test]
fn how_many_times_it_is_tried() {
    for limit in [0, 1, 7] {
        let [mut first, mut second] = open_two();
        let mut holder = first.enter();
        holder.lock(3).unwrap();
        let mut tried = 0;
        let refused = second.retry(limit, |section| {
            tried += 1;
            section.lock(3)
        });
        assert_eq!((refused, tried), (Err(Unfinished::Refused(Refused::Busy { seat: 0 })), limit + 1));
        holder.abort();
        assert_eq!(count(&mut second, 3, 0), Ok(Done { value: 0, at: At::Commit(1) }));
    }
}

#[test]
fn what_does_not_pass_is_told_at_once() {
    type Work = fn(&mut Section<'_>) -> Result<(), Refused>;
    let cases: [(Work, Refused); 5] = [
        (|section| (0..5).try_for_each(|object| section.lock(object)), Refused::SetFull),
        (|section| section.lock(16), Misuse::NoObject { object: 16 }.into()),
        (|section| section.read(16).map(|_| ()).map_err(Refused::from), Misuse::NoObject { object: 16 }.into()),
        (|section| section.read_pair(3, 5).map(|_| ()).map_err(Refused::from), Misuse::NoPair { place: 5 }.into()),
        (|section| Ok(section.write(3, [1; 6])?), Misuse::NotLocked { object: 3 }.into()),
    ];
    let [mut seat, _] = open_two();
    for (work, why) in cases {
        let tried = Cell::new(0);
        let refused = seat.retry(100, |section| {
            tried.set(tried.get() + 1);
            work(section)
        });
        assert_eq!((refused, tried.get()), (Err(Unfinished::Refused(why)), 1));
        assert_eq!(seat.enter().time(), 0);
    }
}

/// The work's first section is too old for the object; the second one is not.
#[test]
fn a_stale_section_is_begun_anew() {
    let [mut first, mut second] = open_two();
    let mut seen = Vec::new();
    let done = first.retry(1, |section| {
        if seen.is_empty() {
            count(&mut second, 3, 0).unwrap();
        }
        seen.push((section.time(), section.lock(3)));
        seen[seen.len() - 1].1
    });
    assert_eq!(done, Ok(Done { value: (), at: At::Commit(2) }));
    assert_eq!(seen, [(0, Err(Refused::Stale { time: 1 })), (1, Ok(()))]);
}

/// A section of the other seat keeps the log from being emptied: work that only reads goes on, and a lock is refused.
#[test]
fn a_full_log_refuses_locks_alone() {
    let [mut first, mut second] = open_two();
    let reader = second.enter();
    let full = (0..=SLOTS).find_map(|_| count(&mut first, 0, 2).err());
    assert_eq!(full, Some(Unfinished::Refused(Refused::LogFull)));
    assert!(first.retry(0, |section| Ok(section.read(0)?)).is_ok());
    reader.abort();
    assert!(count(&mut first, 0, 0).is_ok());
}

#[test]
fn unfinished_work_has_texts() {
    let texts = [
        (Unfinished::Refused(Refused::Busy { seat: 1 }), "seat 1 holds the object"),
        (Unfinished::Again { time: 9 }, "another seat's entry of time 9 came first"),
        (Unfinished::Worn, "the last time was reached"),
    ];
    for (error, text) in texts {
        assert_eq!(error.to_string(), text);
    }
}

//! Opening a domain, and the end of it.

use mvrlu::{
    open, open_sets, open_table, OpenError, Options, Seat, Set, SetsOptions, TableOptions, OBJECTS_MAX, SEATS_MAX,
    SLOTS_MAX, SLOTS_MIN, TABLE_OBJECTS_MAX, WRITE_MAX,
};
use std::env::{current_exe, var_os};
use std::mem::{align_of, size_of};
use std::process::Command;

/// The last time.
const TIME_MAX: u64 = (1 << 45) - 1;

const SMALL: Options = Options { objects: 16, slots: 64, write_max: 4, opening_time: 0 };

fn options(objects: u32, slots: u32, write_max: u32) -> Options {
    Options { objects, slots, write_max, opening_time: 0 }
}

fn answer(options: Options, seats: usize) -> Result<usize, OpenError> {
    open(options, seats).map(|opened| opened.len())
}

#[test]
fn numbers_and_their_ranges() {
    let bad = Err(OpenError::BadNumber);
    let asked = [
        (SMALL, 1, Ok(1)),
        (SMALL, SEATS_MAX, Ok(64)),
        (SMALL, 0, bad),
        (SMALL, SEATS_MAX + 1, bad),
        (SMALL, usize::MAX, bad),
        (Options::default(), 2, Ok(2)),
        (options(0, 64, 4), 1, bad),
        (options(1, 64, 4), 1, Ok(1)),
        (options(OBJECTS_MAX + 1, 64, 4), 1, bad),
        (options(16, SLOTS_MIN - 1, 4), 1, bad),
        (options(16, SLOTS_MIN, WRITE_MAX - 1), 1, Ok(1)),
        (options(16, SLOTS_MAX, WRITE_MAX), 1, Ok(1)),
        (options(16, SLOTS_MAX + 1, 4), 1, bad),
        (options(16, 64, 0), 1, bad),
        (options(16, WRITE_MAX, WRITE_MAX), 1, bad),
        (options(16, 128, WRITE_MAX + 1), 1, bad),
        (options(u32::MAX, u32::MAX, u32::MAX), 1, bad),
        (Options { opening_time: TIME_MAX, ..SMALL }, 1, Ok(1)),
        (Options { opening_time: TIME_MAX + 1, ..SMALL }, 1, bad),
    ];
    for (options, seats, wanted) in asked {
        assert_eq!(answer(options, seats), wanted, "{options:?} for {seats} seats");
    }
}

const CHILD: &str = "MVRLU_TEST_IN_LITTLE_MEMORY";

/// It runs itself anew in a process of 700 MB of address space, where 16,777,216 objects, which take 1 GB, have no room.
#[test]
fn too_little_memory() {
    if var_os(CHILD).is_some() {
        let large = Options { objects: OBJECTS_MAX, ..SMALL };
        assert_eq!(answer(large, 1), Err(OpenError::NoMemory));
        let large = TableOptions { objects: TABLE_OBJECTS_MAX, ..Default::default() };
        assert_eq!(open_table(large, 1).err(), Some(OpenError::NoMemory));
        assert_eq!(answer(SMALL, 1), Ok(1));
        return;
    }
    let script = "ulimit -v 700000 && exec \"$0\" --exact too_little_memory";
    let child = Command::new("sh").args(["-c", script]).arg(current_exe().unwrap()).env(CHILD, "1").output().unwrap();
    let said = String::from_utf8_lossy(&child.stdout);
    assert!(child.status.success() && said.contains("1 passed"), "{said}{}", String::from_utf8_lossy(&child.stderr));
}

#[test]
fn seats_have_the_numbers_of_their_places() {
    let mut seats = open(SMALL, SEATS_MAX).unwrap();
    let mut last = seats.pop().unwrap();
    for (number, seat) in seats.iter_mut().enumerate() {
        let mut holder = seat.enter();
        holder.lock(3).unwrap();
        assert_eq!(last.enter().lock(3), Err(mvrlu::Refused::Busy { seat: number }));
    }
}

#[test]
fn a_domain_lives_as_long_as_one_of_its_seats() {
    let mut seats = open(SMALL, 3).unwrap();
    let mut last = seats.remove(1);
    seats[0].retry(0, |section| Ok((section.lock(7)?, section.write(7, [5; 6])?))).unwrap();
    drop(seats);
    assert_eq!(last.enter().read(7), Ok([5; 6]));
    let at = last.retry(0, |section| section.lock(7)).unwrap().at;
    assert_eq!(at, mvrlu::At::Commit(2));
}

#[test]
fn the_seat_closed_last_tells_the_last_time() {
    for order in [[0, 0, 0], [0, 1, 0], [1, 0, 0], [1, 1, 0], [2, 0, 0], [2, 1, 0]] {
        let mut seats = open(Options { opening_time: 70, ..SMALL }, 3).unwrap();
        for seat in &mut seats {
            seat.retry(0, |section| section.lock(7)).unwrap();
        }
        let told = order.map(|place| seats.remove(place).close());
        assert_eq!(told, [None, None, Some(73)], "{order:?}");
    }
}

#[test]
fn a_seat_that_was_dropped_meets_too() {
    let mut seats = open(SMALL, 2).unwrap();
    let last = seats.remove(1);
    drop(seats);
    assert_eq!(last.close(), Some(0));
}

#[test]
fn seats_of_the_sets_tell_the_last_time() {
    let mut seats = open_sets(SetsOptions::default(), 2).unwrap();
    seats[0].add(Set::Tree(3), 5).unwrap();
    let told = [seats.remove(0).close(), seats.remove(0).close()];
    assert_eq!(told, [None, Some(1)]);
}

#[test]
fn no_commit_is_possible_behind_the_last_time() {
    let mut seats = open(Options { opening_time: TIME_MAX - 1, ..SMALL }, 1).unwrap();
    let mut seat = seats.remove(0);
    let mut lock = || seat.retry(0, |section| section.lock(7)).map(|done| done.at);
    assert_eq!(lock(), Ok(mvrlu::At::Commit(TIME_MAX)));
    assert_eq!(lock(), Err(mvrlu::Unfinished::Worn));
    assert_eq!(seat.close(), Some(TIME_MAX));
}

#[test]
fn a_seat_has_lines_of_memory_of_its_own() {
    assert_eq!((align_of::<Seat>(), size_of::<Seat>()), (128, 128));
}

#[test]
fn errors_of_opening_have_texts() {
    let ranges = "a number is out of its range: seats 1 to 64, objects 1 to 16777216, slots 64 to 4096, \
                  write_max 1 to 64 and less than the slots; of sets objects from 181; of a table objects from 1048578 \
                  and slots from 65";
    assert_eq!(OpenError::BadNumber.to_string(), ranges);
    assert_eq!(OpenError::NoMemory.to_string(), "too little memory");
}

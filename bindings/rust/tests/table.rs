//! Calls on a growing table.

mod places;

use mvrlu::{open_table, At, Done, Failed, GrowingTable, OpenError, Split, TableOptions};
use mvrlu::{SEATS_MAX, SLOTS_MAX, TABLE_BUCKETS_MAX, TABLE_OBJECTS_MAX, TABLE_OBJECTS_MIN, TABLE_SLOTS_MIN};
use places::{committed, read};
use std::mem::{align_of, forget, size_of};
use std::thread::scope;

/// The last time.
const TIME_MAX: u64 = (1 << 45) - 1;
const TRIES: u32 = 1_000_000;

/// The seats of a domain with so many nodes.
fn open_nodes<const N: usize>(nodes: u32, opening_time: u64) -> [GrowingTable; N] {
    let options = TableOptions { objects: TABLE_OBJECTS_MIN - 1 + nodes, slots: 1024, opening_time };
    open_table(options, N).unwrap().try_into().unwrap()
}

#[test]
fn numbers_and_their_ranges() {
    let asked = [
        (TABLE_OBJECTS_MIN, TABLE_SLOTS_MIN, 0, 1, true),
        (TABLE_OBJECTS_MIN, SLOTS_MAX, TIME_MAX, 2, true),
        (TABLE_OBJECTS_MIN, 65, 0, SEATS_MAX, true),
        (TABLE_OBJECTS_MIN - 1, 1024, 0, 1, false),
        (TABLE_OBJECTS_MAX + 1, 1024, 0, 1, false),
        (TABLE_OBJECTS_MIN, TABLE_SLOTS_MIN - 1, 0, 1, false),
        (TABLE_OBJECTS_MIN, SLOTS_MAX + 1, 0, 1, false),
        (TABLE_OBJECTS_MIN, 1024, TIME_MAX + 1, 1, false),
        (TABLE_OBJECTS_MIN, 1024, 0, 0, false),
        (TABLE_OBJECTS_MIN, 1024, 0, SEATS_MAX + 1, false),
    ];
    for (objects, slots, opening_time, seats, opens) in asked {
        let opened = open_table(TableOptions { objects, slots, opening_time }, seats).map(|seats| seats.len());
        let wanted = if opens { Ok(seats) } else { Err(OpenError::BadNumber) };
        assert_eq!(opened, wanted, "{objects} {slots} {opening_time} {seats}");
    }
    assert_eq!((align_of::<GrowingTable>(), size_of::<GrowingTable>()), (128, 128));
}

#[test]
fn each_call_with_its_reply_and_its_place() {
    let [mut first, mut second] = open_nodes(8, 100);
    assert_eq!((first.has(5), first.del(5)), (read(false, 100), read(false, 100)));
    assert_eq!((first.next(0), first.size()), (read(None, 100), read(0, 100)));
    assert_eq!((first.add(5), first.add(5)), (committed(true, 101), read(false, 101)));
    assert_eq!((second.add(u32::MAX), first.add(0)), (committed(true, 102), committed(true, 103)));
    assert_eq!((second.has(5), second.has(6)), (read(true, 103), read(false, 103)));
    assert_eq!((first.next(0), first.next(1)), (read(Some(0), 103), read(Some(5), 103)));
    assert_eq!((first.next(6), first.size()), (read(Some(u32::MAX), 103), read(3, 103)));
    assert_eq!((first.split(), second.split()), (Ok(Split::Done { time: 104 }), Ok(Split::Done { time: 105 })));
    assert_eq!((first.size(), first.has(u32::MAX)), (read(3, 105), read(true, 105)));
    assert_eq!((first.del(u32::MAX), first.del(u32::MAX)), (committed(true, 106), read(false, 106)));
    assert_eq!((second.has(u32::MAX), second.next(6)), (read(false, 106), read(None, 106)));
    let (counts, live) = (first.count(), first.tidy());
    assert_eq!((counts.commits, second.count().commits, live, first.count().live), (4, 2, 0, 0));
}

#[test]
fn a_table_without_a_vacant_node() {
    let [mut table] = open_nodes(1, 0);
    assert_eq!(table.add(1), committed(true, 1));
    assert_eq!(table.add(2), Err(Failed::Full { time: 1 }));
    assert_eq!((table.del(1), table.add(2)), (committed(true, 2), committed(true, 3)));
    assert_eq!((table.has(1), table.has(2)), (read(false, 3), read(true, 3)));
}

#[test]
fn no_commit_is_possible_behind_the_last_time() {
    let [mut table] = open_nodes(2, TIME_MAX - 1);
    assert_eq!(table.add(1), committed(true, TIME_MAX));
    assert_eq!((table.add(2), table.del(1), table.split()), (Err(Failed::Worn), Err(Failed::Worn), Err(Failed::Worn)));
    assert_eq!((table.add(1), table.has(1)), (read(false, TIME_MAX), read(true, TIME_MAX)));
    assert_eq!(table.close(), Some(TIME_MAX));
}

/// Without splits a bucket gets more keys than a split can write, until some are taken out.
#[test]
fn a_bucket_that_is_too_long() {
    const KEYS: u32 = 1600;
    let [mut table] = open_nodes(KEYS, 0);
    for key in 0..KEYS {
        assert!(table.retry(TRIES, |table| table.add(key)).unwrap().value);
    }
    let Ok(Split::Long { keys: mut left }) = table.split() else { panic!("the first bucket has too many keys") };
    assert!(61 < left && left < u64::from(KEYS));
    let mut taken = 0;
    loop {
        assert!(table.retry(TRIES, |table| table.del(taken)).unwrap().value);
        taken += 1;
        match table.retry(TRIES, GrowingTable::split).unwrap() {
            Split::Long { keys } => {
                assert!(keys == left || keys == left - 1);
                left = keys;
            }
            Split::Done { .. } => break,
            Split::Whole => panic!("there are few buckets"),
        }
    }
    assert_eq!((left, table.size().unwrap().value), (62, u64::from(KEYS - taken)));
}

#[test]
fn all_buckets_are_split() {
    let [mut table] = open_nodes(1, 0);
    table.add(9).unwrap();
    let mut splits = 0;
    while let Split::Done { .. } = table.retry(TRIES, GrowingTable::split).unwrap() {
        splits += 1;
        assert!(splits < TABLE_BUCKETS_MAX);
    }
    assert_eq!((splits, table.split()), (TABLE_BUCKETS_MAX - 16, Ok(Split::Whole)));
    assert_eq!((table.has(9).unwrap().value, table.size().unwrap().value), (true, 1));
}

#[test]
fn what_is_tried_again() {
    let [mut table] = open_nodes(8, 0);
    for (why, limit, wanted) in [
        (Failed::Busy { seat: 1 }, 0, 1),
        (Failed::Stale { time: 1 }, 5, 6),
        (Failed::Again { time: 1 }, 5, 6),
        (Failed::Short, 5, 6),
        (Failed::Full { time: 1 }, 5, 1),
        (Failed::Worn, 5, 1),
    ] {
        let mut made = 0;
        let said = table.retry(limit, |_| -> Result<(), Failed> {
            made += 1;
            Err(why)
        });
        assert_eq!((said, made), (Err(why), wanted), "{why}");
    }
    assert_eq!(table.retry(0, |table| table.add(1)), committed(true, 1));
}

#[test]
fn the_seat_closed_last_tells_the_last_time() {
    let [first, mut second, third]: [GrowingTable; 3] = open_nodes(8, 70);
    second.add(5).unwrap();
    drop(first);
    assert_eq!((second.close(), third.close()), (None, Some(71)));
}

/// A seat that is leaked keeps its domain open, and the others are as they were.
#[test]
fn a_seat_that_is_never_closed() {
    let [leaked, mut other]: [GrowingTable; 2] = open_nodes(8, 0);
    forget(leaked);
    assert_eq!((other.add(5), other.has(5)), (committed(true, 1), read(true, 1)));
    assert_eq!(other.close(), None);
}

const CHANGERS: u32 = 4;
const KEYS: u32 = 3000;
const STAYING: u32 = 100;

/// Adds keys that no other thread has, splits behind each second one, and takes each third one out again. Tells how many splits it made.
fn change(table: &mut GrowingTable, number: u32) -> u64 {
    let (mut last, mut splits) = (0, 0);
    let mut follows = |time| assert!(std::mem::replace(&mut last, time) < time);
    for turn in 0..KEYS {
        let key = STAYING + turn * CHANGERS + number;
        follows(time_of(table.retry(TRIES, |table| table.add(key)).unwrap()));
        if turn % 2 == 1 {
            match table.split() {
                Ok(Split::Done { time }) => {
                    splits += 1;
                    follows(time);
                }
                Ok(Split::Long { .. }) => {}
                Err(why) if why.may_pass() => {}
                other => panic!("{other:?}"),
            }
        }
        if turn % 3 == 2 {
            assert!(table.has(key).unwrap().value);
            follows(time_of(table.retry(TRIES, |table| table.del(key)).unwrap()));
            assert!(!table.has(key).unwrap().value);
        }
    }
    splits
}

/// The time of a commit that changed something.
fn time_of(done: Done<bool>) -> u64 {
    match done {
        Done { value: true, at: At::Commit(time) } => time,
        other => panic!("{other:?}"),
    }
}

#[test]
fn four_threads_change_and_split_one_table_while_another_looks() {
    let [mut asker, mut changers @ ..]: [GrowingTable; 1 + CHANGERS as usize] = open_nodes(2 * CHANGERS * KEYS, 0);
    for key in 0..STAYING {
        asker.add(key).unwrap();
    }
    let splits: u64 = scope(|threads| {
        let working: Vec<_> =
            changers.iter_mut().zip(0..).map(|(table, number)| threads.spawn(move || change(table, number))).collect();
        let mut last = At::Read(0);
        for key in (0..STAYING).cycle() {
            let Done { value, at } = asker.has(key).unwrap();
            assert!(value && matches!((last, at), (At::Read(before), At::Read(now)) if before <= now));
            last = at;
            if working.iter().all(|one| one.is_finished()) {
                break;
            }
        }
        working.into_iter().map(|one| one.join().unwrap()).sum()
    });
    let there = STAYING + CHANGERS * (KEYS - KEYS / 3);
    assert_eq!(asker.size().unwrap().value, u64::from(there));
    let commits: u64 = changers.iter_mut().map(|table| table.count().commits).sum();
    assert!(splits > 0);
    assert_eq!(commits, u64::from(CHANGERS * (KEYS + KEYS / 3)) + splits);
}

//! Commands and blocks on sets.

mod places;

use mvrlu::Command::{Add, Del, Get, Has, Move, Pair, Put};
use mvrlu::{open_sets, Answer, Entry, Failed, OpenError, Set, Sets, SetsOptions, Walk};
use mvrlu::{SEATS_MAX, SETS_OBJECTS_MAX, SETS_OBJECTS_MIN, SLOTS_MAX, SLOTS_MIN};
use places::{committed, read};
use std::mem::align_of;
use std::thread::scope;

const LIST: Set = Set::List(0);
const TABLE: Set = Set::Table(1);
const TREE: Set = Set::Tree(9);
const TRIES: u32 = 1_000_000;

fn open_one(objects: u32) -> Sets {
    open_sets(SetsOptions { objects, slots: 64, opening_time: 0 }, 1).unwrap().remove(0)
}

#[test]
fn numbers_and_their_ranges() {
    let asked = [
        (SETS_OBJECTS_MIN, SLOTS_MIN, 1, true),
        (70_000, SLOTS_MAX, 2, true),
        (4096, 1024, SEATS_MAX, true),
        (SETS_OBJECTS_MIN - 1, 64, 1, false),
        (SETS_OBJECTS_MAX + 1, 64, 1, false),
        (4096, SLOTS_MIN - 1, 1, false),
        (4096, SLOTS_MAX + 1, 1, false),
        (4096, 64, 0, false),
        (4096, 64, SEATS_MAX + 1, false),
    ];
    for (objects, slots, seats, opens) in asked {
        let opened = open_sets(SetsOptions { objects, slots, opening_time: 0 }, seats).map(|seats| seats.len());
        assert_eq!(opened, if opens { Ok(seats) } else { Err(OpenError::BadNumber) }, "{objects} {slots} {seats}");
    }
    assert_eq!(align_of::<Sets>(), 128);
}

#[test]
fn each_command_with_its_reply_and_its_place() {
    for set in [LIST, TABLE, TREE] {
        let mut sets = open_one(4096);
        assert_eq!(sets.add(set, 7), committed(true, 1));
        assert_eq!(sets.add(set, 7), read(false, 1));
        assert_eq!((sets.get(set, 7), sets.get(set, 8)), (read(Some(0), 1), read(None, 1)));
        assert_eq!((sets.put(set, 7, u64::MAX), sets.put(set, 7, u64::MAX)), (committed(true, 2), read(false, 2)));
        assert_eq!(sets.put(set, u32::MAX, 1), committed(true, 3));
        assert_eq!((sets.has(set, 7), sets.has(set, 8)), (read(true, 3), read(false, 3)));
        assert_eq!((sets.next(set, 0), sets.next(set, 8)), (read(Some(7), 3), read(Some(u32::MAX), 3)));
        assert_eq!(sets.size(set), read(2, 3));
        let other = Set::List(9);
        assert_eq!((sets.move_key(set, other, 7), sets.move_key(set, other, 7)), (committed(true, 4), read(false, 4)));
        assert_eq!((sets.pair(set, other, 7), sets.get(other, 7)), (read((false, true), 4), read(Some(u64::MAX), 4)));
        assert_eq!((sets.del(set, u32::MAX), sets.del(set, u32::MAX)), (committed(true, 5), read(false, 5)));
        assert_eq!((sets.next(set, 0), sets.size(set)), (read(None, 5), read(0, 5)));
        assert!(sets.tidy() <= 64);
    }
}

#[test]
fn a_walk_tells_entries_of_one_state() {
    for set in [LIST, TABLE, TREE] {
        let mut sets = open_one(4096);
        assert_eq!(sets.walk(set, 0, 3), read(Walk { entries: vec![], next: None }, 0));
        let all: Vec<Entry> =
            [0, 16, 17, u32::MAX].into_iter().map(|key| Entry { key, value: u64::from(key) + 1 }).collect();
        for entry in all.iter().rev() {
            assert!(sets.put(set, entry.key, entry.value).unwrap().value);
        }
        assert_eq!(sets.walk(set, 0, 100), read(Walk { entries: all.clone(), next: None }, 4));
        assert_eq!(sets.walk(set, 0, 4), read(Walk { entries: all.clone(), next: None }, 4));
        assert_eq!(sets.walk(set, 1, 2), read(Walk { entries: all[1..3].to_vec(), next: Some(u32::MAX) }, 4));
        assert_eq!(sets.walk(set, 0, 0), read(Walk { entries: vec![], next: Some(0) }, 4));
        assert_eq!(sets.walk(set, u32::MAX, 1), read(Walk { entries: all[3..].to_vec(), next: None }, 4));
        assert_eq!(sets.walk(Set::List(10), 0, 1), Err(Failed::NoSet));
    }
}

#[test]
fn what_calls_fail_by() {
    let mut sets = open_one(SETS_OBJECTS_MIN + 1);
    for bad in [Set::List(10), Set::Table(10), Set::Tree(10), Set::Tree(u8::MAX)] {
        assert_eq!(sets.has(bad, 1), Err(Failed::NoSet));
        assert_eq!(sets.put(bad, 1, 1), Err(Failed::NoSet));
        assert_eq!(sets.move_key(LIST, bad, 1), Err(Failed::NoSet));
        assert_eq!(sets.block([Has { set: LIST, key: 1 }, Add { set: bad, key: 1 }]), Err(Failed::NoSet));
    }
    assert_eq!(sets.move_key(LIST, LIST, 1), Err(Failed::SameSet));
    assert_eq!(sets.block([Move { from: TREE, to: TREE, key: 1 }]), Err(Failed::SameSet));
    assert_eq!((sets.add(LIST, 1), sets.add(LIST, 2)), (committed(true, 1), committed(true, 2)));
    assert_eq!(sets.add(LIST, 3), Err(Failed::Full { time: 2 }));
    let full = sets.block([Del { set: LIST, key: 1 }, Add { set: TREE, key: 4 }, Add { set: TABLE, key: 5 }]);
    assert_eq!(full, Err(Failed::Full { time: 2 }));
    assert_eq!(sets.size(LIST), read(2, 2));
}

#[test]
fn counts_of_a_log() {
    let [mut first, mut second]: [Sets; 2] = open_sets(SetsOptions::default(), 2).unwrap().try_into().unwrap();
    for key in 0..10 {
        first.add(LIST, key).unwrap();
    }
    let counts = first.count();
    assert_eq!((counts.commits, counts.aborts, counts.live + counts.freed), (10, 0, 20));
    assert_eq!((first.tidy(), first.count().freed, first.count().live), (0, 20, 0));
    assert_eq!(second.count().commits, 0);
}

#[test]
fn a_block_is_one_commit_or_one_read() {
    let mut sets = open_one(4096);
    let done = sets.block([
        Put { set: TREE, key: 5, value: 50 },
        Del { set: LIST, key: 5 },
        Get { set: TREE, key: 5 },
        Get { set: TREE, key: 6 },
        Pair { first: TREE, second: LIST, key: 5 },
        Move { from: TREE, to: TABLE, key: 5 },
        Has { set: TREE, key: 5 },
        Add { set: LIST, key: 1 },
    ]);
    let answers = [
        Answer::Changed(true),
        Answer::Changed(false),
        Answer::Value(Some(50)),
        Answer::Value(None),
        Answer::Pair(true, false),
        Answer::Changed(true),
        Answer::Has(false),
        Answer::Changed(true),
    ];
    assert_eq!(done, committed(answers, 1));
    assert_eq!(sets.get(TABLE, 5), read(Some(50), 1));
    assert_eq!(sets.block([Has { set: TABLE, key: 5 }]), read([Answer::Has(true)], 1));
}

#[test]
fn what_is_tried_again() {
    let mut sets = open_one(4096);
    let mut made = 0;
    let mut fails = |why: Failed, limit| {
        made = 0;
        let said = sets.retry(limit, |_| -> Result<(), Failed> {
            made += 1;
            Err(why)
        });
        assert_eq!(said, Err(why));
        made
    };
    for why in [Failed::Busy { seat: 1 }, Failed::Stale { time: 1 }, Failed::Again { time: 1 }, Failed::Short] {
        assert_eq!((fails(why, 0), fails(why, 5)), (1, 6), "{why}");
    }
    for why in [Failed::Full { time: 1 }, Failed::Worn, Failed::NoMemory, Failed::NoSet, Failed::SameSet] {
        assert_eq!((fails(why, 0), fails(why, 5)), (1, 1), "{why}");
    }
    assert_eq!(sets.retry(0, |sets| sets.add(LIST, 1)), committed(true, 1));
}

#[test]
fn failures_have_texts() {
    let texts = [
        (Failed::Busy { seat: 3 }, "seat 3 holds an object of the change"),
        (Failed::Stale { time: 4 }, "an object of the change was written at time 4, after it began"),
        (Failed::Again { time: 5 }, "another seat's entry of time 5 came first"),
        (Failed::Short, "the seat's log has too little room"),
        (Failed::Full { time: 6 }, "too few objects are vacant at time 6"),
        (Failed::Worn, "the last time was reached"),
        (Failed::NoMemory, "too little memory"),
        (Failed::NoSet, "there is no such set"),
        (Failed::SameSet, "a move between a set and itself"),
    ];
    for (why, text) in texts {
        assert_eq!(why.to_string(), text);
    }
}

#[test]
fn a_block_is_seen_whole_by_another_thread() {
    let [mut mover, mut reader]: [Sets; 2] = open_sets(SetsOptions::default(), 2).unwrap().try_into().unwrap();
    mover.put(LIST, 3, 30).unwrap();
    scope(|threads| {
        let moving = threads.spawn(move || {
            for turn in 0..2000 {
                let (from, to) = if turn % 2 == 0 { (LIST, TREE) } else { (TREE, LIST) };
                let commands = [Del { set: from, key: 3 }, Put { set: to, key: 3, value: 30 }];
                let done = mover.retry(TRIES, |sets| sets.block(commands)).unwrap();
                assert_eq!(done.value, [Answer::Changed(true), Answer::Changed(true)]);
            }
        });
        while !moving.is_finished() {
            let (first, second) = reader.pair(LIST, TREE, 3).unwrap().value;
            assert!(first != second);
        }
    });
    assert_eq!(reader.get(LIST, 3).unwrap().value, Some(30));
}

/// Each thread adds keys of its own to the one list, so the changes meet, and each is made.
#[test]
fn two_threads_change_one_set() {
    let [mut first, mut second]: [Sets; 2] = open_sets(SetsOptions::default(), 2).unwrap().try_into().unwrap();
    let fill = |sets: &mut Sets, from: u32| {
        for key in (from..1000).step_by(2) {
            assert!(sets.retry(TRIES, |sets| sets.add(LIST, key)).unwrap().value);
        }
    };
    scope(|threads| {
        threads.spawn(|| fill(&mut second, 1));
        fill(&mut first, 0);
    });
    assert_eq!(first.size(LIST).unwrap().value, 1000);
}

//! Each call with each of its answers, on one thread.

use mvrlu::{open, Holding, Misuse, Options, Refused, Seat, Section, Short, Uncommitted, Words};
use std::mem::forget;

const OBJECTS: u32 = 16;
const SLOTS: u32 = 64;
const WRITE_MAX: u32 = 4;
const TAG: [u64; 4] = [1, 2, 3, 4];
const COUNTED: Words = [1, 2, 3, 4, 5, 6];

fn open_two() -> [Seat; 2] {
    let options = Options { objects: OBJECTS, slots: SLOTS, write_max: WRITE_MAX, opening_time: 0 };
    open(options, 2).unwrap().try_into().unwrap()
}

/// A section of the seat that holds the object.
fn holding(seat: &mut Seat, object: u32) -> Section<'_> {
    let mut section = seat.enter();
    section.lock(object).unwrap();
    section
}

/// Commits the object with these words, and tells the time.
fn put(seat: &mut Seat, object: u32, words: Words) -> u64 {
    let mut section = holding(seat, object);
    section.write(object, words).unwrap();
    section.commit(TAG).unwrap()
}

#[test]
fn objects_and_places_out_of_range() {
    let [mut seat, _] = open_two();
    let mut section = seat.enter();
    for object in [OBJECTS, u32::MAX] {
        let none = Misuse::NoObject { object };
        assert_eq!(section.read(object), Err(none));
        assert_eq!(section.read_pair(object, 5), Err(none));
        assert_eq!(section.lock(object), Err(Refused::Misuse(none)));
        assert_eq!(section.write(object, COUNTED), Err(Misuse::NotLocked { object }));
    }
    for place in [5, u32::MAX] {
        assert_eq!(section.read_pair(0, place), Err(Misuse::NoPair { place }));
    }
    assert_eq!(section.read(OBJECTS - 1), Ok([0; 6]));
    assert!(section.leave().is_ok());
}

#[test]
fn a_section_reads_its_own_writes() {
    let [mut seat, _] = open_two();
    let mut section = holding(&mut seat, 2);
    assert_eq!(section.read(2), Ok([0; 6]));
    assert_eq!(section.write(2, COUNTED), Ok(()));
    assert_eq!(section.read(2), Ok(COUNTED));
    for place in 0..5 {
        let first = u64::from(place) + 1;
        assert_eq!(section.read_pair(2, place), Ok([first, first + 1]));
    }
    assert_eq!(section.write(3, COUNTED), Err(Misuse::NotLocked { object: 3 }));
    assert_eq!(section.time(), 0);
}

#[test]
fn a_write_set_and_its_size() {
    let [mut seat, _] = open_two();
    let mut section = seat.enter();
    for object in 0..WRITE_MAX {
        assert_eq!(section.lock(object), Ok(()));
    }
    assert_eq!(section.lock(0), Ok(()), "it is held already");
    assert_eq!(section.lock(WRITE_MAX), Err(Refused::SetFull));
    assert_eq!(section.commit(TAG).unwrap(), 1);
}

#[test]
fn what_is_handed_back_is_the_section_as_it_was() {
    let [mut seat, _] = open_two();
    let section = seat.enter();
    let Err(Uncommitted::Empty { mut section }) = section.commit(TAG) else { panic!("it holds nothing") };
    section.lock(1).unwrap();
    section.write(1, COUNTED).unwrap();
    let Err(Holding { mut section }) = section.leave() else { panic!("it holds an object") };
    assert_eq!(section.read(1), Ok(COUNTED));
    assert_eq!(section.commit(TAG).unwrap(), 1);
    assert_eq!(seat.enter().read(1), Ok(COUNTED));
}

/// The second seat's section begins before the first one's commit of object 3, and its next one after it.
#[test]
fn busy_then_stale_then_held() {
    let [mut first, mut second] = open_two();
    let mut writer = holding(&mut first, 3);
    let mut reader = second.enter();
    writer.write(3, COUNTED).unwrap();
    assert_eq!(reader.lock(3), Err(Refused::Busy { seat: 0 }));
    assert_eq!(writer.commit(TAG).unwrap(), 1);
    assert_eq!(reader.lock(3), Err(Refused::Stale { time: 1 }));
    assert_eq!((reader.time(), reader.read(3)), (0, Ok([0; 6])));
    assert!(reader.leave().is_ok());
    let mut reader = second.enter();
    assert_eq!((reader.time(), reader.read(3)), (1, Ok(COUNTED)));
    assert_eq!(reader.lock(3), Ok(()));
}

#[test]
fn what_is_given_up_is_free_and_as_it_was() {
    type End = fn(Section<'_>);
    let ends: [(&str, End); 3] = [
        ("drop", |section| drop(section)),
        ("abort", |section| section.abort()),
        ("forget", |section| forget(section)),
    ];
    for (name, end) in ends {
        let [mut first, mut second] = open_two();
        let mut section = holding(&mut first, 5);
        section.write(5, COUNTED).unwrap();
        end(section);
        // A leaked section is given up by the seat's next call.
        first.enter().abort();
        let mut next = second.enter();
        assert_eq!((next.lock(5), next.read(5), next.time()), (Ok(()), Ok([0; 6]), 0), "{name}");
    }
}

#[test]
fn each_call_outside_gives_a_leaked_section_up() {
    type Call = fn(&mut Seat);
    let calls: [(&str, Call); 5] = [
        ("prepare", |seat| seat.prepare().unwrap()),
        ("tidy", |seat| assert_eq!(seat.tidy(), 0)),
        ("grace", |seat| assert_eq!(seat.grace(), 0)),
        ("count", |seat| assert_eq!(seat.count().aborts, 1)),
        ("enter", |seat| seat.enter().abort()),
    ];
    for (name, call) in calls {
        let [mut first, mut second] = open_two();
        forget(holding(&mut first, 5));
        assert_eq!(second.enter().lock(5), Err(Refused::Busy { seat: 0 }), "{name}");
        call(&mut first);
        assert_eq!(second.enter().lock(5), Ok(()), "{name}");
    }
}

#[test]
fn vacant_objects() {
    let [mut first, mut second] = open_two();
    for object in 1..OBJECTS {
        put(&mut first, object, COUNTED);
    }
    put(&mut first, 14, [0; 6]);
    let mut old = second.enter();
    let mut section = first.enter();
    let mut hint = 2;
    assert_eq!((section.vacant(&mut hint), hint), (Ok(Some(14)), 15));
    assert_eq!((section.vacant(&mut hint), hint), (Ok(Some(0)), 1));
    assert_eq!((section.vacant(&mut hint), hint), (Ok(None), 1));
    assert_eq!((old.vacant(&mut hint), hint), (Err(Refused::Busy { seat: 0 }), 15));
    section.write(14, COUNTED).unwrap();
    let time = section.commit(TAG).unwrap();
    hint = 2;
    assert_eq!((old.vacant(&mut hint), hint), (Err(Refused::Stale { time }), 15));
    assert!(old.leave().is_ok());
    assert_eq!(second.enter().vacant(&mut hint), Ok(Some(0)));
}

#[test]
fn grace_is_held_back_by_sections() {
    let [mut first, mut second] = open_two();
    assert_eq!(first.grace(), 0);
    let reader = second.enter();
    assert_eq!((put(&mut first, 3, COUNTED), first.grace()), (1, 0));
    assert!(reader.leave().is_ok());
    assert_eq!(first.grace(), 1);
    let reader = holding(&mut second, 5);
    assert_eq!((put(&mut first, 3, COUNTED), put(&mut first, 3, COUNTED), first.grace()), (2, 3, 1));
    reader.abort();
    assert_eq!((first.grace(), second.grace()), (3, 3));
}

#[test]
fn a_seat_that_is_dropped_gives_up_its_locks() {
    let [mut first, mut second] = open_two();
    forget(holding(&mut first, 5));
    drop(first);
    assert_eq!(second.enter().lock(5), Ok(()));
}

#[test]
fn a_panic_gives_up_the_locks() {
    let [mut first, mut second] = open_two();
    let worked = std::panic::catch_unwind(std::panic::AssertUnwindSafe(|| {
        let _section = holding(&mut first, 5);
        std::panic::resume_unwind(Box::new("a panic"));
    }));
    assert!(worked.is_err());
    assert_eq!(second.enter().lock(5), Ok(()));
    assert_eq!(put(&mut first, 5, COUNTED), 1);
}

/// A section of the second seat keeps the first one's log from being emptied, until it is left.
#[test]
fn a_full_log() {
    let [mut first, mut second] = open_two();
    let reader = second.enter();
    for time in 1..=u64::from(SLOTS) {
        assert_eq!(put(&mut first, 0, [time; 6]), time);
    }
    assert_eq!(first.prepare(), Err(Short));
    assert_eq!(first.enter().lock(0), Err(Refused::LogFull));
    assert!(first.tidy() > 0);
    assert!(reader.leave().is_ok());
    assert_eq!((first.prepare(), first.tidy()), (Ok(()), 0));
    assert_eq!(second.enter().read(0), Ok([u64::from(SLOTS); 6]));
}

/// Each of two sections reads that both objects are 1, and takes one of them away. Both commit, since they lock different
/// objects, and both are 0 then, which neither would have done after the other.
#[test]
fn write_skew() {
    let [mut first, mut second] = open_two();
    put(&mut first, 0, [1; 6]);
    put(&mut first, 1, [1; 6]);
    let mut sections = [first.enter(), second.enter()];
    for (object, section) in (0..2).zip(&mut sections) {
        assert_eq!((section.read(0), section.read(1)), (Ok([1; 6]), Ok([1; 6])));
        section.lock(object).unwrap();
        section.write(object, [0; 6]).unwrap();
    }
    assert_eq!(sections.map(|section| section.commit(TAG).unwrap()), [3, 4]);
    let mut after = first.enter();
    assert_eq!((after.read(0), after.read(1)), (Ok([0; 6]), Ok([0; 6])));
}

/// The same two sections, each of which locks both objects: the second is refused.
#[test]
fn no_write_skew_where_what_a_commit_depends_on_is_locked() {
    let [mut first, mut second] = open_two();
    let (mut one, mut other) = (first.enter(), second.enter());
    assert_eq!((one.lock(0), one.lock(1)), (Ok(()), Ok(())));
    assert_eq!(other.lock(1), Err(Refused::Busy { seat: 0 }));
    one.write(0, [7; 6]).unwrap();
    assert_eq!(one.commit(TAG).unwrap(), 1);
    assert_eq!(other.lock(1), Err(Refused::Stale { time: 1 }));
}

#[test]
fn errors_have_texts() {
    let [mut seat, mut other] = open_two();
    let again = Uncommitted::Again { section: seat.enter(), time: 9 };
    let empty = other.enter().commit(TAG).unwrap_err();
    let texts: [(&dyn std::error::Error, &str); 12] = [
        (&Misuse::NoObject { object: 16 }, "the domain has no object 16"),
        (&Misuse::NoPair { place: 5 }, "no pair of words begins at place 5"),
        (&Misuse::NotLocked { object: 3 }, "the section does not hold object 3"),
        (&Refused::Busy { seat: 1 }, "seat 1 holds the object"),
        (&Refused::Stale { time: 8 }, "the object was written at time 8, after the section began"),
        (&Refused::LogFull, "the seat's log has no free slot"),
        (&Refused::SetFull, "the section holds as many objects as it may"),
        (&Refused::Misuse(Misuse::NoPair { place: 5 }), "no pair of words begins at place 5"),
        (&Short, "the seat's log has too little room"),
        (&again, "another seat's entry of time 9 came first"),
        (&empty, "the section holds nothing"),
        (&Uncommitted::Worn, "the last time was reached"),
    ];
    for (error, text) in texts {
        assert_eq!(error.to_string(), text);
    }
}

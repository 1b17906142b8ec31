//! Seats on threads of their own.

use mvrlu::{open, At, Done, Options, Refused, Seat, Section, Uncommitted};
use std::sync::mpsc::channel;
use std::thread::{scope, spawn};

const SMALL: Options = Options { objects: 16, slots: 64, write_max: 4, opening_time: 0 };
const TRIES: u32 = 1_000_000;

fn open_two() -> [Seat; 2] {
    open(SMALL, 2).unwrap().try_into().unwrap()
}

/// Commits, however many entries of others come first, and tells the time.
fn commit(mut section: Section<'_>) -> u64 {
    let began = section.time();
    loop {
        match section.commit([0; 4]) {
            Ok(time) => return time,
            Err(Uncommitted::Again { section: same, time }) => {
                assert!(began < time, "an entry that came first is not in the snapshot");
                section = same;
            }
            Err(other) => panic!("{other}"),
        }
    }
}

/// Adds 1 to both objects so many times, and tells the times of the commits.
fn count(seat: &mut Seat, times: u64) -> Vec<u64> {
    let add = |section: &mut Section<'_>| {
        for object in [3, 7] {
            section.lock(object)?;
            let mut words = section.read(object)?;
            words[0] += 1;
            section.write(object, words)?;
        }
        Ok(())
    };
    let time = |done: Done<()>| match done.at {
        At::Commit(time) => time,
        At::Read(time) => panic!("nothing was locked at time {time}"),
    };
    (0..times).map(|_| time(seat.retry(TRIES, add).unwrap())).collect()
}

#[test]
fn two_threads_add_to_the_same_objects() {
    const TIMES: u64 = 5000;
    let [mut first, mut second] = open_two();
    let mut times = scope(|threads| {
        let other = threads.spawn(|| count(&mut second, TIMES));
        let own = count(&mut first, TIMES);
        let other = other.join().unwrap();
        assert!(own.is_sorted() && other.is_sorted());
        [own, other].concat()
    });
    times.sort_unstable();
    times.dedup();
    assert_eq!(times.len() as u64, 2 * TIMES, "each commit has a time of its own");
    let mut after = first.enter();
    assert!(times.last() <= Some(&after.time()));
    assert_eq!((after.read(3).unwrap()[0], after.read(7).unwrap()[0]), (2 * TIMES, 2 * TIMES));
}

#[test]
fn a_reader_sees_whole_commits_while_a_writer_makes_them() {
    let [mut writer, mut reader] = open_two();
    scope(|threads| {
        let writing = threads.spawn(|| count(&mut writer, 5000));
        let mut seen = (0, 0);
        while !writing.is_finished() {
            let mut section = reader.enter();
            let (time, first, second) = (section.time(), section.read(3).unwrap()[0], section.read(7).unwrap()[0]);
            assert_eq!(first, second);
            assert!(first <= time && seen <= (time, first));
            seen = (time, first);
        }
    });
    assert_eq!(reader.enter().read(7).unwrap()[0], 5000);
}

/// Each thread locks an object of its own, so all commits are made; where another entry came first they are tried again.
#[test]
fn two_threads_commit_different_objects() {
    const TIMES: u64 = 20_000;
    let work = |seat: &mut Seat, object: u32| {
        for made in 1..=TIMES {
            while seat.prepare().is_err() {
                std::thread::yield_now();
            }
            let mut section = seat.enter();
            section.lock(object).unwrap();
            section.write(object, [made; 6]).unwrap();
            commit(section);
        }
    };
    let [mut first, mut second] = open_two();
    scope(|threads| {
        threads.spawn(|| work(&mut second, 1));
        work(&mut first, 0);
    });
    let mut after = first.enter();
    assert_eq!((after.read(0), after.read(1)), (Ok([TIMES; 6]), Ok([TIMES; 6])));
    assert!(after.time() >= 2 * TIMES);
}

#[test]
fn a_seat_and_its_section_go_to_other_threads() {
    let [mut first, second] = open_two();
    let (give, take) = channel::<Seat>();
    let holder = spawn(move || {
        let mut seat = take.recv().unwrap();
        let mut section = seat.enter();
        section.lock(5).unwrap();
        let section = scope(|threads| threads.spawn(move || section).join().unwrap());
        commit(section)
    });
    give.send(second).unwrap();
    assert_eq!(holder.join().unwrap(), 1);
    let mut section = first.enter();
    assert_eq!((section.time(), section.lock(5)), (1, Ok(())));
}

#[test]
fn a_thread_that_panics_gives_up_its_locks() {
    let [mut first, mut second] = open_two();
    let worked = scope(|threads| {
        let worker = threads.spawn(|| {
            let mut section = second.enter();
            section.lock(5).unwrap();
            std::panic::resume_unwind(Box::new("a panic"));
        });
        worker.join().map(|()| "done")
    });
    assert!(worked.is_err());
    assert_eq!(first.enter().lock(5), Ok::<(), Refused>(()));
}

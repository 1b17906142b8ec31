//! A bank: threads move money between accounts while others add all accounts up. Each sum is that of one state, so each is
//! the whole. docs/C.md says how the archive is made; then, in the folder of this package:
//!     MVRLU_LIB_DIR=FOLDER cargo run --release --example bank

use mvrlu::{open, Done, Misuse, Options, Seat, Unfinished};
use std::error::Error;
use std::sync::atomic::{AtomicUsize, Ordering};
use std::thread::{scope, ScopedJoinHandle};

const ACCOUNTS: u32 = 64;
const OPENING: u64 = 1000;
const TRANSFERS: usize = 50_000;
const TELLERS: usize = 2;
const AUDITORS: usize = 2;
/// How many times a transfer is tried again.
const TRIES: u32 = 1_000_000;
/// The word of an account that is its balance.
const BALANCE: usize = 0;

/// Moves an amount where there is as much.
fn transfer(seat: &mut Seat, from: u32, to: u32, amount: u64) -> Result<Done<()>, Unfinished> {
    seat.retry(TRIES, |section| {
        section.lock(from)?;
        section.lock(to)?;
        let (mut giver, mut taker) = (section.read(from)?, section.read(to)?);
        if giver[BALANCE] >= amount {
            giver[BALANCE] -= amount;
            taker[BALANCE] += amount;
        }
        section.write(from, giver)?;
        section.write(to, taker)?;
        Ok(())
    })
}

/// Adds all accounts up, in one section.
fn sum(seat: &mut Seat) -> Result<u64, Misuse> {
    let mut section = seat.enter();
    let mut all = 0;
    for account in 0..ACCOUNTS {
        all += section.read(account)?[BALANCE];
    }
    Ok(all)
}

fn draw(random: &mut u32) -> u32 {
    *random = random.wrapping_mul(1_664_525).wrapping_add(1_013_904_223);
    *random
}

fn tell(seat: &mut Seat, mut random: u32) -> Result<usize, Unfinished> {
    for _ in 0..TRANSFERS {
        let drawn = draw(&mut random);
        let from = (drawn >> 8) % ACCOUNTS;
        let to = (from + 1 + (drawn >> 20) % (ACCOUNTS - 1)) % ACCOUNTS;
        transfer(seat, from, to, u64::from(drawn >> 28))?;
    }
    Ok(TRANSFERS)
}

/// Adds up until no teller works any more. Tells the first sum that isn't the whole.
fn audit(seat: &mut Seat, working: &AtomicUsize) -> Result<(), String> {
    loop {
        let all = sum(seat).map_err(|why| why.to_string())?;
        if all != u64::from(ACCOUNTS) * OPENING {
            return Err(format!("a sum of {all}"));
        }
        if working.load(Ordering::SeqCst) == 0 {
            return Ok(());
        }
    }
}

fn deposit(seat: &mut Seat, account: u32, amount: u64) -> Result<Done<()>, Unfinished> {
    seat.retry(TRIES, |section| {
        let mut words = section.read(account)?;
        words[BALANCE] = amount;
        section.lock(account)?;
        Ok(section.write(account, words)?)
    })
}

fn ended<T>(thread: ScopedJoinHandle<'_, T>) -> T {
    thread.join().expect("a thread panicked")
}

/// Runs all threads, and tells how many transfers were made.
fn run(seats: &mut [Seat]) -> Result<usize, Box<dyn Error>> {
    let working = AtomicUsize::new(TELLERS);
    let (tellers, auditors) = seats.split_at_mut(TELLERS);
    scope(|threads| {
        let tell_and_end = |(seat, random)| {
            let told = tell(seat, random);
            working.fetch_sub(1, Ordering::SeqCst);
            told
        };
        let tellers: Vec<_> = tellers.iter_mut().zip(99..).map(|it| threads.spawn(move || tell_and_end(it))).collect();
        let auditors: Vec<_> = auditors.iter_mut().map(|seat| threads.spawn(|| audit(seat, &working))).collect();
        let made = tellers.into_iter().map(ended).sum::<Result<usize, _>>()?;
        auditors.into_iter().try_for_each(ended)?;
        Ok(made)
    })
}

fn main() -> Result<(), Box<dyn Error>> {
    let options = Options { objects: ACCOUNTS, ..Options::default() };
    let mut seats = open(options, TELLERS + AUDITORS)?;
    for account in 0..ACCOUNTS {
        deposit(&mut seats[0], account, OPENING)?;
    }
    let transfers = run(&mut seats)?;
    println!("transfers {transfers}, each sum {}", u64::from(ACCOUNTS) * OPENING);
    Ok(())
}

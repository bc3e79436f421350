//! The long run: `compare [--calls N] [--seed S]`, with a fresh seed where none is given. Exit status 1 where library and model differ, where the order of two frees
//! or releases shows, or where a row is missing.

use cueledger_tests::casts;
use cueledger_tests::commuting::either_order;
use cueledger_tests::driver::{compare, RUNNING};
use cueledger_tests::library::{Exports, Library};
use cueledger_tests::orders;
use cueledger_tests::overheads;
use cueledger_tests::random::fresh_seed;
use cueledger_tests::store::Model;
use cueledger_tests::traffic;
use std::process::exit;
use std::sync::atomic::Ordering;
use std::time::Instant;

extern "C" {
    fn signal(number: i32, handler: extern "C" fn(i32)) -> usize;
    fn write(file: i32, bytes: *const u8, count: usize) -> isize;
    fn _exit(status: i32) -> !;
}

// Only calls that a signal handler may make: the number is written by hand.
extern "C" fn stopped(number: i32) {
    let mut text = *b"stopped by signal    in the case of --seed                     \n";
    let mut decimal = |mut value: u64, last: usize| {
        let mut at = last;
        loop {
            text[at] = b'0' + (value % 10) as u8;
            value /= 10;
            at -= 1;
            if value == 0 {
                break;
            }
        }
    };
    decimal(number as u64, 19);
    decimal(RUNNING.load(Ordering::Relaxed), 62);
    // SAFETY: the text is a local; _exit does not return.
    unsafe {
        write(1, text.as_ptr(), text.len());
        _exit(3)
    }
}

/// A library that crashes, or hangs until someone stops it, takes the process with it: say at least in which case.
fn name_the_case_when_stopped() {
    const SIGNALS: [i32; 7] = [2, 4, 6, 7, 8, 11, 15];
    for number in SIGNALS {
        // SAFETY: the handler makes only calls that are allowed there.
        unsafe { signal(number, stopped) };
    }
}

fn main() {
    name_the_case_when_stopped();
    let (mut calls, mut seed) = (1_000_000u64, fresh_seed());
    let mut args = std::env::args().skip(1);
    while let Some(arg) = args.next() {
        let number = args.next().and_then(|number| number.parse().ok());
        match (arg.as_str(), number) {
            ("--calls", Some(number)) => calls = number,
            ("--seed", Some(number)) => seed = number,
            _ => {
                eprintln!("usage: compare [--calls N] [--seed S]");
                exit(2);
            }
        }
    }
    println!("seed {seed}, at least {calls} calls");
    let begun = Instant::now();
    // the wrapper is thin: a tenth of the calls goes through it, the rest straight to the exports
    let result = compare(&Model, &Exports, calls, seed).and_then(|counts| compare(&Model, &Library, calls.div_ceil(10), seed).map(|_| counts));
    match result {
        Err(failure) => {
            println!("{failure}");
            exit(1);
        }
        Ok(counts) => {
            println!("{counts}\n{}", counts.seen);
            let (missing, unseen) = (counts.missing(), counts.seen.missing());
            if calls >= 100_000 && !missing.is_empty() || calls >= 1_000_000 && !unseen.is_empty() {
                println!("never occurred: {missing:?} {unseen:?}");
                exit(1);
            }
        }
    }
    // and a run of the repeatable load for every hundred calls
    match traffic::case::compare(&Model, &Exports, &Exports, calls.div_ceil(100), seed) {
        Err(failure) => {
            println!("{failure}");
            exit(1);
        }
        Ok(seen) => {
            println!("repeatable load: {seen}");
            if calls >= 1_000_000 && !seen.missing().is_empty() {
                println!("never occurred: {:?}", seen.missing());
                exit(1);
            }
        }
    }
    // and a store with questions about types for every fifty calls, a tenth of them through the wrapper
    let cases = calls.div_ceil(50);
    let result = casts::case::compare(&Model, &Exports, cases, seed);
    match result.and_then(|seen| casts::case::compare(&Model, &Library, cases.div_ceil(10), seed).map(|_| seen)) {
        Err(failure) => {
            println!("{failure}");
            exit(1);
        }
        Ok(seen) => {
            println!("type check: {seen}");
            if calls >= 1_000_000 && !seen.missing().is_empty() {
                println!("never occurred: {:?}", seen.missing());
                exit(1);
            }
        }
    }
    // and an order of sizes for every twenty-five calls, a tenth of them through the wrapper
    let cases = calls.div_ceil(25);
    let result = orders::case::compare(&Model, &Exports, cases, seed);
    match result.and_then(|seen| orders::case::compare(&Model, &Library, cases.div_ceil(10), seed).map(|_| seen)) {
        Err(failure) => {
            println!("{failure}");
            exit(1);
        }
        Ok(seen) => {
            println!("order: {seen}");
            if calls >= 1_000_000 && !seen.missing().is_empty() {
                println!("never occurred: {:?}", seen.missing());
                exit(1);
            }
        }
    }
    // and a list of sizes for every twenty-five calls, a tenth of them through the wrapper
    let result = overheads::case::compare(&Model, &Exports, cases, seed);
    match result.and_then(|seen| overheads::case::compare(&Model, &Library, cases.div_ceil(10), seed).map(|_| seen)) {
        Err(failure) => {
            println!("{failure}");
            exit(1);
        }
        Ok(seen) => {
            println!("overhead: {seen}");
            if calls >= 1_000_000 && !seen.missing().is_empty() {
                println!("never occurred: {:?}", seen.missing());
                exit(1);
            }
        }
    }
    // and a history for every thousand calls, on which two frees or releases are tried in either order
    match either_order(&Exports, &Exports, calls.div_ceil(1_000) as usize, seed) {
        Err(what) => {
            println!("{what}");
            exit(1);
        }
        Ok(tried) => {
            println!("either order: {tried}");
            if calls >= 1_000_000 && !tried.under(1).is_empty() {
                println!("never occurred: {:?}", tried.under(1));
                exit(1);
            }
        }
    }
    println!("{:.1} s", begun.elapsed().as_secs_f64());
}

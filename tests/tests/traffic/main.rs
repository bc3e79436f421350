//! The repeatable load: the library against the model, faults that the comparison finds, the figures of three runs, and the
//! program `traffic`.

mod faults;
mod golden;
mod program;

use cueledger_tests::generate::traffic::{case, ends};
use cueledger_tests::library::{Exports, Library};
use cueledger_tests::log::records;
use cueledger_tests::model::used_entries;
use cueledger_tests::print;
use cueledger_tests::random::fresh_seed;
use cueledger_tests::store::{Answer, Call, Model};
use cueledger_tests::traffic::case::{compare, Case};
use cueledger_tests::traffic::seen::Seen;
use cueledger_tests::traffic::{Asked, Traffic, FULL, MOST, STEP};

const SEED: u64 = 1;
const CASES: u64 = 10_000;

/// Each log is run again by the library's own calls.
fn agrees(name: &str, library: &dyn Traffic, cases: u64, seed: u64) -> Seen {
    print(&format!("traffic, {name}: seed {seed}"));
    compare(&Model, library, &Exports, cases, seed).unwrap_or_else(|failure| panic!("{failure}"))
}

#[test]
fn exports() {
    let seen = agrees("exports", &Exports, CASES, SEED);
    print(&seen.to_string());
    assert!(seen.missing().is_empty(), "{:?}", seen.missing());
}

#[test]
fn exports_with_a_fresh_seed() {
    let seen = agrees("exports, fresh", &Exports, CASES, fresh_seed());
    assert!(seen.missing().is_empty(), "{:?}", seen.missing());
}

#[test]
fn wrapper() {
    agrees("wrapper", &Library, CASES / 5, SEED + CASES);
    agrees("wrapper, fresh", &Library, CASES / 5, fresh_seed());
}

/// A run on an image of so many bytes, with as many entries as it uses.
fn run(image: usize, slot_exponent: u32, state: u64, draws: u64, log: usize) -> Case {
    Case { image, table: used_entries(slot_exponent, image as u64) as usize, log, content: 7, asked: Asked { slot_exponent, state, draws } }
}

/// Every length of a log from 40 bytes before the end of a record to 40 behind the end of another.
fn every_log_length(case: Case, records: std::ops::Range<usize>) -> Seen {
    let ends = ends(&case, case.asked.draws);
    let mut seen = Seen::default();
    for log in ends[records.start].saturating_sub(40)..=ends[records.end] + 40 {
        let case = Case { log, ..case };
        for library in [&Exports as &dyn Traffic, &Library] {
            let (outcome, draws) = case.check(&Model, library, &Exports).unwrap_or_else(|failure| panic!("{failure}"));
            seen.look(&case, &outcome, &draws);
        }
    }
    seen
}

/// Of whole short runs: in images where most objects are declined, and in one where none is.
#[test]
fn every_log_length_of_a_run() {
    for (image, slot_exponent, state) in [(64, 6, 0), (100, 6, 1), (300, 15, u64::MAX), (8192, 8, 0)] {
        let seen = every_log_length(run(image, slot_exponent, state, 60, 0), 0..60);
        print(&format!("every log length, L = {image}: {} runs, {} draws", seen.runs, seen.draws));
    }
}

/// Around records with 64 pointers: every number of bytes left before a free.
#[test]
fn every_log_length_with_64_pointers() {
    let case = run(8192, 8, 0, 1_000, 0);
    let log = 22 * 1_000;
    let (_, draws) = Case { log, ..case }.check(&Model, &Exports, &Exports).unwrap_or_else(|failure| panic!("{failure}"));
    let first = draws.iter().position(|draw| draw.live == MOST).expect("64 pointers");
    let seen = every_log_length(case.with(first as u64 + 40), first - 1..first + 40);
    let of_64 = ["23 with 64 pointers", "23, free, for the 64", "free, 64, by 0", "free, 64, by 1", "store, 64"];
    let missing: Vec<_> = seen.missing().into_iter().filter(|what| of_64.contains(&what.as_str()) || what.starts_with("23, free, ")).collect();
    assert!(missing.is_empty(), "{missing:?}");
}

/// Rows 1, 2, 3 at their ends, with a log of space and one without.
#[test]
fn ends_of_the_rows() {
    let entries = |image: usize, s: u32| used_entries(s, image as u64) as usize;
    for log in [0, 9, 10, 1_000] {
        // 20 draws take more than 10 bytes and less than 1,000
        let full = if log < 1_000 { FULL } else { 0 };
        for (image, table, slot_exponent, refusal) in [
            (64, entries(64, 6), 5, 1),
            (64, entries(64, 6), 6, full),
            (8192, entries(8192, 15), 15, full),
            (8192, entries(8192, 15), 16, 1),
            (63, 0, 16, 1),
            (63, entries(64, 6), 6, 2),
            (63, 0, 6, 2),
            (0, 0, 6, 2),
            (64, 0, 6, 3),
            (64, 47, 6, 3),
            (128, 48, 6, full),
            (129, 48, 6, 3),
            (129, 95, 6, 3),
            (129, 96, 6, full),
            (8192, 767, 8, 3),
            (8192, 768, 8, full),
            (8192, 769, 8, full),
        ] {
            let case = Case { image, table, log, content: 7, asked: Asked { slot_exponent, state: 5, draws: 20 } };
            for library in [&Exports as &dyn Traffic, &Library] {
                let (outcome, _) = case.check(&Model, library, &Exports).unwrap_or_else(|failure| panic!("{failure}"));
                assert_eq!(outcome.answer.refusal, refusal, "{case:?}");
            }
        }
    }
}

/// One byte more than an image may have. No page of it is written, so that none is needed.
#[test]
fn image_above_the_most() {
    let (mut image, mut table, mut log) = (vec![0; (1 << 30) + 1], vec![9; 48], [7; 100]);
    let asked = Asked { slot_exponent: 15, state: 5, draws: 3 };
    for library in [&Exports as &dyn Traffic, &Library] {
        assert_eq!(library.traffic(&mut image, &mut table, asked, &mut log), Answer::new(2, []));
    }
    assert!(image[..4096].iter().chain(&image[1 << 30..]).all(|&byte| byte == 0) && table == [9; 48] && log == [7; 100]);
}

/// The first draws from states 0 and 1, worked out apart. From 0: allocate 66, store 91, allocate 23, store 183 through the first.
/// From 1: 2 with no pointers allocates 69; 2 frees it; allocate 93, and 2 frees that.
#[test]
fn first_draws() {
    let first = 0x8010000000000020;
    let allocate = |size| Call::Allocate { size, type_number: 0 };
    let store = |pointer, value| Call::Store { pointer, width: 1, value };
    let free = |pointer| Call::Free { pointer };
    for (state, calls) in [(0, [allocate(66), store(first, 91), allocate(23), store(first, 183)]), (1, [allocate(69), free(first), allocate(93), free(first)])]
    {
        let expected = records(&calls);
        for traffic in [&Model as &dyn Traffic, &Exports, &Library] {
            let (mut image, mut table, mut log) = (vec![9; 8192], vec![9; 768], vec![9; 100]);
            let answer = traffic.traffic(&mut image, &mut table, Asked { slot_exponent: 8, state, draws: 4 }, &mut log);
            assert_eq!(answer, Answer::new(0, [STEP.wrapping_mul(4).wrapping_add(state), expected.len() as u64]));
            assert_eq!(log[..expected.len()], expected);
            assert!(log[expected.len()..].iter().all(|&byte| byte == 9));
        }
    }
}

#[test]
fn model_against_itself() {
    let seen = compare(&Model, &Model, &Model, CASES, SEED).unwrap_or_else(|failure| panic!("{failure}"));
    assert!(seen.missing().is_empty(), "{:?}", seen.missing());
}

#[test]
fn the_same_seed_gives_the_same_case() {
    assert_eq!(format!("{:?}", case(3)), format!("{:?}", case(3)));
    assert_ne!(format!("{:?}", case(3)), format!("{:?}", case(4)));
}

/// Of 60 draws none has 64 pointers before it.
#[test]
fn what_never_occurs_is_told() {
    let mut seen = Seen::default();
    for case in (0..CASES).map(case) {
        let case = case.with(case.asked.draws.min(60));
        let (outcome, draws) = case.check(&Model, &Model, &Model).unwrap_or_else(|failure| panic!("{failure}"));
        seen.look(&case, &outcome, &draws);
    }
    let missing = seen.missing();
    assert!(["64 reached", "free, 64, by 0", "store, 64, last", "23 with 64 pointers"].iter().all(|what| missing.contains(&what.to_string())), "{missing:?}");
    assert!(!missing.iter().any(|what| what.starts_with("s = ") || what.starts_with("23, allocate")), "{missing:?}");
}

//! The overhead report: the library against the model, faults that the comparison finds, worked cases, and answers checked by definition.

mod definitions;
mod faults;

use cueledger_tests::library::{Exports, Library};
use cueledger_tests::overheads::case::{compare, Case};
use cueledger_tests::overheads::generate::case;
use cueledger_tests::overheads::seen::Seen;
use cueledger_tests::overheads::{golden, Answer, Overheads, LARGEST, MOST};
use cueledger_tests::print;
use cueledger_tests::random::{fresh_seed, Random};
use cueledger_tests::store::Model;
use std::time::{Duration, Instant};

const SEED: u64 = 1;
const CASES: u64 = 30_000;

fn agrees(name: &str, library: &dyn Overheads, cases: u64, seed: u64) -> Seen {
    print(&format!("overheads, {name}: seed {seed}"));
    compare(&Model, library, cases, seed).unwrap_or_else(|failure| panic!("{failure}"))
}

#[test]
fn exports() {
    let seen = agrees("exports", &Exports, CASES, SEED);
    print(&seen.to_string());
    assert!(seen.missing().is_empty(), "{:?}", seen.missing());
}

#[test]
fn exports_with_a_fresh_seed() {
    let seen = agrees("exports, fresh", &Exports, CASES, fresh_seed());
    assert!(seen.missing().is_empty(), "{:?}", seen.missing());
}

#[test]
fn wrapper() {
    agrees("wrapper", &Library, CASES / 10, SEED + CASES);
    agrees("wrapper, fresh", &Library, CASES / 10, fresh_seed());
}

#[test]
fn the_same_seed_gives_the_same_case() {
    assert!(case(3) == case(3) && case(3) != case(4));
}

/// Without some cases what only they show is missing, and nothing else.
#[test]
fn what_never_occurs_is_told() {
    let mut seen = Seen::default();
    let left_out = |case: &Case| matches!(case.lent, 0 | 65_535 | 65_537) || case.sizes().contains(&0);
    for case in (0..CASES / 2).map(case).filter(|case| !left_out(case)) {
        seen.look(&case, case.answer(&Model).unwrap_or_else(|failure| panic!("{failure}")));
    }
    assert_eq!(
        seen.missing(),
        ["28, 65,537 sizes, the last bad", "29, size 0 and one above", "no sizes", "65,535 sizes", "28, 65,537 sizes alone", "29, size 0 alone"]
    );
}

const ALL: [&dyn Overheads; 3] = [&Model, &Exports, &Library];

fn is_answered(case: &Case, answer: Answer) {
    for overheads in ALL {
        case.check(answer, overheads).unwrap_or_else(|failure| panic!("{failure}"));
    }
}

/// Through both ways to the library, as the model answers.
fn is_as_the_model_says(sizes: &[u32]) -> Answer {
    let case = Case::from(sizes);
    let answer = case.answer(&Model).unwrap_or_else(|failure| panic!("{failure}"));
    is_answered(&case, answer);
    answer
}

#[test]
fn golden_cases() {
    let cases = golden::cases();
    assert!(cases.len() >= 60, "{}", cases.len());
    cases.iter().for_each(|(case, answer)| is_answered(case, *answer));
}

/// Every pair of sizes at and around powers of two, with a third behind them.
#[test]
fn every_pair_of_sizes() {
    let sizes: Vec<u32> = (0..=16).flat_map(|exponent| [(1 << exponent) - 1, 1 << exponent, (1 << exponent) + 1]).collect();
    let mut rows = [0; 2];
    for (&first, &second) in sizes.iter().flat_map(|first| sizes.iter().map(move |second| (first, second))) {
        for third in [1, 40, LARGEST] {
            let answer = is_as_the_model_says(&[first, second, third]);
            assert!(matches!(answer.refusal, 0 | 29));
            rows[usize::from(answer.accepted())] += 1;
        }
    }
    print(&format!("pairs of sizes around powers of two: refused and accepted {rows:?}"));
    assert!(rows.iter().all(|&count| count > 500), "{rows:?}");
}

/// Counts and sizes around all of their limits, with all others good.
#[test]
fn limits() {
    let sizes = [4, 20, 100, 65_536, 1, 47, 48, 300];
    for count in (0..300).chain(65_530..65_545).chain(131_070..131_075) {
        let many: Vec<_> = sizes.iter().cycle().copied().take(count).collect();
        assert_eq!(is_as_the_model_says(&many).refusal, if count <= MOST { 0 } else { 28 }, "{count} sizes");
    }
    for size in (0..40).chain(65_520..65_560).chain(131_060..131_090).chain([(1 << 31) - 1, 1 << 31, (1 << 31) + 1, u32::MAX]) {
        for place in 0..8 {
            let mut sizes = sizes;
            sizes[place] = size;
            assert_eq!(is_as_the_model_says(&sizes).refusal, if (1..=LARGEST).contains(&size) { 0 } else { 29 }, "size {size} at {place}");
        }
    }
}

extern "C" {
    fn mmap(at: *mut u8, length: usize, protection: i32, flags: i32, file: i32, offset: i64) -> *mut u32;
    fn munmap(at: *mut u32, length: usize) -> i32;
}

/// Counts that are good in the low 32 bits, of sizes in pages that nobody may read.
#[test]
fn counts_of_more_than_32_bits() {
    const COUNT: usize = (1 << 32) + 3;
    const LENGTH: usize = COUNT * size_of::<u32>();
    const NO_ACCESS: i32 = 0;
    const PRIVATE_ANONYMOUS_UNRESERVED: i32 = 0x4022;
    // SAFETY: new pages.
    let first = unsafe { mmap(std::ptr::null_mut(), LENGTH, NO_ACCESS, PRIVATE_ANONYMOUS_UNRESERVED, -1, 0) };
    assert!(first as isize != -1, "no address space for {LENGTH} bytes");
    for count in [1 << 32, COUNT] {
        let mut values = [1; 8];
        let [raw, with_headers, padded, end, headers_extra, headers_over, padded_extra, padded_over] = &mut values;
        // SAFETY: no size of a list that is too long is read; the values are locals.
        let refusal =
            unsafe { cueledger::ffi::cue_overhead(first, count, raw, with_headers, padded, end, headers_extra, headers_over, padded_extra, padded_over) };
        assert_eq!((refusal, values), (28, [0; 8]));
    }
    // SAFETY: they were mapped above, and nothing refers to them.
    assert_eq!(unsafe { munmap(first, LENGTH) }, 0);
}

const LIMIT: Duration = Duration::from_millis(1);

/// The best of several.
#[test]
fn time_of_65_536_sizes() {
    let mut random = Random::new(SEED);
    let mut sizes: Vec<_> = (0..MOST).map(|_| random.within(1, LARGEST.into()) as u32).collect();
    let mut timed = || {
        let begun = Instant::now();
        let answer = Exports.overhead(&mut sizes);
        (answer.accepted(), begun.elapsed())
    };
    let tried: Vec<_> = (0..21).map(|_| timed()).collect();
    let best = tried.iter().map(|&(_, time)| time).min().unwrap();
    print(&format!("report of 65,536 sizes: {} us", best.as_micros()));
    assert!(tried.iter().all(|&(accepted, _)| accepted) && best < LIMIT, "{tried:?}");
}

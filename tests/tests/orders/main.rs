//! The order with few large frames: the library against the model, faults that the comparison finds, worked cases, and objects
//! allocated in the found order.

mod faults;
mod stores;

use cueledger_tests::library::{Exports, Library};
use cueledger_tests::orders::case::{compare, Case};
use cueledger_tests::orders::generate::case;
use cueledger_tests::orders::model::all;
use cueledger_tests::orders::seen::Seen;
use cueledger_tests::orders::{golden, Orders};
use cueledger_tests::print;
use cueledger_tests::random::fresh_seed;
use cueledger_tests::store::{Answer, Model};
use std::time::{Duration, Instant};

const SEED: u64 = 1;
const CASES: u64 = 30_000;

fn agrees(name: &str, library: &dyn Orders, cases: u64, seed: u64) -> Seen {
    print(&format!("orders, {name}: seed {seed}"));
    compare(&Model, library, cases, seed).unwrap_or_else(|failure| panic!("{failure}"))
}

#[test]
fn exports() {
    let seen = agrees("exports", &Exports, CASES, SEED);
    print(&seen.to_string());
    assert!(seen.missing().is_empty(), "{:?}", seen.missing());
}

#[test]
fn exports_with_a_fresh_seed() {
    let seen = agrees("exports, fresh", &Exports, CASES, fresh_seed());
    assert!(seen.missing().is_empty(), "{:?}", seen.missing());
}

#[test]
fn wrapper() {
    agrees("wrapper", &Library, CASES / 10, SEED + CASES);
    agrees("wrapper, fresh", &Library, CASES / 10, fresh_seed());
}

#[test]
fn the_same_seed_gives_the_same_case() {
    assert!(case(3) == case(3) && case(3) != case(4));
}

/// Without some cases what only they show is missing, and nothing else.
#[test]
fn what_never_occurs_is_told() {
    let mut seen = Seen::default();
    for case in (0..CASES / 2).map(case).filter(|case| case.budget != 0 && case.lent != 9 && (case.lent, case.budget) != (8, 40_319)) {
        seen.look(&case, case.answer(&Model).unwrap_or_else(|failure| panic!("{failure}")));
    }
    let only = |what: &String| ["27", "budget 0", "nine sizes", "40,319"].iter().any(|part| what.contains(part)) && !what.contains("in 32 bits");
    let expected = seen.all().into_iter().map(|(what, _)| what).filter(only).collect::<Vec<_>>();
    assert_eq!(seen.missing(), expected);
    assert_eq!(expected.len(), 4 + 6 + 1 + 1, "{expected:?}");
}

const ALL: [&dyn Orders; 3] = [&Model, &Exports, &Library];

fn lent(sizes: &[u32], slot_exponent: u32, budget: u64) -> Case {
    Case { sizes: sizes.to_vec(), lent: sizes.len(), slot_exponent, budget }
}

fn is_answered(case: &Case, answer: Answer) {
    for orders in ALL {
        case.check(answer, orders).unwrap_or_else(|failure| panic!("{failure}"));
    }
}

/// Through both ways to the library, as the model answers.
fn is_as_the_model_says(sizes: &[u32], slot_exponent: u32, budget: u64) -> Answer {
    let case = lent(sizes, slot_exponent, budget);
    let answer = case.answer(&Model).unwrap_or_else(|failure| panic!("{failure}"));
    is_answered(&case, answer);
    answer
}

#[test]
fn golden_cases() {
    let cases = golden::cases();
    assert!(cases.len() >= 20, "{}", cases.len());
    cases.iter().for_each(|(case, answer)| is_answered(case, *answer));
}

/// Every pair of sizes up to three frames of 64 bytes, with every budget that matters.
#[test]
fn every_pair_of_sizes() {
    // by the found order, and by how many are above the floor
    let (mut orders, mut above) = ([0; 2], [0; 3]);
    for (first, second) in (0..200).flat_map(|first| (0..200).map(move |second| (first, second))) {
        for budget in [1, 2, 3] {
            let [order, large, _, floor] = is_as_the_model_says(&[first, second], 6, budget).values;
            orders[usize::from(order != 0x01_00)] += 1;
            above[(large - floor) as usize] += 1;
        }
    }
    print(&format!("pairs of sizes up to 199: found as given and exchanged {orders:?}, above the floor by 0, 1 and 2 {above:?}"));
    assert!(orders.iter().all(|&count| count > 1_000) && above[0] > 10_000 && above[1] > 10_000, "{orders:?} {above:?}");
}

/// Exponents, counts, sizes and budgets around all of their limits, with all others good.
#[test]
fn limits() {
    let sizes = [4, 20, 100, 65_535, 0, 47, 48, 300];
    for s in (0..100).chain([u32::MAX]) {
        let answer = is_as_the_model_says(&sizes[..3], s, 6);
        assert_eq!(answer.refusal, if (6..=15).contains(&s) { 0 } else { 26 }, "s = {s}");
    }
    for count in 0..300 {
        let many: Vec<_> = sizes.iter().cycle().copied().take(count).collect();
        let answer = is_as_the_model_says(&many, 6, 30);
        assert_eq!(answer.refusal, if (1..=8).contains(&count) { 0 } else { 26 }, "{count} sizes");
    }
    for size in (65_530..65_550).chain([u32::MAX]) {
        for place in 0..8 {
            let mut sizes = sizes;
            sizes[place] = size;
            let answer = is_as_the_model_says(&sizes, 6, 30);
            assert_eq!(answer.refusal, if size <= 65_535 { 0 } else { 26 }, "size {size} at {place}");
        }
    }
    for (count, budget) in (1..=5).flat_map(|count| (0..130).map(move |budget| (count, budget))) {
        let answer = is_as_the_model_says(&sizes[..count], 6, budget);
        assert_eq!((answer.refusal, answer.values[2]), (if budget > 0 { 0 } else { 27 }, budget.min(all(count))), "{count} sizes, budget {budget}");
    }
}

const LIMIT: Duration = Duration::from_millis(5);

/// The best of several.
#[test]
fn time_of_all_orders_of_eight() {
    let mut sizes = [790, 1_160, 960, 240, 950, 690, 500, 2_070];
    let mut timed = || {
        let begun = Instant::now();
        let answer = Exports.order(&mut sizes, 10, u64::MAX);
        (answer, begun.elapsed())
    };
    let tried: Vec<_> = (0..7).map(|_| timed()).collect();
    let best = tried.iter().map(|&(_, time)| time).min().unwrap();
    print(&format!("all orders of eight sizes: {} us", best.as_micros()));
    assert!(tried.iter().all(|(answer, _)| answer.values[2] == 40_320) && best < LIMIT, "{tried:?}");
}

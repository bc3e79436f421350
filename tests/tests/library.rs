//! The library against the model, with a fixed seed and with a fresh one.

use cueledger_tests::counts::Counts;
use cueledger_tests::driver::compare;
use cueledger_tests::library::{Exports, Library};
use cueledger_tests::print;
use cueledger_tests::random::fresh_seed;
use cueledger_tests::store::{Model, Store};

const SEED: u64 = 1;

fn agrees(name: &str, library: &impl Store, calls: u64, seed: u64) -> Counts {
    print(&format!("{name}: seed {seed}"));
    let counts = compare(&Model, library, calls, seed).unwrap_or_else(|failure| panic!("{failure}"));
    assert!(counts.missing().is_empty(), "rows that never occurred: {:?}", counts.missing());
    counts
}

#[test]
fn exports() {
    let counts = agrees("exports", &Exports, 1_000_000, SEED);
    print(&format!("{counts}\n{}", counts.seen));
    assert!(counts.slot_exponents[6..].iter().all(|&cases| cases > 0));
    assert!(counts.widths.iter().all(|by_width| by_width[1..].iter().all(|&accepted| accepted > 0)));
    assert!(counts.tallies.iter().all(|&accepted| accepted > 0));
    assert!(counts.seen.missing().is_empty(), "{:?}", counts.seen.missing());
    assert!(counts.largest_image > 1 << 20);
}

#[test]
fn exports_with_a_fresh_seed() {
    let counts = agrees("exports, fresh", &Exports, 1_000_000, fresh_seed());
    assert!(counts.seen.missing().is_empty(), "{:?}", counts.seen.missing());
}

#[test]
fn wrapper() {
    agrees("wrapper", &Library, 200_000, SEED + 1_000_000);
}

#[test]
fn wrapper_with_a_fresh_seed() {
    agrees("wrapper, fresh", &Library, 200_000, fresh_seed());
}

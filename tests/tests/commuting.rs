//! Closing two buffers in either order: the library's dumps are equal byte by byte, on histories that it made itself.

use cueledger_tests::commuting::either_order;
use cueledger_tests::library::{Exports, Library};
use cueledger_tests::print;
use cueledger_tests::random::fresh_seed;
use cueledger_tests::store::{Model, Store};

const SEED: u64 = 1;
const HISTORIES: usize = 1_000;
/// Pairs of each kind at the least.
const LEAST: u64 = 50;

fn passes(name: &str, store: &impl Store, seed: u64) {
    let tried = either_order(store, store, HISTORIES, seed).unwrap_or_else(|what| panic!("{name}: {what}"));
    print(&format!("{name}, seed {seed}: {tried}"));
    assert!(tried.under(LEAST).is_empty(), "{:?}", tried.under(LEAST));
}

#[test]
fn model() {
    passes("model", &Model, SEED);
}

#[test]
fn exports() {
    passes("exports", &Exports, SEED);
    passes("exports, fresh", &Exports, fresh_seed());
}

#[test]
fn wrapper() {
    passes("wrapper", &Library, SEED);
    passes("wrapper, fresh", &Library, fresh_seed());
}

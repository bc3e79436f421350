//! Memory that objects take: the smallest image in which they fit, and the smallest table that set-up accepts for it,
//! both found by trying.

use crate::contestants::{Calls, Lent, Library};
use cueledger_tests::random::Random;

const OBJECTS: usize = 1_000;

/// The least number below or at `high` from which on `fits` holds.
fn least(high: usize, mut fits: impl FnMut(usize) -> bool) -> usize {
    let (mut low, mut high) = (0, high);
    while low < high {
        let middle = (low + high) / 2;
        if fits(middle) {
            high = middle;
        } else {
            low = middle + 1;
        }
    }
    high
}

fn row(name: &str, sizes: &[u32], slot_exponent: u32) {
    let bodies: usize = sizes.iter().map(|&size| size as usize).sum();
    let mut lent = Lent::new(64 + 2 * (bodies + 16 * sizes.len()), slot_exponent);
    let image = least(lent.image.len(), |length| {
        lent.image.resize(length, 0);
        Library::set_up(&mut lent, slot_exponent).is_ok() && sizes.iter().all(|&size| Library::allocate(&mut lent, size).is_ok())
    });
    lent.image.resize(image, 0);
    let entries = least(lent.table.len(), |entries| {
        lent.table.resize(entries, 0);
        Library::set_up(&mut lent, slot_exponent).is_ok()
    });
    let (table, ratio) = (8 * entries, |bytes: usize| bytes as f64 / bodies as f64);
    println!("{name:<40}{bodies:>11}{image:>11}{:>8.2}{table:>11}{:>8.2}", ratio(image), ratio(image + table));
}

pub fn measure() {
    println!("\n{:<40}{:>11}{:>11}{:>8}{:>11}{:>8}", "memory, bytes", "bodies", "image", "ratio", "table", "both");
    let mut random = Random::new(1);
    let mixed: Vec<u32> = (0..OBJECTS).map(|_| random.within(1, 512) as u32).collect();
    for slot_exponent in [6, 10, 15] {
        for size in [16, 64, 256, 4096] {
            row(&format!("{OBJECTS} objects of {size}, s = {slot_exponent}"), &[size; OBJECTS], slot_exponent);
        }
        row(&format!("{OBJECTS} objects of 1 to 512, s = {slot_exponent}"), &mixed, slot_exponent);
    }
}

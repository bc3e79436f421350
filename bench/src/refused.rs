//! Refused calls.

use crate::all;
use crate::contestants::{Calls, Lent, Model};
use crate::measure::{repeat, Bench, Other};
use cueledger_tests::model;
use std::hint::black_box;

const CALLS: usize = 20_000;

/// Every call of a round must be refused by `$row`.
macro_rules! refused {
    ($bench:ident, $lent:ident, $name:literal, $row:literal, |$calls:ident, $on:ident| $call:expr) => {
        $bench.line(
            concat!($name, " (", $row, ")"),
            CALLS,
            &mut $lent,
            all!(|$calls, $on: Lent| repeat(CALLS, |_| {
                let $on = black_box(&mut *$on);
                assert_eq!(black_box($call), Err($row));
            })),
            Other::None,
        )
    };
}

pub fn measure(bench: &mut Bench) {
    bench.heading("a refused call", "");
    let mut lent = Lent::new(4096, 8);
    // twelve blocks, two of them freed between live ones, and the last free one too small
    let [small, large, freed_small, _, freed_large] = [40, 300, 40, 16, 300].map(|size| lent.allocate(size));
    for _ in 0..6 {
        lent.allocate(400);
    }
    for pointer in [freed_small, freed_large] {
        Model::free(&mut lent, pointer).unwrap();
    }
    // a text of three letters
    Model::fill(&mut lent, small, 3, b'_').unwrap();
    refused!(bench, lent, "set-up, s = 5", 1, |C, lent| C::set_up(lent, 5));
    refused!(bench, lent, "allocate, no space behind 12 blocks", 8, |C, lent| C::allocate(lent, 2000));
    refused!(bench, lent, "load, bad tag", 10, |C, lent| C::load(lent, small & !(1 << 63) | 63 << 48, 8));
    refused!(bench, lent, "distances, bad tag", 10, |C, lent| C::distances(lent, small & !(1 << 63) | 63 << 48));
    refused!(bench, lent, "load, dangling, small-framed", 11, |C, lent| C::load(lent, freed_small, 8));
    refused!(bench, lent, "load, dangling, large-framed", 11, |C, lent| C::load(lent, freed_large, 8));
    refused!(bench, lent, "move out of the slot", 12, |C, lent| C::offset(lent, small, 256));
    refused!(bench, lent, "load, past the end, small-framed", 13, |C, lent| C::load(lent, small + 33, 8));
    refused!(bench, lent, "load, past the end, large-framed", 13, |C, lent| C::load(lent, large + 293, 8));
    refused!(bench, lent, "store, past the end, small-framed", 13, |C, lent| C::store(lent, small + 33, 8, 1));
    refused!(bench, lent, "copy, source past the end", 13, |C, lent| C::copy(lent, large, small, 41));
    refused!(bench, lent, "fill 0 bytes", 6, |C, lent| C::fill(lent, small, 0, 1));
    refused!(bench, lent, "compare 0 bytes", 6, |C, lent| C::compare(lent, small, large, 0));
    refused!(bench, lent, "compare, right past the end", 13, |C, lent| C::compare(lent, large, small, 41));
    refused!(bench, lent, "text copy, target too small", 13, |C, lent| C::copy_text(lent, small + 37, small));
    refused!(bench, lent, "load, bad width", 14, |C, lent| C::load(lent, small, 9));
    refused!(bench, lent, "free, not the base", 15, |C, lent| C::free(lent, small + 8));
    refused!(bench, lent, "store, value too large", 16, |C, lent| C::store(lent, small, 1, 256));
    let total = model::total(&lent.image);
    model::set_total(&mut lent.image, 0);
    refused!(bench, lent, "allocate, total too small", 22, |C, lent| C::allocate(lent, 16));
    model::set_total(&mut lent.image, u32::MAX.into());
    refused!(bench, lent, "free, total too large", 22, |C, lent| C::free(lent, small));
    refused!(bench, lent, "release, total too large", 22, |C, lent| C::release(lent, 0));
    model::set_total(&mut lent.image, total);
    lent.table.fill(0);
    refused!(bench, lent, "release, entry lost", 21, |C, lent| C::release(lent, 0));
    lent.image[16] ^= 1;
    refused!(bench, lent, "release, first header unsound", 7, |C, lent| C::release(lent, 0));
    refused!(bench, lent, "tally, first header unsound", 7, |C, lent| C::tally(lent));
    lent.image[0] ^= 1;
    refused!(bench, lent, "load, bad superblock", 4, |C, lent| C::load(lent, small, 8));
    refused!(bench, lent, "free total, bad superblock", 4, |C, lent| C::free_total(lent));
}

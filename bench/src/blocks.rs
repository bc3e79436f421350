//! What the number of blocks costs: the walks of allocate, free and tally; load, store and free total, which do not walk.

use crate::accesses::{each, is_small, FRAMES, PASSES};
use crate::all;
use crate::contestants::{Calls, Floor, Lent, Library, Model};
use crate::measure::{repeat, sink, time, Bench, Other, Rounds};
use crate::report::{Columns, Table};
use cueledger_tests::model::{self, Header};
use cueledger_tests::random::Random;
use std::hint::black_box;

/// An image of live blocks, then a free one.
#[derive(Clone, Copy)]
struct Layout {
    blocks: usize,
    extent: usize,
    free: usize,
    slot_exponent: u32,
}

impl Layout {
    fn lent(self) -> Lent {
        let end = 16 + self.extent * self.blocks;
        let mut lent = Lent::new(end + self.free, self.slot_exponent);
        // as allocate would leave them, without its walk for each; table entries are left out, no walk reads them
        for block in lent.image[16..end].chunks_exact_mut(self.extent) {
            block[..16].copy_from_slice(&Header::live(self.extent as u64, 1, self.extent as u32 - 16, 0).bytes());
        }
        lent.image[end..end + 16].copy_from_slice(&Header::free(self.free as u64).bytes());
        model::set_total(&mut lent.image, self.free as u64);
        lent
    }

    /// The same with each live block made free with even odds, so that no kind follows from the one before.
    fn mixed(self, random: &mut Random) -> Lent {
        let mut lent = self.lent();
        let mut total = model::total(&lent.image);
        for block in lent.image[16..16 + self.extent * self.blocks].chunks_exact_mut(self.extent) {
            if random.percent(50) {
                block[..16].copy_from_slice(&Header::free(self.extent as u64).bytes());
                total += self.extent as u64;
            }
        }
        model::set_total(&mut lent.image, total);
        lent
    }
}

/// Calls of free total in a round.
const TOTALS: usize = 20_000;

fn totals<C: Calls>(lent: &mut Lent) -> f64 {
    repeat(TOTALS, |_| sink(C::free_total(black_box(lent)).unwrap()))
}

/// The library's load and store in the same few objects, and its free total, behind few blocks and behind many.
pub fn independence(bench: &mut Bench) {
    bench.tables.push(Table::new("behind a number of blocks, a call", Columns::ManyAndFew));
    for (frame, slot_exponent, small) in FRAMES {
        let mut images = [100_000, 10].map(|blocks| {
            let mut lent = Layout { blocks, extent: 32, free: 4096, slot_exponent }.lent();
            let objects: Vec<u64> = (0..40).map(|_| lent.allocate(40)).filter(|&pointer| is_small(pointer) == small).take(8).collect();
            let pointers: Vec<u64> = (0..1024).map(|i| objects[i % objects.len()] + 8 * (i as u64 / 8 % 5)).collect();
            (lent, pointers)
        });
        let load = |(lent, pointers): &mut (Lent, Vec<u64>)| each(pointers, |p| sink(Library::load(lent, p, 8).unwrap()));
        let store = |(lent, pointers): &mut (Lent, Vec<u64>)| each(pointers, |p| sink(Library::store(lent, p, 8, 0x5a).unwrap()));
        let [load_many, load_few, store_many, store_few] = bench
            .best(&mut images, [&mut |l| load(&mut l[0]), &mut |l| load(&mut l[1]), &mut |l| store(&mut l[0]), &mut |l| store(&mut l[1])])
            .map(|ns| ns / (PASSES * 1024) as f64);
        bench.row(&format!("load 8, {frame}, behind blocks"), vec![Some(load_many), Some(load_few)], false);
        bench.row(&format!("store 8, {frame}, behind blocks"), vec![Some(store_many), Some(store_few)], false);
    }
    let mut images = [100_000, 10].map(|blocks| Layout { blocks, extent: 32, free: 64, slot_exponent: 15 }.lent());
    let rounds = bench.best(&mut images, [&mut |l| totals::<Library>(&mut l[0]), &mut |l| totals::<Library>(&mut l[1])]);
    let [many, few] = rounds.map(|ns| ns / TOTALS as f64);
    bench.row("free total, behind blocks", vec![Some(many), Some(few)], false);
}

/// Beside the library's tally of the same image, which gives the same number.
pub fn free_totals(bench: &mut Bench) {
    bench.heading("free total, a call", "tally");
    for (name, blocks, tallies) in [("1 block", 1, TOTALS), ("1,000 blocks", 1_000, 100), ("100,000 blocks", 100_000, 1)] {
        let mut lent = Layout { blocks, extent: 32, free: 64, slot_exponent: 15 }.lent();
        // as if there were as many of them
        let mut tally = |lent: &mut Lent| repeat(tallies, |_| sink(Library::tally(black_box(lent)).unwrap())) * (TOTALS / tallies) as f64;
        let rounds = Rounds::new(totals::<Library>, totals::<Model>).floor(totals::<Floor>);
        bench.line(&format!("free total, {name}"), TOTALS, &mut lent, rounds, Other::Shown(&mut tally));
    }
}

/// Allocate and free of an object of so many bytes behind the last block, in each image; times are divided by `units`.
fn allocate_and_free_of(bench: &mut Bench, size: u32, name: &str, layout: Layout, images: usize, units: usize) {
    let mut lents: Vec<Lent> = (0..images).map(|_| layout.lent()).collect();
    let units = units * images;
    // it has the same pointer in every image
    let last = lents.iter_mut().map(|lent| lent.allocate(size)).last().unwrap();
    let give = |lents: &mut Vec<Lent>| lents.iter_mut().for_each(|lent| sink(Model::free(lent, last).unwrap()));
    let take = |lents: &mut Vec<Lent>| lents.iter_mut().for_each(|lent| sink(lent.allocate(size)));
    // not timed: the object is freed before each round of allocate, and allocated again after each of free
    let allocates = all!(|C, lents: Vec<Lent>| {
        give(lents);
        time(|| lents.iter_mut().for_each(|lent| sink(C::allocate(lent, size).unwrap())))
    });
    bench.line(&format!("allocate, {name}"), units, &mut lents, allocates, Other::None);
    let frees = all!(|C, lents: Vec<Lent>| {
        let ns = time(|| lents.iter_mut().for_each(|lent| sink(C::free(lent, last).unwrap())));
        take(lents);
        ns
    });
    bench.line(&format!("free, {name}"), units, &mut lents, frees, Other::None);
}

fn allocate_and_free(bench: &mut Bench, name: &str, layout: Layout, images: usize, units: usize) {
    allocate_and_free_of(bench, 32, name, layout, images, units);
}

fn tally(bench: &mut Bench, name: &str, mut lents: Vec<Lent>, units: usize) {
    let images = lents.len();
    let tallies = all!(|C, lents: Vec<Lent>| time(|| lents.iter().for_each(|lent| sink(C::tally(lent).unwrap()))));
    bench.line(&format!("tally, {name}"), units * images, &mut lents, tallies, Other::None);
}

pub fn few(bench: &mut Bench) {
    bench.heading("a call behind few blocks", "");
    for (name, blocks) in [("1 block", 1), ("10 blocks", 10)] {
        let layout = Layout { blocks, extent: 32, free: 64, slot_exponent: 15 };
        allocate_and_free(bench, &format!("{name}, small-framed"), layout, 256, 1);
        allocate_and_free(bench, &format!("{name}, large-framed"), Layout { slot_exponent: 6, ..layout }, 256, 1);
        allocate_and_free_of(bench, 0, &format!("{name}, no bytes"), layout, 256, 1);
        tally(bench, name, (0..256).map(|_| layout.lent()).collect(), 1);
    }
    // the object lies across 2^17
    let layout = Layout { blocks: 1, extent: (1 << 17) - 32, free: 64, slot_exponent: 15 };
    allocate_and_free(bench, "1 block, frame of 2^18", layout, 16, 1);
}

pub fn many(bench: &mut Bench) {
    bench.heading("a block passed", "");
    for (name, blocks, images) in [("1,000", 1_000, 16), ("100,000", 100_000, 1)] {
        let layout = Layout { blocks, extent: 32, free: 64, slot_exponent: 15 };
        allocate_and_free(bench, &format!("a block of {name}"), layout, images, blocks);
        tally(bench, &format!("a block of {name}"), (0..images).map(|_| layout.lent()).collect(), blocks);
        let mut random = Random::new(1);
        tally(bench, &format!("a block of {name}, free or live"), (0..images).map(|_| layout.mixed(&mut random)).collect(), blocks);
    }
}

//! Release of half of the blocks, and of a single one, against a single pass in Rust; beside it, the same objects freed one by one.

use crate::all;
use crate::contestants::{Calls, Lent, Library};
use crate::measure::{sink, time, Bench, Other};
use cueledger_tests::generate::blocks::live_blocks;

const CUE: u32 = 12;
const EXTENT: usize = 32;

/// Whether the block of this number, of so many, is released.
type Carries = fn(usize, usize) -> bool;

const ALTERNATING: Carries = |i, _| i % 2 == 1;
const ALL: Carries = |_, _| true;
const ONE_RUN: Carries = |i, blocks| (blocks / 4..blocks / 4 + blocks / 2).contains(&i);

/// An image, and the pointers of the cue's objects. With s = 6 every second block is large-framed: those that `ALTERNATING`
/// takes.
fn lent(blocks: usize, slot_exponent: u32, carries: Carries) -> (Lent, Vec<u64>) {
    let mut lent = Lent::new(16 + EXTENT * blocks + 64, slot_exponent);
    let cues = (0..blocks).map(|i| if carries(i, blocks) { CUE } else { 0 });
    let pointers = live_blocks(&mut lent.image, &mut lent.table, slot_exponent, EXTENT, cues);
    (lent, pointers.into_iter().enumerate().filter(|&(i, _)| carries(i, blocks)).map(|(_, pointer)| pointer).collect())
}

fn release(bench: &mut Bench, name: &str, (blocks, images): (usize, usize), slot_exponent: u32, carries: Carries) {
    let (start, pointers) = lent(blocks, slot_exponent, carries);
    let count = pointers.len() as u64;
    let mut lents = vec![start.clone(); images];
    // not timed: what the round before has freed is put back
    let put_back = |lents: &mut Vec<Lent>| {
        for lent in lents {
            lent.image.copy_from_slice(&start.image);
            lent.table.copy_from_slice(&start.table);
        }
    };
    let releases = all!(|C, lents: Vec<Lent>| {
        put_back(lents);
        time(|| lents.iter_mut().for_each(|lent| assert_eq!(C::release(lent, CUE), Ok(count))))
    });
    let mut singly = |lents: &mut Vec<Lent>| {
        put_back(lents);
        time(|| lents.iter_mut().for_each(|lent| pointers.iter().for_each(|&pointer| sink(Library::free(lent, pointer).unwrap()))))
    };
    // behind many blocks the frees' walks take seconds
    let other = if blocks <= 1_000 { Other::Shown(&mut singly) } else { Other::None };
    bench.line(name, images * blocks, &mut lents, releases, other);
}

pub fn measure(bench: &mut Bench) {
    bench.heading("half of the blocks released, a block", "singly");
    release(bench, "release 1 of 1", (1, 256), 15, ALL);
    for (name, sizes) in [("10", (10, 256)), ("1,000", (1_000, 16)), ("100,000", (100_000, 1))] {
        release(bench, &format!("release half of {name}, alternating"), sizes, 15, ALTERNATING);
        release(bench, &format!("release half of {name}, one run"), sizes, 15, ONE_RUN);
        release(bench, &format!("release half of {name}, large-framed"), sizes, 6, ALTERNATING);
    }
}

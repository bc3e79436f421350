//! Load and store of one number, beside unchecked access; move and distances.

use crate::all;
use crate::contestants::{Calls, Lent};
use crate::measure::{sink, time, Bench, Other};
use cueledger_tests::random::Random;
use std::hint::black_box;

/// Slot exponents with which objects of some ten to some hundred bytes are nearly all of one kind.
pub const FRAMES: [(&str, u32, bool); 2] = [("small-framed", 15, true), ("large-framed", 6, false)];

pub fn is_small(pointer: u64) -> bool {
    pointer >> 63 == 1
}

pub fn address(pointer: u64) -> usize {
    (pointer & 0xffff_ffff_ffff) as usize
}

pub const PASSES: usize = 16;

pub fn each(pointers: &[u64], mut work: impl FnMut(u64)) -> f64 {
    time(|| (0..PASSES).for_each(|_| pointers.iter().for_each(|&pointer| work(pointer))))
}

/// The number in `W` bytes, without a test.
///
/// # Safety
/// The bytes can be read.
unsafe fn read<const W: usize>(at: *const u8) -> u64 {
    let mut bytes = [0; 8];
    bytes[..W].copy_from_slice(&*at.cast::<[u8; W]>());
    u64::from_le_bytes(bytes)
}

/// Each pointer has 8 bytes of its object at its address.
pub fn load<const W: usize>(bench: &mut Bench, what: &str, lent: &mut Lent, pointers: &[u64]) {
    bench.line(
        &format!("load {W}, {what}"),
        PASSES * pointers.len(),
        lent,
        all!(|C, lent: Lent| each(pointers, |p| sink(C::load(lent, p, black_box(W as u64)).unwrap()))),
        // SAFETY: the 8 bytes are in the image.
        Other::Shown(&mut |lent| each(pointers, |p| sink(unsafe { read::<W>(lent.image.as_ptr().add(address(p))) }))),
    );
}

/// As `load`.
pub fn store<const W: usize>(bench: &mut Bench, what: &str, lent: &mut Lent, pointers: &[u64]) {
    let bytes: [u8; W] = std::array::from_fn(|i| if i == 0 { 0x5a } else { 0 });
    bench.line(
        &format!("store {W}, {what}"),
        PASSES * pointers.len(),
        lent,
        all!(|C, lent: Lent| each(pointers, |p| sink(C::store(lent, p, black_box(W as u64), 0x5a).unwrap()))),
        // SAFETY: the 8 bytes are in the image.
        Other::Shown(&mut |lent| {
            each(pointers, |p| unsafe {
                let at = lent.image.as_mut_ptr().add(address(p));
                at.cast::<[u8; W]>().write(bytes);
                sink(at);
            })
        }),
    );
}

pub fn measure(bench: &mut Bench) {
    bench.heading("a call", "unchecked");
    for (frame, slot_exponent, small) in FRAMES {
        // 1,024 pointers, aligned to 8, into objects of 256 bytes
        let mut lent = Lent::new(1 << 18, slot_exponent);
        let mut random = Random::new(1);
        let objects: Vec<u64> = (0..900).map(|_| lent.allocate(256)).filter(|&pointer| is_small(pointer) == small).collect();
        let pointers: Vec<u64> = (0..1024).map(|_| random.pick(&objects) + 8 * random.below(32)).collect();
        for load in [load::<1>, load::<2>, load::<3>, load::<4>, load::<7>, load::<8>] {
            load(bench, frame, &mut lent, &pointers);
        }
        for store in [store::<1>, store::<2>, store::<3>, store::<4>, store::<7>, store::<8>] {
            store(bench, frame, &mut lent, &pointers);
        }
        let moves = all!(|C, lent: Lent| each(&pointers, |p| sink(C::offset(lent, p, black_box(8)).unwrap())));
        bench.line(&format!("move by 8, {frame}"), PASSES * pointers.len(), &mut lent, moves, Other::None);
        let distances = all!(|C, lent: Lent| each(&pointers, |p| sink(C::distances(lent, p).unwrap())));
        bench.line(&format!("distances, {frame}"), PASSES * pointers.len(), &mut lent, distances, Other::None);
    }
}

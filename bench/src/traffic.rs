//! The repeatable load, set-up included.

use crate::both;
use crate::contestants::{Lent, Loads};
use crate::measure::{sink, time, Bench, Other};
use cueledger_tests::traffic::Asked;
use std::hint::black_box;

const STATE: u64 = 0;

pub fn measure(bench: &mut Bench) {
    bench.heading("traffic, a draw", "");
    for (name, length, slot_exponent, draws) in [("1,000 draws, 8 KiB, s = 8", 8 << 10, 8, 1_000), ("10,000 draws, 1 MiB, s = 15", 1 << 20, 15, 10_000)] {
        let asked = Asked { slot_exponent, state: STATE, draws };
        let mut buffers = (Lent::new(length, slot_exponent), vec![0xa5; 22 * draws as usize]);
        let runs = both!(|C, buffers: (Lent, Vec<u8>)| {
            let (lent, log) = buffers;
            time(|| sink(C::traffic(lent, black_box(asked), log).unwrap()))
        });
        bench.line(name, draws as usize, &mut buffers, runs, Other::None);
    }
}

//! Fill, copy and set-up, beside the slice functions.

use crate::accesses::address;
use crate::all;
use crate::contestants::{Calls, Lent};
use crate::measure::{repeat, sink, Bench, Other, Round};
use std::hint::black_box;

/// Name, bytes, calls in a round.
const SIZES: [(&str, u32, usize); 3] = [("16 B", 16, 20_000), ("4 KiB", 4 << 10, 2_000), ("1 MiB", 1 << 20, 4)];

/// The slice function is a target from 4 KiB on.
pub fn slice<'a, L>(length: usize, round: Round<'a, L>) -> Other<'a, L> {
    if length < 4096 {
        Other::Shown(round)
    } else {
        Other::Target(round)
    }
}

fn fills(bench: &mut Bench) {
    for (name, length, passes) in SIZES {
        let mut lent = Lent::new((4 << 20) + 4096, 15);
        let target = lent.allocate(length);
        let all = address(target)..address(target) + length as usize;
        bench.line(
            &format!("fill {name}"),
            passes,
            &mut lent,
            all!(|C, lent: Lent| repeat(passes, |i| sink(C::fill(lent, black_box(target), length, i as u8).unwrap()))),
            slice(length as usize, &mut |lent| {
                repeat(passes, |i| {
                    lent.image[black_box(all.clone())].fill(i as u8);
                    sink(&mut lent.image);
                })
            }),
        );
    }
}

/// Up: the target is above the source.
fn copies(bench: &mut Bench) {
    for (kind, up, overlapping) in
        [("apart, up", true, false), ("apart, down", false, false), ("overlapping, 8 up", true, true), ("overlapping, 8 down", false, true)]
    {
        for (name, length, passes) in SIZES {
            let mut lent = Lent::new((4 << 20) + 4096, 15);
            let low = lent.allocate(length + 8);
            let high = if overlapping { low + 8 } else { lent.allocate(length) };
            let (target, source) = if up { (high, low) } else { (low, high) };
            let (to, all) = (address(target), address(source)..address(source) + length as usize);
            bench.line(
                &format!("copy {name}, {kind}"),
                passes,
                &mut lent,
                all!(|C, lent: Lent| repeat(passes, |_| sink(C::copy(lent, black_box(target), source, length).unwrap()))),
                slice(length as usize, &mut |lent| {
                    repeat(passes, |_| {
                        lent.image.copy_within(black_box(all.clone()), to);
                        sink(&mut lent.image);
                    })
                }),
            );
        }
    }
}

fn set_ups(bench: &mut Bench) {
    let kinds = [
        ("1 KiB, s = 6", 1 << 10, 6, 4_000),
        ("4 KiB, s = 8", 4 << 10, 8, 2_000),
        ("64 KiB, s = 10", 1 << 16, 10, 100),
        ("1 MiB, s = 15", 1 << 20, 15, 4),
        ("4 MiB, s = 15", 4 << 20, 15, 2),
    ];
    for (name, length, slot_exponent, passes) in kinds {
        bench.line(
            &format!("set-up {name}"),
            passes,
            &mut Lent::new(length, slot_exponent),
            all!(|C, lent: Lent| repeat(passes, |_| sink(C::set_up(lent, black_box(slot_exponent)).unwrap()))),
            slice(length, &mut |lent| {
                repeat(passes, |_| {
                    lent.image.fill(0);
                    lent.table.fill(0);
                    sink((&mut lent.image, &mut lent.table));
                })
            }),
        );
    }
}

pub fn measure(bench: &mut Bench) {
    bench.heading("whole call", "slice");
    fills(bench);
    copies(bench);
    set_ups(bench);
}

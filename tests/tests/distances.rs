//! Distances in an image of many blocks: those from each pointer's own, in time that does not grow with their number.

use cueledger_tests::generate::blocks::Lent;
use cueledger_tests::store::{Answer, Call};

const SIZE: i64 = Lent::EXTENT as i64 - 16;

fn lent(blocks: usize, slot_exponent: u32) -> Lent {
    Lent::new(slot_exponent, (0..blocks).map(|_| 0))
}

/// Around the body of every block, as far as slot or frame go, by a move; the neighbours' bodies are in it.
#[test]
fn from_each_block() {
    for slot_exponent in 6..=15 {
        let mut lent = lent(2_000, slot_exponent);
        let mut moved = [0; 2];
        for pointer in lent.pointers.clone() {
            for distance in [-100, -33, -32, -17, -16, -1, 0, 1, SIZE - 1, SIZE, SIZE + 1, 32, 48, 100] {
                let Answer { refusal: 0, values: [at, ..] } = lent.call(Call::Move { pointer, distance }) else { continue };
                assert_eq!(lent.call(Call::Distances { pointer: at }), Answer::new(0, [distance as u64, (SIZE - distance) as u64]), "{pointer:#x} {distance}");
                moved[usize::from(pointer >> 63 == 0)] += 1;
            }
        }
        assert!(moved.iter().all(|&count| count > 0), "{moved:?}");
    }
}

#[test]
fn in_constant_time() {
    for slot_exponent in [6, 15] {
        let mut lent = lent(100_000, slot_exponent);
        for pointer in [lent.pointers[0], lent.pointers[99_999]] {
            lent.assert_constant_time(Call::Distances { pointer });
        }
    }
}

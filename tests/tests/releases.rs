//! Release of many objects: what single frees leave, in time that grows with the blocks and not with their square.

use cueledger_tests::generate::blocks::live_blocks;
use cueledger_tests::library::Exports;
use cueledger_tests::model::used_entries;
use cueledger_tests::single_pass;
use cueledger_tests::store::{Answer, Call, Model, Store};
use std::time::{Duration, Instant};

const CUE: u32 = u32::MAX;
const EXTENT: usize = 32;
/// For 100,000 blocks; single frees of half of them take seconds.
const LIMIT: Duration = Duration::from_millis(250);

/// Whether the block of this number, of so many, is of the cue.
type Carries = fn(usize, usize) -> bool;

const KINDS: [Carries; 5] =
    [|i, _| i % 2 == 0, |i, _| i % 2 == 1, |i, blocks| (blocks / 4..3 * blocks / 4).contains(&i), |i, blocks| i >= blocks / 2, |_, _| true];

#[derive(Clone, PartialEq)]
struct Lent {
    image: Vec<u8>,
    table: Vec<u64>,
}

/// The image, and how many objects are of the cue.
fn lent(blocks: usize, slot_exponent: u32, carries: Carries) -> (Lent, u64) {
    let length = 16 + EXTENT * blocks + 64;
    let mut lent = Lent { image: vec![0; length], table: vec![0; used_entries(slot_exponent, length as u64) as usize] };
    assert!(Model.call(&mut lent.image, &mut lent.table, Call::SetUp { slot_exponent }).accepted());
    live_blocks(&mut lent.image, &mut lent.table, slot_exponent, EXTENT, (0..blocks).map(|i| if carries(i, blocks) { CUE } else { CUE - 1 }));
    (lent, (0..blocks).filter(|&i| carries(i, blocks)).count() as u64)
}

#[test]
fn as_singly() {
    for slot_exponent in [6, 8, 15] {
        for carries in KINDS {
            let (mut expected, count) = lent(1_000, slot_exponent, carries);
            let mut got = expected.clone();
            for (store, lent) in [(&Model as &dyn Store, &mut expected), (&Exports, &mut got)] {
                assert_eq!(store.call(&mut lent.image, &mut lent.table, Call::Release { cue: CUE }), Answer::new(0, [count]));
            }
            assert!(expected == got);
        }
    }
}

#[test]
fn in_linear_time() {
    for slot_exponent in [6, 15] {
        for carries in KINDS {
            let (mut expected, count) = lent(100_000, slot_exponent, carries);
            let mut got = expected.clone();
            let begun = Instant::now();
            let answer = Exports.call(&mut got.image, &mut got.table, Call::Release { cue: CUE });
            assert!(begun.elapsed() < LIMIT, "{:?}", begun.elapsed());
            assert_eq!(answer, Answer::new(0, [count]));
            assert_eq!(single_pass::release(&mut expected.image, &mut expected.table, CUE), Ok(count));
            assert!(expected == got);
        }
    }
}

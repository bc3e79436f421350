//! The free total of an image of many blocks: what tally counts, in time that does not grow with them.

use cueledger_tests::generate::blocks::Lent;
use cueledger_tests::store::{Answer, Call};

/// Blocks of two cues in turn.
fn lent(blocks: usize) -> Lent {
    Lent::new(15, (0..blocks).map(|i| i as u32 % 2))
}

/// Through an allocate, a free and the release of every second block.
#[test]
fn as_tally_counts() {
    for blocks in [1, 10, 1_000, 100_000] {
        let mut lent = lent(blocks);
        let free = |lent: &mut Lent, bytes: usize| {
            assert_eq!(lent.call(Call::FreeTotal), Answer::new(0, [bytes as u64]));
            assert_eq!(lent.call(Call::Tally).values[2], bytes as u64);
        };
        free(&mut lent, Lent::FREE);
        let pointer = lent.call(Call::Allocate { size: 16, type_number: 1 }).values[0];
        free(&mut lent, Lent::FREE - 32);
        assert!(lent.call(Call::Free { pointer }).accepted());
        free(&mut lent, Lent::FREE);
        let count = blocks / 2;
        assert_eq!(lent.call(Call::Release { cue: 1 }), Answer::new(0, [count as u64]));
        free(&mut lent, Lent::FREE + Lent::EXTENT * count);
    }
}

#[test]
fn in_constant_time() {
    lent(100_000).assert_constant_time(Call::FreeTotal);
}

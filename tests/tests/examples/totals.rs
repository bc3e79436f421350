//! Document 02, W7: the free total in the superblock, and row 22 at its limits.

use super::*;

impl<S: Store> Lent<S> {
    /// The free total as the call gives it, which changes nothing.
    fn total(&mut self) -> u64 {
        let before = (self.image.clone(), self.table.clone());
        let answer = self.call(Call::FreeTotal);
        assert_eq!(answer.refusal, 0);
        assert!((&self.image, &self.table) == (&before.0, &before.1));
        assert_eq!(answer, Answer::new(0, [model::total(&self.image)]));
        answer.values[0]
    }

    /// The total is this, and tally's free bytes.
    fn has_free(&mut self, bytes: u64) {
        assert_eq!(self.total(), bytes);
        assert_eq!(self.call(Call::Tally).values[2], bytes);
        assert_eq!(self.image[12..16], (bytes as u32).to_le_bytes());
    }

    fn damage(&mut self, total: u64) {
        self.image[12..16].copy_from_slice(&u32::try_from(total).unwrap().to_le_bytes());
    }

    /// Refused with these totals, and nothing is written.
    fn refuses(&mut self, totals: &[u64], call: Call<u64>, refusal: u32) {
        for &total in totals {
            self.damage(total);
            let before = (self.image.clone(), self.table.clone());
            assert_eq!(self.call(call), Answer::new(refusal, []), "{call} with a total of {total}");
            assert!((&self.image, &self.table) == (&before.0, &before.1));
            assert_eq!(self.total(), total);
        }
    }

    /// Accepted with each of these totals, and the total is then so much more; the last one's image stays.
    fn changes(&mut self, totals: &[u64], call: Call<u64>, more: i64) {
        let before = (self.image.clone(), self.table.clone());
        for &total in totals {
            (self.image, self.table) = before.clone();
            self.damage(total);
            assert_eq!(self.refusal(call), 0, "{call} with a total of {total}");
            assert_eq!(self.total() as i64, total as i64 + more);
        }
    }
}

const MOST: u64 = u32::MAX as u64;

fn allocate(size: u32) -> Call<u64> {
    Call::Allocate { size, type_number: 7 }
}

fn allocate_for(size: u32, cue: u32) -> Call<u64> {
    Call::AllocateFor { size, type_number: 7, cue }
}

/// Document 01's four objects, allocated and freed.
fn four_objects<S: Store>(store: S) {
    let mut lent = Lent::fresh(store, 1024);
    lent.has_free(1008);
    let pointers = [(10, 982), (20, 946), (32, 898), (1, 881)].map(|(size, free)| {
        let pointer = lent.allocate(size);
        lent.has_free(free);
        pointer
    });
    // merged with nothing; with the block before; with the last one; with both
    for (i, free) in [(1, 917), (2, 965), (3, 982), (0, 1008)] {
        assert_eq!(lent.refusal(Call::Free { pointer: pointers[i] }), 0);
        lent.has_free(free);
    }
}

/// Up to the whole block, where the rest is under 16 bytes.
fn spare_bytes<S: Store + Copy>(store: S) {
    for (size, free) in [(1, 31), (16, 16), (17, 0), (31, 0), (32, 0)] {
        for call in [allocate(size), allocate_for(size, 5)] {
            let mut lent = Lent::fresh(store, 64);
            lent.has_free(48);
            let pointer = lent.call(call).values[0];
            lent.has_free(free);
            assert_eq!(lent.refusal(allocate(33)), 8);
            lent.has_free(free);
            let give_back = if call == allocate(size) { Call::Free { pointer } } else { Call::Release { cue: 5 } };
            assert_eq!(lent.refusal(give_back), 0);
            lent.has_free(48);
        }
    }
}

fn released<S: Store>(store: S) {
    let mut lent = Lent::fresh(store, 1024);
    for (size, cue) in [(10, 7), (20, 9), (32, 7), (1, 9)] {
        assert_eq!(lent.refusal(allocate_for(size, cue)), 0);
    }
    for (cue, count, free) in [(1, 0, 881), (7, 2, 881 + 26 + 48), (7, 0, 955), (9, 2, 1008), (9, 0, 1008)] {
        assert_eq!(lent.call(Call::Release { cue }), Answer::new(0, [count]));
        lent.has_free(free);
    }
}

/// The least total with which allocate is accepted is the live extent.
fn allocate_below_zero<S: Store + Copy>(store: S) {
    for call in [allocate(10), allocate_for(10, 7)] {
        let mut lent = Lent::fresh(store, 1024);
        lent.refuses(&[0, 1, 10, 16, 25], call, 22);
        lent.changes(&[26, 27, 1007, 1008, 1009, 1 << 31, MOST], call, -26);
    }
    // the whole block, with 15 spare bytes
    for call in [allocate(17), allocate_for(17, 7)] {
        let mut lent = Lent::fresh(store, 64);
        lent.refuses(&[0, 17, 32, 33, 47], call, 22);
        lent.changes(&[48, 49, 64, 1 << 31, MOST], call, -48);
    }
}

/// The most with which free is accepted is L - 16 less the live extent, whatever it is merged with.
fn free_above_all<S: Store + Copy>(store: S) {
    let mut lent = Lent::fresh(store, 1024);
    let [first, second, ..] = [10, 20, 32, 1].map(|size| lent.allocate(size));
    for (pointer, extent) in [(first, 26), (second, 36)] {
        let call = Call::Free { pointer };
        let totals = [1008 - extent + 1, 1008, 1009, 1024, 1 << 31, MOST - extent, MOST - extent + 1, MOST - 1, MOST];
        lent.refuses(&totals, call, 22);
        // the second is merged with the first
        lent.changes(&[0, 1, 881, 1008 - extent - 1, 1008 - extent], call, extent as i64);
    }
    // with spare bytes
    let mut lent = Lent::fresh(store, 64);
    let pointer = lent.allocate(17);
    lent.refuses(&[1, 15, 16, 31, 48, MOST - 47, MOST], Call::Free { pointer }, 22);
    lent.changes(&[0], Call::Free { pointer }, 48);
}

/// The same for the sum of a cue's extents, none of which alone is too much; also where the cue has no object.
fn release_above_all<S: Store + Copy>(store: S) {
    // neighbours, docs/FORMAT.md's case
    let mut lent = Lent::fresh(store, 1024);
    for (size, cue) in [(10, 0), (20, 7), (32, 7), (1, 0)] {
        assert_eq!(lent.refusal(allocate_for(size, cue)), 0);
    }
    lent.refuses(&[MOST], Call::Release { cue: 1 }, 22);
    lent.refuses(&[925], Call::Release { cue: 7 }, 22);
    lent.changes(&[924], Call::Release { cue: 7 }, 84);

    let mut lent = Lent::fresh(store, 1024);
    for (size, cue) in [(10, 7), (20, 9), (32, 7), (1, 9)] {
        assert_eq!(lent.refusal(allocate_for(size, cue)), 0);
    }
    for cue in [0, 1, MOST as u32] {
        lent.refuses(&[1009, 1024, 1 << 31, MOST - 1, MOST], Call::Release { cue }, 22);
        lent.changes(&[0, 881, 1007, 1008], Call::Release { cue }, 0);
    }
    for (cue, extents) in [(7, 26 + 48), (9, 36 + 17)] {
        let totals = [1008 - extents + 1, 1008 - 17, 1008, 1009, 1 << 31, MOST - extents + 1, MOST - 16, MOST];
        lent.refuses(&totals, Call::Release { cue }, 22);
        lent.changes(&[0, 881, 1008 - extents - 1, 1008 - extents], Call::Release { cue }, extents as i64);
    }
}

/// 22 is the last row of each.
fn rows_in_order<S: Store>(store: S) {
    let mut lent = Lent::fresh(store, 1024);
    let [small, large] = [10, 20].map(|size| lent.call(allocate_for(size, 7)).values[0]);
    assert_eq!(lent.table[0], 42);
    // 8; the next entry is taken
    lent.refuses(&[0], allocate(1000), 8);
    lent.table[1] = 5;
    lent.refuses(&[0], allocate(100), 9);
    lent.table[1] = 0;
    lent.refuses(&[0], allocate(100), 22);
    // 10, 11, 15, 21
    for (pointer, refusal) in [(6 << 48, 10), (0x8000000000000020, 11), (small + 1, 15), (large, 22)] {
        lent.refuses(&[MOST], Call::Free { pointer }, refusal);
    }
    lent.table[0] = 0;
    lent.refuses(&[MOST], Call::Free { pointer: large }, 11);
    lent.refuses(&[MOST], Call::Release { cue: 7 }, 21);
    lent.refuses(&[MOST], Call::Release { cue: 8 }, 22);
    lent.table[0] = 42;
    lent.refuses(&[MOST], Call::Release { cue: 7 }, 22);
    // 7, by the last header, which the free of the first object does not come to
    lent.image[78 + 4] = 9;
    lent.refuses(&[0], allocate(100), 7);
    lent.refuses(&[MOST], Call::Free { pointer: small }, 22);
    lent.refuses(&[MOST], Call::Free { pointer: large }, 7);
    for cue in [7, 8] {
        lent.refuses(&[MOST], Call::Release { cue }, 7);
    }
    // 4, 5
    for (superblock, entries, refusal) in [(3, 384, 4), (16, 383, 5), (3, 383, 4)] {
        lent.image[0] = superblock;
        lent.table.truncate(entries);
        for call in [Call::FreeTotal, allocate(10), allocate_for(10, 7), Call::Free { pointer: small }, Call::Release { cue: 7 }, Call::Tally] {
            for total in [0, MOST] {
                lent.damage(total);
                assert_eq!(lent.call(call), Answer::new(refusal, []), "{call}");
            }
        }
        lent.table.resize(384, 0);
    }
}

/// No other call looks at it or changes it, and it is given as it stands, with every header unsound too.
fn any_total<S: Store>(store: S) {
    let mut lent = Lent::fresh(store, 1024);
    let [ten, other] = [10, 10].map(|size| lent.allocate(size));
    let calls = [
        Call::Store { pointer: ten, width: 8, value: 0x0031_2065_7563 },
        Call::Load { pointer: ten, width: 8 },
        Call::Move { pointer: ten, distance: 1 },
        Call::Fill { pointer: other, length: 10, value: 1 },
        Call::Copy { target: other, source: ten, length: 9 },
        Call::Compare { left: ten, right: other, length: 8 },
        Call::CopyText { target: other, source: ten },
    ];
    for total in [0, 1, 255, 256, 956, 1007, 1008, 1009, 1 << 16, 1 << 24, 1 << 31, MOST - 1, MOST] {
        lent.changes(&[total; 1], Call::Tally, 0);
        assert_eq!(lent.call(Call::Tally), Answer::new(0, [2, 20, 956, 32]));
        calls.iter().for_each(|&call| lent.changes(&[total; 1], call, 0));
    }
    lent.image[16..].fill(0xff);
    for total in [0, 956, MOST] {
        lent.damage(total);
        assert_eq!(lent.total(), total);
        assert_eq!(lent.refusal(Call::Tally), 7);
    }
    // set-up does not look at it
    assert_eq!(lent.refusal(Call::SetUp { slot_exponent: 6 }), 0);
    lent.has_free(1008);
}

/// An image that a version before 1.4.0 left has 0 there; README's way to take it over.
fn older_image<S: Store>(store: S) {
    let mut lent = Lent::fresh(store, 1024);
    let pointers = [10, 20, 32, 1].map(|size| lent.allocate(size));
    let expected = lent.image.clone();
    lent.refuses(&[0], allocate(10), 22);
    let free = lent.call(Call::Tally).values[2];
    lent.damage(free);
    assert!(lent.image == expected);
    lent.has_free(881);
    for pointer in pointers {
        assert_eq!(lent.refusal(Call::Free { pointer }), 0);
    }
    lent.has_free(1008);
}

on_each_store!(four_objects spare_bytes released allocate_below_zero free_above_all release_above_all rows_in_order any_total older_image);

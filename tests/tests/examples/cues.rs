//! Document 02, W6: cues and their release, with every byte of image and table.

use super::*;

const L: u64 = 1024;
/// Up to the free total.
const SUPERBLOCK_BYTES: [u8; 12] = [16, 0, 0, 0, 3, 0, 6, 0, 0, 4, 0, 0];

/// The free total's bytes.
fn total_bytes(blocks: impl Iterator<Item = Header>) -> [u8; 4] {
    blocks.filter(|header| header.is_free()).map(|header| header.extent).sum::<u32>().to_le_bytes()
}

impl<S: Store> Lent<S> {
    /// An object of type 7 for a cue, its body and spare bytes filled; gives its place.
    fn place_for(&mut self, cue: u32, size: u32) -> u64 {
        let answer = self.call(Call::AllocateFor { size, type_number: 7, cue });
        assert_eq!(answer.refusal, 0, "size {size}");
        let h = Pointer::unpack(answer.values[0]).address - 16;
        let end = h + u64::from(model::sound(&self.image, h).unwrap().extent);
        self.image[h as usize + 16..end as usize].fill(0xee);
        h
    }

    /// The image has these blocks, live ones filled as `place_for` does and free ones clear, and their free total; and the table these
    /// entries.
    fn stands(&self, blocks: &[(u64, Header)], entries: &[(usize, u64)]) {
        let filled: Vec<_> = blocks.iter().map(|&(h, header)| (h, header, if header.is_live() { 0xee } else { 0 })).collect();
        self.stands_filled(&filled, entries);
    }

    /// The same, with what stands behind each header. An entry beyond the used ones is as it was before set-up.
    fn stands_filled(&self, blocks: &[(u64, Header, u8)], entries: &[(usize, u64)]) {
        let (mut image, mut table) = (vec![0; self.image.len()], vec![0; self.table.len()]);
        image[..12].copy_from_slice(&SUPERBLOCK_BYTES);
        image[12..16].copy_from_slice(&total_bytes(blocks.iter().map(|block| block.1)));
        let mut at = 16;
        for &(h, header, byte) in blocks {
            assert_eq!(h, at);
            at += u64::from(header.extent);
            image[h as usize..at as usize].fill(byte);
            image[h as usize..h as usize + 16].copy_from_slice(&header.bytes());
        }
        assert_eq!(at, self.image.len() as u64);
        entries.iter().for_each(|&(entry, h)| table[entry] = h);
        table[384] = 9;
        assert!(self.image == image, "{:?}", model::blocks(&self.image).collect::<Vec<_>>());
        assert!(self.table == table);
    }

    fn releases(&mut self, cue: u32, count: u64) {
        assert_eq!(self.call(Call::Release { cue }), Answer::new(0, [count]));
    }

    /// Refused, or accepted without an object: nothing is written.
    fn leaves(&mut self, cue: u32, refusal: u32) {
        let before = (self.image.clone(), self.table.clone());
        assert_eq!(self.call(Call::Release { cue }), Answer::new(refusal, []));
        assert!((&self.image, &self.table) == (&before.0, &before.1));
    }

    /// Blocks written behind the store's back, up to the image's end, and their free total; bytes behind headers are 0xee.
    fn lay_out(&mut self, blocks: &[Header]) {
        self.image[12..16].copy_from_slice(&total_bytes(blocks.iter().copied()));
        self.image[16..].fill(0xee);
        let mut at = 16;
        for header in blocks {
            self.image[at..at + 16].copy_from_slice(&header.bytes());
            at += header.extent as usize;
        }
        assert_eq!(at, self.image.len());
    }
}

fn live(extent: u64, size: u32, cue: u32) -> Header {
    Header::live(extent, 7, size, cue)
}

fn free(extent: u64) -> Header {
    Header::free(extent)
}

/// Two cues, one object of each in turn; small- and large-framed ones of both.
fn interleaved<S: Store + Copy>(store: S) {
    let placed = || {
        let mut lent = Lent::fresh(store, L as usize);
        assert_eq!([lent.place_for(1, 10), lent.place_for(0x0102_0304, 20), lent.place_for(1, 32), lent.place_for(0x0102_0304, 1)], [16, 42, 78, 126]);
        assert_eq!(lent.image[16..32], [26, 0, 0, 0, 2, 0, 7, 0, 10, 0, 0, 0, 1, 0, 0, 0]);
        assert_eq!(lent.image[42..58], [36, 0, 0, 0, 2, 0, 7, 0, 20, 0, 0, 0, 4, 3, 2, 1]);
        lent.stands(
            &[(16, live(26, 10, 1)), (42, live(36, 20, 0x0102_0304)), (78, live(48, 32, 1)), (126, live(17, 1, 0x0102_0304)), (143, free(881))],
            &[(0, 42), (1, 126)],
        );
        lent
    };

    let mut lent = placed();
    lent.releases(1, 2);
    assert_eq!(lent.image[16..32], [26, 0, 0, 0, 1, 0, 0, 0, 0, 0, 0, 0, 0, 0, 0, 0]);
    lent.stands(&[(16, free(26)), (42, live(36, 20, 0x0102_0304)), (78, free(48)), (126, live(17, 1, 0x0102_0304)), (143, free(881))], &[(0, 42), (1, 126)]);
    lent.leaves(1, 0);
    lent.releases(0x0102_0304, 2);
    lent.stands(&[(16, free(L - 16))], &[]);

    let mut lent = placed();
    lent.releases(0x0102_0304, 2);
    lent.stands(&[(16, live(26, 10, 1)), (42, free(36)), (78, live(48, 32, 1)), (126, free(898))], &[]);
    lent.releases(1, 2);
    lent.stands(&[(16, free(L - 16))], &[]);

    // a cue is all 32 bits
    let mut lent = placed();
    for cue in [0, 2, 0x304, 0x0304_0000, 0x0102_0000, 0x0102_0305, 0x8102_0304, 0x1_0001, 0x8000_0001, u32::MAX] {
        lent.leaves(cue, 0);
    }
}

/// A free block, three objects of a cue, a free block, and an object that stays.
fn across_a_run<S: Store>(store: S) {
    let mut lent = Lent::fresh(store, L as usize);
    let places = [(0, 10), (5, 20), (5, 32), (5, 1), (0, 4), (0, 4)].map(|(cue, size)| lent.place_for(cue, size));
    assert_eq!(places, [16, 42, 78, 126, 143, 163]);
    for pointer in [0x8010000000000020, 0x800F00000000009F] {
        assert_eq!(lent.refusal(Call::Free { pointer }), 0);
    }
    lent.stands(
        &[(16, free(26)), (42, live(36, 20, 5)), (78, live(48, 32, 5)), (126, live(17, 1, 5)), (143, free(20)), (163, live(20, 4, 0)), (183, free(841))],
        &[(0, 42), (1, 126)],
    );
    lent.releases(5, 3);
    lent.stands(&[(16, free(147)), (163, live(20, 4, 0)), (183, free(841))], &[]);
    // the next object takes the run's place
    assert_eq!(lent.place_for(5, 100), 16);
}

/// The old call's objects are those of cue 0.
fn of_the_old_call<S: Store>(store: S) {
    let mut lent = Lent::fresh(store, L as usize);
    lent.releases(0, 0);
    let [first, second] = [10, 20].map(|size| lent.allocate(size));
    lent.place_for(1, 10);
    assert_eq!(lent.place_for(0, 10), 104);
    assert_eq!(lent.image[28..32], [0; 4]);
    lent.releases(0, 3);
    assert_eq!([first, second].map(|pointer| lent.refusal(Call::Load { pointer, width: 1 })), [11; 2]);
    lent.stands(&[(16, free(62)), (78, live(26, 10, 1)), (104, free(920))], &[]);
}

/// Up to the image's end, with and without a free block there.
fn at_the_end<S: Store + Copy>(store: S) {
    for (size, extent) in [(16, 32), (17, 48), (32, 48)] {
        let mut lent = Lent::fresh(store, 64);
        lent.place_for(9, size);
        assert_eq!(model::sound(&lent.image, 16), Some(live(extent, size, 9)));
        lent.releases(9, 1);
        assert_eq!(lent.image[16..32], [48, 0, 0, 0, 1, 0, 0, 0, 0, 0, 0, 0, 0, 0, 0, 0]);
        assert_eq!(lent.image[32..], [0; 32]);
        assert_eq!(lent.table[..48], [0; 48]);
    }
    let mut lent = Lent::fresh(store, L as usize);
    lent.place_for(1, 10);
    lent.place_for(2, 500);
    lent.place_for(2, 450);
    assert_eq!(model::sound(&lent.image, 558), Some(live(466, 450, 2)));
    lent.releases(2, 2);
    lent.stands(&[(16, live(26, 10, 1)), (42, free(982))], &[]);
}

/// 21 after the walk, whatever the entry holds in the place of the header; of the cue's objects alone.
fn lost_entries<S: Store>(store: S) {
    let mut lent = Lent::fresh(store, L as usize);
    assert_eq!([lent.place_for(1, 10), lent.place_for(1, 20), lent.place_for(2, 32), lent.place_for(1, 1)], [16, 42, 78, 126]);
    for (entry, h) in [(0, 42), (1, 126)] {
        for held in [0, 16, h - 1, h + 1, 78, h | 1 << 32, h | 1 << 63, u64::MAX, L] {
            lent.table[entry] = held;
            lent.leaves(1, 21);
            lent.leaves(3, 0);
        }
        lent.table[entry] = h;
    }
    // each holds the other's
    lent.table.swap(0, 1);
    lent.leaves(1, 21);
    // another cue does not need them, nor do entries without an object
    lent.table[7] = 77;
    lent.releases(2, 1);
    lent.stands(&[(16, live(26, 10, 1)), (42, live(36, 20, 1)), (78, free(48)), (126, live(17, 1, 1)), (143, free(881))], &[(0, 126), (1, 42), (7, 77)]);
    lent.leaves(1, 21);
    lent.table.swap(0, 1);
    lent.releases(1, 3);
    lent.stands(&[(16, free(L - 16))], &[(7, 77)]);
}

/// 4, 5, 7, 21: the first that holds, with nothing written; an unsound header counts wherever it stands.
fn rows_in_order<S: Store>(store: S) {
    let mut lent = Lent::fresh(store, L as usize);
    assert_eq!([lent.place_for(1, 20), lent.place_for(1, 10), lent.place_for(2, 10)], [16, 52, 78]);
    lent.image[143..159].copy_from_slice(&free(L - 143).bytes());
    lent.image[104..120].copy_from_slice(&free(39).bytes());
    assert_eq!(lent.table[0], 52);
    lent.table[0] = 0;
    lent.leaves(1, 21);
    // of the objects of the cue, of another, of free blocks: an extent of 15 too little, no kind, another kind, a size too large
    for h in [16, 52, 78, 104, 143] {
        for (at, byte) in [(h, 15), (h + 4, 0), (h + 5, 1), (h + 11, 1)] {
            let before = std::mem::replace(&mut lent.image[at], byte);
            lent.leaves(1, 7);
            lent.leaves(2, 7);
            lent.leaves(3, 7);
            lent.image[at] = before;
        }
    }
    // last bytes, of free blocks alone
    for h in [104, 143] {
        for at in h + 12..h + 16 {
            lent.image[at] = 1;
            lent.leaves(1, 7);
            lent.leaves(2, 7);
            lent.image[at] = 0;
        }
    }
    // the last block ends a byte early
    lent.image[143] -= 1;
    lent.leaves(1, 7);
    for (superblock, entries, refusal) in [(3, 384, 4), (16, 383, 5), (3, 383, 4)] {
        lent.image[0] = superblock;
        lent.table.truncate(entries);
        lent.leaves(1, refusal);
        lent.table.resize(384, 0);
    }
    lent.image[0] = 16;
    lent.leaves(1, 7);
    lent.image[143] += 1;
    lent.leaves(1, 21);
    lent.table[0] = 52;
    lent.table.push(9);
    lent.releases(1, 2);
    lent.stands(&[(16, free(62)), (78, live(26, 10, 2)), (104, free(39)), (143, free(L - 143))], &[]);
}

/// Images with free blocks side by side, none of them clear: each object takes in one on each side, as a single free does, and
/// other free blocks stay as they are.
fn free_blocks_side_by_side<S: Store + Copy>(store: S) {
    let rest = |from: u64| free(L - from);
    let (object, other) = (live(32, 16, 1), live(32, 16, 2));
    for (blocks, count, after) in [
        // two behind
        (vec![object, free(16), rest(64)], 1, vec![(16, free(48), 0), (64, rest(64), 0xee)]),
        // two before
        (vec![free(32), free(16), object, rest(96)], 1, vec![(16, free(32), 0xee), (48, rest(48), 0)]),
        // one between two objects
        (vec![object, free(32), object, rest(112)], 2, vec![(16, rest(16), 0)]),
        // two, and three
        (vec![object, free(16), free(16), object, rest(112)], 2, vec![(16, free(48), 0), (64, rest(64), 0)]),
        (vec![object, free(16), free(32), free(16), object, rest(144)], 2, vec![(16, free(48), 0), (64, free(32), 0xee), (96, rest(96), 0)]),
        // a run between two and two
        (
            vec![free(32), free(16), object, object, free(16), free(32), other, rest(208)],
            2,
            vec![(16, free(32), 0xee), (48, free(96), 0), (144, free(32), 0xee), (176, other, 0xee), (208, rest(208), 0xee)],
        ),
    ] {
        let mut lent = Lent::fresh(store, L as usize);
        lent.lay_out(&blocks);
        let large = |(h, header): (u64, Header)| {
            let pointer = Pointer::to(6, h, header.size.into());
            (header.is_live() && !pointer.small).then(|| (model::entry(6, pointer.tag as u32, h) as usize, h, header.last))
        };
        let large: Vec<_> = model::blocks(&lent.image).filter_map(large).collect();
        large.iter().for_each(|&(entry, h, _)| lent.table[entry] = h);
        lent.releases(1, count);
        let stay: Vec<_> = large.iter().filter(|object| object.2 == 2).map(|&(entry, h, _)| (entry, h)).collect();
        lent.stands_filled(&after, &stay);
    }
}

/// What looks like an object of the cue in a body is none.
fn in_a_body<S: Store>(store: S) {
    let mut lent = Lent::fresh(store, L as usize);
    lent.place_for(1, 40);
    lent.image[32..48].copy_from_slice(&live(20, 4, 2).bytes());
    lent.leaves(2, 0);
    lent.releases(1, 1);
    lent.stands(&[(16, free(L - 16))], &[]);
}

/// As allocate refuses, and with nothing written.
fn allocate_for_refused<S: Store>(store: S) {
    let mut lent = Lent::fresh(store, L as usize);
    let refused = |lent: &mut Lent<S>, size, refusal| {
        let before = (lent.image.clone(), lent.table.clone());
        assert_eq!(lent.call(Call::AllocateFor { size, type_number: 7, cue: 5 }), Answer::new(refusal, []));
        assert!((&lent.image, &lent.table) == (&before.0, &before.1));
    };
    refused(&mut lent, 993, 8);
    refused(&mut lent, u32::MAX, 8);
    lent.table[0] = 1;
    refused(&mut lent, 32, 9);
    lent.image[16 + 12] = 1;
    refused(&mut lent, 32, 7);
    refused(&mut lent, 0, 7);
    lent.table.truncate(383);
    refused(&mut lent, 0, 5);
    lent.image[0] = 3;
    refused(&mut lent, 0, 4);
}

on_each_store!(interleaved across_a_run of_the_old_call at_the_end lost_entries rows_in_order free_blocks_side_by_side in_a_body allocate_for_refused);

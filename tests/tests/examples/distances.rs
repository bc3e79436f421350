//! Document 02, W8: how far a pointer is from either end of its object, and the calls that measure by it.

use super::*;

impl<S: Store> Lent<S> {
    /// As the call gives them, which changes nothing; a refusal gives 0 for both.
    fn distances(&mut self, pointer: u64) -> Result<[i64; 2], u32> {
        let before = (self.image.clone(), self.table.clone());
        let answer = self.call(Call::Distances { pointer });
        assert!((&self.image, &self.table) == (&before.0, &before.1));
        assert_eq!(answer.values[2..], [0; 2]);
        if !answer.accepted() {
            assert_eq!(answer, Answer::new(answer.refusal, []), "{pointer:#x}");
            return Err(answer.refusal);
        }
        Ok([answer.values[0] as i64, answer.values[1] as i64])
    }

    /// At each address from one before the slot or frame to one behind it: accepted inside, refused by 11 outside.
    fn measures(&mut self, pointer: u64, size: i64, frame: std::ops::Range<u64>) {
        let base = Pointer::unpack(pointer).address as i64;
        for address in frame.start.saturating_sub(1)..frame.end + 1 {
            let moved = Pointer { address, ..Pointer::unpack(pointer) }.pack();
            let from_start = address as i64 - base;
            let expected = if frame.contains(&address) { Ok([from_start, size - from_start]) } else { Err(11) };
            assert_eq!(self.distances(moved), expected, "{moved:#x}");
        }
    }
}

/// Document 01's object of 10 bytes: header at 16, base 32, end 42, in the slot 0 to 63.
fn of_ten<S: Store>(store: S) {
    let mut lent = Lent::fresh(store, 1024);
    assert_eq!(lent.allocate(10), 0x8010000000000020);
    for (pointer, distances) in [
        (0x8010000000000020, [0, 10]),
        (0x8010000000000021, [1, 9]),
        (0x8010000000000029, [9, 1]),
        (0x801000000000002A, [10, 0]),
        (0x801000000000002B, [11, -1]),
        (0x801000000000001F, [-1, 11]),
        (0x8010000000000010, [-16, 26]),
        (0x801000000000000F, [-17, 27]),
        (0x8010000000000000, [-32, 42]),
        (0x801000000000003F, [31, -21]),
    ] {
        assert_eq!(lent.distances(pointer), Ok(distances), "{pointer:#x}");
    }
    assert_eq!(lent.distances(0x8010000000000040), Err(11));
}

/// Document 01's four objects, over their slots and frames.
fn over_frames<S: Store>(store: S) {
    let mut lent = Lent::fresh(store, 1024);
    let [ten, twenty, thirty_two, one] = [10, 20, 32, 1].map(|size| lent.allocate(size));
    lent.measures(ten, 10, 0..64);
    lent.measures(twenty, 20, 0..128);
    lent.measures(thirty_two, 32, 64..128);
    lent.measures(one, 1, 0..256);
    assert_eq!(lent.distances(0x0007000000000000), Ok([-58, 78]));
    assert_eq!(lent.distances(0x000700000000007F), Ok([69, -49]));
    assert_eq!(lent.distances(0x0008000000000000), Ok([-142, 143]));
    assert_eq!(lent.distances(0x00080000000000FF), Ok([113, -112]));
    // moved by the store
    for distance in [-32, -17, -16, -1, 0, 1, 9, 10, 11, 31] {
        let moved = lent.moved(ten, distance).unwrap();
        assert_eq!(lent.distances(moved), Ok([distance, 10 - distance]));
    }
}

/// The end is that of the size, not of the block; it may be the image's, and slot and frame reach over that.
fn spare_bytes_and_image_end<S: Store + Copy>(store: S) {
    // extent 48, 15 bytes of it spare
    let mut lent = Lent::fresh(store, 64);
    let seventeen = lent.allocate(17);
    lent.measures(seventeen, 17, 0..64);
    assert_eq!(lent.distances(seventeen + 17), Ok([17, 0]));
    assert_eq!(lent.distances(seventeen + 31), Ok([31, -14]));
    // e = L
    let mut lent = Lent::fresh(store, 64);
    let thirty_two = lent.allocate(32);
    assert_eq!(thirty_two, 0x0007000000000020);
    lent.measures(thirty_two, 32, 0..128);
    assert_eq!(lent.distances(0x0007000000000040), Ok([32, 0]));
    assert_eq!(lent.distances(0x000700000000007F), Ok([95, -63]));
    // L = 80: the frame's last 48 bytes are behind the image
    let mut lent = Lent::fresh(store, 80);
    let [first, second] = [16, 16].map(|size| lent.allocate(size));
    lent.measures(first, 16, 0..64);
    assert_eq!(second, 0x0007000000000040);
    lent.measures(second, 16, 0..128);
    assert_eq!(lent.distances(0x0007000000000050), Ok([16, 0]));
}

/// 4, 5, 10, 11; there is no 13.
fn rows<S: Store>(store: S) {
    let mut lent = Lent::fresh(store, 1024);
    let [ten, twenty, freed, one, twin] = [10, 20, 32, 1, 33].map(|size| lent.allocate(size));
    assert_eq!(lent.refusal(Call::Free { pointer: freed }), 0);
    // tag numbers: from 64 on; outside 7 to 31
    for (pointer, refusal) in [
        (0x8040000000000020, 10),
        (0xFFFF000000000020, 10),
        (0x0000000000000020, 10),
        (0x0006000000000020, 10),
        (0x0020000000000020, 10),
        (0x7FFF000000000020, 10),
        // no header there, and none with that tag
        (0x803F000000000020, 11),
        (0x8000000000000020, 11),
        (0x802A00000000003A, 11),
        (0x001F000000000020, 11),
        (0x000900000000008E, 11),
        // a free header, once live
        (freed, 11),
        (freed - 1, 11),
        // the same tag in the next slot and frame, behind the image, and at the ends of 48 bits
        (ten + 64, 11),
        (twenty + 256, 11),
        (ten + 1024, 11),
        (twenty + 1024, 11),
        (0x8010FFFFFFFFFFFF, 11),
        (0x0007FFFFFFFFFFFF, 11),
        (0x8010800000000020, 11),
        (0x000780000000003A, 11),
        (0, 10),
        (u64::MAX, 10),
    ] {
        assert_eq!(lent.distances(pointer), Err(refusal), "{pointer:#x}");
    }
    // an entry of zero, and one that holds another header of this frame, one of the same tag in the next, or no header's place
    assert_eq!((lent.table[0], lent.table[1], lent.table[48]), (42, 126, 143));
    assert_eq!((twin, lent.distances(twin)), (0x000700000000009F, Ok([0, 33])));
    for entry in [0, 16, 126, 143, 15, 1023, 1024, u64::MAX, 42 | 1 << 32, 42 | 1 << 63] {
        lent.table[0] = entry;
        assert_eq!(lent.distances(twenty), Err(11), "{entry}");
        assert_eq!(lent.distances(one), Ok([0, 1]));
    }
    lent.table[0] = 42;
    assert_eq!(lent.distances(twenty), Ok([0, 20]));
    // 4 and 5 come before all of them
    for (superblock, entries, refusal) in [(3, 384, 4), (16, 383, 5), (3, 383, 4)] {
        lent.image[0] = superblock;
        lent.table.truncate(entries);
        for pointer in [ten, ten - 1, twenty + 20, freed, 6 << 48] {
            assert_eq!(lent.distances(pointer), Err(refusal));
        }
        lent.table.resize(384, 0);
    }
}

/// By the size in the header, where it is sound; and by a header inside a body, which a tag leads to as well.
fn damaged_headers<S: Store>(store: S) {
    let mut lent = Lent::fresh(store, 1024);
    let pointer = lent.allocate(31);
    for (extent, size, distances) in [
        (47, 31, Ok([0, 31])),
        (47, 30, Ok([0, 30])),
        (47, 16, Ok([0, 16])),
        (47, 15, Err(11)),
        (47, 32, Err(11)),
        (32, 1, Ok([0, 1])),
        (33, 1, Err(11)),
        (47, 0, Err(11)),
        // sound, but large-framed
        (48, 32, Err(11)),
        (1008, 992, Err(11)),
        (1009, 992, Err(11)),
    ] {
        lent.image[16..32].copy_from_slice(&Header::live(extent, 0, size, 0).bytes());
        assert_eq!(lent.distances(pointer), distances, "{extent} {size}");
    }
    // the next header is not looked at
    lent.image[16..32].copy_from_slice(&Header::live(47, 0, 31, 5).bytes());
    lent.image[63..79].fill(0xff);
    assert_eq!(lent.refusal(Call::Tally), 7);
    lent.measures(pointer, 31, 0..64);
    // header at 33, base 49, end 51
    lent.image[33..49].copy_from_slice(&Header::live(18, 0, 2, 0).bytes());
    lent.measures(0x8021000000000031, 2, 0..64);
    assert_eq!(lent.distances(pointer), Ok([0, 31]));
}

/// At each address of an object's slot or frame, its header included, all calls that measure agree with the distances.
fn other_calls<S: Store>(store: S) {
    let mut lent = Lent::fresh(store, 1024);
    let [small, large, other] = [10, 20, 40].map(|size| lent.allocate(size));
    let before = (lent.image.clone(), lent.table.clone());
    for (start, frame) in [(small, 0..64), (large, 0..128)] {
        for address in frame {
            let pointer = Pointer { address, ..Pointer::unpack(start) }.pack();
            let [from_start, to_end] = lent.distances(pointer).unwrap();
            for bytes in [1, 2, 3, 8, 9, 10, 11, 19, 20, 21] {
                let refusal = if from_start >= 0 && to_end >= i64::from(bytes) { 0 } else { 13 };
                let mut calls = vec![
                    Call::Fill { pointer, length: bytes, value: 0x5a },
                    Call::Copy { target: pointer, source: other, length: bytes },
                    Call::Copy { target: other, source: pointer, length: bytes },
                    Call::Compare { left: pointer, right: other, length: bytes },
                    Call::Compare { left: other, right: pointer, length: bytes },
                ];
                if bytes <= 8 {
                    calls.extend([Call::Load { pointer, width: bytes.into() }, Call::Store { pointer, width: bytes.into(), value: 0x5a }]);
                }
                for call in calls {
                    assert_eq!(lent.refusal(call), refusal, "{call}");
                    (lent.image, lent.table) = before.clone();
                }
                // a text of this length, with its zero byte
                lent.write(other, &vec![b'_'; bytes as usize - 1]);
                assert_eq!(lent.refusal(Call::CopyText { target: pointer, source: other }), refusal, "{bytes} at {address}");
                (lent.image, lent.table) = before.clone();
            }
            assert_eq!(lent.refusal(Call::CopyText { target: other, source: pointer }), if from_start >= 0 && to_end >= 1 { 0 } else { 13 });
            (lent.image, lent.table) = before.clone();
            assert_eq!(lent.refusal(Call::Free { pointer }), if from_start == 0 { 0 } else { 15 }, "{address}");
            (lent.image, lent.table) = before.clone();
        }
    }
}

on_each_store!(of_ten over_frames spare_bytes_and_image_end rows damaged_headers other_calls);

//! Objects: the frame and the pointer that follow from a header's place and size.

use crate::image::HEADER;
use cueledger::{Block, Pointer};

/// Table entries of a division.
const DIVISION_ENTRIES: u64 = 48;

/// What a live block holds.
#[derive(Clone, Copy, Debug, PartialEq, Eq)]
pub struct Object {
    pub block: Block,
    /// N: its wrapper frame has 2^N bytes.
    pub exponent: u32,
    /// Where its wrapper frame starts.
    pub frame: u64,
    /// What allocate gave for it.
    pub pointer: Pointer,
    /// Its table entry; None where it is small-framed.
    pub entry: Option<usize>,
}

/// The position of the highest bit in which the two differ, counted from 1; 0 where they are equal.
pub fn frame_number(a: u64, b: u64) -> u32 {
    u64::BITS - (a ^ b).leading_zeros()
}

/// The address with its low `exponent` bits cleared.
pub fn frame_start(address: u64, exponent: u32) -> u64 {
    address >> exponent << exponent
}

/// The entry of the frame of 2^`exponent` bytes at `frame`.
pub fn entry_index(frame: u64, exponent: u32, slot_exponent: u32) -> usize {
    (DIVISION_ENTRIES * (frame >> (slot_exponent + 1)) + u64::from(exponent - slot_exponent - 1)) as usize
}

impl Object {
    /// The object of a sound live block.
    pub fn of(block: Block, slot_exponent: u32) -> Object {
        let header = block.place as u64;
        let base = header + HEADER as u64;
        let exponent = frame_number(header, base + u64::from(block.size));
        let frame = frame_start(header, exponent);
        let small = exponent <= slot_exponent;
        let tag = if small { header - frame_start(header, slot_exponent) } else { exponent.into() };
        let pointer = Pointer::from(u64::from(small) << 63 | tag << 48 | base);
        let entry = (!small).then(|| entry_index(frame, exponent, slot_exponent));
        Object { block, exponent, frame, pointer, entry }
    }
}

#[cfg(test)]
mod tests {
    use super::*;
    use cueledger::{Kind, Store};

    /// FORMAT.md's definition.
    fn halved(a: u64, b: u64) -> u32 {
        if a == b {
            0
        } else {
            1 + halved(a / 2, b / 2)
        }
    }

    #[test]
    fn frame_numbers() {
        for a in 0..200 {
            for b in 0..200 {
                assert_eq!(frame_number(a, b), halved(a, b));
            }
        }
        assert_eq!(frame_number((1 << 30) - 16, 1 << 30), 31);
    }

    /// The pointer worked out is the one that allocate gives, and the entry is the one that it writes, for every size and s.
    #[test]
    fn as_allocate_gives() {
        for s in 6..=15 {
            for size in (0..300).chain([1000, 5000, 40_000]) {
                let (mut image, mut table) = (vec![0; 1 << 17], vec![0; Store::table_entries(1 << 17, s)]);
                let mut store = Store::set_up(&mut image, &mut table, s).unwrap();
                let given = [size, 7, size].map(|size| store.allocate(size, 0).unwrap());
                let blocks = store.blocks().map(Result::unwrap).filter(|block| block.kind == Kind::Live);
                let objects: Vec<_> = blocks.map(|block| Object::of(block, s)).collect();
                assert!(objects.iter().map(|object| object.pointer).eq(given));
                for (at, &entry) in store.table().iter().enumerate() {
                    let owner = objects.iter().find(|object| object.entry == Some(at));
                    assert_eq!(entry, owner.map_or(0, |object| object.block.place as u64));
                }
            }
        }
    }
}

//! The iterator over blocks against the proved tally, on sound and damaged images.

use cueledger::{Block, Blocks, Kind, Refusal, Store, Tally, UnsoundHeader};

const LEN: usize = 192;
const EXPONENT: u32 = 6;

/// Of the last object.
const CUE: u32 = 0x0304_0506;

/// An image with live and free blocks, and its table.
fn sample() -> ([u8; LEN], [u64; Store::table_entries(LEN, EXPONENT)]) {
    let (mut image, mut table) = ([0; LEN], [0; Store::table_entries(LEN, EXPONENT)]);
    let mut store = Store::set_up(&mut image, &mut table, EXPONENT).unwrap();
    let [_, freed, _] = [(10, 0), (20, 1), (30, CUE)].map(|(size, cue)| store.allocate_for(size, 0x0102, cue).unwrap());
    store.free(freed).unwrap();
    (image, table)
}

/// What tally answers, from the iterator's items.
fn counted(image: &[u8]) -> Result<Tally, Refusal> {
    let mut tally = Tally { objects: 0, live_bytes: 0, free_bytes: 0, overhead_bytes: 0 };
    for block in Blocks::new(image) {
        let block = block?;
        assert!(block.extent >= 16 && block.place + block.extent as usize <= image.len(), "{block:?}");
        match block.kind {
            Kind::Free => tally.free_bytes += u64::from(block.extent),
            Kind::Live => {
                tally.objects += 1;
                tally.live_bytes += u64::from(block.size);
                tally.overhead_bytes += u64::from(block.extent - block.size);
            }
        }
    }
    Ok(tally)
}

#[test]
fn fields() {
    let (image, _) = sample();
    let blocks: Vec<_> = Blocks::new(&image).map(|block| block.unwrap()).collect();
    let free = |place, extent| Block { place, extent, kind: Kind::Free, type_number: 0, size: 0, cue: 0 };
    let live = |place, extent, size, cue| Block { place, extent, kind: Kind::Live, type_number: 0x0102, size, cue };
    assert_eq!(blocks, [live(16, 26, 10, 0), free(42, 36), live(78, 46, 30, CUE), free(124, 68)]);
}

#[test]
fn every_damaged_byte() {
    let (sound, mut table) = sample();
    let mut refused = 0;
    for at in 16..LEN {
        for byte in 0..=255 {
            let mut image = sound;
            image[at] = byte;
            let expected = counted(&image);
            refused += u32::from(expected.is_err());
            assert_eq!(Store::open(&mut image, &mut table).unwrap().tally(), expected, "byte {at} set to {byte}");
        }
    }
    assert!(refused > 0);
}

/// The last four bytes of a header are a live block's cue, and zero in a free one.
#[test]
fn last_bytes() {
    let (sound, mut table) = sample();
    for (place, cue) in [(16, Some(0)), (42, None), (78, Some(CUE)), (124, None)] {
        for flip in [1, 1 << 8, 1 << 31, u32::MAX] {
            let (mut image, mut entries) = (sound, table);
            let last = cue.unwrap_or(0) ^ flip;
            image[place + 12..place + 16].copy_from_slice(&last.to_le_bytes());
            let found = Blocks::new(&image).find(|block| block.is_ok_and(|block| block.place == place) || block.is_err()).unwrap();
            assert_eq!(found.map(|block| block.cue), cue.map(|_| last).ok_or(UnsoundHeader { place }));
            let released = Store::open(&mut image, &mut entries).unwrap().release(last);
            assert_eq!(released, cue.map(|_| 1).ok_or(Refusal::Unsound));
        }
    }
    let mut image = sound;
    assert_eq!(Store::open(&mut image, &mut table).unwrap().release(CUE), Ok(1));
    assert!(Blocks::new(&image).all(|block| block.unwrap().cue == 0));
}

/// A live block of no bytes has 0 to 15 spare ones; one byte has as many.
#[test]
fn no_bytes() {
    let (mut image, mut table) = ([0; 64], [0; Store::table_entries(64, EXPONENT)]);
    let mut store = Store::set_up(&mut image, &mut table, EXPONENT).unwrap();
    let empties = [(); 3].map(|()| store.allocate_for(0, 0x0102, CUE).unwrap());
    let live = |place| Block { place, extent: 16, kind: Kind::Live, type_number: 0x0102, size: 0, cue: CUE };
    assert!(store.blocks().eq([16, 32, 48].map(|place| Ok(live(place)))));
    assert_eq!(empties.map(|empty| empty.address()), [32, 48, 64]);
    assert_eq!(store.allocate(0, 0), Err(Refusal::NoSpace));
    assert_eq!(store.tally(), counted(store.image()));

    for size in 0..4u8 {
        for extent in 0..=48u8 {
            let (mut image, mut table) = ([0; 64], table);
            Store::set_up(&mut image, &mut table, EXPONENT).unwrap();
            // kind 2, and a free block up to the end
            image[16..28].copy_from_slice(&[extent, 0, 0, 0, 2, 0, 0, 0, size, 0, 0, 0]);
            if (16..=32).contains(&extent) {
                image[16 + usize::from(extent)..][..5].copy_from_slice(&[48 - extent, 0, 0, 0, 1]);
            }
            let first = Blocks::new(&image).next().unwrap();
            assert_eq!(first.is_ok(), (16 + size..=31 + size).contains(&extent), "extent {extent}, size {size}");
            let expected = counted(&image);
            assert_eq!(Store::open(&mut image, &mut table).unwrap().tally(), expected, "extent {extent}, size {size}");
        }
    }
}

/// The free total is that of the free blocks; on a damaged superblock it is given as it stands.
#[test]
fn free_total() {
    let (mut image, mut table) = sample();
    let free = Blocks::new(&image).map(|block| block.unwrap()).filter(|block| block.kind == Kind::Free).map(|block| u64::from(block.extent)).sum();
    assert_eq!(Store::open(&mut image, &mut table).unwrap().free_total(), Ok(free));
    for total in [0, 103, 105, LEN as u32 - 15, 1 << 31, u32::MAX] {
        image[12..16].copy_from_slice(&total.to_le_bytes());
        let mut store = Store::open(&mut image, &mut table).unwrap();
        assert_eq!(store.free_total(), Ok(total.into()));
        assert_eq!(store.tally().map(|tally| tally.free_bytes), Ok(free));
        // no object has this cue; the object needs 17 bytes
        assert_eq!(store.release(1).err(), (total > LEN as u32 - 16).then_some(Refusal::WrongTotal));
        assert_eq!(store.allocate(1, 0).err(), (total < 17).then_some(Refusal::WrongTotal));
        (image, table) = sample();
    }
}

#[test]
fn ends_at_the_unsound_header() {
    let (mut image, mut table) = sample();
    image[42..46].fill(0xff); // extent
    let store = Store::open(&mut image, &mut table).unwrap();
    let mut blocks = store.blocks();
    assert_eq!(blocks.next().unwrap().unwrap().place, 16);
    assert_eq!(blocks.next(), Some(Err(UnsoundHeader { place: 42 })));
    assert_eq!([blocks.next(), blocks.next()], [None, None]);
    assert_eq!(Refusal::from(UnsoundHeader { place: 42 }), Refusal::Unsound);
    assert_eq!(UnsoundHeader { place: 42 }.to_string(), "unsound header at 42");
}

#[test]
fn any_bytes_of_any_length() {
    // noise, then what looks like headers at every alignment
    let bytes: Vec<u8> = (0..512).map(|i| (i * 31 / 7 * i) as u8).chain([16, 0, 0, 0, 1].into_iter().cycle().take(512)).collect();
    for from in 0..bytes.len() {
        for to in from..bytes.len().min(from + 100) {
            assert!(Blocks::new(&bytes[from..to]).count() <= (to - from) / 16 + 1);
        }
    }
}

//! The distances of every pointer of an image against its blocks.

use cueledger::{Block, Distances, Kind, Pointer, Refusal, Store, Width};

const LEN: usize = 192;
const EXPONENT: u32 = 6;

/// A store with small- and large-framed objects and a free block between them; the last object has spare bytes.
fn with_sample(work: impl FnOnce(&mut Store<'_>, &[(Pointer, Block)])) {
    let (mut image, mut table) = ([0; LEN], [0; Store::table_entries(LEN, EXPONENT)]);
    let mut store = Store::set_up(&mut image, &mut table, EXPONENT).unwrap();
    let pointers = [10, 20, 16, 1, 48].map(|size| store.allocate(size, 7).unwrap());
    store.free(pointers[2]).unwrap();
    let live: Vec<Block> = store.blocks().map(|block| block.unwrap()).filter(|block| block.kind == Kind::Live).collect();
    let objects: Vec<_> = [pointers[0], pointers[1], pointers[3], pointers[4]].into_iter().zip(live).collect();
    assert!([true, false].iter().all(|&flag| objects.iter().any(|(pointer, _)| pointer.flag() == flag)));
    assert!(objects[3].1.extent > objects[3].1.size + 16);
    work(&mut store, &objects);
}

/// Wherever a pointer can be moved to, and not in the next slot or frame.
#[test]
fn over_slot_and_frame() {
    with_sample(|store, objects| {
        let (mut before, mut past) = (0, 0);
        for &(start, block) in objects {
            let base = block.place as i64 + 16;
            assert_eq!(start.address() as i64, base);
            for distance in -200..=300 {
                let Ok(pointer) = store.offset(start, distance) else { continue };
                let Distances { from_start, to_end } = store.distances(pointer).unwrap();
                assert_eq!((from_start, from_start + to_end), (pointer.address() as i64 - base, block.size.into()));
                before += u32::from(from_start < 0);
                past += u32::from(to_end < 0);
                assert_eq!(store.load(pointer, Width::One).is_ok(), from_start >= 0 && to_end >= 1);
            }
            // the same tag in the next slot or frame
            let next = 1 << if start.flag() { EXPONENT } else { u32::from(start.tag()) };
            assert_eq!(store.distances(Pointer::from(u64::from(start) + next)), Err(Refusal::Dangling));
        }
        assert!(before > 0 && past > 0);
    });
}

#[test]
fn refused() {
    with_sample(|store, objects| {
        let (start, _) = objects[0];
        assert_eq!(store.distances(Pointer::from(0)), Err(Refusal::BadTag));
        assert_eq!(store.distances(Pointer::from(u64::from(start) | 0x40 << 48)), Err(Refusal::BadTag));
        assert_eq!(store.distances(start), Ok(Distances { from_start: 0, to_end: 10 }));
        store.free(start).unwrap();
        assert_eq!(store.distances(start), Err(Refusal::Dangling));
    });
}

//! Document 02, W9: objects of no bytes.

use super::*;

const EMPTY: Call<u64> = Call::Allocate { size: 0, type_number: 0 };

impl<S: Store> Lent<S> {
    /// Freshly set up with another slot exponent.
    fn with_exponent(store: S, length: usize, slot_exponent: u32) -> Lent<S> {
        let mut lent = Lent { store, image: vec![7; length], table: vec![9; model::used_entries(slot_exponent, length as u64) as usize] };
        assert_eq!(lent.refusal(Call::SetUp { slot_exponent }), 0);
        lent
    }

    /// Refused, with nothing written.
    fn declines(&mut self, call: Call<u64>, refusal: u32) {
        let before = (self.image.clone(), self.table.clone());
        assert_eq!(self.call(call), Answer::new(refusal, []), "{call}");
        assert!((&self.image, &self.table) == (&before.0, &before.1), "{call}");
    }

    fn frees(&mut self, pointer: u64) {
        assert_eq!(self.call(Call::Free { pointer }), Answer::new(0, []), "{pointer:#x}");
    }

    fn is_at(&mut self, pointer: u64, from_start: i64, to_end: i64) {
        assert_eq!(self.call(Call::Distances { pointer }), Answer::new(0, [from_start as u64, to_end as u64]), "{pointer:#x}");
    }

    fn used(&self) -> Vec<(usize, u64)> {
        self.table[..48].iter().copied().enumerate().filter(|entry| entry.1 != 0).collect()
    }
}

/// Document 02's: alone, and with its base at L.
fn marked<S: Store + Copy>(store: S) {
    let mut lent = Lent::fresh(store, 64);
    assert_eq!(lent.call(EMPTY), Answer::new(0, [0x8010000000000020]));
    assert_eq!(lent.image[16..32], [16, 0, 0, 0, 2, 0, 0, 0, 0, 0, 0, 0, 0, 0, 0, 0]);
    assert_eq!(model::sound(&lent.image, 32), Some(Header::free(32)));
    assert_eq!(lent.used(), []);
    assert_eq!(lent.call(Call::Tally), Answer::new(0, [1, 0, 32, 16]));
    assert_eq!(lent.call(Call::FreeTotal), Answer::new(0, [32]));

    let mut lent = Lent::fresh(store, 64);
    lent.allocate(16);
    assert_eq!(lent.call(EMPTY), Answer::new(0, [0x0007000000000040]));
    assert_eq!(lent.image[48..], [16, 0, 0, 0, 2, 0, 0, 0, 0, 0, 0, 0, 0, 0, 0, 0]);
    assert_eq!(lent.used(), [(0, 48)]);
    assert_eq!(lent.call(Call::Tally), Answer::new(0, [2, 16, 0, 32]));
    assert_eq!(lent.call(Call::FreeTotal), Answer::new(0, [0]));
    lent.declines(EMPTY, 8);

    let mut lent = Lent::fresh(store, 64);
    assert_eq!(lent.call(Call::AllocateFor { size: 0, type_number: 7, cue: 0x01020304 }), Answer::new(0, [0x8010000000000020]));
    assert_eq!(lent.image[16..32], [16, 0, 0, 0, 2, 0, 7, 0, 0, 0, 0, 0, 4, 3, 2, 1]);
}

/// Three fill 64 bytes; freed in any order they leave what set-up left.
fn side_by_side<S: Store + Copy>(store: S) {
    const POINTERS: [u64; 3] = [0x8010000000000020, 0x8020000000000030, 0x0007000000000040];
    for order in [[0, 1, 2], [0, 2, 1], [1, 0, 2], [1, 2, 0], [2, 0, 1], [2, 1, 0]] {
        let mut lent = Lent::fresh(store, 64);
        let fresh = (lent.image.clone(), lent.table.clone());
        assert_eq!([0, 0, 0].map(|size| lent.allocate(size)), POINTERS);
        assert_eq!(lent.call(Call::Tally), Answer::new(0, [3, 0, 0, 48]));
        assert_eq!(lent.used(), [(0, 48)]);
        lent.declines(EMPTY, 8);
        for (freed, place) in (1..).zip(order) {
            lent.frees(POINTERS[place]);
            assert_eq!(lent.call(Call::Tally), Answer::new(0, [3 - freed, 0, 16 * freed, 48 - 16 * freed]));
            assert_eq!(lent.call(Call::FreeTotal), Answer::new(0, [16 * freed]));
            lent.declines(Call::Load { pointer: POINTERS[place], width: 1 }, 11);
            order[freed as usize..].iter().for_each(|&place| lent.is_at(POINTERS[place], 0, 0));
        }
        assert!((&lent.image, &lent.table) == (&fresh.0, &fresh.1), "{order:?}");
    }
    // the one in the middle goes and comes back; a byte more does not fit
    let mut lent = Lent::fresh(store, 64);
    assert_eq!([0, 0, 0].map(|size| lent.allocate(size)), POINTERS);
    lent.frees(POINTERS[1]);
    lent.declines(Call::Allocate { size: 1, type_number: 0 }, 8);
    assert_eq!(lent.allocate(0), POINTERS[1]);
}

/// As many as there can be: all pointers differ, and a release leaves what set-up left.
fn as_many_as_fit<S: Store + Copy>(store: S) {
    for slot_exponent in 6..=15 {
        let mut lent = Lent::with_exponent(store, 1024, slot_exponent);
        let fresh = (lent.image.clone(), lent.table.clone());
        let pointers: Vec<u64> = (0..63).map(|_| lent.allocate(0)).collect();
        assert!(pointers.iter().zip(2..).all(|(&pointer, place)| Pointer::unpack(pointer).address == 16 * place));
        lent.declines(EMPTY, 8);
        assert_eq!(lent.call(Call::Tally), Answer::new(0, [63, 0, 0, 63 * 16]));
        for (i, &pointer) in pointers.iter().enumerate() {
            assert!(!pointers[..i].contains(&pointer));
            lent.is_at(pointer, 0, 0);
            lent.declines(Call::Load { pointer, width: 1 }, 13);
        }
        // those that end at a slot's end take the entry of two slots, or of more
        let large = pointers.iter().filter(|&&pointer| pointer >> 63 == 0).count();
        assert_eq!(large, 1024 >> slot_exponent);
        assert_eq!(lent.table.iter().filter(|&&entry| entry != 0).count(), large);
        assert_eq!(lent.call(Call::Release { cue: 0 }), Answer::new(0, [63]));
        assert!((&lent.image, &lent.table) == (&fresh.0, &fresh.1));
    }
}

/// A store with an object of bytes and one of none.
struct Layout<S> {
    lent: Lent<S>,
    /// Of 10 bytes at least.
    other: u64,
    empty: u64,
    h: u64,
    extent: u64,
    small: bool,
}

/// The bytes behind its header are a free header, a live one, spare ones, and none of the image.
fn layouts<S: Store + Copy>(store: S) -> Vec<Layout<S>> {
    let free_header = {
        let mut lent = Lent::fresh(store, 1024);
        let (other, empty) = (lent.allocate(10), lent.allocate(0));
        assert_eq!(empty, 0x802A00000000003A);
        Layout { lent, other, empty, h: 42, extent: 16, small: true }
    };
    let live_header = {
        let mut lent = Lent::fresh(store, 1024);
        let (other, empty) = (lent.allocate(10), lent.allocate(0));
        lent.allocate(10);
        Layout { lent, other, empty, h: 42, extent: 16, small: true }
    };
    let spare = {
        let mut lent = Lent::fresh(store, 1024);
        let [other, freed, _] = [10, 15, 1].map(|size| lent.allocate(size));
        lent.frees(freed);
        let empty = lent.allocate(0);
        assert_eq!(empty, 0x802A00000000003A);
        Layout { lent, other, empty, h: 42, extent: 31, small: true }
    };
    let large = {
        let mut lent = Lent::fresh(store, 1024);
        let (other, empty) = (lent.allocate(16), lent.allocate(0));
        assert_eq!(empty, 0x0007000000000040);
        Layout { lent, other, empty, h: 48, extent: 16, small: false }
    };
    let large_at_end = {
        let mut lent = Lent::fresh(store, 64);
        let (other, empty) = (lent.allocate(16), lent.allocate(0));
        assert_eq!(empty, 0x0007000000000040);
        Layout { lent, other, empty, h: 48, extent: 16, small: false }
    };
    let small_at_end = {
        let mut lent = Lent::fresh(store, 80);
        let (other, empty) = (lent.allocate(32), lent.allocate(0));
        assert_eq!(empty, 0x8000000000000050);
        Layout { lent, other, empty, h: 64, extent: 16, small: true }
    };
    vec![free_header, live_header, spare, large, large_at_end, small_at_end]
}

/// Those with the base at L.
fn at_the_end<S: Store + Copy>(store: S) -> Vec<Layout<S>> {
    let ends: Vec<_> = layouts(store).into_iter().filter(|layout| layout.h + 16 == layout.lent.image.len() as u64).collect();
    assert_eq!(ends.len(), 2);
    ends
}

/// No byte through it, at its base or a few bytes off, of itself or beside a good pointer; with the row of each call.
fn refused_accesses(pointer: u64, good: u64) -> Vec<(Call<u64>, u32)> {
    let mut calls = Vec::new();
    for width in 1..=8 {
        calls.extend([(Call::Load { pointer, width }, 13), (Call::Store { pointer, width, value: 0 }, 13), (Call::Store { pointer, width, value: 255 }, 13)]);
    }
    // the other object has 10 bytes at least
    for length in [1, 2, 9, 10, u32::MAX] {
        calls.push((Call::Fill { pointer, length, value: 0x5a }, 13));
        for (one, two) in [(pointer, good), (good, pointer), (pointer, pointer)] {
            calls.extend([(Call::Copy { target: one, source: two, length }, 13), (Call::Compare { left: one, right: two, length }, 13)]);
        }
    }
    // 13 also where there is no zero byte to be found
    calls.extend([(good, pointer), (pointer, good), (pointer, pointer)].map(|(target, source)| (Call::CopyText { target, source }, 13)));
    // what is tested before the pointer
    calls.extend([(Call::Load { pointer, width: 0 }, 14), (Call::Load { pointer, width: 9 }, 14), (Call::Store { pointer, width: 1, value: 256 }, 16)]);
    calls.push((Call::Fill { pointer, length: 0, value: 0 }, 6));
    for (one, two) in [(pointer, good), (good, pointer), (pointer, pointer)] {
        calls.extend([(Call::Copy { target: one, source: two, length: 0 }, 6), (Call::Compare { left: one, right: two, length: 0 }, 6)]);
    }
    // the pointer tested first decides; neither tag is good
    for (bad, row) in [(6 << 48, 10), (0x803F000000000000, 11)] {
        calls.extend([(Call::Copy { target: pointer, source: bad, length: 1 }, 13), (Call::Copy { target: bad, source: pointer, length: 1 }, row)]);
        calls.extend([(Call::Compare { left: pointer, right: bad, length: 1 }, 13), (Call::Compare { left: bad, right: pointer, length: 1 }, row)]);
        calls.extend([(Call::CopyText { target: bad, source: pointer }, 13), (Call::CopyText { target: pointer, source: bad }, row)]);
    }
    calls
}

/// Every call through its pointer, with spare bytes, where there are some, that are zero and that are not.
fn each_call<S: Store + Copy>(store: S) {
    for Layout { mut lent, other, empty, h, extent, small } in layouts(store) {
        let base = h + 16;
        let (start, end) = if small { (base >> 6 << 6, (base >> 6 << 6) + 64) } else { (0, 128) };
        let fresh = lent.image.clone();
        for byte in [0, 0x5a] {
            lent.image[base as usize..(h + extent) as usize].fill(byte);
            for at in [start, h, h + 1, base - 1, base, base + 1, end - 1] {
                let pointer = lent.moved(empty, at as i64 - base as i64).unwrap();
                assert_eq!(Pointer::unpack(pointer), Pointer { address: at, ..Pointer::unpack(empty) });
                lent.is_at(pointer, at as i64 - base as i64, base as i64 - at as i64);
                for (call, refusal) in refused_accesses(pointer, other) {
                    lent.declines(call, refusal);
                }
                if at != base {
                    lent.declines(Call::Free { pointer }, 15);
                }
            }
        }
        lent.image = fresh;
        assert_eq!(lent.moved(empty, end as i64 - base as i64), Err(12));
        assert_eq!(lent.moved(empty, start as i64 - base as i64 - 1), Err(12));
        assert_eq!(lent.moved(empty, i64::MIN), Err(12));

        let Answer { values: [objects, live, free, overhead], .. } = lent.call(Call::Tally);
        let others: Vec<_> = lent.used().into_iter().filter(|entry| entry.1 != h).collect();
        lent.frees(empty);
        assert_eq!(lent.call(Call::Tally), Answer::new(0, [objects - 1, live, free + extent, overhead - extent]));
        assert_eq!(lent.call(Call::FreeTotal), Answer::new(0, [free + extent]));
        assert_eq!(lent.used(), others);
        for (call, refusal) in [(Call::Free { pointer: empty }, 11), (Call::Load { pointer: empty, width: 1 }, 11), (Call::Distances { pointer: empty }, 11)] {
            lent.declines(call, refusal);
        }
        assert_eq!(lent.allocate(0), empty);
    }
}

/// Its base is at L: no answer depends on bytes behind the lent image, and none of them is written.
fn behind_the_image<S: Store + Copy>(store: S) {
    for Layout { lent, other, empty, .. } in at_the_end(store) {
        let length = lent.image.len();
        let header = Header::live(16, 0, 0, 0).bytes();
        // bytes, and what looks like one more object or free block
        let behind =
            [vec![0; 64], vec![0xff; 64], vec![0x5a; 64], header.repeat(4), Header::live(48, 0, 32, 0).bytes().repeat(4), Header::free(64).bytes().repeat(4)];
        for behind in behind {
            let call = |call: Call<u64>| {
                let (mut image, mut table) = ([lent.image.clone(), behind.clone()].concat(), lent.table.clone());
                let answer = store.call(&mut image[..length], &mut table, call);
                assert_eq!(image[length..], behind, "{call}");
                (answer, image[..length] == lent.image && table == lent.table)
            };
            for distance in [-16, -1, 0, 1, 15, 16, 47] {
                let pointer = call(Call::Move { pointer: empty, distance }).0.values[0];
                assert_eq!(pointer, empty.wrapping_add(distance as u64));
                assert_eq!(call(Call::Distances { pointer }), (Answer::new(0, [distance as u64, distance.wrapping_neg() as u64]), true));
                for (access, refusal) in refused_accesses(pointer, other) {
                    assert_eq!(call(access), (Answer::new(refusal, []), true), "{access}");
                }
                let freed = call(Call::Free { pointer });
                assert_eq!(freed, if distance == 0 { (Answer::new(0, []), false) } else { (Answer::new(15, []), true) });
            }
            assert_eq!(call(EMPTY), (Answer::new(8, []), true));
            assert_eq!(call(Call::Tally).0.values[0], 2);
            assert_eq!(call(Call::Release { cue: 0 }).0, Answer::new(0, [2]));
        }
    }
}

extern "C" {
    fn mmap(at: *mut u8, length: usize, access: i32, flags: i32, file: i32, offset: i64) -> *mut u8;
    fn mprotect(at: *mut u8, length: usize, access: i32) -> i32;
    fn munmap(at: *mut u8, length: usize) -> i32;
}

const PAGE: usize = 4096;

/// Two pages, the second of which nobody may read or write.
struct Pages(*mut u8);

impl Pages {
    fn new() -> Pages {
        const READ_AND_WRITE: i32 = 3;
        const PRIVATE_AND_ANONYMOUS: i32 = 0x22;
        // SAFETY: a new mapping, and a change of its second page, which nothing refers to.
        let (at, changed) = unsafe {
            let at = mmap(std::ptr::null_mut(), 2 * PAGE, READ_AND_WRITE, PRIVATE_AND_ANONYMOUS, -1, 0);
            (at, mprotect(at.wrapping_add(PAGE), PAGE, 0))
        };
        assert_eq!(changed, 0);
        Pages(at)
    }

    /// The first one's last bytes.
    fn last(&mut self, length: usize) -> &mut [u8] {
        // SAFETY: they are inside the first page, which only this borrow reaches.
        unsafe { std::slice::from_raw_parts_mut(self.0.add(PAGE - length), length) }
    }
}

impl Drop for Pages {
    fn drop(&mut self) {
        // SAFETY: the mapping is this one's, and no borrow of it is left.
        unsafe { munmap(self.0, 2 * PAGE) };
    }
}

/// Its base is at L, and the page ends there: a call that only reads the byte at L does not come back.
fn up_to_a_page_end<S: Store + Copy>(store: S) {
    let mut pages = Pages::new();
    for Layout { lent, other, empty, .. } in at_the_end(store) {
        let mut call = |call: Call<u64>| {
            let (image, mut table) = (pages.last(lent.image.len()), lent.table.clone());
            image.copy_from_slice(&lent.image);
            store.call(image, &mut table, call).refusal
        };
        for distance in [-16, -1, 0, 1, 47] {
            let pointer = empty.wrapping_add(distance as u64);
            for (access, refusal) in refused_accesses(pointer, other) {
                assert_eq!(call(access), refusal, "{access}");
            }
            assert_eq!(call(Call::Distances { pointer }), 0);
            assert_eq!(call(Call::Free { pointer }), if distance == 0 { 0 } else { 15 });
        }
        for (walk, refusal) in [(EMPTY, 8), (Call::Tally, 0), (Call::Release { cue: 0 }, 0), (Call::Free { pointer: other }, 0)] {
            assert_eq!(call(walk), refusal, "{walk}");
        }
    }
}

/// With h around the last 16 bytes of a slot, where e is in the next one.
fn exponents<S: Store + Copy>(store: S) {
    for slot_exponent in 6..=15 {
        let slot = 1u64 << slot_exponent;
        for h in [slot - 17, slot - 16, slot - 15, slot - 1, slot, slot + 1] {
            let mut lent = Lent::with_exponent(store, 2 * slot as usize + 64, slot_exponent);
            let filler = lent.allocate(h as u32 - 32);
            let entries = lent.table.clone();
            let empty = lent.allocate(0);
            if (slot - 16..slot).contains(&h) {
                assert_eq!(empty, u64::from(slot_exponent + 1) << 48 | (h + 16));
                assert_eq!((entries[0], lent.table[0]), (0, h));
            } else {
                assert_eq!(empty, 1 << 63 | (h % slot) << 48 | (h + 16));
                assert!(lent.table == entries);
            }
            assert_eq!(model::sound(&lent.image, h), Some(Header::live(16, 0, 0, 0)));
            lent.is_at(empty, 0, 0);
            lent.declines(Call::Load { pointer: empty, width: 1 }, 13);
            lent.declines(Call::Copy { target: filler, source: empty, length: 1 }, 13);
            lent.frees(empty);
            assert!(lent.table == entries);
        }
    }
}

/// In a block of 16 to 31 bytes it takes all; of 32 it leaves 16. None of the spare bytes can be reached.
fn spare_bytes<S: Store + Copy>(store: S) {
    for block in 16..=32 {
        let mut lent = Lent::fresh(store, 1024);
        let [freed, _] = [block - 16, 5].map(|size| lent.allocate(size));
        lent.frees(freed);
        let before = (lent.image.clone(), lent.table.clone());
        let empty = lent.allocate(0);
        assert_eq!(empty, 0x8010000000000020);
        let extent = if block < 32 { block } else { 16 };
        assert_eq!(model::sound(&lent.image, 16), Some(Header::live(extent.into(), 0, 0, 0)));
        if block == 32 {
            assert_eq!(model::sound(&lent.image, 32), Some(Header::free(16)));
        }
        // 21 bytes of the other block, and what is behind it
        let free = 1024 - 16 - 21 - u64::from(extent);
        assert_eq!(lent.call(Call::Tally), Answer::new(0, [2, 5, free, u64::from(extent) + 16]));
        assert_eq!(lent.call(Call::FreeTotal), Answer::new(0, [free]));
        for at in 0..=i64::from(extent - 16) {
            let pointer = lent.moved(empty, at).unwrap();
            lent.is_at(pointer, at, -at);
            lent.declines(Call::Load { pointer, width: 1 }, 13);
            lent.declines(Call::Fill { pointer, length: 1, value: 1 }, 13);
        }
        lent.frees(empty);
        assert!((&lent.image, &lent.table) == (&before.0, &before.1));
    }
}

/// 8 comes exactly when the run is shorter than 16 + size.
fn runs<S: Store + Copy>(store: S) {
    for run in 16..50 {
        for size in 0..40 {
            let mut lent = Lent::fresh(store, 1024);
            let [freed, _] = [run - 16, 1024 - 16 - run - 16].map(|size| lent.allocate(size));
            lent.frees(freed);
            let refusal = if 16 + size <= run { 0 } else { 8 };
            assert_eq!(lent.refusal(Call::Allocate { size, type_number: 0 }), refusal, "{size} in {run}");
        }
    }
    // not even a header
    let mut lent = Lent::fresh(store, 64);
    lent.allocate(32);
    lent.declines(EMPTY, 8);
    lent.declines(Call::AllocateFor { size: 0, type_number: 0, cue: 1 }, 8);
}

/// Headers on either side of what is sound, in a walk and read by a tag.
fn soundness<S: Store>(store: S) {
    let mut lent = Lent::fresh(store, 1024);
    let pointer = 0x8010000000000020;
    for (extent, size, sound) in [
        (0, 0, false),
        (15, 0, false),
        (16, 0, true),
        (17, 0, true),
        (30, 0, true),
        (31, 0, true),
        (32, 0, false),
        (1008, 0, false),
        (16, 1, false),
        (17, 1, true),
        (32, 1, true),
        (33, 1, false),
        (31, u32::MAX, false),
        (16, u32::MAX, false),
    ] {
        lent.image[16..].fill(0);
        if (16..1000).contains(&extent) {
            lent.image[16 + extent..32 + extent].copy_from_slice(&Header::free(1008 - extent as u64).bytes());
        }
        lent.image[16..32].copy_from_slice(&Header::live(extent as u64, 0, size, 3).bytes());
        let free = 1008 - extent as u64;
        if sound {
            let overhead = extent as u64 - u64::from(size);
            assert_eq!(lent.call(Call::Tally), Answer::new(0, [1, size.into(), free, overhead]), "{extent} {size}");
            lent.is_at(pointer, 0, size.into());
            assert_eq!(lent.refusal(Call::Load { pointer, width: 1 }), if size == 0 { 13 } else { 0 });
            lent.declines(Call::Allocate { size: 1000, type_number: 0 }, 8);
        } else {
            for (call, refusal) in
                [(Call::Tally, 7), (EMPTY, 7), (Call::Release { cue: 3 }, 7), (Call::Free { pointer }, 11), (Call::Load { pointer, width: 1 }, 11)]
            {
                lent.declines(call, refusal);
            }
            lent.declines(Call::Distances { pointer }, 11);
        }
    }
    // its base at L, and 15 bytes before L, where no header fits
    for (h, sound) in [(1008, true), (1009, false)] {
        lent.image[16..].fill(0);
        lent.image[16..32].copy_from_slice(&Header::free(h - 16).bytes());
        let header = Header::live(16, 0, 0, 0).bytes();
        let room = (1024 - h) as usize;
        lent.image[h as usize..].copy_from_slice(&header[..room]);
        assert_eq!(lent.refusal(Call::Tally), if sound { 0 } else { 7 });
    }
}

/// Released with the others of its cue; its entry is asked for.
fn released<S: Store>(store: S) {
    let mut lent = Lent::fresh(store, 1024);
    let fresh = (lent.image.clone(), lent.table.clone());
    // headers at 16, 42, 58, 78 and 94
    let objects = [(10, 5), (0, 5), (4, 6), (0, 6), (0, 5)].map(|(size, cue)| lent.call(Call::AllocateFor { size, type_number: 0, cue }).values[0]);
    assert_eq!(objects, [0x8010000000000020, 0x802A00000000003A, 0x000700000000004A, 0x800E00000000005E, 0x801E00000000006E]);
    assert_eq!(lent.call(Call::Release { cue: 7 }), Answer::new(0, [0]));
    assert_eq!(lent.call(Call::Release { cue: 5 }), Answer::new(0, [3]));
    assert_eq!(lent.call(Call::Tally), Answer::new(0, [2, 4, 1008 - 36, 32]));
    lent.is_at(objects[3], 0, 0);
    lent.declines(Call::Distances { pointer: objects[1] }, 11);
    assert_eq!(lent.call(Call::Release { cue: 6 }), Answer::new(0, [2]));
    assert!((&lent.image, &lent.table) == (&fresh.0, &fresh.1));

    // large-framed at 48, without its entry
    lent.allocate(16);
    assert_eq!(lent.call(Call::AllocateFor { size: 0, type_number: 0, cue: 5 }), Answer::new(0, [0x0007000000000040]));
    for entry in [0, 16, 49] {
        lent.table[0] = entry;
        lent.declines(Call::Release { cue: 5 }, 21);
        lent.declines(Call::Free { pointer: 0x0007000000000040 }, 11);
    }
    lent.table[0] = 48;
    assert_eq!(lent.call(Call::Release { cue: 5 }), Answer::new(0, [1]));
    assert_eq!(lent.used(), []);
}

/// 4, 5, then 7 or 8, 9, 22, as for any other size.
fn rows<S: Store>(store: S) {
    let mut lent = Lent::fresh(store, 64);
    lent.allocate(16);
    let for_cue = Call::AllocateFor { size: 0, type_number: 0, cue: 9 };
    for call in [EMPTY, for_cue] {
        // the last 16 bytes, whose entry is taken; then a total that is too small
        lent.table[0] = 5;
        lent.image[12] = 0;
        lent.declines(call, 9);
        lent.table[0] = 0;
        for total in [0, 1, 15] {
            lent.image[12] = total;
            lent.declines(call, 22);
        }
        let before = lent.image[48..].to_vec();
        lent.image[48] = 15;
        lent.table[0] = 5;
        lent.declines(call, 7);
        lent.image[48..].copy_from_slice(&before);
        lent.table[0] = 0;
        lent.image[12] = 16;
    }
    assert_eq!(lent.allocate(0), 0x0007000000000040);
    lent.image[12] = 0;
    for call in [EMPTY, for_cue] {
        lent.declines(call, 8);
    }
    for (superblock, entries, refusal) in [(3, 385, 4), (16, 47, 5), (3, 47, 4)] {
        lent.image[0] = superblock;
        lent.table.truncate(entries);
        lent.declines(EMPTY, refusal);
        lent.declines(for_cue, refusal);
        lent.table.resize(385, 0);
    }
}

/// The total is asked for its spare bytes too.
fn total_with_spare_bytes<S: Store>(store: S) {
    let mut lent = Lent::fresh(store, 64);
    lent.allocate(9);
    // 23 bytes at 41
    for total in [0, 15, 16, 22] {
        lent.image[12] = total;
        lent.declines(EMPTY, 22);
    }
    lent.image[12] = 23;
    assert_eq!(lent.allocate(0), 0x8029000000000039);
    assert_eq!(lent.call(Call::FreeTotal), Answer::new(0, [0]));
    lent.image[12] = 26;
    lent.declines(Call::Free { pointer: 0x8029000000000039 }, 22);
    lent.image[12] = 25;
    lent.frees(0x8029000000000039);
    assert_eq!(lent.call(Call::FreeTotal), Answer::new(0, [48]));
}

on_each_store!(marked side_by_side as_many_as_fit each_call behind_the_image up_to_a_page_end exponents spare_bytes runs soundness released rows total_with_spare_bytes);

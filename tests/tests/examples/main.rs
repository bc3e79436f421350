//! Document 01, "Arithmetic by example", and examples of the change requests, on the model and on the library.

use cueledger_tests::library::{Exports, Library};
use cueledger_tests::model::{self, Header, Pointer};
use cueledger_tests::store::{Answer, Call, Model, Store};

struct Lent<S> {
    store: S,
    image: Vec<u8>,
    table: Vec<u64>,
}

impl<S: Store> Lent<S> {
    /// Freshly set up with s = 6; neither buffer was clear before.
    fn fresh(store: S, length: usize) -> Lent<S> {
        let mut lent = Lent { store, image: vec![7; length], table: vec![9; 48 * 8 + 1] };
        assert_eq!(lent.refusal(Call::SetUp { slot_exponent: 6 }), 0);
        lent
    }

    fn call(&mut self, call: Call<u64>) -> Answer {
        self.store.call(&mut self.image, &mut self.table, call)
    }

    fn refusal(&mut self, call: Call<u64>) -> u32 {
        self.call(call).refusal
    }

    fn allocate(&mut self, size: u32) -> u64 {
        let answer = self.call(Call::Allocate { size, type_number: 0 });
        assert_eq!(answer.refusal, 0, "size {size}");
        answer.values[0]
    }

    fn moved(&mut self, pointer: u64, distance: i64) -> Result<u64, u32> {
        let answer = self.call(Call::Move { pointer, distance });
        if answer.accepted() {
            Ok(answer.values[0])
        } else {
            Err(answer.refusal)
        }
    }

    /// Written behind the store's back, from the pointer's address on.
    fn write(&mut self, pointer: u64, bytes: &[u8]) {
        let at = Pointer::unpack(pointer).address as usize;
        self.image[at..at + bytes.len()].copy_from_slice(bytes);
    }

    fn compare(&mut self, left: u64, right: u64, length: u32) -> Answer {
        let before = self.image.clone();
        let answer = self.call(Call::Compare { left, right, length });
        assert!(self.image == before);
        answer
    }

    /// An accepted text copy of this text, zero byte included: it stands at the target, and all else is as before.
    fn copies_text(&mut self, target: u64, source: u64, text: &[u8]) {
        let (mut expected, at) = (self.image.clone(), Pointer::unpack(target).address as usize);
        expected[at..at + text.len()].copy_from_slice(text);
        assert_eq!(self.call(Call::CopyText { target, source }), Answer::new(0, [text.len() as u64]));
        assert!(self.image == expected);
    }

    fn refuses_text(&mut self, target: u64, source: u64, refusal: u32) {
        let before = self.image.clone();
        assert_eq!(self.call(Call::CopyText { target, source }), Answer::new(refusal, []));
        assert!(self.image == before);
    }
}

fn set_up<S: Store>(store: S) {
    let mut lent = Lent::fresh(store, 1024);
    assert_eq!(lent.image[..16], [16, 0, 0, 0, 3, 0, 6, 0, 0, 4, 0, 0, 0xf0, 3, 0, 0]);
    assert_eq!(lent.image[16..32], [0xf0, 3, 0, 0, 1, 0, 0, 0, 0, 0, 0, 0, 0, 0, 0, 0]);
    assert!(lent.image[32..].iter().all(|&byte| byte == 0));
    assert!(lent.table[..384].iter().all(|&entry| entry == 0));
    assert_eq!(lent.table[384], 9);
    assert_eq!(lent.call(Call::Tally), Answer::new(0, [0, 0, 1008, 0]));
    assert_eq!(lent.call(Call::FreeTotal), Answer::new(0, [1008]));

    for (length, entries, slot_exponent, refusal) in [(1024, 384, 5, 1), (1024, 384, 16, 1), (63, 384, 6, 2), (63, 0, 16, 1), (63, 0, 6, 2), (1024, 383, 6, 3)]
    {
        let (mut image, mut table) = (vec![7; length], vec![9; entries]);
        let answer = lent.store.call(&mut image, &mut table, Call::SetUp { slot_exponent });
        assert_eq!(answer, Answer::new(refusal, []));
        assert!(image.iter().all(|&byte| byte == 7) && table.iter().all(|&entry| entry == 9));
    }
}

fn in_succession<S: Store>(store: S) {
    let mut lent = Lent::fresh(store, 1024);
    for (size, h, e, wrapper, pointer, entry) in [
        (10, 16, 42, 6, 0x8010000000000020, None),
        (20, 42, 78, 7, 0x000700000000003A, Some(0)),
        (32, 78, 126, 6, 0x800E00000000005E, None),
        (1, 126, 143, 8, 0x000800000000008E, Some(1)),
    ] {
        assert_eq!(lent.allocate(size), pointer);
        assert_eq!(model::sound(&lent.image, h), Some(Header::live(e - h, 0, size, 0)));
        assert_eq!(model::frame_number(h, e), wrapper);
        if let Some(entry) = entry {
            assert_eq!(lent.table[entry], h);
        }
    }
    assert_eq!(lent.table.iter().filter(|&&entry| entry != 0).count(), 3, "two entries, and one beyond the used ones");
    assert_eq!(lent.call(Call::Tally), Answer::new(0, [4, 63, 881, 64]));
}

fn largest_small<S: Store + Copy>(store: S) {
    assert_eq!(Lent::fresh(store, 1024).allocate(31) >> 63, 1);
    let mut lent = Lent::fresh(store, 1024);
    assert_eq!(lent.allocate(32), 0x0007000000000020);
    assert_eq!(lent.table[0], 16);
}

fn moves<S: Store>(store: S) {
    let mut lent = Lent::fresh(store, 1024);
    let pointer = lent.allocate(10);
    assert_eq!(pointer, 0x8010000000000020);
    assert_eq!(lent.moved(pointer, 31), Ok(0x801000000000003F));
    assert_eq!(lent.moved(pointer, 32), Err(12));
    assert_eq!(lent.moved(pointer, -32), Ok(0x8010000000000000));
    assert_eq!(lent.moved(pointer, -33), Err(12));
    assert_eq!(lent.moved(pointer, 0), Ok(pointer));
    assert_eq!(lent.moved(pointer, i64::MIN), Err(12));
    assert_eq!(lent.moved(pointer, i64::MAX), Err(12));
}

fn bounds<S: Store>(store: S) {
    let mut lent = Lent::fresh(store, 1024);
    let start = lent.allocate(10);
    for (at, refusal) in [(34, 0), (35, 13)] {
        let pointer = lent.moved(start, at - 32).unwrap();
        assert_eq!(lent.refusal(Call::Load { pointer, width: 8 }), refusal);
        assert_eq!(lent.refusal(Call::Store { pointer, width: 8, value: 1 }), refusal);
        assert_eq!(lent.refusal(Call::Fill { pointer, length: 8, value: 1 }), refusal);
        assert_eq!(lent.refusal(Call::Copy { target: pointer, source: start, length: 8 }), refusal);
        assert_eq!(lent.refusal(Call::Copy { target: start, source: pointer, length: 8 }), refusal);
    }
}

/// Each width at an object's end, and one byte further; its largest value, and the next; numbers that are no width.
fn widths<S: Store>(store: S) {
    let mut lent = Lent::fresh(store, 1024);
    let start = lent.allocate(10);
    for width in 1..=8 {
        let largest = u64::MAX >> (64 - 8 * width);
        let last = lent.moved(start, 10 - width as i64).unwrap();
        let past = lent.moved(last, 1).unwrap();
        assert_eq!(lent.refusal(Call::Fill { pointer: start, length: 10, value: 0x5a }), 0);
        assert_eq!(lent.refusal(Call::Store { pointer: last, width, value: largest }), 0);
        assert_eq!(lent.call(Call::Load { pointer: last, width }), Answer::new(0, [largest]));
        assert!(lent.image[32..42 - width as usize].iter().all(|&byte| byte == 0x5a), "width {width}");
        assert_eq!(lent.refusal(Call::Load { pointer: past, width }), 13);
        assert_eq!(lent.refusal(Call::Store { pointer: past, width, value: largest }), 13);
        if width < 8 {
            assert_eq!(lent.refusal(Call::Store { pointer: last, width, value: largest + 1 }), 16);
        }
    }
    let before = lent.image.clone();
    for width in [0, 9, 1 << 32, u64::MAX] {
        // the second pointer's tag is out of range: it is not looked at
        for pointer in [start, 6 << 48] {
            assert_eq!(lent.call(Call::Load { pointer, width }), Answer::new(14, [0]));
            assert_eq!(lent.refusal(Call::Store { pointer, width, value: u64::MAX }), 14);
        }
    }
    assert_eq!(lent.image, before);
}

const BELOW: Answer = Answer { refusal: 0, values: [u64::MAX, 0, 0, 0] };
const EQUAL: Answer = Answer { refusal: 0, values: [0; 4] };
const ABOVE: Answer = Answer { refusal: 0, values: [1, 0, 0, 0] };

fn compares<S: Store>(store: S) {
    let mut lent = Lent::fresh(store, 1024);
    // small- and large-framed, and zero
    let [ten, twenty] = [10, 20].map(|size| lent.allocate(size));
    for length in 1..=10 {
        assert_eq!(lent.compare(ten, twenty, length), EQUAL);
    }
    // the object of 10 has no eleventh byte
    for (left, right) in [(ten, twenty), (twenty, ten), (ten, ten)] {
        assert_eq!(lent.compare(left, right, 11), Answer::new(13, []));
        assert_eq!(lent.compare(left, right, u32::MAX), Answer::new(13, []));
        assert_eq!(lent.compare(left, right, 0), Answer::new(6, []));
    }

    // one byte in each place, all others alike: 0x7f is below 0x80
    for place in 0..10 {
        for (low, high) in [(0x7f, 0x80), (0, 1), (0, 0xff), (0xfe, 0xff)] {
            lent.write(ten, &[0x5a; 10]);
            lent.write(twenty, &[0x5a; 20]);
            lent.write(ten + place, &[low]);
            lent.write(twenty + place, &[high]);
            for length in 1..=10 {
                let seen = u64::from(length) > place;
                assert_eq!(lent.compare(ten, twenty, length), if seen { BELOW } else { EQUAL });
                assert_eq!(lent.compare(twenty, ten, length), if seen { ABOVE } else { EQUAL });
                assert_eq!(lent.compare(ten, ten, length), EQUAL);
            }
        }
    }

    // the first difference decides, behind zero bytes too
    lent.write(ten, &[0, 1, 0, 0, 0, 0, 0, 0, 0, 0]);
    lent.write(twenty, &[0, 0, 0xff, 0xff, 0xff, 0xff, 0xff, 0xff, 0xff, 0xff]);
    assert_eq!(lent.compare(ten, twenty, 10), ABOVE);
    // bytes in common: 0 1 0 .. with 1 0 0 ..
    assert_eq!(lent.compare(ten, ten + 1, 9), BELOW);
    assert_eq!(lent.compare(ten, ten + 1, 10), Answer::new(13, []));
}

fn texts<S: Store>(store: S) {
    let mut lent = Lent::fresh(store, 1024);
    let [ten, five] = [10, 5].map(|size| lent.allocate(size));
    assert_eq!(ten, 0x8010000000000020);
    // no letters
    lent.write(ten, b"\0________\0");
    lent.copies_text(ten + 5, ten, b"\0");
    lent.copies_text(ten, ten + 9, b"\0");
    assert_eq!(lent.image[32..42], *b"\0____\0___\0");
    // five letters; only from 4 on, and in no object of five bytes, is there room for the zero byte too
    lent.write(ten, b"cue 1\0____");
    lent.refuses_text(ten + 5, ten, 13);
    lent.refuses_text(five, ten, 13);
    lent.copies_text(five, ten + 1, b"ue 1\0");
    lent.copies_text(ten + 4, ten, b"cue 1\0");
    assert_eq!(lent.image[32..42], *b"cue cue 1\0");
    // from the text's end, and onto itself
    lent.copies_text(five, ten + 9, b"\0");
    lent.copies_text(ten, ten, b"cue cue 1\0");
    // by less than the text, up and down
    for shift in 1..5 {
        lent.write(ten, b"cue 1\0____");
        lent.copies_text(ten + shift, ten, b"cue 1\0");
        lent.copies_text(ten, ten + shift, b"cue 1\0");
    }
    assert_eq!(lent.image[32..42], *b"cue 1\0e 1\0");
    // from the middle
    lent.write(ten, b"winch\0cue\0");
    lent.copies_text(ten + 6, ten + 2, b"nch\0");
    // up to the body's end
    lent.write(ten, b"_________\0");
    lent.copies_text(ten, ten, b"_________\0");
    lent.copies_text(ten, ten + 1, b"________\0");
    // no zero byte, or only one behind the body
    for behind in [1, 0] {
        lent.write(ten, b"\0_________");
        lent.write(ten + 10, &[behind]);
        lent.refuses_text(ten, ten + 1, 20);
        lent.refuses_text(ten, ten + 9, 20);
        lent.refuses_text(ten, ten + 10, 13);
        lent.copies_text(ten + 9, ten, b"\0");
    }
}

/// Each refusal of the one pointer with each of the other.
fn two_pointers<S: Store>(store: S) {
    let mut lent = Lent::fresh(store, 1024);
    let [text, letters] = [6, 6].map(|size| lent.allocate(size));
    lent.write(text, b"cue 1\0");
    lent.write(letters, b"cue 01");
    let bad = [(6 << 48, 10), (0x8000000000000000, 11), (text - 1, 13), (text + 6, 13)];
    for (left, row) in [(text, 0)].iter().chain(&bad).copied() {
        for (right, other) in [(letters, 0)].iter().chain(&bad).copied() {
            let refusal = if row != 0 { row } else { other };
            assert_eq!(lent.compare(left, right, 0), Answer::new(6, []));
            assert_eq!(lent.compare(left, right, 1), Answer::new(refusal, []), "{left:#x} and {right:#x}");
        }
    }
    for (source, row) in [(text, 0), (letters, 20)].iter().chain(&bad).copied() {
        for (target, other) in [(text, 0)].iter().chain(&bad).copied() {
            match if row != 0 { row } else { other } {
                0 => lent.copies_text(target, source, b"cue 1\0"),
                refusal => lent.refuses_text(target, source, refusal),
            }
        }
    }

    // 4 and 5 come before all of them
    for (superblock, entries, refusal) in [(3, 384, 4), (16, 383, 5), (3, 383, 4)] {
        lent.image[0] = superblock;
        lent.table.truncate(entries);
        for pointer in [text, letters, 6 << 48] {
            assert_eq!(lent.compare(pointer, pointer, 0), Answer::new(refusal, []));
            lent.refuses_text(pointer, pointer, refusal);
        }
        lent.table.resize(384, 0);
    }
}

fn smallest_image<S: Store + Copy>(store: S) {
    let mut lent = Lent::fresh(store, 64);
    lent.allocate(16);
    assert_eq!(model::sound(&lent.image, 16), Some(Header::live(32, 0, 16, 0)));
    assert_eq!(model::sound(&lent.image, 48), Some(Header::free(16)));

    let mut lent = Lent::fresh(store, 64);
    lent.allocate(17);
    assert_eq!(model::sound(&lent.image, 16), Some(Header::live(48, 0, 17, 0)));

    let mut lent = Lent::fresh(store, 64);
    assert_eq!(lent.allocate(32), 0x0007000000000020);
    assert_eq!(model::frame_number(16, 64), 7);

    let mut lent = Lent::fresh(store, 64);
    assert_eq!(lent.call(Call::Allocate { size: 33, type_number: 0 }), Answer::new(8, []));
}

/// What allocate and free move between live, free and overhead bytes; and an unsound header.
fn tallies<S: Store + Copy>(store: S) {
    for (size, live, free, overhead) in [(16, 16, 16, 16), (17, 17, 0, 31), (32, 32, 0, 16)] {
        let mut lent = Lent::fresh(store, 64);
        assert_eq!(lent.call(Call::Tally), Answer::new(0, [0, 0, 48, 0]));
        let pointer = lent.allocate(size);
        assert_eq!(lent.call(Call::Tally), Answer::new(0, [1, live, free, overhead]));
        assert_eq!(lent.refusal(Call::Free { pointer }), 0);
        assert_eq!(lent.call(Call::Tally), Answer::new(0, [0, 0, 48, 0]));
    }

    // two gaps: the freed block's 36 bytes, and 881 at the end
    let mut lent = Lent::fresh(store, 1024);
    let [_, freed, ..] = [10, 20, 32, 1].map(|size| lent.allocate(size));
    assert_eq!(lent.refusal(Call::Free { pointer: freed }), 0);
    assert_eq!(lent.call(Call::Tally), Answer::new(0, [3, 43, 36 + 881, 3 * 16]));

    // the last block ends one byte early, where no header fits; or its header is unsound: no kind, another kind, a size
    for (at, byte) in [(143, 0x70), (147, 0), (147, 3), (151, 1)] {
        let before = std::mem::replace(&mut lent.image[at], byte);
        assert_eq!(lent.call(Call::Tally), Answer::new(7, []), "byte {at} set to {byte}");
        lent.image[at] = before;
    }
    assert!(lent.call(Call::Tally).accepted());
}

/// Headers of a kind with other fields of all sorts, each with each.
fn headers_of(kind: u16) -> Vec<Header> {
    let mut headers = vec![];
    for extent in [0, 15, 16, 32, 48, 49, u32::MAX] {
        for type_number in [0, 1, 2, u16::MAX] {
            for size in [0, 1, 16, 17, 32, 33, u32::MAX] {
                headers.extend([0, 1, 2, u32::MAX].map(|last| Header { extent, kind, type_number, size, last }));
            }
        }
    }
    headers
}

/// Only 1 and 2 are kinds: no other fields make a header of another kind sound.
fn kinds<S: Store>(store: S) {
    let mut lent = Lent::fresh(store, 64);
    let pointer = lent.allocate(16);
    // behind the header at 16, which is tested, a walk goes on at 32 or at 48
    lent.image[32..48].copy_from_slice(&Header::free(32).bytes());
    assert_eq!(lent.image[48..], Header::free(16).bytes());
    for kind in [0, 1, 2, 3, 0x100, 0x101, 0x102, 0x200, 0x201, 0x202, 0x8001, 0x8002, 0xffff] {
        for header in headers_of(kind) {
            lent.image[16..32].copy_from_slice(&header.bytes());
            let before = lent.image.clone();
            let sound = match kind {
                1 => header.type_number == 0 && header.last == 0 && [(16, 0), (32, 0), (48, 0)].contains(&(header.extent, header.size)),
                2 => [(16, 0), (32, 1), (32, 16), (48, 17), (48, 32)].contains(&(header.extent, header.size)),
                _ => false,
            };
            // an object of 32 bytes there is large-framed, and has another pointer
            let loaded = match header.size {
                0 if sound && kind == 2 => 13,
                1..32 if sound && kind == 2 => 0,
                _ => 11,
            };
            // no object carries this cue
            let calls = [Call::Tally, Call::Release { cue: 3 }, Call::Allocate { size: 64, type_number: 0 }, Call::Load { pointer, width: 1 }];
            let refusals = calls.map(|call| lent.refusal(call));
            let walked = if sound { 0 } else { 7 };
            assert_eq!(refusals, [walked, walked, if sound { 8 } else { 7 }, loaded], "{header:?}");
            if !sound {
                assert_eq!(lent.refusal(Call::Free { pointer }), 11, "{header:?}");
            }
            assert_eq!(lent.image, before);
        }
    }
}

/// 2^30 bytes, where N reaches 31.
fn largest_image<S: Store>(store: S) {
    let mut lent = Lent { store, image: vec![0; 1 << 30], table: vec![9; 48 << 14] };
    assert_eq!(lent.refusal(Call::SetUp { slot_exponent: 15 }), 0);
    let pointer = lent.allocate((1 << 30) - 32);
    assert_eq!(pointer, 0x001F000000000020);
    assert_eq!(lent.table[31 - 15 - 1], 16);
    let last = lent.moved(pointer, (1 << 30) - 40).unwrap();
    assert_eq!(lent.refusal(Call::Store { pointer: last, width: 8, value: u64::MAX }), 0);
    assert_eq!(lent.call(Call::Load { pointer: last, width: 8 }).values[0], u64::MAX);
    // e may be pointed to, but not read
    let end = lent.moved(pointer, (1 << 30) - 32).unwrap();
    assert_eq!(lent.refusal(Call::Load { pointer: end, width: 1 }), 13);
    // the frame of 2^31 bytes, half of it behind the image
    let size = (1 << 30) - 32;
    for at in [-32, -16, -1, 0, 1, size - 1, size, size + 1, (1 << 31) - 33] {
        let moved = lent.moved(pointer, at).unwrap();
        assert_eq!(lent.call(Call::Distances { pointer: moved }), Answer::new(0, [at as u64, (size - at) as u64]), "{at}");
    }
    assert_eq!(lent.moved(pointer, (1 << 31) - 32), Err(12));
    assert_eq!(lent.call(Call::Distances { pointer: pointer + (1 << 31) - 32 }), Answer::new(11, []));
    // the longest text
    let length = (1 << 30) - 32;
    assert_eq!(lent.refusal(Call::Fill { pointer, length: length - 1, value: b'_' }), 0);
    assert_eq!(lent.refusal(Call::Store { pointer: end - 1, width: 1, value: 0 }), 0);
    assert_eq!(lent.call(Call::CopyText { target: pointer, source: pointer }), Answer::new(0, [u64::from(length)]));
    assert_eq!(lent.call(Call::Compare { left: pointer, right: pointer + 1, length: length - 1 }), ABOVE);
    assert_eq!(lent.call(Call::Tally).values, [1, (1 << 30) - 32, 0, 16]);
    assert_eq!(lent.call(Call::FreeTotal), Answer::new(0, [0]));
    assert_eq!(lent.refusal(Call::Free { pointer }), 0);
    assert_eq!(lent.table[31 - 15 - 1], 0);
    assert_eq!(lent.call(Call::Tally).values, [0, 0, (1 << 30) - 16, 0]);
    assert_eq!(lent.call(Call::FreeTotal), Answer::new(0, [(1 << 30) - 16]));
    assert_eq!(lent.refusal(Call::Load { pointer, width: 1 }), 11);
    // the same by release
    assert_eq!(lent.call(Call::AllocateFor { size: length, type_number: 0, cue: u32::MAX }).values[0], pointer);
    assert_eq!(lent.table[31 - 15 - 1], 16);
    assert_eq!(lent.call(Call::FreeTotal), Answer::new(0, [0]));
    assert_eq!(lent.call(Call::Release { cue: u32::MAX }), Answer::new(0, [1]));
    assert_eq!(lent.table[31 - 15 - 1], 0);
    assert_eq!(lent.call(Call::Tally).values, [0, 0, (1 << 30) - 16, 0]);
    assert_eq!(lent.call(Call::FreeTotal), Answer::new(0, [(1 << 30) - 16]));
    // an object of no bytes with its base at 2^30
    assert_eq!(lent.allocate((1 << 30) - 48), 0x001E000000000020);
    let empty = lent.allocate(0);
    assert_eq!(empty, 0x001F000040000000);
    assert_eq!(lent.table[31 - 15 - 1], (1 << 30) - 16);
    assert_eq!(lent.call(Call::Distances { pointer: empty }), Answer::new(0, [0, 0]));
    assert_eq!(lent.refusal(Call::Load { pointer: empty, width: 1 }), 13);
    assert_eq!(lent.refusal(Call::Free { pointer: empty }), 0);
    assert_eq!(lent.table[31 - 15 - 1], 0);
    assert_eq!(lent.call(Call::FreeTotal), Answer::new(0, [16]));
}

/// Above 2^30 nothing but the superblock may be looked at; the pages of this buffer are never touched otherwise.
fn past_the_largest_image<S: Store>(store: S) {
    let length = (1usize << 30) + 1;
    let mut image = vec![0u8; length];
    let mut table = vec![0u64; 8];
    assert_eq!(store.call(&mut image, &mut table, Call::SetUp { slot_exponent: 6 }).refusal, 2);
    image[..16].copy_from_slice(&Header { extent: 16, kind: 3, type_number: 6, size: length as u32, last: 0 }.bytes());
    assert_eq!(store.call(&mut image, &mut table, Call::Tally).refusal, 4);
    image[8..12].copy_from_slice(&(1u32 << 30).to_le_bytes());
    assert_eq!(store.call(&mut image, &mut table, Call::Tally).refusal, 4);
    image.truncate(1 << 30);
    assert_eq!(store.call(&mut image, &mut table, Call::Tally).refusal, 5);
    assert_eq!(store.call(&mut image, &mut table, Call::SetUp { slot_exponent: 6 }).refusal, 3);
}

/// Lengths that are good ones when cut to 32 bits; but for the first pages the buffer is never touched.
fn past_32_bits<S: Store>(store: S) {
    let mut image = vec![0u8; (1 << 32) + 1024];
    let mut table = vec![0u64; 384];
    assert_eq!(store.call(&mut image, &mut table, Call::SetUp { slot_exponent: 6 }).refusal, 2);
    assert_eq!(image[..32], [0; 32]);
    assert_eq!(store.call(&mut image[..1024], &mut table, Call::SetUp { slot_exponent: 6 }).refusal, 0);
    assert_eq!(store.call(&mut image[..1024], &mut table, Call::Tally).refusal, 0);
    assert_eq!(store.call(&mut image, &mut table, Call::Tally).refusal, 4);
    assert_eq!(store.call(&mut image, &mut table, Call::Allocate { size: 1, type_number: 0 }).refusal, 4);
}

macro_rules! on_each_store {
    ($($name:ident)*) => {$(
        mod $name {
            use super::*;
            #[test]
            fn model() {
                super::$name(Model);
            }
            #[test]
            fn library() {
                super::$name(Library);
            }
            #[test]
            fn exports() {
                super::$name(Exports);
            }
        }
    )*};
}

on_each_store!(set_up in_succession largest_small moves bounds widths compares texts two_pointers smallest_image);
on_each_store!(tallies kinds largest_image past_the_largest_image past_32_bits);

mod cues;
mod distances;
mod empties;
mod totals;

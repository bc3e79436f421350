//! Copies, texts and compares longer than the parts of 16 KiB in which the library copies, overlapping and apart.

use cueledger_tests::library::Exports;
use cueledger_tests::random::Random;
use cueledger_tests::store::{Answer, Call, Store};

const PART: usize = 1 << 14;
const SIZE: usize = 8 * PART;
const LENGTHS: [usize; 5] = [PART - 1, PART, PART + 1, 2 * PART, 3 * PART + 7];
/// Where the object of `SIZE` bytes starts.
const START: usize = 32;

struct Lent {
    image: Vec<u8>,
    table: Vec<u64>,
    /// The object's pointer. Inside the object, adding is what move does.
    start: u64,
}

impl Lent {
    /// An object without zero bytes.
    fn new() -> Lent {
        let mut random = Random::new(1);
        let mut lent = Lent { image: vec![0; 9 * PART], table: vec![0; 48 * 3], start: 0 };
        assert!(lent.call(Call::SetUp { slot_exponent: 15 }).accepted());
        lent.start = lent.call(Call::Allocate { size: SIZE as u32, type_number: 0 }).values[0];
        lent.image[START..START + SIZE].fill_with(|| random.within(1, 255) as u8);
        lent
    }

    fn call(&mut self, call: Call<u64>) -> Answer {
        Exports.call(&mut self.image, &mut self.table, call)
    }

    fn pointer(&self, place: usize) -> u64 {
        self.start + place as u64
    }
}

/// Lengths, and places of target and source.
fn shifts() -> impl Iterator<Item = (usize, usize, usize)> {
    let distances = |length| [0, 1, 8, 15, PART - 1, PART, PART + 1, length - 1, length];
    LENGTHS.into_iter().flat_map(move |length| distances(length).into_iter().flat_map(move |distance| [(length, distance, 0), (length, 0, distance)]))
}

#[test]
fn in_several_parts() {
    let mut lent = Lent::new();
    for (length, to, from) in shifts() {
        let mut expected = lent.image.clone();
        expected.copy_within(START + from..START + from + length, START + to);
        let (target, source) = (lent.pointer(to), lent.pointer(from));
        assert_eq!(lent.call(Call::Copy { target, source, length: length as u32 }), Answer::new(0, []));
        assert!(lent.image == expected, "{length} bytes from {from} to {to}");
    }
}

#[test]
fn texts_in_several_parts() {
    let fresh = Lent::new();
    for (length, to, from) in shifts() {
        let mut lent = Lent { image: fresh.image.clone(), table: fresh.table.clone(), start: fresh.start };
        let (target, source) = (lent.pointer(to), lent.pointer(from));
        assert_eq!(lent.call(Call::CopyText { target, source }), Answer::new(20, []));
        assert!(lent.image == fresh.image, "without a zero byte");
        lent.image[START + from + length - 1] = 0;
        let mut expected = lent.image.clone();
        expected.copy_within(START + from..START + from + length, START + to);
        assert_eq!(lent.call(Call::CopyText { target, source }), Answer::new(0, [length as u64]));
        assert!(lent.image == expected, "a text of {length} bytes from {from} to {to}");
    }
}

#[test]
fn compares_in_several_parts() {
    let mut lent = Lent::new();
    lent.image.copy_within(START..START + SIZE / 2, START + SIZE / 2);
    let (left, right, all) = (lent.pointer(0), lent.pointer(SIZE / 2), SIZE / 2);
    let order = |lent: &mut Lent, length: usize| lent.call(Call::Compare { left, right, length: length as u32 });
    assert_eq!(order(&mut lent, all), Answer::new(0, [0]));
    for place in [0, 1, 7, 8, PART - 1, PART, PART + 1, 2 * PART, all - 2, all - 1] {
        for (byte, expected) in [(0, 1), (0xff, u64::MAX)] {
            let before = std::mem::replace(&mut lent.image[START + place], 0x80);
            lent.image[START + SIZE / 2 + place] = byte;
            assert_eq!(order(&mut lent, place + 1), Answer::new(0, [expected]), "differs at {place}");
            assert_eq!(order(&mut lent, all), Answer::new(0, [expected]), "differs at {place}");
            if place > 0 {
                assert_eq!(order(&mut lent, place), Answer::new(0, [0]), "differs at {place}");
            }
            lent.image[START + place] = before;
            lent.image[START + SIZE / 2 + place] = before;
        }
    }
}

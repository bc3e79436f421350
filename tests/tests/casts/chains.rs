//! Long chains of types. The check of a list takes time quadratic in its types: one of 65,536, a chain of all type numbers, would take
//! many seconds, and is left out.

use cueledger_tests::casts::lists::bytes;
use cueledger_tests::casts::model::{Descriptor, Field};
use cueledger_tests::casts::Casts;
use cueledger_tests::library::Exports;
use cueledger_tests::model::{allocate, offset, set_up, used_entries};
use cueledger_tests::print;
use cueledger_tests::store::Answer;
use std::time::{Duration, Instant};

/// For each further type that the call enters, in bytes, where it calls itself.
const LEVEL: usize = 32;

/// For the rest of the call, and for what Rust does at a thread's start.
const REST: usize = 64 << 10;

/// An object of a list's last type, and the list.
struct Store {
    image: Vec<u8>,
    table: Vec<u64>,
    list: Vec<u8>,
    pointer: u64,
}

impl Store {
    fn new(types: &[Descriptor]) -> Store {
        let last = types.last().unwrap();
        let (mut image, mut table) = (vec![0; last.size as usize + 64], vec![0; used_entries(15, last.size + 64) as usize]);
        set_up(&mut image, &mut table, 15).unwrap();
        let pointer = allocate(&mut image, &mut table, last.size as u32, last.type_number).unwrap();
        Store { image, table, list: bytes(types), pointer }
    }

    /// The answer at a distance from the object's base, and the time that it took.
    fn asked(&mut self, distance: u64, wanted: u16) -> (Answer, Duration) {
        let pointer = offset(&self.image, &self.table, self.pointer, distance as i64).unwrap();
        let begun = Instant::now();
        let answer = Exports.has_type(&mut self.image, &mut self.table, &mut self.list, pointer, wanted);
        (answer, begun.elapsed())
    }
}

/// Types 0, plain and of one byte, to `count` - 1, each a field of the next one at this offset.
fn chain(count: u16, offset: u64) -> Vec<Descriptor> {
    let field = |number: u16| vec![Field { offset, type_number: number - 1 }];
    let record = |number: u16| Descriptor::record(number, 1 + offset * u64::from(number), field(number));
    [Descriptor::plain(0, 1)].into_iter().chain((1..count).map(record)).collect()
}

/// The call enters all 20,000 types, on a stack of so many bytes.
fn enters_20_000_types(stack: usize) {
    for apart in [0, 1] {
        let mut store = Store::new(&chain(COUNT, apart));
        let innermost = apart * u64::from(COUNT - 1);
        let asks = move || [(innermost, 0, 1), (innermost, COUNT, 0)].map(|(distance, wanted, yes)| (store.asked(distance, wanted), Answer::new(0, [yes])));
        let thread = std::thread::Builder::new().stack_size(stack).spawn(asks).unwrap();
        for ((answer, time), expected) in thread.join().unwrap() {
            print(&format!("{COUNT} types, each a field of the next at {apart}: {answer}, {} ms", time.as_millis()));
            assert_eq!(answer, expected);
        }
    }
}

const COUNT: u16 = 20_000;

/// On 32 bytes for each type but the first.
#[test]
fn stack_of_20_000_types() {
    enters_20_000_types(LEVEL * usize::from(COUNT) + REST);
}

/// On a stack of what the header says: it needs no more for each.
#[test]
fn stack_of_any_list() {
    enters_20_000_types(REST);
}

const LIMIT: Duration = Duration::from_millis(10);

/// The best of several.
fn is_in_time(what: &str, store: &mut Store, distance: u64, wanted: u16, yes: u64) {
    let tried: Vec<_> = (0..7).map(|_| store.asked(distance, wanted)).collect();
    let best = tried.iter().map(|&(_, time)| time).min().unwrap();
    print(&format!("{what}: {} us", best.as_micros()));
    assert!(tried.iter().all(|&(answer, _)| answer == Answer::new(0, [yes])) && best < LIMIT, "{what}: {tried:?}");
}

#[test]
fn time_of_1_000_types() {
    let mut store = Store::new(&chain(1_000, 1));
    is_in_time("1,000 types, the innermost", &mut store, 999, 0, 1);
    is_in_time("1,000 types, none", &mut store, 999, 1_000, 0);
}

/// Each type twice in the next one: a search through all fields would visit 2^22 places.
#[test]
fn time_of_pairs() {
    const LEVELS: u16 = 22;
    let pair = |number: u16| [0, 1 << (number - 1)].map(|offset| Field { offset, type_number: number - 1 }).to_vec();
    let records = (1..=LEVELS).map(|number| Descriptor::record(number, 1 << number, pair(number)));
    let mut store = Store::new(&[Descriptor::plain(0, 1)].into_iter().chain(records).collect::<Vec<_>>());
    let last = (1 << LEVELS) - 1;
    for (distance, wanted, yes) in [(last, 0, 1), (last, 1, 0), (last, LEVELS + 1, 0), (last - 1, 1, 1), (last / 3, 0, 1), (1 << (LEVELS - 1), LEVELS - 1, 1)] {
        is_in_time("22 levels of pairs", &mut store, distance, wanted, yes);
    }
}

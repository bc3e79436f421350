//! The type check before a cast: the library against the model, faults that the comparison finds, every small change of a list, and
//! long chains of types.

mod chains;
mod faults;

use cueledger_tests::casts::case::{compare, Case, Question};
use cueledger_tests::casts::generate::case;
use cueledger_tests::casts::lists::{bytes, Kind};
use cueledger_tests::casts::model::{Descriptor, Field};
use cueledger_tests::casts::seen::Seen;
use cueledger_tests::casts::Casts;
use cueledger_tests::library::{Exports, Library};
use cueledger_tests::model::{allocate, set_up, used_entries, Pointer, HEADER, SUPERBLOCK};
use cueledger_tests::print;
use cueledger_tests::random::fresh_seed;
use cueledger_tests::store::{Answer, Model};

const SEED: u64 = 1;
const CASES: u64 = 40_000;

fn agrees(name: &str, library: &dyn Casts, cases: u64, seed: u64) -> Seen {
    print(&format!("casts, {name}: seed {seed}"));
    compare(&Model, library, cases, seed).unwrap_or_else(|failure| panic!("{failure}"))
}

#[test]
fn exports() {
    let seen = agrees("exports", &Exports, CASES, SEED);
    print(&seen.to_string());
    assert!(seen.missing().is_empty(), "{:?}", seen.missing());
}

#[test]
fn exports_with_a_fresh_seed() {
    let seen = agrees("exports, fresh", &Exports, CASES, fresh_seed());
    assert!(seen.missing().is_empty(), "{:?}", seen.missing());
}

#[test]
fn wrapper() {
    agrees("wrapper", &Library, CASES / 5, SEED + CASES);
    agrees("wrapper, fresh", &Library, CASES / 5, fresh_seed());
}

#[test]
fn the_same_seed_gives_the_same_case() {
    assert!(case(3) == case(3) && case(3) != case(4));
}

/// Without the lists of some kinds what only they show is missing, and nothing else.
#[test]
fn what_never_occurs_is_told() {
    let mut seen = Seen::default();
    for case in (0..CASES / 2).map(case).filter(|case| !case.kind.name().starts_with("kind") && !case.list().is_empty()) {
        seen.look(&case, &case.answers(&Model).unwrap_or_else(|failure| panic!("{failure}")));
    }
    let missing = seen.missing();
    let only = |what: &String| what.starts_with("24, kind") || what.ends_with("nothing is listed") || what == "empty list";
    assert_eq!(missing.iter().filter(|what| only(what)).count(), 6 + 3 + 1, "{missing:?}");
    assert!(missing.iter().all(only), "{missing:?}");
}

fn record(type_number: u16, size: u64, fields: &[(u64, u16)]) -> Descriptor {
    Descriptor::record(type_number, size, fields.iter().map(|&(offset, type_number)| Field { offset, type_number }).collect())
}

/// Type 1 of 4 bytes; 2 of 12 with 1 at 0 and 8; 3 of 30 with 2 at 2 and 14 and 1 at 26; 4 of 1 byte, without fields.
fn types() -> Vec<Descriptor> {
    vec![Descriptor::plain(1, 4), record(2, 12, &[(0, 1), (8, 1)]), record(3, 30, &[(2, 2), (14, 2), (26, 1)]), record(4, 1, &[])]
}

/// A store with these objects, sizes and types, and their pointers; the list of `types`; no questions.
fn store(objects: &[(u32, u16)]) -> (Case, Vec<u64>) {
    let length = (SUPERBLOCK + objects.iter().map(|&(size, _)| HEADER + u64::from(size)).sum::<u64>()).max(64);
    let (mut image, mut table) = (vec![0; length as usize], vec![0; used_entries(7, length) as usize]);
    set_up(&mut image, &mut table, 7).unwrap();
    let pointers = objects.iter().map(|&(size, type_number)| allocate(&mut image, &mut table, size, type_number).unwrap()).collect();
    let descriptors = bytes(&types());
    let lent = [image.len(), table.len(), descriptors.len()];
    (Case { image, table, descriptors, lent, kind: Kind::Good, questions: Vec::new() }, pointers)
}

/// A pointer moved inside its slot or frame.
fn moved(pointer: u64, distance: i64) -> u64 {
    let p = Pointer::unpack(pointer);
    Pointer { address: p.address.wrapping_add_signed(distance), ..p }.pack()
}

/// The offsets of each type in an object, worked out by hand.
#[test]
fn offsets_of_each_type() {
    let (mut case, pointers) = store(&[(30, 3), (12, 2), (5, 1), (1, 4)]);
    let expected: [[&[i64]; 5]; 4] =
        [[&[], &[2, 10, 14, 22, 26], &[2, 14], &[0], &[]], [&[], &[0, 8], &[0], &[], &[]], [&[], &[0], &[], &[], &[]], [&[], &[], &[], &[], &[0]]];
    for (pointer, expected) in pointers.into_iter().zip(expected) {
        for (wanted, distance) in (0..5).flat_map(|wanted| (-16..40).map(move |distance| (wanted, distance))) {
            let question = Question { pointer: moved(pointer, distance), wanted };
            // moved out of its slot it may lead elsewhere, or nowhere
            if Pointer::unpack(question.pointer).address >> 7 != Pointer::unpack(pointer).address >> 7 {
                continue;
            }
            let answer = Answer::new(0, [expected[usize::from(wanted)].contains(&distance).into()]);
            for casts in [&Model as &dyn Casts, &Exports, &Library] {
                assert_eq!(case.ask(casts, question), answer, "{question:x?} at {distance}");
            }
        }
    }
}

/// Through both ways to the library; how many lists were good, and how many bad.
fn asked(case: &Case, counts: &mut [u64; 2]) {
    let answers = case.answers(&Model).unwrap_or_else(|failure| panic!("{failure}"));
    counts[usize::from(answers[0].refusal == 24)] += 1;
    for library in [&Exports as &dyn Casts, &Library] {
        case.check(&answers, library).unwrap_or_else(|failure| panic!("{failure}"));
    }
}

/// A list cut at every length, every byte of it changed to every other, taken out, or there twice.
#[test]
fn every_small_change_of_a_list() {
    let (mut whole, pointers) = store(&[(30, 3), (12, 2), (4, 1), (1, 4), (30, 0x0103), (3, 1)]);
    let places = [(0, 0), (0, 2), (0, 10), (0, 14), (0, 22), (0, 26), (0, 6), (0, -1), (1, 0), (1, 8), (1, 12), (2, 0), (3, 0), (4, 0), (5, 0)];
    let questions = places.iter().flat_map(|&(object, distance)| (1..4).map(move |wanted| (object, distance, wanted)));
    whole.questions = questions.map(|(object, distance, wanted): (usize, _, _)| Question { pointer: moved(pointers[object], distance), wanted }).collect();
    let list = whole.list().to_vec();
    let (mut cut, mut changed, mut shifted) = ([0; 2], [0; 2], [0; 2]);
    for length in 0..=list.len() {
        // what was cut off is behind it
        asked(&Case { lent: [whole.lent[0], whole.lent[1], length], ..whole.clone() }, &mut cut);
    }
    for at in 0..list.len() {
        let mut case = whole.clone();
        for value in 0..=255 {
            case.descriptors[at] = value;
            asked(&case, &mut changed);
        }
        for bytes in [[&list[..at], &list[at + 1..]].concat(), [&list[..=at], &list[at..]].concat()] {
            let lent = [whole.lent[0], whole.lent[1], bytes.len()];
            asked(&Case { descriptors: bytes, lent, ..whole.clone() }, &mut shifted);
        }
    }
    print(&format!("lists good and bad: cut {cut:?}, one byte changed {changed:?}, one byte less or more {shifted:?}"));
    // good are the empty one and those that end with a descriptor; and the list itself once for every byte
    assert_eq!(cut, [5, list.len() as u64 - 4]);
    assert!(changed[0] > 2 * list.len() as u64 && changed[1] > 10_000 && shifted[1] > 100, "{changed:?} {shifted:?}");
}

//! The driver itself: it passes the model, and finds and shortens each of these faults.

mod commuting;
mod compares;
mod cues;
mod distances;
mod empties;
mod texts;
mod totals;

use cueledger_tests::case::Mismatch;
use cueledger_tests::driver::{compare, Failure};
use cueledger_tests::model::{self, Header, Pointer};
use cueledger_tests::store::{Answer, Call, Model, Store, ROWS};
use std::mem::discriminant;

/// The most steps of a shortened list, where their number depends on the random calls; before, it has up to 400.
const SHORT: usize = 7;

type Behaviour = fn(&mut [u8], &mut [u64], Call<u64>) -> Answer;

/// The model with one fault.
struct Faulty(Behaviour);

impl Store for Faulty {
    fn call(&self, image: &mut [u8], table: &mut [u64], call: Call<u64>) -> Answer {
        (self.0)(image, table, call)
    }
}

fn right(image: &mut [u8], table: &mut [u64], call: Call<u64>) -> Answer {
    Model.call(image, table, call)
}

/// The place of the header that a pointer's tag leads to; the pointer was accepted, or refused later than by 11.
fn header_place(image: &[u8], table: &[u64], pointer: u64) -> u64 {
    let s = u32::from(image[6]);
    let p = Pointer::unpack(pointer);
    if p.small {
        (p.address >> s << s) + p.tag
    } else {
        table[model::entry(s, p.tag as u32, p.address) as usize]
    }
}

fn find(fault: Behaviour) -> Box<Failure> {
    let failure = compare(&Model, &Faulty(fault), 1_000_000, 1).expect_err("the fault was not found");
    let (at, mismatch) = failure.case.run(&Model, &Faulty(fault)).unwrap_err();
    assert_eq!(at + 1, failure.case.steps.len(), "the last step is the one that fails");
    for i in 0..failure.case.steps.len() {
        let mut shorter = failure.case.clone();
        shorter.steps.remove(i);
        let same = shorter.run(&Model, &Faulty(fault)).is_err_and(|(_, other)| discriminant(&other) == discriminant(&mismatch));
        assert!(!same, "step {i} is not needed:\n{failure}");
    }
    println!("{failure}");
    failure
}

/// The same fault on both sides: only the driver's own checks can find it.
fn both(fault: Behaviour) -> Box<Failure> {
    compare(&Faulty(fault), &Faulty(fault), 1_000_000, 1).expect_err("the fault was not found")
}

#[test]
fn model_against_itself() {
    let counts = compare(&Model, &Model, 200_000, 7).unwrap_or_else(|failure| panic!("{failure}"));
    assert!(counts.missing().is_empty(), "{:?}", counts.missing());
    assert!(counts.by_call.iter().all(|answers| answers[0] > 0), "each call was accepted at times");
}

#[test]
fn the_same_seed_gives_the_same_calls() {
    let rows = |seed| compare(&Model, &Model, 5_000, seed).unwrap_or_else(|failure| panic!("{failure}")).by_call;
    assert_eq!(rows(3), rows(3));
    assert_ne!(rows(3), rows(4000));
}

#[test]
fn free_that_leaves_a_merged_header() {
    let failure = find(|image, table, call| {
        let before = image.to_vec();
        let answer = right(image, table, call);
        if let (Call::Free { pointer }, 0) = (call, answer.refusal) {
            let h = (Pointer::unpack(pointer).address - 16) as usize;
            // merged with the block before: no header stands at h now
            if image[h..h + 16] == [0; 16] {
                image[h..h + 16].copy_from_slice(&before[h..h + 16]);
            }
        }
        answer
    });
    // set-up, two objects, both freed; pointers that are numbers need the objects before
    assert!(failure.case.steps.len() <= SHORT, "{failure}");
    assert!(failure.text.contains("MISMATCH, image byte"), "{failure}");
}

#[test]
fn free_that_keeps_the_entry() {
    let failure = find(|image, table, call| {
        let before = table.to_vec();
        let answer = right(image, table, call);
        if let Call::Free { .. } = call {
            table.copy_from_slice(&before);
        }
        answer
    });
    assert!(failure.case.steps.len() <= SHORT, "{failure}");
}

#[test]
fn free_that_merges_twice() {
    // shows only where free blocks stand side by side, on damaged images
    find(|image, table, call| {
        let answer = right(image, table, call);
        if let (Call::Free { .. }, 0) = (call, answer.refusal) {
            let mut at = 16;
            while let Some(header) = model::sound(image, at) {
                let next = at + u64::from(header.extent);
                match model::sound(image, next).filter(|next| header.kind == 1 && next.kind == 1) {
                    Some(second) => {
                        let all = header.extent + second.extent;
                        image[next as usize..next as usize + 16].fill(0);
                        image[at as usize..at as usize + 4].copy_from_slice(&all.to_le_bytes());
                        break;
                    }
                    None => at = next,
                }
            }
        }
        answer
    });
}

#[test]
fn store_that_tests_overflow_only() {
    let failure = find(|image, table, call| {
        let answer = right(image, table, call);
        if let (Call::Store { pointer, width, value }, 13) = (call, answer.refusal) {
            let (at, base) = (Pointer::unpack(pointer).address, header_place(image, table, pointer) + 16);
            if at < base {
                image[at as usize..(at + width) as usize].copy_from_slice(&value.to_le_bytes()[..width as usize]);
                return Ok(0).into();
            }
        }
        answer
    });
    assert!(failure.case.steps.len() <= SHORT, "{failure}");
}

#[test]
fn store_that_writes_one_byte_less() {
    find(|image, table, call| {
        let before = image.to_vec();
        let answer = right(image, table, call);
        if let (Call::Store { pointer, width: 8, .. }, 0) = (call, answer.refusal) {
            let last = Pointer::unpack(pointer).address as usize + 7;
            image[last] = before[last];
        }
        answer
    });
}

#[test]
fn sample_that_takes_a_fourth_byte() {
    find(|image, table, call| {
        let answer = right(image, table, call);
        if let (Call::Store { pointer, width: 3, .. }, 0) = (call, answer.refusal) {
            if let Some(byte) = image.get_mut(Pointer::unpack(pointer).address as usize + 3) {
                *byte = 0;
            }
        }
        answer
    });
}

#[test]
fn load_of_seven_bytes_that_gives_eight() {
    find(|image, table, call| {
        let answer = right(image, table, call);
        if let (Call::Load { pointer, width: 7 }, 0) = (call, answer.refusal) {
            let next = image.get(Pointer::unpack(pointer).address as usize + 7).map_or(0, |&byte| u64::from(byte));
            return Ok(answer.values[0] | next << 56).into();
        }
        answer
    });
}

#[test]
fn only_powers_of_two_as_widths() {
    let failure = find(|image, table, call| match call {
        Call::Load { width: 3 | 5..8, .. } | Call::Store { width: 3 | 5..8, .. } => Err::<u64, u32>(14).into(),
        call => right(image, table, call),
    });
    assert!(failure.case.steps.len() <= 2, "{failure}");
}

#[test]
fn refusals_in_another_order() {
    let failure = find(|image, table, call| match (call, right(image, table, call)) {
        // no value but 0 fits 0 bytes
        (Call::Store { width: 0, value: 1.., .. }, Answer { refusal: 14, .. }) => Err::<u64, u32>(16).into(),
        (_, answer) => answer,
    });
    assert_eq!(failure.case.steps.len(), 2, "{failure}");
}

#[test]
fn width_cut_to_32_bits() {
    find(|image, table, call| match call {
        Call::Load { pointer, width } => right(image, table, Call::Load { pointer, width: width & 0xffff_ffff }),
        call => right(image, table, call),
    });
}

#[test]
fn set_up_that_clears_the_whole_table() {
    let failure = find(|image, table, call| {
        let answer = right(image, table, call);
        if let (Call::SetUp { .. }, 0) = (call, answer.refusal) {
            table.fill(0);
        }
        answer
    });
    assert_eq!(failure.case.steps.len(), 1, "{failure}");
}

#[test]
fn entry_near_the_end_of_64_bits() {
    // as if h + 16 <= L were tested in 64 bits
    find(|image, table, call| {
        let answer = right(image, table, call);
        if let (Call::Load { pointer, .. }, 11) = (call, answer.refusal) {
            let p = Pointer::unpack(pointer);
            if !p.small && p.address >> p.tag << p.tag < image.len() as u64 && header_place(image, table, pointer) >= u64::MAX - 15 {
                return Ok(0).into();
            }
        }
        answer
    });
}

#[test]
fn value_beside_a_refusal() {
    find(|image, table, call| match (call, right(image, table, call)) {
        (Call::Move { pointer, .. }, Answer { refusal: 12, .. }) => Answer::new(12, [pointer]),
        (_, answer) => answer,
    });
}

#[test]
fn copy_byte_by_byte_upwards() {
    find(|image, table, call| {
        let before = image.to_vec();
        let answer = right(image, table, call);
        if let (Call::Copy { target, source, length }, 0) = (call, answer.refusal) {
            image.copy_from_slice(&before);
            let (to, from) = (Pointer::unpack(target).address as usize, Pointer::unpack(source).address as usize);
            for i in 0..length as usize {
                image[to + i] = image[from + i];
            }
        }
        answer
    });
}

#[test]
fn open_that_trusts_the_superblock() {
    // shows only where the superblock was damaged
    find(|image, table, call| match (call, right(image, table, call)) {
        (Call::Move { pointer, .. }, Answer { refusal: 4, .. }) => Answer::new(0, [pointer]),
        (_, answer) => answer,
    });
}

#[test]
fn walk_that_trusts_headers() {
    // shows only where a header was damaged
    find(|image, table, call| match (call, right(image, table, call)) {
        (Call::Tally, Answer { refusal: 7, .. }) => Answer::new(0, [0, 0, image.len() as u64 - 16]),
        (_, answer) => answer,
    });
}

/// The image with each header on its walk mended: a walk over it is that of a header test that does not ask for what was mended.
fn mended(image: &[u8], mend: fn(&mut Header)) -> Vec<u8> {
    let mut image = image.to_vec();
    let mut at = 16;
    while at + 16 <= image.len() {
        let mut header = Header::read(&image, at as u64);
        mend(&mut header);
        image[at..at + 16].copy_from_slice(&header.bytes());
        let Some(header) = model::sound(&image, at as u64) else { break };
        at += header.extent as usize;
    }
    image
}

fn tally_of_mended(image: &[u8], table: &mut [u64], mend: fn(&mut Header)) -> Answer {
    right(&mut mended(image, mend), table, Call::Tally)
}

#[test]
fn header_test_without_that_of_free_blocks() {
    find(|image, table, call| match (call, right(image, table, call)) {
        (Call::Tally, Answer { refusal: 7, .. }) => tally_of_mended(image, table, |header| {
            if header.kind == 1 {
                (header.type_number, header.size) = (0, 0);
            }
        }),
        (_, answer) => answer,
    });
}

#[test]
fn header_test_without_that_of_live_blocks() {
    find(|image, table, call| match (call, right(image, table, call)) {
        (Call::Tally, Answer { refusal: 7, .. }) => tally_of_mended(image, table, |header| {
            if header.kind == 2 {
                header.size = header.extent.saturating_sub(16);
            }
        }),
        (_, answer) => answer,
    });
}

#[test]
fn header_test_that_takes_other_kinds_for_free() {
    find(|image, table, call| match (call, right(image, table, call)) {
        (Call::Tally, Answer { refusal: 7, .. }) => tally_of_mended(image, table, |header| {
            if header.kind != 2 {
                header.kind = 1;
            }
        }),
        (_, answer) => answer,
    });
}

/// As the tally was before document 02, W3.
#[test]
fn tally_that_counts_headers_and_tails_as_free() {
    let failure = find(|image, table, call| match (call, right(image, table, call)) {
        (Call::Tally, Answer { refusal: 0, values: [objects, live, ..] }) => Answer::new(0, [objects, live, image.len() as u64 - 16 - live, 0]),
        (_, answer) => answer,
    });
    // set-up, an object, tally
    assert_eq!(failure.case.steps.len(), 3, "{failure}");
}

#[test]
fn tally_that_leaves_out_tails() {
    // shows only where a live block has spare bytes
    let failure = find(|image, table, call| match (call, right(image, table, call)) {
        (Call::Tally, Answer { refusal: 0, values: [objects, live, free, _] }) => Answer::new(0, [objects, live, free, 16 * objects]),
        (_, answer) => answer,
    });
    assert!(failure.case.steps.len() <= SHORT, "{failure}");
}

#[test]
fn tally_with_free_and_overhead_swapped() {
    let failure = find(|image, table, call| match (call, right(image, table, call)) {
        (Call::Tally, Answer { refusal: 0, values: [objects, live, free, overhead] }) => Answer::new(0, [objects, live, overhead, free]),
        (_, answer) => answer,
    });
    // set-up, tally
    assert_eq!(failure.case.steps.len(), 2, "{failure}");
}

#[test]
fn counts_beside_a_refusal() {
    // shows only where a header was damaged
    find(|image, table, call| match (call, right(image, table, call)) {
        (Call::Tally, Answer { refusal: 7, .. }) => Answer::new(7, [0, 0, 0, 16]),
        (_, answer) => answer,
    });
}

#[test]
fn allocate_that_overwrites_an_entry() {
    // shows only where an entry was damaged
    find(|image, table, call| match (call, right(image, table, call)) {
        (Call::Allocate { .. } | Call::AllocateFor { .. }, Answer { refusal: 9, .. }) => {
            table.fill(0);
            right(image, table, call)
        }
        (_, answer) => answer,
    });
}

#[test]
fn number_that_is_no_row() {
    let beyond: Behaviour = |image, table, call| match right(image, table, call) {
        Answer { refusal: 16, .. } => Answer::new(ROWS as u32 + 1, []),
        answer => answer,
    };
    assert!(find(beyond).text.contains(&format!("the tested store answered {}, which is no row of store", ROWS + 1)));
    assert!(both(beyond).text.contains(&format!("the expected store answered {}, which is no row of store", ROWS + 1)));
}

#[test]
fn row_of_another_call() {
    let of_free: Behaviour = |image, table, call| match (call, right(image, table, call)) {
        (Call::Load { .. }, Answer { refusal: 11, .. }) => Answer::new(15, []),
        (_, answer) => answer,
    };
    assert!(both(of_free).text.contains("the expected store answered 15, which is no row of load"));
}

#[test]
fn row_that_never_occurs() {
    let never_9: Behaviour = |image, table, call| match right(image, table, call) {
        Answer { refusal: 9, .. } => Answer::new(8, []),
        answer => answer,
    };
    let counts = compare(&Faulty(never_9), &Faulty(never_9), 200_000, 1).unwrap_or_else(|failure| panic!("{failure}"));
    assert_eq!(counts.missing(), [("allocate", 9), ("allocate for", 9)]);
}

#[test]
fn expected_store_that_counts_a_byte_twice() {
    let failure = both(|image, table, call| match (call, right(image, table, call)) {
        (Call::Tally, Answer { refusal: 0, values: [objects, live, free, overhead] }) => Answer::new(0, [objects, live, free, overhead + objects]),
        (_, answer) => answer,
    });
    // set-up, an object, tally
    assert_eq!(failure.case.steps.len(), 3, "{failure}");
    assert!(failure.text.contains(&Mismatch::Unbalanced.to_string()), "{failure}");
}

#[test]
fn expected_store_that_refuses_a_tally() {
    let failure = both(|image, table, call| match (call, right(image, table, call)) {
        (Call::Tally, Answer { refusal: 0, values: [3, ..] }) => Answer::new(7, []),
        (_, answer) => answer,
    });
    // set-up, three objects, tally
    assert_eq!(failure.case.steps.len(), 5, "{failure}");
    assert!(failure.text.contains(&Mismatch::TallyRefusedInHistory.to_string()), "{failure}");
}

#[test]
fn expected_store_that_writes_on_refusal() {
    let failure = both(|image, table, call| {
        let answer = right(image, table, call);
        if answer.refusal == 16 {
            image[20] ^= 1;
        }
        answer
    });
    assert!(failure.text.contains(&Mismatch::ReadOrRefusalWrote.to_string()), "{failure}");
}

#[test]
fn expected_store_that_writes_on_load() {
    let failure = both(|image, table, call| {
        let answer = right(image, table, call);
        if let (Call::Load { .. }, 0) = (call, answer.refusal) {
            *table.last_mut().unwrap() ^= 1;
        }
        answer
    });
    assert!(failure.text.contains(&Mismatch::ReadOrRefusalWrote.to_string()), "{failure}");
}

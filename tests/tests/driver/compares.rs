//! Faults of compare.

use super::{both, find, right};
use cueledger_tests::case::Mismatch;
use cueledger_tests::model::Pointer;
use cueledger_tests::store::{Answer, Call};

/// The model with another order of the bytes that an accepted compare has.
fn ordered(image: &mut [u8], table: &mut [u64], call: Call<u64>, order: fn(&[u8], &[u8]) -> i64) -> Answer {
    match (call, right(image, table, call)) {
        (Call::Compare { left, right, length }, Answer { refusal: 0, .. }) => {
            let bytes = |pointer| &image[Pointer::unpack(pointer).address as usize..][..length as usize];
            Answer::new(0, [order(bytes(left), bytes(right)) as u64])
        }
        (_, answer) => answer,
    }
}

/// The first bytes that differ.
fn difference(left: &[u8], right: &[u8]) -> Option<(u8, u8)> {
    left.iter().copied().zip(right.iter().copied()).find(|(a, b)| a != b)
}

#[test]
fn of_signed_bytes() {
    find(|image, table, call| {
        ordered(image, table, call, |left, right| {
            let signed = |bytes: &[u8]| bytes.iter().map(|&byte| byte as i8).collect::<Vec<_>>();
            signed(left).cmp(&signed(right)) as i64
        })
    });
}

#[test]
fn without_the_last_byte() {
    find(|image, table, call| ordered(image, table, call, |left, right| left[..left.len() - 1].cmp(&right[..right.len() - 1]) as i64));
}

#[test]
fn without_a_byte_behind_sixteen() {
    find(|image, table, call| ordered(image, table, call, |left, right| left[..left.len().min(16)].cmp(&right[..right.len().min(16)]) as i64));
}

#[test]
fn by_the_last_byte_that_differs() {
    find(|image, table, call| ordered(image, table, call, |left, right| left.iter().rev().cmp(right.iter().rev()) as i64));
}

#[test]
fn by_little_endian_words() {
    find(|image, table, call| {
        ordered(image, table, call, |left, right| {
            let word = |bytes: &[u8]| bytes.iter().rev().fold(0u64, |word, &byte| word << 8 | u64::from(byte));
            left.chunks(8).map(word).cmp(right.chunks(8).map(word)) as i64
        })
    });
}

#[test]
fn up_to_a_zero_byte() {
    find(|image, table, call| {
        ordered(image, table, call, |left, right| {
            let text = |bytes: &[u8]| bytes.split(|&byte| byte == 0).next().unwrap().to_vec();
            text(left).cmp(&text(right)) as i64
        })
    });
}

#[test]
fn with_operands_swapped() {
    find(|image, table, call| ordered(image, table, call, |left, right| right.cmp(left) as i64));
}

#[test]
fn that_gives_the_difference() {
    find(|image, table, call| ordered(image, table, call, |left, right| difference(left, right).map_or(0, |(a, b)| i64::from(a) - i64::from(b))));
}

#[test]
fn by_a_difference_of_eight_bits() {
    find(|image, table, call| {
        ordered(image, table, call, |left, right| difference(left, right).map_or(0, |(a, b)| i64::from(a.wrapping_sub(b) as i8).signum()))
    });
}

#[test]
fn order_of_32_bits() {
    find(|image, table, call| ordered(image, table, call, |left, right| left.cmp(right) as i64 & 0xffff_ffff));
}

#[test]
fn order_beside_a_refusal() {
    find(|image, table, call| match (call, right(image, table, call)) {
        (Call::Compare { .. }, Answer { refusal: 13, .. }) => Answer::new(13, [1]),
        (_, answer) => answer,
    });
}

#[test]
fn of_no_bytes() {
    let failure = find(|image, table, call| match (call, right(image, table, call)) {
        (Call::Compare { .. }, Answer { refusal: 6, .. }) => Ok(0).into(),
        (_, answer) => answer,
    });
    // set-up, compare
    assert_eq!(failure.case.steps.len(), 2, "{failure}");
}

#[test]
fn with_pointers_tested_before_the_length() {
    find(|image, table, call| match (call, right(image, table, call)) {
        (Call::Compare { left, right: other, .. }, six @ Answer { refusal: 6, .. }) => {
            let answer = right(image, table, Call::Compare { left, right: other, length: 1 });
            if answer.accepted() {
                six
            } else {
                answer
            }
        }
        (_, answer) => answer,
    });
}

#[test]
fn with_the_right_operand_tested_first() {
    find(|image, table, call| match (call, right(image, table, call)) {
        (Call::Compare { left, right: other, length }, Answer { refusal: 10 | 11 | 13, .. }) => {
            right(image, table, Call::Compare { left: other, right: left, length })
        }
        (_, answer) => answer,
    });
}

#[test]
fn up_to_a_byte_behind_the_body() {
    find(|image, table, call| match (call, right(image, table, call)) {
        (Call::Compare { left, right: other, length }, Answer { refusal: 13, .. }) if length > 1 => {
            right(image, table, Call::Compare { left, right: other, length: length - 1 })
        }
        (_, answer) => answer,
    });
}

#[test]
fn expected_store_that_does_not_negate() {
    let failure = both(|image, table, call| ordered(image, table, call, |left, right| i64::from(left != right)));
    assert!(failure.text.contains(&Mismatch::NotNegated.to_string()), "{failure}");
}

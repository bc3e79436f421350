//! The repeatable load: a full log is no refusal, and both values are given.

use cueledger::{Refusal, Store, Tally, Traffic};

const LEN: usize = 1024;
const EXPONENT: u32 = 6;
const ENTRIES: usize = Store::table_entries(LEN, EXPONENT);
/// What a draw adds to the state.
const STEP: u64 = 0x9e37_79b9_7f4a_7c15;
/// From state 0: an allocate of 66 bytes, and a store of 0x5b in the first.
const RECORDS: [u8; 32] = [10, 0, 16, 0, 66, 0, 0, 0, 0, 0, 22, 0, 20, 0, 0x20, 0, 0, 0, 0, 0, 0x07, 0, 1, 0, 0x5b, 0, 0, 0, 0, 0, 0, 0];

/// Bytes and entries that no call has written.
fn lent() -> ([u8; LEN], [u64; ENTRIES + 1], [u8; 40]) {
    ([9; LEN], [9; ENTRIES + 1], [9; 40])
}

#[test]
fn full() {
    for (bytes, written, records) in [(0, 0, 0), (9, 0, 0), (10, 10, 1), (31, 10, 1)] {
        for draws in [2, 1_000, u64::MAX] {
            let (mut image, mut table, mut log) = lent();
            let traffic = Store::traffic(&mut image, &mut table, EXPONENT, 0, draws, &mut log[..bytes]);
            assert_eq!(traffic, Ok(Traffic { state: STEP * records, written, full: true }));
            assert_eq!((&log[..written], &log[written..]), (&RECORDS[..written], &[9; 40][written..]));
            // the set-up and the first call stand, the second was not made
            let tally = Store::open(&mut image, &mut table).unwrap().tally();
            assert_eq!(tally.map(|Tally { objects, live_bytes, .. }| (objects, live_bytes)), Ok((records, 66 * records)));
            assert_eq!((image[32], table[ENTRIES]), (0, 9));
        }
    }
}

#[test]
fn not_full() {
    for bytes in [32, 33, 40] {
        let (mut image, mut table, mut log) = lent();
        let traffic = Store::traffic(&mut image, &mut table, EXPONENT, 0, 2, &mut log[..bytes]);
        assert_eq!(traffic, Ok(Traffic { state: STEP.wrapping_mul(2), written: 32, full: false }));
        assert_eq!((&log[..32], &log[32..]), (&RECORDS[..], &[9; 8][..]));
        assert_eq!((image[32], table[ENTRIES]), (0x5b, 9));
    }
    let (mut image, mut table, _) = lent();
    assert_eq!(Store::traffic(&mut image, &mut table, EXPONENT, 5, 0, &mut []), Ok(Traffic { state: 5, written: 0, full: false }));
    assert_eq!(Store::open(&mut image, &mut table).unwrap().free_total(), Ok(LEN as u64 - 16));
}

#[test]
fn refused() {
    for (bytes, entries, exponent, refusal) in
        [(LEN, ENTRIES, 5, Refusal::BadExponent), (63, ENTRIES, 6, Refusal::BadLength), (LEN, ENTRIES - 1, 6, Refusal::TooFewEntries)]
    {
        for length in [0, 40] {
            let (mut image, mut table, mut log) = lent();
            let traffic = Store::traffic(&mut image[..bytes], &mut table[..entries], exponent, 5, 3, &mut log[..length]);
            assert_eq!(traffic, Err(refusal));
            assert_eq!((image, table, log), lent());
        }
    }
    assert_eq!(Refusal::from_number(23), None);
}

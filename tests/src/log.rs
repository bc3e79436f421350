//! Document 02's call log, and what the program `replay` prints of it, written from that text alone.

use crate::store::{Answer, Call, Model, Store};
use std::path::PathBuf;

/// The most bytes of a log that are read.
pub const LIMIT: usize = 65_536;

// the store that the calls are made on
pub const LENGTH: usize = 8192;
pub const ENTRIES: usize = 768;
pub const SLOT_EXPONENT: u32 = 8;

/// Document 02's example, and what it prints.
pub const SAMPLE: [u8; 24] = [0x0A, 0, 0x10, 0, 0x0A, 0, 0, 0, 7, 0, 0x0E, 0, 0x13, 0, 0x20, 0, 0, 0, 0, 0, 0x10, 0x80, 1, 0];
pub const SAMPLE_LINES: &str = "16 0 8010000000000020\n19 0 0000000000000000\n";

/// The bytes of length and kind.
pub const HEAD: usize = 4;

/// The kinds, and the bytes of each of their fields.
pub const KINDS: [(u16, &[usize]); 7] = [(16, &[4, 2]), (17, &[8]), (18, &[8, 8]), (19, &[8, 2]), (20, &[8, 2, 8]), (21, &[8, 4, 2]), (22, &[8, 8, 4])];

fn widths(kind: u16) -> Option<&'static [usize]> {
    KINDS.iter().find(|row| row.0 == kind).map(|row| row.1)
}

// ---- a call's record

/// A call's kind and its fields as numbers, where a log can hold it.
fn numbers(call: Call<u64>) -> Option<(u16, Vec<u64>)> {
    Some(match call {
        Call::Allocate { size, type_number } => (16, vec![size.into(), type_number.into()]),
        Call::Free { pointer } => (17, vec![pointer]),
        Call::Move { pointer, distance } => (18, vec![pointer, distance as u64]),
        Call::Load { pointer, width } => (19, vec![pointer, width]),
        Call::Store { pointer, width, value } => (20, vec![pointer, width, value]),
        Call::Fill { pointer, length, value } => (21, vec![pointer, length.into(), value.into()]),
        Call::Copy { target, source, length } => (22, vec![target, source, length.into()]),
        Call::SetUp { .. } | Call::AllocateFor { .. } | Call::Release { .. } => return None,
        Call::Compare { .. } | Call::CopyText { .. } | Call::Tally | Call::FreeTotal | Call::Distances { .. } => return None,
    })
}

/// A record of any length and kind, also where they do not suit the fields.
pub fn record_of(length: usize, kind: u16, fields: &[u8]) -> Vec<u8> {
    [&(length as u16).to_le_bytes(), &kind.to_le_bytes(), fields].concat()
}

/// The record of a call. Where a width takes more than two bytes there is none.
pub fn record(call: Call<u64>) -> Option<Vec<u8>> {
    let (kind, numbers) = numbers(call)?;
    let mut fields = Vec::new();
    for (number, &width) in numbers.iter().zip(widths(kind)?) {
        let bytes = number.to_le_bytes();
        if bytes[width..].iter().any(|&byte| byte != 0) {
            return None;
        }
        fields.extend_from_slice(&bytes[..width]);
    }
    Some(record_of(HEAD + fields.len(), kind, &fields))
}

/// The records of calls that all have one.
pub fn records(calls: &[Call<u64>]) -> Vec<u8> {
    calls.iter().flat_map(|&call| record(call).unwrap_or_else(|| panic!("{call} has no record"))).collect()
}

// ---- a record's call

/// What the rest of a log begins with.
#[derive(Debug, PartialEq, Eq)]
pub enum Front<'a> {
    End,
    /// A call, and what is left behind its record.
    Call(Call<u64>, &'a [u8]),
    /// By its number, 17 to 19.
    Malformed(u32),
}

pub fn front(log: &[u8]) -> Front<'_> {
    if log.is_empty() {
        return Front::End;
    }
    match split(log).and_then(|(kind, fields, rest)| Ok((call(kind, fields)?, rest))) {
        Ok((call, rest)) => Front::Call(call, rest),
        Err(number) => Front::Malformed(number),
    }
}

/// The first record's kind and the bytes of its fields, and the rest of the log; 17.
fn split(log: &[u8]) -> Result<(u16, &[u8], &[u8]), u32> {
    let &[l0, l1, k0, k1] = log.first_chunk().ok_or(17u32)?;
    let (record, rest) = log.split_at_checked(u16::from_le_bytes([l0, l1]).into()).ok_or(17u32)?;
    let fields = record.get(HEAD..).ok_or(17u32)?;
    Ok((u16::from_le_bytes([k0, k1]), fields, rest))
}

/// 18, 19.
fn call(kind: u16, fields: &[u8]) -> Result<Call<u64>, u32> {
    let numbers = take(fields, widths(kind).ok_or(18u32)?).ok_or(19u32)?;
    Ok(match (kind, &numbers[..]) {
        (16, &[size, type_number]) => Call::Allocate { size: size as u32, type_number: type_number as u16 },
        (17, &[pointer]) => Call::Free { pointer },
        (18, &[pointer, distance]) => Call::Move { pointer, distance: distance as i64 },
        (19, &[pointer, width]) => Call::Load { pointer, width },
        (20, &[pointer, width, value]) => Call::Store { pointer, width, value },
        (21, &[pointer, length, value]) => Call::Fill { pointer, length: length as u32, value: u8::try_from(value).map_err(|_| 19u32)? },
        (22, &[target, source, length]) => Call::Copy { target, source, length: length as u32 },
        _ => unreachable!("a kind without fields"),
    })
}

/// One number after the other from the front; none may be cut short, and no byte be left.
fn take(mut fields: &[u8], widths: &[usize]) -> Option<Vec<u64>> {
    let mut numbers = Vec::new();
    for &width in widths {
        let (field, rest) = fields.split_at_checked(width)?;
        numbers.push(field.iter().rev().fold(0, |number, &byte| number << 8 | u64::from(byte)));
        fields = rest;
    }
    fields.is_empty().then_some(numbers)
}

/// A log read to its end, or up to a malformed record.
pub struct Reading<'a> {
    pub calls: Vec<Call<u64>>,
    pub malformed: Option<u32>,
    /// From the malformed record on.
    pub rest: &'a [u8],
}

pub fn read(log: &[u8]) -> Reading<'_> {
    let mut reading = Reading { calls: Vec::new(), malformed: None, rest: log };
    loop {
        match front(reading.rest) {
            Front::End => return reading,
            Front::Call(call, rest) => {
                reading.calls.push(call);
                reading.rest = rest;
            }
            Front::Malformed(number) => {
                reading.malformed = Some(number);
                return reading;
            }
        }
    }
}

// ---- the program

/// The part of the input that is read.
pub fn cut(input: &[u8]) -> &[u8] {
    &input[..input.len().min(LIMIT)]
}

/// The answers of the calls, made one after the other on a fresh store, and what they leave.
pub fn made(calls: &[Call<u64>]) -> (Vec<Answer>, Dump) {
    let (mut image, mut table) = (vec![0; LENGTH], vec![0; ENTRIES]);
    let mut answer = |call| Model.call(&mut image, &mut table, call);
    assert!(answer(Call::SetUp { slot_exponent: SLOT_EXPONENT }).accepted());
    let answers = calls.iter().map(|&call| answer(call)).collect();
    (answers, Dump::new(image, &table))
}

pub fn answers(calls: &[Call<u64>]) -> Vec<Answer> {
    made(calls).0
}

/// The bytes of the two files of a dump.
#[derive(Debug, PartialEq, Eq)]
pub struct Dump {
    pub image: Vec<u8>,
    pub table: Vec<u8>,
}

impl Dump {
    pub fn new(image: Vec<u8>, table: &[u64]) -> Dump {
        Dump { image, table: table.iter().flat_map(|entry| entry.to_le_bytes()).collect() }
    }
}

/// A line for each call, and one for a malformed record.
pub fn text(calls: &[Call<u64>], answers: &[Answer], malformed: Option<u32>) -> String {
    let line = |(&call, answer): (&Call<u64>, &Answer)| {
        let (kind, _) = numbers(call).expect("a call of a log");
        format!("{kind} {} {:016X}\n", answer.refusal, answer.values[0])
    };
    let last = malformed.map(|number| format!("log {number}\n"));
    calls.iter().zip(answers).map(line).chain(last).collect()
}

/// What is printed for a log that is read as a whole.
pub fn run(log: &[u8]) -> String {
    let Reading { calls, malformed, .. } = read(log);
    text(&calls, &answers(&calls), malformed)
}

/// What `replay` prints.
pub fn replay(input: &[u8]) -> String {
    run(cut(input))
}

/// What `replay` leaves.
pub fn left(input: &[u8]) -> Dump {
    made(&read(cut(input)).calls).1
}

/// The compiled program: `CUELEDGER_REPLAY`, or where `make` puts it.
pub fn program() -> PathBuf {
    let built = || concat!(env!("CARGO_MANIFEST_DIR"), "/../target/bin/replay").into();
    let path = std::env::var_os("CUELEDGER_REPLAY").map_or_else(built, PathBuf::from);
    assert!(path.is_file(), "{} is missing: run `make target/bin/replay`", path.display());
    path
}

#[cfg(test)]
mod tests {
    use super::*;

    #[test]
    fn sample() {
        let calls = [Call::Allocate { size: 10, type_number: 7 }, Call::Load { pointer: 0x8010000000000020, width: 1 }];
        assert_eq!(records(&calls), SAMPLE);
        assert_eq!(read(&SAMPLE).calls, calls);
        assert_eq!(replay(&SAMPLE), SAMPLE_LINES);
        assert_eq!(replay(&[]), "");
    }

    #[test]
    fn records_are_read_back() {
        let (pointer, other) = (0x8010000000000020, 0x0123456789abcdef);
        for call in [
            Call::Allocate { size: u32::MAX, type_number: 0x8001 },
            Call::Allocate { size: 0, type_number: 0 },
            Call::Free { pointer },
            Call::Move { pointer, distance: -3 },
            Call::Load { pointer, width: 0xffff },
            Call::Store { pointer, width: 8, value: other },
            Call::Fill { pointer, length: 0x80000001, value: 255 },
            Call::Copy { target: pointer, source: other, length: 0x80000001 },
        ] {
            let mut bytes = record(call).unwrap();
            bytes.push(9);
            assert_eq!(front(&bytes), Front::Call(call, &[9]));
        }
        assert_eq!(record(Call::Load { pointer, width: 0x10000 }), None);
    }

    #[test]
    fn malformed_in_order() {
        let fields = [255; 14];
        for (log, number) in [
            (vec![18, 0, 21], 17),
            (record_of(3, 23, &fields), 17),
            (record_of(19, 21, &fields), 17),
            (record_of(17, 23, &fields), 18),
            (record_of(17, 21, &fields), 19),
            (record_of(18, 21, &fields), 19),
        ] {
            assert_eq!(front(&log), Front::Malformed(number), "{log:?}");
        }
    }
}

//! Document 02's repeatable load, written from that text alone, on the model of the store.
//!
//! Here is the call; `case` runs it on two sides at once, `again` runs its log again by single calls, `seen` says what occurred,
//! `golden` has the figures of three runs.

pub mod again;
pub mod case;
pub mod golden;
pub mod seen;

use crate::log::{self, Dump};
use crate::model;
use crate::store::{Answer, Call, Model};
use std::path::PathBuf;

/// The log has no space for the next record.
pub const FULL: u32 = 23;

/// The most live pointers.
pub const MOST: usize = 64;

/// What the generator adds to its state.
pub const STEP: u64 = 0x9E37_79B9_7F4A_7C15;

/// What is asked for beside image, table and log.
#[derive(Clone, Copy, Debug, PartialEq, Eq)]
pub struct Asked {
    pub slot_exponent: u32,
    pub state: u64,
    pub draws: u64,
}

/// An implementation of the call. Its values are the state after and the bytes written.
pub trait Traffic {
    fn traffic(&self, image: &mut [u8], table: &mut [u64], asked: Asked, log: &mut [u8]) -> Answer;
}

// ---- the model

/// What a draw comes to. A position is that of a live pointer, in order of allocation.
#[derive(Clone, Copy, Debug, PartialEq, Eq)]
pub enum Choice {
    Allocate { size: u32 },
    Free { position: usize },
    Store { position: usize, byte: u8 },
}

/// A record's bytes, and how many there are.
#[derive(Clone, Copy)]
pub struct Record {
    pub bytes: [u8; 22],
    pub length: usize,
}

impl Record {
    pub fn new(kind: u16, fields: &[&[u8]]) -> Record {
        let mut record = Record { bytes: [0; 22], length: 4 };
        for field in fields {
            record.bytes[record.length..][..field.len()].copy_from_slice(field);
            record.length += field.len();
        }
        record.bytes[..2].copy_from_slice(&(record.length as u16).to_le_bytes());
        record.bytes[2..4].copy_from_slice(&kind.to_le_bytes());
        record
    }

    pub fn bytes(&self) -> &[u8] {
        &self.bytes[..self.length]
    }
}

/// The text's rules. What is here is right; a test that plants a fault has another one in the place of one of them.
pub trait Rules {
    fn set_up(&self, image: &mut [u8], table: &mut [u64], slot_exponent: u32) -> model::Answer {
        model::set_up(image, table, slot_exponent)
    }

    /// The state that is stored.
    fn advanced(&self, state: u64) -> u64 {
        state.wrapping_add(STEP)
    }

    /// The draw v, of the stored state.
    fn drawn(&self, sum: u64) -> u64 {
        let mut v = sum;
        v ^= v >> 30;
        v ^= v << 27;
        v ^= v >> 31;
        v
    }

    /// With so many live pointers.
    fn choice(&self, v: u64, live: usize) -> Choice {
        let allocate = Choice::Allocate { size: 1 + ((v / 256) % 97) as u32 };
        if live == 0 {
            return allocate;
        }
        let position = ((v / 256) % live as u64) as usize;
        match v % 4 {
            0 | 1 if live < MOST => allocate,
            0..=2 => Choice::Free { position },
            _ => Choice::Store { position, byte: (v % 256) as u8 },
        }
    }

    fn call_of(&self, choice: Choice, live: &[u64]) -> Call<u64> {
        match choice {
            Choice::Allocate { size } => Call::Allocate { size, type_number: 0 },
            Choice::Free { position } => Call::Free { pointer: live[position] },
            Choice::Store { position, byte } => Call::Store { pointer: live[position], width: 1, value: byte.into() },
        }
    }

    fn record(&self, call: Call<u64>) -> Record {
        match call {
            Call::Allocate { size, type_number } => Record::new(16, &[&size.to_le_bytes(), &type_number.to_le_bytes()]),
            Call::Free { pointer } => Record::new(17, &[&pointer.to_le_bytes()]),
            Call::Store { pointer, width, value } => Record::new(20, &[&pointer.to_le_bytes(), &(width as u16).to_le_bytes(), &value.to_le_bytes()]),
            call => unreachable!("no draw comes to {call}"),
        }
    }

    fn has_space(&self, left: usize, record: &[u8]) -> bool {
        record.len() <= left
    }

    /// The live pointers behind the call: a declined allocate adds none.
    fn hold(&self, live: &mut Vec<u64>, choice: Choice, answer: model::Answer) {
        match choice {
            Choice::Allocate { .. } => live.extend(answer),
            Choice::Free { position } => drop(live.remove(position)),
            Choice::Store { .. } => {}
        }
    }
}

fn made(image: &mut [u8], table: &mut [u64], call: Call<u64>) -> model::Answer {
    match call {
        Call::Allocate { size, type_number } => model::allocate(image, table, size, type_number),
        Call::Free { pointer } => model::free(image, table, pointer),
        Call::Store { pointer, width, value } => model::store(image, table, pointer, width, value),
        call => unreachable!("no draw comes to {call}"),
    }
}

impl Rules for Model {}

impl<R: Rules> Traffic for R {
    fn traffic(&self, image: &mut [u8], table: &mut [u64], Asked { slot_exponent, mut state, draws }: Asked, log: &mut [u8]) -> Answer {
        if let Err(refusal) = self.set_up(image, table, slot_exponent) {
            return Answer::new(refusal, []);
        }
        let (mut live, mut written) = (Vec::with_capacity(MOST), 0);
        for _ in 0..draws {
            let sum = self.advanced(state);
            let choice = self.choice(self.drawn(sum), live.len());
            let call = self.call_of(choice, &live);
            let record = self.record(call);
            if !self.has_space(log.len() - written, record.bytes()) {
                return Answer::new(FULL, [state, written as u64]);
            }
            log[written..][..record.bytes().len()].copy_from_slice(record.bytes());
            written += record.bytes().len();
            state = sum;
            self.hold(&mut live, choice, made(image, table, call));
        }
        Answer::new(0, [state, written as u64])
    }
}

// ---- the program

/// What the program `traffic` writes and leaves, on the store on which `replay` makes the calls.
pub struct Load {
    pub log: Vec<u8>,
    pub full: bool,
    pub dump: Dump,
}

pub fn load(state: u64, draws: u64) -> Load {
    let (mut image, mut table, mut log) = (vec![0; log::LENGTH], vec![0; log::ENTRIES], vec![0; log::LIMIT]);
    let answer = Model.traffic(&mut image, &mut table, Asked { slot_exponent: log::SLOT_EXPONENT, state, draws }, &mut log);
    log.truncate(answer.values[1] as usize);
    Load { log, full: answer.refusal == FULL, dump: Dump::new(image, &table) }
}

/// The log that it writes, and whether it is full.
pub fn written(state: u64, draws: u64) -> (Vec<u8>, bool) {
    let Load { log, full, .. } = load(state, draws);
    (log, full)
}

/// The compiled program: `CUELEDGER_TRAFFIC`, or where `make` puts it.
pub fn program() -> PathBuf {
    let built = || concat!(env!("CARGO_MANIFEST_DIR"), "/../target/bin/traffic").into();
    let path = std::env::var_os("CUELEDGER_TRAFFIC").map_or_else(built, PathBuf::from);
    assert!(path.is_file(), "{} is missing: run `make target/bin/traffic`", path.display());
    path
}

#[cfg(test)]
mod tests {
    use super::*;

    /// The first draws of states 0 and 1, worked out apart.
    #[test]
    fn draws() {
        for (state, expected) in [
            (0, [0x460bc56c0b801029, 0xac178adc5f00205b, 0xa21c5b2a237e76d8, 0x582f15bab60040b7]),
            (1, [0x460bc56c1380102a, 0xac178adc5700205a, 0xa21c5b29db7e76a0, 0x582f15babe0040b6]),
            (u64::MAX, [0x460bc56c03801028, 0xac178adc47002058, 0xa21c5b2a2b7e76d9, 0x582f15ba8e0040b0]),
        ] {
            let mut sum = state;
            for v in expected {
                sum = Model.advanced(sum);
                assert_eq!(Model.drawn(sum), v, "{sum:#x}");
            }
        }
        assert_eq!(Model.advanced(0u64.wrapping_sub(STEP)), 0);
        assert_eq!(Model.drawn(0), 0);
    }

    #[test]
    fn choices() {
        // v / 256 is 1,000: 1,000 = 10 * 97 + 30 = 15 * 64 + 40 = 333 * 3 + 1
        let v = |low: u64| 256_000 + low;
        let (allocate, byte) = (Choice::Allocate { size: 31 }, 251);
        assert!((0..4).all(|low| Model.choice(v(low), 0) == allocate));
        for (live, position) in [(1, 0), (3, 1), (63, 55)] {
            assert_eq!([0, 1, 4, 253].map(|low| Model.choice(v(low), live)), [allocate; 4]);
            assert_eq!([2, 254].map(|low| Model.choice(v(low), live)), [Choice::Free { position }; 2]);
            assert_eq!(Model.choice(v(251), live), Choice::Store { position, byte });
        }
        assert_eq!([0, 1, 2, 4].map(|low| Model.choice(v(low), 64)), [Choice::Free { position: 40 }; 4]);
        assert_eq!(Model.choice(v(251), 64), Choice::Store { position: 40, byte });
        assert_eq!([0, 96, 97].map(|high| Model.choice(256 * high, 0)), [1, 97, 1].map(|size| Choice::Allocate { size }));
        assert_eq!(Model.choice(u64::MAX, 64), Choice::Store { position: 63, byte: 255 });
    }

    #[test]
    fn records_are_the_call_logs() {
        let pointer = 0x8010000000000020;
        for call in [
            Call::Allocate { size: 0x0403_0201, type_number: 0x0605 },
            Call::Free { pointer },
            Call::Store { pointer, width: 0x0201, value: 0x0807_0605_0403_0201 },
        ] {
            assert_eq!(log::record(call).as_deref(), Some(Model.record(call).bytes()));
        }
    }
}

//! One call on two sides at once, each with buffers of its own; and many of them.

use super::again::{again, Draw};
use super::seen::Seen;
use super::{Asked, Traffic};
use crate::driver::RUNNING;
use crate::generate;
use crate::log;
use crate::random::Random;
use crate::store::{Answer, Store};
use std::fmt;
use std::sync::atomic::Ordering;

/// Beyond what is lent there are so many bytes and entries that no call may touch.
const BEYOND: usize = 24;

/// The lengths of what is lent, its content before, random from `content`, and what is asked for.
#[derive(Clone, Copy, Debug)]
pub struct Case {
    pub image: usize,
    pub table: usize,
    pub log: usize,
    pub content: u64,
    pub asked: Asked,
}

/// Image, table and log, with what is beyond them.
#[derive(Clone, PartialEq)]
pub struct Lent {
    pub image: Vec<u8>,
    pub table: Vec<u64>,
    pub log: Vec<u8>,
}

/// What a call leaves and answers.
pub struct Outcome {
    pub answer: Answer,
    pub lent: Lent,
}

impl Case {
    pub fn lent(&self) -> Lent {
        let mut random = Random::new(self.content);
        let mut bytes = |length: usize| -> Vec<u8> { (0..length.div_ceil(8)).flat_map(|_| random.word().to_le_bytes()).take(length).collect() };
        let (image, log) = (bytes(self.image + BEYOND), bytes(self.log + BEYOND));
        Lent { image, table: (0..self.table + BEYOND).map(|_| random.word()).collect(), log }
    }

    pub fn with(self, draws: u64) -> Case {
        Case { asked: Asked { draws, ..self.asked }, ..self }
    }

    pub fn run(&self, traffic: &dyn Traffic) -> Outcome {
        let mut lent = self.lent();
        let answer = traffic.traffic(&mut lent.image[..self.image], &mut lent.table[..self.table], self.asked, &mut lent.log[..self.log]);
        Outcome { answer, lent }
    }

    /// The records that an outcome has.
    fn recorded(&self, outcome: &Outcome) -> u64 {
        let written = self.log.min(outcome.answer.values[1] as usize);
        log::read(&outcome.lent.log[..written]).calls.len() as u64
    }

    /// Whole buffers; what differs, or what else is wrong with what the tested side leaves. `store` runs its log again.
    fn differs(&self, expected: &Outcome, tested: &Outcome, store: &impl Store) -> Result<Vec<Draw>, String> {
        if expected.answer != tested.answer {
            return Err(format!("expected {}; got {}", expected.answer, tested.answer));
        }
        let (e, t) = (&expected.lent, &tested.lent);
        if let Some(at) = (0..e.log.len()).find(|&i| e.log[i] != t.log[i]) {
            return Err(format!("log byte {at}: expected {:#04x}, got {:#04x}", e.log[at], t.log[at]));
        }
        if let Some(at) = (0..e.image.len()).find(|&i| e.image[i] != t.image[i]) {
            return Err(format!("image byte {at}: expected {:#04x}, got {:#04x}", e.image[at], t.image[at]));
        }
        if let Some(at) = (0..e.table.len()).find(|&i| e.table[i] != t.table[i]) {
            return Err(format!("table entry {at}: expected {:#x}, got {:#x}", e.table[at], t.table[at]));
        }
        again(store, self, tested)
    }

    /// The draws that were recorded, where both sides agree and the log, run again, gives the same.
    pub fn check(&self, expected: &dyn Traffic, tested: &dyn Traffic, store: &impl Store) -> Result<(Outcome, Vec<Draw>), Box<Failure>> {
        let outcome = self.run(expected);
        match self.differs(&outcome, &self.run(tested), store) {
            Ok(draws) => Ok((outcome, draws)),
            Err(_) => Err(Box::new(self.shortened(expected, tested, store, self.recorded(&outcome)))),
        }
    }

    /// With draws taken off until it no longer fails. It fails; so many were recorded.
    fn shortened(self, expected: &dyn Traffic, tested: &dyn Traffic, store: &impl Store, recorded: u64) -> Failure {
        let what = |draws| {
            let case = self.with(draws);
            case.differs(&case.run(expected), &case.run(tested), store).err()
        };
        let (mut passes, mut fails) = (0, [recorded + 1, self.asked.draws].into_iter().find(|&draws| what(draws).is_some()).unwrap());
        while passes < fails {
            let middle = passes + (fails - passes) / 2;
            match what(middle) {
                Some(_) => fails = middle,
                None => passes = middle + 1,
            }
        }
        Failure { case: self.with(fails), what: what(fails).unwrap() }
    }
}

/// A case that fails, with as few draws as were found.
pub struct Failure {
    pub case: Case,
    pub what: String,
}

impl fmt::Display for Failure {
    fn fmt(&self, f: &mut fmt::Formatter<'_>) -> fmt::Result {
        let Case { image, table, log, content, asked } = self.case;
        let Asked { slot_exponent, state, draws } = asked;
        write!(f, "{draws} draws from state {state:#x}, s = {slot_exponent}, image of {image} bytes, table of {table} entries, log of {log} bytes, ")?;
        write!(f, "content {content:#x}: {}", self.what)
    }
}

/// The cases of the seeds `seed`, `seed + 1`, ..; what occurred in them, or how one fails.
pub fn compare(expected: &dyn Traffic, tested: &dyn Traffic, store: &impl Store, cases: u64, seed: u64) -> Result<Seen, String> {
    let mut seen = Seen::default();
    for number in 0..cases {
        let seed = seed.wrapping_add(number);
        RUNNING.store(seed, Ordering::Relaxed);
        let case = generate::traffic::case(seed);
        let again = |failure| format!("failed after {number} runs; again by: cargo run --release --bin compare -- --seed {seed} --calls 1\n{failure}");
        let (outcome, draws) = case.check(expected, tested, store).map_err(again)?;
        seen.look(&case, &outcome, &draws);
    }
    Ok(seen)
}

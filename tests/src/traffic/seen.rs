//! What occurred in runs.

use super::again::Draw;
use super::case::{Case, Outcome};
use super::{Choice, Rules, FULL, MOST};
use crate::model::used_entries;
use crate::store::{Answer, Call, Model, Store};

/// How often each thing occurred.
#[derive(Clone, Debug, Default)]
pub struct Seen {
    pub runs: u64,
    pub draws: u64,
    by_run: Vec<u64>,
    by_draw: Vec<u64>,
    /// Accepted and full runs by slot exponent.
    slot_exponents: [u64; 16],
    /// Full runs by the bytes left, for each of `RECORDS`.
    left: [[u64; 22]; RECORDS.len()],
}

/// What a record is of, and its bytes.
const RECORDS: [(&str, usize); 3] = [("allocate", 10), ("free", 12), ("store", 22)];

struct Looked<'a> {
    case: &'a Case,
    outcome: &'a Outcome,
    answer: Answer,
    draws: &'a [Draw],
}

impl Looked<'_> {
    fn refused(&self, row: u32) -> bool {
        self.answer.refusal == row
    }

    fn accepted(&self) -> bool {
        self.answer.accepted()
    }

    fn full(&self) -> bool {
        self.answer.refusal == FULL
    }

    fn set_up(&self) -> bool {
        self.accepted() || self.full()
    }

    fn bad_length(&self) -> bool {
        self.case.image < 64
    }

    /// The used entries, where image and slot exponent are not refused.
    fn used(&self) -> usize {
        used_entries(self.case.asked.slot_exponent, self.case.image as u64) as usize
    }

    /// Set-up refuses it, and no record would have space.
    fn no_space(&self) -> bool {
        self.case.log < 10 && self.case.asked.draws > 0
    }

    fn left(&self) -> usize {
        self.case.log - self.answer.values[1] as usize
    }

    /// The live pointers at the end.
    fn live(&self) -> usize {
        match self.draws.last() {
            None => 0,
            Some(Draw { live, call: Call::Free { .. }, .. }) => live - 1,
            Some(Draw { live, call: Call::Allocate { .. }, answer, .. }) => live + usize::from(answer.accepted()),
            Some(Draw { live, .. }) => *live,
        }
    }

    /// Full: what the next draw comes to.
    fn choice(&self) -> Choice {
        Model.choice(Model.drawn(Model.advanced(self.answer.values[0])), self.live())
    }

    /// Full: the place in `RECORDS` of the next record.
    fn next(&self) -> usize {
        match self.choice() {
            Choice::Allocate { .. } => 0,
            Choice::Free { .. } => 1,
            Choice::Store { .. } => 2,
        }
    }

    /// Full: the next draw is an allocate that would be declined.
    fn next_declined(&self) -> bool {
        let Choice::Allocate { size } = self.choice() else { return false };
        let mut lent = self.outcome.lent.clone();
        let (image, table) = (&mut lent.image[..self.case.image], &mut lent.table[..self.case.table]);
        !Model.call(image, table, Call::Allocate { size, type_number: 0 }).accepted()
    }

    /// Whether these draws occur one behind the other, others between them or not.
    fn has(&self, wanted: &[fn(&Draw) -> bool]) -> bool {
        let mut draws = self.draws.iter();
        wanted.iter().all(|is| draws.any(is))
    }
}

impl Draw {
    fn allocates(&self) -> bool {
        matches!(self.call, Call::Allocate { .. }) && self.answer.accepted()
    }

    fn declined(&self) -> bool {
        !self.answer.accepted()
    }

    fn frees(&self) -> bool {
        matches!(self.call, Call::Free { .. })
    }

    fn stores(&self) -> bool {
        matches!(self.call, Call::Store { .. })
    }

    fn size(&self) -> u32 {
        match self.call {
            Call::Allocate { size, .. } => size,
            _ => 0,
        }
    }

    fn first(&self) -> bool {
        self.live > 2 && self.position == 0
    }

    fn middle(&self) -> bool {
        self.position > 0 && self.position + 1 < self.live
    }

    fn last(&self) -> bool {
        self.live > 2 && self.position + 1 == self.live
    }
}

type ByRun = (&'static str, fn(&Looked<'_>) -> bool);

const BY_RUN: [ByRun; 43] = [
    ("1, s below 6", |r| r.refused(1) && r.case.asked.slot_exponent < 6),
    ("1, s above 15", |r| r.refused(1) && r.case.asked.slot_exponent > 15),
    ("1, and the length is bad too", |r| r.refused(1) && r.bad_length()),
    ("1, and no record has space", |r| r.refused(1) && r.no_space()),
    ("1, and the table has no entry", |r| r.refused(1) && r.case.table == 0),
    ("1, a log of space", |r| r.refused(1) && r.case.log > 1_000),
    ("2, no byte", |r| r.refused(2) && r.case.image == 0),
    ("2, 63 bytes", |r| r.refused(2) && r.case.image == 63),
    ("2, and the table has no entry", |r| r.refused(2) && r.case.table == 0),
    ("2, and no record has space", |r| r.refused(2) && r.no_space()),
    ("3, no entry", |r| r.refused(3) && r.case.table == 0),
    ("3, by one entry", |r| r.refused(3) && r.case.table + 1 == r.used()),
    ("3, and no record has space", |r| r.refused(3) && r.no_space()),
    ("3, no draws", |r| r.refused(3) && r.case.asked.draws == 0),
    ("64 bytes", |r| r.set_up() && r.case.image == 64),
    ("as many entries as are used", |r| r.set_up() && r.case.table == r.used()),
    ("entries beyond", |r| r.set_up() && r.case.table > r.used()),
    ("no draws", |r| r.accepted() && r.case.asked.draws == 0 && r.case.log > 0),
    ("no draws, no log", |r| r.accepted() && r.case.asked.draws == 0 && r.case.log == 0),
    ("one draw", |r| r.accepted() && r.case.asked.draws == 1),
    ("a thousand draws", |r| r.accepted() && r.draws.len() >= 1_000),
    ("over 65,536 bytes", |r| r.set_up() && r.answer.values[1] > 65_536),
    ("from state 0", |r| !r.draws.is_empty() && r.case.asked.state == 0),
    ("from state 1", |r| !r.draws.is_empty() && r.case.asked.state == 1),
    ("from state 2^64 - 1", |r| !r.draws.is_empty() && r.case.asked.state == u64::MAX),
    ("exact fit", |r| r.accepted() && !r.draws.is_empty() && r.left() == 0),
    ("a log with space left", |r| r.accepted() && !r.draws.is_empty() && r.left() > 22),
    ("23, no log", |r| r.full() && r.case.log == 0),
    ("23, no record", |r| r.full() && r.draws.is_empty() && r.case.log > 0),
    ("23, at the last draw", |r| r.full() && r.draws.len() as u64 + 1 == r.case.asked.draws),
    ("23 of 2^64 - 1 draws", |r| r.full() && r.case.asked.draws == u64::MAX),
    ("23 of a multiple of 2^32 draws", |r| r.full() && r.case.asked.draws % (1 << 32) == 0),
    ("23, and the allocate would be declined", |r| r.full() && r.next_declined()),
    ("23 with 64 pointers", |r| r.full() && r.live() == MOST),
    ("23, free, for the 64", |r| r.full() && r.live() == MOST && r.next() == 1),
    ("23, no pointer left", |r| r.full() && r.live() == 0 && !r.draws.is_empty()),
    ("all declined", |r| !r.draws.is_empty() && r.draws.iter().all(Draw::declined)),
    ("accepted behind declined", |r| r.has(&[Draw::declined, Draw::allocates])),
    ("freed behind declined", |r| r.has(&[Draw::declined, Draw::frees])),
    ("none left, and another", |r| r.has(&[|draw| draw.frees() && draw.live == 1, Draw::allocates])),
    ("64 reached", |r| r.live() == MOST || r.has(&[|draw| draw.live == MOST])),
    ("64 reached again", |r| r.has(&[|draw| draw.live == MOST, |draw| draw.live < MOST, |draw| draw.live == MOST])),
    ("64, without a declined one", |r| r.live() == MOST && !r.draws.iter().any(Draw::declined)),
];

type ByDraw = (&'static str, fn(&Draw) -> bool);

const BY_DRAW: [ByDraw; 35] = [
    ("the sum wraps round", |d| d.sum < super::STEP),
    ("the sum is 0", |d| d.sum == 0),
    ("the sum is 2^64 - 1", |d| d.sum == u64::MAX),
    ("allocate, small-framed", |d| d.allocates() && d.answer.values[0] >> 63 == 1),
    ("allocate, large-framed", |d| d.allocates() && d.answer.values[0] >> 63 == 0),
    ("allocate 1", |d| d.allocates() && d.size() == 1),
    ("allocate 97", |d| d.allocates() && d.size() == 97),
    ("allocate, the 64th", |d| d.allocates() && d.live + 1 == MOST),
    ("allocate, none, by 0", |d| d.allocates() && d.live == 0 && d.v % 4 == 0),
    ("allocate, none, by 1", |d| d.allocates() && d.live == 0 && d.v % 4 == 1),
    ("allocate, none, by 2", |d| d.allocates() && d.live == 0 && d.v % 4 == 2),
    ("allocate, none, by 3", |d| d.allocates() && d.live == 0 && d.v % 4 == 3),
    ("declined", |d| d.declined() && d.live > 0),
    ("declined, none, by 0 or 1", |d| d.declined() && d.live == 0 && d.v % 4 < 2),
    ("declined, none, by 2 or 3", |d| d.declined() && d.live == 0 && d.v % 4 >= 2),
    ("declined, above 32 objects", |d| d.declined() && d.live > 32),
    ("free, the only one", |d| d.frees() && d.live == 1),
    ("free, one of two", |d| d.frees() && d.live == 2),
    ("free, first", |d| d.frees() && d.first()),
    ("free, middle", |d| d.frees() && d.middle()),
    ("free, last", |d| d.frees() && d.last()),
    ("free, 64, by 0", |d| d.frees() && d.live == MOST && d.v % 4 == 0),
    ("free, 64, by 1", |d| d.frees() && d.live == MOST && d.v % 4 == 1),
    ("free, 64, by 2", |d| d.frees() && d.live == MOST && d.v % 4 == 2),
    ("free, 64, first", |d| d.frees() && d.live == MOST && d.first()),
    ("free, 64, last", |d| d.frees() && d.live == MOST && d.last()),
    ("free, 63", |d| d.frees() && d.live + 1 == MOST),
    ("store, the only one", |d| d.stores() && d.live == 1),
    ("store, first", |d| d.stores() && d.first()),
    ("store, middle", |d| d.stores() && d.middle()),
    ("store, last", |d| d.stores() && d.last()),
    ("store, 64", |d| d.stores() && d.live == MOST),
    ("store, 64, last", |d| d.stores() && d.live == MOST && d.last()),
    ("store 3", |d| d.stores() && d.v % 256 == 3),
    ("store 255", |d| d.stores() && d.v % 256 == 255),
];

impl Seen {
    pub fn look(&mut self, case: &Case, outcome: &Outcome, draws: &[Draw]) {
        let looked = Looked { case, outcome, answer: outcome.answer, draws };
        self.runs += 1;
        self.draws += draws.len() as u64;
        self.by_run.resize(BY_RUN.len(), 0);
        self.by_draw.resize(BY_DRAW.len(), 0);
        self.by_run.iter_mut().zip(&BY_RUN).for_each(|(count, (_, met))| *count += u64::from(met(&looked)));
        self.by_draw.iter_mut().zip(&BY_DRAW).for_each(|(count, (_, met))| *count += draws.iter().filter(|draw| met(draw)).count() as u64);
        if looked.set_up() {
            self.slot_exponents[case.asked.slot_exponent as usize] += 1;
        }
        if looked.full() {
            self.left[looked.next()][looked.left()] += 1;
        }
    }

    /// Each thing that is counted, and how often it occurred.
    pub fn all(&self) -> Vec<(String, u64)> {
        let by_run = BY_RUN.iter().zip(&self.by_run).map(|((what, _), &count)| (what.to_string(), count));
        let by_draw = BY_DRAW.iter().zip(&self.by_draw).map(|((what, _), &count)| (what.to_string(), count));
        let slot_exponents = (6..16).map(|s| (format!("s = {s}"), self.slot_exponents[s]));
        let left = RECORDS.iter().zip(&self.left).flat_map(|(&(name, bytes), left)| (0..bytes).map(move |n| (format!("23, {name}, {n} left"), left[n])));
        by_run.chain(by_draw).chain(slot_exponents).chain(left).collect()
    }

    /// What never occurred.
    pub fn missing(&self) -> Vec<String> {
        self.all().into_iter().filter(|&(_, count)| count == 0).map(|(what, _)| what).collect()
    }
}

impl std::fmt::Display for Seen {
    fn fmt(&self, f: &mut std::fmt::Formatter<'_>) -> std::fmt::Result {
        let all: Vec<_> = self.all().into_iter().map(|(what, count)| format!("{what}: {count}")).collect();
        write!(f, "{} runs, {} draws\n{}", self.runs, self.draws, all.join("; "))
    }
}

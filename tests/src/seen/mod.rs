//! What occurs in the calls with two pointers, in release, with the free total, in distances, and with objects of no bytes, beside
//! their answers: seen in image and table as they were before.

mod distances;
mod empties;
mod releases;
mod totals;

use crate::model::{self, Pointer};
use crate::store::{Answer, Call};
use distances::Distances;
use empties::Empties;
use releases::Releases;
use std::fmt;
use totals::Totals;

const CALLS: [&str; 3] = ["copy", "compare", "text copy"];
/// A pointer's rows.
const ROWS: [u32; 3] = [10, 11, 13];
/// First differences are counted at so many places.
const PLACES: usize = 18;

#[derive(Clone, Debug, Default)]
pub struct Seen {
    /// Refused calls, by which pointer it was, the one tested first or the other, and by its row.
    refused: [[[u64; ROWS.len()]; 2]; CALLS.len()],
    compares: [u64; COMPARES.len()],
    /// Accepted compares by the place of the first difference.
    differences: [u64; PLACES],
    texts: [u64; TEXTS.len()],
    releases: Releases,
    totals: Totals,
    distances: Distances,
    empties: Empties,
}

/// A pointer, the bytes from its address to its body's end, and those behind. A pointer whose first byte is refused has none.
struct Operand<'a> {
    address: u64,
    rest: &'a [u8],
    behind: &'a [u8],
    /// Its address is the first one behind a body.
    past: bool,
}

impl<'a> Operand<'a> {
    fn new(image: &'a [u8], table: &[u64], s: u32, pointer: u64) -> Operand<'a> {
        let body = |pointer| model::body_from(image, table, s, pointer, 1);
        let (rest, behind): (&[u8], &[u8]) = body(pointer).map_or((&[], &[]), |body| (&image[body.clone()], &image[body.end..]));
        let past = rest.is_empty() && body(pointer.wrapping_sub(1)).is_ok();
        Operand { address: Pointer::unpack(pointer).address, rest, behind, past }
    }
}

/// A call: its pointers in the order in which they are tested, and for how many bytes the first one is.
struct Looked<'a> {
    first: Operand<'a>,
    second: Operand<'a>,
    bytes: usize,
    answer: Answer,
}

impl Looked<'_> {
    /// Compare: the place of the first difference, where it is accepted.
    fn difference(&self) -> Option<usize> {
        let mut pairs = self.first.rest.iter().zip(self.second.rest).take(self.bytes);
        pairs.position(|(a, b)| self.answer.accepted() && a != b)
    }

    /// Text copy: the bytes of the source's text.
    fn text(&self) -> Option<usize> {
        self.first.rest.iter().position(|&byte| byte == 0).map(|zero| zero + 1)
    }

    /// Text copy: the distance from source to target, where it is accepted and not by as many bytes.
    fn shift(&self) -> Option<i64> {
        let shift = self.second.address as i64 - self.first.address as i64;
        (self.answer.accepted() && shift.unsigned_abs() < self.answer.values[0]).then_some(shift)
    }
}

type Row = (&'static str, fn(&Looked<'_>) -> bool);

const COMPARES: [Row; 9] = [
    ("below", |c| c.answer.accepted() && c.answer.values[0] == u64::MAX),
    ("equal", |c| c.answer.accepted() && c.answer.values[0] == 0),
    ("above", |c| c.answer.accepted() && c.answer.values[0] == 1),
    ("of one place", |c| c.answer.accepted() && c.first.address == c.second.address),
    ("overlapping", |c| c.answer.accepted() && (1..c.bytes as u64).contains(&c.first.address.abs_diff(c.second.address))),
    ("by a byte below 0x80 and one above", |c| c.difference().is_some_and(|i| (c.first.rest[i] < 0x80) != (c.second.rest[i] < 0x80))),
    ("by the last byte", |c| c.difference().is_some_and(|i| i + 1 == c.bytes)),
    ("by a byte behind a zero byte", |c| c.difference().is_some_and(|i| c.first.rest[..i].contains(&0))),
    ("13 by one byte", |c| c.answer.refusal == 13 && [&c.first, &c.second].iter().any(|operand| operand.rest.len() + 1 == c.bytes)),
];

const TEXTS: [Row; 12] = [
    ("apart", |t| t.answer.accepted() && t.shift().is_none()),
    ("onto itself", |t| t.shift() == Some(0)),
    ("up", |t| t.shift().is_some_and(|shift| shift > 0)),
    ("down", |t| t.shift().is_some_and(|shift| shift < 0)),
    ("no letters", |t| t.answer.accepted() && t.text() == Some(1)),
    ("over 16 letters", |t| t.answer.accepted() && t.text() > Some(17)),
    ("up to the source's end", |t| t.answer.accepted() && t.text() == Some(t.first.rest.len())),
    ("up to the target's end", |t| t.answer.accepted() && t.text() == Some(t.second.rest.len())),
    ("13 behind the source's last byte", |t| t.answer.refusal == 13 && t.first.past),
    ("13 by one byte in the target", |t| t.answer.refusal == 13 && !t.second.rest.is_empty() && t.text() == Some(t.second.rest.len() + 1)),
    ("20 before a zero byte", |t| t.answer.refusal == 20 && t.first.behind.first() == Some(&0)),
    ("20 with a bad target", |t| t.answer.refusal == 20 && t.second.rest.is_empty()),
];

fn add(counts: &mut [u64], rows: &[Row], looked: &Looked<'_>) {
    counts.iter_mut().zip(rows).for_each(|(count, (_, met))| *count += u64::from(met(looked)));
}

impl Seen {
    pub fn look(&mut self, image: &[u8], table: &[u64], call: &Call<u64>, answer: &Answer) {
        self.totals.look(image, call, answer);
        self.empties.look(image, table, call, answer);
        let (place, first, second, bytes) = match *call {
            Call::Copy { target, source, length } => (0, target, source, length as usize),
            Call::Compare { left, right, length } => (1, left, right, length as usize),
            Call::CopyText { target, source } => (2, source, target, 1),
            Call::Release { cue } => return self.releases.look(image, table, cue, answer),
            Call::Distances { pointer } => return self.distances.look(image, table, pointer, answer),
            _ => return,
        };
        let Ok(s) = model::open(image, table) else { return };
        let operand = |pointer| Operand::new(image, table, s, pointer);
        let looked = Looked { first: operand(first), second: operand(second), bytes, answer: *answer };
        if let Some(row) = ROWS.iter().position(|&row| row == answer.refusal) {
            self.refused[place][usize::from(looked.first.rest.len() >= bytes)][row] += 1;
        }
        match call {
            Call::Compare { .. } => {
                add(&mut self.compares, &COMPARES, &looked);
                if let Some(count) = looked.difference().and_then(|i| self.differences.get_mut(i)) {
                    *count += 1;
                }
            }
            Call::CopyText { .. } => add(&mut self.texts, &TEXTS, &looked),
            _ => {}
        }
    }

    /// Each thing that is counted, and how often it occurred.
    fn all(&self) -> Vec<(String, u64)> {
        let mut all = Vec::new();
        for (call, by_pointer) in CALLS.iter().zip(self.refused) {
            for (pointer, by_row) in ["first", "second"].iter().zip(by_pointer) {
                all.extend(ROWS.iter().zip(by_row).map(|(row, count)| (format!("{call}: {row} of the {pointer} pointer"), count)));
            }
        }
        all.extend(COMPARES.iter().zip(self.compares).map(|((what, _), count)| (format!("compare: {what}"), count)));
        all.extend(self.differences.iter().enumerate().map(|(place, &count)| (format!("compare: differs at {place}"), count)));
        all.extend(TEXTS.iter().zip(self.texts).map(|((what, _), count)| (format!("text copy: {what}"), count)));
        all.extend(self.releases.all().map(|(what, count)| (format!("release: {what}"), count)));
        all.extend(self.totals.all().map(|(call, what, count)| (format!("{call}, total: {what}"), count)));
        all.extend(self.distances.all().map(|(what, count)| (format!("distances: {what}"), count)));
        all.extend(self.empties.all().map(|(what, count)| (format!("no bytes: {what}"), count)));
        all
    }

    /// What never occurred.
    pub fn missing(&self) -> Vec<String> {
        self.all().into_iter().filter(|&(_, count)| count == 0).map(|(what, _)| what).collect()
    }
}

impl fmt::Display for Seen {
    fn fmt(&self, f: &mut fmt::Formatter<'_>) -> fmt::Result {
        for (call, [first, second]) in CALLS.iter().zip(self.refused) {
            writeln!(f, "{call} refused by {ROWS:?}: of the pointer tested first {first:?}, of the other {second:?}")?;
        }
        let list = |rows: &[Row], counts: &[u64]| rows.iter().zip(counts).map(|((what, _), count)| format!("{what} {count}")).collect::<Vec<_>>().join(", ");
        writeln!(f, "compares: {}", list(&COMPARES, &self.compares))?;
        writeln!(f, "accepted by the place of the first difference 0..{}: {:?}", PLACES - 1, self.differences)?;
        writeln!(f, "text copies: {}", list(&TEXTS, &self.texts))?;
        writeln!(f, "releases: {}", self.releases.all().map(|(what, count)| format!("{what} {count}")).collect::<Vec<_>>().join(", "))?;
        writeln!(f, "free totals: {}", self.totals.all().map(|(call, what, count)| format!("{call} {what} {count}")).collect::<Vec<_>>().join(", "))?;
        writeln!(f, "distances: {}", self.distances.all().map(|(what, count)| format!("{what} {count}")).collect::<Vec<_>>().join(", "))?;
        write!(f, "objects of no bytes: {}", self.empties.all().map(|(what, count)| format!("{what} {count}")).collect::<Vec<_>>().join(", "))
    }
}

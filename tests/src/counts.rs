//! What occurred in a comparison, and what did not.

use crate::seen::Seen;
use crate::store::{Answer, Call, Kind, KINDS, ROWS};
use std::fmt;

/// How often each call, and each of its answers, occurred.
#[derive(Clone, Debug, Default)]
pub struct Counts {
    pub calls: u64,
    /// By call and refusal; 0 is accepted.
    pub by_call: [[u64; ROWS + 1]; KINDS.len()],
    pub cases: u64,
    /// Cases with an image of 64 KiB and more.
    pub large_images: u64,
    pub largest_image: usize,
    /// Cases by slot exponent.
    pub slot_exponents: [u64; 16],
    /// Accepted accesses and frees by small- and large-framed pointers.
    pub framed: [u64; 2],
    /// Accepted loads and stores by width.
    pub widths: [[u64; 9]; 2],
    /// Accepted tallies that show spare bytes, and those that show no free block.
    pub tallies: [u64; 2],
    pub seen: Seen,
}

impl Counts {
    /// The answer's refusal is 0 or a row of the call.
    pub fn add(&mut self, call: &Call<u64>, answer: &Answer) {
        self.calls += 1;
        self.by_call[call.place()][answer.refusal as usize] += 1;
        if !answer.accepted() {
            return;
        }
        if let Call::Load { pointer, .. } | Call::Store { pointer, .. } | Call::Free { pointer } | Call::Fill { pointer, .. } = *call {
            self.framed[usize::from(pointer >> 63 == 0)] += 1;
        }
        match *call {
            Call::Load { width, .. } => self.widths[0][width as usize] += 1,
            Call::Store { width, .. } => self.widths[1][width as usize] += 1,
            Call::Tally => {
                let [objects, _, free, overhead] = answer.values;
                self.tallies[0] += u64::from(overhead > 16 * objects);
                self.tallies[1] += u64::from(free == 0);
            }
            _ => {}
        }
    }

    /// The calls, and those of their rows that never occurred.
    pub fn missing(&self) -> Vec<(&'static str, u32)> {
        let pairs = KINDS.iter().zip(&self.by_call).flat_map(|(kind, answers)| kind.rows.iter().map(move |&row| (kind.name, row, answers)));
        pairs.filter(|(_, row, answers)| answers[*row as usize] == 0).map(|(name, row, _)| (name, row)).collect()
    }
}

/// Of a call's column.
fn width(kind: &Kind) -> usize {
    10.max(kind.name.len() + 2)
}

/// A table, a row for each answer and a column for each call, and the rest below it.
impl fmt::Display for Counts {
    fn fmt(&self, f: &mut fmt::Formatter<'_>) -> fmt::Result {
        write!(f, "{:>8}", "answer")?;
        KINDS.iter().try_for_each(|kind| write!(f, "{:>width$}", kind.name, width = width(kind)))?;
        writeln!(f, "{:>11}", "all")?;
        for row in (0..=ROWS).filter(|&row| row == 0 || KINDS.iter().any(|kind| kind.rows.contains(&(row as u32)))) {
            write!(f, "{:>8}", if row == 0 { "accepted".to_string() } else { row.to_string() })?;
            for (kind, answers) in KINDS.iter().zip(&self.by_call) {
                write!(f, "{:>width$}", if answers[row] == 0 { ".".to_string() } else { answers[row].to_string() }, width = width(kind))?;
            }
            writeln!(f, "{:>11}", self.by_call.iter().map(|answers| answers[row]).sum::<u64>())?;
        }
        write!(f, "{} calls in {} cases, ", self.calls, self.cases)?;
        writeln!(f, "{} of them with images of 64 KiB up to {} bytes", self.large_images, self.largest_image)?;
        writeln!(f, "cases by slot exponent 6..15: {:?}", &self.slot_exponents[6..])?;
        writeln!(f, "accepted through small- and large-framed pointers (load, store, free, fill): {:?}", self.framed)?;
        writeln!(f, "accepted by width 1..8: load {:?}, store {:?}", &self.widths[0][1..], &self.widths[1][1..])?;
        write!(f, "accepted tallies with spare bytes, and with no free block: {:?}", self.tallies)
    }
}

//! One call on two sides at once, each with sizes of its own; and many of them.

use super::seen::Seen;
use super::{generate, Orders, LARGEST, MOST};
use crate::driver::RUNNING;
use crate::store::Answer;
use std::fmt;
use std::sync::atomic::Ordering;

/// Sizes, with what is beyond them; how many of them are lent; and what is asked.
#[derive(Clone, Debug, PartialEq, Eq)]
pub struct Case {
    pub sizes: Vec<u32>,
    pub lent: usize,
    pub slot_exponent: u32,
    pub budget: u64,
}

type Reason = (&'static str, fn(&Case) -> bool);

/// Why a call may be refused: with 26, and the last with 27.
pub const REASONS: [Reason; 7] = [
    ("no sizes", |case| case.lent == 0),
    ("nine sizes", |case| case.lent == MOST + 1),
    ("ten sizes or more", |case| case.lent > MOST + 1),
    ("a size", |case| case.sizes().iter().any(|&size| size > LARGEST)),
    ("exponent below", |case| case.slot_exponent < 6),
    ("exponent above", |case| case.slot_exponent > 15),
    ("budget", |case| case.budget == 0),
];

impl Case {
    /// The sizes, as they are lent.
    pub fn sizes(&self) -> &[u32] {
        &self.sizes[..self.lent]
    }

    /// Which reasons there are to refuse it.
    pub fn reasons(&self) -> [bool; REASONS.len()] {
        REASONS.map(|(_, is)| is(self))
    }

    /// "good", its one reason, or "several".
    pub fn kind(&self) -> &'static str {
        let mut reasons = REASONS.iter().filter(|(_, is)| is(self));
        match (reasons.next(), reasons.next()) {
            (None, _) => "good",
            (Some((name, _)), None) => name,
            _ => "several",
        }
    }

    fn failure(&self, what: String) -> Box<Failure> {
        Box::new(Failure { seed: None, case: self.clone(), what })
    }

    /// The first size, lent or not, that is not as it was.
    fn written(&self, sizes: &[u32]) -> Option<String> {
        let at = (0..sizes.len()).find(|&at| sizes[at] != self.sizes[at])?;
        Some(format!("wrote size {at}: {}, and it was {}", sizes[at], self.sizes[at]))
    }

    /// The answer, for which no size may be written.
    pub fn answer(&self, orders: &dyn Orders) -> Result<Answer, Box<Failure>> {
        let mut sizes = self.sizes.clone();
        let answer = orders.order(&mut sizes[..self.lent], self.slot_exponent, self.budget);
        self.written(&sizes).map_or(Ok(answer), |what| Err(self.failure(format!("{answer}; {what}"))))
    }

    /// Whether this is the answer.
    pub fn check(&self, expected: Answer, tested: &dyn Orders) -> Result<(), Box<Failure>> {
        let got = self.answer(tested)?;
        if got == expected {
            return Ok(());
        }
        Err(self.failure(format!("expected {expected}; got {got}")))
    }
}

/// A call on which two sides differ, or that writes.
pub struct Failure {
    pub seed: Option<u64>,
    pub case: Case,
    pub what: String,
}

impl fmt::Display for Failure {
    fn fmt(&self, f: &mut fmt::Formatter<'_>) -> fmt::Result {
        let Case { slot_exponent, budget, lent, .. } = self.case;
        if let Some(seed) = self.seed {
            writeln!(f, "failed; again by: cargo run --release --bin compare -- --seed {seed} --calls 1")?;
        }
        let shown = &self.case.sizes()[..lent.min(20)];
        write!(f, "order, {lent} sizes {shown:?}, slot exponent {slot_exponent}, budget {budget} ({}):\n{}", self.case.kind(), self.what)
    }
}

/// The cases of the seeds `seed`, `seed + 1`, ..; what occurred in them, or how one fails.
pub fn compare(expected: &dyn Orders, tested: &dyn Orders, cases: u64, seed: u64) -> Result<Seen, Box<Failure>> {
    let mut seen = Seen::default();
    for seed in (0..cases).map(|number| seed.wrapping_add(number)) {
        RUNNING.store(seed, Ordering::Relaxed);
        let case = generate::case(seed);
        let answer = case.answer(expected).and_then(|answer| case.check(answer, tested).map(|()| answer));
        seen.look(&case, answer.map_err(|failure| Box::new(Failure { seed: Some(seed), ..*failure }))?);
    }
    Ok(seen)
}

#[cfg(test)]
mod tests {
    use super::*;

    #[test]
    fn writes_to_and_beyond_the_sizes_are_seen() {
        let case = Case { sizes: vec![1; 6], lent: 4, slot_exponent: 6, budget: 1 };
        assert_eq!(case.written(&case.sizes), None);
        for at in 0..6 {
            let mut sizes = case.sizes.clone();
            sizes[at] = 0;
            assert_eq!(case.written(&sizes), Some(format!("wrote size {at}: 0, and it was 1")));
        }
    }

    #[test]
    fn kinds() {
        let case = |sizes: &[u32], slot_exponent, budget| Case { sizes: sizes.to_vec(), lent: sizes.len(), slot_exponent, budget }.kind();
        assert_eq!([case(&[65_535; 8], 6, 1), case(&[0], 15, u64::MAX)], ["good"; 2]);
        assert_eq!([case(&[], 6, 1), case(&[0; 9], 6, 1), case(&[0; 10], 6, 1)], ["no sizes", "nine sizes", "ten sizes or more"]);
        assert_eq!([case(&[0, 65_536], 6, 1), case(&[0], 5, 1), case(&[0], 16, 1), case(&[0], 6, 0)], ["a size", "exponent below", "exponent above", "budget"]);
        assert_eq!([case(&[65_536], 6, 0), case(&[], 5, 1)], ["several"; 2]);
    }
}

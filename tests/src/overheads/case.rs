//! One call on two sides at once, each with sizes of its own; and many of them.

use super::seen::Seen;
use super::{generate, Answer, Overheads, LARGEST, MOST};
use crate::driver::RUNNING;
use std::fmt;
use std::sync::atomic::Ordering;

/// Sizes, with what is beyond them; and how many of them are lent.
#[derive(Clone, Debug, PartialEq, Eq)]
pub struct Case {
    pub sizes: Vec<u32>,
    pub lent: usize,
}

type Reason = (&'static str, fn(&Case) -> bool);

/// Why a call may be refused: the first two with 28, the others with 29.
pub const REASONS: [Reason; 4] = [
    ("65,537 sizes", |case| case.lent == MOST + 1),
    ("more sizes", |case| case.lent > MOST + 1),
    ("size 0", |case| case.sizes().contains(&0)),
    ("a size above", |case| case.sizes().iter().any(|&size| size > LARGEST)),
];

impl Case {
    /// The sizes, as they are lent.
    pub fn sizes(&self) -> &[u32] {
        &self.sizes[..self.lent]
    }

    /// Which reasons there are to refuse it.
    pub fn reasons(&self) -> [bool; REASONS.len()] {
        REASONS.map(|(_, is)| is(self))
    }

    /// "good", its one reason, or "several".
    pub fn kind(&self) -> &'static str {
        let mut reasons = REASONS.iter().filter(|(_, is)| is(self));
        match (reasons.next(), reasons.next()) {
            (None, _) => "good",
            (Some((name, _)), None) => name,
            _ => "several",
        }
    }

    fn failure(&self, what: String) -> Box<Failure> {
        Box::new(Failure { seed: None, case: self.clone(), what })
    }

    /// The first size, lent or not, that is not as it was.
    fn written(&self, sizes: &[u32]) -> Option<String> {
        let at = (0..sizes.len()).find(|&at| sizes[at] != self.sizes[at])?;
        Some(format!("wrote size {at}: {}, and it was {}", sizes[at], self.sizes[at]))
    }

    /// The answer, for which no size may be written.
    pub fn answer(&self, overheads: &dyn Overheads) -> Result<Answer, Box<Failure>> {
        let mut sizes = self.sizes.clone();
        let answer = overheads.overhead(&mut sizes[..self.lent]);
        self.written(&sizes).map_or(Ok(answer), |what| Err(self.failure(format!("{answer}; {what}"))))
    }

    /// Whether this is the answer.
    pub fn check(&self, expected: Answer, tested: &dyn Overheads) -> Result<(), Box<Failure>> {
        let got = self.answer(tested)?;
        if got == expected {
            return Ok(());
        }
        Err(self.failure(format!("expected {expected}; got {got}")))
    }
}

impl From<&[u32]> for Case {
    /// All of them are lent.
    fn from(sizes: &[u32]) -> Case {
        Case { sizes: sizes.to_vec(), lent: sizes.len() }
    }
}

/// A call on which two sides differ, or that writes.
pub struct Failure {
    pub seed: Option<u64>,
    pub case: Case,
    pub what: String,
}

impl fmt::Display for Failure {
    fn fmt(&self, f: &mut fmt::Formatter<'_>) -> fmt::Result {
        let lent = self.case.lent;
        if let Some(seed) = self.seed {
            writeln!(f, "failed; again by: cargo run --release --bin compare -- --seed {seed} --calls 1")?;
        }
        let shown = &self.case.sizes()[..lent.min(20)];
        write!(f, "overhead, {lent} sizes {shown:?} ({}):\n{}", self.case.kind(), self.what)
    }
}

/// The cases of the seeds `seed`, `seed + 1`, ..; what occurred in them, or how one fails.
pub fn compare(expected: &dyn Overheads, tested: &dyn Overheads, cases: u64, seed: u64) -> Result<Seen, Box<Failure>> {
    let mut seen = Seen::default();
    for seed in (0..cases).map(|number| seed.wrapping_add(number)) {
        RUNNING.store(seed, Ordering::Relaxed);
        let case = generate::case(seed);
        let answer = case.answer(expected).and_then(|answer| case.check(answer, tested).map(|()| answer));
        seen.look(&case, answer.map_err(|failure| Box::new(Failure { seed: Some(seed), ..*failure }))?);
    }
    Ok(seen)
}

#[cfg(test)]
mod tests {
    use super::*;

    #[test]
    fn writes_to_and_beyond_the_sizes_are_seen() {
        let case = Case { sizes: vec![1; 6], lent: 4 };
        assert_eq!(case.written(&case.sizes), None);
        for at in 0..6 {
            let mut sizes = case.sizes.clone();
            sizes[at] = 0;
            assert_eq!(case.written(&sizes), Some(format!("wrote size {at}: 0, and it was 1")));
        }
    }

    #[test]
    fn kinds() {
        let kind = |sizes: &[u32]| Case::from(sizes).kind();
        assert_eq!([kind(&[]), kind(&[1, 65_536]), kind(&[1; 65_536])], ["good"; 3]);
        assert_eq!([kind(&[1; 65_537]), kind(&[1; 65_538])], ["65,537 sizes", "more sizes"]);
        assert_eq!([kind(&[1, 0]), kind(&[65_537, 1]), kind(&[0, u32::MAX])], ["size 0", "a size above", "several"]);
        assert_eq!([kind(&[0; 65_537]), kind(&[65_537; 65_538])], ["several"; 2]);
        // beyond those that are lent
        assert_eq!(Case { sizes: vec![1, 0], lent: 1 }.kind(), "good");
    }
}

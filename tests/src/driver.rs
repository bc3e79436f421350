//! Many random cases, until enough calls were made or one fails.

use crate::case::{Action, Case, Run};
use crate::counts::Counts;
use crate::generate::Generator;
use crate::shrink::shrink;
use crate::store::Store;
use std::fmt;
use std::sync::atomic::{AtomicU64, Ordering};

/// The seed of the case that runs, for when the tested store never returns.
pub static RUNNING: AtomicU64 = AtomicU64::new(0);

/// A case that fails, as short as it could be made.
pub struct Failure {
    pub seed: u64,
    pub calls_before: u64,
    pub case: Case,
    pub text: String,
}

impl fmt::Display for Failure {
    fn fmt(&self, f: &mut fmt::Formatter<'_>) -> fmt::Result {
        writeln!(f, "failed after {} calls; again by: cargo run --release --bin compare -- --seed {} --calls 1", self.calls_before, self.seed)?;
        write!(f, "shortest list found, {} steps: {}", self.case.steps.len(), self.text)
    }
}

/// Runs cases of the seeds `seed`, `seed + 1`, .. until at least `calls` calls were made.
pub fn compare(expected: &impl Store, tested: &impl Store, calls: u64, seed: u64) -> Result<Counts, Box<Failure>> {
    let mut counts = Counts::default();
    let mut seed = seed;
    while counts.calls < calls {
        one(expected, tested, seed, &mut counts)?;
        seed = seed.wrapping_add(1);
    }
    Ok(counts)
}

/// Runs the case of a seed, to its end or to a step that fails; the error has the steps so far. `look` sees it behind each step.
pub fn play<A: Store, B: Store>(expected: &A, tested: &B, seed: u64, counts: &mut Counts, mut look: impl FnMut(&Run<'_, A, B>)) -> Result<(), Case> {
    RUNNING.store(seed, Ordering::Relaxed);
    let mut generator = Generator::new(seed);
    let mut case = Case { buffers: generator.buffers(), steps: Vec::new() };
    let length = case.buffers.lent_image;
    counts.cases += 1;
    counts.large_images += u64::from(length >= 1 << 16);
    counts.largest_image = counts.largest_image.max(length);
    counts.slot_exponents[generator.slot_exponent() as usize] += 1;
    let mut run = Run::new(expected, tested, &case.buffers);
    while let Some(step) = generator.next(&run.view()) {
        case.steps.push(step);
        let numbers = match step.action {
            Action::Call(call) => Some(call.map(|arg| run.resolve(arg))),
            _ => None,
        };
        let Ok(answer) = run.step(&step, counts) else { return Err(case) };
        if let (Some(call), Some(answer)) = (numbers, answer) {
            generator.observe(&step, call, answer);
        }
        look(&run);
    }
    Ok(())
}

fn one(expected: &impl Store, tested: &impl Store, seed: u64, counts: &mut Counts) -> Result<(), Box<Failure>> {
    play(expected, tested, seed, counts, |_| ()).map_err(|case| {
        let case = shrink(case, expected, tested);
        let text = case.describe(expected, tested);
        Box::new(Failure { seed, calls_before: counts.calls, case, text })
    })
}

//! Questions about a store and a list to two sides at once, each with buffers of its own; and many of them.

use super::seen::Seen;
use super::{generate, lists, Casts};
use crate::driver::RUNNING;
use crate::store::Answer;
use std::fmt;
use std::sync::atomic::Ordering;

/// What is asked: a pointer, and the wanted type.
#[derive(Clone, Copy, Debug, PartialEq, Eq)]
pub struct Question {
    pub pointer: u64,
    pub wanted: u16,
}

/// Image, table and list, with what is beyond them; the lengths of what is lent.
#[derive(Clone, Debug, PartialEq)]
pub struct Case {
    pub image: Vec<u8>,
    pub table: Vec<u64>,
    pub descriptors: Vec<u8>,
    pub lent: [usize; 3],
    pub kind: lists::Kind,
    pub questions: Vec<Question>,
}

impl Case {
    /// The image, as it is lent.
    pub fn image(&self) -> &[u8] {
        &self.image[..self.lent[0]]
    }

    pub fn table(&self) -> &[u64] {
        &self.table[..self.lent[1]]
    }

    pub fn list(&self) -> &[u8] {
        &self.descriptors[..self.lent[2]]
    }

    pub fn ask(&mut self, casts: &dyn Casts, Question { pointer, wanted }: Question) -> Answer {
        let [image, table, list] = self.lent;
        casts.has_type(&mut self.image[..image], &mut self.table[..table], &mut self.descriptors[..list], pointer, wanted)
    }

    /// The first byte or entry that is not as it was before.
    fn written(&self, before: &Case) -> Option<String> {
        let byte = |name: &str, now: &[u8], before: &[u8]| {
            let at = (now != before).then(|| (0..now.len()).find(|&at| now[at] != before[at]).unwrap())?;
            Some(format!("wrote {name} byte {at}: {:#04x}, and it was {:#04x}", now[at], before[at]))
        };
        let entry = || (self.table != before.table).then(|| "wrote the table".to_string());
        byte("image", &self.image, &before.image).or_else(|| byte("list", &self.descriptors, &before.descriptors)).or_else(entry)
    }

    fn failure(&self, question: Question, what: String) -> Box<Failure> {
        Box::new(Failure { seed: None, case: self.clone(), question, what })
    }

    /// The answers to the questions, none of which may be written for.
    pub fn answers(&self, casts: &dyn Casts) -> Result<Vec<Answer>, Box<Failure>> {
        let mut case = self.clone();
        let mut ask = |&question: &Question| {
            let answer = case.ask(casts, question);
            case.written(self).map_or(Ok(answer), |what| Err(self.failure(question, format!("{answer}; {what}"))))
        };
        self.questions.iter().map(&mut ask).collect()
    }

    /// Whether these are the answers.
    pub fn check(&self, expected: &[Answer], tested: &dyn Casts) -> Result<(), Box<Failure>> {
        let got = self.answers(tested)?;
        match (0..got.len()).find(|&nth| got[nth] != expected[nth]) {
            None => Ok(()),
            Some(nth) => Err(self.failure(self.questions[nth], format!("expected {}; got {}", expected[nth], got[nth]))),
        }
    }
}

/// A question on which two sides differ, or whose answer writes.
pub struct Failure {
    pub seed: Option<u64>,
    pub case: Case,
    pub question: Question,
    pub what: String,
}

impl fmt::Display for Failure {
    fn fmt(&self, f: &mut fmt::Formatter<'_>) -> fmt::Result {
        let ([image, table, _], Question { pointer, wanted }) = (self.case.lent, self.question);
        if let Some(seed) = self.seed {
            writeln!(f, "failed; again by: cargo run --release --bin compare -- --seed {seed} --calls 1")?;
        }
        writeln!(f, "pointer {pointer:#018x}, wanted {wanted}, image of {image} bytes, table of {table} entries, list ({}):", self.case.kind.name())?;
        self.case.list().iter().try_for_each(|byte| write!(f, "{byte:02x}"))?;
        write!(f, "\n{}", self.what)
    }
}

/// The cases of the seeds `seed`, `seed + 1`, ..; what occurred in them, or how one fails.
pub fn compare(expected: &dyn Casts, tested: &dyn Casts, cases: u64, seed: u64) -> Result<Seen, Box<Failure>> {
    let mut seen = Seen::default();
    for seed in (0..cases).map(|number| seed.wrapping_add(number)) {
        RUNNING.store(seed, Ordering::Relaxed);
        let case = generate::case(seed);
        let answers = case.answers(expected).and_then(|answers| case.check(&answers, tested).map(|()| answers));
        seen.look(&case, &answers.map_err(|failure| Box::new(Failure { seed: Some(seed), ..*failure }))?);
    }
    Ok(seen)
}

#[cfg(test)]
mod tests {
    use super::*;

    #[test]
    fn writes_beyond_what_is_lent_are_seen() {
        let before = generate::case(1);
        assert_eq!(before.written(&before), None);
        let writes: [fn(&mut Case); 3] =
            [|case| *case.image.last_mut().unwrap() ^= 1, |case| *case.table.last_mut().unwrap() ^= 1, |case| *case.descriptors.last_mut().unwrap() ^= 1];
        for write in writes {
            let mut case = before.clone();
            write(&mut case);
            assert!(case.written(&before).is_some());
        }
    }
}

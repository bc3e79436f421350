//! Timing in rounds that alternate.
//!
//! Each contestant begins a round in turn, and the best of each counts: what other programs on the machine take away
//! from one is taken away from the others as well, or from none.

use crate::report::{Columns, Table};
use std::hint::black_box;
use std::time::{Duration, Instant};

pub const LEAST_ROUNDS: usize = 21;

/// Keeps the compiler from leaving out what gave the value.
pub fn sink<T>(value: T) {
    black_box(value);
}

pub fn time(work: impl FnOnce()) -> f64 {
    let begun = Instant::now();
    work();
    begun.elapsed().as_secs_f64() * 1e9
}

pub fn repeat(passes: usize, work: impl FnMut(usize)) -> f64 {
    time(|| (0..passes).for_each(work))
}

/// One round on the buffers; gives the nanoseconds of the part that counts.
pub type Round<'a, L> = &'a mut dyn FnMut(&mut L) -> f64;

type Boxed<'a, L> = Box<dyn FnMut(&mut L) -> f64 + 'a>;

/// The rounds of those that are compared.
pub struct Rounds<'a, L> {
    library: Boxed<'a, L>,
    model: Boxed<'a, L>,
    floor: Option<Boxed<'a, L>>,
}

impl<'a, L> Rounds<'a, L> {
    pub fn new(library: impl FnMut(&mut L) -> f64 + 'a, model: impl FnMut(&mut L) -> f64 + 'a) -> Rounds<'a, L> {
        Rounds { library: Box::new(library), model: Box::new(model), floor: None }
    }

    pub fn floor(self, floor: impl FnMut(&mut L) -> f64 + 'a) -> Rounds<'a, L> {
        Rounds { floor: Some(Box::new(floor)), ..self }
    }
}

/// What else does the same work, unchecked where the table's title does not say otherwise.
pub enum Other<'a, L> {
    None,
    /// Shown; no target is set.
    Shown(Round<'a, L>),
    /// Not more than `report::SLICE_LIMIT` times its time is wanted.
    Target(Round<'a, L>),
}

/// One pass over the tables.
pub struct Bench {
    pub for_each_line: Duration,
    pub tables: Vec<Table>,
}

impl Bench {
    pub fn new() -> Bench {
        Bench { for_each_line: Duration::ZERO, tables: Vec::new() }
    }

    /// A table of library, model and floor, and of the other column if it is named.
    pub fn heading(&mut self, title: &str, other: &str) {
        self.tables.push(Table::new(title, Columns::Contestants { other: other.to_string() }));
    }

    /// The best time of each round.
    pub fn best<L, const N: usize>(&self, lent: &mut L, mut rounds: [Round<L>; N]) -> [f64; N] {
        self.best_of(lent, &mut rounds).try_into().unwrap()
    }

    fn best_of<L>(&self, lent: &mut L, rounds: &mut [Round<L>]) -> Vec<f64> {
        let mut best = vec![f64::INFINITY; rounds.len()];
        let begun = Instant::now();
        let mut count = 0;
        while count < LEAST_ROUNDS || begun.elapsed() < self.for_each_line {
            for turn in 0..rounds.len() {
                let at = (count + turn) % rounds.len();
                best[at] = best[at].min(rounds[at](lent));
            }
            count += 1;
        }
        best
    }

    /// Measures one line of `units` calls or blocks.
    pub fn line<'a, L>(&mut self, name: &str, units: usize, lent: &mut L, mut rounds: Rounds<'a, L>, other: Other<'a, L>) {
        let (other, with_target) = match other {
            Other::None => (None, false),
            Other::Shown(round) => (Some(round), false),
            Other::Target(round) => (Some(round), true),
        };
        let (has_floor, has_other) = (rounds.floor.is_some(), other.is_some());
        let mut all: Vec<Round<L>> = vec![&mut rounds.library, &mut rounds.model];
        if let Some(floor) = &mut rounds.floor {
            all.push(floor);
        }
        if let Some(other) = other {
            all.push(other);
        }
        let mut best = self.best_of(lent, &mut all).into_iter().map(|ns| ns / units as f64);
        let mut next = |there: bool| if there { best.next() } else { None };
        let times = vec![next(true), next(true), next(has_floor), next(has_other)];
        self.row(name, times, with_target);
    }

    /// A line of the last table: a time for each column that the line has.
    pub fn row(&mut self, name: &str, times: Vec<Option<f64>>, slice_target: bool) {
        self.tables.last_mut().expect("a heading comes first").push(name, times, slice_target);
    }
}

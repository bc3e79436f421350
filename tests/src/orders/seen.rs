//! What occurred in calls.

use super::case::{Case, REASONS};
use super::model::{all, Rules};
use super::{BUDGET, LARGEST, MOST, PLAN, ROWS};
use crate::model::{HEADER, SUPERBLOCK};
use crate::store::{Answer, Model};

/// How often each thing occurred.
#[derive(Clone, Debug, Default)]
pub struct Seen {
    pub cases: u64,
    by_case: Vec<u64>,
    rows: [u64; ROWS.len()],
    /// Refused for this reason alone; and for this one of row 26 and the budget.
    alone: [u64; REASONS.len()],
    with_budget: [u64; REASONS.len() - 1],
    /// Accepted, by the number of sizes; and with tried orders of different counts.
    counts: [[u64; MOST + 1]; 2],
    /// The same by slot exponent.
    slot_exponents: [[u64; 16]; 2],
}

struct Looked<'a> {
    case: &'a Case,
    answer: Answer,
    /// Which reasons there are to refuse it.
    reasons: [bool; REASONS.len()],
    /// The large-framed objects of each order, tried or not, where it is accepted.
    large: Vec<u64>,
}

/// An object of the found order: its header, and its imaginary byte.
#[derive(Clone, Copy)]
struct Object {
    h: u64,
    e: u64,
}

impl Looked<'_> {
    // ---- refused

    /// Refused with 26 for this reason alone.
    fn only(&self, reason: &str) -> bool {
        self.answer.refusal == PLAN && self.case.kind() == reason
    }

    /// Refused with 26 for sizes alone, and only those at these places are too large.
    fn too_large(&self, is: impl Fn(usize, u32) -> bool) -> bool {
        self.only("a size") && self.case.sizes().iter().enumerate().all(|(place, &size)| size <= LARGEST || is(place, size))
    }

    /// Refused with 26 for the exponent alone, which is such a one.
    fn exponent(&self, is: fn(u32) -> bool) -> bool {
        (self.only("exponent below") || self.only("exponent above")) && is(self.case.slot_exponent)
    }

    fn no_budget(&self, count: usize) -> bool {
        self.answer.refusal == BUDGET && self.case.lent == count
    }

    // ---- accepted

    fn accepted(&self) -> bool {
        self.answer.accepted()
    }

    fn count(&self) -> usize {
        self.case.lent
    }

    fn frame(&self) -> u64 {
        1 << self.case.slot_exponent
    }

    fn fewest(&self) -> u64 {
        self.answer.values[1]
    }

    fn floor(&self) -> u64 {
        self.answer.values[3]
    }

    /// The counts of the orders tried, and of those beyond the budget.
    fn tried(&self) -> (&[u64], &[u64]) {
        self.large.split_at(self.answer.values[2] as usize)
    }

    /// How many orders are before the found one.
    fn before(&self) -> usize {
        self.large.iter().position(|&large| large == self.fewest()).unwrap()
    }

    /// How many tried orders are as good, the found one with them.
    fn as_good(&self) -> usize {
        self.tried().0.iter().filter(|&&large| large == self.fewest()).count()
    }

    /// Whether tried orders have different counts.
    fn matters(&self) -> bool {
        self.accepted() && self.tried().0.iter().any(|&large| large != self.fewest())
    }

    /// By how many the first order has more than the found one.
    fn saved(&self) -> u64 {
        self.large.first().map_or(0, |first| first - self.fewest())
    }

    /// How often an order was better than all before it.
    fn steps(&self) -> usize {
        let (mut best, mut steps) = (self.large[0], 0);
        for &large in self.tried().0 {
            if large < best {
                (best, steps) = (large, steps + 1);
            }
        }
        steps
    }

    /// Whether a count beyond the budget is so, against the fewest.
    fn beyond(&self, is: fn(&u64, &u64) -> bool) -> bool {
        self.accepted() && self.tried().1.iter().any(|large| is(large, &self.fewest()))
    }

    fn budget(&self, budget: u64) -> bool {
        self.accepted() && self.case.budget == budget
    }

    /// How many orders there are of so many sizes as are good.
    fn all(&self) -> u64 {
        all(self.count().min(MOST))
    }

    /// Whether a size is this one, which may depend on 2^s.
    fn has_size(&self, size: fn(u64) -> u64) -> bool {
        self.accepted() && self.case.sizes().iter().any(|&other| u64::from(other) == size(self.frame()))
    }

    /// Whether two sizes are equal, or all of several are.
    fn equal(&self) -> (bool, bool) {
        let mut sizes = self.case.sizes().to_vec();
        sizes.sort_unstable();
        let pairs = sizes.windows(2).filter(|pair| pair[0] == pair[1]).count();
        (pairs > 0, pairs > 0 && pairs + 1 == sizes.len())
    }

    fn order(&self) -> Vec<usize> {
        self.answer.values[0].to_le_bytes().iter().take(self.count()).map(|&position| position.into()).collect()
    }

    /// Whether place and position may be exchanged in the found order.
    fn is_own_inverse(&self) -> bool {
        let order = self.order();
        (0..order.len()).all(|place| order[order[place]] == place)
    }

    /// Whether an object of the found order is so; s and the object.
    fn any(&self, is: fn(u32, Object) -> bool) -> bool {
        let mut h = SUPERBLOCK;
        self.accepted()
            && self.order().into_iter().any(|position| {
                let e = h + HEADER + u64::from(self.case.sizes()[position]);
                is(self.case.slot_exponent, Object { h: std::mem::replace(&mut h, e), e })
            })
    }
}

type ByCase = (&'static str, fn(&Looked<'_>) -> bool);

const BY_CASE: [ByCase; 79] = [
    // 26
    ("26, several reasons", |q| q.answer.refusal == PLAN && q.reasons[..6].iter().filter(|&&is| is).count() > 1),
    ("26, 257 to 264 sizes", |q| q.only("ten sizes or more") && (257..=264).contains(&q.count())),
    ("26, 65,537 to 65,544 sizes", |q| q.only("ten sizes or more") && (65_537..=65_544).contains(&q.count())),
    ("26, size 65,536", |q| q.too_large(|_, size| size == 65_536)),
    ("26, size 2^32 - 1", |q| q.too_large(|_, size| size == u32::MAX)),
    ("26, size small in 16 bits", |q| q.too_large(|_, size| u64::from(size & 0xffff) + 17 <= q.frame())),
    ("26, size negative in 32 bits", |q| q.too_large(|_, size| size >= 1 << 31)),
    ("26, the first of several sizes", |q| q.count() > 1 && q.too_large(|place, _| place == 0)),
    ("26, the last of several sizes", |q| q.count() > 1 && q.too_large(|place, _| place == q.count() - 1)),
    ("26, sizes in between", |q| q.too_large(|place, _| place > 0 && place < q.count() - 1)),
    ("26, the last of eight sizes", |q| q.count() == MOST && q.too_large(|place, _| place == MOST - 1)),
    ("26, s = 0", |q| q.exponent(|s| s == 0)),
    ("26, s = 5", |q| q.exponent(|s| s == 5)),
    ("26, s = 16", |q| q.exponent(|s| s == 16)),
    ("26, s = 2^32 - 1", |q| q.exponent(|s| s == u32::MAX)),
    ("26, s good in 5 bits", |q| q.exponent(|s| (6..16).contains(&(s & 31)) && !(6..16).contains(&(s & 63)))),
    ("26, s good in 6 bits", |q| q.exponent(|s| (6..16).contains(&(s & 63)) && !(6..16).contains(&(s & 255)))),
    ("26, s good in 8 bits", |q| q.exponent(|s| (6..16).contains(&(s & 255)))),
    // 27
    ("27, one size", |q| q.no_budget(1)),
    ("27, eight sizes", |q| q.no_budget(8)),
    // how many are large-framed
    ("none large-framed", |q| q.accepted() && q.fewest() == 0),
    ("all large-framed", |q| q.accepted() && q.fewest() == q.count() as u64),
    ("floor 0, some large-framed", |q| q.accepted() && q.floor() == 0 && q.fewest() > 0),
    ("floor reached", |q| q.matters() && q.floor() > 0 && q.fewest() == q.floor()),
    ("floor not reached, all tried", |q| q.matters() && q.fewest() > q.floor() && q.tried().1.is_empty()),
    ("two above the floor, all tried", |q| q.matters() && q.fewest() == q.floor() + 2 && q.tried().1.is_empty()),
    ("floor is all", |q| q.accepted() && q.count() > 1 && q.floor() == q.count() as u64),
    ("one size, small-framed", |q| q.accepted() && q.count() == 1 && q.fewest() == 0),
    ("one size, large-framed, floor 0", |q| q.accepted() && q.count() == 1 && q.fewest() == 1 && q.floor() == 0),
    ("one size, floor 1", |q| q.accepted() && q.count() == 1 && q.floor() == 1),
    // which is the found one
    ("the first, and others are worse", |q| q.matters() && q.before() == 0),
    ("all as good, floor 1 or more, fewer than all", |q| q.accepted() && !q.matters() && q.tried().1.is_empty() && (1..q.count() as u64).contains(&q.floor())),
    ("not the first", |q| q.matters() && q.before() > 0),
    ("the second", |q| q.matters() && q.before() == 1),
    ("the last tried", |q| q.matters() && q.before() + 1 == q.tried().0.len()),
    ("the last of all, of three sizes or more", |q| q.matters() && q.count() > 2 && q.before() as u64 + 1 == q.all()),
    ("another size is first", |q| q.matters() && q.before() as u64 >= q.all() / q.count() as u64),
    ("the last size is first", |q| q.matters() && q.count() > 2 && q.order()[0] == q.count() - 1),
    ("two fewer than the first", |q| q.accepted() && q.saved() == 2),
    ("three fewer than the first", |q| q.accepted() && q.saved() == 3),
    ("better in two steps", |q| q.matters() && q.steps() == 2),
    ("better in three steps", |q| q.matters() && q.steps() == 3),
    ("not its own inverse", |q| q.accepted() && !q.is_own_inverse()),
    // ties
    ("a later one as good", |q| q.matters() && q.as_good() > 1),
    ("a later one as good, not the first", |q| q.matters() && q.as_good() > 1 && q.before() > 0),
    ("no other as good", |q| q.matters() && q.as_good() == 1),
    ("no other as good, all of three sizes or more tried", |q| q.matters() && q.as_good() == 1 && q.count() > 2 && q.tried().1.is_empty()),
    // the budget
    ("a better one beyond the budget", |q| q.beyond(|large, fewest| large < fewest)),
    ("one as good beyond the budget", |q| q.beyond(|large, fewest| large == fewest)),
    ("none as good beyond the budget", |q| q.accepted() && !q.tried().1.is_empty() && !q.beyond(|large, fewest| large <= fewest)),
    ("the next one beyond is better", |q| q.accepted() && q.tried().1.first().is_some_and(|&large| large < q.fewest())),
    ("the last tried is better, and not of all", |q| q.matters() && q.before() + 1 == q.tried().0.len() && !q.tried().1.is_empty()),
    ("budget 1", |q| q.budget(1) && q.count() > 1),
    ("budget one less than all", |q| q.count() > 1 && q.budget(q.all() - 1)),
    ("budget of all", |q| q.budget(q.all())),
    ("budget one more than all", |q| q.budget(q.all() + 1)),
    ("budget 40,320, fewer sizes", |q| q.budget(40_320) && q.count() < MOST),
    ("budget 40,320, eight sizes", |q| q.budget(40_320) && q.count() == MOST),
    ("budget 40,319, eight sizes", |q| q.budget(40_319) && q.count() == MOST),
    ("budget 40,321, eight sizes", |q| q.budget(40_321) && q.count() == MOST),
    ("budget 2^64 - 1", |q| q.budget(u64::MAX)),
    ("budget 2^64 - 1, eight sizes", |q| q.budget(u64::MAX) && q.count() == MOST),
    ("budget 0 in 32 bits", |q| q.accepted() && q.case.budget as u32 == 0),
    ("budget less than all in 32 bits", |q| q.accepted() && q.case.budget > 1 << 32 && (1..q.all()).contains(&u64::from(q.case.budget as u32))),
    // sizes
    ("size 0", |q| q.has_size(|_| 0)),
    ("size 65,535", |q| q.has_size(|_| 65_535)),
    ("size 2^s - 17", |q| q.has_size(|frame| frame - 17)),
    ("size 2^s - 16", |q| q.has_size(|frame| frame - 16)),
    ("equal sizes, the order matters", |q| q.matters() && q.equal().0),
    ("all equal, all tried", |q| q.accepted() && q.count() > 2 && q.equal().1 && q.tried().1.is_empty()),
    ("equal sizes that are large-framed anywhere, the order matters", |q| {
        let large: Vec<_> = q.case.sizes().iter().filter(|&&size| Model.is_large_anywhere(q.case.slot_exponent, size)).collect();
        q.matters() && (1..large.len()).any(|place| large[..place].contains(&large[place]))
    }),
    // objects of the found order
    ("an object that ends at a frame's start", |q| q.any(|s, object| object.e & ((1 << s) - 1) == 0)),
    ("a body that ends at a frame's start, large-framed by its imaginary byte alone", |q| {
        q.any(|s, Object { h, e }| Model.is_large(s, h, e) && !Model.is_large(s, h, e - 1))
    }),
    ("a body that ends a byte before, small-framed", |q| q.any(|s, Object { h, e }| !Model.is_large(s, h, e) && Model.is_large(s, h, e + 1))),
    ("an object large-framed by its header alone", |q| q.any(|s, Object { h, e }| Model.is_large(s, h, e) && !Model.is_large(s, h + HEADER, e))),
    ("a header at a frame's start", |q| q.any(|s, object| object.h & ((1 << s) - 1) == 0)),
    ("an object in three frames or more", |q| q.any(|s, Object { h, e }| (e >> s) - (h >> s) > 1)),
    ("an object of no bytes, large-framed", |q| q.any(|s, Object { h, e }| e == h + HEADER && Model.is_large(s, h, e))),
    ("an object beyond 2^16", |q| q.any(|_, object| object.h > 65_535)),
];

impl Seen {
    pub fn look(&mut self, case: &Case, answer: Answer) {
        let mut large = Vec::new();
        if answer.accepted() {
            let mut order = Model.first(case.lent);
            large.push(Model.large(case.sizes(), &order, case.slot_exponent));
            while Model.next(&mut order) {
                large.push(Model.large(case.sizes(), &order, case.slot_exponent));
            }
        }
        self.add(&Looked { case, answer, reasons: case.reasons(), large });
    }

    fn add(&mut self, looked: &Looked<'_>) {
        let Looked { case, answer, reasons, .. } = looked;
        self.cases += 1;
        self.by_case.resize(BY_CASE.len(), 0);
        self.by_case.iter_mut().zip(&BY_CASE).for_each(|(count, (_, met))| *count += u64::from(met(looked)));
        if let Some(row) = ROWS.iter().position(|&row| answer.refusal == row) {
            self.rows[row] += 1;
        }
        for (nth, _) in reasons.iter().enumerate().filter(|(_, &is)| is) {
            match reasons.iter().filter(|&&is| is).count() {
                1 => self.alone[nth] += 1,
                2 if reasons[6] && nth < 6 => self.with_budget[nth] += 1,
                _ => {}
            }
        }
        if looked.accepted() {
            for matters in [false, true].into_iter().filter(|&matters| !matters || looked.matters()) {
                self.counts[usize::from(matters)][case.lent] += 1;
                self.slot_exponents[usize::from(matters)][case.slot_exponent as usize] += 1;
            }
        }
    }

    /// Each thing that is counted, and how often it occurred.
    pub fn all(&self) -> Vec<(String, u64)> {
        let by_case = BY_CASE.iter().zip(&self.by_case).map(|((what, _), &count)| (what.to_string(), count));
        let rows = ROWS.iter().zip(&self.rows).map(|(row, &count)| (format!("row {row}"), count));
        let row = |nth| if nth < REASONS.len() - 1 { PLAN } else { BUDGET };
        let alone = REASONS.iter().zip(&self.alone).enumerate().map(|(nth, ((what, _), &count))| (format!("{}, {what} alone", row(nth)), count));
        let with_budget = REASONS.iter().zip(&self.with_budget).map(|((what, _), &count)| (format!("26, {what} and budget 0"), count));
        let counts = (1..=MOST).map(|count| (format!("{count} sizes"), self.counts[0][count]));
        let slot_exponents = (6..16).map(|s| (format!("s = {s}"), self.slot_exponents[0][s]));
        let matters = (2..=MOST).map(|count| (format!("the order matters, {count} sizes"), self.counts[1][count]));
        let where_it_matters = (6..16).map(|s| (format!("the order matters, s = {s}"), self.slot_exponents[1][s]));
        by_case.chain(rows).chain(alone).chain(with_budget).chain(counts).chain(slot_exponents).chain(matters).chain(where_it_matters).collect()
    }

    /// What never occurred.
    pub fn missing(&self) -> Vec<String> {
        self.all().into_iter().filter(|&(_, count)| count == 0).map(|(what, _)| what).collect()
    }
}

impl std::fmt::Display for Seen {
    fn fmt(&self, f: &mut std::fmt::Formatter<'_>) -> std::fmt::Result {
        let all: Vec<_> = self.all().into_iter().map(|(what, count)| format!("{what}: {count}")).collect();
        write!(f, "{} cases\n{}", self.cases, all.join("; "))
    }
}

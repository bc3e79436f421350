//! What occurred in calls.

use super::case::{Case, REASONS};
use super::model::Rules;
use super::{Answer, LARGEST, MANY, MOST, ROWS, SIZE};
use crate::model::HEADER;
use crate::store::Model;

/// Exponents of the sizes' powers of two, from 0 on; and of the padded blocks'.
const EXPONENTS: usize = 17;
const LEAST: usize = 4;

/// How often each thing occurred.
#[derive(Clone, Debug, Default)]
pub struct Seen {
    pub cases: u64,
    by_case: Vec<u64>,
    rows: [u64; ROWS.len()],
    /// Refused for this reason alone.
    alone: [u64; REASONS.len()],
    /// Accepted, with a size one below a power of two, the power itself, and one above.
    sizes: [[u64; EXPONENTS]; 3],
    /// Accepted, with such a padded block right behind another; and with one behind a gap.
    blocks: [[u64; EXPONENTS]; 2],
}

/// A padded block, and the gap before it.
#[derive(Clone, Copy)]
struct Padded {
    block: u64,
    gap: u64,
}

struct Looked<'a> {
    case: &'a Case,
    answer: Answer,
    /// Which reasons there are to refuse it.
    reasons: [bool; REASONS.len()],
    /// The padded blocks, where it is accepted; and the end that they reach when the least is first.
    padded: Vec<Padded>,
    ascending: u64,
}

fn is_good(size: u32) -> bool {
    Model.size_is_good(size)
}

fn common_divisor(a: u64, b: u64) -> u64 {
    if b == 0 {
        a
    } else {
        common_divisor(b, a % b)
    }
}

impl Looked<'_> {
    fn count(&self) -> usize {
        self.case.lent
    }

    // ---- refused

    /// Refused with this number, and only those at these places are bad.
    fn bad(&self, row: u32, is: impl Fn(usize, u32) -> bool) -> bool {
        let mut bad = self.case.sizes().iter().enumerate().filter(|(_, &size)| !is_good(size)).peekable();
        self.answer.refusal == row && bad.peek().is_some() && bad.all(|(place, &size)| is(place, size))
    }

    /// Refused with 29, where each bad size is such a one.
    fn size(&self, is: fn(u32) -> bool) -> bool {
        self.bad(SIZE, |_, size| is(size))
    }

    /// Refused with 28, and no size is bad.
    fn only_many(&self) -> bool {
        self.answer.refusal == MANY && self.reasons[2..] == [false; 2]
    }

    // ---- accepted

    fn accepted(&self) -> bool {
        self.answer.accepted()
    }

    /// With at least one size.
    fn some(&self) -> bool {
        self.accepted() && self.count() > 0
    }

    /// With different padded blocks.
    fn different(&self) -> bool {
        self.padded.windows(2).any(|pair| pair[0].block != pair[1].block)
    }

    fn raw(&self) -> u64 {
        self.answer.values[0]
    }

    fn with_headers(&self) -> u64 {
        self.answer.values[1]
    }

    fn in_blocks(&self) -> u64 {
        self.answer.values[2]
    }

    fn end(&self) -> u64 {
        self.answer.values[3]
    }

    /// Whether the overhead that begins with this value can be reduced.
    fn reducible(&self, extra: usize) -> bool {
        common_divisor(self.answer.values[extra], self.answer.values[extra + 1]) > 1
    }

    fn any(&self, is: fn(Padded) -> bool) -> bool {
        self.padded.iter().any(|&padded| is(padded))
    }

    /// Whether a block fits a gap that is before it, but not right before.
    fn fits_earlier_gap(&self) -> bool {
        let mut largest = 0;
        self.padded.iter().any(|&Padded { block, gap }| {
            let fits = block <= largest;
            largest = largest.max(gap);
            fits
        })
    }

    /// Whether the next size, not lent, is good.
    fn next_is_good(&self) -> bool {
        is_good(self.case.sizes[self.count()])
    }
}

type ByCase = (&'static str, fn(&Looked<'_>) -> bool);

const BY_CASE: [ByCase; 61] = [
    // 28
    ("28, 0 sizes in 16 bits", |q| q.only_many() && q.count() & 0xffff == 0),
    ("28, few sizes in 16 bits", |q| q.only_many() && q.count() > MOST + 1 && (1..100).contains(&(q.count() & 0xffff))),
    ("28, a bad size too", |q| q.bad(MANY, |_, _| true)),
    ("28, the first size bad too", |q| q.bad(MANY, |place, _| place == 0)),
    ("28, the last size bad too", |q| q.bad(MANY, |place, _| place == q.count() - 1)),
    ("28, sizes bad behind the 65,536th", |q| q.bad(MANY, |place, _| place >= MOST)),
    ("28, 65,537 sizes, the last bad", |q| q.count() == MOST + 1 && q.bad(MANY, |place, _| place == MOST)),
    // 29
    ("29, size 65,537", |q| q.size(|size| size == LARGEST + 1)),
    ("29, size 131,072", |q| q.size(|size| size == 2 * LARGEST)),
    ("29, size 2^31", |q| q.size(|size| size == 1 << 31)),
    ("29, size 2^32 - 1", |q| q.size(|size| size == u32::MAX)),
    ("29, size good in 16 bits", |q| q.size(|size| size > LARGEST && size & 0xffff != 0)),
    ("29, size negative in 32 bits", |q| q.size(|size| size > 1 << 31)),
    ("29, the one size", |q| q.count() == 1 && q.answer.refusal == SIZE),
    ("29, the first of several", |q| q.count() > 1 && q.bad(SIZE, |place, _| place == 0)),
    ("29, the last of several", |q| q.count() > 1 && q.bad(SIZE, |place, _| place == q.count() - 1)),
    ("29, sizes in between", |q| q.bad(SIZE, |place, _| place > 0 && place < q.count() - 1)),
    ("29, the first of 65,536", |q| q.count() == MOST && q.bad(SIZE, |place, _| place == 0)),
    ("29, the last of 65,536", |q| q.count() == MOST && q.bad(SIZE, |place, _| place == MOST - 1)),
    ("29, several sizes", |q| q.answer.refusal == SIZE && q.case.sizes().iter().filter(|&&size| !is_good(size)).count() > 1),
    ("29, size 0 and one above", |q| q.answer.refusal == SIZE && q.reasons[2..] == [true; 2]),
    // how many
    ("no sizes", |q| q.accepted() && q.count() == 0),
    ("one size", |q| q.accepted() && q.count() == 1),
    ("over 400 sizes", |q| q.accepted() && (401..MOST - 1).contains(&q.count())),
    ("65,535 sizes", |q| q.accepted() && q.count() == MOST - 1),
    ("65,536 sizes", |q| q.accepted() && q.count() == MOST),
    ("a good size behind the last", |q| q.accepted() && q.next_is_good()),
    ("a bad size behind the last", |q| q.accepted() && !q.next_is_good()),
    // which
    ("all equal", |q| q.accepted() && q.count() > 1 && q.case.sizes().windows(2).all(|pair| pair[0] == pair[1])),
    ("ascending", |q| q.accepted() && q.different() && q.case.sizes().is_sorted()),
    ("descending", |q| q.accepted() && q.different() && q.case.sizes().is_sorted_by(|a, b| a >= b)),
    ("no padding", |q| q.some() && q.in_blocks() == q.raw()),
    ("all in least blocks", |q| q.some() && !q.any(|padded| padded.block > 16)),
    ("a header would double the block", |q| q.accepted() && q.case.sizes().iter().any(|&size| u64::from(size) + HEADER > Model.padded(size.into()))),
    ("a header would fit the block", |q| q.accepted() && q.case.sizes().iter().any(|&size| u64::from(size) + HEADER <= Model.padded(size.into()))),
    // gaps
    ("no gap between different blocks", |q| q.accepted() && q.different() && q.end() == q.in_blocks()),
    ("a gap of 16", |q| q.any(|padded| padded.gap == 16)),
    ("a gap of half the block", |q| q.any(|padded| padded.block == 2 * padded.gap)),
    ("a gap of all but 16", |q| q.any(|Padded { block, gap }| block > 32 && block - gap == 16)),
    ("a gap of 65,520", |q| q.any(|padded| padded.gap == 65_520)),
    ("a gap before the last alone", |q| q.padded.len() > 2 && q.padded.iter().position(|padded| padded.gap > 0) == Some(q.padded.len() - 1)),
    ("gaps, and none before the last", |q| q.any(|padded| padded.gap > 0) && q.padded.last().is_some_and(|padded| padded.gap == 0)),
    ("gaps nearly as large as the blocks", |q| q.some() && 10 * q.end() > 19 * q.in_blocks()),
    ("a block that would fit an earlier gap", |q| q.fits_earlier_gap()),
    ("nearer in ascending order", |q| q.accepted() && q.ascending < q.end()),
    ("farther in ascending order", |q| q.accepted() && q.ascending > q.end()),
    // overheads
    ("headers over 100 %", |q| q.some() && q.with_headers() > 2 * q.raw()),
    ("headers under 100 %", |q| q.some() && q.with_headers() < 2 * q.raw()),
    ("padding over 100 %", |q| q.some() && q.in_blocks() > 2 * q.raw()),
    ("headers, reducible", |q| q.some() && q.reducible(4)),
    ("headers, not reducible", |q| q.some() && !q.reducible(4)),
    ("padding, reducible", |q| q.some() && q.reducible(6)),
    ("padding, not reducible", |q| q.some() && !q.reducible(6)),
    ("padding less than headers", |q| q.accepted() && q.in_blocks() < q.with_headers()),
    ("padding more than headers", |q| q.accepted() && q.in_blocks() > q.with_headers()),
    ("padding less than headers, with gaps more", |q| q.accepted() && q.in_blocks() < q.with_headers() && q.end() > q.with_headers()),
    // large sums
    ("2^32 raw bytes", |q| q.raw() == 1 << 32),
    ("2^32 bytes with headers, fewer raw", |q| q.with_headers() >= 1 << 32 && q.raw() < 1 << 32),
    ("2^32 padded bytes, fewer raw and with headers", |q| q.in_blocks() == 1 << 32 && q.with_headers() < 1 << 32),
    ("the end at 2^32, fewer padded", |q| q.end() == 1 << 32 && q.in_blocks() < 1 << 32),
    ("2^31 to 2^32 raw bytes", |q| (1 << 31..1 << 32).contains(&q.raw())),
];

impl Seen {
    pub fn look(&mut self, case: &Case, answer: Answer) {
        let mut padded = Vec::new();
        if answer.accepted() {
            let mut end = 0;
            for &size in case.sizes() {
                let block = Model.padded(size.into());
                let place = Model.place(end, block);
                padded.push(Padded { block, gap: place - end });
                end = place + block;
            }
        }
        let mut blocks: Vec<_> = padded.iter().map(|padded| padded.block).collect();
        blocks.sort_unstable();
        self.add(&Looked { case, answer, reasons: case.reasons(), padded, ascending: Model.end(&blocks) });
    }

    fn add(&mut self, looked: &Looked<'_>) {
        let Looked { case, answer, reasons, .. } = looked;
        self.cases += 1;
        self.by_case.resize(BY_CASE.len(), 0);
        self.by_case.iter_mut().zip(&BY_CASE).for_each(|(count, (_, met))| *count += u64::from(met(looked)));
        if let Some(row) = ROWS.iter().position(|&row| answer.refusal == row) {
            self.rows[row] += 1;
        }
        if let (Some(nth), 1) = (reasons.iter().position(|&is| is), reasons.iter().filter(|&&is| is).count()) {
            self.alone[nth] += 1;
        }
        if looked.accepted() {
            for exponent in 0..EXPONENTS {
                let power = 1u32 << exponent;
                for (counts, size) in self.sizes.iter_mut().zip([power - 1, power, power + 1]) {
                    counts[exponent] += u64::from(case.sizes().contains(&size));
                }
                let behind = &looked.padded[looked.padded.len().min(1)..];
                for (counts, gap) in self.blocks.iter_mut().zip([false, true]) {
                    counts[exponent] += u64::from(behind.iter().any(|padded| padded.block == u64::from(power) && (padded.gap > 0) == gap));
                }
            }
        }
    }

    /// Each thing that is counted, and how often it occurred.
    pub fn all(&self) -> Vec<(String, u64)> {
        let by_case = BY_CASE.iter().zip(&self.by_case).map(|((what, _), &count)| (what.to_string(), count));
        let rows = ROWS.iter().zip(&self.rows).map(|(row, &count)| (format!("row {row}"), count));
        let row = |nth| if nth < 2 { MANY } else { SIZE };
        let alone = REASONS.iter().zip(&self.alone).enumerate().map(|(nth, ((what, _), &count))| (format!("{}, {what} alone", row(nth)), count));
        // 0 and 65,537 are no sizes
        let below = (1..EXPONENTS).map(|exponent| (format!("size 2^{exponent} - 1"), self.sizes[0][exponent]));
        let powers = (0..EXPONENTS).map(|exponent| (format!("size 2^{exponent}"), self.sizes[1][exponent]));
        let above = (0..EXPONENTS - 1).map(|exponent| (format!("size 2^{exponent} + 1"), self.sizes[2][exponent]));
        let behind = (LEAST..EXPONENTS).map(|exponent| (format!("block 2^{exponent} right behind another"), self.blocks[0][exponent]));
        // each end is a multiple of the least block
        let gaps = (LEAST + 1..EXPONENTS).map(|exponent| (format!("block 2^{exponent} behind a gap"), self.blocks[1][exponent]));
        by_case.chain(rows).chain(alone).chain(below).chain(powers).chain(above).chain(behind).chain(gaps).collect()
    }

    /// What never occurred.
    pub fn missing(&self) -> Vec<String> {
        self.all().into_iter().filter(|&(_, count)| count == 0).map(|(what, _)| what).collect()
    }
}

impl std::fmt::Display for Seen {
    fn fmt(&self, f: &mut std::fmt::Formatter<'_>) -> std::fmt::Result {
        let all: Vec<_> = self.all().into_iter().map(|(what, count)| format!("{what}: {count}")).collect();
        write!(f, "{} cases\n{}", self.cases, all.join("; "))
    }
}

//! Sizes, exponents and budgets.

use super::case::Case;
use super::model::{all, Rules};
use super::{LARGEST, MOST};
use crate::random::Random;
use crate::store::Model;

/// Beyond the sizes that are lent there are so many that no call may touch.
const BEYOND: usize = 24;

/// How many sizes, by their weight. All orders of eight take long.
const COUNTS: [(u64, Count); 13] = [
    (40, Count::Is(1)),
    (90, Count::Is(2)),
    (150, Count::Is(3)),
    (210, Count::Is(4)),
    (210, Count::Is(5)),
    (145, Count::Is(6)),
    (45, Count::Is(7)),
    (30, Count::Is(8)),
    (25, Count::Is(0)),
    (25, Count::Is(9)),
    (20, Count::Within(10, 40)),
    // good in the low 8 bits, and in the low 16
    (8, Count::Within(257, 264)),
    (2, Count::Within(65_537, 65_544)),
];

#[derive(Clone, Copy)]
enum Count {
    Is(u64),
    Within(u64, u64),
}

/// What the sizes of a case have in common.
#[derive(Clone, Copy)]
enum Sizes {
    Mixed,
    /// Objects that fit one frame.
    Small,
    /// Objects that do not.
    Large,
    Equal,
    /// Objects of whole quarters of a frame, so that many end where one starts.
    Quarters,
    /// By turns one that does not fit a frame, and one that fits and takes half of it or more: much depends on the order.
    Turns,
}

const SIZES: [(u64, Sizes); 6] = [(64, Sizes::Mixed), (4, Sizes::Small), (4, Sizes::Large), (5, Sizes::Equal), (13, Sizes::Quarters), (10, Sizes::Turns)];

/// Of more sizes it takes long to find a worst or best order.
const ARRANGED: usize = 6;

/// Sizes are made so many times for a best order with no other as good.
const ATTEMPTS: usize = 5;

struct Worst;

impl Rules for Worst {
    fn is_better(&self, large: u64, best: u64) -> bool {
        large > best
    }
}

struct LastBest;

impl Rules for LastBest {
    fn is_better(&self, large: u64, best: u64) -> bool {
        large <= best
    }
}

/// Not allowed: just outside, or good in the low 5, 6, 8 or 16 bits.
const EXPONENTS: [u32; 18] = [0, 1, 4, 5, 5, 5, 16, 16, 16, 17, 31, 32, 32 + 7, 64 + 6, 256 + 8, 65_536 + 9, u32::MAX - 5, u32::MAX];

struct Generator {
    random: Random,
    /// The exponent, or a good one where it is bad; and 2^s of it.
    s: u32,
    frame: u32,
}

impl Generator {
    fn count(&mut self) -> usize {
        let count = match self.random.weighted(&COUNTS) {
            Count::Is(count) => count,
            Count::Within(low, high) => self.random.within(low, high),
        };
        count as usize
    }

    /// Of an object that fits one frame.
    fn small(&mut self) -> u32 {
        match self.random.below(8) {
            0 => self.random.below(10) as u32,
            1 => self.frame - 17 - self.random.below(4) as u32,
            _ => self.random.below(u64::from(self.frame) - 16) as u32,
        }
    }

    /// Of one that does not.
    fn large(&mut self) -> u32 {
        let (frame, frames) = (u64::from(self.frame), self.random.within(1, 4));
        let size = match self.random.below(12) {
            0 => frame - 16 + self.random.below(4),
            1 => u64::from(LARGEST) - self.random.below(24),
            2 => self.random.within(frame, u64::from(LARGEST)),
            3 => frames * frame - 16 + self.random.below(3),
            4 => (frames + 1) * frame - 17 - self.random.below(3),
            _ => self.random.within(frame - 16, (frames + 1) * frame),
        };
        size.min(LARGEST.into()) as u32
    }

    fn size(&mut self, of: Sizes, earlier: &[u32]) -> u32 {
        match of {
            Sizes::Equal if !earlier.is_empty() => earlier[0],
            Sizes::Small => self.small(),
            Sizes::Large => self.large(),
            Sizes::Quarters => {
                let quarters = self.random.within(1, 9);
                let size = quarters * u64::from(self.frame) / 4 - 16 + self.random.pick(&[0, 0, 0, 0, 0, 1]);
                size.min(LARGEST.into()) as u32
            }
            Sizes::Turns if earlier.len().is_multiple_of(2) => self.random.within(u64::from(self.frame) - 16, 2 * u64::from(self.frame) - 17) as u32,
            Sizes::Turns => self.random.within(u64::from(self.frame) / 2 - 16, u64::from(self.frame) - 17) as u32,
            Sizes::Mixed | Sizes::Equal => match self.random.below(20) {
                0..2 if !earlier.is_empty() => self.random.pick(earlier),
                2 => self.random.pick(&[0, 1, self.frame - 18, self.frame - 17, self.frame - 16, self.frame - 15, LARGEST - 1, LARGEST]),
                3..10 => self.large(),
                _ => self.small(),
            },
        }
    }

    fn sizes(&mut self, count: usize) -> Vec<u32> {
        let of = self.random.weighted(&SIZES);
        let mut sizes = Vec::with_capacity(count + BEYOND);
        for _ in 0..count {
            let size = self.size(of, &sizes);
            sizes.push(size);
        }
        sizes
    }

    /// In an order with the most large-framed objects.
    fn worst(&mut self, count: usize) -> Vec<u32> {
        let sizes = self.sizes(count);
        let (order, ..) = Worst.search(&sizes, self.s, u64::MAX);
        order.iter().map(|&position| sizes[position]).collect()
    }

    /// So that the last of all orders is a best one; after some attempts at the latest, with others that are as good.
    fn best_last(&mut self, count: usize) -> Vec<u32> {
        let mut attempts = 0;
        loop {
            attempts += 1;
            let sizes = self.sizes(count);
            let (best, ..) = Model.search(&sizes, self.s, u64::MAX);
            if attempts == ATTEMPTS || best == LastBest.search(&sizes, self.s, u64::MAX).0 {
                return best.iter().rev().map(|&position| sizes[position]).collect();
            }
        }
    }

    fn given(&mut self, count: usize) -> Vec<u32> {
        match self.random.below(100) {
            0..18 if (2..=ARRANGED).contains(&count) => self.worst(count),
            18..36 if (2..=ARRANGED).contains(&count) => self.best_last(count),
            _ => self.sizes(count),
        }
    }

    /// Not allowed: just above, or good in the low 16 bits.
    fn too_large(&mut self) -> u32 {
        let small = self.small();
        self.random.pick(&[LARGEST + 1, LARGEST + 1, LARGEST + 2, u32::MAX, u32::MAX - 16, 1 << 31, 65_536 + small, (1 << 31) + small])
    }

    fn spoil(&mut self, sizes: &mut [u32]) {
        let last = sizes.len() - 1;
        let at = self.random.below(sizes.len() as u64) as usize;
        let at = self.random.pick(&[0, last, at]);
        sizes[at] = self.too_large();
        if self.random.percent(15) {
            let at = self.random.below(sizes.len() as u64) as usize;
            sizes[at] = self.too_large();
        }
    }

    fn budget(&mut self, count: usize) -> u64 {
        let all = all(count.min(MOST));
        let some = self.random.within(1, all);
        match self.random.below(40) {
            0..3 => 0,
            3..6 => 1,
            6..10 => self.random.within(2, 6),
            10..13 => (all - 1).max(1),
            13..19 => all,
            19..22 => all + 1,
            22..25 => 40_320,
            25..28 => u64::MAX,
            // 0 or some in the low 32 bits
            28 => self.random.within(1, 9) << 32,
            29 => (self.random.within(1, 9) << 32) + some,
            30 => self.random.number().max(1),
            _ => some,
        }
    }
}

/// The case of a seed.
pub fn case(seed: u64) -> Case {
    let mut random = Random::new(seed);
    let s = random.within(6, 15) as u32;
    let slot_exponent = if random.percent(7) { random.pick(&EXPONENTS) } else { s };
    let mut generator = Generator { random, s, frame: 1 << s };
    let lent = generator.count();
    let mut sizes = generator.given(lent);
    if lent > 0 && generator.random.percent(if lent == MOST { 20 } else { 5 }) {
        generator.spoil(&mut sizes);
    }
    let budget = if Model.plan_is_good(&sizes, slot_exponent) || generator.random.percent(80) { generator.budget(lent) } else { 0 };
    sizes.extend((0..BEYOND).map(|_| generator.random.word() as u32));
    Case { sizes, lent, slot_exponent, budget }
}

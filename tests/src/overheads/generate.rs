//! Lists of sizes.

use super::case::Case;
use super::{LARGEST, MOST};
use crate::random::Random;

/// Beyond the sizes that are lent there are so many that no call may touch.
const BEYOND: usize = 24;

/// How many sizes, by their weight. The longest take long.
const COUNTS: [(u64, Count); 16] = [
    (300, Count::Is(0)),
    (500, Count::Is(1)),
    (900, Count::Is(2)),
    (900, Count::Is(3)),
    (3_400, Count::Within(4, 12)),
    (3_000, Count::Within(13, 60)),
    (700, Count::Within(61, 400)),
    (100, Count::Within(401, 3_000)),
    (5, Count::Within(3_001, 65_534)),
    (10, Count::Is(65_535)),
    (45, Count::Is(65_536)),
    (60, Count::Is(65_537)),
    (20, Count::Is(65_538)),
    // few in the low 16 bits
    (20, Count::Within(65_539, 65_600)),
    (15, Count::Is(131_072)),
    (10, Count::Within(131_073, 131_100)),
];

#[derive(Clone, Copy)]
enum Count {
    Is(u64),
    Within(u64, u64),
}

/// What the sizes of a list have in common.
#[derive(Clone, Copy)]
enum Sizes {
    Mixed,
    /// Powers of two and their neighbours.
    Around,
    /// Powers of two from 16 on: no padding.
    Powers,
    /// Few bytes.
    Small,
    /// More than half of the largest.
    Large,
    /// All the same.
    Equal,
    /// All the largest.
    Largest,
    /// All nearly so: with headers they are above it.
    Nearly,
    /// By turns a small one and a larger one, so that gaps are large.
    Turns,
    /// By turns the least and the largest, so that they are largest.
    Extremes,
    Ascending,
    Descending,
}

const SIZES: [(u64, Sizes); 12] = [
    (30, Sizes::Mixed),
    (16, Sizes::Around),
    (6, Sizes::Powers),
    (8, Sizes::Small),
    (6, Sizes::Large),
    (8, Sizes::Equal),
    (2, Sizes::Largest),
    (2, Sizes::Nearly),
    (8, Sizes::Turns),
    (3, Sizes::Extremes),
    (7, Sizes::Ascending),
    (6, Sizes::Descending),
];

/// Of a full list, whose sums are largest.
const OF_MOST: [(u64, Sizes); 5] = [(4, Sizes::Largest), (3, Sizes::Nearly), (3, Sizes::Large), (3, Sizes::Extremes), (1, Sizes::Mixed)];

struct Generator {
    random: Random,
}

impl Generator {
    fn count(&mut self) -> usize {
        let count = match self.random.weighted(&COUNTS) {
            Count::Is(count) => count,
            Count::Within(low, high) => self.random.within(low, high),
        };
        count as usize
    }

    fn within(&mut self, low: u32, high: u32) -> u32 {
        self.random.within(low.into(), high.into()) as u32
    }

    /// A power of two, or a neighbour of one.
    fn around(&mut self) -> u32 {
        let power = 1 << self.random.within(0, 16);
        (power + self.random.pick(&[0, 1, 2]) - 1).clamp(1, LARGEST)
    }

    /// As many of each number of digits.
    fn by_length(&mut self) -> u32 {
        let high = 1 << self.random.within(0, 16);
        self.within(1, high)
    }

    fn mixed(&mut self, earlier: &[u32]) -> u32 {
        match self.random.below(10) {
            0 if !earlier.is_empty() => self.random.pick(earlier),
            0..4 => self.around(),
            4 => self.within(1, LARGEST),
            5 => self.within(1, 40),
            _ => self.by_length(),
        }
    }

    fn size(&mut self, of: Sizes, earlier: &[u32]) -> u32 {
        let turn = earlier.len() % 2;
        match of {
            Sizes::Equal if !earlier.is_empty() => earlier[0],
            Sizes::Mixed | Sizes::Equal | Sizes::Ascending | Sizes::Descending => self.mixed(earlier),
            Sizes::Around => self.around(),
            Sizes::Powers => 1 << self.random.within(4, 16),
            Sizes::Small => self.within(1, 40),
            Sizes::Large => self.within(LARGEST / 2 + 1, LARGEST),
            Sizes::Largest => LARGEST,
            Sizes::Nearly => self.within(LARGEST - 15, LARGEST),
            Sizes::Turns if turn == 0 => self.within(1, 64),
            Sizes::Turns => self.by_length().max(65),
            Sizes::Extremes => [self.within(1, 16), LARGEST][turn],
        }
    }

    fn sizes(&mut self, count: usize) -> Vec<u32> {
        let of = self.random.weighted(if count == MOST { &OF_MOST[..] } else { &SIZES });
        let mut sizes = Vec::with_capacity(count + BEYOND);
        for _ in 0..count {
            let size = self.size(of, &sizes);
            sizes.push(size);
        }
        match of {
            Sizes::Ascending => sizes.sort_unstable(),
            Sizes::Descending => sizes.sort_unstable_by(|a, b| b.cmp(a)),
            _ => {}
        }
        sizes
    }

    /// Not allowed: 0, just above, or good or 0 in the low 16 bits.
    fn bad(&mut self) -> u32 {
        let good = self.by_length();
        self.random.pick(&[0, 0, 0, 0, 65_537, 65_537, 65_538, 1 << 31, u32::MAX, u32::MAX, 131_072, 65_536 + good, (1 << 31) + good])
    }

    fn spoil(&mut self, sizes: &mut [u32]) {
        let last = sizes.len() - 1;
        let at = self.random.below(sizes.len() as u64) as usize;
        let at = self.random.pick(&[0, last, at]);
        sizes[at] = self.bad();
        if self.random.percent(15) {
            let at = self.random.below(sizes.len() as u64) as usize;
            sizes[at] = self.bad();
        }
    }
}

/// The case of a seed.
pub fn case(seed: u64) -> Case {
    let mut generator = Generator { random: Random::new(seed) };
    let lent = generator.count();
    let mut sizes = generator.sizes(lent);
    if lent > 0 && generator.random.percent(if lent < MOST { 8 } else { 40 }) {
        generator.spoil(&mut sizes);
    }
    for _ in 0..BEYOND {
        let size = if generator.random.percent(80) { generator.mixed(&[]) } else { generator.bad() };
        sizes.push(size);
    }
    Case { sizes, lent }
}

//! Without the model: the library's answers by definition, and against its answers to other lists.

use cueledger::{Fraction, Overhead, Refusal};
use cueledger_tests::overheads::generate::case;
use cueledger_tests::overheads::{LARGEST, MOST};
use cueledger_tests::print;
use cueledger_tests::random::{fresh_seed, Random};

fn of(sizes: &[u32]) -> Overhead {
    Overhead::of(sizes).unwrap()
}

/// The padded block of each size, as a list of it alone has it.
fn blocks() -> Vec<u64> {
    (0..=LARGEST).map(|size| Overhead::of(&[size]).map_or(0, |report| report.padded)).collect()
}

#[test]
fn every_size_alone() {
    assert_eq!(Overhead::of(&[0]), Err(Refusal::BadSize));
    for size in 1..=LARGEST {
        let report = of(&[size]);
        let (raw, block) = (u64::from(size), report.padded);
        assert!(block.is_power_of_two() && block >= 16 && block >= raw, "size {size}: {block}");
        assert!(block / 2 < raw || block / 2 < 16, "size {size}: {block}");
        let headers = Fraction { extra: 16, over: raw };
        assert_eq!(report, Overhead { raw, with_headers: raw + 16, padded: block, end: block, headers, padding: Fraction { extra: block - raw, over: raw } });
    }
}

/// How often there were gaps, none between different blocks, and an end that another order changes.
type Counts = [u64; 3];

/// The sums are those of the sizes alone, and the end is one of the places that it may be.
fn is_as_defined(sizes: &[u32], blocks: &[u64], report: &Overhead) {
    let sum = |of: &dyn Fn(u32) -> u64| sizes.iter().map(|&size| of(size)).sum::<u64>();
    let raw = sum(&|size| size.into());
    assert_eq!((report.raw, report.with_headers, report.padded), (raw, raw + 16 * sizes.len() as u64, sum(&|size| blocks[size as usize])));
    let over = if sizes.is_empty() { 1 } else { raw };
    assert_eq!((report.headers.over, report.padding.over), (over, over));
    assert_eq!((report.headers.extra, report.padding.extra), (report.with_headers - raw, report.padded - raw));
    assert!(report.end >= report.padded && (sizes.is_empty() || report.end < 2 * report.padded));
}

/// Each size, added to those before it, puts its block to the lowest multiple.
fn ends_are_the_lowest(sizes: &[u32], blocks: &[u64]) {
    let mut before = 0;
    for count in 1..=sizes.len() {
        let (block, end) = (blocks[sizes[count - 1] as usize], of(&sizes[..count]).end);
        let place = end - block;
        assert!(place % block == 0 && place >= before && place < before + block, "{:?}: {before}, {end}", &sizes[..count]);
        before = end;
    }
}

fn shuffled(random: &mut Random, sizes: &[u32]) -> Vec<u32> {
    let mut sizes = sizes.to_vec();
    for left in (2..=sizes.len()).rev() {
        sizes.swap(left - 1, random.below(left as u64) as usize);
    }
    sizes
}

/// In another order all is the same but the end; the largest first leave no gap.
fn orders_change_the_end_alone(random: &mut Random, sizes: &[u32], report: &Overhead) -> bool {
    let other = of(&shuffled(random, sizes));
    assert_eq!(other, Overhead { end: other.end, ..*report });
    let mut descending = sizes.to_vec();
    descending.sort_unstable_by(|a, b| b.cmp(a));
    assert_eq!(of(&descending), Overhead { end: report.padded, ..*report });
    other.end != report.end
}

/// Of two lists, one behind the other, the sums add up; the end does where the first's is a multiple of the largest block.
fn sums_add_up(sizes: &[u32], at: usize, report: &Overhead) {
    let (first, second) = (of(&sizes[..at]), of(&sizes[at..]));
    assert_eq!(first.raw + second.raw, report.raw);
    assert_eq!(first.with_headers + second.with_headers, report.with_headers);
    assert_eq!(first.padded + second.padded, report.padded);
    assert!(report.end >= first.end);
    if first.end % u64::from(LARGEST) == 0 {
        assert_eq!(first.end + second.end, report.end);
    }
}

/// One bad size anywhere refuses the list, and one too many.
fn others_are_refused(random: &mut Random, sizes: &[u32]) {
    let mut sizes = sizes.to_vec();
    sizes.insert(random.within(0, sizes.len() as u64) as usize, random.pick(&[0, LARGEST + 1, 1 << 31, u32::MAX]));
    assert_eq!(Overhead::of(&sizes), Err(if sizes.len() <= MOST { Refusal::BadSize } else { Refusal::TooManySizes }));
    sizes.resize(MOST + 1, 1);
    assert_eq!(Overhead::of(&sizes), Err(Refusal::TooManySizes));
}

fn by_definition(seed: u64, blocks: &[u64]) -> Counts {
    const CASES: u64 = 3_000;
    let (mut random, mut counts) = (Random::new(seed), [0; 3]);
    for case in (0..CASES).map(|number| case(seed.wrapping_add(number))) {
        let sizes = case.sizes();
        let Ok(report) = Overhead::of(sizes) else { continue };
        is_as_defined(sizes, blocks, &report);
        ends_are_the_lowest(&sizes[..sizes.len().min(200)], blocks);
        let changed = orders_change_the_end_alone(&mut random, sizes, &report);
        sums_add_up(sizes, random.within(0, sizes.len() as u64) as usize, &report);
        if random.percent(10) {
            others_are_refused(&mut random, sizes);
        }
        let different = sizes.iter().any(|&size| blocks[size as usize] != blocks[sizes[0] as usize]);
        let occurred = [report.end > report.padded, different && report.end == report.padded, changed];
        counts.iter_mut().zip(occurred).for_each(|(count, occurred)| *count += u64::from(occurred));
    }
    counts
}

#[test]
fn answers_are_right_by_definition() {
    let blocks = blocks();
    for seed in [1, fresh_seed()] {
        print(&format!("overheads, by definition: seed {seed}"));
        let counts = by_definition(seed, &blocks);
        print(&format!("reports with gaps {}, without between different blocks {}, with another end in another order {}", counts[0], counts[1], counts[2]));
        assert!(counts.iter().all(|&count| count > 100), "{counts:?}");
    }
}

/// A size more, or a larger one, never comes to less.
#[test]
fn reports_grow() {
    let mut random = Random::new(fresh_seed());
    for _ in 0..2_000 {
        let sizes: Vec<_> = (0..random.within(1, 30)).map(|_| (random.word() as u32 >> random.within(16, 31)).clamp(1, LARGEST)).collect();
        let at = random.below(sizes.len() as u64) as usize;
        let mut larger = sizes.clone();
        larger[at] = random.within(sizes[at].into(), LARGEST.into()) as u32;
        let (without, with, grown) = (of(&sizes[..sizes.len() - 1]), of(&sizes), of(&larger));
        for (less, more) in [(without, with), (with, grown)] {
            assert!(
                less.raw <= more.raw && less.with_headers <= more.with_headers && less.padded <= more.padded && less.end <= more.end,
                "{sizes:?}, {larger:?}"
            );
        }
    }
}

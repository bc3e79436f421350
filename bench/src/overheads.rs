//! The overhead report: the whole call, against a loop over the sizes in Rust, and against one that has no branch for each size.

use crate::measure::{repeat, Bench, Other, Rounds};
use cueledger::ffi;
use cueledger_tests::random::Random;
use std::hint::black_box;

const MOST: usize = 65_536;
const LARGEST: u32 = 65_536;

/// The eight values, or the refusal's number.
type Report = Result<[u64; 8], u32>;

fn values(count: usize, raw: u64, padded: u64, end: u64) -> [u64; 8] {
    let (extra, over) = (16 * count as u64, raw.max(1));
    [raw, raw + extra, padded, end, extra, over, padded - raw, over]
}

/// Stops at a bad size.
fn model(sizes: &[u32]) -> Report {
    if sizes.len() > MOST {
        return Err(28);
    }
    let (mut raw, mut padded, mut end) = (0, 0, 0u64);
    for &size in sizes {
        if !(1..=LARGEST).contains(&size) {
            return Err(29);
        }
        let block = u64::from(size).next_power_of_two().max(16);
        raw += u64::from(size);
        padded += block;
        end = end.next_multiple_of(block) + block;
    }
    Ok(values(sizes.len(), raw, padded, end))
}

/// By masks, with no branch for a size: whether one was bad is looked at in the end.
fn branchless(sizes: &[u32]) -> Report {
    if sizes.len() > MOST {
        return Err(28);
    }
    // `top` is the last byte in use, from the one before 0 on
    let (mut raw, mut padded, mut top, mut bad) = (0, 0, u64::MAX, 0);
    for &size in sizes {
        let last = size.wrapping_sub(1);
        bad |= last;
        // the block less one: 15 at least
        let mask = u64::from(u32::MAX >> (last | 8).leading_zeros());
        raw += u64::from(size);
        padded += mask + 1;
        top = top.wrapping_add(mask + 1) | mask;
    }
    if bad >= LARGEST {
        return Err(29);
    }
    Ok(values(sizes.len(), raw, padded, top.wrapping_add(1)))
}

fn library(sizes: &[u32]) -> Report {
    let mut values = [0; 8];
    let [raw, with_headers, padded, end, headers_extra, headers_over, padded_extra, padded_over] = &mut values;
    // SAFETY: a slice that is valid for the call; so are the values.
    let refusal =
        unsafe { ffi::cue_overhead(sizes.as_ptr(), sizes.len(), raw, with_headers, padded, end, headers_extra, headers_over, padded_extra, padded_over) };
    if refusal == 0 {
        Ok(values)
    } else {
        Err(refusal)
    }
}

pub fn measure(bench: &mut Bench) {
    bench.heading("overhead report", "branchless");
    let mut random = Random::new(1);
    let any: Vec<_> = (0..MOST).map(|_| random.within(1, LARGEST.into()) as u32).collect();
    let small: Vec<_> = (0..MOST).map(|_| 1 + (random.word() as u32 >> random.within(16, 31))).collect();
    let refused: Vec<_> = any[1..].iter().copied().chain([0]).collect();
    let mut line = |name: &str, sizes: &[u32], refusal: u32| {
        let mut sizes = sizes.to_vec();
        let found = library(&sizes);
        assert_eq!(found.err().unwrap_or(0), refusal);
        assert_eq!([model(&sizes), branchless(&sizes)], [found; 2]);
        let calls = MOST / sizes.len();
        macro_rules! round {
            ($call:expr) => {
                |sizes: &mut Vec<u32>| repeat(calls, |_| assert_eq!(black_box($call(black_box(sizes))), found))
            };
        }
        bench.line(name, calls, &mut sizes, Rounds::new(round!(library), round!(model)), Other::Shown(&mut round!(branchless)));
    };
    line("65,536 sizes", &any, 0);
    line("65,536 sizes, many small", &small, 0);
    line("1,000 sizes", &any[..1_000], 0);
    line("10 sizes", &any[..10], 0);
    line("65,536 sizes, the last is 0", &refused, 29);
}

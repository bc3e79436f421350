//! Orders with few large frames: the whole call, against next permutation in Rust, which counts each order from its first object on, and
//! against one that counts only from the first place that has changed.

use crate::measure::{repeat, Bench, Other, Rounds};
use cueledger::ffi;
use std::hint::black_box;

const MOST: usize = 8;

/// What is asked: sizes, slot exponent and budget.
struct Asked {
    sizes: Vec<u32>,
    slot_exponent: u32,
    budget: u64,
}

/// Order, large, tried and floor, or the refusal's number.
type Found = Result<[u64; 4], u32>;

/// 26, 27.
fn refused(Asked { sizes, slot_exponent, budget }: &Asked) -> Option<u32> {
    if !(1..=MOST).contains(&sizes.len()) || sizes.iter().any(|&size| size > 65_535) || !(6..=15).contains(slot_exponent) {
        return Some(26);
    }
    (*budget == 0).then_some(27)
}

/// The order behind this one, and the first place that has changed; none behind the last.
#[inline]
fn next(order: &mut [u8]) -> Option<usize> {
    let mut falls = order.len() - 1;
    while falls > 0 && order[falls - 1] > order[falls] {
        falls -= 1;
    }
    if falls == 0 {
        return None;
    }
    let pivot = order[falls - 1];
    let mut above = order.len() - 1;
    while order[above] < pivot {
        above -= 1;
    }
    order.swap(falls - 1, above);
    order[falls..].reverse();
    Some(falls - 1)
}

/// Where each object's header stands, and how many before it are large-framed; what is before a place does not change with what is behind it.
#[derive(Clone, Copy)]
struct Placed {
    h: u32,
    large: u32,
}

/// `KEEP`: counts from the first changed place on.
fn model<const KEEP: bool>(asked: &Asked) -> Found {
    if let Some(refusal) = refused(asked) {
        return Err(refusal);
    }
    let Asked { slot_exponent: s, budget, .. } = *asked;
    let count = asked.sizes.len();
    let mut blocks = [0; MOST];
    blocks.iter_mut().zip(&asked.sizes).for_each(|(block, size)| *block = 16 + size);
    let mut order = [0, 1, 2, 3, 4, 5, 6, 7];
    let order = &mut order[..count];
    let mut placed = [Placed { h: 16, large: 0 }; MOST + 1];
    let (mut best, mut fewest, mut tried, mut changed) = ([0; MOST], u32::MAX, 0, 0);
    loop {
        tried += 1;
        let from = if KEEP { changed } else { 0 };
        let Placed { mut h, mut large } = placed[from];
        for place in from..count {
            let e = h + blocks[usize::from(order[place] & 7)];
            large += u32::from(h >> s != e >> s);
            h = e;
            if KEEP {
                placed[place + 1] = Placed { h, large };
            }
        }
        if large < fewest {
            fewest = large;
            best[..count].copy_from_slice(order);
        }
        if tried == budget {
            break;
        }
        match next(order) {
            Some(place) => changed = place,
            None => break,
        }
    }
    let floor = blocks[..count].iter().filter(|&&block| block >= 1 << s).count();
    Ok([u64::from_le_bytes(best), fewest.into(), tried, floor as u64])
}

fn library(Asked { sizes, slot_exponent, budget }: &Asked) -> Found {
    let (mut order, mut large, mut tried, mut floor) = (0, 0, 0, 0);
    // SAFETY: a slice that is valid for the call; so are the values.
    let refusal = unsafe { ffi::cue_order(sizes.as_ptr(), sizes.len(), *slot_exponent, *budget, &mut order, &mut large, &mut tried, &mut floor) };
    if refusal == 0 {
        Ok([order, large, tried, floor])
    } else {
        Err(refusal)
    }
}

pub fn measure(bench: &mut Bench) {
    bench.heading("order", "kept");
    let sizes = [790, 1_160, 960, 240, 950, 690, 500, 2_070];
    let mut line = |name: &str, count: usize, budget: u64, tried: u64| {
        let mut asked = Asked { sizes: sizes[..count].to_vec(), slot_exponent: 10, budget };
        let found = library(&asked);
        assert_eq!(found.map(|values| values[2]), Ok(tried));
        assert_eq!([model::<false>(&asked), model::<true>(&asked)], [found; 2]);
        let calls = (40_320 / tried) as usize;
        macro_rules! round {
            ($call:expr) => {
                |asked: &mut Asked| repeat(calls, |_| assert_eq!(black_box($call(black_box(&*asked))), found))
            };
        }
        bench.line(name, calls, &mut asked, Rounds::new(round!(library), round!(model::<false>)), Other::Shown(&mut round!(model::<true>)));
    };
    line("8 sizes, all 40,320 orders", 8, u64::MAX, 40_320);
    line("8 sizes, budget 100", 8, 100, 100);
    line("5 sizes, all 120 orders", 5, u64::MAX, 120);
}

//! Compare and text copy, beside slice functions behind the same tests.

use crate::accesses::address;
use crate::all;
use crate::bulk::slice;
use crate::contestants::{Calls, Lent};
use crate::measure::{repeat, Bench};
use cueledger_tests::model::{self, Answer, CompareAnswer};
use std::ffi::CStr;
use std::hint::black_box;

/// Name, bytes, calls in a round.
const SIZES: [(&str, u32, usize); 2] = [("16 B", 16, 20_000), ("4 KiB", 4 << 10, 2_000)];

/// Where a zero byte is.
type Search = fn(&[u8]) -> Option<usize>;

/// `CStr` has core's `memchr`, which goes a word at a time.
const SEARCHES: [(&str, Search); 2] =
    [("position", |bytes| bytes.iter().position(|&byte| byte == 0)), ("memchr", |bytes| CStr::from_bytes_until_nul(bytes).ok().map(CStr::count_bytes))];

// ---- the model's tests, then slice functions

fn compare(lent: &Lent, left: u64, right: u64, length: u32) -> CompareAnswer {
    let s = model::open(&lent.image, &lent.table)?;
    if length == 0 {
        return Err(6);
    }
    let left = model::access(&lent.image, &lent.table, s, left, length.into())?;
    let right = model::access(&lent.image, &lent.table, s, right, length.into())?;
    Ok(lent.image[left..][..length as usize].cmp(&lent.image[right..][..length as usize]) as i64)
}

fn copy_text(lent: &mut Lent, target: u64, source: u64, search: Search) -> Answer {
    let s = model::open(&lent.image, &lent.table)?;
    let body = model::body_from(&lent.image, &lent.table, s, source, 1)?;
    let bytes = 1 + search(&lent.image[body.clone()]).ok_or(20u32)?;
    let to = model::access(&lent.image, &lent.table, s, target, bytes as u64)?;
    lent.image.copy_within(body.start..body.start + bytes, to);
    Ok(bytes as u64)
}

// ---- lines

fn compares(bench: &mut Bench) {
    for (name, length, passes) in SIZES {
        for (kind, order, differs) in [("alike", 0, None), ("first byte differs", 1, Some(0)), ("last byte differs", 1, Some(length as usize - 1))] {
            let mut lent = Lent::new(64 << 10, 15);
            let [left, right] = [length; 2].map(|size| lent.allocate(size));
            if let Some(place) = differs {
                lent.image[address(left) + place] = 1;
            }
            bench.line(
                &format!("compare {name}, {kind}"),
                passes,
                &mut lent,
                all!(|C, lent: Lent| repeat(passes, |_| assert_eq!(C::compare(lent, black_box(left), right, length), Ok(order)))),
                slice(length as usize, &mut |lent| repeat(passes, |_| assert_eq!(compare(lent, black_box(left), right, length), Ok(order)))),
            );
        }
    }
}

/// Texts that end with their object; and objects without a zero byte, which are searched and refused.
fn texts(bench: &mut Bench) {
    for (name, length, passes) in SIZES {
        for (by, search) in SEARCHES {
            for (kind, letters, expected) in [("", length - 1, Ok(u64::from(length))), (", no zero byte", length, Err(20))] {
                let mut lent = Lent::new(64 << 10, 15);
                let [source, target] = [length; 2].map(|size| lent.allocate(size));
                lent.image[address(source)..][..letters as usize].fill(b'_');
                bench.line(
                    &format!("text copy {name}{kind}, {by}"),
                    passes,
                    &mut lent,
                    all!(|C, lent: Lent| repeat(passes, |_| assert_eq!(C::copy_text(lent, target, black_box(source)), expected))),
                    slice(length as usize, &mut |lent| repeat(passes, |_| assert_eq!(copy_text(lent, target, black_box(source), search), expected))),
                );
            }
        }
    }
}

pub fn measure(bench: &mut Bench) {
    bench.heading("whole call; slice: behind the same tests", "slice");
    compares(bench);
    texts(bench);
}

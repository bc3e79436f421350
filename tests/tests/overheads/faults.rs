//! The comparison itself: it finds each of these faults, and only in cases of the kinds that show it.

use cueledger_tests::model::HEADER;
use cueledger_tests::overheads::case::{Case, Failure};
use cueledger_tests::overheads::generate::case;
use cueledger_tests::overheads::model::Rules;
use cueledger_tests::overheads::{Answer, Overheads, LARGEST, MOST, VALUES};
use cueledger_tests::store::Model;
use std::collections::{BTreeMap, BTreeSet};

/// The cases of the seeds from 0 on among which a fault must be found.
const WITHIN: u64 = 2_000;

/// Of the lists from so many sizes on, which take long: the first of each number of sizes that matters and of each kind, of those with a bad
/// size at the end and of those with the largest sizes alone, among the cases in which the library is compared.
const LONG: usize = 20_000;
const COMPARED: u64 = 30_000;
const COUNTS: [usize; 5] = [65_535, 65_536, 65_537, 65_538, 131_072];

/// Its name, the kinds of cases that show it, the first of them in any case, and itself.
type Fault = (&'static str, &'static [&'static str], &'static dyn Overheads);

const GOOD: &[&str] = &["good"];
const KINDS_OF_28: &[&str] = &["65,537 sizes", "more sizes", "several"];
const KINDS_OF_29: &[&str] = &["size 0", "a size above", "several"];
const ABOVE: &[&str] = &["a size above", "several"];
const GOOD_AND_29: &[&str] = &["good", "size 0", "a size above", "several"];

/// The model with one rule each that is not the text's.
macro_rules! rules {
    ($($name:literal, $by:expr => { $($rule:tt)* })*) => {
        const RULES: &[Fault] = &[$(($name, $by, {
            struct Wrong;
            impl Rules for Wrong {
                $($rule)*
            }
            &Wrong
        })),*];
    };
}

/// What was given, and what the model answers.
struct Asked<'a> {
    sizes: &'a mut [u32],
    right: Answer,
}

const RAW: usize = 0;
const WITH_HEADERS: usize = 1;
const PADDED: usize = 2;
const END: usize = 3;
const HEADERS_EXTRA: usize = 4;
const HEADERS_OVER: usize = 5;
const PADDED_EXTRA: usize = 6;
const PADDED_OVER: usize = 7;

impl Asked<'_> {
    /// The model's answer for other sizes.
    fn asked(&self, sizes: &[u32]) -> Answer {
        Model.report(sizes).into()
    }

    /// The same for each size changed.
    fn changed(&self, change: impl Fn(u32) -> u32) -> Answer {
        self.asked(&self.sizes.iter().map(|&size| change(size)).collect::<Vec<_>>())
    }

    fn padded(&self) -> Vec<u64> {
        self.sizes.iter().map(|&size| Model.padded(size.into())).collect()
    }

    /// The right answer with one of its values changed, where it is accepted.
    fn with(&self, nth: usize, value: impl Fn(&[u64; VALUES]) -> u64) -> Answer {
        let mut answer = self.right;
        if answer.accepted() {
            answer.values[nth] = value(&self.right.values);
        }
        answer
    }

    /// The right answer with another end, where it is accepted.
    fn with_end(&self, end: impl Fn(Vec<u64>) -> u64) -> Answer {
        self.with(END, |_| end(self.padded()))
    }

    /// The right answer with other values, where it is accepted for some sizes.
    fn with_all(&self, values: impl Fn([u64; VALUES]) -> [u64; VALUES]) -> Answer {
        let mut answer = self.right;
        if answer.accepted() && !self.sizes.is_empty() {
            answer.values = values(answer.values);
        }
        answer
    }

    /// A refusal with a value that is not 0.
    fn not_zeroed(&self, row: u32, nth: usize) -> Answer {
        let mut answer = self.right;
        if answer.refusal == row {
            answer.values[nth] = 1;
        }
        answer
    }

    /// A refusal with the values of the good sizes before the first bad one, or of the first 65,536.
    fn so_far(&self, row: u32) -> Answer {
        let mut answer = self.right;
        if answer.refusal == row {
            let bad = self.sizes.iter().position(|&size| !Model.size_is_good(size)).unwrap_or(self.sizes.len());
            answer.values = self.asked(&self.sizes[..bad.min(MOST)]).values;
        }
        answer
    }
}

/// The model with something else done when it has answered.
struct Behind(fn(&mut Asked<'_>) -> Answer);

impl Overheads for Behind {
    fn overhead(&self, sizes: &mut [u32]) -> Answer {
        let right = Model.overhead(sizes);
        (self.0)(&mut Asked { sizes, right })
    }
}

/// Each block into the least gap that it fits, or behind the last, as a buddy allocator has it.
fn into_gaps(blocks: Vec<u64>) -> u64 {
    // by exponent, the multiples of their own size that gaps consist of
    let (mut gaps, mut end) = ([0; 17], 0u64);
    for block in blocks {
        let exponent = block.ilog2() as usize;
        if let Some(larger) = (exponent..17).find(|&larger| gaps[larger] > 0) {
            gaps[larger] -= 1;
            gaps[exponent..larger].iter_mut().for_each(|count| *count += 1);
            continue;
        }
        while !end.is_multiple_of(block) {
            gaps[end.trailing_zeros() as usize] += 1;
            end += 1 << end.trailing_zeros();
        }
        end += block;
    }
    end
}

fn common_divisor(a: u64, b: u64) -> u64 {
    if b == 0 {
        a
    } else {
        common_divisor(b, a % b)
    }
}

/// Of blocks that may be under the size.
fn wrapped(bytes: u64, raw: u64) -> [u64; 2] {
    [bytes.wrapping_sub(raw), raw.max(1)]
}

fn reduced(values: &mut [u64]) {
    let by = common_divisor(values[0], values[1]);
    values.iter_mut().for_each(|value| *value /= by);
}

rules! {
    // ---- padded blocks
    "least block 1", GOOD => { fn least(&self) -> u64 { 1 } }
    "least block 2", GOOD => { fn least(&self) -> u64 { 2 } }
    "least block 8", GOOD => { fn least(&self) -> u64 { 8 } }
    "least block 32", GOOD => { fn least(&self) -> u64 { 32 } }
    "least block 64", GOOD => { fn least(&self) -> u64 { 64 } }
    "the power above", GOOD => { fn padded(&self, size: u64) -> u64 { Model.padded(size + 1) } }
    "the power above from 17 on", GOOD => { fn padded(&self, size: u64) -> u64 { if size > 16 { Model.padded(size + 1) } else { 16 } } }
    "the power above of 16", GOOD => { fn padded(&self, size: u64) -> u64 { if size == 16 { 32 } else { Model.padded(size) } } }
    "the power above of 65,536", GOOD => { fn padded(&self, size: u64) -> u64 { if size == 65_536 { 131_072 } else { Model.padded(size) } } }
    "twice the power", GOOD => { fn padded(&self, size: u64) -> u64 { 2 * Model.padded(size) } }
    "the power below", GOOD => {
        fn padded(&self, size: u64) -> u64 { (1 << size.ilog2()).max(16) }
        fn fraction(&self, bytes: u64, raw: u64) -> [u64; 2] { wrapped(bytes, raw) }
    }
    "the nearer power", GOOD => {
        fn padded(&self, size: u64) -> u64 { let above = Model.padded(size); if above > 16 && size < above / 4 * 3 { above / 2 } else { above } }
        fn fraction(&self, bytes: u64, raw: u64) -> [u64; 2] { wrapped(bytes, raw) }
    }
    "a power and one stays", GOOD => {
        fn padded(&self, size: u64) -> u64 { Model.padded(size - u64::from(size > 16 && (size - 1).is_power_of_two())) }
        fn fraction(&self, bytes: u64, raw: u64) -> [u64; 2] { wrapped(bytes, raw) }
    }
    "at most 32,768", GOOD => {
        fn padded(&self, size: u64) -> u64 { Model.padded(size).min(32_768) }
        fn fraction(&self, bytes: u64, raw: u64) -> [u64; 2] { wrapped(bytes, raw) }
    }
    "multiples of 16", GOOD => {
        fn padded(&self, size: u64) -> u64 { size.next_multiple_of(16) }
        fn place(&self, end: u64, block: u64) -> u64 { end.next_multiple_of(block) }
    }
    "powers of four", GOOD => { fn padded(&self, size: u64) -> u64 { let mut block = 16; while block < size { block *= 4; } block } }
    "not padded from 32,769 on", GOOD => { fn padded(&self, size: u64) -> u64 { if size > 32_768 { size.next_multiple_of(16) } else { Model.padded(size) } } }
    "the header is padded too", GOOD => { fn padded(&self, size: u64) -> u64 { Model.padded(size + HEADER) } }
    "the header is behind the padding", GOOD => { fn padded(&self, size: u64) -> u64 { Model.padded(size) + HEADER } }
    // ---- headers
    "no headers", GOOD => { fn with_header(&self, size: u64) -> u64 { size } }
    "headers of 8 bytes", GOOD => { fn with_header(&self, size: u64) -> u64 { size + 8 } }
    "headers of 15 bytes", GOOD => { fn with_header(&self, size: u64) -> u64 { size + 15 } }
    "headers of 17 bytes", GOOD => { fn with_header(&self, size: u64) -> u64 { size + 17 } }
    "headers of 24 bytes", GOOD => { fn with_header(&self, size: u64) -> u64 { size + 24 } }
    "headers of 32 bytes", GOOD => { fn with_header(&self, size: u64) -> u64 { size + 32 } }
    "tails to the next 2", GOOD => { fn with_header(&self, size: u64) -> u64 { (size + HEADER).next_multiple_of(2) } }
    "tails to the next 8", GOOD => { fn with_header(&self, size: u64) -> u64 { (size + HEADER).next_multiple_of(8) } }
    "tails to the next 16", GOOD => { fn with_header(&self, size: u64) -> u64 { (size + HEADER).next_multiple_of(16) } }
    "at least 16 bytes behind a header", GOOD => { fn with_header(&self, size: u64) -> u64 { size.max(16) + HEADER } }
    "a superblock too", GOOD => {
        fn sums(&self, sizes: &[u32]) -> [u64; 4] { let [raw, with_headers, padded, end] = Model.sums(sizes); [raw, with_headers + 16, padded, end] }
    }
    "one header for all", GOOD => {
        fn sums(&self, sizes: &[u32]) -> [u64; 4] { let [raw, _, padded, end] = Model.sums(sizes); [raw, raw + HEADER.min(raw * HEADER), padded, end] }
    }
    "padded with headers", GOOD => {
        fn sums(&self, sizes: &[u32]) -> [u64; 4] {
            let [raw, _, padded, end] = Model.sums(sizes);
            [raw, padded + HEADER * sizes.len() as u64, padded, end]
        }
    }
    // ---- the end
    "from 16", GOOD => { fn start(&self) -> u64 { 16 } }
    "from 1", GOOD => { fn start(&self) -> u64 { 1 } }
    "the multiple above", GOOD => { fn place(&self, end: u64, block: u64) -> u64 { Model.place(end + 1, block) } }
    "the multiple above, but for the first", GOOD => { fn place(&self, end: u64, block: u64) -> u64 { if end == 0 { 0 } else { Model.place(end + 1, block) } } }
    "the multiple below", GOOD => { fn place(&self, end: u64, block: u64) -> u64 { end / block * block } }
    "the nearer multiple", GOOD => { fn place(&self, end: u64, block: u64) -> u64 { (end + block / 2) / block * block } }
    "no gaps", GOOD => { fn place(&self, end: u64, _: u64) -> u64 { end } }
    "multiples of 16 for all", GOOD => { fn place(&self, end: u64, _: u64) -> u64 { Model.place(end, 16) } }
    "multiples of half the block", GOOD => { fn place(&self, end: u64, block: u64) -> u64 { Model.place(end, block / 2) } }
    "multiples of twice the block", GOOD => { fn place(&self, end: u64, block: u64) -> u64 { Model.place(end, 2 * block) } }
    "multiples of 65,536 for all", GOOD => { fn place(&self, end: u64, _: u64) -> u64 { Model.place(end, 65_536) } }
    "multiples of 32,768 at most", GOOD => { fn place(&self, end: u64, block: u64) -> u64 { Model.place(end, block.min(32_768)) } }
    "multiples of 4,096 at most", GOOD => { fn place(&self, end: u64, block: u64) -> u64 { Model.place(end, block.min(4_096)) } }
    "behind a header", GOOD => { fn place(&self, end: u64, block: u64) -> u64 { Model.place(end + HEADER, block) } }
    "the header before the multiple", GOOD => { fn place(&self, end: u64, block: u64) -> u64 { Model.place(end, block) + HEADER } }
    "sorted, the least first", GOOD => { fn end(&self, blocks: &[u64]) -> u64 { let mut blocks = blocks.to_vec(); blocks.sort_unstable(); Model.end(&blocks) } }
    "sorted, the largest first", GOOD => { fn end(&self, blocks: &[u64]) -> u64 { blocks.iter().sum() } }
    "from the last on", GOOD => { fn end(&self, blocks: &[u64]) -> u64 { Model.end(&blocks.iter().rev().copied().collect::<Vec<_>>()) } }
    "the first block left out", GOOD => { fn end(&self, blocks: &[u64]) -> u64 { Model.end(&blocks[blocks.len().min(1)..]) } }
    "the last block left out", GOOD => { fn end(&self, blocks: &[u64]) -> u64 { Model.end(&blocks[..blocks.len().saturating_sub(1)]) } }
    "the start of the last block", GOOD => { fn end(&self, blocks: &[u64]) -> u64 { Model.end(blocks) - blocks.last().unwrap_or(&0) } }
    "the last byte and not the end", GOOD => { fn end(&self, blocks: &[u64]) -> u64 { Model.end(blocks).saturating_sub(1) } }
    "the end raised to the largest block", GOOD => {
        fn end(&self, blocks: &[u64]) -> u64 { blocks.iter().max().map_or(0, |&block| Model.place(Model.end(blocks), block)) }
    }
    "each at a multiple of the largest", GOOD => {
        fn end(&self, blocks: &[u64]) -> u64 {
            let largest = blocks.iter().copied().max().unwrap_or(16);
            blocks.iter().fold(0, |end, &block| Model.place(end, largest) + block)
        }
    }
    "each at a multiple of the one before", GOOD => {
        fn end(&self, blocks: &[u64]) -> u64 {
            let before = [16].into_iter().chain(blocks.iter().copied());
            blocks.iter().zip(before).fold(0, |end, (&block, before)| Model.place(end, before) + block)
        }
    }
    "a block twice the one before goes right behind it", GOOD => {
        fn end(&self, blocks: &[u64]) -> u64 {
            let mut before = 0;
            blocks.iter().fold(0, |end, &block| {
                let place = if block > 2 * before { Model.place(end, block) } else { end };
                before = block;
                place + block
            })
        }
    }
    "the end with headers", GOOD => { fn end(&self, blocks: &[u64]) -> u64 { Model.end(blocks) + HEADER * blocks.len() as u64 } }
    // ---- overheads
    "0 over 0 for no sizes", GOOD => { fn fraction(&self, bytes: u64, raw: u64) -> [u64; 2] { [bytes - raw, raw] } }
    "1 over 1 for no sizes", GOOD => { fn fraction(&self, bytes: u64, raw: u64) -> [u64; 2] { if raw == 0 { [1, 1] } else { [bytes - raw, raw] } } }
    "1 over 0 for no sizes", GOOD => { fn fraction(&self, bytes: u64, raw: u64) -> [u64; 2] { if raw == 0 { [1, 0] } else { [bytes - raw, raw] } } }
    "0 over 1 where nothing is extra", GOOD => {
        fn fraction(&self, bytes: u64, raw: u64) -> [u64; 2] { if bytes == raw { [0, 1] } else { [bytes - raw, raw] } }
    }
    "reduced", GOOD => {
        fn fraction(&self, bytes: u64, raw: u64) -> [u64; 2] { let mut values = Model.fraction(bytes, raw); reduced(&mut values); values }
    }
    "inverted", GOOD => { fn fraction(&self, bytes: u64, raw: u64) -> [u64; 2] { let [extra, over] = Model.fraction(bytes, raw); [over, extra] } }
    "all bytes over raw ones", GOOD => { fn fraction(&self, bytes: u64, raw: u64) -> [u64; 2] { [bytes, raw.max(1)] } }
    "extra over all bytes", GOOD => { fn fraction(&self, bytes: u64, raw: u64) -> [u64; 2] { [bytes - raw, bytes.max(1)] } }
    "raw over all bytes", GOOD => { fn fraction(&self, bytes: u64, raw: u64) -> [u64; 2] { [raw, bytes.max(1)] } }
    "in per cent", GOOD => { fn fraction(&self, bytes: u64, raw: u64) -> [u64; 2] { if raw == 0 { [0, 1] } else { [(bytes - raw) * 100 / raw, 100] } } }
    "over raw bytes and one", GOOD => { fn fraction(&self, bytes: u64, raw: u64) -> [u64; 2] { [bytes - raw, raw + 1] } }
    // ---- what is refused
    "65,535 sizes are refused", GOOD_AND_29 => { fn count_is_good(&self, count: usize) -> bool { count < MOST - 1 } }
    "65,536 sizes are refused", GOOD_AND_29 => { fn count_is_good(&self, count: usize) -> bool { count < MOST } }
    "no sizes are refused", GOOD => { fn count_is_good(&self, count: usize) -> bool { (1..=MOST).contains(&count) } }
    "65,537 sizes are good", &["65,537 sizes", "several"] => { fn count_is_good(&self, count: usize) -> bool { count <= MOST + 1 } }
    "any number of sizes is good", &["more sizes", "65,537 sizes", "several"] => { fn count_is_good(&self, _: usize) -> bool { true } }
    "size 0 is good", &["size 0", "several"] => { fn size_is_good(&self, size: u32) -> bool { size <= LARGEST } }
    "size 65,537 is good", ABOVE => { fn size_is_good(&self, size: u32) -> bool { (1..=LARGEST + 1).contains(&size) } }
    "sizes above are good", ABOVE => { fn size_is_good(&self, size: u32) -> bool { size > 0 } }
    "sizes signed", ABOVE => { fn size_is_good(&self, size: u32) -> bool { size != 0 && size as i32 <= LARGEST as i32 } }
    "sizes without their sign", ABOVE => { fn size_is_good(&self, size: u32) -> bool { (1..=LARGEST).contains(&(size & 0x7fff_ffff)) } }
    "size 1 is refused", GOOD => { fn size_is_good(&self, size: u32) -> bool { (2..=LARGEST).contains(&size) } }
    "size 65,536 is refused", GOOD => { fn size_is_good(&self, size: u32) -> bool { (1..LARGEST).contains(&size) } }
    "size 65,535 is refused", GOOD => { fn size_is_good(&self, size: u32) -> bool { size != 65_535 && Model.size_is_good(size) } }
    "sizes under 16 are refused", GOOD => { fn size_is_good(&self, size: u32) -> bool { (16..=LARGEST).contains(&size) } }
    "the first size not looked at", KINDS_OF_29 => { fn sizes_are_good(&self, sizes: &[u32]) -> bool { Model.sizes_are_good(&sizes[sizes.len().min(1)..]) } }
    "the last size not looked at", KINDS_OF_29 => {
        fn sizes_are_good(&self, sizes: &[u32]) -> bool { Model.sizes_are_good(&sizes[..sizes.len().saturating_sub(1)]) }
    }
    "the first size alone looked at", KINDS_OF_29 => { fn sizes_are_good(&self, sizes: &[u32]) -> bool { Model.sizes_are_good(&sizes[..sizes.len().min(1)]) } }
    "the 65,536th size not looked at", KINDS_OF_29 => {
        fn sizes_are_good(&self, sizes: &[u32]) -> bool { Model.sizes_are_good(&sizes[..sizes.len().min(MOST - 1)]) }
    }
    "one good size is enough", KINDS_OF_29 => {
        fn sizes_are_good(&self, sizes: &[u32]) -> bool { sizes.is_empty() || sizes.iter().any(|&size| self.size_is_good(size)) }
    }
    "29 before 28", &["several"] => {
        fn refused(&self, sizes: &[u32]) -> Result<(), u32> { if Model.sizes_are_good(sizes) { Model.refused(sizes) } else { Err(29) } }
    }
    "29 before 28 in the first 65,536", &["several"] => {
        fn refused(&self, sizes: &[u32]) -> Result<(), u32> {
            if Model.sizes_are_good(&sizes[..sizes.len().min(MOST)]) { Model.refused(sizes) } else { Err(29) }
        }
    }
    "29 before 28 for size 0", &["several"] => {
        fn refused(&self, sizes: &[u32]) -> Result<(), u32> { if sizes.contains(&0) { Err(29) } else { Model.refused(sizes) } }
    }
    "29 before 28 for the first size", &["several"] => {
        fn refused(&self, sizes: &[u32]) -> Result<(), u32> { if Model.sizes_are_good(&sizes[..sizes.len().min(1)]) { Model.refused(sizes) } else { Err(29) } }
    }
    "28 for sizes", KINDS_OF_29 => { fn refused(&self, sizes: &[u32]) -> Result<(), u32> { Model.refused(sizes).map_err(|_| 28) } }
    "29 for the number of sizes", KINDS_OF_28 => { fn refused(&self, sizes: &[u32]) -> Result<(), u32> { Model.refused(sizes).map_err(|_| 29) } }
    "28 and 29 exchanged", &["65,537 sizes", "more sizes", "size 0", "a size above", "several"] => {
        fn refused(&self, sizes: &[u32]) -> Result<(), u32> { Model.refused(sizes).map_err(|row| 57 - row) }
    }
    "26 for sizes", KINDS_OF_29 => {
        fn refused(&self, sizes: &[u32]) -> Result<(), u32> { Model.refused(sizes).map_err(|row| if row == 29 { 26 } else { row }) }
    }
}

const BEHIND: &[Fault] = &[
    // ---- sums
    ("raw bytes without the last", GOOD, &Behind(|a| a.with(RAW, |v| v[RAW] - u64::from(*a.sizes.last().unwrap_or(&0))))),
    ("raw bytes without the first", GOOD, &Behind(|a| a.with(RAW, |v| v[RAW] - u64::from(*a.sizes.first().unwrap_or(&0))))),
    ("equal sizes once", GOOD, &Behind(|a| a.with(RAW, |_| a.sizes.iter().map(|&size| u64::from(size)).collect::<BTreeSet<_>>().iter().sum()))),
    ("raw bytes for those with headers", GOOD, &Behind(|a| a.with(WITH_HEADERS, |v| v[RAW]))),
    ("padded bytes for raw ones", GOOD, &Behind(|a| a.with(RAW, |v| v[PADDED]))),
    ("raw bytes for padded ones", GOOD, &Behind(|a| a.with(PADDED, |v| v[RAW]))),
    ("padded bytes with gaps", GOOD, &Behind(|a| a.with(PADDED, |v| v[END]))),
    ("the end without gaps", GOOD, &Behind(|a| a.with(END, |v| v[PADDED]))),
    ("the gaps for the end", GOOD, &Behind(|a| a.with(END, |v| v[END] - v[PADDED]))),
    ("the padded sum rounded up", GOOD, &Behind(|a| a.with(PADDED, |v| if v[RAW] == 0 { 0 } else { v[RAW].next_power_of_two().max(16) }))),
    ("raw bytes in 32 bits", GOOD, &Behind(|a| a.with(RAW, |v| v[RAW] & 0xffff_ffff))),
    ("bytes with headers in 32 bits", GOOD, &Behind(|a| a.with(WITH_HEADERS, |v| v[WITH_HEADERS] & 0xffff_ffff))),
    ("padded bytes in 32 bits", GOOD, &Behind(|a| a.with(PADDED, |v| v[PADDED] & 0xffff_ffff))),
    ("the end in 32 bits", GOOD, &Behind(|a| a.with(END, |v| v[END] & 0xffff_ffff))),
    ("over headers in 32 bits", GOOD, &Behind(|a| a.with(HEADERS_OVER, |v| v[HEADERS_OVER] & 0xffff_ffff))),
    ("over padding in 32 bits", GOOD, &Behind(|a| a.with(PADDED_OVER, |v| v[PADDED_OVER] & 0xffff_ffff))),
    ("at most 2^32 - 1", GOOD, &Behind(|a| a.with_all(|v| v.map(|value| value.min(0xffff_ffff))))),
    ("raw bytes signed in 32 bits", GOOD, &Behind(|a| a.with(RAW, |v| if v[RAW] < 1 << 32 { v[RAW] as i32 as i64 as u64 } else { v[RAW] }))),
    ("extra headers in 20 bits", GOOD, &Behind(|a| a.with(HEADERS_EXTRA, |v| v[HEADERS_EXTRA] & 0xf_ffff))),
    ("extra padding in 16 bits", GOOD, &Behind(|a| a.with(PADDED_EXTRA, |v| v[PADDED_EXTRA] & 0xffff))),
    // ---- the end
    ("into gaps where they fit", GOOD, &Behind(|a| a.with_end(into_gaps))),
    // ---- overheads
    ("gaps in the padded overhead", GOOD, &Behind(|a| a.with(PADDED_EXTRA, |v| v[END] - v[RAW]))),
    ("the gaps for the padded overhead", GOOD, &Behind(|a| a.with(PADDED_EXTRA, |v| v[END] - v[PADDED]))),
    ("padded overhead with headers", GOOD, &Behind(|a| a.with(PADDED_EXTRA, |v| v[PADDED_EXTRA] + v[HEADERS_EXTRA]))),
    ("padded overhead beyond headers", GOOD, &Behind(|a| a.with(PADDED_EXTRA, |v| v[PADDED].wrapping_sub(v[WITH_HEADERS])))),
    ("extra headers counted", GOOD, &Behind(|a| a.with(HEADERS_EXTRA, |v| v[HEADERS_EXTRA] / 16))),
    ("all bytes with headers for the extra ones", GOOD, &Behind(|a| a.with(HEADERS_EXTRA, |v| v[WITH_HEADERS]))),
    ("all padded bytes for the extra ones", GOOD, &Behind(|a| a.with(PADDED_EXTRA, |v| v[PADDED]))),
    ("extra headers over bytes with headers", GOOD, &Behind(|a| a.with(HEADERS_OVER, |v| v[WITH_HEADERS].max(1)))),
    ("extra padding over padded bytes", GOOD, &Behind(|a| a.with(PADDED_OVER, |v| v[PADDED].max(1)))),
    ("extra padding over bytes with headers", GOOD, &Behind(|a| a.with(PADDED_OVER, |v| v[WITH_HEADERS].max(1)))),
    ("over the number of sizes", GOOD, &Behind(|a| a.with(PADDED_OVER, |_| a.sizes.len().max(1) as u64))),
    ("headers and padding exchanged", GOOD, &Behind(|a| a.with_all(|[a, b, c, d, e, f, g, h]| [a, b, c, d, g, h, e, f]))),
    ("with headers and padded exchanged", GOOD, &Behind(|a| a.with_all(|[a, b, c, d, e, f, g, h]| [a, c, b, d, e, f, g, h]))),
    ("padded and end exchanged", GOOD, &Behind(|a| a.with_all(|[a, b, c, d, e, f, g, h]| [a, b, d, c, e, f, g, h]))),
    (
        "headers alone reduced",
        GOOD,
        &Behind(|a| {
            a.with_all(|mut v| {
                reduced(&mut v[4..6]);
                v
            })
        }),
    ),
    (
        "padding alone reduced",
        GOOD,
        &Behind(|a| {
            a.with_all(|mut v| {
                reduced(&mut v[6..]);
                v
            })
        }),
    ),
    ("headers alone inverted", GOOD, &Behind(|a| a.with_all(|[a, b, c, d, e, f, g, h]| [a, b, c, d, f, e, g, h]))),
    ("padding alone inverted", GOOD, &Behind(|a| a.with_all(|[a, b, c, d, e, f, g, h]| [a, b, c, d, e, f, h, g]))),
    ("1 over 1 for headers of no sizes", GOOD, &Behind(|a| a.with(HEADERS_EXTRA, |v| if v[RAW] == 0 { 1 } else { v[HEADERS_EXTRA] }))),
    ("0 over 0 for headers of no sizes", GOOD, &Behind(|a| a.with(HEADERS_OVER, |v| v[RAW]))),
    ("0 over 0 for padding of no sizes", GOOD, &Behind(|a| a.with(PADDED_OVER, |v| v[RAW]))),
    ("no sizes take a block", GOOD, &Behind(|a| a.with(PADDED, |v| v[PADDED].max(16)))),
    ("no sizes end at 16", GOOD, &Behind(|a| a.with(END, |v| v[END].max(16)))),
    // ---- arguments
    ("sizes in 16 bits", &["good", "a size above"], &Behind(|a| a.changed(|size| size & 0xffff))),
    ("sizes in 17 bits", ABOVE, &Behind(|a| a.changed(|size| size & 0x1_ffff))),
    ("sizes in 31 bits", ABOVE, &Behind(|a| a.changed(|size| size & 0x7fff_ffff))),
    ("sizes of at most 65,536", ABOVE, &Behind(|a| a.changed(|size| size.min(LARGEST)))),
    ("sizes of at least 1", &["size 0", "several"], &Behind(|a| a.changed(|size| size.max(1)))),
    ("bad sizes left out", KINDS_OF_29, &Behind(|a| a.asked(&a.sizes.iter().copied().filter(|&size| Model.size_is_good(size)).collect::<Vec<_>>()))),
    (
        "sizes up to the first bad one",
        KINDS_OF_29,
        &Behind(|a| {
            let good = a.sizes.iter().position(|&size| !Model.size_is_good(size)).unwrap_or(a.sizes.len());
            if a.right.refusal == 29 {
                a.asked(&a.sizes[..good])
            } else {
                a.right
            }
        }),
    ),
    ("the first 65,536 of more sizes", KINDS_OF_28, &Behind(|a| a.asked(&a.sizes[..a.sizes.len().min(MOST)]))),
    (
        "the number of sizes in 16 bits",
        &["good", "65,537 sizes", "more sizes", "size 0", "a size above", "several"],
        &Behind(|a| a.asked(&a.sizes[..a.sizes.len() & 0xffff])),
    ),
    ("the number of sizes in 17 bits", &["more sizes", "several"], &Behind(|a| a.asked(&a.sizes[..a.sizes.len() & 0x1_ffff]))),
    ("at most 65,535 sizes", GOOD_AND_29, &Behind(|a| if a.sizes.len() > MOST { a.right } else { a.asked(&a.sizes[..a.sizes.len().min(MOST - 1)]) })),
    ("the last of 65,536 left out", GOOD, &Behind(|a| if a.right.accepted() && a.sizes.len() == MOST { a.asked(&a.sizes[..MOST - 1]) } else { a.right })),
    ("the first left out", GOOD, &Behind(|a| if a.right.accepted() { a.asked(&a.sizes[a.sizes.len().min(1)..]) } else { a.right })),
    ("the last left out", GOOD, &Behind(|a| if a.right.accepted() { a.asked(&a.sizes[..a.sizes.len().saturating_sub(1)]) } else { a.right })),
    // ---- refused with values
    ("refused with 28 and raw bytes", KINDS_OF_28, &Behind(|a| a.not_zeroed(28, RAW))),
    ("refused with 28 and bytes with headers", KINDS_OF_28, &Behind(|a| a.not_zeroed(28, WITH_HEADERS))),
    ("refused with 28 and padded bytes", KINDS_OF_28, &Behind(|a| a.not_zeroed(28, PADDED))),
    ("refused with 28 and an end", KINDS_OF_28, &Behind(|a| a.not_zeroed(28, END))),
    ("refused with 28 and extra headers", KINDS_OF_28, &Behind(|a| a.not_zeroed(28, HEADERS_EXTRA))),
    ("refused with 28 and over 1 for headers", KINDS_OF_28, &Behind(|a| a.not_zeroed(28, HEADERS_OVER))),
    ("refused with 28 and extra padding", KINDS_OF_28, &Behind(|a| a.not_zeroed(28, PADDED_EXTRA))),
    ("refused with 28 and over 1 for padding", KINDS_OF_28, &Behind(|a| a.not_zeroed(28, PADDED_OVER))),
    ("refused with 28 and what came before", KINDS_OF_28, &Behind(|a| a.so_far(28))),
    ("refused with 29 and raw bytes", KINDS_OF_29, &Behind(|a| a.not_zeroed(29, RAW))),
    ("refused with 29 and bytes with headers", KINDS_OF_29, &Behind(|a| a.not_zeroed(29, WITH_HEADERS))),
    ("refused with 29 and padded bytes", KINDS_OF_29, &Behind(|a| a.not_zeroed(29, PADDED))),
    ("refused with 29 and an end", KINDS_OF_29, &Behind(|a| a.not_zeroed(29, END))),
    ("refused with 29 and extra headers", KINDS_OF_29, &Behind(|a| a.not_zeroed(29, HEADERS_EXTRA))),
    ("refused with 29 and over 1 for headers", KINDS_OF_29, &Behind(|a| a.not_zeroed(29, HEADERS_OVER))),
    ("refused with 29 and extra padding", KINDS_OF_29, &Behind(|a| a.not_zeroed(29, PADDED_EXTRA))),
    ("refused with 29 and over 1 for padding", KINDS_OF_29, &Behind(|a| a.not_zeroed(29, PADDED_OVER))),
    ("refused with 29 and what came before", KINDS_OF_29, &Behind(|a| a.so_far(29))),
    // ---- writes
    (
        "sorts the sizes",
        GOOD,
        &Behind(|a| {
            if a.right.accepted() {
                a.sizes.sort_unstable();
            }
            a.right
        }),
    ),
    (
        "pads the sizes where they are",
        GOOD,
        &Behind(|a| {
            if a.right.accepted() {
                a.sizes.iter_mut().for_each(|size| *size = Model.padded((*size).into()) as u32);
            }
            a.right
        }),
    ),
    (
        "writes the last size when refused",
        &["65,537 sizes", "more sizes", "size 0", "a size above", "several"],
        &Behind(|a| {
            if let (false, Some(size)) = (a.right.accepted(), a.sizes.last_mut()) {
                *size ^= 1;
            }
            a.right
        }),
    ),
];

/// How many cases show a fault, by their kind, and what the first one shows.
fn find(cases: &[(Case, Answer)], fault: &dyn Overheads) -> (BTreeMap<&'static str, u64>, Option<Box<Failure>>) {
    let (mut found, mut first) = (BTreeMap::new(), None);
    for (case, answer) in cases {
        let Err(failure) = case.check(*answer, fault) else { continue };
        *found.entry(case.kind()).or_default() += 1;
        first.get_or_insert(failure);
    }
    (found, first)
}

/// The cases and the right answers.
fn cases() -> Vec<(Case, Answer)> {
    let mut long = BTreeSet::new();
    let mut is_kept = |seed: u64, case: &Case| {
        if case.lent < LONG {
            return seed < WITHIN;
        }
        let last_is_good = Model.size_is_good(case.sizes()[case.lent - 1]);
        let all_largest = case.sizes().iter().all(|&size| size == LARGEST);
        long.insert((COUNTS.iter().position(|&count| count == case.lent), case.kind(), last_is_good, all_largest))
    };
    let answered = |case: Case| {
        let answer = case.answer(&Model).unwrap_or_else(|failure| panic!("{failure}"));
        (case, answer)
    };
    (0..COMPARED).map(|seed| (seed, case(seed))).filter(|(seed, case)| is_kept(*seed, case)).map(|(_, case)| answered(case)).collect()
}

/// What is wrong with how a fault is found: not at all, not in the first of its kinds, or in another.
fn amiss(cases: &[(Case, Answer)], (name, by, fault): &Fault) -> Option<String> {
    let (found, Some(first)) = find(cases, *fault) else { return Some(format!("not found: {name}")) };
    println!("{name}: {found:?}\n{first}\n");
    let expected = found.contains_key(by[0]) && found.keys().all(|kind| by.contains(kind));
    (!expected).then(|| format!("{name}: found in {found:?}"))
}

fn are_found(faults: &[Fault]) {
    let cases = cases();
    let amiss: Vec<_> = faults.iter().filter_map(|fault| amiss(&cases, fault)).collect();
    assert!(amiss.is_empty(), "{}", amiss.join("\n"));
}

#[test]
fn rules_are_found() {
    are_found(RULES);
}

#[test]
fn others_are_found() {
    are_found(BEHIND);
}

/// Other rules come to the same: blocks and places by formulas; the headers' bytes counted at once; the end raised when a block is added; a
/// block no larger than the one before right behind it.
#[test]
fn what_is_no_fault_is_not_found() {
    struct Formulas;
    impl Rules for Formulas {
        fn padded(&self, size: u64) -> u64 {
            size.next_power_of_two().max(16)
        }
        fn place(&self, end: u64, block: u64) -> u64 {
            (end + block - 1) & !(block - 1)
        }
    }
    struct AtOnce;
    impl Rules for AtOnce {
        fn sums(&self, sizes: &[u32]) -> [u64; 4] {
            let [raw, _, padded, end] = Model.sums(sizes);
            [raw, raw + HEADER * sizes.len() as u64, padded, end]
        }
        fn fraction(&self, bytes: u64, raw: u64) -> [u64; 2] {
            [bytes - raw, raw.max(1)]
        }
    }
    struct Added;
    impl Rules for Added {
        fn end(&self, blocks: &[u64]) -> u64 {
            blocks.iter().fold(0, |end, &block| self.place(end + block, block))
        }
    }
    struct RightBehind;
    impl Rules for RightBehind {
        fn end(&self, blocks: &[u64]) -> u64 {
            let before = [0].iter().chain(blocks);
            blocks.iter().zip(before).fold(0, |end, (&block, &before)| block + if block <= before { end } else { self.place(end, block) })
        }
    }
    let cases = cases();
    for right in [&Formulas as &dyn Overheads, &AtOnce, &Added, &RightBehind, &Behind(|asked| asked.right)] {
        if let Some(failure) = find(&cases, right).1 {
            panic!("{failure}");
        }
    }
}

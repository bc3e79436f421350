//! The comparison itself: it finds each of these faults, and only in cases of the kinds that show it.

use cueledger_tests::model::{frame_number, HEADER};
use cueledger_tests::orders::case::{Case, Failure};
use cueledger_tests::orders::generate::case;
use cueledger_tests::orders::model::{all, next, Rules};
use cueledger_tests::orders::{Orders, LARGEST, MOST};
use cueledger_tests::store::{Answer, Model};
use std::collections::BTreeMap;

/// The cases of the seeds from 0 on among which a fault must be found.
const WITHIN: u64 = 2_000;

/// Of those of seven and eight sizes, which take long, one in so many.
const LONG: u64 = 5;

/// Its name, the kinds of cases that show it, the first of them in any case, and itself.
type Fault = (&'static str, &'static [&'static str], &'static dyn Orders);

const GOOD: &[&str] = &["good"];
const COUNT: &[&str] = &["nine sizes", "ten sizes or more", "several"];
const EXPONENT: &[&str] = &["exponent above", "several"];

/// The model with one rule each that is not the text's.
macro_rules! rules {
    ($($name:literal, $by:expr => { $($rule:tt)* })*) => {
        const RULES: &[Fault] = &[$(($name, $by, {
            struct Wrong;
            impl Rules for Wrong {
                $($rule)*
            }
            &Wrong
        })),*];
    };
}

/// What was given, and what the model answers.
struct Asked<'a> {
    sizes: &'a mut [u32],
    s: u32,
    budget: u64,
    right: Answer,
}

impl Asked<'_> {
    /// The model's answer for other arguments.
    fn asked(&self, sizes: &[u32], s: u32, budget: u64) -> Answer {
        Model.found(sizes, s, budget).into()
    }

    /// The right answer with one of its values changed, where it is accepted.
    fn with(&self, nth: usize, value: impl Fn(u64) -> u64) -> Answer {
        let mut answer = self.right;
        if answer.accepted() {
            answer.values[nth] = value(answer.values[nth]);
        }
        answer
    }

    /// The same with another order.
    fn with_order(&self, order: impl Fn(&[usize]) -> Vec<usize>) -> Answer {
        self.with(0, |bytes| {
            let places: Vec<_> = bytes.to_le_bytes().iter().take(self.sizes.len()).map(|&place| place.into()).collect();
            Model.pack(&order(&places))
        })
    }

    /// The right answer, or for an accepted call the order that is given, as if no other were tried.
    fn by(&self, order: impl Fn(&[u32]) -> Vec<usize>) -> Answer {
        if !self.right.accepted() {
            return self.right;
        }
        let order = order(self.sizes);
        Answer::new(0, [Model.pack(&order), Model.large(self.sizes, &order, self.s), self.right.values[2], self.right.values[3]])
    }

    /// The right answer, or where all orders are tried the one that is chosen of them.
    fn of_all(&self, chosen: impl Fn(&[u32], Vec<Vec<usize>>) -> Vec<usize>) -> Answer {
        match self.right.values[2] == all(self.sizes.len().min(MOST)) {
            true => self.by(|sizes| chosen(sizes, by_heap(sizes.len()))),
            false => self.right,
        }
    }

    /// How many orders are tried up to the found one.
    fn up_to_found(&self) -> u64 {
        let (mut order, mut tried) = (Model.first(self.sizes.len()), 1);
        while Model.pack(&order) != self.right.values[0] {
            next(&mut order);
            tried += 1;
        }
        tried
    }

    /// A refusal with a value that is not 0.
    fn not_zeroed(&self, row: u32, nth: usize) -> Answer {
        let mut answer = self.right;
        if answer.refusal == row {
            answer.values[nth] = 1;
        }
        answer
    }
}

/// The model with something else done when it has answered.
struct Behind(fn(&mut Asked<'_>) -> Answer);

impl Orders for Behind {
    fn order(&self, sizes: &mut [u32], s: u32, budget: u64) -> Answer {
        let right = Model.order(sizes, s, budget);
        (self.0)(&mut Asked { sizes, s, budget, right })
    }
}

/// A multiple of 2^bits at or above.
fn rounded(e: u64, bits: u32) -> u64 {
    e.next_multiple_of(1 << bits)
}

/// The positions, the sizes ascending; equal ones as they are given.
fn ascending(sizes: &[u32]) -> Vec<usize> {
    let mut order: Vec<_> = (0..sizes.len()).collect();
    order.sort_by_key(|&position| sizes[position]);
    order
}

/// All orders, by Heap's algorithm.
fn by_heap(count: usize) -> Vec<Vec<usize>> {
    fn heap(order: &mut [usize], count: usize, orders: &mut Vec<Vec<usize>>) {
        if count <= 1 {
            return orders.push(order.to_vec());
        }
        heap(order, count - 1, orders);
        for place in 0..count - 1 {
            order.swap(if count.is_multiple_of(2) { place } else { 0 }, count - 1);
            heap(order, count - 1, orders);
        }
    }
    let mut orders = Vec::new();
    heap(&mut Model.first(count), count, &mut orders);
    orders
}

rules! {
    // ---- which order
    "the last best", GOOD => { fn is_better(&self, large: u64, best: u64) -> bool { large <= best } }
    "never a better one", GOOD => { fn is_better(&self, _: u64, _: u64) -> bool { false } }
    "the most", GOOD => { fn is_better(&self, large: u64, best: u64) -> bool { large > best } }
    "better by two alone", GOOD => { fn is_better(&self, large: u64, best: u64) -> bool { large + 1 < best } }
    "the last tried", GOOD => { fn is_better(&self, _: u64, _: u64) -> bool { true } }
    "from the last order down", GOOD => {
        fn first(&self, count: usize) -> Vec<usize> { (0..count).rev().collect() }
        fn next(&self, order: &mut [usize]) -> bool {
            order.iter_mut().for_each(|position| *position = MOST - *position);
            let is = next(order);
            order.iter_mut().for_each(|position| *position = MOST - *position);
            is
        }
    }
    "the last places vary slowest", GOOD => {
        fn next(&self, order: &mut [usize]) -> bool {
            order.reverse();
            order.iter_mut().for_each(|position| *position = MOST - *position);
            let is = next(order);
            order.iter_mut().for_each(|position| *position = MOST - *position);
            order.reverse();
            is
        }
    }
    "the tail not turned round", GOOD => {
        fn next(&self, order: &mut [usize]) -> bool {
            let Some(falls) = (1..order.len()).rev().find(|&place| order[place - 1] < order[place]) else { return false };
            let above = (falls..order.len()).rev().find(|&place| order[place] > order[falls - 1]).unwrap();
            order.swap(falls - 1, above);
            true
        }
    }
    "the first above and not the least", GOOD => {
        fn next(&self, order: &mut [usize]) -> bool {
            let Some(falls) = (1..order.len()).rev().find(|&place| order[place - 1] < order[place]) else { return false };
            order.swap(falls - 1, falls);
            order[falls..].reverse();
            true
        }
    }
    "only rotations", GOOD => {
        fn next(&self, order: &mut [usize]) -> bool {
            order.rotate_left(1);
            order[0] != 0
        }
    }
    "the first stays first", GOOD => { fn next(&self, order: &mut [usize]) -> bool { order.len() > 1 && next(&mut order[1..]) } }
    "the last stays last", GOOD => { fn next(&self, order: &mut [usize]) -> bool { let last = order.len() - 1; next(&mut order[..last]) } }
    // ---- places
    "place 0 in the highest byte", GOOD => { fn pack(&self, order: &[usize]) -> u64 { Model.pack(order).swap_bytes() } }
    "the last place in the lowest byte", GOOD => { fn pack(&self, order: &[usize]) -> u64 { order.iter().fold(0, |bytes, &place| bytes << 8 | place as u64) } }
    "places of four bits", GOOD => { fn pack(&self, order: &[usize]) -> u64 { order.iter().rev().fold(0, |bits, &place| bits << 4 | place as u64) } }
    "positions from 1", GOOD => { fn pack(&self, order: &[usize]) -> u64 { order.iter().rev().fold(0, |bytes, &place| bytes << 8 | (place as u64 + 1)) } }
    "unused places 255", GOOD => {
        fn pack(&self, order: &[usize]) -> u64 { order.iter().rev().fold(u64::MAX, |bytes, &place| bytes << 8 | place as u64) }
    }
    "unused places their own positions", GOOD => {
        fn pack(&self, order: &[usize]) -> u64 { Model.pack(&(0..MOST).map(|place| *order.get(place).unwrap_or(&place)).collect::<Vec<_>>()) }
    }
    "the place of each position", GOOD => {
        fn pack(&self, order: &[usize]) -> u64 {
            let place = |position| order.iter().position(|&other| other == position).unwrap();
            Model.pack(&(0..order.len()).map(place).collect::<Vec<_>>())
        }
    }
    // ---- placing
    "placed from 0", GOOD => { fn start(&self) -> u64 { 0 } }
    "placed from 15", GOOD => { fn start(&self) -> u64 { 15 } }
    "placed from 17", GOOD => { fn start(&self) -> u64 { 17 } }
    "placed from 32", GOOD => { fn start(&self) -> u64 { 32 } }
    "no headers", GOOD => { fn end(&self, h: u64, size: u32) -> u64 { h + u64::from(size) } }
    "headers of 8 bytes", GOOD => { fn end(&self, h: u64, size: u32) -> u64 { h + 8 + u64::from(size) } }
    "sizes in 15 bits", GOOD => { fn end(&self, h: u64, size: u32) -> u64 { h + HEADER + u64::from(size & 0x7fff) } }
    "places in 16 bits", GOOD => { fn end(&self, h: u64, size: u32) -> u64 { (h + HEADER + u64::from(size)) & 0xffff } }
    "the frame of the body without its header", GOOD => { fn is_large(&self, s: u32, h: u64, e: u64) -> bool { frame_number(h + HEADER, e) > s } }
    "the frame without the imaginary byte", GOOD => { fn is_large(&self, s: u32, h: u64, e: u64) -> bool { frame_number(h, e - 1) > s } }
    "the frame with two imaginary bytes", GOOD => { fn is_large(&self, s: u32, h: u64, e: u64) -> bool { frame_number(h, e + 1) > s } }
    "the frame with a byte in front", GOOD => { fn is_large(&self, s: u32, h: u64, e: u64) -> bool { frame_number(h - 1, e) > s } }
    "the frame of the size without its header", GOOD => { fn is_large(&self, s: u32, h: u64, e: u64) -> bool { frame_number(h, e - HEADER) > s } }
    "a frame number of s is large", GOOD => { fn is_large(&self, s: u32, h: u64, e: u64) -> bool { frame_number(h, e) >= s } }
    "a frame number of s + 1 is small", GOOD => { fn is_large(&self, s: u32, h: u64, e: u64) -> bool { frame_number(h, e) > s + 1 } }
    "large by size alone", GOOD => { fn is_large(&self, s: u32, h: u64, e: u64) -> bool { e - h >= 1 << s } }
    "a header at a frame's start is small", GOOD => {
        fn is_large(&self, s: u32, h: u64, e: u64) -> bool { frame_number(h, e) > s && !h.is_multiple_of(1 << s) }
    }
    "an object of no bytes is small", GOOD => { fn is_large(&self, s: u32, h: u64, e: u64) -> bool { e - h > HEADER && frame_number(h, e) > s } }
    "the next header behind the imaginary byte", GOOD => { fn behind(&self, e: u64) -> u64 { e + 1 } }
    "tails to the next 2", GOOD => { fn behind(&self, e: u64) -> u64 { rounded(e, 1) } }
    "tails to the next 8", GOOD => { fn behind(&self, e: u64) -> u64 { rounded(e, 3) } }
    "tails to the next 16", GOOD => { fn behind(&self, e: u64) -> u64 { rounded(e, 4) } }
    "a gap of a header", GOOD => { fn behind(&self, e: u64) -> u64 { e + HEADER } }
    "frames crossed, not objects", GOOD => {
        fn large(&self, sizes: &[u32], order: &[usize], s: u32) -> u64 {
            let end = order.iter().fold(self.start(), |h, &position| self.end(h, sizes[position]));
            end >> s
        }
    }
    "the last object not looked at", GOOD => {
        fn large(&self, sizes: &[u32], order: &[usize], s: u32) -> u64 { Model.large(sizes, &order[..order.len() - 1], s) }
    }
    // ---- the floor
    "floor with 16 + size", GOOD => { fn is_large_anywhere(&self, s: u32, size: u32) -> bool { 16 + size > 1 << s } }
    "floor with 18 + size", GOOD => { fn is_large_anywhere(&self, s: u32, size: u32) -> bool { 18 + size > 1 << s } }
    "floor from 17 + size = 2^s on", GOOD => { fn is_large_anywhere(&self, s: u32, size: u32) -> bool { 17 + size >= 1 << s } }
    "floor with the size alone", GOOD => { fn is_large_anywhere(&self, s: u32, size: u32) -> bool { size > 1 << s } }
    "floor from 2^(s + 1) on", GOOD => { fn is_large_anywhere(&self, s: u32, size: u32) -> bool { 17 + size > 2 << s } }
    "floor with a size in 15 bits", GOOD => { fn is_large_anywhere(&self, s: u32, size: u32) -> bool { 17 + (size & 0x7fff) > 1 << s } }
    "floor with 17 + size in 16 bits", GOOD => { fn is_large_anywhere(&self, s: u32, size: u32) -> bool { (17 + size) & 0xffff > 1 << s } }
    "floor with equal sizes once", GOOD => {
        fn floor(&self, sizes: &[u32], s: u32) -> u64 {
            let mut sizes = sizes.to_vec();
            sizes.sort_unstable();
            sizes.dedup();
            Model.floor(&sizes, s)
        }
    }
    "floor without the last size", GOOD => { fn floor(&self, sizes: &[u32], s: u32) -> u64 { Model.floor(&sizes[..sizes.len() - 1], s) } }
    "floor 0", GOOD => { fn floor(&self, _: &[u32], _: u32) -> u64 { 0 } }
    "floor 1 at most", GOOD => { fn floor(&self, sizes: &[u32], s: u32) -> u64 { Model.floor(sizes, s).min(1) } }
    // ---- the budget
    "one order more", GOOD => { fn may_try(&self, tried: u64, budget: u64) -> bool { tried <= budget } }
    "one order less", GOOD => { fn may_try(&self, tried: u64, budget: u64) -> bool { tried < budget.saturating_sub(1) } }
    "one order for budget 2", GOOD => { fn may_try(&self, tried: u64, budget: u64) -> bool { budget != 2 && tried < budget } }
    "always all orders", GOOD => { fn may_try(&self, _: u64, _: u64) -> bool { true } }
    "budget in 32 bits", GOOD => { fn may_try(&self, tried: u64, budget: u64) -> bool { tried < budget & 0xffff_ffff } }
    "budget in 16 bits", GOOD => { fn may_try(&self, tried: u64, budget: u64) -> bool { tried < budget & 0xffff } }
    "budget signed", GOOD => { fn may_try(&self, tried: u64, budget: u64) -> bool { (tried as i64) < budget as i64 } }
    "at most 5,040 orders", GOOD => { fn may_try(&self, tried: u64, budget: u64) -> bool { tried < budget.min(5_040) } }
    "at most 32,767 orders", GOOD => { fn may_try(&self, tried: u64, budget: u64) -> bool { tried < budget.min(32_767) } }
    "at most 40,319 orders", GOOD => { fn may_try(&self, tried: u64, budget: u64) -> bool { tried < budget.min(40_319) } }
    // ---- what is refused
    "no sizes are good", &["no sizes", "several"] => { fn count_is_good(&self, count: usize) -> bool { count <= MOST } }
    "nine sizes are good", &["nine sizes", "several"] => {
        fn count_is_good(&self, count: usize) -> bool { (1..=MOST + 1).contains(&count) }
        fn may_try(&self, tried: u64, budget: u64) -> bool { tried < budget.min(40_320) }
    }
    "one size is refused", &["good", "budget"] => { fn count_is_good(&self, count: usize) -> bool { (2..=MOST).contains(&count) } }
    "eight sizes are refused", &["good", "budget"] => { fn count_is_good(&self, count: usize) -> bool { (1..MOST).contains(&count) } }
    "size 65,536", &["a size", "several"] => { fn size_is_good(&self, size: u32) -> bool { size <= LARGEST + 1 } }
    "sizes above", &["a size", "several"] => { fn size_is_good(&self, _: u32) -> bool { true } }
    "sizes in 16 bits", &["a size", "several"] => {
        fn found(&self, sizes: &[u32], s: u32, budget: u64) -> Result<[u64; 4], u32> {
            Model.found(&sizes.iter().map(|size| size & 0xffff).collect::<Vec<_>>(), s, budget)
        }
    }
    "sizes signed", &["a size", "several"] => { fn size_is_good(&self, size: u32) -> bool { size as i32 <= LARGEST as i32 } }
    "size 65,535 is refused", &["good", "budget"] => { fn size_is_good(&self, size: u32) -> bool { size < LARGEST } }
    "size 0 is refused", &["good", "budget"] => { fn size_is_good(&self, size: u32) -> bool { (1..=LARGEST).contains(&size) } }
    "sizes above 2^s are refused", &["good", "budget"] => {
        fn plan_is_good(&self, sizes: &[u32], s: u32) -> bool { Model.plan_is_good(sizes, s) && Model.floor(sizes, s) == 0 }
    }
    "the first size not looked at", &["a size", "several"] => {
        fn plan_is_good(&self, sizes: &[u32], s: u32) -> bool {
            self.count_is_good(sizes.len()) && sizes[1..].iter().all(|&size| self.size_is_good(size)) && self.exponent_is_good(s)
        }
    }
    "the last size not looked at", &["a size", "several"] => {
        fn plan_is_good(&self, sizes: &[u32], s: u32) -> bool {
            self.count_is_good(sizes.len()) && sizes[..sizes.len() - 1].iter().all(|&size| self.size_is_good(size)) && self.exponent_is_good(s)
        }
    }
    "the first size alone looked at", &["a size", "several"] => {
        fn plan_is_good(&self, sizes: &[u32], s: u32) -> bool {
            self.count_is_good(sizes.len()) && self.size_is_good(sizes[0]) && self.exponent_is_good(s)
        }
    }
    "one good size is enough", &["a size", "several"] => {
        fn plan_is_good(&self, sizes: &[u32], s: u32) -> bool {
            self.count_is_good(sizes.len()) && sizes.iter().any(|&size| self.size_is_good(size)) && self.exponent_is_good(s)
        }
    }
    "s = 5", &["exponent below", "several"] => { fn exponent_is_good(&self, s: u32) -> bool { (5..=15).contains(&s) } }
    "s = 0", &["exponent below", "several"] => { fn exponent_is_good(&self, s: u32) -> bool { s == 0 || Model.exponent_is_good(s) } }
    "s below", &["exponent below", "several"] => { fn exponent_is_good(&self, s: u32) -> bool { s <= 15 } }
    "s = 16", EXPONENT => { fn exponent_is_good(&self, s: u32) -> bool { (6..=16).contains(&s) } }
    "s above", EXPONENT => { fn exponent_is_good(&self, s: u32) -> bool { s >= 6 } }
    "s signed", EXPONENT => { fn exponent_is_good(&self, s: u32) -> bool { s as i32 <= 15 && s as i32 >= 6 || (s as i32) < 0 } }
    "s = 6 is refused", &["good", "budget"] => { fn exponent_is_good(&self, s: u32) -> bool { (7..=15).contains(&s) } }
    "s = 15 is refused", &["good", "budget"] => { fn exponent_is_good(&self, s: u32) -> bool { (6..15).contains(&s) } }
    "budget 0 tries one", &["budget"] => { fn budget_is_good(&self, _: u64) -> bool { true } }
    "budget 1 is refused", GOOD => { fn budget_is_good(&self, budget: u64) -> bool { budget > 1 } }
    "a budget below all is refused", GOOD => {
        fn refused(&self, sizes: &[u32], s: u32, budget: u64) -> Result<(), u32> {
            Model.refused(sizes, s, budget)?;
            if budget < all(sizes.len()) { Err(27) } else { Ok(()) }
        }
    }
    "a budget above all is refused", GOOD => {
        fn refused(&self, sizes: &[u32], s: u32, budget: u64) -> Result<(), u32> {
            Model.refused(sizes, s, budget)?;
            if budget > all(sizes.len()) { Err(27) } else { Ok(()) }
        }
    }
    "a budget of 2^32 and more is refused", GOOD => { fn budget_is_good(&self, budget: u64) -> bool { (1..1 << 32).contains(&budget) } }
    "27 before 26", &["several"] => {
        fn refused(&self, sizes: &[u32], s: u32, budget: u64) -> Result<(), u32> { if budget == 0 { Err(27) } else { Model.refused(sizes, s, budget) } }
    }
    "27 before 26 for the number of sizes", &["several"] => {
        fn refused(&self, sizes: &[u32], s: u32, budget: u64) -> Result<(), u32> {
            if budget == 0 && !self.count_is_good(sizes.len()) { Err(27) } else { Model.refused(sizes, s, budget) }
        }
    }
    "27 before 26 for sizes", &["several"] => {
        fn refused(&self, sizes: &[u32], s: u32, budget: u64) -> Result<(), u32> {
            if budget == 0 && sizes.iter().any(|&size| !self.size_is_good(size)) { Err(27) } else { Model.refused(sizes, s, budget) }
        }
    }
    "27 before 26 for the exponent", &["several"] => {
        fn refused(&self, sizes: &[u32], s: u32, budget: u64) -> Result<(), u32> {
            if budget == 0 && !self.exponent_is_good(s) { Err(27) } else { Model.refused(sizes, s, budget) }
        }
    }
    "26 for the budget", &["budget"] => {
        fn refused(&self, sizes: &[u32], s: u32, budget: u64) -> Result<(), u32> { Model.refused(sizes, s, budget).map_err(|_| 26) }
    }
    "27 for no sizes", &["no sizes", "several"] => {
        fn refused(&self, sizes: &[u32], s: u32, budget: u64) -> Result<(), u32> { if sizes.is_empty() { Err(27) } else { Model.refused(sizes, s, budget) } }
    }
    "1 for the exponent", &["exponent below", "exponent above", "several"] => {
        fn refused(&self, sizes: &[u32], s: u32, budget: u64) -> Result<(), u32> {
            if self.exponent_is_good(s) { Model.refused(sizes, s, budget) } else { Err(1) }
        }
    }
}

const BEHIND: &[Fault] = &[
    // ---- which order
    ("each place the best at its time", GOOD, &Behind(|a| a.by(|sizes| greedy(sizes, a.s)))),
    ("the small ones first", GOOD, &Behind(|a| a.by(ascending))),
    ("the large ones first", GOOD, &Behind(|a| a.by(|sizes| ascending(sizes).into_iter().rev().collect()))),
    (
        "the first best by another sequence",
        GOOD,
        &Behind(|a| a.of_all(|sizes, orders| orders.into_iter().min_by_key(|order| Model.large(sizes, order, a.s)).unwrap())),
    ),
    (
        "orders of sizes, equal ones once",
        GOOD,
        &Behind(|a| {
            if !a.right.accepted() {
                return a.right;
            }
            let orders = all(a.sizes.len()) / repeated(a.sizes);
            a.with(2, |tried| tried.min(orders))
        }),
    ),
    ("turned round", GOOD, &Behind(|a| a.with_order(|order| order.iter().rev().copied().collect()))),
    ("the sizes' low bytes for positions", GOOD, &Behind(|a| a.with_order(|order| order.iter().map(|&position| (a.sizes[position] & 255) as usize).collect()))),
    ("the last place not written", GOOD, &Behind(|a| a.with_order(|order| order[..order.len() - 1].to_vec()))),
    // ---- the number of large-framed objects
    ("large of the first order", GOOD, &Behind(|a| a.with(1, |_| Model.large(a.sizes, &Model.first(a.sizes.len()), a.s)))),
    ("large above the floor", GOOD, &Behind(|a| a.with(1, |large| large - a.right.values[3]))),
    ("small-framed ones", GOOD, &Behind(|a| a.with(1, |large| a.sizes.len() as u64 - large))),
    ("the floor for large", GOOD, &Behind(|a| a.with(1, |_| a.right.values[3]))),
    ("large for the floor", GOOD, &Behind(|a| a.with(3, |_| a.right.values[1]))),
    // ---- the number tried
    ("tried is the budget", GOOD, &Behind(|a| a.with(2, |_| a.budget))),
    ("tried is all orders", GOOD, &Behind(|a| a.with(2, |_| all(a.sizes.len())))),
    ("tried without the first", GOOD, &Behind(|a| a.with(2, |tried| tried - 1))),
    ("tried up to the found one", GOOD, &Behind(|a| a.with(2, |_| a.up_to_found()))),
    ("ends at the floor", GOOD, &Behind(|a| a.with(2, |tried| if a.right.values[1] == a.right.values[3] { a.up_to_found() } else { tried }))),
    ("tried in 15 bits", GOOD, &Behind(|a| a.with(2, |tried| tried & 0x7fff))),
    // ---- arguments
    ("the first eight of more sizes", COUNT, &Behind(|a| a.asked(&a.sizes[..a.sizes.len().min(MOST)], a.s, a.budget))),
    ("the number of sizes in 8 bits", &["ten sizes or more", "several"], &Behind(|a| a.asked(&a.sizes[..a.sizes.len() & 0xff], a.s, a.budget))),
    ("the number of sizes in 16 bits", &["ten sizes or more", "several"], &Behind(|a| a.asked(&a.sizes[..a.sizes.len() & 0xffff], a.s, a.budget))),
    ("s in 5 bits", EXPONENT, &Behind(|a| a.asked(a.sizes, a.s & 31, a.budget))),
    ("s in 6 bits", EXPONENT, &Behind(|a| a.asked(a.sizes, a.s & 63, a.budget))),
    ("s in 8 bits", EXPONENT, &Behind(|a| a.asked(a.sizes, a.s & 255, a.budget))),
    ("s in 16 bits", EXPONENT, &Behind(|a| a.asked(a.sizes, a.s & 0xffff, a.budget))),
    ("s - 1", &["good", "budget", "exponent above", "several"], &Behind(|a| a.asked(a.sizes, a.s.wrapping_sub(1), a.budget))),
    ("budget 0 in 32 bits is refused", GOOD, &Behind(|a| a.asked(a.sizes, a.s, a.budget & 0xffff_ffff))),
    // ---- refused with values
    ("refused with 26 and an order", KINDS_OF_26, &Behind(|a| a.not_zeroed(26, 0))),
    ("refused with 26 and large", KINDS_OF_26, &Behind(|a| a.not_zeroed(26, 1))),
    ("refused with 26 and tried", KINDS_OF_26, &Behind(|a| a.not_zeroed(26, 2))),
    ("refused with 26 and a floor", KINDS_OF_26, &Behind(|a| a.not_zeroed(26, 3))),
    ("refused with 27 and an order", &["budget"], &Behind(|a| a.not_zeroed(27, 0))),
    ("refused with 27 and large", &["budget"], &Behind(|a| a.not_zeroed(27, 1))),
    ("refused with 27 and tried", &["budget"], &Behind(|a| a.not_zeroed(27, 2))),
    (
        "refused with 27 and the floor",
        &["budget"],
        &Behind(|a| if a.right.refusal == 27 { Answer::new(27, [0, 0, 0, Model.floor(a.sizes, a.s)]) } else { a.right }),
    ),
    // ---- writes
    (
        "sorts the sizes",
        GOOD,
        &Behind(|a| {
            if a.right.accepted() {
                a.sizes.sort_unstable();
            }
            a.right
        }),
    ),
    (
        "writes the last size when refused",
        &["nine sizes", "ten sizes or more", "a size", "exponent below", "exponent above", "budget", "several"],
        &Behind(|a| {
            if let (false, Some(size)) = (a.right.accepted(), a.sizes.last_mut()) {
                *size ^= 1;
            }
            a.right
        }),
    ),
];

const KINDS_OF_26: &[&str] = &["no sizes", "nine sizes", "ten sizes or more", "a size", "exponent below", "exponent above", "several"];

/// Each place takes the first of the positions left that is small-framed there, or the first of all.
fn greedy(sizes: &[u32], s: u32) -> Vec<usize> {
    let (mut left, mut h) = ((0..sizes.len()).collect::<Vec<_>>(), Model.start());
    let mut order = Vec::new();
    while !left.is_empty() {
        let nth = left.iter().position(|&position| !Model.is_large(s, h, Model.end(h, sizes[position]))).unwrap_or(0);
        let position = left.remove(nth);
        h = Model.end(h, sizes[position]);
        order.push(position);
    }
    order
}

/// How many orders of positions give the same sizes.
fn repeated(sizes: &[u32]) -> u64 {
    let mut by_size = BTreeMap::<u32, usize>::new();
    sizes.iter().for_each(|&size| *by_size.entry(size).or_default() += 1);
    by_size.into_values().map(all).product()
}

/// How many cases show a fault, by their kind, and what the first one shows.
fn find(cases: &[(Case, Answer)], fault: &dyn Orders) -> (BTreeMap<&'static str, u64>, Option<Box<Failure>>) {
    let (mut found, mut first) = (BTreeMap::new(), None);
    for (case, answer) in cases {
        let Err(failure) = case.check(*answer, fault) else { continue };
        *found.entry(case.kind()).or_default() += 1;
        first.get_or_insert(failure);
    }
    (found, first)
}

/// The cases and the right answers.
fn cases() -> Vec<(Case, Answer)> {
    let answered = |case: Case| {
        let answer = case.answer(&Model).unwrap_or_else(|failure| panic!("{failure}"));
        (case, answer)
    };
    (0..WITHIN)
        .map(|seed| (seed, case(seed)))
        .filter(|(seed, case)| !(7..=8).contains(&case.lent) || seed % LONG == 0)
        .map(|(_, case)| answered(case))
        .collect()
}

/// What is wrong with how a fault is found: not at all, not in the first of its kinds, or in another.
fn amiss(cases: &[(Case, Answer)], (name, by, fault): &Fault) -> Option<String> {
    let (found, Some(first)) = find(cases, *fault) else { return Some(format!("not found: {name}")) };
    println!("{name}: {found:?}\n{first}\n");
    let expected = found.contains_key(by[0]) && found.keys().all(|kind| by.contains(kind));
    (!expected).then(|| format!("{name}: found in {found:?}"))
}

fn are_found(faults: &[Fault]) {
    let cases = cases();
    let amiss: Vec<_> = faults.iter().filter_map(|fault| amiss(&cases, fault)).collect();
    assert!(amiss.is_empty(), "{}", amiss.join("\n"));
}

#[test]
fn rules_are_found() {
    are_found(RULES);
}

#[test]
fn others_are_found() {
    are_found(BEHIND);
}

/// Other rules come to the same: frames by their numbers, and the floor by their length; the order as given, where no object is large-framed
/// anywhere; of all orders in another sequence, the least of the best.
#[test]
fn what_is_no_fault_is_not_found() {
    struct Frames;
    impl Rules for Frames {
        fn is_large(&self, s: u32, h: u64, e: u64) -> bool {
            h / (1 << s) != e / (1 << s)
        }
        fn is_large_anywhere(&self, s: u32, size: u32) -> bool {
            HEADER + u64::from(size) >= 1 << s
        }
    }
    struct NothingToTry;
    impl Rules for NothingToTry {
        fn search(&self, sizes: &[u32], s: u32, budget: u64) -> (Vec<usize>, u64, u64) {
            let first = self.first(sizes.len());
            match self.floor(sizes, s) {
                0 => (first.clone(), self.large(sizes, &first, s), budget.min(all(sizes.len()))),
                _ => Model.search(sizes, s, budget),
            }
        }
    }
    let least = Behind(|a| a.of_all(|sizes, orders| orders.into_iter().min_by_key(|order| (Model.large(sizes, order, a.s), order.clone())).unwrap()));
    let cases = cases();
    for right in [&Frames as &dyn Orders, &NothingToTry, &least, &Behind(|asked| asked.right)] {
        if let Some(failure) = find(&cases, right).1 {
            panic!("{failure}");
        }
    }
}

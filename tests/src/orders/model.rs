//! The text, by plain next permutation.

use super::{Orders, BUDGET, LARGEST, MOST, PLAN};
use crate::model::{frame_number, HEADER, SUPERBLOCK};
use crate::store::{Answer, Model};

/// The order behind this one; false behind the last.
pub fn next(order: &mut [usize]) -> bool {
    let Some(falls) = (1..order.len()).rev().find(|&place| order[place - 1] < order[place]) else { return false };
    let above = (falls..order.len()).rev().find(|&place| order[place] > order[falls - 1]).unwrap();
    order.swap(falls - 1, above);
    order[falls..].reverse();
    true
}

/// How many orders there are.
pub fn all(count: usize) -> u64 {
    (1..=count as u64).product()
}

/// The text's rules. What is here is right; a test that plants a fault has another one in the place of one of them.
pub trait Rules {
    // ---- what is refused

    fn count_is_good(&self, count: usize) -> bool {
        (1..=MOST).contains(&count)
    }

    fn size_is_good(&self, size: u32) -> bool {
        size <= LARGEST
    }

    fn exponent_is_good(&self, s: u32) -> bool {
        (6..=15).contains(&s)
    }

    fn budget_is_good(&self, budget: u64) -> bool {
        budget > 0
    }

    fn plan_is_good(&self, sizes: &[u32], s: u32) -> bool {
        self.count_is_good(sizes.len()) && sizes.iter().all(|&size| self.size_is_good(size)) && self.exponent_is_good(s)
    }

    /// 26, 27.
    fn refused(&self, sizes: &[u32], s: u32, budget: u64) -> Result<(), u32> {
        if !self.plan_is_good(sizes, s) {
            return Err(PLAN);
        }
        if !self.budget_is_good(budget) {
            return Err(BUDGET);
        }
        Ok(())
    }

    // ---- one order

    /// Where the first header stands.
    fn start(&self) -> u64 {
        SUPERBLOCK
    }

    fn end(&self, h: u64, size: u32) -> u64 {
        h + HEADER + u64::from(size)
    }

    /// Whether an object from h to e is large-framed.
    fn is_large(&self, s: u32, h: u64, e: u64) -> bool {
        frame_number(h, e) > s
    }

    /// Where the header behind an object stands.
    fn behind(&self, e: u64) -> u64 {
        e
    }

    /// The large-framed objects.
    fn large(&self, sizes: &[u32], order: &[usize], s: u32) -> u64 {
        let (mut h, mut large) = (self.start(), 0);
        for &position in order {
            let e = self.end(h, sizes[position]);
            large += u64::from(self.is_large(s, h, e));
            h = self.behind(e);
        }
        large
    }

    // ---- the floor

    fn is_large_anywhere(&self, s: u32, size: u32) -> bool {
        // only rules that let more pass have s outside
        1u64.checked_shl(s).is_some_and(|frame| 17 + u64::from(size) > frame)
    }

    fn floor(&self, sizes: &[u32], s: u32) -> u64 {
        sizes.iter().filter(|&&size| self.is_large_anywhere(s, size)).count() as u64
    }

    // ---- all orders

    fn first(&self, count: usize) -> Vec<usize> {
        (0..count).collect()
    }

    fn next(&self, order: &mut [usize]) -> bool {
        next(order)
    }

    /// Whether an order is better than the best before it.
    fn is_better(&self, large: u64, best: u64) -> bool {
        large < best
    }

    /// Whether another order may be tried.
    fn may_try(&self, tried: u64, budget: u64) -> bool {
        tried < budget
    }

    /// Place i is byte i, the lowest first. (A ninth, which only other rules let pass, shifts others out.)
    fn pack(&self, order: &[usize]) -> u64 {
        order.iter().rev().fold(0, |bytes, &position| bytes << 8 | position as u64)
    }

    /// The first best order, its large-framed objects, and the number tried.
    fn search(&self, sizes: &[u32], s: u32, budget: u64) -> (Vec<usize>, u64, u64) {
        let mut order = self.first(sizes.len());
        let (mut best, mut fewest, mut tried) = (order.clone(), self.large(sizes, &order, s), 1);
        while self.may_try(tried, budget) && self.next(&mut order) {
            tried += 1;
            let large = self.large(sizes, &order, s);
            if self.is_better(large, fewest) {
                best.copy_from_slice(&order);
                fewest = large;
            }
        }
        (best, fewest, tried)
    }

    fn found(&self, sizes: &[u32], s: u32, budget: u64) -> Result<[u64; 4], u32> {
        self.refused(sizes, s, budget)?;
        let (best, fewest, tried) = self.search(sizes, s, budget);
        Ok([self.pack(&best), fewest, tried, self.floor(sizes, s)])
    }
}

impl Rules for Model {}

impl<R: Rules> Orders for R {
    fn order(&self, sizes: &mut [u32], slot_exponent: u32, budget: u64) -> Answer {
        self.found(sizes, slot_exponent, budget).into()
    }
}

#[cfg(test)]
mod tests {
    use super::*;

    #[test]
    fn orders_of_three() {
        let mut order = vec![0, 1, 2];
        let mut orders = vec![order.clone()];
        while next(&mut order) {
            orders.push(order.clone());
        }
        assert_eq!(orders, [[0, 1, 2], [0, 2, 1], [1, 0, 2], [1, 2, 0], [2, 0, 1], [2, 1, 0]]);
    }

    /// Each is above the one before, and there are as many as there can be.
    #[test]
    fn all_orders_of_one_to_eight() {
        for count in 1..=MOST {
            let (mut order, mut tried) = (Model.first(count), 1);
            let mut before = order.clone();
            while next(&mut order) {
                assert!(before < order);
                assert!((0..count).all(|position| order.contains(&position)));
                before.copy_from_slice(&order);
                tried += 1;
            }
            assert_eq!(tried, all(count));
        }
        assert_eq!(all(MOST), 40_320);
    }

    /// Headers at 16, 36 and 72 or 152; 20 bytes from 36 end at 72, in another frame of 64.
    #[test]
    fn sizes_4_20_and_100() {
        let large = |order: [usize; 3]| Model.large(&[4, 20, 100], &order, 6);
        assert_eq!([large([0, 1, 2]), large([0, 2, 1]), large([1, 0, 2]), large([1, 2, 0]), large([2, 0, 1]), large([2, 1, 0])], [2, 1, 2, 1, 1, 1]);
        assert_eq!(Model.found(&[4, 20, 100], 6, 6), Ok([0x01_02_00, 1, 6, 1]));
        assert_eq!(Model.found(&[4, 20, 100], 6, 1), Ok([0x02_01_00, 2, 1, 1]));
    }
}

//! Document 02's order with few large frames.
//!
//! `model` is its text; `generate` makes sizes, exponents and budgets; `case` asks two sides at once; `seen` says what occurred;
//! `golden` reads the cases of `golden/orders.txt`.

pub mod case;
pub mod generate;
pub mod golden;
pub mod model;
pub mod seen;

use crate::store::Answer;

/// Its refusals, in the order in which they are tested.
pub const ROWS: [u32; 2] = [PLAN, BUDGET];

/// There is no size or more than 8, a size is above 65,535, or the slot exponent is outside 6..=15.
pub const PLAN: u32 = 26;

/// The budget is 0.
pub const BUDGET: u32 = 27;

/// The most sizes.
pub const MOST: usize = 8;

/// The largest size.
pub const LARGEST: u32 = 65_535;

/// An implementation of the call. Its values are order, large, tried and floor. The sizes are mutable so that a write shows.
pub trait Orders {
    fn order(&self, sizes: &mut [u32], slot_exponent: u32, budget: u64) -> Answer;
}

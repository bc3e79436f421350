//! Document 02's type check before a cast.
//!
//! `model` is its text; `lists` makes lists of descriptors, good and bad; `generate` stores and questions for them; `case` asks two
//! sides at once; `seen` says what occurred.

pub mod case;
pub mod generate;
pub mod lists;
pub mod model;
pub mod seen;

use crate::store::Answer;

/// Its refusals, in the order in which they are tested.
pub const ROWS: [u32; 6] = [4, 5, 24, 10, 11, 25];

/// A descriptor of the list is bad.
pub const BAD: u32 = 24;

/// The object's type is not listed, or described with more bytes than the object has.
pub const UNDESCRIBED: u32 = 25;

/// An implementation of the call. Its value is 1 for yes. What is lent is mutable so that a write shows.
pub trait Casts {
    fn has_type(&self, image: &mut [u8], table: &mut [u64], descriptors: &mut [u8], pointer: u64, wanted: u16) -> Answer;
}

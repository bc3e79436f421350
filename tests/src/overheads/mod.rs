//! Document 02's overhead report against padded blocks.
//!
//! `model` is its text; `generate` makes lists of sizes; `case` asks two sides at once; `seen` says what occurred; `golden` reads the
//! cases of `golden/overheads.txt`.

pub mod case;
pub mod generate;
pub mod golden;
pub mod model;
pub mod seen;

use crate::store;

/// Its refusals, in the order in which they are tested.
pub const ROWS: [u32; 2] = [MANY, SIZE];

/// There are more than 65,536 sizes.
pub const MANY: u32 = 28;

/// A size is outside 1..=65,536.
pub const SIZE: u32 = 29;

/// The most sizes.
pub const MOST: usize = 65_536;

/// The largest size.
pub const LARGEST: u32 = 65_536;

/// Raw bytes, bytes with headers, padded bytes, the end reached; then extra and over, of headers and of padded bytes.
pub const VALUES: usize = 8;

pub type Answer = store::Answer<VALUES>;

/// An implementation of the call. The sizes are mutable so that a write shows.
pub trait Overheads {
    fn overhead(&self, sizes: &mut [u32]) -> Answer;
}

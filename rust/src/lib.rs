//! CueLedger's object store: one lent image of memory and a frame table, from which objects are allocated, and FRAMER tagged
//! pointers through which each read and write is checked.
//!
//! The calls are those of the proved library `libcapi.a`; this crate passes slices to them and names their answers. Every call
//! ends properly on all images, tables, pointers and numbers, and a refused call changes no byte of image or table. Limits (time,
//! stack, threads) are those of `include/cueledger.h`; `docs/FORMAT.md` has the layout of image, table and pointers.
//!
//! ```
//! use cueledger::{Refusal, Store, Width};
//!
//! let mut image = [0u8; 4096];
//! let mut table = [0u64; Store::table_entries(4096, 9)];
//! let mut store = Store::set_up(&mut image, &mut table, 9)?;
//!
//! let record = store.allocate(10, 7)?;
//! let field = store.offset(record, 2)?;
//! store.store(field, Width::Eight, 250)?;
//! assert_eq!(store.load(field, Width::Eight), Ok(250));
//! assert_eq!(store.load(store.offset(record, 3)?, Width::Eight), Err(Refusal::OutOfBounds));
//!
//! store.free(record)?;
//! assert_eq!(store.load(record, Width::One), Err(Refusal::Dangling));
//!
//! for size in [10, 20] {
//!     store.allocate_for(size, 7, 12)?;
//! }
//! assert_eq!(store.release(12), Ok(2)); // all objects of cue 12
//! assert_eq!(store.free_total(), Ok(4080)); // all but the superblock
//! # Ok::<(), Refusal>(())
//! ```
#![no_std]
#![warn(missing_docs)]

mod blocks;
pub mod descriptor;
pub mod ffi;
mod overhead;
mod placement;
mod pointer;
mod refusal;
mod store;
mod width;

pub use blocks::{Block, Blocks, Kind, UnsoundHeader};
pub use overhead::{Fraction, Overhead};
pub use placement::Placement;
pub use pointer::Pointer;
pub use refusal::Refusal;
pub use store::{Distances, Store, Tally, Traffic};
pub use width::Width;

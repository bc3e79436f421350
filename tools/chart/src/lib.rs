//! Charts of an object store, from dumps of its image and its table.
//!
//! Whether the superblock is good, tally, free total, distances and the refusals are answers of the proved library; the blocks are those of the
//! wrapper's walk. Written here are the reasons in words, an object's frame and pointer, and the drawing.

pub mod compare;
pub mod dump;
pub mod image;
pub mod map;
pub mod object;
pub mod pointer;
pub mod progress;
pub mod show;
pub mod summary;
pub mod svg;
pub mod text;

use std::io;

/// Why a command could not answer.
#[derive(Debug)]
pub enum Failure {
    /// Wrong arguments.
    Usage,
    /// What is said on standard error.
    Said(String),
    /// Its answer could not be written.
    Unwritten(io::Error),
}

impl From<io::Error> for Failure {
    fn from(error: io::Error) -> Failure {
        Failure::Unwritten(error)
    }
}

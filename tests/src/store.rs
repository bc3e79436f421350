//! The calls as data, and what answers them.

use crate::model;
use cueledger::Refusal;
use std::fmt;

/// The last row of the refusal table: the highest number that a call answers.
pub const ROWS: usize = Refusal::ALL[Refusal::ALL.len() - 1] as usize;

/// The most values that a call on a store answers: tally's.
pub const VALUES: usize = 4;

#[derive(Clone, Copy, Debug, PartialEq, Eq)]
pub enum Access {
    Reads,
    Writes,
}

/// What documents 01 and 02 say of a call.
#[derive(Debug)]
pub struct Kind {
    pub name: &'static str,
    pub access: Access,
    /// Its refusals, in the order in which they are tested.
    pub rows: &'static [u32],
}

macro_rules! calls {
    ($($call:ident $name:literal $access:ident [$($row:literal)*] $({ $($pointer:ident)*; $($field:ident: $type:ty),* })?)*) => {
        /// One of their calls. `P` is how a pointer is given: a number, or where to take it from.
        #[derive(Clone, Copy, Debug, PartialEq, Eq)]
        pub enum Call<P> {
            $($call $({ $($pointer: P,)* $($field: $type,)* })?,)*
        }

        pub const KINDS: &[Kind] = &[$(Kind { name: $name, access: Access::$access, rows: &[$($row),*] }),*];

        impl<P: Copy> Call<P> {
            /// The same call with each pointer replaced.
            pub fn map<Q>(self, mut f: impl FnMut(P) -> Q) -> Call<Q> {
                match self {
                    $(Call::$call $({ $($pointer,)* $($field,)* })? => Call::$call $({ $($pointer: f($pointer),)* $($field,)* })?,)*
                }
            }

            /// The place of its kind in `KINDS`.
            pub fn place(&self) -> usize {
                enum Place {
                    $($call,)*
                }
                match self {
                    $(Call::$call { .. } => Place::$call as usize,)*
                }
            }
        }

        impl fmt::Display for Call<u64> {
            fn fmt(&self, f: &mut fmt::Formatter<'_>) -> fmt::Result {
                write!(f, "{}", self.kind().name)?;
                match *self {
                    $(Call::$call $({ $($pointer,)* $($field,)* })? => {
                        $($(write!(f, ", {} {:#018x}", stringify!($pointer), $pointer)?;)*)?
                        $($(write!(f, ", {} {}", stringify!($field), $field)?;)*)?
                    })*
                }
                Ok(())
            }
        }
    };
}

// name, what it does to image and table, its refusals, and its arguments: pointers; others
calls! {
    SetUp "set-up" Writes [1 2 3] { ; slot_exponent: u32 }
    Allocate "allocate" Writes [4 5 7 8 9 22] { ; size: u32, type_number: u16 }
    AllocateFor "allocate for" Writes [4 5 7 8 9 22] { ; size: u32, type_number: u16, cue: u32 }
    Move "move" Reads [4 5 10 12] { pointer; distance: i64 }
    Load "load" Reads [4 5 14 10 11 13] { pointer; width: u64 }
    Store "store" Writes [4 5 14 16 10 11 13] { pointer; width: u64, value: u64 }
    Free "free" Writes [4 5 10 11 15 7 22] { pointer; }
    Release "release" Writes [4 5 7 21 22] { ; cue: u32 }
    Fill "fill" Writes [4 5 6 10 11 13] { pointer; length: u32, value: u8 }
    Copy "copy" Writes [4 5 6 10 11 13] { target source; length: u32 }
    Compare "compare" Reads [4 5 6 10 11 13] { left right; length: u32 }
    CopyText "text copy" Writes [4 5 10 11 13 20] { target source; }
    Tally "tally" Reads [4 5 7]
    FreeTotal "free total" Reads [4 5]
    Distances "distances" Reads [4 5 10 11] { pointer; }
}

impl<P: Copy> Call<P> {
    pub fn kind(&self) -> &'static Kind {
        &KINDS[self.place()]
    }
}

/// What a call answers: the refusal's number, 0 where it is accepted, and its values, 0 where it has none. A negative one
/// stands in two's complement.
#[derive(Clone, Copy, Debug, PartialEq, Eq)]
pub struct Answer<const N: usize = VALUES> {
    pub refusal: u32,
    pub values: [u64; N],
}

impl<const N: usize> Answer<N> {
    pub fn new<const GIVEN: usize>(refusal: u32, given: [u64; GIVEN]) -> Answer<N> {
        let mut values = [0; N];
        values[..GIVEN].copy_from_slice(&given);
        Answer { refusal, values }
    }

    pub fn accepted(self) -> bool {
        self.refusal == 0
    }
}

impl<const N: usize> fmt::Display for Answer<N> {
    fn fmt(&self, f: &mut fmt::Formatter<'_>) -> fmt::Result {
        match self.refusal {
            0 => write!(f, "accepted")?,
            number => write!(f, "refusal {number}")?,
        }
        let given = N - self.values.iter().rev().take_while(|&&value| value == 0).count();
        self.values[..given].iter().try_for_each(|value| write!(f, ", {value:#018x}"))
    }
}

impl From<Result<u64, u32>> for Answer {
    fn from(result: Result<u64, u32>) -> Answer {
        result.map(|value| [value]).into()
    }
}

impl<const N: usize, const GIVEN: usize> From<Result<[u64; GIVEN], u32>> for Answer<N> {
    fn from(result: Result<[u64; GIVEN], u32>) -> Answer<N> {
        match result {
            Ok(values) => Answer::new(0, values),
            Err(refusal) => Answer::new(refusal, []),
        }
    }
}

/// An implementation of the calls.
pub trait Store {
    fn call(&self, image: &mut [u8], table: &mut [u64], call: Call<u64>) -> Answer;
}

/// The model of documents 01 and 02.
#[derive(Clone, Copy)]
pub struct Model;

impl Store for Model {
    fn call(&self, image: &mut [u8], table: &mut [u64], call: Call<u64>) -> Answer {
        match call {
            Call::SetUp { slot_exponent } => model::set_up(image, table, slot_exponent).into(),
            Call::Allocate { size, type_number } => model::allocate(image, table, size, type_number).into(),
            Call::AllocateFor { size, type_number, cue } => model::allocate_for(image, table, size, type_number, cue).into(),
            Call::Move { pointer, distance } => model::offset(image, table, pointer, distance).into(),
            Call::Load { pointer, width } => model::load(image, table, pointer, width).into(),
            Call::Store { pointer, width, value } => model::store(image, table, pointer, width, value).into(),
            Call::Free { pointer } => model::free(image, table, pointer).into(),
            Call::Release { cue } => model::release(image, table, cue).into(),
            Call::Fill { pointer, length, value } => model::fill(image, table, pointer, length, value).into(),
            Call::Copy { target, source, length } => model::copy(image, table, target, source, length).into(),
            Call::Compare { left, right, length } => model::compare(image, table, left, right, length).map(|order| order as u64).into(),
            Call::CopyText { target, source } => model::copy_text(image, table, target, source).into(),
            Call::Tally => model::tally(image, table).into(),
            Call::FreeTotal => model::free_total(image, table).into(),
            Call::Distances { pointer } => model::distances(image, table, pointer).map(|distances| distances.map(|distance| distance as u64)).into(),
        }
    }
}

#[cfg(test)]
mod tests {
    use super::KINDS;
    use crate::{casts, orders, overheads};
    use cueledger::Refusal;

    #[test]
    fn every_row_is_some_calls() {
        let others = [("has type", &casts::ROWS[..]), ("order", &orders::ROWS), ("overhead", &overheads::ROWS)];
        let calls = || KINDS.iter().map(|kind| (kind.name, kind.rows)).chain(others);
        for refusal in Refusal::ALL {
            assert!(calls().any(|(_, rows)| rows.contains(&refusal.number())), "{refusal}");
        }
        for (name, rows) in calls() {
            assert!(rows.iter().all(|&row| Refusal::from_number(row).is_some()), "{name}");
        }
    }
}

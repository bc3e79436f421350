//! The three that are compared: the library, by its exports; the model of documents 01 and 02, which releases in a single pass; and
//! the floor, hand-written C.

use crate::floor;
use cueledger_tests::model::{self, Answer, CompareAnswer, DistancesAnswer, TallyAnswer};
use cueledger_tests::single_pass;
use cueledger_tests::traffic::{Asked, Traffic};

/// An image and its table.
#[derive(Clone)]
pub struct Lent {
    pub image: Vec<u8>,
    pub table: Vec<u64>,
}

impl Lent {
    /// Written once, so that every page is there before the first round; then set up.
    pub fn new(length: usize, slot_exponent: u32) -> Lent {
        let mut lent = Lent { image: vec![0xa5; length], table: vec![0xa5; model::used_entries(slot_exponent, length as u64) as usize] };
        Model::set_up(&mut lent, slot_exponent).expect("set-up");
        lent
    }

    pub fn allocate(&mut self, size: u32) -> u64 {
        Model::allocate(self, size).expect("allocate")
    }
}

pub trait Calls {
    fn set_up(lent: &mut Lent, slot_exponent: u32) -> Answer;
    fn allocate(lent: &mut Lent, size: u32) -> Answer;
    fn offset(lent: &Lent, pointer: u64, distance: i64) -> Answer;
    fn distances(lent: &Lent, pointer: u64) -> DistancesAnswer;
    fn load(lent: &Lent, pointer: u64, width: u64) -> Answer;
    fn store(lent: &mut Lent, pointer: u64, width: u64, value: u64) -> Answer;
    fn free(lent: &mut Lent, pointer: u64) -> Answer;
    fn release(lent: &mut Lent, cue: u32) -> Answer;
    fn fill(lent: &mut Lent, pointer: u64, length: u32, value: u8) -> Answer;
    fn copy(lent: &mut Lent, target: u64, source: u64, length: u32) -> Answer;
    fn compare(lent: &Lent, left: u64, right: u64, length: u32) -> CompareAnswer;
    fn copy_text(lent: &mut Lent, target: u64, source: u64) -> Answer;
    fn tally(lent: &Lent) -> TallyAnswer;
    fn free_total(lent: &Lent) -> Answer;
}

/// Those who make a repeatable load.
pub trait Loads {
    fn traffic(lent: &mut Lent, asked: Asked, log: &mut [u8]) -> TrafficAnswer;
}

/// The state after and the bytes written, or the refusal's number.
pub type TrafficAnswer = Result<[u64; 2], u32>;

/// A closure in which the type named first is the contestant.
#[macro_export]
macro_rules! round {
    ($contestant:ident, $calls:ident, $lent:ident: $type:ty, $work:expr) => {
        |$lent: &mut $type| {
            type $calls = $crate::contestants::$contestant;
            $work
        }
    };
}

/// Rounds of one text for library and model.
#[macro_export]
macro_rules! both {
    (|$calls:ident, $lent:ident: $type:ty| $work:expr) => {
        $crate::measure::Rounds::new($crate::round!(Library, $calls, $lent: $type, $work), $crate::round!(Model, $calls, $lent: $type, $work))
    };
}

/// And for the floor.
#[macro_export]
macro_rules! all {
    (|$calls:ident, $lent:ident: $type:ty| $work:expr) => {
        $crate::both!(|$calls, $lent: $type| $work).floor($crate::round!(Floor, $calls, $lent: $type, $work))
    };
}

const TYPE: u16 = 1;

/// One function of `$library::ffi`; image and table come first, values last.
macro_rules! export {
    ($library:ident, $name:ident, $lent:ident, $image:ident, $table:ident $(, $argument:expr)*; $($value:ident)*) => {{
        $(let mut $value = 0;)*
        // SAFETY: image, table and log are slices of their own, valid for the call; so are the values.
        let refusal = unsafe {
            $library::ffi::$name($lent.image.$image(), $lent.image.len(), $lent.table.$table(), $lent.table.len() $(, $argument)* $(, &mut $value)*)
        };
        if refusal == 0 { Ok([$($value),*]) } else { Err(refusal) }
    }};
}

/// The calls by functions that have the exports' names and arguments.
macro_rules! by_exports {
    ($contestant:ident, $library:ident) => {
        pub struct $contestant;

        impl Calls for $contestant {
            fn set_up(lent: &mut Lent, slot_exponent: u32) -> Answer {
                export!($library, cue_setup, lent, as_mut_ptr, as_mut_ptr, slot_exponent;).map(nothing)
            }

            fn allocate(lent: &mut Lent, size: u32) -> Answer {
                export!($library, cue_allocate, lent, as_mut_ptr, as_mut_ptr, size, TYPE; pointer).map(first)
            }

            fn offset(lent: &Lent, pointer: u64, distance: i64) -> Answer {
                export!($library, cue_move, lent, as_ptr, as_ptr, pointer, distance; moved).map(first)
            }

            fn distances(lent: &Lent, pointer: u64) -> DistancesAnswer {
                export!($library, cue_distances, lent, as_ptr, as_ptr, pointer; from_start to_end)
            }

            fn load(lent: &Lent, pointer: u64, width: u64) -> Answer {
                export!($library, cue_load, lent, as_ptr, as_ptr, pointer, width; value).map(first)
            }

            fn store(lent: &mut Lent, pointer: u64, width: u64, value: u64) -> Answer {
                export!($library, cue_store, lent, as_mut_ptr, as_ptr, pointer, width, value;).map(nothing)
            }

            fn free(lent: &mut Lent, pointer: u64) -> Answer {
                export!($library, cue_free, lent, as_mut_ptr, as_mut_ptr, pointer;).map(nothing)
            }

            fn release(lent: &mut Lent, cue: u32) -> Answer {
                export!($library, cue_release, lent, as_mut_ptr, as_mut_ptr, cue; count).map(first)
            }

            fn fill(lent: &mut Lent, pointer: u64, length: u32, value: u8) -> Answer {
                export!($library, cue_fill, lent, as_mut_ptr, as_ptr, pointer, length, value;).map(nothing)
            }

            fn copy(lent: &mut Lent, target: u64, source: u64, length: u32) -> Answer {
                export!($library, cue_copy, lent, as_mut_ptr, as_ptr, target, source, length;).map(nothing)
            }

            fn compare(lent: &Lent, left: u64, right: u64, length: u32) -> CompareAnswer {
                export!($library, cue_compare, lent, as_ptr, as_ptr, left, right, length; order).map(first)
            }

            fn copy_text(lent: &mut Lent, target: u64, source: u64) -> Answer {
                export!($library, cue_copy_text, lent, as_mut_ptr, as_ptr, target, source; copied).map(first)
            }

            fn tally(lent: &Lent) -> TallyAnswer {
                export!($library, cue_tally, lent, as_ptr, as_ptr; objects live_bytes free_bytes overhead_bytes)
            }

            fn free_total(lent: &Lent) -> Answer {
                export!($library, cue_free_total, lent, as_ptr, as_ptr; total).map(first)
            }
        }
    };
}

by_exports!(Library, cueledger);
by_exports!(Floor, floor);

impl Loads for Library {
    fn traffic(lent: &mut Lent, Asked { slot_exponent, state, draws }: Asked, log: &mut [u8]) -> TrafficAnswer {
        export!(cueledger, cue_traffic, lent, as_mut_ptr, as_mut_ptr, slot_exponent, state, draws, log.as_mut_ptr(), log.len(); state_after written)
    }
}

fn nothing(_: [u64; 0]) -> u64 {
    0
}

fn first<T>([value]: [T; 1]) -> T {
    value
}

pub struct Model;

impl Calls for Model {
    fn set_up(lent: &mut Lent, slot_exponent: u32) -> Answer {
        model::set_up(&mut lent.image, &mut lent.table, slot_exponent)
    }

    fn allocate(lent: &mut Lent, size: u32) -> Answer {
        model::allocate(&mut lent.image, &mut lent.table, size, TYPE)
    }

    fn offset(lent: &Lent, pointer: u64, distance: i64) -> Answer {
        model::offset(&lent.image, &lent.table, pointer, distance)
    }

    fn distances(lent: &Lent, pointer: u64) -> DistancesAnswer {
        model::distances(&lent.image, &lent.table, pointer)
    }

    fn load(lent: &Lent, pointer: u64, width: u64) -> Answer {
        model::load(&lent.image, &lent.table, pointer, width)
    }

    fn store(lent: &mut Lent, pointer: u64, width: u64, value: u64) -> Answer {
        model::store(&mut lent.image, &lent.table, pointer, width, value)
    }

    fn free(lent: &mut Lent, pointer: u64) -> Answer {
        model::free(&mut lent.image, &mut lent.table, pointer)
    }

    fn release(lent: &mut Lent, cue: u32) -> Answer {
        single_pass::release(&mut lent.image, &mut lent.table, cue)
    }

    fn fill(lent: &mut Lent, pointer: u64, length: u32, value: u8) -> Answer {
        model::fill(&mut lent.image, &lent.table, pointer, length, value)
    }

    fn copy(lent: &mut Lent, target: u64, source: u64, length: u32) -> Answer {
        model::copy(&mut lent.image, &lent.table, target, source, length)
    }

    fn compare(lent: &Lent, left: u64, right: u64, length: u32) -> CompareAnswer {
        model::compare(&lent.image, &lent.table, left, right, length)
    }

    fn copy_text(lent: &mut Lent, target: u64, source: u64) -> Answer {
        model::copy_text(&mut lent.image, &lent.table, target, source)
    }

    fn tally(lent: &Lent) -> TallyAnswer {
        model::tally(&lent.image, &lent.table)
    }

    fn free_total(lent: &Lent) -> Answer {
        model::free_total(&lent.image, &lent.table)
    }
}

impl Loads for Model {
    fn traffic(lent: &mut Lent, asked: Asked, log: &mut [u8]) -> TrafficAnswer {
        let answer = cueledger_tests::store::Model.traffic(&mut lent.image, &mut lent.table, asked, log);
        let [state_after, written, ..] = answer.values;
        if answer.accepted() {
            Ok([state_after, written])
        } else {
            Err(answer.refusal)
        }
    }
}

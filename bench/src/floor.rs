//! `floor.c`: the calls in hand-written C, and their comparison with the model.

use cueledger_tests::counts::Counts;
use cueledger_tests::driver::compare;
use cueledger_tests::store::{Answer, Call, Model, Store, VALUES};

/// Under the exports' names, so that one text calls either.
pub mod ffi {
    /// Image and table come first, each as the call may change it or not.
    macro_rules! floor {
        ($($symbol:literal $name:ident($image:tt $table:tt $(, $argument:ident: $type:ty)*);)*) => {
            extern "C" {
                $(#[link_name = $symbol] pub fn $name(image: *$image u8, image_len: usize, table: *$table u64, table_len: usize $(, $argument: $type)*) -> u32;)*
            }
        };
    }

    floor! {
        "floor_setup" cue_setup(mut mut, slot_exponent: u32);
        "floor_allocate" cue_allocate(mut mut, size: u32, r#type: u16, pointer: *mut u64);
        "floor_allocate_for" cue_allocate_for(mut mut, size: u32, r#type: u16, cue: u32, pointer: *mut u64);
        "floor_move" cue_move(const const, pointer: u64, distance: i64, moved: *mut u64);
        "floor_distances" cue_distances(const const, pointer: u64, from_start: *mut i64, to_end: *mut i64);
        "floor_load" cue_load(const const, pointer: u64, width: u64, value: *mut u64);
        "floor_store" cue_store(mut const, pointer: u64, width: u64, value: u64);
        "floor_free" cue_free(mut mut, pointer: u64);
        "floor_release" cue_release(mut mut, cue: u32, count: *mut u64);
        "floor_fill" cue_fill(mut const, pointer: u64, length: u32, value: u8);
        "floor_copy" cue_copy(mut const, target: u64, source: u64, length: u32);
        "floor_compare" cue_compare(const const, left: u64, right: u64, length: u32, order: *mut i64);
        "floor_copy_text" cue_copy_text(mut const, target: u64, source: u64, copied: *mut u64);
        "floor_tally" cue_tally(const const, objects: *mut u64, live_bytes: *mut u64, free_bytes: *mut u64, overhead_bytes: *mut u64);
        "floor_free_total" cue_free_total(const const, total: *mut u64);
    }
}

/// For the drivers of `tests`.
struct Checked;

/// What values hold beforehand: a refusal must give 0 for each of them.
const STALE: u64 = 0xdead_beef_dead_beef;

impl Store for Checked {
    fn call(&self, image: &mut [u8], table: &mut [u64], call: Call<u64>) -> Answer {
        let (bytes, n, entries, m) = (image.as_mut_ptr(), image.len(), table.as_mut_ptr(), table.len());
        let mut values = [STALE; VALUES];
        let [v, w, x, y] = values.each_mut().map(|value| value as *mut u64);
        // SAFETY: both slices are valid and borrowed mutably for the call; the values are locals.
        let (refusal, given) = unsafe {
            match call {
                Call::SetUp { slot_exponent } => (ffi::cue_setup(bytes, n, entries, m, slot_exponent), 0),
                Call::Allocate { size, type_number } => (ffi::cue_allocate(bytes, n, entries, m, size, type_number, v), 1),
                Call::AllocateFor { size, type_number, cue } => (ffi::cue_allocate_for(bytes, n, entries, m, size, type_number, cue, v), 1),
                Call::Move { pointer, distance } => (ffi::cue_move(bytes, n, entries, m, pointer, distance, v), 1),
                Call::Load { pointer, width } => (ffi::cue_load(bytes, n, entries, m, pointer, width, v), 1),
                Call::Store { pointer, width, value } => (ffi::cue_store(bytes, n, entries, m, pointer, width, value), 0),
                Call::Free { pointer } => (ffi::cue_free(bytes, n, entries, m, pointer), 0),
                Call::Release { cue } => (ffi::cue_release(bytes, n, entries, m, cue, v), 1),
                Call::Fill { pointer, length, value } => (ffi::cue_fill(bytes, n, entries, m, pointer, length, value), 0),
                Call::Copy { target, source, length } => (ffi::cue_copy(bytes, n, entries, m, target, source, length), 0),
                Call::Compare { left, right, length } => (ffi::cue_compare(bytes, n, entries, m, left, right, length, v.cast()), 1),
                Call::CopyText { target, source } => (ffi::cue_copy_text(bytes, n, entries, m, target, source, v), 1),
                Call::Tally => (ffi::cue_tally(bytes, n, entries, m, v, w, x, y), 4),
                Call::FreeTotal => (ffi::cue_free_total(bytes, n, entries, m, v), 1),
                Call::Distances { pointer } => (ffi::cue_distances(bytes, n, entries, m, pointer, v.cast(), w.cast()), 2),
            }
        };
        values[given..].fill(0);
        Answer { refusal, values }
    }
}

/// Random calls on random and damaged images: answers and both buffers are the model's, and every row of every call occurs.
pub fn check(calls: u64, seed: u64) -> Counts {
    let counts = compare(&Model, &Checked, calls, seed).unwrap_or_else(|failure| panic!("floor.c: {failure}"));
    assert!(counts.missing().is_empty(), "rows that never occurred: {:?}", counts.missing());
    counts
}

#[cfg(test)]
mod tests {
    use super::check;
    use cueledger_tests::random::fresh_seed;

    #[test]
    fn answers_as_the_model_does() {
        for seed in [1, fresh_seed()] {
            let counts = check(1_000_000, seed);
            assert!(counts.seen.missing().is_empty(), "seed {seed}: {:?}", counts.seen.missing());
        }
    }
}

//! The library as a `Store`, as `Traffic`, as `Casts`, as `Orders` and as `Overheads`, through the Rust wrapper and through the exports
//! themselves.

use crate::casts::Casts;
use crate::orders::Orders;
use crate::overheads::{self, Overheads};
use crate::store::{Answer, Call, Store, VALUES};
use crate::traffic::{Asked, Traffic, FULL};
use cueledger::{ffi, Overhead, Placement, Pointer, Refusal, Width};

/// Through the crate `cueledger`.
#[derive(Clone, Copy)]
pub struct Library;

impl Store for Library {
    fn call(&self, image: &mut [u8], table: &mut [u64], call: Call<u64>) -> Answer {
        answered(image, table, call.map(Pointer::from)).map_err(Refusal::number).into()
    }
}

fn answered(image: &mut [u8], table: &mut [u64], call: Call<Pointer>) -> Result<[u64; VALUES], Refusal> {
    if let Call::SetUp { slot_exponent } = call {
        return cueledger::Store::set_up(image, table, slot_exponent).map(|_| [0; VALUES]);
    }
    let mut store = cueledger::Store::open(image, table)?;
    let value = match call {
        Call::SetUp { .. } => unreachable!(),
        Call::Allocate { size, type_number } => store.allocate(size, type_number)?.into(),
        Call::AllocateFor { size, type_number, cue } => store.allocate_for(size, type_number, cue)?.into(),
        Call::Move { pointer, distance } => store.offset(pointer, distance)?.into(),
        Call::Load { pointer, width } => store.load(pointer, Width::try_from(width)?)?,
        Call::Store { pointer, width, value } => store.store(pointer, Width::try_from(width)?, value).map(|()| 0)?,
        Call::Free { pointer } => store.free(pointer).map(|()| 0)?,
        Call::Release { cue } => store.release(cue)?,
        Call::Fill { pointer, length, value } => store.fill(pointer, length, value).map(|()| 0)?,
        Call::Copy { target, source, length } => store.copy(target, source, length).map(|()| 0)?,
        Call::Compare { left, right, length } => store.compare(left, right, length)? as i64 as u64,
        Call::CopyText { target, source } => store.copy_text(target, source)?,
        Call::FreeTotal => store.free_total()?,
        Call::Distances { pointer } => return store.distances(pointer).map(|d| [d.from_start as u64, d.to_end as u64, 0, 0]),
        Call::Tally => return store.tally().map(|t| [t.objects, t.live_bytes, t.free_bytes, t.overhead_bytes]),
    };
    Ok([value, 0, 0, 0])
}

impl Traffic for Library {
    fn traffic(&self, image: &mut [u8], table: &mut [u64], Asked { slot_exponent, state, draws }: Asked, log: &mut [u8]) -> Answer {
        match cueledger::Store::traffic(image, table, slot_exponent, state, draws, log) {
            Ok(cueledger::Traffic { state, written, full }) => Answer::new(if full { FULL } else { 0 }, [state, written as u64]),
            Err(refusal) => Answer::new(refusal.number(), []),
        }
    }
}

impl Casts for Library {
    fn has_type(&self, image: &mut [u8], table: &mut [u64], descriptors: &mut [u8], pointer: u64, wanted: u16) -> Answer {
        let yes = cueledger::Store::open(image, table).and_then(|store| store.has_type(descriptors, Pointer::from(pointer), wanted));
        yes.map(u64::from).map_err(Refusal::number).into()
    }
}

impl Orders for Library {
    fn order(&self, sizes: &mut [u32], slot_exponent: u32, budget: u64) -> Answer {
        let found = Placement::find(sizes, slot_exponent, budget);
        found.map(|Placement { order, large, tried, floor }| [u64::from_le_bytes(order), large, tried, floor]).map_err(Refusal::number).into()
    }
}

impl Overheads for Library {
    fn overhead(&self, sizes: &mut [u32]) -> overheads::Answer {
        let values = |Overhead { raw, with_headers, padded, end, headers, padding }| {
            [raw, with_headers, padded, end, headers.extra, headers.over, padding.extra, padding.over]
        };
        Overhead::of(sizes).map(values).map_err(Refusal::number).into()
    }
}

/// Through the exports. Values are not zero beforehand, so that a refusal must give 0 for each of them.
#[derive(Clone, Copy)]
pub struct Exports;

const STALE: u64 = 0xdead_beef_dead_beef;

impl Store for Exports {
    fn call(&self, image: &mut [u8], table: &mut [u64], call: Call<u64>) -> Answer {
        let (bytes, n, entries, m) = (image.as_mut_ptr(), image.len(), table.as_mut_ptr(), table.len());
        let [mut v, mut w, mut x, mut y] = [STALE; VALUES];
        // SAFETY: both slices are valid and borrowed mutably for the call; the values are locals.
        unsafe {
            match call {
                Call::SetUp { slot_exponent } => Answer::new(ffi::cue_setup(bytes, n, entries, m, slot_exponent), []),
                Call::Allocate { size, type_number } => {
                    let refusal = ffi::cue_allocate(bytes, n, entries, m, size, type_number, &mut v);
                    Answer::new(refusal, [v])
                }
                Call::AllocateFor { size, type_number, cue } => {
                    let refusal = ffi::cue_allocate_for(bytes, n, entries, m, size, type_number, cue, &mut v);
                    Answer::new(refusal, [v])
                }
                Call::Move { pointer, distance } => {
                    let refusal = ffi::cue_move(bytes, n, entries, m, pointer, distance, &mut v);
                    Answer::new(refusal, [v])
                }
                Call::Load { pointer, width } => {
                    let refusal = ffi::cue_load(bytes, n, entries, m, pointer, width, &mut v);
                    Answer::new(refusal, [v])
                }
                Call::Store { pointer, width, value } => Answer::new(ffi::cue_store(bytes, n, entries, m, pointer, width, value), []),
                Call::Free { pointer } => Answer::new(ffi::cue_free(bytes, n, entries, m, pointer), []),
                Call::Release { cue } => {
                    let refusal = ffi::cue_release(bytes, n, entries, m, cue, &mut v);
                    Answer::new(refusal, [v])
                }
                Call::Fill { pointer, length, value } => Answer::new(ffi::cue_fill(bytes, n, entries, m, pointer, length, value), []),
                Call::Copy { target, source, length } => Answer::new(ffi::cue_copy(bytes, n, entries, m, target, source, length), []),
                Call::Compare { left, right, length } => {
                    let mut order = STALE as i64;
                    let refusal = ffi::cue_compare(bytes, n, entries, m, left, right, length, &mut order);
                    Answer::new(refusal, [order as u64])
                }
                Call::CopyText { target, source } => {
                    let refusal = ffi::cue_copy_text(bytes, n, entries, m, target, source, &mut v);
                    Answer::new(refusal, [v])
                }
                Call::Tally => {
                    let refusal = ffi::cue_tally(bytes, n, entries, m, &mut v, &mut w, &mut x, &mut y);
                    Answer::new(refusal, [v, w, x, y])
                }
                Call::FreeTotal => {
                    let refusal = ffi::cue_free_total(bytes, n, entries, m, &mut v);
                    Answer::new(refusal, [v])
                }
                Call::Distances { pointer } => {
                    let (mut from_start, mut to_end) = (STALE as i64, STALE as i64);
                    let refusal = ffi::cue_distances(bytes, n, entries, m, pointer, &mut from_start, &mut to_end);
                    Answer::new(refusal, [from_start as u64, to_end as u64])
                }
            }
        }
    }
}

impl Traffic for Exports {
    fn traffic(&self, image: &mut [u8], table: &mut [u64], Asked { slot_exponent, state, draws }: Asked, log: &mut [u8]) -> Answer {
        let (bytes, n, entries, m) = (image.as_mut_ptr(), image.len(), table.as_mut_ptr(), table.len());
        let (mut after, mut written) = (STALE, STALE);
        // SAFETY: the three slices are valid and borrowed mutably for the call; the values are locals.
        let refusal = unsafe { ffi::cue_traffic(bytes, n, entries, m, slot_exponent, state, draws, log.as_mut_ptr(), log.len(), &mut after, &mut written) };
        Answer::new(refusal, [after, written])
    }
}

impl Casts for Exports {
    fn has_type(&self, image: &mut [u8], table: &mut [u64], descriptors: &mut [u8], pointer: u64, wanted: u16) -> Answer {
        let (bytes, n, entries, m) = (image.as_mut_ptr(), image.len(), table.as_mut_ptr(), table.len());
        let mut yes = STALE;
        // SAFETY: the three slices are valid and borrowed mutably for the call; the value is a local.
        let refusal = unsafe { ffi::cue_has_type(bytes, n, entries, m, descriptors.as_mut_ptr(), descriptors.len(), pointer, wanted, &mut yes) };
        Answer::new(refusal, [yes])
    }
}

impl Orders for Exports {
    fn order(&self, sizes: &mut [u32], slot_exponent: u32, budget: u64) -> Answer {
        let [mut order, mut large, mut tried, mut floor] = [STALE; VALUES];
        // SAFETY: the slice is valid and borrowed mutably for the call; the values are locals.
        let refusal = unsafe { ffi::cue_order(sizes.as_mut_ptr(), sizes.len(), slot_exponent, budget, &mut order, &mut large, &mut tried, &mut floor) };
        Answer::new(refusal, [order, large, tried, floor])
    }
}

/// Values that stand between others, which no call may write.
struct Between([u64; 2 * overheads::VALUES + 1]);

impl Between {
    fn new() -> Between {
        Between([STALE; 2 * overheads::VALUES + 1])
    }

    fn lent(&mut self) -> [*mut u64; overheads::VALUES] {
        let first = self.0.as_mut_ptr();
        std::array::from_fn(|nth| first.wrapping_add(2 * nth + 1))
    }

    fn values(&self) -> [u64; overheads::VALUES] {
        assert!(self.0.iter().step_by(2).all(|&other| other == STALE), "written beside the values: {:x?}", self.0);
        std::array::from_fn(|nth| self.0[2 * nth + 1])
    }
}

impl Overheads for Exports {
    fn overhead(&self, sizes: &mut [u32]) -> overheads::Answer {
        let mut between = Between::new();
        let [raw, with_headers, padded, end, headers_extra, headers_over, padded_extra, padded_over] = between.lent();
        // SAFETY: the slice is valid and borrowed mutably for the call; the values are a local's, each another one.
        let refusal = unsafe {
            let (first, count) = (sizes.as_mut_ptr(), sizes.len());
            ffi::cue_overhead(first, count, raw, with_headers, padded, end, headers_extra, headers_over, padded_extra, padded_over)
        };
        overheads::Answer::new(refusal, between.values())
    }
}

#[cfg(test)]
mod tests {
    use super::*;

    #[test]
    fn writes_beside_the_values_are_seen() {
        for at in 0..2 * overheads::VALUES + 1 {
            let mut between = Between::new();
            between.0[at] = 1;
            let seen = std::panic::catch_unwind(|| between.values());
            assert_eq!(seen.is_err(), at % 2 == 0, "{at}");
        }
    }
}

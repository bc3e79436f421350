//! Type checks: the whole call on lists of several lengths, against the same search in Rust, and against one that finds types by a table of
//! 65,536 positions, 256 KiB of stack.

use crate::contestants::Lent;
use crate::measure::{repeat, Bench, Other, Rounds};
use cueledger::{descriptor, ffi};
use cueledger_tests::model::{self, Header};
use std::hint::black_box;

/// A store with one object, of the list's last type, and a pointer into it; and the type that is wanted there.
struct Asked {
    lent: Lent,
    list: Vec<u8>,
    pointer: u64,
    wanted: u16,
}

fn le(list: &[u8], at: usize, width: usize) -> u64 {
    (0..width).rev().fold(0, |number, i| number << 8 | u64::from(list[at + i]))
}

/// Where the types described so far stand.
trait Positions {
    fn none() -> Self;
    fn add(&mut self, type_number: u64, p: usize);
    fn find(&self, list: &[u8], end: usize, type_number: u64) -> Option<usize>;
}

/// Nothing is kept: the list is walked.
struct Walk;

impl Positions for Walk {
    fn none() -> Walk {
        Walk
    }

    fn add(&mut self, _: u64, _: usize) {}

    fn find(&self, list: &[u8], end: usize, type_number: u64) -> Option<usize> {
        let mut p = 0;
        while p < end {
            if le(list, p + 6, 2) == type_number {
                return Some(p);
            }
            p += le(list, p, 4) as usize;
        }
        None
    }
}

/// The position by type number, one more than it is; 0 where there is none.
struct Table([u32; 1 << 16]);

impl Positions for Table {
    fn none() -> Table {
        Table([0; 1 << 16])
    }

    fn add(&mut self, type_number: u64, p: usize) {
        self.0[type_number as usize] = p as u32 + 1;
    }

    fn find(&self, _: &[u8], end: usize, type_number: u64) -> Option<usize> {
        let p = (self.0[type_number as usize] as usize).checked_sub(1)?;
        (p < end).then_some(p)
    }
}

/// Whether the descriptor at p is good; those before it are.
fn good(list: &[u8], p: usize, positions: &impl Positions) -> bool {
    let left = list.len() - p;
    if left < 12 {
        return false;
    }
    let (length, kind, type_number, size) = (le(list, p, 4), le(list, p + 4, 2), le(list, p + 6, 2), le(list, p + 8, 4));
    let shaped = kind == 4 && length == 12 || kind == 5 && length >= 12 && (length - 12) % 6 == 0;
    if length > left as u64 || !shaped || size == 0 || positions.find(list, p, type_number).is_some() {
        return false;
    }
    let mut from = 0;
    for field in (p + 12..p + length as usize).step_by(6) {
        let offset = le(list, field, 4);
        let Some(q) = positions.find(list, p, le(list, field + 4, 2)) else { return false };
        let end = offset + le(list, q + 8, 4);
        if offset < from || end > size {
            return false;
        }
        from = end;
    }
    true
}

/// Whether the type described at p has `wanted` at o.
fn has(list: &[u8], positions: &impl Positions, wanted: u64, mut p: usize, mut o: u64) -> bool {
    loop {
        if le(list, p + 6, 2) == wanted && o == 0 {
            return true;
        }
        let mut fields = (p + 12..p + le(list, p, 4) as usize).step_by(6).rev();
        let Some(field) = fields.find(|&field| le(list, field, 4) <= o) else { return false };
        let Some(q) = positions.find(list, p, le(list, field + 4, 2)) else { return false };
        (p, o) = (q, o - le(list, field, 4));
    }
}

fn has_type<P: Positions>(asked: &Asked) -> Result<u64, u32> {
    let Asked { lent, list, pointer, wanted } = asked;
    model::open(&lent.image, &lent.table)?;
    let mut positions = P::none();
    let mut p = 0;
    while p < list.len() {
        if !good(list, p, &positions) {
            return Err(24);
        }
        positions.add(le(list, p + 6, 2), p);
        p += le(list, p, 4) as usize;
    }
    let [from_start, to_end] = model::distances(&lent.image, &lent.table, *pointer)?;
    let base = (pointer & ((1 << 48) - 1)) as i64 - from_start;
    let header = Header::read(&lent.image, base as u64 - 16);
    match positions.find(list, list.len(), header.type_number.into()) {
        Some(p) if le(list, p + 8, 4) <= (from_start + to_end) as u64 => {
            Ok(u64::from(from_start >= 0 && has(list, &positions, (*wanted).into(), p, from_start as u64)))
        }
        _ => Err(25),
    }
}

fn library(asked: &Asked) -> Result<u64, u32> {
    let (Asked { lent: Lent { image, table }, list, pointer, wanted }, mut yes) = (asked, 0);
    // SAFETY: three slices of their own, valid for the call; so is the value.
    let refusal =
        unsafe { ffi::cue_has_type(image.as_ptr(), image.len(), table.as_ptr(), table.len(), list.as_ptr(), list.len(), *pointer, *wanted, &mut yes) };
    if refusal == 0 {
        Ok(yes)
    } else {
        Err(refusal)
    }
}

/// `types` types in all: a plain one of 4 bytes, then records, each with one field of the type before it, 4 bytes in.
fn chain(types: u16) -> Vec<u8> {
    let mut list = descriptor::plain(1, 4).to_vec();
    for type_number in 2..=types {
        list.extend(descriptor::record(type_number, 4 * u32::from(type_number), 1));
        list.extend(descriptor::field(4, type_number - 1));
    }
    list
}

/// `types` types in all: a plain one of 4 bytes, then records, each with four fields of it.
fn flat(types: u16) -> Vec<u8> {
    let mut list = descriptor::plain(1, 4).to_vec();
    for type_number in 2..=types {
        list.extend(descriptor::record(type_number, 16, 4));
        list.extend((0..4).flat_map(|field| descriptor::field(4 * field, 1)));
    }
    list
}

impl Asked {
    /// An object of the list's last type, and the first type wanted at its last field's last.
    fn new(list: Vec<u8>, last: u16, size: u32, offset: u64) -> Asked {
        let mut lent = Lent::new(1 << 17, 12);
        let pointer = model::allocate(&mut lent.image, &mut lent.table, size, last).expect("allocate");
        Asked { lent, list, pointer: pointer + offset, wanted: 1 }
    }
}

pub fn measure(bench: &mut Bench) {
    bench.heading("has type", "by table");
    let mut line = |name: &str, mut asked: Asked, wanted: Result<u64, u32>| {
        let calls = (200_000 / asked.list.len().max(20)).max(1);
        macro_rules! round {
            ($call:expr) => {
                |asked: &mut Asked| repeat(calls, |_| assert_eq!(black_box($call(black_box(&*asked))), wanted))
            };
        }
        bench.line(name, calls, &mut asked, Rounds::new(round!(library), round!(has_type::<Walk>)), Other::Shown(&mut round!(has_type::<Table>)));
    };
    for types in [1, 4, 16, 64, 256, 1_000] {
        let size = 4 * u32::from(types);
        line(&format!("a chain of {types} types"), Asked::new(chain(types), types, size, u64::from(size) - 4), Ok(1));
    }
    for types in [16, 256] {
        line(&format!("{types} types, records of four fields"), Asked::new(flat(types), types, 16, 12), Ok(1));
    }
    let mut cut = chain(16);
    cut.pop();
    line("16 types, the last cut short (24)", Asked::new(cut, 16, 64, 60), Err(24));
    line("16 types, not listed (25)", Asked::new(chain(16), 17, 64, 60), Err(25));
    line("16 types, between fields: no", Asked::new(chain(16), 16, 64, 2), Ok(0));
}

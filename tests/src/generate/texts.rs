//! Text copy and compare, mostly of bytes that were written for them.

use super::Generator;
use crate::case::{Arg, View};
use crate::store::Call;

/// Bytes in which runs differ that are otherwise alike.
const PAIRS: [(u8, u8); 8] = [(0x7f, 0x80), (0x80, 0x7f), (0, 1), (1, 0), (0, 0xff), (0xff, 0), (0x7f, 0xff), (0x41, 0x42)];

impl Generator {
    pub(super) fn compare(&mut self, view: &View<'_>) {
        let (left, rest) = self.target(view);
        let (right, other) = if self.random.percent(10) { (left, rest) } else { self.target(view) };
        let common = rest.min(other);
        let differs = if common > 0 && self.random.percent(75) { self.make_alike(left, right, common as u64) } else { None };
        // it writes nothing: any pointer will do
        let [left, right] = [left, right].map(|pointer| if self.random.percent(10) { self.pointer(view) } else { pointer });
        let length = match (differs, self.random.below(10)) {
            (Some(at), 0) => at,
            (Some(at), 1..4) => at + 1,
            _ => self.length(common),
        };
        self.call(Call::Compare { left, right, length });
    }

    pub(super) fn copy_text(&mut self, view: &View<'_>) {
        let (source, rest) = self.target(view);
        let text = if rest > 0 && self.random.percent(80) { self.write_text(source, rest as u64) } else { None };
        let target = match (text, self.random.below(10)) {
            (_, 0) => source,
            (Some(text), 1..4) => {
                let distance = self.random.within(1, text) as i64 * self.random.pick(&[1, -1]);
                Arg::of(self.call(Call::Move { pointer: source, distance }))
            }
            // room for the text, or for a byte less or more
            (Some(text), 4..7) => match self.live_pointer() {
                Some((pointer, rest)) => {
                    let distance = rest - text as i64 + self.random.pick(&[0, 0, 1, -1]);
                    Arg::of(self.call(Call::Move { pointer, distance }))
                }
                None => source,
            },
            _ => self.target(view).0,
        };
        self.call(Call::CopyText { target, source });
    }

    /// Makes the first of so many bytes alike at both pointers, and mostly one of them differ; gives its place.
    fn make_alike(&mut self, left: Arg, right: Arg, common: u64) -> Option<u32> {
        if self.random.percent(50) {
            self.write_letters(left, 0, common);
        }
        let length = if self.random.percent(70) { common.min(40) } else { self.random.within(1, common.min(40)) };
        self.call(Call::Copy { target: right, source: left, length: length as u32 });
        if self.random.percent(25) {
            return None;
        }
        // places further on are rarer: there have to be as many bytes
        let places = length.min(18);
        let at = self.random.below(places).max(self.random.below(places));
        let (one, other) = self.random.pick(&PAIRS);
        self.write(left, at, 1, one.into());
        self.write(right, at, 1, other.into());
        Some(at as u32)
    }

    /// Letters up to the body's end, and a zero byte in place of one of them or of none; gives the bytes of the text.
    fn write_text(&mut self, pointer: Arg, rest: u64) -> Option<u64> {
        let value = self.random.pick(&[1, 0x61, 0x7f, 0x80, 0xff]);
        self.call(Call::Fill { pointer, length: rest as u32, value });
        let zero = match self.random.below(10) {
            0 => 0,
            1 | 2 => rest - 1,
            3 | 4 => rest,
            5..8 => self.random.below(rest.min(20)),
            _ => self.random.below(rest),
        };
        let at = self.random.below(zero + 1);
        self.write_letters(pointer, at, rest - at);
        if zero == rest {
            return None;
        }
        self.write(pointer, zero, 1, 0);
        Some(zero + 1)
    }

    /// Up to eight different bytes, none of them zero, of the `rest` from a place on.
    fn write_letters(&mut self, pointer: Arg, at: u64, rest: u64) {
        if rest > 0 {
            let width = rest.min(8);
            let letters = self.random.word() | 0x0101_0101_0101_0101;
            self.write(pointer, at, width, letters & (u64::MAX >> (64 - 8 * width)));
        }
    }

    /// Stores a number this far behind a pointer.
    fn write(&mut self, pointer: Arg, at: u64, width: u64, value: u64) {
        let moved = self.call(Call::Move { pointer, distance: at as i64 });
        self.call(Call::Store { pointer: Arg::of(moved), width, value });
    }
}

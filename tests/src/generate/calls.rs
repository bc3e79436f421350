//! One call each, with arguments around its limits.

use super::{Generator, Mode};
use crate::case::{Arg, View};
use crate::store::Call;

impl Generator {
    pub(super) fn set_up(&mut self) {
        let slot_exponent = self.slot_exponent;
        self.call(Call::SetUp { slot_exponent });
    }

    pub(super) fn allocate(&mut self, view: &View<'_>) {
        let size = self.size(view);
        let type_number = self.random.word() as u16;
        self.call(Call::Allocate { size, type_number });
    }

    /// A size for a new object.
    pub(super) fn size(&mut self, view: &View<'_>) -> u32 {
        let length = self.buffers.lent_image as u64;
        let jitter = self.random.within(0, 18);
        let size = match self.random.below(22) {
            0..6 => self.random.within(1, 40),
            6..9 => self.random.within(1, 200),
            9 | 10 => self.random.within(1, length / 4),
            // up to a frame's end, or the free block's, or a little off
            11..17 => match self.block(view) {
                Some((h, _)) if self.random.percent(60) => {
                    let exponent = self.random.within(5, 13);
                    ((((h + 17) >> exponent) + 1) << exponent) + self.random.pick(&[0, 0, 1, 2]) - 1 - h - 16
                }
                Some((_, header)) => u64::from(header.extent).saturating_sub(jitter + 14),
                None => length,
            },
            17 => length.saturating_sub(16 + jitter),
            18 | 19 => 0,
            20 => self.random.pick(&[1, 1, 0xffff_ffff, 0xffff_fff0, 0xffff_ffef, 1 << 30, 1 << 31]),
            _ => self.random.word() >> self.random.within(32, 63),
        };
        size.min(u64::from(u32::MAX)) as u32
    }

    pub(super) fn free(&mut self, view: &View<'_>) {
        let pointer = if self.random.percent(60) { self.live_start() } else { self.pointer(view) };
        self.call(Call::Free { pointer });
    }

    pub(super) fn move_pointer(&mut self, view: &View<'_>) {
        let pointer = self.pointer(view);
        let size = self.random.within(1, 64) as u32;
        let distance = self.distance(view.answers.resolve(pointer), size);
        self.call(Call::Move { pointer, distance });
    }

    pub(super) fn load(&mut self, view: &View<'_>) {
        let width = self.width();
        let pointer = match self.live_pointer() {
            Some((Arg::Answer { step, .. }, rest)) if self.random.percent(50) => {
                let add = match self.random.below(4) {
                    0 => rest - width.min(16) as i64 + self.random.pick(&[0, 1, -1]),
                    _ => self.random.below(rest.max(1) as u64) as i64,
                };
                Arg::Answer { step, add, flip: 0 }
            }
            _ => self.pointer(view),
        };
        self.call(Call::Load { pointer, width });
    }

    pub(super) fn store(&mut self, view: &View<'_>) {
        let width = self.width();
        let value = self.value(width);
        let (pointer, _) = self.target(view);
        self.call(Call::Store { pointer, width, value });
    }

    pub(super) fn fill(&mut self, view: &View<'_>) {
        let (pointer, rest) = self.target(view);
        let length = self.length(rest);
        let value = self.random.pick(&[0, 1, 2, 16, 0xff, 0x5a]);
        self.call(Call::Fill { pointer, length, value });
    }

    pub(super) fn copy(&mut self, view: &View<'_>) {
        let (target, rest) = self.target(view);
        let (source, other) = if self.random.percent(30) { (target, rest) } else { self.target(view) };
        let length = self.length(rest.min(other));
        self.call(Call::Copy { target, source, length });
    }

    pub(super) fn tally(&mut self, _: &View<'_>) {
        self.call(Call::Tally);
    }

    // ---- arguments

    pub(super) fn width(&mut self) -> u64 {
        match self.random.below(30) {
            0 => self.random.below(17),
            1 => self.random.pick(&[0, 9, 16, 1 << 32, 1 << 32 | 4, 1 << 63 | 8, 256 + 1, 65536 + 2, u64::MAX]),
            _ => self.random.within(1, 8),
        }
    }

    fn value(&mut self, width: u64) -> u64 {
        let bits = 8 * width.clamp(1, 8) as u32;
        let largest = u64::MAX >> (64 - bits);
        match self.random.below(20) {
            0 => self.random.number(),
            1 => largest,
            2 => largest.saturating_add(1),
            _ => self.random.word() & largest,
        }
    }

    /// A length for a pointer with `rest` bytes from its address to the body's end.
    pub(super) fn length(&mut self, rest: i64) -> u32 {
        let rest = rest.clamp(0, i64::from(u32::MAX)) as u64;
        match self.random.below(20) {
            0 => 0,
            1 => self.random.pick(&[u32::MAX, u32::MAX - 15, 1 << 31, 1 << 30]),
            2..6 => rest as u32,
            6..8 => rest as u32 + 1,
            8..12 => self.random.within(1, 16) as u32,
            _ => self.random.within(1, rest.max(1)) as u32,
        }
    }

    /// A pointer that store, fill, copy and text copy may get here, and the bytes from its address to the body's end. Where
    /// it has to be a live object's, a move may be queued before.
    pub(super) fn target(&mut self, view: &View<'_>) -> (Arg, i64) {
        if self.mode != Mode::History && self.random.percent(40) {
            return (self.pointer(view), self.random.within(1, 40) as i64);
        }
        let Some((pointer, rest)) = self.live_pointer() else {
            return (Arg::Number(0), 1);
        };
        if rest > 0 && self.random.percent(40) {
            let distance = if self.random.percent(80) { self.random.below(rest as u64) as i64 } else { rest - self.random.within(0, 9) as i64 };
            let moved = self.call(Call::Move { pointer, distance });
            // a refused move leaves no pointer: its answer then counts as 0, which every store refuses with 10
            return (Arg::of(moved), rest - distance);
        }
        (pointer, rest)
    }
}

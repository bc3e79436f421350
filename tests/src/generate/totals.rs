//! Free totals that are not what the blocks make them, most of them at a limit of row 22.

use super::Generator;
use crate::case::{Action, Arg, Damage, Total, View};
use crate::model::{Header, Pointer};
use crate::store::Call;

impl Generator {
    pub(super) fn free_total(&mut self, _: &View<'_>) {
        self.call(Call::FreeTotal);
    }

    fn set_total(&mut self, of: Total, more: i64) {
        self.push(Action::Damage(Damage::Total { of, more }));
    }

    /// To what the blocks make it.
    pub(super) fn mend_total(&mut self) {
        self.set_total(Total::Blocks, 0);
    }

    /// A total, and a call that changes it; at times with another row of the call, which comes before 22.
    pub(super) fn damage_total(&mut self, view: &View<'_>) {
        let call = self.changing(view);
        let (of, more) = self.total_for(call);
        self.set_total(of, more);
        if self.random.percent(40) {
            self.call(Call::FreeTotal);
        }
        if self.random.percent(40) {
            self.call_amiss(view, call);
        }
        self.call(call);
        if self.random.percent(40) {
            self.call(Call::FreeTotal);
        }
        if self.random.percent(30) {
            self.any_calls(view);
        }
        if self.random.percent(50) {
            self.mend_total();
            self.call(call);
        }
    }

    /// Allocate, free or release.
    fn changing(&mut self, view: &View<'_>) -> Call<Arg> {
        let (type_number, cue) = (self.random.word() as u16, self.cue());
        match self.random.below(11) {
            0..3 => Call::Allocate { size: self.size_in_block(view), type_number },
            3..5 => Call::AllocateFor { size: self.size_in_block(view), type_number, cue },
            5..8 => Call::Free { pointer: self.live_start() },
            // hardly ever an object's
            8 => Call::Release { cue: self.random.word() as u32 },
            _ => {
                let cues: Vec<u32> = self.blocks(view).iter().filter(|(_, header)| header.is_live()).map(|(_, header)| header.last).collect();
                Call::Release { cue: if cues.is_empty() { cue } else { self.random.pick(&cues) } }
            }
        }
    }

    /// A size around a free block's, so that it is taken whole, or any.
    fn size_in_block(&mut self, view: &View<'_>) -> u32 {
        let free: Vec<u32> = self.blocks(view).iter().filter(|(_, header)| header.is_free()).map(|(_, header)| header.extent).collect();
        if free.is_empty() || self.random.percent(50) {
            return self.size(view);
        }
        self.random.pick(&free).saturating_sub(14 + self.random.below(20) as u32)
    }

    fn total_for(&mut self, call: Call<Arg>) -> (Total, i64) {
        let beyond = if matches!(call, Call::Free { .. } | Call::Release { .. }) { 1 } else { -1 };
        match self.random.below(20) {
            0..3 => (Total::Limit(call), 0),
            3..6 => (Total::Limit(call), beyond),
            6..9 => (Total::Limit(call), -beyond),
            // between size, 16 + size and the extent, or by a neighbour's extent
            9..11 => (Total::Limit(call), beyond * self.random.within(1, 40) as i64),
            11 => (Total::Bytes(0), self.random.pick(&[0, 0, 1, 16])),
            // 2^32 - 1, and others that leave 32 bits with an extent more
            12 | 13 => (Total::Bytes(u32::MAX), self.random.pick(&[0, 0, 0, -1, -15, -16, -31])),
            // too small without its highest bit
            14 | 15 => (Total::Bytes(1 << self.random.pick(&[31, 31, 31, 24, 16])), self.random.pick(&[0, 1, 16])),
            16 => (Total::All, self.random.pick(&[-1, 0, 0, 1, 1, 16])),
            17 => (Total::Stored, self.random.pick(&[-16, -1, 1, 16])),
            18 => (Total::Blocks, self.random.pick(&[-1, 1])),
            _ => (Total::Bytes(self.random.word() as u32 >> self.random.below(32)), 0),
        }
    }

    /// The call with an entry, a header or its pointer as it should not be; entry and header are put back.
    fn call_amiss(&mut self, view: &View<'_>, call: Call<Arg>) {
        let blocks = self.blocks(view);
        if blocks.is_empty() {
            return;
        }
        match (call, self.random.below(10)) {
            (Call::Allocate { size, .. } | Call::AllocateFor { size, .. }, 0..8) => {
                let fits = |&(_, header): &(u64, Header)| header.is_free() && u64::from(header.extent) >= 16 + u64::from(size);
                let Some((h, _)) = blocks.into_iter().find(fits) else { return };
                let of = Arg::Number(Pointer::to(self.slot_exponent, h, u64::from(size)).pack());
                self.push(Action::Damage(Damage::EntryOf { of, value: Some(1) }));
                self.call(call);
                self.push(Action::Damage(Damage::EntryOf { of, value: Some(0) }));
            }
            (Call::Free { pointer: Arg::Answer { step, .. } }, 0..3) => {
                self.set_total(Total::Bytes(u32::MAX), 0);
                self.call(Call::Free { pointer: Arg::Answer { step, add: 1, flip: 0 } });
            }
            (Call::Release { cue }, 0..5) => {
                let live: Vec<_> = blocks.into_iter().filter(|(_, header)| header.is_live()).collect();
                let Some(of) = self.lose_entry(&live, cue) else { return };
                self.call(call);
                self.push(Action::Damage(Damage::EntryOf { of, value: None }));
            }
            _ => {
                let (h, header) = self.random.pick(&blocks);
                self.overwrite(h, Header { kind: 9, ..header }.bytes());
                self.call(call);
                self.overwrite(h, header.bytes());
            }
        }
    }

    /// On a fresh store: headers changed through a forged one, so that blocks and total do not suit each other. Then allocate and free
    /// answer 22, as they may in a log.
    pub(super) fn reach_for_total(&mut self) {
        let (size, type_number) = (self.random.within(0, 160) as u32, 9);
        let allocate = |size| Call::Allocate { size, type_number };
        // the first body gets a header whose body is the second header
        let [first, second, last] = [16, size, 1].map(|size| self.call(allocate(size)));
        let forged = Arg::Header { step: first, offset: 0, size: 16 };
        self.write_header(Arg::of(first), 0, Header::live(32, type_number, 16, 0));
        let live = Header::live(16 + u64::from(size), type_number, size, 0);
        // the rest, so that nothing is free
        let rest = self.call(allocate(self.buffers.lent_image as u32 - 16 - 32 - live.extent - 17 - 16));
        self.write_header(forged, 0, Header::free(live.extent.into()));
        self.call(allocate(size));
        self.write_header(forged, 0, live);
        for step in [rest, second] {
            self.call(Call::Free { pointer: Arg::of(step) });
        }
        // free, and given back once more: the total is too large from 34 bytes on
        self.write_header(forged, 0, live);
        self.call(Call::Free { pointer: Arg::of(second) });
        self.write_header(forged, 0, Header::free(live.extent.into()));
        for step in [first, last] {
            self.call(Call::Free { pointer: Arg::of(step) });
        }
    }
}

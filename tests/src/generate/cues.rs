//! Allocate for a cue, release, and damages that a release meets.

use super::Generator;
use crate::case::{Action, Arg, Damage, View};
use crate::model::{self, Header, Pointer};
use crate::store::Call;

/// Cues of one case: some differ in their upper or lower bits alone.
pub(super) const FAMILIES: [[u32; 3]; 6] =
    [[0, 1, 2], [0, 1 << 16, 1 << 31], [1, 1 | 1 << 16, 1 | 1 << 31], [0, 0xffff, u32::MAX], [1, 1 << 8, 1 << 24], [0, u32::MAX, u32::MAX - 1]];

/// As many blocks are damaged at most.
const DAMAGED: usize = 24;

impl Generator {
    pub(super) fn cue(&mut self) -> u32 {
        if self.random.percent(97) {
            self.random.pick(&self.cues)
        } else {
            self.random.word() as u32
        }
    }

    /// A header's last four bytes.
    pub(super) fn last_bytes(&mut self) -> u32 {
        match self.random.below(4) {
            0 => 0,
            1 => 1 << self.random.below(32),
            _ => self.cue(),
        }
    }

    /// One object, or several of one cue side by side.
    pub(super) fn allocate_for(&mut self, view: &View<'_>) {
        let (cue, type_number) = (self.cue(), self.random.word() as u16);
        let size = self.size(view);
        self.call(Call::AllocateFor { size, type_number, cue });
        if self.random.percent(40) {
            for _ in 0..self.random.within(1, 4) {
                let size = if self.random.percent(20) { 0 } else { self.random.within(1, 40) as u32 };
                self.call(Call::AllocateFor { size, type_number, cue });
            }
        }
    }

    pub(super) fn release(&mut self, _: &View<'_>) {
        let cue = self.cue();
        self.call(Call::Release { cue });
    }

    /// The first blocks of the walk.
    pub(super) fn blocks(&self, view: &View<'_>) -> Vec<(u64, Header)> {
        if view.image.len() < 64 {
            return Vec::new();
        }
        model::blocks(view.image).take(DAMAGED).collect()
    }

    /// Cues given anew, free blocks side by side, entries lost, a header unsound; then a release.
    pub(super) fn damage_for_release(&mut self, view: &View<'_>) {
        let blocks = match self.random.below(10) {
            0..3 => self.blocks(view),
            3..6 => self.blocks(view).into_iter().filter_map(|(h, header)| self.scatter(h, header)).collect(),
            _ => self.lay_out(view),
        };
        let live: Vec<(u64, Header)> = blocks.iter().copied().filter(|(_, header)| header.is_live()).collect();
        if live.is_empty() {
            return;
        }
        let cue = self.random.pick(&live).1.last;
        if self.random.percent(85) {
            self.mend_total();
        }
        let lost = if self.random.percent(50) { self.lose_entry(&live, cue) } else { None };
        let unsound = if self.random.percent(25) { Some(self.random.pick(&blocks)) } else { None };
        if let Some((h, header)) = unsound {
            let damaged = self.damaged(h, header);
            self.overwrite(h, damaged.bytes());
        }
        self.call(Call::Release { cue });
        if let Some((h, header)) = unsound {
            self.overwrite(h, header.bytes());
            self.call(Call::Release { cue });
        }
        if let Some(of) = lost.filter(|_| self.random.percent(60)) {
            self.push(Action::Damage(Damage::EntryOf { of, value: None }));
            self.call(Call::Release { cue });
        }
        self.any_calls(view);
    }

    /// Gives a live block a cue, or makes it up to three free ones; those are not clear. Gives the block where it is live.
    fn scatter(&mut self, h: u64, header: Header) -> Option<(u64, Header)> {
        let extent = u64::from(header.extent);
        if header.is_live() && self.random.percent(70) {
            let cue = self.random.pick(&self.cues[..2]);
            let header = Header { last: cue, ..header };
            self.overwrite(h, header.bytes());
            return Some((h, header));
        }
        if header.is_live() || self.random.percent(30) {
            let blocks = self.random.within(1, 3);
            self.make_free(h, extent, blocks);
        }
        None
    }

    /// Other blocks from one of the walk on, free and live as it comes, live ones with their entries.
    fn lay_out(&mut self, view: &View<'_>) -> Vec<(u64, Header)> {
        let (mut blocks, end) = (Vec::new(), view.image.len() as u64);
        let mut at = self.block(view).map_or(end, |(h, _)| h);
        while at != end {
            let extent = match self.random.below(5) {
                _ if blocks.len() >= DAMAGED => end,
                0 => self.random.within(16, 31),
                _ => self.random.within(16, 80),
            };
            let extent = if at + extent + 16 > end { end - at } else { extent };
            let header = if self.random.percent(40) {
                Header::free(extent)
            } else {
                let spare = self.random.below(16).min(extent - 16);
                Header::live(extent, 5, (extent - 16 - spare) as u32, self.random.pick(&self.cues[..2]))
            };
            self.overwrite(at, header.bytes());
            if header.is_live() {
                let of = Arg::Number(Pointer::to(self.slot_exponent, at, u64::from(header.size)).pack());
                self.push(Action::Damage(Damage::EntryOf { of, value: None }));
            }
            blocks.push((at, header));
            at += extent;
        }
        blocks
    }

    /// Takes the entry of a large-framed object, mostly of this cue; gives its pointer.
    pub(super) fn lose_entry(&mut self, blocks: &[(u64, Header)], cue: u32) -> Option<Arg> {
        let of_cue = self.random.percent(80);
        let pointer = |(h, header): (u64, Header)| Pointer::to(self.slot_exponent, h, u64::from(header.size));
        let large: Vec<(u64, Header)> = blocks.iter().copied().filter(|&block| !pointer(block).small && (block.1.last == cue || !of_cue)).collect();
        if large.is_empty() {
            return None;
        }
        let block = self.random.pick(&large);
        let of = Arg::Number(pointer(block).pack());
        let value = match self.random.below(3) {
            0 => 0,
            1 => self.random.pick(blocks).0,
            _ => self.entry_value(block.0),
        };
        self.push(Action::Damage(Damage::EntryOf { of, value: Some(value) }));
        Some(of)
    }
}

//! Objects of no bytes, each call through their pointers, and headers on either side of what is sound for them.

use super::Generator;
use crate::case::{Action, Arg, Damage, Total, View};
use crate::model::{self, Header, Pointer};
use crate::store::Call;

/// Extent and size of live headers, on either side of what is sound.
const LIMITS: [(u32, u32); 12] = [(16, 0), (17, 0), (30, 0), (31, 0), (15, 0), (32, 0), (48, 0), (0, 0), (16, 1), (17, 1), (32, 1), (33, 1)];

impl Generator {
    /// A new one, or one that is there, and calls through its pointer.
    pub(super) fn empties(&mut self, view: &View<'_>) {
        let pointer = match self.empty_object() {
            Some(object) if self.random.percent(60) => Arg::of(self.objects[object].pointers[0].0),
            _ => {
                if self.random.percent(25) {
                    self.leave_little(view);
                }
                Arg::of(self.allocate_empty())
            }
        };
        for _ in 0..self.random.within(1, 4) {
            self.use_empty(view, pointer);
        }
    }

    fn allocate_empty(&mut self) -> u32 {
        let (type_number, cue) = (self.random.word() as u16, self.cue());
        if self.random.percent(50) {
            self.call(Call::Allocate { size: 0, type_number })
        } else {
            self.call(Call::AllocateFor { size: 0, type_number, cue })
        }
    }

    fn empty_object(&mut self) -> Option<usize> {
        let empties: Vec<usize> = (0..self.objects.len()).filter(|&i| self.objects[i].live && self.objects[i].size == 0).collect();
        (!empties.is_empty()).then(|| self.random.pick(&empties))
    }

    /// Takes the image's last block, if it is free, up to a few bytes; at times those too.
    fn leave_little(&mut self, view: &View<'_>) {
        if view.image.len() < 64 {
            return;
        }
        let Some((_, last)) = model::blocks(view.image).last().filter(|(_, header)| header.is_free()) else { return };
        let left = self.random.pick(&[16, 16, 16, 17, 31, 32, 47]);
        if let Some(size) = last.extent.checked_sub(16 + left) {
            self.call(Call::Allocate { size, type_number: 3 });
        }
        if self.random.percent(50) {
            self.allocate_empty();
        }
    }

    /// One call, or a move and one call.
    fn use_empty(&mut self, view: &View<'_>, pointer: Arg) {
        let start = view.answers.resolve(pointer);
        let pointer = if self.random.percent(25) {
            let distance = self.in_reach(start, 0);
            Arg::of(self.call(Call::Move { pointer, distance }))
        } else {
            pointer
        };
        let other = if self.random.percent(10) { pointer } else { self.live_start() };
        let length = self.random.pick(&[0, 0, 1, 1, 1, 1, 2, 15, 16, u32::MAX]);
        let width = self.random.pick(&[1, 1, 1, 2, 8]);
        let call = match self.random.below(24) {
            0 | 1 => Call::Load { pointer, width },
            2 | 3 => Call::Store { pointer, width, value: self.random.below(256) },
            4 | 5 => Call::Fill { pointer, length, value: 0x5a },
            6 | 7 => Call::Copy { target: pointer, source: other, length },
            8 | 9 => Call::Copy { target: other, source: pointer, length },
            10 | 11 => Call::Compare { left: pointer, right: other, length },
            12 | 13 => Call::Compare { left: other, right: pointer, length },
            14 | 15 => Call::CopyText { target: other, source: pointer },
            16 | 17 => Call::CopyText { target: pointer, source: other },
            18 | 19 => Call::Distances { pointer },
            20 => Call::Move { pointer, distance: self.in_reach(start, 0) },
            21 => Call::Tally,
            22 => Call::Release { cue: self.cue() },
            _ => Call::Free { pointer },
        };
        self.call(call);
    }

    pub(super) fn damage_for_empties(&mut self, view: &View<'_>) {
        if self.random.percent(30) {
            self.little_free(view);
        } else {
            self.live_of_little(view);
        }
    }

    /// The first free block, or the first of all, made one of 16 to 31 bytes with another behind it, and the free total or the entry
    /// such that it is just taken or not.
    fn little_free(&mut self, view: &View<'_>) {
        let blocks = self.blocks(view);
        let Some(&(h, block)) = blocks.iter().find(|block| block.1.is_free()).or(blocks.first()) else { return };
        let little = self.random.pick(&[16, 17, 24, 31]).min(block.extent);
        let little = if block.extent - little < 16 { block.extent } else { little };
        self.overwrite(h, Header::free(little.into()).bytes());
        if little < block.extent {
            self.overwrite(h + u64::from(little), Header::free((block.extent - little).into()).bytes());
        }
        let (total, more) = self.random.pick(&[(15, 0), (16, 0), (little, 0), (little, -1), (little, 1)]);
        self.push(Action::Damage(Damage::Total { of: Total::Bytes(total), more }));
        let p = Pointer::to(self.slot_exponent, h, 0);
        let (of, taken) = (Arg::Number(p.pack()), !p.small && self.random.percent(60));
        if taken {
            self.push(Action::Damage(Damage::EntryOf { of, value: Some(h) }));
        }
        self.allocate_empty();
        if taken {
            self.push(Action::Damage(Damage::EntryOf { of, value: Some(0) }));
        }
        self.mend_total();
        self.allocate_empty();
    }

    /// A live header of hardly any bytes in the place of a block's or in the image's last bytes, walks over it, and calls through its
    /// pointer; mostly put back.
    fn live_of_little(&mut self, view: &View<'_>) {
        let end = view.image.len() as u64;
        let Some((h, block)) = self.block(view) else { return };
        let (extent, size) = self.random.pick(&LIMITS);
        // a sound one leaves the rest to a free block, or takes the place of one of its extent
        let (h, extent) = match self.random.below(4) {
            0 => (end - u64::from(extent).max(16), extent),
            1 if (16..=31).contains(&block.extent) => (h, block.extent),
            _ => (h, extent),
        };
        let room = (end - h).min(48) as usize;
        let before = view.image[h as usize..h as usize + room].to_vec();
        let cue = self.random.pick(&self.cues[..2]);
        self.overwrite(h, Header::live(extent.into(), 5, size, cue).bytes());
        let rest = u64::from(block.extent).saturating_sub(extent.into());
        if extent >= 16 && rest >= 16 && h + u64::from(extent) + 16 <= end {
            self.overwrite(h + u64::from(extent), Header::free(rest).bytes());
        }
        let p = Pointer::to(self.slot_exponent, h, size.into());
        let pointer = Arg::Number(p.pack());
        self.push(Action::Damage(Damage::EntryOf { of: pointer, value: None }));
        if self.random.percent(80) {
            self.mend_total();
        }
        if self.random.percent(30) {
            self.call(Call::Tally);
        }
        if !p.small && self.random.percent(60) {
            let value = self.random.pick(&[0, 16, h + 1]);
            self.push(Action::Damage(Damage::EntryOf { of: pointer, value: Some(value) }));
            self.call(Call::Release { cue });
            self.push(Action::Damage(Damage::EntryOf { of: pointer, value: None }));
        }
        for _ in 0..self.random.within(1, 4) {
            match self.random.below(6) {
                0 => self.any_calls(view),
                1 | 2 => self.walk(),
                3 => {
                    self.call(Call::Distances { pointer });
                }
                _ => self.use_empty(view, pointer),
            }
        }
        if self.random.percent(70) {
            for (at, bytes) in (h..).step_by(16).zip(before.chunks_exact(16)) {
                self.overwrite(at, bytes.try_into().unwrap());
            }
        }
    }

    fn walk(&mut self) {
        let call = match self.random.below(8) {
            0 | 1 => Call::Tally,
            2 | 3 => Call::Release { cue: self.random.pick(&self.cues[..2]) },
            4 => Call::Allocate { size: self.random.pick(&[0, 0, 1, 40, 1 << 30]), type_number: 5 },
            _ => Call::Free { pointer: self.last_start() },
        };
        self.call(call);
    }

    /// The start of the live object with the highest address, or another's.
    fn last_start(&mut self) -> Arg {
        let live = self.objects.iter().filter(|object| object.live).map(|object| object.pointers[0]);
        match live.max_by_key(|&(_, pointer)| Pointer::unpack(pointer).address) {
            Some((step, _)) if self.random.percent(70) => Arg::of(step),
            _ => self.live_start(),
        }
    }
}

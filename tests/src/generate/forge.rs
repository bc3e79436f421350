//! A live header written into a live object's body, and pointers to it.

use super::{Generator, Mode};
use crate::case::{Action, Arg, Damage, View};
use crate::model::{self, Header, Pointer};
use crate::store::Call;

impl Generator {
    pub(super) fn forge(&mut self, view: &View<'_>) {
        let Some(object) = self.object(true) else { return };
        let size = u64::from(self.objects[object].size);
        let (step, start) = self.objects[object].pointers[0];
        if size < 16 {
            return;
        }
        let offset = self.random.below(size - 15);
        let h = Pointer::unpack(start).address + offset;
        // inside the body, or up to the image's end over the neighbours
        let room = if self.random.percent(60) { size - offset } else { (self.buffers.lent_image as u64).saturating_sub(h) };
        let forged = if self.random.percent(25) { 0 } else { self.random.within(0, room.saturating_sub(16)) as u32 };
        let header = self.forged_header(forged);
        self.write_header(Arg::of(step), offset, header);
        let pointer = Arg::Header { step, offset, size: forged };
        if self.mode == Mode::Damaged && self.random.percent(70) {
            self.push(Action::Damage(Damage::EntryOf { of: pointer, value: None }));
        }
        for _ in 0..self.random.within(1, 4) {
            self.use_forged(view, pointer, forged);
        }
    }

    /// Sixteen bytes through a pointer, this far behind its address.
    pub(super) fn write_header(&mut self, pointer: Arg, offset: u64, header: Header) {
        let bytes = header.bytes();
        for (place, word) in [(0, &bytes[..8]), (8, &bytes[8..])] {
            let distance = (offset + place) as i64;
            let moved = self.call(Call::Move { pointer, distance });
            self.call(Call::Store { pointer: Arg::of(moved), width: 8, value: u64::from_le_bytes(word.try_into().unwrap()) });
        }
    }

    /// A forged header in the same slot as the next block's, which is changed through it: to a free one, whose table
    /// entry stays, or beyond what is sound.
    pub(super) fn reach_over(&mut self, view: &View<'_>) {
        let Some(object) = self.object(true) else { return };
        let (step, start) = self.objects[object].pointers[0];
        let body = Pointer::unpack(start).address;
        // as the image has it: headers of live objects may have been changed
        let Some(own) = model::sound(view.image, body - 16).filter(|own| own.size >= 16) else { return };
        let next = body - 16 + u64::from(own.extent);
        let Some(header) = model::sound(view.image, next) else { return };
        // the last place in the body; the forged body ends with the next header
        let (offset, forged) = (u64::from(own.size) - 16, own.extent - own.size);
        if !Pointer::to(self.slot_exponent, body + offset, u64::from(forged)).small {
            return;
        }
        let (pointer, place) = (Arg::Header { step, offset, size: forged }, u64::from(forged) - 16);
        let cue = self.cue();
        self.write_header(Arg::of(step), offset, Header::live(u64::from(forged) + 16, 9, forged, cue));
        let changed = if self.random.percent(50) { Header::free(header.extent.into()) } else { self.damaged(next, header) };
        self.write_header(pointer, place, changed);
        self.call(Call::Allocate { size: header.size, type_number: 9 });
        self.any_calls(view);
        // mostly put back, or allocate refuses for the rest of the list
        if self.random.percent(95) {
            self.write_header(pointer, place, header);
        }
    }

    /// Sound for a body of `size` bytes, or nearly so.
    fn forged_header(&mut self, size: u32) -> Header {
        let more = self.random.pick(&[15, 16, 16, 16, 17, 31, 32]);
        let mut header = Header::live(u64::from(size) + more, 9, size, self.last_bytes());
        if self.random.percent(15) {
            header.kind = self.random.pick(&[0, 1, 3, 0x102]);
        }
        header
    }

    fn use_forged(&mut self, view: &View<'_>, pointer: Arg, size: u32) {
        match self.random.below(14) {
            0..3 => {
                let width = self.width();
                self.call(Call::Load { pointer, width });
            }
            3 => {
                let distance = self.distance(view.answers.resolve(pointer), size);
                let moved = self.call(Call::Move { pointer, distance });
                self.call(Call::Load { pointer: Arg::of(moved), width: 1 });
            }
            4 | 5 => {
                self.call(Call::Free { pointer });
            }
            6 => {
                let length = self.length(i64::from(size));
                let other = self.live_start();
                let (left, right) = self.random.pick(&[(pointer, other), (other, pointer)]);
                self.call(Call::Compare { left, right, length });
            }
            7 => self.distances_around(pointer, view.answers.resolve(pointer), size),
            _ if self.mode == Mode::History => {}
            8 => {
                let value = self.random.word();
                self.call(Call::Store { pointer, width: 8, value });
            }
            9 => {
                let other = self.live_start();
                let (target, source) = self.random.pick(&[(pointer, other), (other, pointer)]);
                self.call(Call::CopyText { target, source });
            }
            10 | 11 => {
                let length = self.length(i64::from(size));
                let other = self.live_start();
                let (target, source) = self.random.pick(&[(pointer, other), (other, pointer)]);
                self.call(Call::Copy { target, source, length });
            }
            _ => {
                let length = self.length(i64::from(size));
                self.call(Call::Fill { pointer, length, value: 0 });
            }
        }
    }
}

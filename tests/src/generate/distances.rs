//! Distances of pointers moved over their whole slot or frame, of tags out of range, and of damaged headers and entries.

use super::Generator;
use crate::case::{Action, Arg, Damage, View};
use crate::model::{self, Pointer};
use crate::store::Call;

impl Generator {
    /// It writes nothing: any pointer will do.
    pub(super) fn distances(&mut self, view: &View<'_>) {
        let kind = self.random.below(20);
        let object = if self.random.percent(10) { self.widest() } else { self.object(true) };
        let pointer = match (kind, object) {
            (0..11, Some(object)) => self.over_its_reach(object),
            (11 | 12, Some(object)) => self.retagged(object),
            (13, Some(object)) => self.near_48_bits(object),
            _ => self.pointer(view),
        };
        self.call(Call::Distances { pointer });
    }

    /// A live object in the largest frame.
    fn widest(&self) -> Option<usize> {
        let reach = |&i: &usize| Some(Pointer::unpack(self.objects[i].pointers[0].1)).filter(|p| !p.small).map(|p| p.tag);
        (0..self.objects.len()).filter(|&i| self.objects[i].live).max_by_key(reach)
    }

    /// Of a start's pointers over its slot or frame, or of itself.
    pub(super) fn distances_around(&mut self, start: Arg, number: u64, size: u32) {
        for _ in 0..2 {
            let distance = self.in_reach(number, size);
            let moved = self.call(Call::Move { pointer: start, distance });
            let pointer = if self.random.percent(30) { start } else { Arg::of(moved) };
            self.call(Call::Distances { pointer });
        }
    }

    /// An object's pointer anywhere in its slot or frame, or a byte outside; at times by a move.
    fn over_its_reach(&mut self, object: usize) -> Arg {
        let (step, pointer) = self.objects[object].pointers[0];
        let add = self.in_reach(pointer, self.objects[object].size);
        if self.random.percent(20) {
            return Arg::of(self.call(Call::Move { pointer: Arg::of(step), distance: add }));
        }
        Arg::Answer { step, add, flip: 0 }
    }

    /// How far a start is moved: around both ends of the body, the header, the spare bytes, the ends of slot or frame and of the
    /// image, or anywhere between.
    pub(super) fn in_reach(&mut self, start: u64, size: u32) -> i64 {
        let p = Pointer::unpack(start);
        let (address, size) = (p.address as i64, i64::from(size));
        let reach = if p.small { self.slot_exponent } else { (p.tag as u32).min(31) };
        let before = address & ((1i64 << reach) - 1);
        let last = (1i64 << reach) - 1 - before;
        match self.random.below(24) {
            0 | 1 => 0,
            2 | 3 => size,
            4 => self.random.pick(&[1, size - 1]),
            5 => size + 1,
            6 | 7 => -1,
            8 => -16,
            9 => -17,
            10 => -(self.random.within(1, 17) as i64),
            11 => size + self.random.within(1, 17) as i64,
            12 | 13 => -before,
            14 | 15 => last,
            16 => self.random.pick(&[-before - 1, last + 1]),
            17 => self.buffers.lent_image as i64 - address + self.random.pick(&[-1, 0, 0, 1]),
            18 => self.random.within(0, size as u64) as i64,
            _ => self.random.within(0, (before + last) as u64) as i64 - before,
        }
    }

    /// With another tag number, mostly one just out of range.
    fn retagged(&mut self, object: usize) -> Arg {
        let (step, pointer) = self.objects[object].pointers[0];
        let (p, s) = (Pointer::unpack(pointer), u64::from(self.slot_exponent));
        let any = self.random.below(1 << 15);
        let tag = if p.small { self.random.pick(&[1 << s, (1 << s) + 1, (1 << s) - 1, any]) } else { self.random.pick(&[s, s + 1, 31, 32, 0, any]) };
        Arg::Answer { step, add: 0, flip: (p.tag ^ tag & 0x7fff) << 48 }
    }

    /// At the ends of 48 bits, or at the object's own place in a slot or frame there.
    fn near_48_bits(&mut self, object: usize) -> Arg {
        let (step, pointer) = self.objects[object].pointers[0];
        let address = Pointer::unpack(pointer).address as i64;
        let add = match self.random.below(4) {
            0 => -1 - address,
            1 => -address - self.random.below(40) as i64,
            2 => 1 << self.random.within(30, 47),
            _ => self.random.below(16) as i64 - address,
        };
        Arg::Answer { step, add, flip: 0 }
    }

    /// The header place of a live object in another frame than this large-framed one's, with the same tag if there is such a one.
    fn in_another_frame(&mut self, start: u64) -> Option<u64> {
        let (tag, h) = (start >> 48, Pointer::unpack(start).address - model::HEADER);
        let starts = self.objects.iter().filter(|object| object.live).map(|object| object.pointers[0].1);
        let others: Vec<(u64, u64)> =
            starts.map(|start| (start >> 48, Pointer::unpack(start).address - model::HEADER)).filter(|other| other.1 >> tag != h >> tag).collect();
        let twin = others.iter().find(|other| other.0 == tag).copied();
        twin.or_else(|| (!others.is_empty()).then(|| self.random.pick(&others))).map(|other| other.1)
    }

    /// A live object's header or entry changed, and the distances of its pointers; mostly put back.
    pub(super) fn damage_for_distances(&mut self, view: &View<'_>) {
        let Some(object) = self.object(true).filter(|_| view.image.len() >= 64) else { return };
        let ((step, start), size) = (self.objects[object].pointers[0], self.objects[object].size);
        let h = Pointer::unpack(start).address.wrapping_sub(model::HEADER);
        let Some(header) = model::sound(view.image, h) else { return };
        let by_entry = !Pointer::unpack(start).small && self.random.percent(90);
        if by_entry {
            let value = match self.in_another_frame(start) {
                Some(other) if self.random.percent(90) => other,
                _ => self.entry_value(h),
            };
            self.push(Action::Damage(Damage::EntryOf { of: Arg::of(step), value: Some(value) }));
        } else {
            let damaged = self.damaged(h, header);
            self.overwrite(h, damaged.bytes());
        }
        self.distances_around(Arg::of(step), start, size);
        if by_entry {
            self.push(Action::Damage(Damage::EntryOf { of: Arg::of(step), value: None }));
        } else if self.random.percent(80) {
            self.overwrite(h, header.bytes());
        }
    }
}

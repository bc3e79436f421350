//! Pointers: good, moved, stale, forged; and distances for them.

use super::{Generator, Object};
use crate::case::{Arg, View};
use crate::model::{self, Header, Pointer};

/// A pointer, if there is such a one.
type Make = fn(&mut Generator, &View<'_>) -> Option<Arg>;

const POINTERS: [(u64, Make); 9] = [
    (35, Generator::answered),
    (10, Generator::beside),
    (10, Generator::stale),
    (15, Generator::flipped),
    (10, Generator::into_body),
    (6, Generator::to_block),
    (5, Generator::small_framed),
    (6, Generator::large_framed),
    (3, Generator::any_number),
];

impl Generator {
    /// Any pointer at all.
    pub(super) fn pointer(&mut self, view: &View<'_>) -> Arg {
        let make = self.random.weighted(&POINTERS);
        make(self, view).unwrap_or_else(|| Arg::Number(self.random.number()))
    }

    // ---- from the book

    pub(super) fn object(&mut self, live: bool) -> Option<usize> {
        let count = self.objects.iter().filter(|object| object.live == live).count() as u64;
        let nth = self.random.below(count) as usize;
        self.objects.iter().enumerate().filter(|(_, object)| object.live == live).nth(nth).map(|(i, _)| i)
    }

    /// A pointer of a live or dead object: the step that gave it, itself, and the object's size.
    fn known(&mut self, live: bool) -> Option<(u32, u64, u32)> {
        let object = self.object(live)?;
        let (step, pointer) = self.random.pick(&self.objects[object].pointers);
        Some((step, pointer, self.objects[object].size))
    }

    pub(super) fn live_start(&mut self) -> Arg {
        match self.object(true) {
            Some(object) => Arg::of(self.objects[object].pointers[0].0),
            None => Arg::Number(0),
        }
    }

    /// Some pointer of a live object, its start more often, with the bytes from its address to the body's end.
    pub(super) fn live_pointer(&mut self) -> Option<(Arg, i64)> {
        let object = self.object(true)?;
        let (start, size) = (self.objects[object].pointers[0].1, i64::from(self.objects[object].size));
        let (step, pointer) = if self.random.percent(40) { self.objects[object].pointers[0] } else { self.random.pick(&self.objects[object].pointers) };
        let at = Pointer::unpack(pointer).address as i64 - Pointer::unpack(start).address as i64;
        Some((Arg::of(step), size - at))
    }

    /// A large-framed live object, and the header place of another one with the same tag.
    pub(super) fn twins(&mut self) -> Option<(Arg, u64)> {
        let one = self.object(true)?;
        let (step, pointer) = self.objects[one].pointers[0];
        let p = Pointer::unpack(pointer);
        let like = |other: &&Object| {
            let q = Pointer::unpack(other.pointers[0].1);
            other.live && !p.small && (q.small, q.tag) == (p.small, p.tag) && q.address != p.address
        };
        let other = self.objects.iter().find(like)?;
        Some((Arg::of(step), Pointer::unpack(other.pointers[0].1).address.wrapping_sub(16)))
    }

    fn answered(&mut self, _: &View<'_>) -> Option<Arg> {
        self.known(true).map(|(step, ..)| Arg::of(step))
    }

    fn stale(&mut self, _: &View<'_>) -> Option<Arg> {
        self.known(false).map(|(step, ..)| Arg::of(step))
    }

    /// Moved without the store.
    fn beside(&mut self, _: &View<'_>) -> Option<Arg> {
        let (step, pointer, size) = self.known(true)?;
        Some(Arg::Answer { step, add: self.distance(pointer, size), flip: 0 })
    }

    /// One bit of flag, tag number or address changed.
    fn flipped(&mut self, _: &View<'_>) -> Option<Arg> {
        let (step, ..) = self.known(true)?;
        let bit = match self.random.below(15) {
            0..4 => 63,
            4..11 => self.random.within(48, 62),
            _ => self.random.below(48),
        };
        Some(Arg::Answer { step, add: 0, flip: 1 << bit })
    }

    /// As if a header stood in the body.
    fn into_body(&mut self, _: &View<'_>) -> Option<Arg> {
        let (step, _, size) = self.known(true)?;
        Some(Arg::Header { step, offset: self.random.below(u64::from(size).min(1 << 30) + 1), size: self.random.within(0, 80) as u32 })
    }

    // ---- from the image, or from nothing

    /// A header that the walk comes to, among the first few hundred.
    pub(super) fn block(&mut self, view: &View<'_>) -> Option<(u64, Header)> {
        if view.image.len() < 64 {
            return None;
        }
        let wanted = self.random.pick(&[1, 3, 10, 300]);
        let (mut at, mut found) = (16, None);
        for _ in 0..=self.random.below(wanted) {
            match model::sound(view.image, at) {
                Some(header) => {
                    found = Some((at, header));
                    at += u64::from(header.extent);
                }
                None => break,
            }
        }
        found
    }

    /// To a block of the walk, live or free.
    fn to_block(&mut self, view: &View<'_>) -> Option<Arg> {
        let (h, header) = self.block(view)?;
        Some(Arg::Number(Pointer::to(self.slot_exponent, h, u64::from(header.size)).pack()))
    }

    fn address(&mut self) -> u64 {
        let length = self.buffers.lent_image as u64;
        match self.random.below(4) {
            0 => length.saturating_add(self.random.below(40)) - 20,
            1 => self.random.word() >> 16,
            _ => self.random.below(2 * length),
        }
    }

    fn small_framed(&mut self, _: &View<'_>) -> Option<Arg> {
        let s = self.slot_exponent;
        let tag = match self.random.below(4) {
            0 => (1 << s) - self.random.below(2),
            1 => self.random.below(1 << 15),
            _ => self.random.below(1 << s),
        };
        Some(Arg::Number(Pointer { small: true, tag: tag & 0x7fff, address: self.address() }.pack()))
    }

    fn large_framed(&mut self, _: &View<'_>) -> Option<Arg> {
        let s = u64::from(self.slot_exponent);
        let tag = match self.random.below(4) {
            0 => s + self.random.below(2),
            1 => 31 + self.random.below(2),
            2 => self.random.below(64),
            _ => self.random.within(s, 32),
        };
        Some(Arg::Number(Pointer { small: false, tag, address: self.address() }.pack()))
    }

    fn any_number(&mut self, _: &View<'_>) -> Option<Arg> {
        Some(Arg::Number(self.random.number()))
    }

    /// A distance for a pointer: inside the object, around its ends, around the ends of slot, frame and 48 bits, any.
    pub(super) fn distance(&mut self, pointer: u64, size: u32) -> i64 {
        let p = Pointer::unpack(pointer);
        let (address, size) = (p.address as i64, i64::from(size));
        let reach = if p.small { self.slot_exponent } else { (p.tag as u32).min(47) };
        let inside = address & ((1i64 << reach) - 1);
        let jitter = self.random.pick(&[0, 0, -1, 1]);
        match self.random.below(20) {
            0..9 => self.random.below(size as u64) as i64,
            9 => size + jitter,
            10 => jitter - 16,
            11 => (1i64 << reach) - inside + jitter,
            12 => jitter - inside,
            13 => jitter - address,
            14 => (1i64 << 48) - address + jitter,
            15 => self.random.pick(&[i64::MIN, i64::MIN + 1, i64::MAX, i64::MAX - 1, 0, 1 << 48, -(1 << 48), 1 << 32, -(1 << 32)]),
            16 => -(self.random.below(size as u64 + 20) as i64),
            17 => self.random.number() as i64,
            _ => self.random.below(64) as i64 - 32,
        }
    }
}

//! Bytes of image and table written behind the store's back.

use super::{Generator, Make};
use crate::case::{Action, Arg, Damage, View};
use crate::model::{Header, Pointer, TOTAL};
use crate::store::Call;

const DAMAGES: [(u64, Make); 11] = [
    (2, Generator::misuse),
    (2, Generator::damage_superblock),
    (2, Generator::damage_byte),
    (7, Generator::damage_header),
    (7, Generator::damage_table),
    (10, Generator::damage_for_release),
    (16, Generator::damage_total),
    (1, Generator::short_image),
    (1, Generator::low_header),
    (8, Generator::damage_for_distances),
    (14, Generator::damage_for_empties),
];

/// The sixteen bytes at `at`.
fn sixteen(view: &View<'_>, at: usize) -> [u8; 16] {
    view.image[at..at + 16].try_into().unwrap()
}

impl Generator {
    pub(super) fn damage(&mut self, view: &View<'_>) {
        self.random.weighted(&DAMAGES)(self, view);
        // or frees and allocates are refused for the rest of the case
        if self.random.percent(70) {
            self.mend_total();
        }
    }

    pub(super) fn overwrite(&mut self, at: u64, bytes: [u8; 16]) {
        self.push(Action::Damage(Damage::Image { at: Arg::Number(at), bytes, count: 16 }));
    }

    fn damage_byte(&mut self, view: &View<'_>) {
        let at = Arg::Number(self.random.below(self.buffers.lent_image as u64));
        let byte = self.random.word() as u8;
        self.push(Action::Damage(Damage::Image { at, bytes: [byte; 16], count: 1 }));
        self.any_calls(view);
    }

    fn damage_superblock(&mut self, view: &View<'_>) {
        let before = sixteen(view, 0);
        let length = self.buffers.lent_image as u32;
        let mut header = Header::read(&before, 0);
        match self.random.below(6) {
            0 => header.extent = self.random.pick(&[0, 15, 17, 16 | 1 << 31]),
            1 => header.kind = self.random.pick(&[0, 1, 2, 4, 0x103]),
            // another exponent may be accepted: the table is then read and written in other places
            2 => header.type_number = self.random.pick(&[0, 5, 6, 7, 8, 9, 15, 16, 0x106, 0xffff]),
            3 => header.size = self.random.pick(&[0, 63, 64, length - 1, length + 1, 1 << 30, 1 + (1 << 30), u32::MAX, length | 1 << 31]),
            4 => header.last = 1 << self.random.below(32),
            _ => header = Header::free(0),
        }
        self.overwrite(0, header.bytes());
        self.any_calls(view);
        self.put_back(before);
    }

    /// The superblock, but for the free total, which accepted calls have changed.
    fn put_back(&mut self, bytes: [u8; 16]) {
        self.push(Action::Damage(Damage::Image { at: Arg::Number(0), bytes, count: TOTAL }));
    }

    /// An image that is too short, with a superblock that says its length.
    fn short_image(&mut self, view: &View<'_>) {
        let before = sixteen(view, 0);
        let length = self.random.within(16, 66).min(self.buffers.lent_image as u64);
        self.overwrite(0, Header { size: length as u32, ..Header::read(&before, 0) }.bytes());
        self.push(Action::Lend { image: length as usize, table: self.buffers.lent_table });
        self.any_calls(view);
        self.call(Call::Tally);
        self.lend_all();
        self.put_back(before);
    }

    /// A header that would be sound but for its place, 15: the free total's highest byte is its extent's lowest.
    fn low_header(&mut self, view: &View<'_>) {
        let before = sixteen(view, 15);
        let (size, spare) = (self.random.within(0, 240.min(view.image.len() as u64 - 46)), self.random.below(16));
        let pointer = Arg::Number(Pointer::to(self.slot_exponent, 15, size).pack());
        self.overwrite(15, Header::live(16 + size + spare, 0, size as u32, 0).bytes());
        self.push(Action::Damage(Damage::EntryOf { of: pointer, value: None }));
        self.call(Call::Load { pointer, width: 1 });
        self.call(Call::Distances { pointer });
        self.call(Call::Free { pointer });
        self.push(Action::Damage(Damage::EntryOf { of: pointer, value: Some(0) }));
        self.overwrite(15, before);
    }

    fn damage_header(&mut self, view: &View<'_>) {
        let Some((h, header)) = self.block(view) else { return };
        if self.random.percent(10) {
            self.free_neighbours(h, header);
        } else {
            let damaged = self.damaged(h, header);
            self.overwrite(h, damaged.bytes());
            if self.random.percent(30) {
                self.mend_total();
            }
            if self.random.percent(50) {
                self.any_calls(view);
                self.overwrite(h, header.bytes());
            }
        }
        self.any_calls(view);
    }

    /// A header at h with one thing changed, often beyond what is sound.
    pub(super) fn damaged(&mut self, h: u64, header: Header) -> Header {
        let rest = (self.buffers.lent_image as u64 - h) as u32;
        let jitter = self.random.pick(&[0, 0, 1, u32::MAX]);
        match self.random.below(9) {
            0 | 1 => {
                let (least, most) = (header.size.wrapping_add(16), header.size.wrapping_add(31));
                let extent = self.random.pick(&[0, 15, 16, 31, 32, rest, u32::MAX, u32::MAX - h as u32, most, least]);
                Header { extent: extent.wrapping_add(jitter), ..header }
            }
            2 | 3 => {
                let size = self.random.pick(&[0, 1, header.extent - 16, header.extent.saturating_sub(31), rest, u32::MAX, u32::MAX - 15, u32::MAX - 30]);
                Header { size: size.wrapping_add(jitter), ..header }
            }
            4 => Header { kind: self.random.pick(&[0, 1, 2, 3, 0x101, 0x201, 0xffff]), ..header },
            5 => Header { type_number: header.type_number ^ 1 << self.random.below(16), ..header },
            6 => Header { last: self.last_bytes(), ..header },
            // live, whatever it was
            7 => {
                let extent = u64::from(header.extent);
                Header::live(extent, 5, self.random.within(extent.saturating_sub(31), extent - 16) as u32, self.last_bytes())
            }
            // 16 + size and 31 + size, cut to 32 bits, would fit the extent
            _ => {
                let below = self.random.within(0, 31) as u32;
                Header { size: 0u32.wrapping_sub(below), ..Header::live(16 + self.random.below(16), 5, 0, 0) }
            }
        }
    }

    /// Makes the block at h one or two free blocks as it stands, so that free blocks are neighbours, and frees some.
    fn free_neighbours(&mut self, h: u64, header: Header) {
        let blocks = self.random.within(1, 2);
        self.make_free(h, u64::from(header.extent), blocks);
        for _ in 0..3 {
            let pointer = self.live_start();
            self.call(Call::Free { pointer });
        }
    }

    /// Free blocks over so many bytes from h on, as many as asked for where there is room.
    pub(super) fn make_free(&mut self, h: u64, extent: u64, blocks: u64) {
        let first = if blocks > 1 && extent >= 32 { self.random.within(16, extent - 16) } else { extent };
        self.overwrite(h, Header::free(first).bytes());
        if first < extent {
            self.make_free(h + first, extent - first, blocks - 1);
        }
    }

    fn damage_table(&mut self, view: &View<'_>) {
        let place = self.block(view).map_or(16, |(h, _)| h);
        let value = self.entry_value(place);
        if self.random.percent(50) {
            // an entry near those that the next objects take
            let division = place >> (self.slot_exponent + 1);
            for _ in 0..self.random.within(1, 4) {
                let index = 48 * division.saturating_sub(self.random.below(3)) + self.random.below(8);
                self.push(Action::Damage(Damage::Entry { index, value }));
            }
        } else {
            let (of, value) = match self.twins() {
                Some((one, other)) if self.random.percent(40) => (one, other),
                _ => (self.live_start(), value),
            };
            self.push(Action::Damage(Damage::EntryOf { of, value: Some(value) }));
            for _ in 0..self.random.within(1, 2) {
                let width = self.width();
                self.call(Call::Load { pointer: of, width });
            }
            if self.random.percent(30) {
                self.call(Call::Free { pointer: of });
            }
        }
        self.any_calls(view);
    }

    /// What an entry may hold wrongly: another header's place, one near the image's ends or the end of 64 bits.
    pub(super) fn entry_value(&mut self, place: u64) -> u64 {
        let length = self.buffers.lent_image as u64;
        match self.random.below(10) {
            0 => 0,
            1 => u64::MAX - self.random.below(40),
            2 => length - self.random.below(33),
            3 => length + self.random.below(3),
            4 => self.random.below(17),
            5 => self.random.pick(&[0, place]) + self.random.pick(&[1 << 32, 1 << 48, 1 << 63]),
            6 => self.random.number(),
            7 => place,
            // sound, but perhaps in another frame, or of another exponent
            _ => self.object(true).map_or(16, |object| Pointer::unpack(self.objects[object].pointers[0].1).address.wrapping_sub(16)),
        }
    }
}

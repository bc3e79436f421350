//! Stores with objects of a list's types, and questions about them.

use super::case::{Case, Question};
use super::lists::{self, List};
use super::model::{listed, Descriptor};
use crate::model::{self, Header, Pointer, HEADER, SUPERBLOCK};
use crate::random::Random;

/// Beyond what is lent there are so many bytes and entries that no call may touch.
const BEYOND: usize = 24;

/// Objects are not larger.
const LARGEST: u64 = 140_000;

const QUESTIONS: u64 = 24;

/// A type with this many places or more is not looked through further.
const PLACES: usize = 300;

/// An object, live or not any more.
struct Object {
    pointer: u64,
    size: u64,
    type_number: u16,
}

struct Generator {
    random: Random,
    types: Vec<Descriptor>,
    s: u32,
    image: Vec<u8>,
    table: Vec<u64>,
    objects: Vec<Object>,
}

/// Where a type has others, and which.
fn places(types: &[Descriptor], type_number: u16, at: u64, found: &mut Vec<(u64, u16)>) {
    let Some(described) = listed(types, type_number) else { return };
    if found.len() >= PLACES {
        return;
    }
    found.push((at, type_number));
    for field in described.fields.iter().filter(|field| field.type_number != type_number) {
        places(types, field.type_number, at + field.offset, found);
    }
}

impl Generator {
    // ---- the store

    /// Sizes and types of objects.
    fn planned(&mut self) -> Vec<(u64, u16)> {
        let mut planned = Vec::new();
        for _ in 0..self.random.within(1, 7) {
            let described = if self.types.is_empty() || self.random.percent(12) { None } else { Some(self.described()) };
            let (size, type_number) = match described {
                Some((size, number)) => (self.size(size), number),
                None => (self.random.below(40), lists::unlisted(&mut self.random, &self.types)),
            };
            planned.push((size.min(LARGEST), type_number));
        }
        planned
    }

    /// The later ones more often, since fields are in them; one of 65,536 bytes and more seldom, since its image is large.
    fn described(&mut self) -> (u64, u16) {
        let count = self.types.len() as u64;
        let nth = self.random.below(count).max(self.random.below(count)) as usize;
        let described = &self.types[nth];
        match described.size > 10_000 && !self.random.percent(20) {
            true => (self.random.within(1, 40), described.type_number),
            false => (described.size, described.type_number),
        }
    }

    fn size(&mut self, described: u64) -> u64 {
        match self.random.below(20) {
            0..11 => described,
            11..14 => described + 1,
            14..16 => described - 1,
            16 => 0,
            17 => described + self.random.below(40),
            18 => described + 16,
            _ => self.random.below(described + 1),
        }
    }

    fn allocate(&mut self, size: u64, type_number: u16) {
        if let Ok(pointer) = model::allocate(&mut self.image, &mut self.table, size as u32, type_number) {
            self.objects.push(Object { pointer, size, type_number });
        }
    }

    fn set_up(&mut self) {
        let planned = self.planned();
        let filler = self.random.below(80);
        let need: u64 = planned.iter().map(|(size, _)| HEADER + size).sum();
        let length = (SUPERBLOCK + HEADER + filler + need + self.random.pick(&[0, 0, 1, 7, 15, 16, 40, 200])).max(64);
        self.image = vec![0; length as usize];
        self.table = vec![0; model::used_entries(self.s, length) as usize];
        model::set_up(&mut self.image, &mut self.table, self.s).unwrap();
        self.allocate(filler, 0);
        for (size, type_number) in planned {
            self.allocate(size, type_number);
        }
        if self.random.percent(35) {
            self.allocate_again();
        }
    }

    /// Frees an object, and may put one in its place that is a few bytes smaller: the rest are spare bytes.
    fn allocate_again(&mut self) {
        let nth = self.random.below(self.objects.len() as u64) as usize;
        let Object { pointer, size, type_number } = self.objects[nth];
        if model::free(&mut self.image, &mut self.table, pointer).is_ok() && self.random.percent(70) {
            let less = self.random.within(1, 15);
            self.allocate(size.saturating_sub(less), type_number);
        }
    }

    // ---- questions

    /// How far from the base of an object; and a type that may be there.
    fn place(&mut self, object: usize) -> (i64, u16) {
        let Object { size, type_number, .. } = self.objects[object];
        let mut found = Vec::new();
        places(&self.types, type_number, 0, &mut found);
        if found.is_empty() {
            return (self.random.below(size + 1) as i64, type_number);
        }
        let described = found.iter().map(|&(_, number)| listed(&self.types, number).unwrap().size).collect::<Vec<_>>();
        let nth = self.random.below(found.len() as u64) as usize;
        let (at, wanted) = (found[nth].0 as i64, found[nth].1);
        // from 65,536 on there may be frames in which 65,536 more stay
        if size > 65_535 && self.random.percent(20) {
            return (at + 65_536, wanted);
        }
        let distance = match self.random.below(20) {
            0..10 => at,
            10 => at + 1,
            11 => at - 1,
            12..14 => at + described[nth] as i64,
            14 => described[0] as i64 + self.random.pick(&[-1, 0, 0, 1]),
            15 => size as i64 + self.random.pick(&[-1, 0, 0, 1, 30]),
            16 => -self.random.pick(&[1, 1, 2, 8, 15, 16, 17]),
            // as far before the base
            17 => -at,
            18 => at + 256,
            _ => self.random.below(size + 20) as i64 - 10,
        };
        (distance, wanted)
    }

    fn wanted(&mut self, likely: u16, own: u16) -> u16 {
        match self.random.below(20) {
            0..12 => likely,
            12..14 => own,
            14..18 if !self.types.is_empty() => self.types[self.random.below(self.types.len() as u64) as usize].type_number,
            18 => likely.swap_bytes(),
            _ => lists::unlisted(&mut self.random, &self.types),
        }
    }

    fn question(&mut self) -> Question {
        let object = self.random.below(self.objects.len() as u64) as usize;
        let (distance, likely) = self.place(object);
        let Object { pointer, type_number, .. } = self.objects[object];
        let wanted = self.wanted(likely, type_number);
        let p = Pointer::unpack(pointer);
        let pointer = match self.random.below(40) {
            0 => self.random.number(),
            1 => pointer ^ 1 << self.random.within(48, 63),
            2 => Pointer { tag: if p.small { (1 << self.s) & 0x7fff } else { self.s.into() }, ..p }.pack(),
            3 => Pointer { tag: if p.small { self.random.below(1 << self.s) } else { 32 }, ..p }.pack(),
            4 => Pointer { address: self.random.below(2 * self.image.len() as u64), ..p }.pack(),
            _ => Pointer { address: p.address.wrapping_add_signed(distance) & ((1 << 48) - 1), ..p }.pack(),
        };
        Question { pointer, wanted }
    }

    // ---- damages

    /// Image and table as long as they are lent, or amiss: 4, 5.
    fn lengths(&mut self) -> [usize; 2] {
        let (image, table) = (self.image.len(), self.table.len());
        match self.random.below(30) {
            0 => [self.random.pick(&[0, 15, 16, 63, image - 1]), table],
            1 => [self.random.pick(&[0, 15, 16, 63, image - 1]), self.random.pick(&[0, table - 1])],
            2 | 3 => [image, self.random.pick(&[0, 1, table / 2, table - 1, table - 1])],
            4 => {
                self.image[self.random.pick(&[0, 1, 2, 3, 4, 5, 7, 8, 9, 10, 11])] ^= 1 << self.random.below(8);
                [image, self.random.pick(&[0, table])]
            }
            _ => [image, table],
        }
    }

    /// One header, or an entry of the table: 11. Its type and size stay, or become others.
    fn damage(&mut self) {
        let Object { pointer, .. } = self.objects[self.random.below(self.objects.len() as u64) as usize];
        let p = Pointer::unpack(pointer);
        let h = (p.address - HEADER) as usize;
        let mut header = Header::read(&self.image, h as u64);
        match self.random.below(7) {
            0 => header.kind = self.random.pick(&[0, 1, 3, 4, 5, 0x102]),
            1 => header.extent = self.random.pick(&[0, 15, header.extent.wrapping_add(16), u32::MAX]),
            2 => header.size = header.size.wrapping_add(self.random.pick(&[1, 16, 64, u32::MAX, 1 << 31])),
            3 => header = Header { kind: 0, type_number: lists::unlisted(&mut self.random, &self.types), ..header },
            4 => header.type_number = self.random.pick(&[0, 1, header.type_number.swap_bytes()]),
            5 => header.last = self.random.word() as u32,
            _ if p.small => header.kind = 0,
            _ => self.table[model::entry(self.s, p.tag as u32, p.address) as usize] = self.random.pick(&[0, 1, h as u64 + 1, u64::MAX]),
        }
        self.image[h..h + 16].copy_from_slice(&header.bytes());
    }
}

/// The case of a seed.
pub fn case(seed: u64) -> Case {
    let mut random = Random::new(seed);
    let List { kind, mut bytes, beyond, types } = lists::list(&mut random);
    let s = if random.percent(75) { random.within(6, 9) } else { random.within(6, 15) } as u32;
    let mut generator = Generator { random, types, s, image: Vec::new(), table: Vec::new(), objects: Vec::new() };
    generator.set_up();
    let mut questions: Vec<_> = (0..QUESTIONS).map(|_| generator.question()).collect();
    if generator.random.percent(12) {
        generator.damage();
        questions.extend(generator.objects.iter().map(|object| Question { pointer: object.pointer, wanted: object.type_number }));
    }
    let [image, table] = generator.lengths();
    let list = bytes.len();
    let Generator { mut random, image: mut image_bytes, table: mut entries, .. } = generator;
    image_bytes.extend((0..BEYOND).map(|_| random.word() as u8));
    entries.extend((0..BEYOND).map(|_| random.word()));
    bytes.extend(beyond);
    bytes.extend((0..BEYOND).map(|_| random.word() as u8));
    Case { image: image_bytes, table: entries, descriptors: bytes, lent: [image, table, list], kind, questions }
}

//! A model of document 01, as document 02 changes it, written from their text alone. It works in place; every check
//! comes before the first write, so that a refusal changes nothing.
//!
//! Places and numbers are u64 throughout: fields have at most 4 bytes and addresses 48 bits, so that only a table
//! entry, which may be any number, needs care.

use std::ops::Range;

/// The value of an accepted call, 0 where it has none, or the refusal's number.
pub type Answer = Result<u64, u32>;

/// -1, 0 or 1, or the refusal's number.
pub type CompareAnswer = Result<i64, u32>;

/// Address minus base and end minus address, or the refusal's number.
pub type DistancesAnswer = Result<[i64; 2], u32>;

/// Objects, live bytes, free bytes and overhead bytes, or the refusal's number.
pub type TallyAnswer = Result<[u64; 4], u32>;

pub const SUPERBLOCK: u64 = 16;
pub const HEADER: u64 = 16;
/// Where the superblock has the free total.
pub const TOTAL: usize = 12;
const FREE: u16 = 1;
const LIVE: u16 = 2;
const ENTRIES_PER_DIVISION: u64 = 48;
const MAX_LENGTH: u64 = 1 << 30;
const ADDRESS_BITS: u32 = 48;

// ---- bytes

fn le16(image: &[u8], at: usize) -> u16 {
    u16::from_le_bytes(image[at..at + 2].try_into().unwrap())
}

fn le32(image: &[u8], at: usize) -> u32 {
    u32::from_le_bytes(image[at..at + 4].try_into().unwrap())
}

/// The sixteen bytes of a header, or of the superblock: both have fields of 4, 2, 2, 4 and 4 bytes.
#[derive(Clone, Copy, Debug, PartialEq, Eq)]
pub struct Header {
    pub extent: u32,
    pub kind: u16,
    pub type_number: u16,
    pub size: u32,
    /// A live block's cue number, the superblock's free total; zero in a free block.
    pub last: u32,
}

impl Header {
    pub fn free(extent: u64) -> Header {
        Header { extent: extent as u32, kind: FREE, type_number: 0, size: 0, last: 0 }
    }

    pub fn live(extent: u64, type_number: u16, size: u32, cue: u32) -> Header {
        Header { extent: extent as u32, kind: LIVE, type_number, size, last: cue }
    }

    /// The sixteen bytes at `at`, which must be inside the image.
    pub fn read(image: &[u8], at: u64) -> Header {
        let bytes = &image[at as usize..at as usize + 16];
        Header { extent: le32(bytes, 0), kind: le16(bytes, 4), type_number: le16(bytes, 6), size: le32(bytes, 8), last: le32(bytes, 12) }
    }

    pub fn bytes(self) -> [u8; 16] {
        let mut bytes = [0; 16];
        bytes[0..4].copy_from_slice(&self.extent.to_le_bytes());
        bytes[4..6].copy_from_slice(&self.kind.to_le_bytes());
        bytes[6..8].copy_from_slice(&self.type_number.to_le_bytes());
        bytes[8..12].copy_from_slice(&self.size.to_le_bytes());
        bytes[12..16].copy_from_slice(&self.last.to_le_bytes());
        bytes
    }

    fn write(self, image: &mut [u8], at: u64) {
        image[at as usize..at as usize + 16].copy_from_slice(&self.bytes());
    }

    pub fn is_free(self) -> bool {
        self.kind == FREE
    }

    pub fn is_live(self) -> bool {
        self.kind == LIVE
    }

    /// Whether it is an object's that carries the cue.
    pub fn carries(self, cue: u32) -> bool {
        self.is_live() && self.last == cue
    }
}

/// The header at `h` if it is sound. The image has at least 64 bytes; `h` may be any number.
pub fn sound(image: &[u8], h: u64) -> Option<Header> {
    let length = image.len() as u64;
    if h < SUPERBLOCK || h > length - HEADER {
        return None;
    }
    let header = Header::read(image, h);
    let (extent, size) = (u64::from(header.extent), u64::from(header.size));
    if extent < HEADER || extent > length - h {
        return None;
    }
    let fits_kind = match header.kind {
        FREE => header.type_number == 0 && size == 0 && header.last == 0,
        LIVE => HEADER + size <= extent && extent <= 31 + size,
        _ => false,
    };
    fits_kind.then_some(header)
}

/// The blocks with the places of their headers, up to the image's end or to an unsound header. The image as for `sound`.
pub fn blocks(image: &[u8]) -> impl Iterator<Item = (u64, Header)> + '_ {
    let mut at = SUPERBLOCK;
    std::iter::from_fn(move || {
        let block = (at, sound(image, at)?);
        at += u64::from(block.1.extent);
        Some(block)
    })
}

// ---- the free total

/// As the superblock has it, be it damaged: any number of 32 bits. The image has at least 16 bytes.
pub fn total(image: &[u8]) -> u64 {
    u64::from(le32(image, TOTAL))
}

pub fn set_total(image: &mut [u8], total: u64) {
    image[TOTAL..TOTAL + 4].copy_from_slice(&(total as u32).to_le_bytes());
}

/// The extent of a live block of `size` bytes made of a free block of `extent`: all of it, where the rest has no room for a header.
pub fn live_extent(extent: u64, size: u32) -> u64 {
    let need = HEADER + u64::from(size);
    if extent - need < HEADER {
        extent
    } else {
        need
    }
}

/// The total less what an allocate takes; 22 where that is below zero.
fn taken(image: &[u8], extent: u64) -> Answer {
    total(image).checked_sub(extent).ok_or(22)
}

/// The total and what a free or a release gives back; 22 where that is above L - 16.
pub fn given_back(image: &[u8], extents: u64) -> Answer {
    let total = total(image) + extents;
    if total > image.len() as u64 - SUPERBLOCK {
        return Err(22);
    }
    Ok(total)
}

// ---- frames, tags, pointers

/// How often a and b must be halved until they are equal.
pub fn frame_number(a: u64, b: u64) -> u32 {
    u64::BITS - (a ^ b).leading_zeros()
}

fn same_frame(exponent: u32, a: u64, b: u64) -> bool {
    a >> exponent == b >> exponent
}

fn frame_start(exponent: u32, a: u64) -> u64 {
    a >> exponent << exponent
}

/// A pointer taken apart.
#[derive(Clone, Copy, Debug, PartialEq, Eq)]
pub struct Pointer {
    pub small: bool,
    pub tag: u64,
    pub address: u64,
}

impl Pointer {
    pub fn unpack(pointer: u64) -> Pointer {
        Pointer { small: pointer >> 63 == 1, tag: (pointer >> ADDRESS_BITS) & 0x7fff, address: pointer & 0xffff_ffff_ffff }
    }

    pub fn pack(self) -> u64 {
        (u64::from(self.small) << 63) | (self.tag << ADDRESS_BITS) | self.address
    }

    /// Allocate's pointer for an object of `size` bytes whose header is at `h`.
    pub fn to(s: u32, h: u64, size: u64) -> Pointer {
        let wrapper = frame_number(h, h + HEADER + size);
        let small = wrapper <= s;
        let tag = if small { h - frame_start(s, h) } else { u64::from(wrapper) };
        Pointer { small, tag, address: h + HEADER }
    }

    pub fn tag_in_range(self, s: u32) -> bool {
        if self.small {
            self.tag < 1 << s
        } else {
            u64::from(s) < self.tag && self.tag <= 31
        }
    }

    /// The exponent of the slot or frame that the pointer stays in; its tag is in range.
    pub fn reach(self, s: u32) -> u32 {
        if self.small {
            s
        } else {
            self.tag as u32
        }
    }
}

pub fn used_entries(s: u32, length: u64) -> u64 {
    ENTRIES_PER_DIVISION * (((length - 1) >> (s + 1)) + 1)
}

/// The table entry of the frame of 2^exponent bytes that holds `a`; the exponent is above s.
pub fn entry(s: u32, exponent: u32, a: u64) -> u64 {
    ENTRIES_PER_DIVISION * (frame_start(exponent, a) >> (s + 1)) + u64::from(exponent - s - 1)
}

// ---- the checks that calls share

/// 4, 5; gives the slot exponent.
pub fn open(image: &[u8], table: &[u64]) -> Result<u32, u32> {
    if image.len() < 16 {
        return Err(4);
    }
    let length = image.len() as u64;
    let lead = Header::read(image, 0);
    let (s, stated) = (u32::from(lead.type_number), u64::from(lead.size));
    let laid_out = lead.extent == 16 && lead.kind == 3;
    if !laid_out || !(6..=15).contains(&s) || !(64..=MAX_LENGTH).contains(&stated) || stated != length {
        return Err(4);
    }
    if (table.len() as u64) < used_entries(s, length) {
        return Err(5);
    }
    Ok(s)
}

/// Where the tag leads, be there a header or not; none where slot or frame begins behind the image. The tag is in range.
pub fn place(table: &[u64], s: u32, p: Pointer, length: u64) -> Option<u64> {
    let start = frame_start(p.reach(s), p.address);
    (start < length).then(|| if p.small { start + p.tag } else { table[entry(s, p.reach(s), p.address) as usize] })
}

/// 10, 11; gives the header's place and the header.
pub fn read_tag(image: &[u8], table: &[u64], s: u32, p: Pointer) -> Result<(u64, Header), u32> {
    if !p.tag_in_range(s) {
        return Err(10);
    }
    let h = place(table, s, p, image.len() as u64).ok_or(11u32)?;
    let header = sound(image, h).ok_or(11u32)?;
    if !header.is_live() || !same_frame(p.reach(s), h, p.address) {
        return Err(11);
    }
    let afresh = Pointer::to(s, h, u64::from(header.size));
    if (afresh.small, afresh.tag) != (p.small, p.tag) {
        return Err(11);
    }
    Ok((h, header))
}

/// 10, 11, 13; gives the place of the first byte.
pub fn access(image: &[u8], table: &[u64], s: u32, pointer: u64, bytes: u64) -> Result<usize, u32> {
    body_from(image, table, s, pointer, bytes).map(|body| body.start)
}

/// 10, 11, 13; gives the places from the first byte to the body's end.
pub fn body_from(image: &[u8], table: &[u64], s: u32, pointer: u64, bytes: u64) -> Result<Range<usize>, u32> {
    let p = Pointer::unpack(pointer);
    let (h, header) = read_tag(image, table, s, p)?;
    let base = h + HEADER;
    let end = base + u64::from(header.size);
    if p.address < base || p.address + bytes > end {
        return Err(13);
    }
    Ok(p.address as usize..end as usize)
}

// ---- the calls

pub fn set_up(image: &mut [u8], table: &mut [u64], s: u32) -> Answer {
    let length = image.len() as u64;
    if !(6..=15).contains(&s) {
        return Err(1);
    }
    if !(64..=MAX_LENGTH).contains(&length) {
        return Err(2);
    }
    let used = used_entries(s, length);
    if (table.len() as u64) < used {
        return Err(3);
    }
    image.fill(0);
    let free = length - SUPERBLOCK;
    Header { extent: 16, kind: 3, type_number: s as u16, size: length as u32, last: free as u32 }.write(image, 0);
    Header::free(free).write(image, SUPERBLOCK);
    table[..used as usize].fill(0);
    Ok(0)
}

pub fn allocate(image: &mut [u8], table: &mut [u64], size: u32, type_number: u16) -> Answer {
    allocate_for(image, table, size, type_number, 0)
}

pub fn allocate_for(image: &mut [u8], table: &mut [u64], size: u32, type_number: u16, cue: u32) -> Answer {
    let s = open(image, table)?;
    let need = HEADER + u64::from(size);
    let mut h = SUPERBLOCK;
    let extent = loop {
        if h == image.len() as u64 {
            return Err(8);
        }
        let header = sound(image, h).ok_or(7u32)?;
        let extent = u64::from(header.extent);
        if header.is_free() && extent >= need {
            break extent;
        }
        h += extent;
    };
    let pointer = Pointer::to(s, h, u64::from(size));
    let held = if pointer.small { None } else { Some(&mut table[entry(s, pointer.tag as u32, h) as usize]) };
    if held.as_ref().is_some_and(|held| **held != 0) {
        return Err(9);
    }
    let live = live_extent(extent, size);
    let total = taken(image, live)?;
    if let Some(held) = held {
        *held = h;
    }
    Header::live(live, type_number, size, cue).write(image, h);
    if live < extent {
        Header::free(extent - live).write(image, h + live);
    }
    set_total(image, total);
    Ok(pointer.pack())
}

pub fn offset(image: &[u8], table: &[u64], pointer: u64, distance: i64) -> Answer {
    let s = open(image, table)?;
    let p = Pointer::unpack(pointer);
    if !p.tag_in_range(s) {
        return Err(10);
    }
    let moved = i128::from(p.address) + i128::from(distance);
    if !(0..1i128 << ADDRESS_BITS).contains(&moved) || !same_frame(p.reach(s), moved as u64, p.address) {
        return Err(12);
    }
    Ok(Pointer { address: moved as u64, ..p }.pack())
}

pub fn distances(image: &[u8], table: &[u64], pointer: u64) -> DistancesAnswer {
    let s = open(image, table)?;
    let p = Pointer::unpack(pointer);
    let (h, header) = read_tag(image, table, s, p)?;
    let (address, base) = (p.address as i64, (h + HEADER) as i64);
    let end = base + i64::from(header.size);
    Ok([address - base, end - address])
}

pub fn load(image: &[u8], table: &[u64], pointer: u64, width: u64) -> Answer {
    let s = open(image, table)?;
    if !(1..=8).contains(&width) {
        return Err(14);
    }
    let at = access(image, table, s, pointer, width)?;
    Ok(match width {
        1 => u64::from(image[at]),
        2 => u64::from(le16(image, at)),
        4 => u64::from(le32(image, at)),
        8 => u64::from_le_bytes(image[at..at + 8].try_into().unwrap()),
        _ => image[at..at + width as usize].iter().rev().fold(0, |value, &byte| value << 8 | u64::from(byte)),
    })
}

pub fn store(image: &mut [u8], table: &[u64], pointer: u64, width: u64, value: u64) -> Answer {
    let s = open(image, table)?;
    if !(1..=8).contains(&width) {
        return Err(14);
    }
    if width < 8 && value >> (8 * width) != 0 {
        return Err(16);
    }
    let at = access(image, table, s, pointer, width)?;
    match width {
        1 => image[at] = value as u8,
        2 => image[at..at + 2].copy_from_slice(&(value as u16).to_le_bytes()),
        4 => image[at..at + 4].copy_from_slice(&(value as u32).to_le_bytes()),
        8 => image[at..at + 8].copy_from_slice(&value.to_le_bytes()),
        _ => image[at..at + width as usize].copy_from_slice(&value.to_le_bytes()[..width as usize]),
    }
    Ok(0)
}

pub fn free(image: &mut [u8], table: &mut [u64], pointer: u64) -> Answer {
    let s = open(image, table)?;
    let length = image.len() as u64;
    let p = Pointer::unpack(pointer);
    let (h, header) = read_tag(image, table, s, p)?;
    if p.address != h + HEADER {
        return Err(15);
    }
    // the place to merge from: h, or the block directly before it if that one is free
    let mut from = h;
    let mut at = SUPERBLOCK;
    while at != h {
        if at > h {
            return Err(7);
        }
        let passed = sound(image, at).ok_or(7u32)?;
        from = if passed.is_free() { at } else { h };
        at += u64::from(passed.extent);
    }
    let mut to = h + u64::from(header.extent);
    if to < length {
        let next = sound(image, to).ok_or(7u32)?;
        if next.is_free() {
            to += u64::from(next.extent);
        }
    }
    let total = given_back(image, u64::from(header.extent))?;
    image[from as usize..to as usize].fill(0);
    Header::free(to - from).write(image, from);
    set_total(image, total);
    if !p.small {
        table[entry(s, p.tag as u32, h) as usize] = 0;
    }
    Ok(0)
}

/// An object of a cue: the place of its header, its extent and its pointer.
struct Carrier {
    h: u64,
    extent: u64,
    pointer: Pointer,
}

/// The objects that carry the cue; 7.
fn carriers(image: &[u8], s: u32, cue: u32) -> Result<Vec<Carrier>, u32> {
    let mut carriers = Vec::new();
    let mut at = SUPERBLOCK;
    while at != image.len() as u64 {
        let header = sound(image, at).ok_or(7u32)?;
        if header.carries(cue) {
            carriers.push(Carrier { h: at, extent: u64::from(header.extent), pointer: Pointer::to(s, at, u64::from(header.size)) });
        }
        at += u64::from(header.extent);
    }
    Ok(carriers)
}

/// Document 02's sentence itself: the objects freed singly, in address order. 22 is asked of all their extents before, so that none
/// of the frees meets it.
pub fn release(image: &mut [u8], table: &mut [u64], cue: u32) -> Answer {
    let s = open(image, table)?;
    let carriers = carriers(image, s, cue)?;
    if carriers.iter().any(|&Carrier { h, pointer, .. }| !pointer.small && table[entry(s, pointer.tag as u32, h) as usize] != h) {
        return Err(21);
    }
    given_back(image, carriers.iter().map(|carrier| carrier.extent).sum())?;
    for Carrier { h, pointer, .. } in &carriers {
        free(image, table, pointer.pack()).unwrap_or_else(|row| panic!("the object at {h} is not freed: {row}"));
    }
    Ok(carriers.len() as u64)
}

pub fn fill(image: &mut [u8], table: &[u64], pointer: u64, length: u32, value: u8) -> Answer {
    let s = open(image, table)?;
    if length == 0 {
        return Err(6);
    }
    let at = access(image, table, s, pointer, u64::from(length))?;
    image[at..at + length as usize].fill(value);
    Ok(0)
}

pub fn copy(image: &mut [u8], table: &[u64], target: u64, source: u64, length: u32) -> Answer {
    let s = open(image, table)?;
    if length == 0 {
        return Err(6);
    }
    let to = access(image, table, s, target, u64::from(length))?;
    let from = access(image, table, s, source, u64::from(length))?;
    image.copy_within(from..from + length as usize, to);
    Ok(0)
}

pub fn compare(image: &[u8], table: &[u64], left: u64, right: u64, length: u32) -> CompareAnswer {
    let s = open(image, table)?;
    if length == 0 {
        return Err(6);
    }
    let left = access(image, table, s, left, u64::from(length))?;
    let right = access(image, table, s, right, u64::from(length))?;
    for i in 0..length as usize {
        let (a, b) = (image[left + i], image[right + i]);
        if a != b {
            return Ok(if a < b { -1 } else { 1 });
        }
    }
    Ok(0)
}

pub fn copy_text(image: &mut [u8], table: &[u64], target: u64, source: u64) -> Answer {
    let s = open(image, table)?;
    let body = body_from(image, table, s, source, 1)?;
    let zero = body.clone().find(|&at| image[at] == 0).ok_or(20u32)?;
    let text = body.start..zero + 1;
    let bytes = text.len() as u64;
    let to = access(image, table, s, target, bytes)?;
    image.copy_within(text, to);
    Ok(bytes)
}

pub fn tally(image: &[u8], table: &[u64]) -> TallyAnswer {
    open(image, table)?;
    let length = image.len() as u64;
    let (mut objects, mut live_bytes, mut free_bytes, mut overhead_bytes) = (0, 0, 0, 0);
    let mut at = SUPERBLOCK;
    while at != length {
        let header = sound(image, at).ok_or(7u32)?;
        let (extent, size) = (u64::from(header.extent), u64::from(header.size));
        if header.is_live() {
            objects += 1;
            live_bytes += size;
            overhead_bytes += HEADER + (extent - HEADER - size);
        } else {
            free_bytes += extent;
        }
        at += extent;
    }
    Ok([objects, live_bytes, free_bytes, overhead_bytes])
}

pub fn free_total(image: &[u8], table: &[u64]) -> Answer {
    open(image, table)?;
    Ok(total(image))
}

#[cfg(test)]
mod tests {
    use super::frame_number;

    // document 01's words
    fn by_halves(a: u64, b: u64) -> u32 {
        if a == b {
            0
        } else {
            1 + by_halves(a / 2, b / 2)
        }
    }

    #[test]
    fn frame_number_is_the_number_of_halvings() {
        for a in 0..300 {
            for b in 0..300 {
                assert_eq!(frame_number(a, b), by_halves(a, b), "{a} {b}");
            }
        }
        for a in [0, 1, 16, (1 << 30) - 17, (1 << 30) - 1] {
            assert_eq!(frame_number(a, 1 << 30), by_halves(a, 1 << 30));
        }
        assert_eq!(frame_number(16, 1 << 30), 31);
    }
}

//! Superblock and block headers: their fields, and why one is not as laid out.

use cueledger::{Block, Blocks, Kind};
use std::ops::Range;

/// Bytes of the superblock, and so the place of the first header.
pub const FIRST: usize = 16;
/// Bytes of a header.
pub const HEADER: usize = 16;
/// Spare bytes at most.
const SPARE: u32 = 15;
/// Bytes of the longest image.
pub const LONGEST: usize = 1 << 30;

/// The fields of a header, sound or not.
#[derive(Clone, Copy, Debug, PartialEq, Eq)]
pub struct Header {
    pub extent: u32,
    pub kind: u16,
    pub type_number: u16,
    pub size: u32,
    pub cue: u32,
}

/// The fields of a superblock, good or not.
#[derive(Clone, Copy, Debug, PartialEq, Eq)]
pub struct Superblock {
    pub length: u32,
    pub kind: u16,
    pub slot_exponent: u16,
    pub image_length: u32,
    pub free_total: u32,
}

/// The 16 bytes at `place` as numbers of 4, 2, 2, 4 and 4 bytes.
fn numbers(image: &[u8], place: u64) -> Option<(u32, u16, u16, u32, u32)> {
    let bytes: &[u8; 16] = image.get(usize::try_from(place).ok()?..)?.first_chunk()?;
    let all = u128::from_le_bytes(*bytes);
    Some((all as u32, (all >> 32) as u16, (all >> 48) as u16, (all >> 64) as u32, (all >> 96) as u32))
}

impl Header {
    /// None where its bytes are not all in the image.
    pub fn at(image: &[u8], place: u64) -> Option<Header> {
        let (extent, kind, type_number, size, cue) = numbers(image, place)?;
        Some(Header { extent, kind, type_number, size, cue })
    }
}

impl Superblock {
    /// None where the image has no 16 bytes.
    pub fn of(image: &[u8]) -> Option<Superblock> {
        let (length, kind, slot_exponent, image_length, free_total) = numbers(image, 0)?;
        Some(Superblock { length, kind, slot_exponent, image_length, free_total })
    }
}

/// Why the superblock is not good; nothing where it is.
pub fn superblock_reasons(image: &[u8]) -> Vec<String> {
    let length = image.len();
    let Some(found) = Superblock::of(image) else {
        return vec![format!("{length} bytes are under the superblock's 16")];
    };
    let (s, stored) = (found.slot_exponent, found.image_length as usize);
    let tests = [
        (found.length != 16, format!("its length {} is not 16", found.length)),
        (found.kind != 3, format!("its kind {} is not 3", found.kind)),
        (!(6..=15).contains(&s), format!("its s = {s} is outside 6 to 15")),
        (!(64..=LONGEST).contains(&stored), format!("its L = {stored} is outside 64 to 2^30")),
        (stored != length, format!("its L = {stored} is not the dump's length, {length}")),
    ];
    tests.into_iter().filter_map(|(bad, reason)| bad.then_some(reason)).collect()
}

/// Why the header at `place` is unsound; nothing where it is sound.
pub fn header_reasons(image: &[u8], place: u64) -> Vec<String> {
    let length = image.len();
    if place < FIRST as u64 {
        return vec![format!("place {place} is before the first block (16)")];
    }
    let Some(Header { extent, kind, type_number, size, cue }) = Header::at(image, place) else {
        return vec![format!("its 16 bytes run past the image's end ({length})")];
    };
    let mut reasons = Vec::new();
    if extent < HEADER as u32 {
        reasons.push(format!("extent {extent} is below 16"));
    } else if place + u64::from(extent) > length as u64 {
        reasons.push(format!("extent {extent} runs past the image's end ({length})"));
    }
    match (kind, extent.checked_sub(HEADER as u32)) {
        (1, _) => {
            let fields = [("type", type_number.into()), ("size", size), ("cue", cue)];
            reasons.extend(fields.iter().filter(|field| field.1 != 0).map(|(name, value)| format!("free block with {name} {value}")));
        }
        (2, Some(room)) if room < size => reasons.push(format!("size {size} does not fit extent {extent}")),
        (2, Some(room)) if room - size > SPARE => reasons.push(format!("spare {} bytes, at most {SPARE}", room - size)),
        (2, _) => {}
        _ => reasons.push(format!("kind {kind} is neither free (1) nor live (2)")),
    }
    reasons
}

/// The block at any place, where its header is sound.
pub fn block_at(image: &[u8], place: u64) -> Option<Block> {
    let before = usize::try_from(place).ok()?.checked_sub(FIRST)?;
    // the wrapper's walk begins 16 bytes behind the start of what it is given
    let block = Blocks::new(image.get(before..)?).next()?.ok()?;
    Some(Block { place: before + FIRST, ..block })
}

/// What bytes are for.
#[derive(Clone, Copy, Debug, PartialEq, Eq)]
pub enum Part {
    Superblock,
    /// Of a live block.
    Header,
    /// Of an object of that cue.
    Body(u32),
    Spare,
    FreeHeader,
    Free,
    /// From an unsound header on.
    Unread,
}

/// The parts of a block, in order; some have no bytes.
pub fn parts(block: &Block) -> [(Part, Range<usize>); 3] {
    let Block { place, extent, kind, size, cue, .. } = *block;
    let (base, end) = (place + HEADER, place + extent as usize);
    let body = base + size as usize;
    match kind {
        Kind::Live => [(Part::Header, place..base), (Part::Body(cue), base..body), (Part::Spare, body..end)],
        Kind::Free => [(Part::FreeHeader, place..base), (Part::Free, base..end), (Part::Free, end..end)],
    }
}

#[cfg(test)]
mod tests {
    use super::*;

    fn header(extent: u32, kind: u16, type_number: u16, size: u32, cue: u32) -> Vec<u8> {
        let mut image = vec![0; 1024];
        image[16..20].copy_from_slice(&extent.to_le_bytes());
        image[20..22].copy_from_slice(&kind.to_le_bytes());
        image[22..24].copy_from_slice(&type_number.to_le_bytes());
        image[24..28].copy_from_slice(&size.to_le_bytes());
        image[28..32].copy_from_slice(&cue.to_le_bytes());
        image
    }

    #[test]
    fn reasons_in_words() {
        let cases: [(Vec<u8>, &[&str]); 9] = [
            (header(16, 1, 0, 0, 0), &[]),
            (header(126, 2, 9, 110, 5), &[]),
            (header(9, 1, 0, 0, 0), &["extent 9 is below 16"]),
            (header(1009, 1, 0, 0, 0), &["extent 1009 runs past the image's end (1024)"]),
            (header(16, 7, 0, 0, 0), &["kind 7 is neither free (1) nor live (2)"]),
            (header(16, 1, 3, 12, 4), &["free block with type 3", "free block with size 12", "free block with cue 4"]),
            (header(110, 2, 0, 100, 0), &["size 100 does not fit extent 110"]),
            (header(133, 2, 0, 100, 0), &["spare 17 bytes, at most 15"]),
            (header(0, 0, 0, 0, 0), &["extent 0 is below 16", "kind 0 is neither free (1) nor live (2)"]),
        ];
        for (image, expected) in cases {
            assert_eq!(header_reasons(&image, 16), expected);
        }
        assert_eq!(header_reasons(&[0; 64], 3), ["place 3 is before the first block (16)"]);
        assert_eq!(header_reasons(&[0; 64], 49), ["its 16 bytes run past the image's end (64)"]);
        assert_eq!(header_reasons(&[0; 64], u64::MAX), ["its 16 bytes run past the image's end (64)"]);
    }

    #[test]
    fn superblock_in_words() {
        assert_eq!(superblock_reasons(&[0; 9]), ["9 bytes are under the superblock's 16"]);
        let mut image = vec![0; 64];
        image[..12].copy_from_slice(&[16, 0, 0, 0, 3, 0, 6, 0, 64, 0, 0, 0]);
        assert!(superblock_reasons(&image).is_empty());
        image[6] = 5;
        image[8] = 65;
        assert_eq!(superblock_reasons(&image), ["its s = 5 is outside 6 to 15", "its L = 65 is not the dump's length, 64"]);
    }
}

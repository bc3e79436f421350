//! What occurs in distances.

use crate::model::{self, Header, Pointer};
use crate::store::Answer;

#[derive(Clone, Debug, Default)]
pub struct Distances {
    /// Accepted, by where the address is.
    places: [u64; PLACES.len()],
    /// Accepted, by the object, and by how far it is.
    objects: [u64; OBJECTS.len()],
    refused: [u64; REFUSED.len()],
}

/// What a tag in range leads to.
#[derive(Clone, Copy, Debug, PartialEq, Eq)]
enum Found {
    /// The frame starts behind the image.
    Behind,
    NoEntry,
    /// No sound header, at this place.
    Unsound(u64),
    Free,
    /// A live header in another slot or frame than the address.
    OtherFrame,
    /// One with another flag or tag number.
    OtherTag,
    Live(u64, Header),
}

struct Looked<'a> {
    image: &'a [u8],
    /// As the superblock has it; 0 where there is none.
    s: u32,
    p: Pointer,
    /// `None` where the tag is out of range.
    found: Option<Found>,
    from_start: i64,
    to_end: i64,
    answer: Answer,
}

impl Looked<'_> {
    /// Accepted: whether it is so of header place, header, and the distances from the start and to the end.
    fn is(&self, met: impl Fn(u64, Header, i64, i64) -> bool) -> bool {
        match self.found {
            Some(Found::Live(h, header)) if self.answer.accepted() => met(h, header, self.from_start, self.to_end),
            _ => false,
        }
    }

    fn starts(&self, met: impl Fn(i64) -> bool) -> bool {
        self.is(|_, _, from_start, _| met(from_start))
    }

    fn ends(&self, met: impl Fn(i64) -> bool) -> bool {
        self.is(|_, _, _, to_end| met(to_end))
    }

    fn refused(&self, row: u32) -> bool {
        self.answer.refusal == row
    }

    fn dangles(&self, found: Found) -> bool {
        self.refused(11) && self.found == Some(found)
    }

    fn unsound(&self) -> Option<u64> {
        match self.found {
            Some(Found::Unsound(h)) if self.refused(11) => Some(h),
            _ => None,
        }
    }

    /// The address's place in its slot or frame.
    fn place(&self) -> u64 {
        self.p.address & ((1 << self.p.reach(self.s)) - 1)
    }

    fn is_last(&self) -> bool {
        self.place() == (1 << self.p.reach(self.s)) - 1
    }

    fn length(&self) -> u64 {
        self.image.len() as u64
    }

    fn is_on_the_walk(&self, h: u64) -> bool {
        model::blocks(self.image).any(|block| block.0 == h)
    }

    /// The walk ends before this place.
    fn is_cut_off(&self, h: u64) -> bool {
        model::blocks(self.image).last().map_or(model::SUPERBLOCK, |(at, header)| at + u64::from(header.extent)) <= h
    }
}

type Row = (&'static str, fn(&Looked<'_>) -> bool);

/// More than 15 bits inside the body; outside of it, where frames are the limit, less.
const FAR: i64 = 1 << 15;
const FAR_OUTSIDE: i64 = 1 << 12;

const PLACES: [Row; 29] = [
    ("0 and the size", |d| d.is(|_, header, from, to| from == 0 && to == i64::from(header.size))),
    ("the size and 0", |d| d.is(|_, header, from, to| from == i64::from(header.size) && to == 0)),
    ("at the second byte", |d| d.is(|_, _, from, to| from == 1 && to > 0)),
    ("at the last byte", |d| d.is(|_, _, from, to| from > 0 && to == 1)),
    ("inside", |d| d.is(|_, _, from, to| from > 1 && to > 1)),
    ("one before the base", |d| d.starts(|from| from == -1)),
    ("in the header", |d| d.starts(|from| (-15..-1).contains(&from))),
    ("at the header's first byte", |d| d.starts(|from| from == -16)),
    ("one before the header", |d| d.starts(|from| from == -17)),
    ("further before", |d| d.starts(|from| from < -17)),
    ("one past the end", |d| d.ends(|to| to == -1)),
    ("further past", |d| d.ends(|to| to < -1)),
    ("before the base, small-framed", |d| d.p.small && d.starts(|from| from < 0)),
    ("before the base, large-framed", |d| !d.p.small && d.starts(|from| from < 0)),
    ("past the end, small-framed", |d| d.p.small && d.ends(|to| to < 0)),
    ("past the end, large-framed", |d| !d.p.small && d.ends(|to| to < 0)),
    ("at the slot's first byte", |d| d.p.small && d.starts(|from| from < 0) && d.place() == 0),
    ("at the frame's first byte", |d| !d.p.small && d.starts(|from| from < 0) && d.place() == 0),
    ("at the slot's last byte", |d| d.p.small && d.ends(|to| to < 0) && d.is_last()),
    ("at the frame's last byte", |d| !d.p.small && d.ends(|to| to < 0) && d.is_last()),
    ("0 and the size, small-framed", |d| d.p.small && d.starts(|from| from == 0)),
    ("0 and the size, large-framed", |d| !d.p.small && d.starts(|from| from == 0)),
    ("the size and 0, small-framed", |d| d.p.small && d.ends(|to| to == 0)),
    ("the size and 0, large-framed", |d| !d.p.small && d.ends(|to| to == 0)),
    ("at address 0", |d| d.starts(|_| d.p.address == 0)),
    ("in the superblock", |d| d.starts(|_| (1..16).contains(&d.p.address))),
    ("at the image's end, as the object's", |d| d.ends(|to| to == 0 && d.p.address == d.length())),
    ("behind the image, small-framed", |d| d.p.small && d.starts(|_| d.p.address >= d.length())),
    ("behind the image, large-framed", |d| !d.p.small && d.starts(|_| d.p.address >= d.length())),
];

const OBJECTS: [Row; 10] = [
    ("of one byte", |d| d.is(|_, header, _, _| header.size == 1)),
    ("with spare bytes", |d| d.is(|_, header, _, _| header.extent > header.size + 16)),
    ("with 15 spare bytes", |d| d.is(|_, header, _, _| header.extent == header.size + 31)),
    ("in spare bytes", |d| d.is(|h, header, _, to| to <= 0 && d.p.address < h + u64::from(header.extent))),
    ("far from the start", |d| d.starts(|from| from >= FAR)),
    ("far from the end", |d| d.ends(|to| to >= FAR)),
    ("far before", |d| d.starts(|from| from < -FAR_OUTSIDE)),
    ("far past", |d| d.ends(|to| to < -FAR_OUTSIDE)),
    ("of a header in a body", |d| d.is(|h, _, _, _| !d.is_on_the_walk(h) && !d.is_cut_off(h))),
    ("behind an unsound header", |d| d.is(|h, _, _, _| d.is_cut_off(h))),
];

const REFUSED: [Row; 20] = [
    ("4 before 10", |d| d.refused(4) && d.s > 0 && d.found.is_none()),
    ("4 of an object's pointer", |d| d.refused(4) && matches!(d.found, Some(Found::Live(..)))),
    ("5 before 10", |d| d.refused(5) && d.found.is_none()),
    ("5 of an object's pointer", |d| d.refused(5) && matches!(d.found, Some(Found::Live(..)))),
    ("10 by a tag number of 2^s", |d| d.refused(10) && d.p.small && d.p.tag == 1 << d.s),
    ("10 by a larger one, small-framed", |d| d.refused(10) && d.p.small && d.p.tag > 1 << d.s),
    ("10 by a tag number of s", |d| d.refused(10) && !d.p.small && d.p.tag == u64::from(d.s)),
    ("10 by a tag number of 32", |d| d.refused(10) && !d.p.small && d.p.tag == 32),
    ("10 by a tag number of 0", |d| d.refused(10) && !d.p.small && d.p.tag == 0),
    ("11 behind the image, small-framed", |d| d.p.small && d.dangles(Found::Behind)),
    ("11 behind the image, large-framed", |d| !d.p.small && d.dangles(Found::Behind)),
    ("11 by an entry of zero", |d| d.dangles(Found::NoEntry)),
    ("11 by an unsound header, small-framed", |d| d.p.small && d.unsound().is_some()),
    ("11 by an unsound header, large-framed", |d| !d.p.small && d.unsound().is_some_and(|h| h < d.length())),
    ("11 by a place below 16", |d| d.unsound().is_some_and(|h| h < 16)),
    ("11 by a place above 48 bits", |d| d.unsound().is_some_and(|h| h >> 48 != 0)),
    ("11 by a free header", |d| d.dangles(Found::Free)),
    ("11 by a header in another frame", |d| d.dangles(Found::OtherFrame)),
    ("11 by another tag", |d| d.dangles(Found::OtherTag)),
    ("11 at the last address of 48 bits", |d| d.refused(11) && d.p.address == (1 << 48) - 1),
];

/// What the tag leads to, as far as image and table go.
fn found(image: &[u8], table: &[u64], s: u32, p: Pointer) -> Option<Found> {
    if !p.tag_in_range(s) {
        return None;
    }
    let reach = p.reach(s);
    let start = p.address >> reach << reach;
    if start >= image.len() as u64 {
        return Some(Found::Behind);
    }
    let h = if p.small { start + p.tag } else { table.get(model::entry(s, reach, p.address) as usize).copied().unwrap_or(0) };
    Some(match model::sound(image, h) {
        _ if h == 0 && !p.small => Found::NoEntry,
        None => Found::Unsound(h),
        Some(header) if header.is_free() => Found::Free,
        Some(_) if h >> reach != p.address >> reach => Found::OtherFrame,
        Some(header) => {
            let afresh = Pointer::to(s, h, header.size.into());
            if (afresh.small, afresh.tag) == (p.small, p.tag) {
                Found::Live(h, header)
            } else {
                Found::OtherTag
            }
        }
    })
}

impl Distances {
    pub fn look(&mut self, image: &[u8], table: &[u64], pointer: u64, answer: &Answer) {
        if image.len() < 64 {
            return;
        }
        let (s, p) = (Some(u32::from(image[6])).filter(|s| (6..=15).contains(s)).unwrap_or(0), Pointer::unpack(pointer));
        let found = if s > 0 { found(image, table, s, p) } else { None };
        let [from_start, to_end, ..] = answer.values.map(|value| value as i64);
        let looked = Looked { image, s, p, found, from_start, to_end, answer: *answer };
        let groups: [(&mut [u64], &[Row]); 3] = [(&mut self.places, &PLACES), (&mut self.objects, &OBJECTS), (&mut self.refused, &REFUSED)];
        for (counts, rows) in groups {
            counts.iter_mut().zip(rows).for_each(|(count, (_, met))| *count += u64::from(met(&looked)));
        }
    }

    /// Each thing that is counted, and how often it occurred.
    pub fn all(&self) -> impl Iterator<Item = (&'static str, u64)> + '_ {
        let groups: [(&[Row], &[u64]); 3] = [(&PLACES, &self.places), (&OBJECTS, &self.objects), (&REFUSED, &self.refused)];
        groups.into_iter().flat_map(|(rows, counts)| rows.iter().zip(counts).map(|(&(what, _), &count)| (what, count)))
    }
}

//! What occurs with the free total.

use crate::model::{self, Header, Pointer};
use crate::store::{Answer, Call};
use crate::totals;

#[derive(Clone, Debug, Default)]
pub struct Totals {
    allocates: [u64; ALLOCATES.len()],
    allocates_for: [u64; ALLOCATES.len()],
    frees: [u64; FREES.len()],
    releases: [u64; RELEASES.len()],
    gives: [u64; GIVES.len()],
}

/// A call that takes of the total or gives back; or one that asks for it.
struct Looked<'a> {
    image: &'a [u8],
    call: Call<u64>,
    total: u64,
    /// All bytes behind the superblock.
    all: u64,
    /// What an accepted call takes or gives back; 0 where there is nothing to take.
    extents: u64,
    answer: Answer,
}

impl Looked<'_> {
    fn accepted(&self) -> bool {
        self.answer.accepted()
    }

    fn refused(&self, row: u32) -> bool {
        self.answer.refusal == row
    }

    /// Allocate: the bytes that its object needs.
    fn need(&self) -> u64 {
        match self.call {
            Call::Allocate { size, .. } | Call::AllocateFor { size, .. } => model::HEADER + u64::from(size),
            _ => 0,
        }
    }

    /// The total after a free or a release of these extents.
    fn with(&self, extents: u64) -> u64 {
        self.total + extents
    }

    /// Free: the object's header, and the extent of the block that it becomes with its free neighbours.
    fn freed(&self) -> Option<(Header, u64)> {
        let Call::Free { pointer } = self.call else { return None };
        let h = Pointer::unpack(pointer).address.checked_sub(model::HEADER)?;
        let blocks: Vec<_> = model::blocks(self.image).collect();
        let at = blocks.iter().position(|block| block.0 == h)?;
        let free = |block: Option<&(u64, Header)>| block.filter(|(_, header)| header.is_free()).map_or(0, |(_, header)| u64::from(header.extent));
        let merged = u64::from(blocks[at].1.extent) + free(at.checked_sub(1).map(|before| &blocks[before])) + free(blocks.get(at + 1));
        Some((blocks[at].1, merged))
    }

    /// Release: the extents of the objects.
    fn released(&self) -> Vec<u64> {
        let Call::Release { cue } = self.call else { return Vec::new() };
        model::blocks(self.image).filter(|(_, header)| header.carries(cue)).map(|(_, header)| header.extent.into()).collect()
    }

    /// Release: of so many objects at least.
    fn of(&self, least: usize) -> bool {
        self.released().len() >= least
    }

    fn blocks(&self) -> u64 {
        totals::of_blocks(self.image)
    }

    /// An unsound header ends the walk.
    fn unsound(&self) -> bool {
        model::blocks(self.image).last().map_or(model::SUPERBLOCK, |(h, header)| h + u64::from(header.extent)) != self.image.len() as u64
    }
}

type Row = (&'static str, fn(&Looked<'_>) -> bool);

const ALLOCATES: [Row; 14] = [
    ("accepted with the extent as total", |c| c.accepted() && c.total == c.extents),
    ("accepted with one more", |c| c.accepted() && c.total == c.extents + 1),
    ("22 by one", |c| c.refused(22) && c.total + 1 == c.extents),
    ("22 with a total of 0", |c| c.refused(22) && c.total == 0),
    ("accepted of a whole block with spare bytes, with its extent as total", |c| c.accepted() && c.extents > c.need() && c.total == c.extents),
    ("22 by spare bytes alone", |c| c.refused(22) && c.total >= c.need()),
    ("22 by the header alone", |c| c.refused(22) && c.total < c.need() && c.total >= c.need() - model::HEADER),
    ("accepted with a total above L - 16", |c| c.accepted() && c.total > c.all),
    ("accepted with a total of 2^32 - 1", |c| c.accepted() && c.total == u64::from(u32::MAX)),
    ("accepted by the total's highest bit alone", |c| c.accepted() && c.total >= 1 << 31 && c.total - (1 << 31) < c.extents),
    ("accepted with a total that is not the blocks'", |c| c.accepted() && c.total != c.blocks()),
    ("7 with a total too small", |c| c.refused(7) && c.total < c.need()),
    ("8 with a total too small", |c| c.refused(8) && c.total < c.need()),
    ("9 with a total too small", |c| c.refused(9) && c.total < c.extents),
];

const FREES: [Row; 15] = [
    ("accepted up to L - 16", |c| c.accepted() && c.with(c.extents) == c.all),
    ("accepted up to one less", |c| c.accepted() && c.with(c.extents) + 1 == c.all),
    ("22 by one", |c| c.refused(22) && c.with(c.extents) == c.all + 1),
    ("22 by 16, up to L", |c| c.refused(22) && (c.all + 1..=c.all + 16).contains(&c.with(c.extents))),
    ("22 with a total of 2^32 - 1", |c| c.refused(22) && c.total == u64::from(u32::MAX)),
    ("22 beyond 32 bits, to a total below L - 16", |c| c.refused(22) && c.with(c.extents) >= 1 << 32 && (c.with(c.extents) as u32) as u64 <= c.all),
    ("22 by the header alone", |c| c.refused(22) && c.freed().is_some_and(|(header, _)| c.with(header.size.into()) <= c.all)),
    ("22 by spare bytes alone", |c| c.refused(22) && c.freed().is_some_and(|(header, _)| c.with(16 + u64::from(header.size)) <= c.all)),
    ("accepted with a total of 0", |c| c.accepted() && c.total == 0),
    ("accepted with a total that is not the blocks'", |c| c.accepted() && c.total != c.blocks()),
    ("accepted with the merged extent above L - 16", |c| c.accepted() && c.freed().is_some_and(|(_, merged)| c.with(merged) > c.all)),
    ("10 with a total too large", |c| c.refused(10) && c.total > c.all),
    ("11 with a total too large", |c| c.refused(11) && c.total > c.all),
    ("15 with a total too large", |c| c.refused(15) && c.total > c.all),
    ("7 with a total too large", |c| c.refused(7) && c.with(c.extents) > c.all),
];

const RELEASES: [Row; 21] = [
    ("of one, up to L - 16", |c| c.accepted() && c.released().len() == 1 && c.with(c.extents) == c.all),
    ("of one, up to one less", |c| c.accepted() && c.released().len() == 1 && c.with(c.extents) + 1 == c.all),
    ("of one, 22 by one", |c| c.refused(22) && c.released().len() == 1 && c.with(c.extents) == c.all + 1),
    ("of several, up to L - 16", |c| c.accepted() && c.of(2) && c.with(c.extents) == c.all),
    ("of several, up to one less", |c| c.accepted() && c.of(2) && c.with(c.extents) + 1 == c.all),
    ("of several, 22 by one", |c| c.refused(22) && c.of(2) && c.with(c.extents) == c.all + 1),
    ("22 by 16, up to L", |c| c.refused(22) && c.of(1) && (c.all + 1..=c.all + 16).contains(&c.with(c.extents))),
    ("22 by no single one", |c| c.refused(22) && c.of(2) && c.released().iter().all(|&extent| c.with(extent) <= c.all)),
    ("22 by the last alone", |c| c.refused(22) && c.of(2) && c.released().split_last().is_some_and(|(_, before)| c.with(before.iter().sum()) <= c.all)),
    ("22 with a total of 2^32 - 1", |c| c.refused(22) && c.of(1) && c.total == u64::from(u32::MAX)),
    ("22 beyond 32 bits, to a total below L - 16", |c| c.refused(22) && c.of(1) && c.with(c.extents) >= 1 << 32 && (c.with(c.extents) as u32) as u64 <= c.all),
    ("with a total of 0", |c| c.accepted() && c.of(1) && c.total == 0),
    ("with a total that is not the blocks'", |c| c.accepted() && c.of(1) && c.total != c.blocks()),
    ("7 with a total too large", |c| c.refused(7) && c.with(c.extents) > c.all),
    ("7 with no object and a total too large", |c| c.refused(7) && !c.of(1) && c.total > c.all),
    ("21 with a total too large", |c| c.refused(21) && c.with(c.extents) > c.all),
    ("of none, with a total of L - 16", |c| c.accepted() && !c.of(1) && c.total == c.all),
    ("of none, with a total that is not the blocks'", |c| c.accepted() && !c.of(1) && c.total != c.blocks()),
    ("of none, 22 by one", |c| c.refused(22) && !c.of(1) && c.total == c.all + 1),
    ("of none, 22 with a total of 2^32 - 1", |c| c.refused(22) && !c.of(1) && c.total == u64::from(u32::MAX)),
    ("of none beside objects, 22", |c| c.refused(22) && !c.of(1) && c.blocks() < c.all),
];

const GIVES: [Row; 10] = [
    ("the blocks', less than L - 16", |c| c.accepted() && c.total == c.blocks() && c.total < c.all && !c.unsound()),
    ("L - 16", |c| c.accepted() && c.total == c.all),
    ("one less than the blocks'", |c| c.accepted() && c.total + 1 == c.blocks()),
    ("one more than the blocks'", |c| c.accepted() && c.total == c.blocks() + 1),
    ("L - 15", |c| c.accepted() && c.total == c.all + 1),
    ("0", |c| c.accepted() && c.total == 0),
    ("2^32 - 1", |c| c.accepted() && c.total == u64::from(u32::MAX)),
    ("before an unsound header", |c| c.accepted() && c.unsound()),
    ("4 with a total that is not 0", |c| c.refused(4) && c.total > 0),
    ("5 with a total that is not 0", |c| c.refused(5) && c.total > 0),
];

impl Totals {
    pub fn look(&mut self, image: &[u8], call: &Call<u64>, answer: &Answer) {
        let (counts, rows): (&mut [u64], &[Row]) = match call {
            Call::Allocate { .. } => (&mut self.allocates, &ALLOCATES),
            Call::AllocateFor { .. } => (&mut self.allocates_for, &ALLOCATES),
            Call::Free { .. } => (&mut self.frees, &FREES),
            Call::Release { .. } => (&mut self.releases, &RELEASES),
            Call::FreeTotal => (&mut self.gives, &GIVES),
            _ => return,
        };
        if image.len() < 64 {
            return;
        }
        let looked = Looked {
            image,
            call: *call,
            total: model::total(image),
            all: image.len() as u64 - model::SUPERBLOCK,
            extents: totals::extents(image, call).unwrap_or(0),
            answer: *answer,
        };
        counts.iter_mut().zip(rows).for_each(|(count, (_, met))| *count += u64::from(met(&looked)));
    }

    /// Each thing that is counted, and how often it occurred.
    pub fn all(&self) -> impl Iterator<Item = (&'static str, &'static str, u64)> + '_ {
        let groups: [(&str, &[Row], &[u64]); 5] = [
            ("allocate", &ALLOCATES, &self.allocates),
            ("allocate for", &ALLOCATES, &self.allocates_for),
            ("free", &FREES, &self.frees),
            ("release", &RELEASES, &self.releases),
            ("free total", &GIVES, &self.gives),
        ];
        groups.into_iter().flat_map(|(call, rows, counts)| rows.iter().zip(counts).map(move |(&(what, _), &count)| (call, what, count)))
    }
}

//! What occurs in release.

use crate::model::{self, Header, Pointer};
use crate::store::Answer;

#[derive(Clone, Debug, Default)]
pub struct Releases {
    counts: [u64; RELEASES.len()],
}

/// What a block is to the release.
#[derive(Clone, Copy, Debug, PartialEq, Eq)]
enum Block {
    Free,
    /// An object of another cue, with or without its table entry.
    Other,
    OtherLost,
    /// An object of the cue: small-framed, large-framed, or large-framed without its entry, which is zero or is not.
    Small,
    Large,
    LostZero,
    Lost,
}

use Block::{Free, Large, Lost, LostZero, Other, OtherLost, Small};

impl Block {
    fn of(header: Header, h: u64, s: u32, table: &[u64], cue: u32) -> Block {
        let pointer = Pointer::to(s, h, u64::from(header.size));
        let held = if pointer.small { h } else { table[model::entry(s, pointer.tag as u32, h) as usize] };
        match (header.carries(cue), held) {
            _ if header.is_free() => Free,
            (false, _) if held == h => Other,
            (false, _) => OtherLost,
            (true, _) if pointer.small => Small,
            (true, 0) => LostZero,
            (true, _) if held == h => Large,
            (true, _) => Lost,
        }
    }

    fn is_of_cue(self) -> bool {
        matches!(self, Small | Large | LostZero | Lost)
    }

    fn is_lost(self) -> bool {
        matches!(self, LostZero | Lost)
    }
}

struct Looked {
    cue: u32,
    /// Up to the image's end, or to an unsound header.
    blocks: Vec<Block>,
    /// The cues of the objects of others.
    others: Vec<u32>,
    /// The unsound header, where all 16 bytes are there.
    unsound: Option<Header>,
    answer: Answer,
}

impl Looked {
    /// Whether it is accepted, and blocks that are these, one by one, stand side by side.
    fn has(&self, wanted: &[fn(Block) -> bool]) -> bool {
        self.answer.accepted() && self.blocks.windows(wanted.len()).any(|blocks| blocks.iter().zip(wanted).all(|(&block, is)| is(block)))
    }

    fn is_of_cue(&self, block: Option<&Block>) -> bool {
        self.answer.accepted() && block.is_some_and(|block| block.is_of_cue())
    }

    /// The lost ones among the objects of the cue.
    fn lost(&self) -> Vec<bool> {
        self.blocks.iter().filter(|block| block.is_of_cue()).map(|block| block.is_lost()).collect()
    }
}

fn free(block: Block) -> bool {
    block == Free
}

fn of_cue(block: Block) -> bool {
    block.is_of_cue()
}

fn other(block: Block) -> bool {
    matches!(block, Other | OtherLost)
}

type Row = (&'static str, fn(&Looked) -> bool);

const RELEASES: [Row; 31] = [
    ("of none", |r| r.answer == Answer::new(0, [0])),
    ("of one", |r| r.answer == Answer::new(0, [1])),
    ("of many", |r| r.answer.accepted() && r.answer.values[0] > 3),
    ("of all objects", |r| r.answer.accepted() && r.answer.values[0] > 0 && r.others.is_empty()),
    ("of cue 0", |r| r.answer.accepted() && r.answer.values[0] > 0 && r.cue == 0),
    ("of cue 2^32 - 1", |r| r.answer.accepted() && r.answer.values[0] > 0 && r.cue == u32::MAX),
    ("beside a cue that differs above 16 bits", |r| {
        r.answer.accepted() && r.others.iter().any(|other| other ^ r.cue >= 1 << 16 && *other as u16 == r.cue as u16)
    }),
    ("small-framed", |r| r.has(&[|block| block == Small])),
    ("large-framed", |r| r.has(&[|block| block == Large])),
    ("beside another cue's lost entry", |r| r.answer.accepted() && r.answer.values[0] > 0 && r.blocks.contains(&OtherLost)),
    ("alone between others", |r| r.has(&[other, of_cue, other])),
    ("neighbours", |r| r.has(&[of_cue, of_cue])),
    ("three neighbours", |r| r.has(&[of_cue, of_cue, of_cue])),
    ("from the first block on", |r| r.is_of_cue(r.blocks.first())),
    ("up to the image's end", |r| r.is_of_cue(r.blocks.last())),
    ("the image's last free block with it", |r| r.answer.accepted() && (r.blocks.ends_with(&[Small, Free]) || r.blocks.ends_with(&[Large, Free]))),
    ("behind a free block", |r| r.has(&[free, of_cue])),
    ("before a free block", |r| r.has(&[of_cue, free])),
    ("across a free block", |r| r.has(&[of_cue, free, of_cue])),
    ("behind two free blocks", |r| r.has(&[free, free, of_cue])),
    ("before two free blocks", |r| r.has(&[of_cue, free, free])),
    ("across two free blocks", |r| r.has(&[of_cue, free, free, of_cue])),
    ("across three free blocks", |r| r.has(&[of_cue, free, free, free, of_cue])),
    ("7 behind an object of the cue", |r| r.answer.refusal == 7 && r.blocks.iter().any(|block| block.is_of_cue())),
    ("7 by a free block's last bytes", |r| {
        r.answer.refusal == 7 && r.unsound.is_some_and(|header| header == Header { last: header.last, ..Header::free(header.extent.into()) })
    }),
    ("7 behind a lost entry", |r| r.answer.refusal == 7 && r.blocks.iter().any(|block| block.is_lost())),
    ("21 by an entry of zero", |r| r.answer.refusal == 21 && r.blocks.contains(&LostZero)),
    ("21 by another entry", |r| r.answer.refusal == 21 && r.blocks.contains(&Lost)),
    ("21 by the first of several", |r| r.answer.refusal == 21 && r.lost().starts_with(&[true, false])),
    ("21 by the last of several", |r| r.answer.refusal == 21 && r.lost().ends_with(&[false, true])),
    ("21 by the only one", |r| r.answer.refusal == 21 && r.lost() == [true]),
];

impl Releases {
    pub fn look(&mut self, image: &[u8], table: &[u64], cue: u32, answer: &Answer) {
        let Ok(s) = model::open(image, table) else { return };
        let all: Vec<_> = model::blocks(image).collect();
        let end = all.last().map_or(model::SUPERBLOCK, |(h, header)| h + u64::from(header.extent));
        let looked = Looked {
            cue,
            blocks: all.iter().map(|&(h, header)| Block::of(header, h, s, table, cue)).collect(),
            others: all.iter().filter(|(_, header)| header.is_live() && !header.carries(cue)).map(|(_, header)| header.last).collect(),
            unsound: (end + model::HEADER <= image.len() as u64).then(|| Header::read(image, end)),
            answer: *answer,
        };
        self.counts.iter_mut().zip(RELEASES).for_each(|(count, (_, met))| *count += u64::from(met(&looked)));
    }

    /// Each thing that is counted, and how often it occurred.
    pub fn all(&self) -> impl Iterator<Item = (&'static str, u64)> + '_ {
        RELEASES.iter().zip(self.counts).map(|(&(what, _), count)| (what, count))
    }
}

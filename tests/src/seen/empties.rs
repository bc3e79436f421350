//! What occurs with objects of no bytes.

use crate::empties::{is_empty, Empty};
use crate::model::{self, Header, Pointer, HEADER};
use crate::store::{Answer, Call};

#[derive(Clone, Debug, Default)]
pub struct Empties {
    allocates: [u64; ALLOCATES.len()],
    allocates_for: [u64; ALLOCATES.len()],
    /// By the pointer that leads to one.
    accesses: [[u64; ACCESSES.len()]; OPERANDS.len()],
    /// A length of 0, by the pointer that leads to one.
    sixes: [u64; SIXES.len()],
    frees: [u64; FREES.len()],
    releases: [u64; RELEASES.len()],
    tallies: [u64; TALLIES.len()],
    distances: [u64; DISTANCES.len()],
    moves: [u64; MOVES.len()],
    walks: [[u64; WALKS.len()]; WALKERS.len()],
}

/// The pointers through which bytes are asked for.
const OPERANDS: [&str; 9] =
    ["load", "store", "fill", "copy, target", "copy, source", "compare, left", "compare, right", "text copy, source", "text copy, target"];

/// By place in `OPERANDS`, in the order in which they are tested.
fn operands(call: &Call<u64>) -> [Option<(usize, u64)>; 2] {
    match *call {
        Call::Load { pointer, .. } => [Some((0, pointer)), None],
        Call::Store { pointer, .. } => [Some((1, pointer)), None],
        Call::Fill { pointer, .. } => [Some((2, pointer)), None],
        Call::Copy { target, source, .. } => [Some((3, target)), Some((4, source))],
        Call::Compare { left, right, .. } => [Some((5, left)), Some((6, right))],
        Call::CopyText { target, source } => [Some((7, source)), Some((8, target))],
        _ => [None, None],
    }
}

/// A call, and where it has a pointer that leads to an object of no bytes, that object.
struct Looked<'a> {
    image: &'a [u8],
    table: &'a [u64],
    s: u32,
    call: Call<u64>,
    answer: Answer,
    empty: Option<Empty>,
    /// Asked for through that pointer.
    bytes: u64,
}

impl Looked<'_> {
    fn accepted(&self) -> bool {
        self.answer.accepted()
    }

    fn refused(&self, row: u32) -> bool {
        self.answer.refusal == row
    }

    fn length(&self) -> u64 {
        self.image.len() as u64
    }

    fn blocks(&self) -> impl Iterator<Item = (u64, Header)> + '_ {
        model::blocks(self.image)
    }

    /// The 16 bytes where the walk ends.
    fn unsound(&self) -> Option<Header> {
        let end = self.blocks().last().map_or(model::SUPERBLOCK, |(h, header)| h + u64::from(header.extent));
        (end + HEADER <= self.length()).then(|| Header::read(self.image, end))
    }

    /// The walk ends at a live header of this extent and size.
    fn ends_at(&self, extent: u32, size: u32) -> bool {
        self.refused(7) && self.unsound().is_some_and(|header| header.is_live() && (header.extent, header.size) == (extent, size))
    }

    /// An accepted call's walk passes such a block.
    fn passes(&self, met: impl Fn(Header) -> bool) -> bool {
        let end = match self.call {
            Call::Allocate { .. } | Call::AllocateFor { .. } => Pointer::unpack(self.answer.values[0]).address,
            Call::Free { pointer } => Pointer::unpack(pointer).address,
            _ => self.length() + HEADER,
        };
        self.accepted() && self.blocks().any(|(at, header)| at + HEADER < end && met(header))
    }

    // ---- allocate

    /// Accepted: the free block that it takes, and the one before that.
    fn taken(&self) -> Option<(Option<Header>, Header)> {
        let h = Pointer::unpack(self.answer.values[0]).address.checked_sub(HEADER).filter(|h| self.accepted() && h + HEADER <= self.length())?;
        let before = self.blocks().find(|(at, header)| at + u64::from(header.extent) == h).map(|block| block.1);
        Some((before, Header::read(self.image, h)))
    }

    fn takes(&self, met: impl Fn(u32) -> bool) -> bool {
        self.taken().is_some_and(|(_, free)| met(free.extent))
    }

    fn given(&self, met: impl Fn(Pointer) -> bool) -> bool {
        self.accepted() && met(Pointer::unpack(self.answer.values[0]))
    }

    // ---- calls with a pointer

    fn of(&self, met: impl Fn(Empty) -> bool) -> bool {
        self.empty.is_some_and(met)
    }

    /// Refused by 13 for a byte or more.
    fn outside(&self, met: impl Fn(Empty) -> bool) -> bool {
        self.refused(13) && self.of(met)
    }

    /// What the image has at the object's end; `None` behind the image.
    fn next(&self, empty: Empty) -> Option<Header> {
        model::sound(self.image, empty.h + u64::from(empty.header.extent))
    }

    /// The block before it.
    fn before(&self, empty: Empty) -> Option<Header> {
        self.blocks().find(|(at, header)| at + u64::from(header.extent) == empty.h).map(|block| block.1)
    }

    /// The pointer would be that of an object of no bytes, where a free block stands or all is zero.
    fn nothing_there(&self) -> bool {
        let Call::Distances { pointer } = self.call else { return false };
        let p = Pointer::unpack(pointer);
        let Some(h) = p.address.checked_sub(HEADER).filter(|h| h + HEADER <= self.length()) else { return false };
        Pointer::to(self.s, h, 0) == p && (Header::read(self.image, h).is_free() || Header::read(self.image, h).bytes() == [0; 16])
    }

    fn is_on_the_walk(&self, empty: Empty) -> bool {
        self.blocks().any(|block| block.0 == empty.h)
    }

    /// Its header lies in the body of an object.
    fn is_in_a_body(&self, empty: Empty) -> bool {
        self.blocks().any(|(at, header)| header.is_live() && at + HEADER <= empty.h && empty.h <= at + u64::from(header.size))
    }

    fn distances(&self) -> [i64; 2] {
        [self.answer.values[0] as i64, self.answer.values[1] as i64]
    }

    fn moved(&self) -> i64 {
        match self.call {
            Call::Move { distance, .. } => distance,
            _ => 0,
        }
    }

    // ---- release

    /// The objects of the cue.
    fn of_cue(&self) -> Vec<(u64, Header)> {
        let Call::Release { cue } = self.call else { return Vec::new() };
        self.blocks().filter(|(_, header)| header.carries(cue)).collect()
    }

    /// The objects of other cues.
    fn others(&self) -> impl Iterator<Item = Header> + '_ {
        let Call::Release { cue } = self.call else { unreachable!("no release") };
        self.blocks().map(|block| block.1).filter(move |header| header.is_live() && !header.carries(cue))
    }

    fn large(&self, (h, header): (u64, Header)) -> bool {
        !Pointer::to(self.s, h, header.size.into()).small
    }

    fn lost(&self, (h, header): (u64, Header)) -> bool {
        let p = Pointer::to(self.s, h, header.size.into());
        !p.small && self.table[model::entry(self.s, p.tag as u32, h) as usize] != h
    }

    /// Accepted, and so is one of the objects, which has no bytes.
    fn releases(&self, met: impl Fn((u64, Header)) -> bool) -> bool {
        self.accepted() && self.of_cue().into_iter().any(|block| is_empty(block.1) && met(block))
    }
}

type Row = (&'static str, fn(&Looked<'_>) -> bool);

/// Of size 0.
const ALLOCATES: [Row; 22] = [
    ("small-framed", |c| c.given(|p| p.small)),
    ("large-framed", |c| c.given(|p| !p.small)),
    ("at the image's end", |c| c.given(|p| p.address == c.length())),
    ("large-framed at the image's end", |c| c.given(|p| !p.small && p.address == c.length())),
    ("small-framed at the image's end", |c| c.given(|p| p.small && p.address == c.length())),
    ("of a block of 16", |c| c.takes(|extent| extent == 16)),
    ("with a spare byte", |c| c.takes(|extent| extent == 17)),
    ("with 15 spare bytes", |c| c.takes(|extent| extent == 31)),
    ("of a block of 32", |c| c.takes(|extent| extent == 32)),
    ("of a larger block", |c| c.takes(|extent| extent > 32)),
    ("behind another one", |c| c.taken().is_some_and(|(before, _)| before.is_some_and(is_empty))),
    ("behind an object of bytes", |c| c.taken().is_some_and(|(before, _)| before.is_some_and(|header| header.is_live() && header.size > 0))),
    ("4", |c| c.refused(4)),
    ("5", |c| c.refused(5)),
    ("7", |c| c.refused(7)),
    ("8", |c| c.refused(8)),
    ("8 beside 15 spare bytes", |c| c.refused(8) && c.blocks().any(|(_, header)| header.is_live() && header.extent == header.size + 31)),
    ("8 beside another one", |c| c.refused(8) && c.blocks().any(|(_, header)| is_empty(header))),
    ("9", |c| c.refused(9)),
    ("22 with a total of 15", |c| c.refused(22) && model::total(c.image) == 15),
    ("22 by spare bytes alone", |c| c.refused(22) && (16..31).contains(&model::total(c.image))),
    ("with a total of 16", |c| c.accepted() && model::total(c.image) == 16),
];

/// Through its pointer, of a byte or more.
const ACCESSES: [Row; 12] = [
    ("13", |c| c.outside(|empty| empty.at_base())),
    ("13 of one byte with a spare byte there", |c| c.bytes == 1 && c.outside(|empty| empty.at_base() && empty.spare() > 0)),
    ("13 of one byte with a live header there", |c| {
        c.bytes == 1 && c.outside(|empty| empty.at_base() && empty.spare() == 0 && c.next(empty).is_some_and(|next| next.is_live()))
    }),
    ("13 of one byte with a free header there", |c| {
        c.bytes == 1 && c.outside(|empty| empty.at_base() && empty.spare() == 0 && c.next(empty).is_some_and(|next| next.is_free()))
    }),
    ("13 of one byte at the image's end", |c| c.bytes == 1 && c.outside(|empty| empty.at_base() && empty.at_end())),
    ("13 with 15 spare bytes", |c| c.outside(|empty| empty.at_base() && empty.spare() == 15)),
    ("13, small-framed", |c| c.outside(|empty| empty.p.small)),
    ("13, large-framed", |c| c.outside(|empty| !empty.p.small)),
    ("13 before it", |c| c.outside(|empty| empty.p.address < empty.base())),
    ("13 past it", |c| c.outside(|empty| empty.p.address > empty.base())),
    ("13 behind the image", |c| c.outside(|empty| empty.p.address > c.length())),
    ("13 of a header in a body", |c| c.outside(|empty| empty.at_base() && c.is_in_a_body(empty))),
];

/// The operands of calls with a length.
const SIXES: [usize; 5] = [2, 3, 4, 5, 6];

const FREES: [Row; 16] = [
    ("small-framed", |c| c.accepted() && c.of(|empty| empty.p.small)),
    ("large-framed", |c| c.accepted() && c.of(|empty| !empty.p.small)),
    ("at the image's end", |c| c.accepted() && c.of(|empty| empty.at_end())),
    ("with spare bytes", |c| c.accepted() && c.of(|empty| empty.spare() > 0)),
    ("before a free block", |c| c.accepted() && c.of(|empty| c.next(empty).is_some_and(|next| next.is_free()))),
    ("before an object of bytes", |c| c.accepted() && c.of(|empty| c.next(empty).is_some_and(|next| next.is_live() && next.size > 0))),
    ("before another one", |c| c.accepted() && c.of(|empty| c.next(empty).is_some_and(is_empty))),
    ("behind a free block", |c| c.accepted() && c.of(|empty| c.before(empty).is_some_and(|before| before.is_free()))),
    ("behind another one", |c| c.accepted() && c.of(|empty| c.before(empty).is_some_and(is_empty))),
    ("between free blocks", |c| {
        let free = |block: Option<Header>| block.is_some_and(|header| header.is_free());
        c.accepted() && c.of(|empty| free(c.before(empty)) && free(c.next(empty)))
    }),
    ("15 before it", |c| c.refused(15) && c.of(|empty| empty.p.address < empty.base())),
    ("15 past it", |c| c.refused(15) && c.of(|empty| empty.p.address > empty.base())),
    ("15 behind the image", |c| c.refused(15) && c.of(|empty| empty.p.address > c.length())),
    ("7 of a header in a body", |c| c.refused(7) && c.of(|empty| c.is_in_a_body(empty))),
    ("7 by the next header", |c| c.refused(7) && c.of(|empty| c.is_on_the_walk(empty) && c.next(empty).is_none())),
    ("22", |c| c.refused(22) && c.of(|_| true)),
];

const RELEASES: [Row; 10] = [
    ("one", |c| c.releases(|_| true)),
    ("alone", |c| c.releases(|_| c.of_cue().len() == 1)),
    ("several and no others", |c| c.accepted() && c.of_cue().len() > 1 && c.of_cue().iter().all(|block| is_empty(block.1))),
    ("beside objects of bytes", |c| c.releases(|_| c.of_cue().iter().any(|block| block.1.size > 0))),
    ("small-framed", |c| c.releases(|block| !c.large(block))),
    ("large-framed", |c| c.releases(|block| c.large(block))),
    ("at the image's end", |c| c.releases(|(h, _)| h + HEADER == c.length())),
    ("with spare bytes", |c| c.releases(|(_, header)| header.extent > 16)),
    ("another cue's stays", |c| c.accepted() && c.answer.values[0] > 0 && c.others().any(is_empty)),
    ("21 by its entry alone", |c| c.refused(21) && c.of_cue().into_iter().filter(|&block| c.lost(block)).all(|block| is_empty(block.1))),
];

const TALLIES: [Row; 5] = [
    ("one", |c| c.accepted() && c.blocks().any(|block| is_empty(block.1))),
    ("none but those", |c| c.accepted() && c.answer.values[0] > 0 && c.answer.values[1] == 0),
    ("those and others", |c| c.accepted() && c.answer.values[1] > 0 && c.blocks().any(|block| is_empty(block.1))),
    ("with spare bytes", |c| c.accepted() && c.blocks().any(|(_, header)| is_empty(header) && header.extent > 16)),
    ("at the image's end", |c| c.accepted() && c.blocks().any(|(h, header)| is_empty(header) && h + HEADER == c.length())),
];

const DISTANCES: [Row; 10] = [
    ("0 and 0, small-framed", |c| c.accepted() && c.of(|empty| empty.p.small && c.distances() == [0, 0])),
    ("0 and 0, large-framed", |c| c.accepted() && c.of(|empty| !empty.p.small && c.distances() == [0, 0])),
    ("0 and 0 with spare bytes", |c| c.accepted() && c.of(|empty| empty.spare() > 0 && c.distances() == [0, 0])),
    ("0 and 0 at the image's end", |c| c.accepted() && c.of(|empty| empty.at_end() && c.distances() == [0, 0])),
    ("before it", |c| c.accepted() && c.of(|_| c.distances()[0] < 0)),
    ("past it", |c| c.accepted() && c.of(|_| c.distances()[0] > 0)),
    ("before one at the image's end", |c| c.accepted() && c.of(|empty| empty.at_end() && c.distances()[0] < 0)),
    ("behind the image", |c| c.accepted() && c.of(|empty| empty.p.address > c.length())),
    ("of a header in a body", |c| c.accepted() && c.of(|empty| c.is_in_a_body(empty))),
    ("11 where no object is", |c| c.refused(11) && c.nothing_there()),
];

const MOVES: [Row; 7] = [
    ("by 0", |c| c.accepted() && c.of(|_| c.moved() == 0)),
    ("up", |c| c.accepted() && c.of(|_| c.moved() > 0)),
    ("down", |c| c.accepted() && c.of(|_| c.moved() < 0)),
    ("12", |c| c.refused(12) && c.of(|_| true)),
    ("down from the image's end", |c| c.accepted() && c.of(|empty| empty.at_base() && empty.at_end() && c.moved() < 0)),
    ("up from the image's end", |c| c.accepted() && c.of(|empty| empty.at_base() && empty.at_end() && c.moved() > 0)),
    ("12 from the image's end", |c| c.refused(12) && c.of(|empty| empty.at_base() && empty.at_end())),
];

const WALKERS: [&str; 5] = ["allocate", "allocate for", "free", "release", "tally"];

/// Calls that walk, on either side of what is sound.
const WALKS: [Row; 8] = [
    ("7 by extent 15 of no bytes", |c| c.ends_at(15, 0)),
    ("7 by extent 32 of no bytes", |c| c.ends_at(32, 0)),
    ("7 by extent 16 of one byte", |c| c.ends_at(16, 1)),
    ("7 by extent 33 of one byte", |c| c.ends_at(33, 1)),
    ("7 by extent 0 of no bytes", |c| c.ends_at(0, 0)),
    ("7 by a live header of no bytes and a long extent", |c| c.refused(7) && c.unsound().is_some_and(|header| is_empty(header) && header.extent > 32)),
    ("over extent 16 of no bytes", |c| c.passes(|header| is_empty(header) && header.extent == 16)),
    ("over extent 31 of no bytes", |c| c.passes(|header| is_empty(header) && header.extent == 31)),
];

impl Empties {
    pub fn look(&mut self, image: &[u8], table: &[u64], call: &Call<u64>, answer: &Answer) {
        let size = match *call {
            Call::Allocate { size, .. } | Call::AllocateFor { size, .. } => Some(size),
            _ => None,
        };
        let s = match model::open(image, table) {
            Ok(s) => s,
            // 4 and 5 are counted too
            Err(_) if size == Some(0) && image.len() >= 64 => 0,
            Err(_) => return,
        };
        let empty = |pointer| if s == 0 { None } else { Empty::led_to(image, table, pointer) };
        let looked = |empty| Looked { image, table, s, call: *call, answer: *answer, empty, bytes: 0 };
        for (place, pointer) in operands(call).into_iter().flatten() {
            let empty = empty(pointer);
            // 13 of two pointers is the first's
            if empty.is_some() && (answer.refusal != 13 || first_outside(image, table, call) == Some(place)) {
                add(&mut self.accesses[place], &ACCESSES, &Looked { bytes: asked(image, call, place), ..looked(empty) });
                if let Some(six) = SIXES.iter().position(|&six| six == place).filter(|_| answer.refusal == 6) {
                    self.sixes[six] += 1;
                }
            }
        }
        match *call {
            Call::Allocate { size: 0, .. } => add(&mut self.allocates, &ALLOCATES, &looked(None)),
            Call::AllocateFor { size: 0, .. } => add(&mut self.allocates_for, &ALLOCATES, &looked(None)),
            Call::Free { pointer } => add(&mut self.frees, &FREES, &looked(empty(pointer))),
            Call::Release { .. } => add(&mut self.releases, &RELEASES, &looked(None)),
            Call::Tally => add(&mut self.tallies, &TALLIES, &looked(None)),
            Call::Distances { pointer } => add(&mut self.distances, &DISTANCES, &looked(empty(pointer))),
            Call::Move { pointer, .. } => add(&mut self.moves, &MOVES, &looked(empty(pointer))),
            _ => {}
        }
        if let Some(walk) = WALKERS.iter().position(|&name| name == call.kind().name) {
            add(&mut self.walks[walk], &WALKS, &looked(None));
        }
    }

    /// Each thing that is counted, and how often it occurred.
    pub fn all(&self) -> impl Iterator<Item = (String, u64)> + '_ {
        let groups: [(&str, &[Row], &[u64]); 7] = [
            ("allocate", &ALLOCATES, &self.allocates),
            ("allocate for", &ALLOCATES, &self.allocates_for),
            ("free", &FREES, &self.frees),
            ("release", &RELEASES, &self.releases),
            ("tally", &TALLIES, &self.tallies),
            ("distances", &DISTANCES, &self.distances),
            ("move", &MOVES, &self.moves),
        ];
        let accesses = OPERANDS.iter().zip(&self.accesses).map(|(&of, counts)| (of, &ACCESSES[..], &counts[..]));
        let walks = WALKERS.iter().zip(&self.walks).map(|(&of, counts)| (of, &WALKS[..], &counts[..]));
        let rows = groups.into_iter().chain(accesses).chain(walks);
        let rows = rows.flat_map(|(of, rows, counts)| rows.iter().zip(counts).map(move |((what, _), &count)| (format!("{of} {what}"), count)));
        rows.chain(SIXES.into_iter().zip(self.sixes).map(|(place, count)| (format!("{} 6", OPERANDS[place]), count)))
    }
}

fn add(counts: &mut [u64], rows: &[Row], looked: &Looked<'_>) {
    counts.iter_mut().zip(rows).for_each(|(count, (_, met))| *count += u64::from(met(looked)));
}

/// How many bytes a call asks for through an operand: of a text its first, and all of it with its zero byte at the target.
fn asked(image: &[u8], call: &Call<u64>, place: usize) -> u64 {
    match *call {
        Call::Load { width, .. } | Call::Store { width, .. } => width,
        Call::Fill { length, .. } | Call::Copy { length, .. } | Call::Compare { length, .. } => length.into(),
        Call::CopyText { source, .. } if place == 8 => {
            let text = image.get(Pointer::unpack(source).address as usize..).and_then(|rest| rest.split_inclusive(|&byte| byte == 0).next());
            text.map_or(1, |text| text.len() as u64)
        }
        _ => 1,
    }
}

/// Whose 13 it is.
fn first_outside(image: &[u8], table: &[u64], call: &Call<u64>) -> Option<usize> {
    let inside = |(place, pointer)| {
        model::distances(image, table, pointer).is_ok_and(|[from_start, to_end]| from_start >= 0 && to_end >= asked(image, call, place) as i64)
    };
    operands(call).into_iter().flatten().find(|&operand| !inside(operand)).map(|operand| operand.0)
}

//! Two frees of live objects, or two releases, after a random history: accepted with the same answers whichever goes first, and the dumps
//! of image and table are equal byte by byte.

use crate::case::Run;
use crate::counts::Counts;
use crate::driver::play;
use crate::generate::Generator;
use crate::model::{self, Header, Pointer, HEADER};
use crate::random::Random;
use crate::store::{Answer, Call, Store};
use std::fmt;

/// Steps of a history between two looks at it, in the mean.
const STEPS: u64 = 8;
/// Pairs of objects and of cues that are tried at each look.
const PAIRS: usize = 4;

/// Image and table, what is not lent included.
#[derive(Clone)]
struct Dump {
    image: Vec<u8>,
    table: Vec<u64>,
    lent_image: usize,
    lent_table: usize,
}

impl Dump {
    fn call(&mut self, store: &impl Store, call: Call<u64>) -> Answer {
        store.call(&mut self.image[..self.lent_image], &mut self.table[..self.lent_table], call)
    }

    /// What both calls leave, and their answers.
    fn after(&self, store: &impl Store, calls: [Call<u64>; 2]) -> (Dump, [Answer; 2]) {
        let mut dump = self.clone();
        let answers = calls.map(|call| dump.call(store, call));
        (dump, answers)
    }
}

/// What differs between the two orders, or is refused.
fn difference(store: &impl Store, dump: &Dump, a: Call<u64>, b: Call<u64>) -> Option<String> {
    let (one, [a_first, b_second]) = dump.after(store, [a, b]);
    let (other, [b_first, a_second]) = dump.after(store, [b, a]);
    for (call, first, second) in [(a, a_first, a_second), (b, b_first, b_second)] {
        if !first.accepted() || first != second {
            return Some(format!("{call}: {first} as the first call, {second} as the second"));
        }
    }
    let orders = format!("{a}; {b}; and the other way round");
    if let Some(at) = (0..one.image.len()).find(|&i| one.image[i] != other.image[i]) {
        return Some(format!("{orders}: image byte {at} is {:#04x}, {:#04x}", one.image[at], other.image[at]));
    }
    let at = (0..one.table.len()).find(|&i| one.table[i] != other.table[i])?;
    Some(format!("{orders}: table entry {at} is {:#x}, {:#x}", one.table[at], other.table[at]))
}

/// Whether the object with its header at h is small-framed.
fn is_small(image: &[u8], (h, header): (u64, Header)) -> bool {
    Pointer::to(image[6].into(), h, header.size.into()).small
}

/// Two objects, as places in the list of blocks, the lower one first.
pub struct TwoObjects<'a> {
    image: &'a [u8],
    blocks: &'a [(u64, Header)],
    at: [usize; 2],
}

impl TwoObjects<'_> {
    fn headers(&self) -> [Header; 2] {
        self.at.map(|i| self.blocks[i].1)
    }

    fn small(&self) -> [bool; 2] {
        self.at.map(|i| is_small(self.image, self.blocks[i]))
    }

    fn is_free(&self, i: usize) -> bool {
        self.blocks.get(i).is_some_and(|(_, header)| header.is_free())
    }

    fn written(&self, i: usize) -> bool {
        let (h, header) = self.blocks[i];
        self.image[(h + HEADER) as usize..][..header.size as usize].iter().any(|&byte| byte != 0)
    }
}

/// Two cues, and the list of blocks.
pub struct TwoCues<'a> {
    image: &'a [u8],
    blocks: &'a [(u64, Header)],
    cues: [u32; 2],
}

impl TwoCues<'_> {
    fn with_objects(&self) -> usize {
        self.cues.iter().filter(|&&cue| self.blocks.iter().any(|(_, header)| header.carries(cue))).count()
    }

    /// A large-framed object of each.
    fn with_entries(&self) -> bool {
        self.cues.iter().all(|&cue| self.blocks.iter().any(|&(h, header)| header.carries(cue) && !is_small(self.image, (h, header))))
    }

    /// An object of the one, somewhere between two of the other.
    fn interleaved(&self) -> bool {
        let [c, d] = self.cues;
        let both = self.blocks.iter().filter(|(_, header)| header.carries(c) || header.carries(d));
        let mut turns: Vec<bool> = both.map(|(_, header)| header.carries(c)).collect();
        turns.dedup();
        turns.len() > 2
    }

    /// Live blocks of both cues with so many free blocks between them.
    fn side_by_side(&self, free: usize) -> bool {
        let [c, d] = self.cues;
        self.blocks.windows(free + 2).any(|window| {
            let (first, last) = (window[0].1, window[free + 1].1);
            let between = window[1..=free].iter().all(|(_, header)| header.is_free());
            between && (first.carries(c) && last.carries(d) || first.carries(d) && last.carries(c))
        })
    }
}

/// A kind of pair, and whether a pair is of it.
type ObjectKind = (&'static str, fn(&TwoObjects<'_>) -> bool);
type CueKind = (&'static str, fn(&TwoCues<'_>) -> bool);

pub const OBJECTS: [ObjectKind; 13] = [
    ("neighbours", |pair| pair.at[0] + 1 == pair.at[1]),
    ("a free block between them", |pair| pair.at[0] + 2 == pair.at[1] && pair.is_free(pair.at[0] + 1)),
    ("a live block between them", |pair| (pair.at[0] + 1..pair.at[1]).any(|i| !pair.is_free(i))),
    ("a free block before the first", |pair| pair.at[0] > 0 && pair.is_free(pair.at[0] - 1)),
    ("a free block behind the second", |pair| pair.is_free(pair.at[1] + 1)),
    ("neighbours between two free blocks", |pair| {
        pair.at[0] > 0 && pair.is_free(pair.at[0] - 1) && pair.at[0] + 1 == pair.at[1] && pair.is_free(pair.at[1] + 1)
    }),
    ("the second ends the image", |pair| pair.at[1] + 1 == pair.blocks.len()),
    ("both small-framed", |pair| pair.small() == [true; 2]),
    ("both large-framed", |pair| pair.small() == [false; 2]),
    ("one of each", |pair| pair.small()[0] != pair.small()[1]),
    ("one of no bytes", |pair| pair.headers().iter().any(|header| header.size == 0)),
    ("spare bytes", |pair| pair.headers().iter().any(|header| u64::from(header.extent) > HEADER + u64::from(header.size))),
    ("bytes in both bodies", |pair| pair.at.iter().all(|&i| pair.written(i))),
];

pub const CUES: [CueKind; 10] = [
    ("objects of both", |pair| pair.with_objects() == 2),
    ("objects of one", |pair| pair.with_objects() == 1),
    ("objects of neither", |pair| pair.with_objects() == 0),
    ("cue 0", |pair| pair.cues.contains(&0)),
    ("cue 2^32 - 1", |pair| pair.cues.contains(&u32::MAX)),
    ("two other cues with objects", |pair| pair.with_objects() == 2 && pair.cues.iter().all(|cue| ![0, u32::MAX].contains(cue))),
    ("neighbours, one of each", |pair| pair.side_by_side(0)),
    ("one of each around a free block", |pair| pair.side_by_side(1)),
    ("one between two of the other", |pair| pair.interleaved()),
    ("large-framed objects of both", |pair| pair.with_entries()),
];

/// How many pairs were tried, and how many of each kind.
#[derive(Clone, Debug, Default)]
pub struct Tried {
    pub pairs: [u64; 2],
    pub objects: [u64; OBJECTS.len()],
    pub cues: [u64; CUES.len()],
}

impl Tried {
    /// The kinds of which fewer pairs were tried.
    pub fn under(&self, least: u64) -> Vec<&'static str> {
        let objects = OBJECTS.iter().map(|(name, _)| *name).zip(self.objects);
        let cues = CUES.iter().map(|(name, _)| *name).zip(self.cues);
        objects.chain(cues).filter(|&(_, count)| count < least).map(|(name, _)| name).collect()
    }
}

impl fmt::Display for Tried {
    fn fmt(&self, f: &mut fmt::Formatter<'_>) -> fmt::Result {
        write!(f, "{} pairs of objects", self.pairs[0])?;
        OBJECTS.iter().zip(self.objects).try_for_each(|((name, _), count)| write!(f, "; {name} {count}"))?;
        write!(f, "\n{} pairs of cues", self.pairs[1])?;
        CUES.iter().zip(self.cues).try_for_each(|((name, _), count)| write!(f, "; {name} {count}"))
    }
}

/// Tries pairs of a history that has begun, in both orders.
fn look<A: Store, B: Store>(run: &Run<'_, A, B>, store: &impl Store, random: &mut Random, tried: &mut Tried) -> Result<(), String> {
    let ((image, table), (lent_image, lent_table)) = (run.buffers(), run.lent());
    let dump = Dump { image: image.to_vec(), table: table.to_vec(), lent_image, lent_table };
    let blocks: Vec<(u64, Header)> = model::blocks(&dump.image[..lent_image]).collect();
    let heap: Vec<(u64, (u64, u32))> = run.heap().iter().map(|(&base, &object)| (base, object)).collect();
    let pairs = if heap.len() < 2 { 0 } else { PAIRS };
    for _ in 0..pairs {
        let i = random.below(heap.len() as u64 - 1) as usize;
        let j = if random.percent(50) { i + 1 } else { random.within(i as u64 + 1, heap.len() as u64 - 1) as usize };
        let at = [i, j].map(|i| blocks.iter().position(|&(h, _)| h + HEADER == heap[i].0).expect("a live object's block is on the walk"));
        let [a, b] = [i, j].map(|i| Call::Free { pointer: heap[i].1 .0 });
        if let Some(what) = difference(store, &dump, a, b) {
            return Err(what);
        }
        tried.pairs[0] += 1;
        let pair = TwoObjects { image: &dump.image, blocks: &blocks, at };
        tried.objects.iter_mut().zip(OBJECTS).for_each(|(count, (_, is_of_it))| *count += u64::from(is_of_it(&pair)));
    }
    for _ in 0..PAIRS {
        let mut cue = || match random.below(10) {
            0 => random.word() as u32,
            1 => random.pick(&[0, u32::MAX]),
            _ if heap.is_empty() => 0,
            _ => random.pick(&heap).1 .1,
        };
        let cues = [cue(), cue()];
        if cues[0] == cues[1] {
            continue;
        }
        let [a, b] = cues.map(|cue| Call::Release { cue });
        if let Some(what) = difference(store, &dump, a, b) {
            return Err(what);
        }
        tried.pairs[1] += 1;
        let pair = TwoCues { image: &dump.image, blocks: &blocks, cues };
        tried.cues.iter_mut().zip(CUES).for_each(|(count, (_, is_of_it))| *count += u64::from(is_of_it(&pair)));
    }
    Ok(())
}

/// Random histories of the seeds from `seed` on, made by one store, and pairs of calls of another on what they leave.
pub fn either_order(history: &impl Store, store: &impl Store, histories: usize, seed: u64) -> Result<Tried, String> {
    let mut tried = Tried::default();
    let seeds = (0..).map(|n| seed.wrapping_add(n)).filter(|&seed| Generator::new(seed).buffers().history);
    for seed in seeds.take(histories) {
        // other numbers than the generator's
        let mut random = Random::new(seed ^ u64::MAX);
        let mut found = Ok(());
        let played = play(history, history, seed, &mut Counts::default(), |run| {
            if found.is_ok() && random.below(STEPS) == 0 {
                found = look(run, store, &mut random, &mut tried);
            }
        });
        played.map_err(|_| format!("the history of seed {seed} fails by itself"))?;
        found.map_err(|what| format!("history of seed {seed}: {what}"))?;
    }
    Ok(tried)
}

//! A case: two buffers, and a list of steps on them. It is run on two stores at once, each with buffers of its own.

use crate::counts::Counts;
use crate::distances;
use crate::model::{self, Header, Pointer};
use crate::random::Random;
use crate::store::{Access, Answer, Call, Store};
use crate::totals;
use std::collections::{BTreeMap, HashMap};
use std::fmt;

/// Where a step takes a number from. Steps are named by their number in the list as it was generated, so that a
/// list with steps taken out still means something: the answer of a step that is gone, or was refused, is 0.
#[derive(Clone, Copy, Debug, PartialEq, Eq)]
pub enum Arg {
    Number(u64),
    /// An earlier step's answer, with its address moved and then bits flipped.
    Answer {
        step: u32,
        add: i64,
        flip: u64,
    },
    /// The pointer that allocate would give for a header this far behind an earlier answer's address.
    Header {
        step: u32,
        offset: u64,
        size: u32,
    },
}

impl Arg {
    pub fn of(step: u32) -> Arg {
        Arg::Answer { step, add: 0, flip: 0 }
    }
}

/// What is written behind the store's back.
#[derive(Clone, Copy, Debug, PartialEq, Eq)]
pub enum Damage {
    /// Bytes of the image from the argument's address on.
    Image { at: Arg, bytes: [u8; 16], count: usize },
    /// One entry.
    Entry { index: u64, value: u64 },
    /// The entry of a large-framed pointer; without a value, the place 16 bytes before its address.
    EntryOf { of: Arg, value: Option<u64> },
    /// The free total: one of these and so much more, in 32 bits.
    Total { of: Total, more: i64 },
}

/// A free total. What it comes to is found when the step is taken.
#[derive(Clone, Copy, Debug, PartialEq, Eq)]
pub enum Total {
    /// This many bytes.
    Bytes(u32),
    /// As it stands.
    Stored,
    /// What the blocks make it.
    Blocks,
    /// All bytes behind the superblock.
    All,
    /// The last one that row 22 lets pass for this call.
    Limit(Call<Arg>),
}

#[derive(Clone, Copy, Debug, PartialEq, Eq)]
pub enum Action {
    Call(Call<Arg>),
    Damage(Damage),
    /// From here on the calls get slices of these lengths.
    Lend {
        image: usize,
        table: usize,
    },
}

#[derive(Clone, Copy, Debug, PartialEq, Eq)]
pub struct Step {
    pub number: u32,
    pub action: Action,
}

/// The buffers, with their content before the first step: random from `content`.
#[derive(Clone, Copy, Debug)]
pub struct Buffers {
    pub image: usize,
    pub table: usize,
    pub lent_image: usize,
    pub lent_table: usize,
    pub content: u64,
    /// A history begun by set-up, on which 9 and 22 never occur, tally is accepted, the free total is its free bytes, release takes
    /// out the heap's objects, and allocate is accepted where there is room, with a pointer that leads to no other object.
    pub history: bool,
}

#[derive(Clone, Debug)]
pub struct Case {
    pub buffers: Buffers,
    pub steps: Vec<Step>,
}

/// How the two stores differ, or how the expected one breaks a promise of its own.
#[derive(Clone, Debug)]
pub enum Mismatch {
    Answer { expected: Answer, got: Answer },
    Image { at: usize, expected: u8, got: u8 },
    Table { at: usize, expected: u64, got: u64 },
    NotItsRow { store: &'static str, call: &'static str, refusal: u32 },
    ReadOrRefusalWrote,
    EntryTakenInHistory,
    WrongTotalInHistory,
    TallyRefusedInHistory,
    NotTheTallys,
    Unbalanced,
    NotNegated,
    NotTheText,
    NotTheHeaps,
    NotOfABody,
    NotByDistances,
    NotByRoom,
    NotItsOwn,
}

impl fmt::Display for Mismatch {
    fn fmt(&self, f: &mut fmt::Formatter<'_>) -> fmt::Result {
        match self {
            Mismatch::Answer { expected, got } => write!(f, "answer: expected {expected}; got {got}"),
            Mismatch::Image { at, expected, got } => write!(f, "image byte {at}: expected {expected:#04x}, got {got:#04x}"),
            Mismatch::Table { at, expected, got } => write!(f, "table entry {at}: expected {expected:#x}, got {got:#x}"),
            Mismatch::NotItsRow { store, call, refusal } => write!(f, "the {store} store answered {refusal}, which is no row of {call}"),
            Mismatch::ReadOrRefusalWrote => write!(f, "the expected store wrote something although it refused, or only reads"),
            Mismatch::EntryTakenInHistory => write!(f, "the expected store answered 9 on a history begun by set-up"),
            Mismatch::WrongTotalInHistory => write!(f, "the expected store answered 22 on a history begun by set-up"),
            Mismatch::NotTheTallys => write!(f, "the expected store's free total is not its tally's free bytes on a history begun by set-up"),
            Mismatch::TallyRefusedInHistory => write!(f, "the expected store refused a tally on a history begun by set-up"),
            Mismatch::Unbalanced => write!(f, "the expected store's live, free and overhead bytes are not all bytes behind the superblock"),
            Mismatch::NotNegated => write!(f, "the expected store's order is not negated when the operands are swapped"),
            Mismatch::NotTheText => write!(f, "the expected store wrote something else than the source's bytes up to the first zero byte"),
            Mismatch::NotTheHeaps => write!(f, "the expected store's release is not the single frees of the heap's objects of its cue"),
            Mismatch::NotOfABody => write!(f, "the expected store's distances are not those from a live header's body, of their sum as size"),
            Mismatch::NotByDistances => write!(f, "the expected store's answer is not what the distances of its pointers say"),
            Mismatch::NotByRoom => write!(f, "the expected store answered 8 although a run of free bytes is long enough, or accepted although none is"),
            Mismatch::NotItsOwn => write!(f, "the expected store gave a pointer that another live object has"),
        }
    }
}

/// The slot exponent of the last accepted set-up, and the pointers that steps gave.
pub struct Answers {
    slot_exponent: u32,
    pointers: HashMap<u32, u64>,
}

impl Answers {
    pub fn resolve(&self, arg: Arg) -> u64 {
        let answer = |step| self.pointers.get(&step).copied().unwrap_or(0);
        match arg {
            Arg::Number(number) => number,
            Arg::Answer { step, add, flip } => {
                let p = Pointer::unpack(answer(step));
                Pointer { address: p.address.wrapping_add(add as u64) & 0xffff_ffff_ffff, ..p }.pack() ^ flip
            }
            Arg::Header { step, offset, size } => {
                let h = Pointer::unpack(answer(step)).address + offset;
                Pointer::to(self.slot_exponent, h, u64::from(size)).pack()
            }
        }
    }
}

/// What the next step may depend on: the image that calls get, as the expected store left it, and its answers.
pub struct View<'a> {
    pub image: &'a [u8],
    pub answers: &'a Answers,
}

struct Side<'a, S> {
    store: &'a S,
    image: Vec<u8>,
    table: Vec<u64>,
}

/// A case as it runs.
pub struct Run<'a, A, B> {
    expected: Side<'a, A>,
    tested: Side<'a, B>,
    // the expected side before the call
    before: (Vec<u8>, Vec<u64>),
    lent_image: usize,
    lent_table: usize,
    history: bool,
    /// The history has begun: its set-up was accepted, and not taken out of the list.
    begun: bool,
    /// The live objects of a begun history by address: allocate's answer and the cue.
    heap: BTreeMap<u64, (u64, u32)>,
    answers: Answers,
}

impl<'a, A: Store, B: Store> Run<'a, A, B> {
    pub fn new(expected: &'a A, tested: &'a B, buffers: &Buffers) -> Self {
        let mut random = Random::new(buffers.content);
        let mut image = vec![0u8; buffers.image];
        for chunk in image.chunks_mut(8) {
            chunk.copy_from_slice(&random.word().to_le_bytes()[..chunk.len()]);
        }
        let table: Vec<u64> = (0..buffers.table).map(|_| random.word()).collect();
        Run {
            before: (image.clone(), table.clone()),
            tested: Side { store: tested, image: image.clone(), table: table.clone() },
            expected: Side { store: expected, image, table },
            lent_image: buffers.lent_image,
            lent_table: buffers.lent_table,
            history: buffers.history,
            begun: false,
            heap: BTreeMap::new(),
            answers: Answers { slot_exponent: 6, pointers: HashMap::new() },
        }
    }

    pub fn view(&self) -> View<'_> {
        View { image: &self.expected.image[..self.lent_image], answers: &self.answers }
    }

    pub fn resolve(&self, arg: Arg) -> u64 {
        self.answers.resolve(arg)
    }

    /// The tested store's image and table, what is not lent included.
    pub fn buffers(&self) -> (&[u8], &[u64]) {
        (&self.tested.image, &self.tested.table)
    }

    /// How much of them is lent.
    pub fn lent(&self) -> (usize, usize) {
        (self.lent_image, self.lent_table)
    }

    /// The live objects of a begun history by address: allocate's answer and the cue.
    pub fn heap(&self) -> &BTreeMap<u64, (u64, u32)> {
        &self.heap
    }

    /// Takes one step on both sides; `Ok` has the answer where the step is a call.
    pub fn step(&mut self, step: &Step, counts: &mut Counts) -> Result<Option<Answer>, Mismatch> {
        match step.action {
            Action::Lend { image, table } => {
                self.lent_image = image.min(self.expected.image.len());
                self.lent_table = table.min(self.expected.table.len());
                Ok(None)
            }
            Action::Damage(damage) => {
                self.damage(damage);
                Ok(None)
            }
            Action::Call(call) => self.call(step.number, call.map(|arg| self.resolve(arg)), counts).map(Some),
        }
    }

    fn damage(&mut self, damage: Damage) {
        match damage {
            Damage::Image { at, bytes, count } => {
                let at = (self.resolve(at) & 0xffff_ffff_ffff) as usize;
                let end = at.saturating_add(count).min(self.before.0.len());
                if at < end {
                    for image in [&mut self.expected.image, &mut self.tested.image, &mut self.before.0] {
                        image[at..end].copy_from_slice(&bytes[..end - at]);
                    }
                }
            }
            Damage::Entry { index, value } => self.set_entry(index, value),
            Damage::EntryOf { of, value } => {
                let p = Pointer::unpack(self.resolve(of));
                let s = self.answers.slot_exponent;
                if !p.small && u64::from(s) < p.tag && p.tag <= 31 {
                    self.set_entry(model::entry(s, p.tag as u32, p.address), value.unwrap_or(p.address.wrapping_sub(16)));
                }
            }
            Damage::Total { of, more } => {
                if let Some(total) = self.total(of) {
                    for image in [&mut self.expected.image, &mut self.tested.image, &mut self.before.0] {
                        model::set_total(image, total.wrapping_add(more as u64));
                    }
                }
            }
        }
    }

    fn total(&self, total: Total) -> Option<u64> {
        let image = &self.before.0[..self.lent_image];
        match total {
            Total::Bytes(bytes) => Some(bytes.into()),
            Total::Stored => Some(model::total(&self.before.0)),
            Total::Blocks => Some(totals::of_blocks(image)),
            Total::All => Some((image.len() as u64).saturating_sub(model::SUPERBLOCK)),
            Total::Limit(call) => totals::limit(image, &call.map(|arg| self.resolve(arg))),
        }
    }

    fn set_entry(&mut self, index: u64, value: u64) {
        if index < self.before.1.len() as u64 {
            for table in [&mut self.expected.table, &mut self.tested.table, &mut self.before.1] {
                table[index as usize] = value;
            }
        }
    }

    fn call(&mut self, number: u32, call: Call<u64>, counts: &mut Counts) -> Result<Answer, Mismatch> {
        let (n, m) = (self.lent_image, self.lent_table);
        let (e, t) = (&mut self.expected, &mut self.tested);
        let expected = e.store.call(&mut e.image[..n], &mut e.table[..m], call);
        let got = t.store.call(&mut t.image[..n], &mut t.table[..m], call);
        let kind = call.kind();
        for (store, Answer { refusal, .. }) in [("expected", expected), ("tested", got)] {
            if refusal != 0 && !kind.rows.contains(&refusal) {
                return Err(Mismatch::NotItsRow { store, call: kind.name, refusal });
            }
        }
        counts.add(&call, &expected);
        counts.seen.look(&self.before.0[..n], &self.before.1[..m], &call, &expected);
        if expected != got {
            return Err(Mismatch::Answer { expected, got });
        }
        // whole buffers, what was not lent included
        if e.image != t.image {
            let at = (0..e.image.len()).find(|&i| e.image[i] != t.image[i]).unwrap();
            return Err(Mismatch::Image { at, expected: e.image[at], got: t.image[at] });
        }
        if e.table != t.table {
            let at = (0..e.table.len()).find(|&i| e.table[i] != t.table[i]).unwrap();
            return Err(Mismatch::Table { at, expected: e.table[at], got: t.table[at] });
        }
        match call {
            Call::Compare { left, right, length } if expected.accepted() => {
                let swapped = e.store.call(&mut e.image[..n], &mut e.table[..m], Call::Compare { left: right, right: left, length });
                if swapped != Answer::new(0, [expected.values[0].wrapping_neg()]) {
                    return Err(Mismatch::NotNegated);
                }
            }
            Call::CopyText { target, source } if expected.accepted() => {
                let [to, from] = [target, source].map(|pointer| Pointer::unpack(pointer).address as usize);
                let text = self.before.0.get(from..).and_then(|rest| rest.split_inclusive(|&byte| byte == 0).next());
                let written = e.image.get(to..).and_then(|rest| rest.get(..expected.values[0] as usize));
                if text.is_none() || text != written {
                    return Err(Mismatch::NotTheText);
                }
            }
            Call::Distances { pointer } if expected.accepted() && !distances::are_of_a_body(&e.image[..n], pointer, &expected) => {
                return Err(Mismatch::NotOfABody);
            }
            _ => {}
        }
        // a new object is not there before
        let asked = if matches!(call, Call::Allocate { .. } | Call::AllocateFor { .. }) {
            (&mut e.image, &mut e.table)
        } else {
            (&mut self.before.0, &mut self.before.1)
        };
        if !distances::agree(e.store, &mut asked.0[..n], &mut asked.1[..m], call, &expected) {
            return Err(Mismatch::NotByDistances);
        }
        if let (true, Call::Allocate { size, .. } | Call::AllocateFor { size, .. }) = (self.begun, call) {
            if [0, 8].contains(&expected.refusal) && expected.accepted() != (self.longest_run() >= model::HEADER + u64::from(size)) {
                return Err(Mismatch::NotByRoom);
            }
            if expected.accepted() && !self.is_its_own(expected.values[0]) {
                return Err(Mismatch::NotItsOwn);
            }
        }
        if self.begun && !self.hear(call, &expected) {
            return Err(Mismatch::NotTheHeaps);
        }
        let e = &self.expected;
        if expected.accepted() && kind.access == Access::Writes {
            self.before.0.copy_from_slice(&e.image);
            self.before.1.copy_from_slice(&e.table);
        } else if self.before.0 != e.image || self.before.1 != e.table {
            return Err(Mismatch::ReadOrRefusalWrote);
        }
        if self.begun && expected.refusal == 9 {
            return Err(Mismatch::EntryTakenInHistory);
        }
        if self.begun && expected.refusal == 22 {
            return Err(Mismatch::WrongTotalInHistory);
        }
        if call == Call::Tally {
            if self.begun && !expected.accepted() {
                return Err(Mismatch::TallyRefusedInHistory);
            }
            let [_, live, free, overhead] = expected.values;
            if expected.accepted() && live + free + overhead != n as u64 - 16 {
                return Err(Mismatch::Unbalanced);
            }
        }
        if expected.accepted() {
            if let Call::SetUp { slot_exponent } = call {
                self.answers.slot_exponent = slot_exponent;
                self.begun = self.history;
                self.heap.clear();
            }
            if matches!(call, Call::Allocate { .. } | Call::AllocateFor { .. } | Call::Move { .. }) {
                self.answers.pointers.insert(number, expected.values[0]);
            }
        }
        if self.begun && expected.accepted() && kind.access == Access::Writes && !self.is_the_tallys() {
            return Err(Mismatch::NotTheTallys);
        }
        Ok(expected)
    }

    /// Whether the free total is the tally's free bytes, where a tally is accepted.
    fn is_the_tallys(&mut self) -> bool {
        let side = &mut self.expected;
        let mut call = |call| side.store.call(&mut side.image[..self.lent_image], &mut side.table[..self.lent_table], call);
        let (total, tally) = (call(Call::FreeTotal), call(Call::Tally));
        !tally.accepted() || total == Answer::new(0, [tally.values[2]])
    }

    /// The most bytes side by side outside superblock and live extents, before the call.
    fn longest_run(&self) -> u64 {
        let image = &self.before.0[..self.lent_image];
        let (mut end, mut longest) = (model::SUPERBLOCK, 0);
        for h in self.heap.keys().filter(|&&base| base <= image.len() as u64).filter_map(|base| base.checked_sub(model::HEADER)) {
            longest = longest.max(h.saturating_sub(end));
            end = h + u64::from(Header::read(image, h).extent);
        }
        longest.max((image.len() as u64).saturating_sub(end))
    }

    /// Whether no live object has this pointer. One with a live object's tag in its slot or frame is at that object's base, by its
    /// distances, and so the same.
    fn is_its_own(&self, pointer: u64) -> bool {
        self.heap.values().all(|object| object.0 != pointer)
    }

    /// Keeps the heap; whether a release is accepted and has done what single frees of the heap's objects do.
    fn hear(&mut self, call: Call<u64>, answer: &Answer) -> bool {
        match call {
            Call::Allocate { .. } if answer.accepted() => self.add(answer.values[0], 0),
            Call::AllocateFor { cue, .. } if answer.accepted() => self.add(answer.values[0], cue),
            Call::Free { pointer } => {
                let place = Pointer::unpack(pointer).address;
                if self.heap.get(&place).is_some_and(|object| object.0 == pointer) {
                    self.heap.remove(&place);
                }
            }
            Call::Release { cue } => {
                let (mut image, mut table) = self.before.clone();
                let mut free = |pointer| self.expected.store.call(&mut image[..self.lent_image], &mut table[..self.lent_table], Call::Free { pointer });
                let objects: Vec<u64> = self.heap.values().filter(|object| object.1 == cue).map(|object| object.0).collect();
                self.heap.retain(|_, object| object.1 != cue);
                let freed = objects.iter().all(|&pointer| free(pointer).accepted());
                return freed && *answer == Answer::new(0, [objects.len() as u64]) && image == self.expected.image && table == self.expected.table;
            }
            _ => {}
        }
        true
    }

    fn add(&mut self, pointer: u64, cue: u32) {
        self.heap.insert(Pointer::unpack(pointer).address, (pointer, cue));
    }
}

impl Case {
    /// Runs the whole list; the first step that fails, with how.
    pub fn run(&self, expected: &impl Store, tested: &impl Store) -> Result<(), (usize, Mismatch)> {
        let mut run = Run::new(expected, tested, &self.buffers);
        let mut counts = Counts::default();
        for (i, step) in self.steps.iter().enumerate() {
            run.step(step, &mut counts).map_err(|mismatch| (i, mismatch))?;
        }
        Ok(())
    }

    /// The list with its numbers, one line for each step, and the mismatch at its end.
    pub fn describe(&self, expected: &impl Store, tested: &impl Store) -> String {
        let mut text = format!("image of {} bytes, table of {} entries\n", self.buffers.lent_image, self.buffers.lent_table);
        let mut run = Run::new(expected, tested, &self.buffers);
        let mut counts = Counts::default();
        for step in &self.steps {
            let shown = match step.action {
                Action::Call(call) => call.map(|arg| run.resolve(arg)).to_string(),
                Action::Damage(Damage::Image { at, bytes, count }) => {
                    format!("damage: image from {} on: {:02x?}", run.resolve(at) & 0xffff_ffff_ffff, &bytes[..count])
                }
                Action::Damage(Damage::Entry { index, value }) => format!("damage: entry {index} = {value:#x}"),
                Action::Damage(Damage::EntryOf { of, value }) => format!("damage: entry of {:#x} = {value:x?}", run.resolve(of)),
                Action::Damage(Damage::Total { of, more }) => {
                    let total = run.total(of).map(|total| total.wrapping_add(more as u64) as u32);
                    format!("damage: free total = {}", total.map_or("as it is".to_string(), |total| total.to_string()))
                }
                Action::Lend { image, table } => format!("lend {image} bytes, {table} entries"),
            };
            let result = match run.step(step, &mut counts) {
                Ok(None) => String::new(),
                Ok(Some(answer)) => format!(" -> {answer}"),
                Err(mismatch) => format!(" -> MISMATCH, {mismatch}"),
            };
            text += &format!("  {:>4}  {shown}{result}\n", step.number);
        }
        text
    }
}

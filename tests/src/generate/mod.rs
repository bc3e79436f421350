//! Random cases. What is generated depends on the seed and on the expected store's answers, never on the tested store's.
//!
//! Here are the case, its buffers and its book of objects; `calls` makes one call, `texts` those of texts, `cues` those of
//! cues with damages for them, `totals` free totals, `distances` those of pointers with damages for them, `empties` objects of no
//! bytes with damages for them, `pointers` the pointers, `forge` headers inside bodies, `misuse` wrong slices and set-ups, `damage`
//! what is written behind the store's back; `log` makes a list of calls alone, `blocks` an image of many blocks, `traffic` runs of the
//! repeatable load.

pub mod blocks;
mod calls;
mod cues;
mod damage;
mod distances;
mod empties;
mod forge;
pub mod log;
mod misuse;
mod pointers;
mod texts;
mod totals;
pub mod traffic;

use crate::case::{Action, Arg, Buffers, Step, View};
use crate::model;
use crate::random::Random;
use crate::store::{Answer, Call};
use std::collections::VecDeque;

/// What a case may do.
#[derive(Clone, Copy, Debug, PartialEq, Eq)]
enum Mode {
    /// A history begun by set-up: store, fill, copy and text copy get only pointers of live objects.
    History,
    /// Any pointer for any call, slices and tables of wrong length, set-up again.
    Hostile,
    /// The same, with image and table damaged in between.
    Damaged,
    /// Any pointer for any call, on one store that nobody else writes.
    Log,
}

const MODES: [(u64, Mode); 3] = [(40, Mode::History), (30, Mode::Hostile), (30, Mode::Damaged)];

/// Queues one or more steps.
type Make = fn(&mut Generator, &View<'_>);

/// The mix: how often in a case's ordinary course, and how often on wrong slices or damaged bytes.
const MIX: [(u64, u64, Make); 16] = [
    (24, 1, Generator::allocate),
    (9, 1, Generator::allocate_for),
    (12, 1, Generator::free),
    (2, 1, Generator::release),
    (12, 1, Generator::move_pointer),
    (12, 1, Generator::load),
    (14, 1, Generator::store),
    (6, 1, Generator::fill),
    (5, 1, Generator::copy),
    (4, 1, Generator::compare),
    (4, 1, Generator::copy_text),
    (2, 1, Generator::tally),
    (4, 1, Generator::free_total),
    (4, 0, Generator::forge),
    (8, 1, Generator::distances),
    (6, 1, Generator::empties),
];

/// An object as document 01's book keeps it; dead ones are kept for stale pointers.
struct Object {
    size: u32,
    cue: u32,
    live: bool,
    /// The steps that gave its pointers, and the pointers. The first is allocate's.
    pointers: Vec<(u32, u64)>,
}

const KEPT_POINTERS: usize = 12;
const KEPT_OBJECTS: usize = 300;

pub struct Generator {
    random: Random,
    mode: Mode,
    buffers: Buffers,
    slot_exponent: u32,
    /// The cues of most objects.
    cues: [u32; 3],
    objects: Vec<Object>,
    queue: VecDeque<Step>,
    next_number: u32,
    steps_left: u32,
}

/// A length around a power of two, or any in a range, and the most steps on it.
fn length_and_steps(random: &mut Random, scale: u64) -> (u64, u64) {
    let off = |random: &mut Random| random.pick(&[0, 0, 0, 1, 2, 15, 16, 17, 31]);
    let around = |random: &mut Random, low, high| (1u64 << random.within(low, high)) + off(random) - off(random);
    match scale {
        0..250 => (random.within(64, 200), 100),
        250..600 => (around(random, 7, 12), 150),
        600..975 => (random.within(64, 4096), 150),
        975..998 => (random.within(4096, 1 << 16), 400),
        998 => (around(random, 16, 21), 60),
        _ => (random.within(1 << 16, 3 << 20), 40),
    }
}

impl Generator {
    pub fn new(seed: u64) -> Generator {
        let mut random = Random::new(seed);
        let mode = random.weighted(&MODES);
        let scale = random.below(1000);
        let (length, steps) = length_and_steps(&mut random, scale);
        let slot_exponent = match scale {
            998.. => random.within(9, 15),
            _ if random.percent(60) => random.within(6, 8),
            _ => random.within(6, 15),
        } as u32;
        let steps = if mode == Mode::Damaged { steps / 2 } else { steps };
        let used = model::used_entries(slot_exponent, length);
        // beyond what is lent there are bytes and entries that no call may touch
        let buffers = Buffers {
            image: length as usize + 24,
            table: used as usize + 56,
            lent_image: length as usize,
            lent_table: (used + random.pick(&[0, 0, 0, 1, 48])) as usize,
            content: random.word(),
            history: mode == Mode::History,
        };
        let steps_left = random.within(steps / 3, steps) as u32;
        let cues = random.pick(&cues::FAMILIES);
        let (objects, queue) = (Vec::new(), VecDeque::new());
        let mut generator = Generator { random, mode, buffers, slot_exponent, cues, objects, queue, next_number: 0, steps_left };
        if mode != Mode::History && generator.random.percent(15) {
            generator.refused_set_up();
        }
        generator.set_up();
        generator
    }

    pub fn buffers(&self) -> Buffers {
        self.buffers
    }

    pub fn slot_exponent(&self) -> u32 {
        self.slot_exponent
    }

    /// The next step, until the case is long enough.
    pub fn next(&mut self, view: &View<'_>) -> Option<Step> {
        while self.queue.is_empty() {
            if self.steps_left == 0 {
                return None;
            }
            self.generate(view);
        }
        self.steps_left = self.steps_left.saturating_sub(1);
        self.queue.pop_front()
    }

    fn generate(&mut self, view: &View<'_>) {
        match self.mode {
            Mode::Hostile if self.random.percent(4) => self.misuse(view),
            Mode::Damaged if self.random.percent(18) => self.damage(view),
            Mode::Log if self.random.percent(3) => self.reach_over(view),
            _ => self.random.weighted(&MIX.map(|(ordinary, _, make)| (ordinary, make)))(self, view),
        }
    }

    /// One to four calls, on wrong slices or damaged bytes.
    fn any_calls(&mut self, view: &View<'_>) {
        for _ in 0..self.random.within(1, 4) {
            self.random.weighted(&MIX.map(|(_, amiss, make)| (amiss, make)))(self, view);
        }
    }

    fn push(&mut self, action: Action) -> u32 {
        let number = self.next_number;
        self.next_number += 1;
        self.queue.push_back(Step { number, action });
        number
    }

    fn call(&mut self, call: Call<Arg>) -> u32 {
        self.push(Action::Call(call))
    }

    /// Keeps the book; `call` has the numbers that the step was run with.
    pub fn observe(&mut self, step: &Step, call: Call<u64>, answer: Answer) {
        if !answer.accepted() {
            return;
        }
        match call {
            Call::SetUp { .. } => self.objects.iter_mut().for_each(|object| object.live = false),
            Call::Allocate { size, .. } => self.add(step, size, 0, answer),
            Call::AllocateFor { size, cue, .. } => self.add(step, size, cue, answer),
            Call::Release { cue } => self.objects.iter_mut().filter(|object| object.cue == cue).for_each(|object| object.live = false),
            Call::Free { pointer } => {
                if let Some(object) = self.objects.iter_mut().find(|object| object.live && object.pointers[0].1 == pointer) {
                    object.live = false;
                }
            }
            Call::Move { pointer, .. } => {
                let held = |object: &&mut Object| object.live && object.pointers.iter().any(|&(_, p)| p == pointer);
                if let Some(object) = self.objects.iter_mut().find(held) {
                    if object.pointers.len() == KEPT_POINTERS {
                        object.pointers.remove(1);
                    }
                    object.pointers.push((step.number, answer.values[0]));
                }
            }
            _ => {}
        }
        if self.objects.len() > KEPT_OBJECTS {
            if let Some(dead) = self.objects.iter().position(|object| !object.live) {
                self.objects.remove(dead);
            }
        }
    }

    fn add(&mut self, step: &Step, size: u32, cue: u32, answer: Answer) {
        self.objects.push(Object { size, cue, live: true, pointers: vec![(step.number, answer.values[0])] });
    }
}

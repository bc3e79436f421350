//! The comparison itself: it finds each of these faults, some of them by the log that is run again alone.

use cueledger_tests::generate::traffic::case;
use cueledger_tests::log;
use cueledger_tests::model::{self, Pointer};
use cueledger_tests::store::{Answer, Call, Model, Store};
use cueledger_tests::traffic::case::Failure;
use cueledger_tests::traffic::{Asked, Choice, Record, Rules, Traffic, FULL, MOST, STEP};

/// The cases of the seeds from 0 on among which a fault must be found.
const WITHIN: u64 = 300;

/// What was given, and what the model leaves and answers.
struct Run<'a> {
    image: &'a mut [u8],
    table: &'a mut [u64],
    log: &'a mut [u8],
    asked: Asked,
    before: (Vec<u8>, Vec<u64>, Vec<u8>),
    right: Answer,
}

impl Run<'_> {
    fn full(&self) -> bool {
        self.right.refusal == FULL
    }

    fn refused(&self) -> bool {
        !self.right.accepted() && !self.full()
    }

    fn state(&self) -> u64 {
        self.right.values[0]
    }

    fn written(&self) -> usize {
        self.right.values[1] as usize
    }

    /// The answer where it is full, and the right one elsewhere.
    fn where_full(&self, answer: Answer) -> Answer {
        if self.full() {
            answer
        } else {
            self.right
        }
    }

    fn calls(&self) -> Vec<Call<u64>> {
        log::read(&self.log[..self.written()]).calls
    }

    /// The answers of the calls.
    fn answers(&self) -> Vec<Answer> {
        let (mut image, mut table, _) = self.before.clone();
        Model.call(&mut image, &mut table, Call::SetUp { slot_exponent: self.asked.slot_exponent });
        self.calls().into_iter().map(|call| Model.call(&mut image, &mut table, call)).collect()
    }

    /// Image, table and log as they were.
    fn undo(&mut self) {
        self.image.copy_from_slice(&self.before.0);
        self.table.copy_from_slice(&self.before.1);
        self.log.copy_from_slice(&self.before.2);
    }

    /// With so many draws.
    fn again(&mut self, draws: u64) -> Answer {
        self.undo();
        Model.traffic(self.image, self.table, Asked { draws, ..self.asked }, self.log)
    }

    /// Full: image, table and log where there was space for one record more, and the bytes of that log.
    fn one_more(&self) -> (Vec<u8>, Vec<u64>, Vec<u8>, usize) {
        let (mut image, mut table, mut log) = self.before.clone();
        log.resize(self.written() + 22, 0);
        let asked = Asked { draws: self.calls().len() as u64 + 1, ..self.asked };
        let answer = Model.traffic(&mut image, &mut table, asked, &mut log);
        (image, table, log, answer.values[1] as usize)
    }
}

/// The model with one rule that is not the text's.
#[derive(Clone, Copy)]
struct Rule {
    set_up: fn(&mut [u8], &mut [u64], u32) -> model::Answer,
    advanced: fn(u64) -> u64,
    drawn: fn(u64) -> u64,
    choice: fn(u64, usize) -> Choice,
    call_of: fn(Choice, &[u64]) -> Call<u64>,
    record: fn(Call<u64>) -> Record,
    has_space: fn(usize, &[u8]) -> bool,
    hold: fn(&mut Vec<u64>, Choice, model::Answer),
}

const RIGHT: Rule = Rule {
    set_up: |image, table, slot_exponent| Model.set_up(image, table, slot_exponent),
    advanced: |state| Model.advanced(state),
    drawn: |sum| Model.drawn(sum),
    choice: |v, live| Model.choice(v, live),
    call_of: |choice, live| Model.call_of(choice, live),
    record: |call| Model.record(call),
    has_space: |left, record| Model.has_space(left, record),
    hold: |live, choice, answer| Model.hold(live, choice, answer),
};

impl Rules for Rule {
    fn set_up(&self, image: &mut [u8], table: &mut [u64], slot_exponent: u32) -> model::Answer {
        (self.set_up)(image, table, slot_exponent)
    }

    fn advanced(&self, state: u64) -> u64 {
        (self.advanced)(state)
    }

    fn drawn(&self, sum: u64) -> u64 {
        (self.drawn)(sum)
    }

    fn choice(&self, v: u64, live: usize) -> Choice {
        (self.choice)(v, live)
    }

    fn call_of(&self, choice: Choice, live: &[u64]) -> Call<u64> {
        (self.call_of)(choice, live)
    }

    fn record(&self, call: Call<u64>) -> Record {
        (self.record)(call)
    }

    fn has_space(&self, left: usize, record: &[u8]) -> bool {
        (self.has_space)(left, record)
    }

    fn hold(&self, live: &mut Vec<u64>, choice: Choice, answer: model::Answer) {
        (self.hold)(live, choice, answer)
    }
}

/// What is done when a run has ended, and what it answers instead.
type Then = fn(&mut Run<'_>) -> Answer;

/// The model with something else done when it has ended.
struct Behind(Then);

impl Traffic for Behind {
    fn traffic(&self, image: &mut [u8], table: &mut [u64], asked: Asked, log: &mut [u8]) -> Answer {
        let before = (image.to_vec(), table.to_vec(), log.to_vec());
        let right = Model.traffic(image, table, asked, log);
        (self.0)(&mut Run { image, table, log, asked, before, right })
    }
}

// ---- rules

/// The three steps with these shifts.
fn shifted(mut v: u64, [first, second, third]: [u32; 3]) -> u64 {
    v ^= v >> first;
    v ^= v << second;
    v ^ v >> third
}

/// The third step brings down what the second one has lifted beyond 64 bits.
fn unbounded(v: u64) -> u64 {
    let mut v = u128::from(v);
    v ^= v >> 30;
    v ^= v << 27;
    (v ^ v >> 31) as u64
}

/// With another second step, and what is made of a number and the shifted one.
fn joined(v: u64, second: fn(u64) -> u64, join: fn(u64, u64) -> u64) -> u64 {
    let v = join(v, v >> 30);
    let v = join(v, second(v));
    join(v, v >> 31)
}

/// The right choice with another size, position or byte.
fn sized(v: u64, live: usize, size: u64) -> Choice {
    match Model.choice(v, live) {
        Choice::Allocate { .. } => Choice::Allocate { size: size as u32 },
        choice => choice,
    }
}

fn stored(v: u64, live: usize, byte: u64) -> Choice {
    match Model.choice(v, live) {
        Choice::Store { position, .. } => Choice::Store { position, byte: byte as u8 },
        choice => choice,
    }
}

fn placed(v: u64, live: usize, position: impl Fn(u64) -> u64) -> Choice {
    let position = |live| position(live as u64) as usize;
    match Model.choice(v, live) {
        Choice::Free { .. } => Choice::Free { position: position(live) },
        Choice::Store { byte, .. } => Choice::Store { position: position(live), byte },
        choice => choice,
    }
}

/// The right rule with another limit than 64.
fn limited(v: u64, live: usize, most: usize) -> Choice {
    match v % 4 {
        low if live == 0 || low < 2 && live < most => Choice::Allocate { size: 1 + (v / 256 % 97) as u32 },
        3 => Choice::Store { position: (v / 256) as usize % live, byte: v as u8 },
        _ => Choice::Free { position: (v / 256) as usize % live },
    }
}

/// With other low bits where there are 64 pointers.
fn at_the_most(v: u64, live: usize, low: fn(u64) -> u64) -> Choice {
    Model.choice(if live == MOST { v / 4 * 4 + low(v % 4) } else { v }, live)
}

/// The right call where it is no allocate.
fn of_type(call: Call<u64>, type_number: u16) -> Call<u64> {
    match call {
        Call::Allocate { size, .. } => Call::Allocate { size, type_number },
        call => call,
    }
}

/// The right call where it is no store.
fn of_width(call: Call<u64>, width: u64) -> Call<u64> {
    match call {
        Call::Store { pointer, value, .. } => Call::Store { pointer, width, value },
        call => call,
    }
}

/// Positions may be of no pointer.
const LENIENT: Rule = Rule {
    call_of: |choice, live| {
        let pointer = |position: usize| live.get(position).copied().unwrap_or(0);
        match choice {
            Choice::Allocate { .. } => Model.call_of(choice, live),
            Choice::Free { position } => Call::Free { pointer: pointer(position) },
            Choice::Store { position, byte } => Call::Store { pointer: pointer(position), width: 1, value: byte.into() },
        }
    },
    hold: |live, choice, answer| match choice {
        Choice::Free { position } if position >= live.len() => {}
        choice => Model.hold(live, choice, answer),
    },
    ..RIGHT
};

/// The right record with other bytes of each field.
fn fields(call: Call<u64>, bytes: fn(u64, usize) -> Vec<u8>) -> Record {
    match call {
        Call::Allocate { size, type_number } => Record::new(16, &[&bytes(size.into(), 4), &bytes(type_number.into(), 2)]),
        Call::Free { pointer } => Record::new(17, &[&bytes(pointer, 8)]),
        Call::Store { pointer, width, value } => Record::new(20, &[&bytes(pointer, 8), &bytes(width, 2), &bytes(value, 8)]),
        call => Model.record(call),
    }
}

/// The right record with other bytes of length and kind.
fn headed(call: Call<u64>, change: fn([u8; 4]) -> [u8; 4]) -> Record {
    let mut record = Model.record(call);
    let [a, b, c, d, ..] = record.bytes;
    record.bytes[..4].copy_from_slice(&change([a, b, c, d]));
    record
}

/// The right set-up, and something else behind it, with image and table as they were before.
fn set_up_and(image: &mut [u8], table: &mut [u64], slot_exponent: u32, then: impl Fn(&mut [u8], &mut [u64], (&[u8], &[u64]))) -> model::Answer {
    let before = (image.to_vec(), table.to_vec());
    let answer = Model.set_up(image, table, slot_exponent);
    if answer.is_ok() {
        then(image, table, (&before.0, &before.1));
    }
    answer
}

/// Faults of a rule, and whether the log that is run again tells them without the model.
const RULES: [(&str, bool, Rule); 58] = [
    // the generator
    ("shift before the add", false, Rule { drawn: |sum| Model.drawn(sum.wrapping_sub(STEP)), ..RIGHT }),
    ("no shift", false, Rule { drawn: |sum| sum, ..RIGHT }),
    ("first step by 29", false, Rule { drawn: |sum| shifted(sum, [29, 27, 31]), ..RIGHT }),
    ("first step by 31", false, Rule { drawn: |sum| shifted(sum, [31, 27, 31]), ..RIGHT }),
    ("second step by 26", false, Rule { drawn: |sum| shifted(sum, [30, 26, 31]), ..RIGHT }),
    ("second step by 28", false, Rule { drawn: |sum| shifted(sum, [30, 28, 31]), ..RIGHT }),
    ("third step by 30", false, Rule { drawn: |sum| shifted(sum, [30, 27, 30]), ..RIGHT }),
    ("third step by 32", false, Rule { drawn: |sum| shifted(sum, [30, 27, 32]), ..RIGHT }),
    ("first and third step exchanged", false, Rule { drawn: |sum| shifted(sum, [31, 27, 30]), ..RIGHT }),
    ("left step to the right", false, Rule { drawn: |sum| joined(sum, |v| v >> 27, |v, w| v ^ w), ..RIGHT }),
    ("left step keeps the high bits", false, Rule { drawn: unbounded, ..RIGHT }),
    ("left step brings the high bits round", false, Rule { drawn: |sum| joined(sum, |v| v.rotate_left(27), |v, w| v ^ w), ..RIGHT }),
    ("or for exclusive-or", false, Rule { drawn: |sum| joined(sum, |v| v << 27, |v, w| v | w), ..RIGHT }),
    ("the sum stops at 2^64 - 1", true, Rule { advanced: |state| state.saturating_add(STEP), ..RIGHT }),
    ("another number added", true, Rule { advanced: |state| state.wrapping_add(STEP - 1), ..RIGHT }),
    ("the draw is stored", true, Rule { advanced: |state| Model.drawn(Model.advanced(state)), drawn: |v| v, ..RIGHT }),
    // sizes
    ("size without 1 more", true, Rule { choice: |v, live| sized(v, live, v / 256 % 97), ..RIGHT }),
    ("size modulo 96", false, Rule { choice: |v, live| sized(v, live, 1 + v / 256 % 96), ..RIGHT }),
    ("size modulo 98", true, Rule { choice: |v, live| sized(v, live, 1 + v / 256 % 98), ..RIGHT }),
    ("size of the low bits too", false, Rule { choice: |v, live| sized(v, live, 1 + v % 97), ..RIGHT }),
    ("size of 32 bits", false, Rule { choice: |v, live| sized(v, live, 1 + u64::from((v / 256) as u32) % 97), ..RIGHT }),
    // positions
    ("position modulo 64", true, Rule { choice: |v, live| placed(v, live, |_| v / 256 % 64), ..LENIENT }),
    ("position modulo one less", false, Rule { choice: |v, live| placed(v, live, |live| v / 256 % (live.max(2) - 1)), ..RIGHT }),
    ("position modulo one more", true, Rule { choice: |v, live| placed(v, live, |live| v / 256 % (live + 1)), ..LENIENT }),
    ("position of the low bits too", false, Rule { choice: |v, live| placed(v, live, |live| v % live), ..RIGHT }),
    ("position of 32 bits", false, Rule { choice: |v, live| placed(v, live, |live| u64::from((v / 256) as u32) % live), ..RIGHT }),
    ("position from the last", false, Rule { choice: |v, live| placed(v, live, |live| live - 1 - v / 256 % live), ..RIGHT }),
    // bytes
    ("byte of the high bits", false, Rule { choice: |v, live| stored(v, live, v / 256), ..RIGHT }),
    ("byte without the low bits", false, Rule { choice: |v, live| stored(v, live, v / 4), ..RIGHT }),
    // which call
    ("2 stores and 3 frees", false, Rule { choice: |v, live| Model.choice(if live == 0 || v % 4 < 2 { v } else { v ^ 1 }, live), ..RIGHT }),
    ("1 frees", false, Rule { choice: |v, live| Model.choice(if live > 0 && v % 4 == 1 { v + 1 } else { v }, live), ..RIGHT }),
    ("limit 63", false, Rule { choice: |v, live| limited(v, live, 63), ..RIGHT }),
    ("limit 65", true, Rule { choice: |v, live| limited(v, live, 65), ..RIGHT }),
    ("with 64, 0 and 1 store", false, Rule { choice: |v, live| at_the_most(v, live, |low| if low < 2 { 3 } else { low }), ..RIGHT }),
    ("with 64, 1 stores", false, Rule { choice: |v, live| at_the_most(v, live, |low| if low == 1 { 3 } else { low }), ..RIGHT }),
    ("with 64, 3 frees", false, Rule { choice: |v, live| at_the_most(v, live, |low| if low == 3 { 2 } else { low }), ..RIGHT }),
    ("with 64, 0 and 1 free the first", false, Rule { choice: |v, live| Model.choice(if live == MOST && v % 4 < 2 { 2 } else { v }, live), ..RIGHT }),
    ("with 64, 0 and 1 free the last", false, Rule { choice: |v, live| Model.choice(if live == MOST && v % 4 < 2 { 63 * 256 } else { v }, live), ..RIGHT }),
    (
        "with none, 2 and 3 allocate a byte",
        false,
        Rule { choice: |v, live| sized(v, live, if live == 0 && v % 4 > 1 { 1 } else { 1 + v / 256 % 97 }), ..RIGHT },
    ),
    // calls
    ("type 1", true, Rule { call_of: |choice, live| of_type(Model.call_of(choice, live), 1), ..RIGHT }),
    (
        "type 1, of which the log says nothing",
        true,
        Rule { call_of: |choice, live| of_type(Model.call_of(choice, live), 1), record: |call| Model.record(of_type(call, 0)), ..RIGHT },
    ),
    ("type 1 in the log", true, Rule { record: |call| Model.record(of_type(call, 1)), ..RIGHT }),
    ("width 8", true, Rule { call_of: |choice, live| of_width(Model.call_of(choice, live), 8), ..RIGHT }),
    (
        "width 8, of which the log says nothing",
        true,
        Rule { call_of: |choice, live| of_width(Model.call_of(choice, live), 8), record: |call| Model.record(of_width(call, 1)), ..RIGHT },
    ),
    // records
    ("fields with their high bytes first", true, Rule { record: |call| fields(call, |number, bytes| number.to_be_bytes()[8 - bytes..].to_vec()), ..RIGHT }),
    ("length and kind with their high bytes first", true, Rule { record: |call| headed(call, |[a, b, c, d]| [b, a, d, c]), ..RIGHT }),
    ("kind before length", true, Rule { record: |call| headed(call, |[a, b, c, d]| [c, d, a, b]), ..RIGHT }),
    ("length without itself and kind", true, Rule { record: |call| headed(call, |[a, b, c, d]| [a - 4, b, c, d]), ..RIGHT }),
    // space
    ("no space for an exact fit", true, Rule { has_space: |left, record| record.len() < left, ..RIGHT }),
    ("space for any record asked", false, Rule { has_space: |left, _| left >= 22, ..RIGHT }),
    // pointers
    ("a declined allocate adds one", true, Rule { hold: |live, choice, answer| Model.hold(live, choice, answer.or(Ok(0))), ..RIGHT }),
    (
        "the last one takes the freed one's place",
        false,
        Rule {
            hold: |live, choice, answer| match choice {
                Choice::Free { position } => drop(live.swap_remove(position)),
                choice => Model.hold(live, choice, answer),
            },
            ..RIGHT
        },
    ),
    (
        "the newest one first",
        false,
        Rule {
            hold: |live, choice, answer| match choice {
                Choice::Allocate { .. } => answer.into_iter().for_each(|pointer| live.insert(0, pointer)),
                choice => Model.hold(live, choice, answer),
            },
            ..RIGHT
        },
    ),
    (
        "in the order of their addresses",
        false,
        Rule {
            hold: |live, choice, answer| {
                Model.hold(live, choice, answer);
                live.sort_by_key(|&pointer| Pointer::unpack(pointer).address);
            },
            ..RIGHT
        },
    ),
    // set-up
    ("no set-up", true, Rule { set_up: |_, _, _| Ok(0), ..RIGHT }),
    (
        "image not cleared",
        true,
        Rule { set_up: |image, table, s| set_up_and(image, table, s, |image, _, before| image[32..].copy_from_slice(&before.0[32..])), ..RIGHT },
    ),
    ("table not cleared", true, Rule { set_up: |image, table, s| set_up_and(image, table, s, |_, table, before| table.copy_from_slice(before.1)), ..RIGHT }),
    ("the whole table cleared", true, Rule { set_up: |image, table, s| set_up_and(image, table, s, |_, table, _| table.fill(0)), ..RIGHT }),
];

// ---- whole runs

/// Faults of a run, as above.
const RUNS: [(&str, bool, Then); 32] = [
    // 23
    ("23, the state after the next draw", true, |r| r.where_full(Answer::new(FULL, [r.state().wrapping_add(STEP), r.written() as u64]))),
    ("23, the given state", true, |r| r.where_full(Answer::new(FULL, [r.asked.state, r.written() as u64]))),
    ("23, the next record counted", true, |r| if r.full() { Answer::new(FULL, [r.state(), r.one_more().3 as u64]) } else { r.right }),
    ("23, the whole log counted", true, |r| r.where_full(Answer::new(FULL, [r.state(), r.log.len() as u64]))),
    ("23 with values of 0", true, |r| r.where_full(Answer::new(FULL, []))),
    ("23, the state 0", true, |r| r.where_full(Answer::new(FULL, [0, r.written() as u64]))),
    ("23, 0 bytes", true, |r| r.where_full(Answer::new(FULL, [r.state()]))),
    ("23 as accepted", true, |r| r.where_full(Answer::new(0, [r.state(), r.written() as u64]))),
    ("23, the call is made", true, |r| {
        if r.full() {
            let (image, table, ..) = r.one_more();
            r.image.copy_from_slice(&image);
            r.table.copy_from_slice(&table);
        }
        r.right
    }),
    ("23, part of the record written", true, |r| {
        if r.full() {
            let (from, log) = (r.written(), r.one_more().2);
            let left = r.log.len() - from;
            r.log[from..].copy_from_slice(&log[from..][..left]);
        }
        r.right
    }),
    ("23, image and table as they were", true, |r| {
        if r.full() {
            r.image.copy_from_slice(&r.before.0);
            r.table.copy_from_slice(&r.before.1);
        }
        r.right
    }),
    ("23, log as it was", true, |r| {
        if r.full() {
            r.log.copy_from_slice(&r.before.2);
        }
        r.right
    }),
    ("23, later bytes cleared", true, |r| {
        if r.full() {
            let from = r.written();
            r.log[from..].fill(0);
        }
        r.right
    }),
    ("23 before the set-up", true, |r| {
        if r.full() && r.written() == 0 {
            r.undo();
        }
        r.right
    }),
    ("23 before 1 to 3", true, |r| if r.refused() && r.log.len() < 10 && r.asked.draws > 0 { Answer::new(FULL, [r.asked.state]) } else { r.right }),
    ("23 behind the last draw", true, |r| {
        if r.right.accepted() && r.log.len() - r.written() < 10 {
            Answer::new(FULL, [r.state(), r.written() as u64])
        } else {
            r.right
        }
    }),
    // accepted
    ("later bytes cleared", true, |r| {
        if r.right.accepted() {
            let from = r.written();
            r.log[from..].fill(0);
        }
        r.right
    }),
    ("the given state behind the last draw", true, |r| if r.right.accepted() { Answer::new(0, [r.asked.state, r.written() as u64]) } else { r.right }),
    ("no draws, the state 0", true, |r| if r.right.accepted() && r.asked.draws == 0 { Answer::new(0, []) } else { r.right }),
    ("no draws, no set-up", true, |r| {
        if r.asked.draws == 0 {
            r.undo();
        }
        r.right
    }),
    ("one draw less", true, |r| r.again(r.asked.draws.saturating_sub(1))),
    ("one draw more", true, |r| r.again(r.asked.draws.saturating_add(1))),
    ("draws of 32 bits", true, |r| r.again(u64::from(r.asked.draws as u32))),
    ("bytes of 16 bits", true, |r| Answer::new(r.right.refusal, [r.state(), u64::from(r.written() as u16)])),
    // declined
    ("a declined allocate ends the run", true, |r| match r.answers().iter().position(|answer| !answer.accepted()) {
        Some(at) => r.again(at as u64 + 1),
        None => r.right,
    }),
    ("a declined allocate is no draw", true, |r| {
        let declined = r.answers().iter().filter(|answer| !answer.accepted()).count() as u64;
        r.again(r.asked.draws.saturating_add(declined))
    }),
    ("a declined allocate is not recorded", true, |r| {
        if r.refused() {
            return r.right;
        }
        let made = r.calls().into_iter().zip(r.answers()).filter(|(_, answer)| answer.accepted());
        let log = log::records(&made.map(|(call, _)| call).collect::<Vec<_>>());
        r.log.copy_from_slice(&r.before.2);
        r.log[..log.len()].copy_from_slice(&log);
        Answer::new(r.right.refusal, [r.state(), log.len() as u64])
    }),
    // 1 to 3
    ("refused with the given state", true, |r| if r.refused() { Answer::new(r.right.refusal, [r.asked.state]) } else { r.right }),
    ("refused with bytes", true, |r| if r.refused() { Answer::new(r.right.refusal, [0, r.log.len() as u64]) } else { r.right }),
    ("refused, the image cleared", true, |r| {
        if r.refused() {
            r.image.fill(0);
        }
        r.right
    }),
    ("refused, the log cleared", true, |r| {
        if r.refused() {
            r.log.fill(0);
        }
        r.right
    }),
    ("2 before 1", false, |r| if r.right.refusal == 1 && r.image.len() < 64 { Answer::new(2, []) } else { r.right }),
];

/// The first case that shows a fault on the tested side, or on both: its number, and what it shows.
fn find(fault: &dyn Traffic, both: bool) -> Option<(u64, Box<Failure>)> {
    let expected = if both { fault } else { &Model };
    (0..WITHIN).find_map(|seed| Some((seed, case(seed).check(expected, fault, &Model).err()?)))
}

fn is_found(name: &str, by_itself: bool, fault: &dyn Traffic) {
    let (seed, failure) = find(fault, false).unwrap_or_else(|| panic!("not found: {name}"));
    println!("{name}: case {seed}, {failure}");
    match find(fault, true) {
        Some((seed, failure)) => {
            assert!(by_itself, "{name}: found on both sides, case {seed}, {failure}");
            println!("{name}, both sides: case {seed}, {failure}");
        }
        None => assert!(!by_itself, "not found on both sides: {name}"),
    }
}

#[test]
fn are_found() {
    for right in [RIGHT, LENIENT] {
        assert!(find(&right, false).is_none(), "the rules themselves");
    }
    assert!(find(&Behind(|run| run.right), false).is_none(), "the run itself");
    for (name, by_itself, rule) in RULES {
        is_found(name, by_itself, &rule);
    }
    for (name, by_itself, behind) in RUNS {
        is_found(name, by_itself, &Behind(behind));
    }
}

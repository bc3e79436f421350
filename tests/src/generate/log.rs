//! The calls of a call log, and logs that take long.

use super::{cues, Generator, Mode};
use crate::case::{Action, Buffers, Run};
use crate::counts::Counts;
use crate::log::{answers, record, records, ENTRIES, LENGTH, LIMIT, SLOT_EXPONENT};
use crate::random::Random;
use crate::store::{Call, Model};
use std::collections::VecDeque;

impl Generator {
    /// Set-up and then calls without end, with neither other slices nor damage.
    fn for_log(seed: u64) -> Generator {
        let mut random = Random::new(seed);
        let mode = random.weighted(&[(40, Mode::History), (60, Mode::Log)]);
        let content = random.word();
        let cues = random.pick(&cues::FAMILIES);
        let history = mode == Mode::History;
        let buffers = Buffers { image: LENGTH, table: ENTRIES, lent_image: LENGTH, lent_table: ENTRIES, content, history };
        let (objects, queue) = (Vec::new(), VecDeque::new());
        let mut generator = Generator { random, mode, buffers, slot_exponent: SLOT_EXPONENT, cues, objects, queue, next_number: 0, steps_left: u32::MAX };
        generator.set_up();
        if mode == Mode::Log && generator.random.percent(30) {
            generator.reach_for_total();
        }
        generator
    }
}

/// So many calls that have records, with the pointers that they get when they are made in this order.
pub fn calls(seed: u64, count: usize) -> Vec<Call<u64>> {
    let mut generator = Generator::for_log(seed);
    let mut run = Run::new(&Model, &Model, &generator.buffers());
    let (mut calls, mut counts) = (Vec::new(), Counts::default());
    while calls.len() < count {
        let step = generator.next(&run.view()).expect("steps without end");
        let Action::Call(call) = step.action else { unreachable!("{step:?}") };
        let call = call.map(|arg| run.resolve(arg));
        let recorded = record(call).is_some();
        // what has no record is not made, set-up apart, which the program makes itself
        if !recorded && !matches!(call, Call::SetUp { .. }) {
            continue;
        }
        let answer = run.step(&step, &mut counts).unwrap_or_else(|mismatch| panic!("{mismatch}"));
        generator.observe(&step, call, answer.expect("a call's"));
        if recorded {
            calls.push(call);
        }
    }
    calls
}

/// Calls made again and again up to the limit, the last one cut there, behind others: those that walk over as many blocks
/// as there can be, and those that write as many bytes.
pub fn slow() -> Vec<(&'static str, Vec<u8>)> {
    let empty = Call::Allocate { size: 0, type_number: 0 };
    let full = vec![empty; (LENGTH - 16) / 16];
    let last = answers(&full).last().unwrap().values[0];
    let length = LENGTH as u32 - 32;
    let all = Call::Allocate { size: length, type_number: 0 };
    let pointer = answers(&[all])[0].values[0];
    let copy = |to, from| Call::Copy { target: pointer + to, source: pointer + from, length: length - 1 };
    let logs: [(_, &[_], &[_]); 6] = [
        ("allocate in a full store", &full, &[empty]),
        ("free and allocate in a full store", &full, &[Call::Free { pointer: last }, empty]),
        ("allocate and free the whole store", &[], &[all, Call::Free { pointer }]),
        ("fill the whole store", &[all], &[Call::Fill { pointer, length, value: 255 }]),
        ("copy it up by one", &[all], &[copy(1, 0)]),
        ("copy it down by one", &[all], &[copy(0, 1)]),
    ];
    let log = |before: &[Call<u64>], again: &[Call<u64>]| {
        let (mut log, round) = (records(before), records(again));
        while log.len() < LIMIT {
            log.extend(&round);
        }
        log.truncate(LIMIT);
        log
    };
    logs.into_iter().map(|(name, before, again)| (name, log(before, again))).collect()
}

//! Runs of the repeatable load.

use crate::log;
use crate::model::used_entries;
use crate::random::Random;
use crate::store::Model;
use crate::traffic::case::Case;
use crate::traffic::{Asked, STEP};

/// The ends of the records of a run whose log has space for all of them, 0 among them; of so many draws at most.
pub fn ends(case: &Case, most: u64) -> Vec<usize> {
    let case = case.with(case.asked.draws.min(most));
    let outcome = Case { log: 22 * case.asked.draws as usize, ..case }.run(&Model);
    let log = &outcome.lent.log[..outcome.answer.values[1] as usize];
    let lengths = log::read(log).calls.into_iter().map(|call| log::record(call).unwrap().len());
    [0].into_iter().chain(lengths.scan(0, |end, length| (*end += length, Some(*end)).1)).collect()
}

fn length(random: &mut Random) -> u64 {
    match random.below(20) {
        0 => 64,
        1..4 => random.within(64, 200),
        4..7 => random.within(200, 3_000),
        7..17 => random.within(3_000, 12_000),
        17..19 => (1 << random.within(7, 15)) + random.pick(&[0, 1, 15, 16, 31]),
        _ => random.within(12_000, 40_000),
    }
}

fn state(random: &mut Random) -> u64 {
    match random.below(20) {
        0 => 0,
        1 => 1,
        2 => u64::MAX,
        // the sum of some draw is 0, or near it
        3..6 => random.within(0, 2).wrapping_sub(1).wrapping_sub(random.within(1, 20).wrapping_mul(STEP)),
        6..9 => random.number(),
        _ => random.word(),
    }
}

fn draws(random: &mut Random) -> u64 {
    match random.below(100) {
        0..4 => 0,
        4..8 => 1,
        8..30 => random.within(2, 40),
        30..65 => random.within(40, 400),
        65..93 => random.within(400, 1_500),
        93..96 => random.within(1_500, 7_000),
        96 => u64::MAX,
        97 => random.within(1, u32::MAX.into()) << 32,
        98 => (1 << 32) + random.within(1, 100),
        _ => random.word(),
    }
}

/// The bytes of a log, of which many end at a record's end or near it.
fn log_length(random: &mut Random, ends: &[usize]) -> usize {
    let all = *ends.last().unwrap();
    match random.below(20) {
        0 => 0,
        1..6 => all + random.within(0, 60) as usize,
        6..8 => all,
        8 => all.saturating_sub(1),
        9..18 => random.pick(ends) + random.within(0, 21) as usize,
        _ => random.below(all as u64 + 1) as usize,
    }
}

/// The case of a seed. Set-up refuses every seventh.
pub fn case(seed: u64) -> Case {
    let mut random = Random::new(seed);
    let asked = Asked { slot_exponent: random.within(6, 15) as u32, state: state(&mut random), draws: draws(&mut random) };
    let image = length(&mut random) as usize;
    let used = used_entries(asked.slot_exponent, image as u64) as usize;
    let table = used + random.pick(&[0, 0, 0, 1, 48]);
    let mut case = Case { image, table, log: 0, content: random.word(), asked };
    // a run of draws without number is cut by its log
    let most = if asked.draws > 7_000 { random.within(1, 500) } else { asked.draws };
    case.log = log_length(&mut random, &ends(&case, most));
    if random.below(7) == 0 {
        refuse(&mut random, &mut case, used);
    }
    case
}

/// Makes one or more of slot exponent, image and table such that set-up refuses them.
fn refuse(random: &mut Random, case: &mut Case, used: usize) {
    let bad = random.within(1, 7);
    if bad & 1 != 0 {
        case.asked.slot_exponent = random.pick(&[0, 1, 5, 16, 17, 31, 32, 64 + 8, 256 + 8, (1 << 16) + 8, u32::MAX]);
    }
    if bad & 2 != 0 {
        case.image = random.pick(&[0, 1, 15, 16, 17, 32, 48, 62, 63, 63]);
    }
    if bad & 4 != 0 {
        case.table = random.pick(&[0, used / 2, used - 1]);
    }
    if random.percent(30) {
        case.log = random.below(10) as usize;
    }
    if random.percent(20) {
        case.asked.draws = 0;
    }
}

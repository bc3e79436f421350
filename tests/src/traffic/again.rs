//! The log of a run, run again by single calls on an equal fresh store: what holds of every run, whatever is drawn.

use super::case::{Case, Outcome};
use super::{Rules, FULL, MOST, STEP};
use crate::log::{self, Reading};
use crate::store::{Answer, Call, Model, Store};

/// A recorded draw, when its call is made again.
#[derive(Clone, Copy, Debug)]
pub struct Draw {
    pub sum: u64,
    pub v: u64,
    /// The live pointers before it.
    pub live: usize,
    /// That of its pointer among them; 0 for an allocate.
    pub position: usize,
    pub call: Call<u64>,
    pub answer: Answer,
}

/// The draws of a run, or what is wrong with it.
pub fn again(store: &impl Store, case: &Case, outcome: &Outcome) -> Result<Vec<Draw>, String> {
    let Outcome { answer, lent: after } = outcome;
    let mut lent = case.lent();
    if ![0, FULL].contains(&answer.refusal) {
        let zeros = answer.values == [0; 4];
        return if zeros && *after == lent { Ok(Vec::new()) } else { Err(format!("{answer}, with values or something written")) };
    }
    let [state, written, ..] = answer.values;
    let written = usize::try_from(written).ok().filter(|&written| written <= case.log).ok_or("more written than the log has")?;
    if after.log[written..] != lent.log[written..] {
        return Err("later log bytes are not as they were".into());
    }
    let Reading { calls, malformed, .. } = log::read(&after.log[..written]);
    if let Some(number) = malformed {
        return Err(format!("the log is malformed: {number}"));
    }

    let (image, table) = (&mut lent.image[..case.image], &mut lent.table[..case.table]);
    if !store.call(image, table, Call::SetUp { slot_exponent: case.asked.slot_exponent }).accepted() {
        return Err("an equal image cannot be set up".into());
    }
    let (mut live, mut draws, mut sum) = (Vec::new(), Vec::new(), case.asked.state);
    for &call in &calls {
        sum = Model.advanced(sum);
        let answer = store.call(image, table, call);
        let (before, mut position) = (live.len(), 0);
        let right = match call {
            Call::Allocate { size: 1..=97, type_number: 0 } => {
                live.extend(answer.accepted().then_some(answer.values[0]));
                live.len() <= MOST && [0, 8].contains(&answer.refusal)
            }
            Call::Free { pointer } | Call::Store { pointer, width: 1, value: 0..=255 } => {
                position = live.iter().position(|&held| held == pointer).ok_or_else(|| format!("{call}: not a live pointer"))?;
                if let Call::Free { .. } = call {
                    live.remove(position);
                }
                answer.accepted()
            }
            _ => false,
        };
        if !right {
            return Err(format!("record {}: {call}: {answer}", draws.len()));
        }
        draws.push(Draw { sum, v: Model.drawn(sum), live: before, position, call, answer });
    }
    if (&lent.image, &lent.table) != (&after.image, &after.table) {
        return Err("the log leaves another image or table".into());
    }

    let made = calls.len() as u64;
    // a store's record takes 22 bytes, and no other takes more
    let ends = if answer.refusal == FULL { made < case.asked.draws && case.log - written < 22 } else { made == case.asked.draws };
    if !ends {
        return Err(format!("{made} records of {} draws, {} bytes left", case.asked.draws, case.log - written));
    }
    if state != case.asked.state.wrapping_add(made.wrapping_mul(STEP)) {
        return Err(format!("{state:#x} is not the state after {made} draws"));
    }
    Ok(draws)
}

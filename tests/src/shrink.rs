//! Delta debugging: the shortest list found that still fails, by taking steps out.

use crate::case::Case;
use crate::store::Store;
use std::mem::discriminant;

/// Above this length only single steps are tried at the end, not pairs.
const PAIRS_UP_TO: usize = 40;

/// A list from which no step, and of a short one no two steps, can be taken out without the failure going away.
/// `case` fails.
pub fn shrink(mut case: Case, expected: &impl Store, tested: &impl Store) -> Case {
    let Err((_, failure)) = case.run(expected, tested) else { return case };
    // what is left up to the step that fails, if one still does, and in the same way
    let still_fails = |mut case: Case| {
        let (at, mismatch) = case.run(expected, tested).err()?;
        case.steps.truncate(at + 1);
        (discriminant(&mismatch) == discriminant(&failure)).then_some(case)
    };
    if let Some(cut) = still_fails(case.clone()) {
        case = cut;
    }
    loop {
        case = by_chunks(case, still_fails);
        match without_two(&case, still_fails) {
            Some(shorter) => case = shorter,
            None => return case,
        }
    }
}

/// Takes out chunks of half the list, of a quarter, and so on, and single steps until none can go.
fn by_chunks(mut case: Case, still_fails: impl Fn(Case) -> Option<Case>) -> Case {
    let mut chunk = case.steps.len();
    while chunk > 0 {
        let mut removed = false;
        let mut start = 0;
        while start < case.steps.len() {
            let end = (start + chunk).min(case.steps.len());
            let mut shorter = case.clone();
            shorter.steps.drain(start..end);
            match still_fails(shorter) {
                None => start = end,
                Some(shorter) => {
                    case = shorter;
                    removed = true;
                }
            }
        }
        if chunk > 1 || !removed {
            chunk /= 2;
        }
    }
    case
}

fn without_two(case: &Case, still_fails: impl Fn(Case) -> Option<Case>) -> Option<Case> {
    if case.steps.len() > PAIRS_UP_TO {
        return None;
    }
    for second in 0..case.steps.len() {
        for first in 0..second {
            let mut shorter = case.clone();
            shorter.steps.remove(second);
            shorter.steps.remove(first);
            if let Some(shorter) = still_fails(shorter) {
                return Some(shorter);
            }
        }
    }
    None
}

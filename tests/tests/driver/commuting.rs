//! Faults of frees and releases that the order shows: none of them is compared with the model.

use super::{right, Behaviour, Faulty};
use cueledger_tests::commuting::either_order;
use cueledger_tests::model::{self, Header, Pointer};
use cueledger_tests::store::{Answer, Call, Model};

/// Finds the fault by the order alone, on histories that the model has made: `told_by` is an answer, a byte of the image, or an entry.
fn find(fault: Behaviour, told_by: &str) {
    let what = either_order(&Model, &Faulty(fault), 1_000, 1).expect_err("the fault was not found");
    println!("{what}");
    assert!(what.contains(told_by), "{what}");
}

/// The model, and what is done behind an accepted free: with the image before it, and the place of the freed header.
fn behind_free(image: &mut [u8], table: &mut [u64], call: Call<u64>, done: fn(&mut [u8], &mut [u64], &[u8], usize)) -> Answer {
    let before = image.to_vec();
    let answer = right(image, table, call);
    if let (Call::Free { pointer }, true) = (call, answer.accepted()) {
        done(image, table, &before, Pointer::unpack(pointer).address as usize - 16);
    }
    answer
}

/// Cuts the block around `h`, if there is one, in two there, as if the parts had not been merged.
fn cut(image: &mut [u8], h: usize) {
    let blocks: Vec<(u64, Header)> = model::blocks(image).collect();
    if let Some(&(from, header)) = blocks.iter().find(|&&(from, header)| from < h as u64 && (h as u64) < from + u64::from(header.extent)) {
        let rest = from + u64::from(header.extent) - h as u64;
        image[h..h + 16].copy_from_slice(&Header::free(rest).bytes());
        image[from as usize..from as usize + 16].copy_from_slice(&Header::free(h as u64 - from).bytes());
    }
}

#[test]
fn merged_header_stays() {
    find(
        |image, table, call| {
            behind_free(image, table, call, |image, _, before, h| {
                if image[h..h + 16] == [0; 16] {
                    image[h..h + 16].copy_from_slice(&before[h..h + 16]);
                }
            })
        },
        "image byte",
    );
}

/// It shows only far behind the image's start.
#[test]
fn first_byte_of_the_body_stays() {
    find(
        |image, table, call| {
            behind_free(image, table, call, |image, _, before, h| {
                if h > 1_000 && Header::read(before, h as u64).size > 0 {
                    image[h + 16] = before[h + 16];
                }
            })
        },
        "image byte",
    );
}

#[test]
fn no_merging_with_the_block_before() {
    find(|image, table, call| behind_free(image, table, call, |image, _, _, h| cut(image, h)), "image byte");
}

/// The model, but the freed block is not merged with the one behind it where it is merged with the one before it.
#[test]
fn merging_with_one_block_alone() {
    find(
        |image, table, call| {
            behind_free(image, table, call, |image, _, before, h| {
                let next = h + Header::read(before, h as u64).extent as usize;
                if image[h..h + 16] == [0; 16] && next < image.len() {
                    cut(image, next);
                }
            })
        },
        "image byte",
    );
}

#[test]
fn no_merging_with_the_block_behind() {
    find(
        |image, table, call| {
            behind_free(image, table, call, |image, _, before, h| {
                let next = h + Header::read(before, h as u64).extent as usize;
                if next < image.len() {
                    cut(image, next);
                }
            })
        },
        "image byte",
    );
}

#[test]
fn total_of_the_merged_block() {
    find(
        |image, table, call| {
            behind_free(image, table, call, |image, _, before, h| {
                let merged = model::blocks(image).find(|&(from, header)| h as u64 >= from && (h as u64) < from + u64::from(header.extent));
                let total = model::total(before) + u64::from(merged.map_or(0, |(_, header)| header.extent));
                model::set_total(image, total.min(image.len() as u64 - 16));
            })
        },
        "refusal 22",
    );
}

#[test]
fn total_without_the_merged_header() {
    find(
        |image, table, call| {
            behind_free(image, table, call, |image, _, before, h| {
                let next = h + Header::read(before, h as u64).extent as usize;
                if next < before.len() && Header::read(before, next as u64).is_free() {
                    model::set_total(image, model::total(image) - 16);
                }
            })
        },
        "image byte 12 is",
    );
}

#[test]
fn release_notes_its_cue() {
    find(
        |image, table, call| {
            let answer = right(image, table, call);
            if let (Call::Release { cue }, true) = (call, answer.accepted()) {
                *table.last_mut().unwrap() = cue.into();
            }
            answer
        },
        "table entry",
    );
}

/// It shows only in the last entry of a long table.
#[test]
fn last_freed_place_is_noted() {
    find(
        |image, table, call| {
            behind_free(image, table, call, |_, table, _, h| {
                if table.len() > 100 {
                    *table.last_mut().unwrap() = h as u64;
                }
            })
        },
        "table entry",
    );
}

#[test]
fn second_free_is_refused() {
    find(
        |image, table, call| match call {
            Call::Free { .. } if model::blocks(image).filter(|(_, header)| header.is_free()).count() > 1 => Answer::new(7, []),
            _ => right(image, table, call),
        },
        "refusal 7",
    );
}

#[test]
fn release_counts_what_is_left() {
    find(
        |image, table, call| match (call, right(image, table, call)) {
            (Call::Release { .. }, Answer { refusal: 0, .. }) => Answer::new(0, [model::blocks(image).filter(|(_, header)| header.is_live()).count() as u64]),
            (_, answer) => answer,
        },
        "as the second",
    );
}

#[test]
fn release_of_no_object_is_refused() {
    find(
        |image, table, call| match (call, right(image, table, call)) {
            (Call::Release { .. }, Answer { refusal: 0, values: [0, ..] }) => Answer::new(11, []),
            (_, answer) => answer,
        },
        "refusal 11",
    );
}

#[test]
fn release_leaves_merged_headers() {
    find(
        |image, table, call| {
            let before = image.to_vec();
            let answer = right(image, table, call);
            if let Call::Release { cue } = call {
                for (h, header) in model::blocks(&before).filter(|(_, header)| header.carries(cue)) {
                    let header_bytes = h as usize..h as usize + 16;
                    if image[header_bytes.clone()] == [0; 16] {
                        image[header_bytes].copy_from_slice(&header.bytes());
                    }
                }
            }
            answer
        },
        "image byte",
    );
}

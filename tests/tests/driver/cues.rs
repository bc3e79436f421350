//! Faults of cues and of release, and of the header test's last four bytes.

use super::{both, find, header_place, mended, right, Behaviour, Faulty, SHORT};
use cueledger_tests::case::Mismatch;
use cueledger_tests::driver::compare;
use cueledger_tests::model::{self, Header, Pointer};
use cueledger_tests::single_pass;
use cueledger_tests::store::{Answer, Call, Model};

/// Where a header has it.
const CUE: usize = 12;

fn blocks(image: &[u8]) -> Vec<(u64, Header)> {
    model::blocks(image).collect()
}

fn write(image: &mut [u8], at: u64, header: Header) {
    image[at as usize..at as usize + 16].copy_from_slice(&header.bytes());
}

/// The bench's contestant is right.
#[test]
fn single_pass() {
    let by_runs: Behaviour = |image, table, call| match call {
        Call::Release { cue } => single_pass::release(image, table, cue).into(),
        call => right(image, table, call),
    };
    compare(&Model, &Faulty(by_runs), 300_000, 1).unwrap_or_else(|failure| panic!("{failure}"));
}

// ---- the cue in the header

/// The model, but for what an accepted allocate stores: made of the type and the cue, of which the old call has none.
fn stored(image: &mut [u8], table: &mut [u64], call: Call<u64>, stored: fn(u16, Option<u32>) -> u32) -> Answer {
    let answer = right(image, table, call);
    let cue = match call {
        Call::Allocate { type_number, .. } => stored(type_number, None),
        Call::AllocateFor { type_number, cue, .. } => stored(type_number, Some(cue)),
        _ => return answer,
    };
    if answer.accepted() {
        let at = Pointer::unpack(answer.values[0]).address as usize - 16 + CUE;
        image[at..at + 4].copy_from_slice(&cue.to_le_bytes());
    }
    answer
}

const NOT_STORED: Behaviour = |image, table, call| stored(image, table, call, |_, _| 0);

#[test]
fn not_stored() {
    let failure = find(NOT_STORED);
    // set-up, an object
    assert_eq!(failure.case.steps.len(), 2, "{failure}");
}

#[test]
fn stored_in_16_bits() {
    find(|image, table, call| stored(image, table, call, |_, cue| cue.unwrap_or(0) & 0xffff));
}

#[test]
fn stored_in_31_bits() {
    find(|image, table, call| stored(image, table, call, |_, cue| cue.unwrap_or(0) & 0x7fff_ffff));
}

#[test]
fn stored_with_its_highest_byte_first() {
    find(|image, table, call| stored(image, table, call, |_, cue| cue.unwrap_or(0).swap_bytes()));
}

#[test]
fn type_stored_for_the_cue() {
    find(|image, table, call| stored(image, table, call, |type_number, cue| cue.map_or(0, |_| type_number.into())));
}

#[test]
fn stored_by_the_old_call() {
    find(|image, table, call| stored(image, table, call, |_, cue| cue.unwrap_or(1)));
}

#[test]
fn stored_in_the_rest_too() {
    find(|image, table, call| {
        let answer = right(image, table, call);
        if let (Call::AllocateFor { cue, .. }, true) = (call, answer.accepted()) {
            let h = Pointer::unpack(answer.values[0]).address as usize - 16;
            let rest = h + Header::read(image, h as u64).extent as usize;
            if model::sound(image, rest as u64).is_some_and(Header::is_free) {
                image[rest + CUE..rest + 16].copy_from_slice(&cue.to_le_bytes());
            }
        }
        answer
    });
}

#[test]
fn kept_by_free() {
    find(|image, table, call| {
        let before = image.to_vec();
        let answer = right(image, table, call);
        if let (Call::Free { pointer }, true) = (call, answer.accepted()) {
            let h = Pointer::unpack(pointer).address as usize - 16;
            if image[h..h + 16] != [0; 16] {
                image[h + CUE..h + 16].copy_from_slice(&before[h + CUE..h + 16]);
            }
        }
        answer
    });
}

// ---- the header test

/// As the header test was before document 02, W6: 7 in the place of an accepted call, or of 8, where the walk comes to a live
/// header with last bytes.
fn seven_by_last_bytes(image: &mut [u8], table: &mut [u64], call: Call<u64>) -> Answer {
    let before = (image.to_vec(), table.to_vec());
    let answer = right(image, table, call);
    if ![0, 8].contains(&answer.refusal) || !blocks(&before.0).iter().any(|(_, header)| header.is_live() && header.last != 0) {
        return answer;
    }
    image.copy_from_slice(&before.0);
    table.copy_from_slice(&before.1);
    Answer::new(7, [])
}

#[test]
fn live_headers_with_last_bytes_unsound_for_a_walk() {
    let tally: Behaviour = |image, table, call| match call {
        Call::Tally => seven_by_last_bytes(image, table, call),
        call => right(image, table, call),
    };
    let release: Behaviour = |image, table, call| match call {
        Call::Release { .. } => seven_by_last_bytes(image, table, call),
        call => right(image, table, call),
    };
    let no_space: Behaviour = |image, table, call| match (call, right(image, table, call)) {
        (Call::Allocate { .. }, Answer { refusal: 8, .. }) => seven_by_last_bytes(image, table, call),
        (_, answer) => answer,
    };
    for fault in [tally, release, no_space] {
        let failure = find(fault);
        assert!(failure.case.steps.len() <= SHORT, "{failure}");
    }
}

#[test]
fn live_headers_with_last_bytes_unsound_for_a_tag() {
    find(|image, table, call| match (call, right(image, table, call)) {
        (Call::Load { pointer, .. }, Answer { refusal: 0, .. }) if Header::read(image, header_place(image, table, pointer)).last != 0 => Answer::new(11, []),
        (_, answer) => answer,
    });
}

#[test]
fn free_headers_with_last_bytes_sound_for_tally() {
    find(|image, table, call| match (call, right(image, table, call)) {
        (Call::Tally, Answer { refusal: 7, .. }) => right(&mut mended(image, clear_last_bytes), table, call),
        (_, answer) => answer,
    });
}

#[test]
fn free_headers_with_last_bytes_sound_for_release() {
    find(|image, table, call| {
        changed(image, table, call, 7, |release| {
            let mut image = mended(release.image, clear_last_bytes);
            let answer = right(&mut image, release.table, Call::Release { cue: release.cue });
            if answer.accepted() {
                release.image.copy_from_slice(&image);
            }
            answer
        })
    });
}

fn clear_last_bytes(header: &mut Header) {
    if header.is_free() {
        header.last = 0;
    }
}

// ---- release

/// A release that the model has answered.
struct Release<'a> {
    image: &'a mut [u8],
    table: &'a mut [u64],
    before: (Vec<u8>, Vec<u64>),
    s: u32,
    cue: u32,
    answer: Answer,
}

/// How many free blocks an object takes in on each side, and whether bytes are zeroed.
struct Merging {
    before: usize,
    behind: usize,
    zeroing: bool,
}

const AS_IT_IS: Merging = Merging { before: 1, behind: 1, zeroing: true };

impl Release<'_> {
    /// Before it, the blocks up to an unsound header.
    fn blocks(&self) -> Vec<(u64, Header)> {
        blocks(&self.before.0)
    }

    fn entry(&self, (h, header): (u64, Header)) -> Option<usize> {
        let pointer = Pointer::to(self.s, h, header.size.into());
        (!pointer.small).then(|| model::entry(self.s, pointer.tag as u32, h) as usize)
    }

    /// What the entry of a large-framed object held, where that is not its header.
    fn lost(&self, block: (u64, Header)) -> Option<u64> {
        self.entry(block).map(|entry| self.before.1[entry]).filter(|&held| held != block.0)
    }

    fn take_back(&mut self) {
        self.image.copy_from_slice(&self.before.0);
        self.table.copy_from_slice(&self.before.1);
    }

    /// The objects that are meant freed singly after all; gives how many.
    fn instead(&mut self, meant: impl Fn(&Self, (u64, Header)) -> bool, merging: Merging) -> u64 {
        self.take_back();
        let objects: Vec<_> = self.blocks().into_iter().filter(|&block| block.1.is_live() && meant(self, block)).collect();
        for &object in &objects {
            self.free(object, &merging);
        }
        objects.len() as u64
    }

    fn free(&mut self, object: (u64, Header), merging: &Merging) {
        let blocks = blocks(self.image);
        let at = blocks.iter().position(|block| block.0 == object.0).unwrap();
        let are_free = |range: &[(u64, Header)]| range.iter().all(|(_, header)| header.is_free());
        let first = (0..=at).find(|&i| at - i <= merging.before && are_free(&blocks[i..at])).unwrap();
        let last = (at..blocks.len()).rev().find(|&i| i - at <= merging.behind && are_free(&blocks[at + 1..=i])).unwrap();
        let (from, to) = (blocks[first].0, blocks[last].0 + u64::from(blocks[last].1.extent));
        if merging.zeroing {
            self.image[from as usize..to as usize].fill(0);
        }
        write(self.image, from, Header::free(to - from));
        model::set_total(self.image, model::total(self.image) + u64::from(object.1.extent));
        if let Some(entry) = self.entry(object) {
            self.table[entry] = 0;
        }
    }

    /// The objects of the cue.
    fn singly(&mut self, merging: Merging) -> Answer {
        let count = self.instead(|release, (_, header)| header.carries(release.cue), merging);
        Answer::new(0, [count])
    }
}

/// The model, but for releases with this refusal, or accepted ones with 0.
fn changed(image: &mut [u8], table: &mut [u64], call: Call<u64>, refusal: u32, change: fn(Release<'_>) -> Answer) -> Answer {
    let before = (image.to_vec(), table.to_vec());
    match (call, right(image, table, call)) {
        (Call::Release { cue }, answer) if answer.refusal == refusal => {
            // an image without a slot exponent is refused
            let s = image.get(6).map_or(0, |&s| s.into());
            change(Release { image, table, before, s, cue, answer })
        }
        (_, answer) => answer,
    }
}

/// The frees of these faults are right but for what a fault changes.
#[test]
fn no_fault() {
    let right: Behaviour = |image, table, call| changed(image, table, call, 0, |mut release| release.singly(AS_IT_IS));
    compare(&Model, &Faulty(right), 200_000, 1).unwrap_or_else(|failure| panic!("{failure}"));
}

/// All objects of the cue but one.
fn all_but(mut release: Release<'_>, one: fn(&[u64]) -> Option<&u64>) -> Answer {
    let places: Vec<u64> = release.blocks().iter().filter(|(_, header)| header.carries(release.cue)).map(|block| block.0).collect();
    let left = one(&places).copied();
    release.instead(|release, (h, header)| header.carries(release.cue) && Some(h) != left, AS_IT_IS);
    release.answer
}

#[test]
fn leaves_the_first_object() {
    let failure = find(|image, table, call| changed(image, table, call, 0, |release| all_but(release, |places| places.first())));
    assert_eq!(failure.case.steps.len(), 3, "{failure}");
}

const LEAVES_THE_LAST: Behaviour = |image, table, call| changed(image, table, call, 0, |release| all_but(release, |places| places.last()));

#[test]
fn leaves_the_last_object() {
    let failure = find(LEAVES_THE_LAST);
    assert_eq!(failure.case.steps.len(), 3, "{failure}");
}

#[test]
fn leaves_what_stands_behind_the_first_run() {
    find(|image, table, call| {
        changed(image, table, call, 0, |mut release| {
            let blocks = release.blocks();
            let run = blocks.iter().skip_while(|(_, header)| !header.carries(release.cue)).find(|(_, header)| header.is_live() && !header.carries(release.cue));
            let end = run.map_or(u64::MAX, |block| block.0);
            release.instead(|release, (h, header)| header.carries(release.cue) && h < end, AS_IT_IS);
            release.answer
        })
    });
}

#[test]
fn leaves_a_run_at_the_image_s_end() {
    find(|image, table, call| {
        changed(image, table, call, 0, |mut release| {
            let blocks = release.blocks();
            let other = blocks.iter().rposition(|(_, header)| header.is_live() && !header.carries(release.cue));
            let from = other.map_or(0, |i| blocks[i].0);
            let at_the_end = blocks.last().is_some_and(|(_, header)| header.carries(release.cue));
            release.instead(|release, (h, header)| header.carries(release.cue) && !(at_the_end && h > from), AS_IT_IS);
            release.answer
        })
    });
}

#[test]
fn of_every_cue() {
    let failure = find(|image, table, call| {
        changed(image, table, call, 0, |mut release| {
            let count = release.instead(|release, block| release.lost(block).is_none(), AS_IT_IS);
            Answer::new(0, [count])
        })
    });
    // set-up, an object, the release
    assert_eq!(failure.case.steps.len(), 3, "{failure}");
}

#[test]
fn cue_compared_in_16_bits() {
    find(|image, table, call| {
        changed(image, table, call, 0, |mut release| {
            let count = release.instead(|release, block| block.1.last as u16 == release.cue as u16 && release.lost(block).is_none(), AS_IT_IS);
            Answer::new(0, [count])
        })
    });
}

#[test]
fn cue_0_for_none() {
    find(|image, table, call| {
        changed(image, table, call, 0, |mut release| {
            if release.cue == 0 {
                release.take_back();
                return Answer::new(0, []);
            }
            release.answer
        })
    });
}

#[test]
fn cue_without_objects_refused() {
    let failure =
        find(|image, table, call| changed(image, table, call, 0, |release| if release.answer.values[0] == 0 { Answer::new(21, []) } else { release.answer }));
    // set-up, the release
    assert_eq!(failure.case.steps.len(), 2, "{failure}");
}

// ---- release: 7 and 21

/// As if 21 came only for entries that are held like that: others are passed over, or freed.
fn lost_only(mut release: Release<'_>, told: fn(u64, u64) -> bool) -> Answer {
    let lost = |release: &Release<'_>, block: (u64, Header)| release.lost(block).is_some_and(|held| told(held, block.0));
    if release.blocks().into_iter().any(|block| block.1.carries(release.cue) && lost(&release, block)) {
        return release.answer;
    }
    release.singly(AS_IT_IS)
}

#[test]
fn no_entry_tested() {
    find(|image, table, call| changed(image, table, call, 21, |release| lost_only(release, |_, _| false)));
}

#[test]
fn only_zero_is_lost() {
    find(|image, table, call| changed(image, table, call, 21, |release| lost_only(release, |held, _| held == 0)));
}

#[test]
fn zero_is_not_lost() {
    find(|image, table, call| changed(image, table, call, 21, |release| lost_only(release, |held, _| held != 0)));
}

#[test]
fn entry_compared_in_32_bits() {
    find(|image, table, call| changed(image, table, call, 21, |release| lost_only(release, |held, h| held as u32 != h as u32)));
}

#[test]
fn lost_entries_passed_over() {
    find(|image, table, call| {
        changed(image, table, call, 21, |mut release| {
            let count = release.instead(|release, block| block.1.carries(release.cue) && release.lost(block).is_none(), AS_IT_IS);
            Answer::new(0, [count])
        })
    });
}

#[test]
fn only_the_first_entry_tested() {
    find(|image, table, call| {
        changed(image, table, call, 21, |mut release| {
            let first = release.blocks().into_iter().find(|block| block.1.carries(release.cue) && release.entry(*block).is_some());
            if first.is_some_and(|block| release.lost(block).is_some()) {
                return release.answer;
            }
            release.singly(AS_IT_IS)
        })
    });
}

#[test]
fn other_cues_entries_tested() {
    find(|image, table, call| {
        changed(image, table, call, 0, |mut release| {
            if release.blocks().into_iter().any(|block| block.1.is_live() && release.lost(block).is_some()) {
                release.take_back();
                return Answer::new(21, []);
            }
            release.answer
        })
    });
}

#[test]
fn entries_of_small_framed_objects_tested() {
    // as if each object of the cue had one, that of the frame of 2^(s + 1)
    find(|image, table, call| {
        changed(image, table, call, 0, |mut release| {
            let lost = |(h, header): (u64, Header)| header.carries(release.cue) && release.before.1[model::entry(release.s, release.s + 1, h) as usize] != h;
            if release.blocks().into_iter().any(|block| release.entry(block).is_none() && lost(block)) {
                release.take_back();
                return Answer::new(21, []);
            }
            release.answer
        })
    });
}

#[test]
fn lost_entry_before_an_unsound_header() {
    find(|image, table, call| {
        changed(image, table, call, 7, |release| {
            let lost = release.blocks().into_iter().any(|block| block.1.carries(release.cue) && release.lost(block).is_some());
            if lost {
                Answer::new(21, [])
            } else {
                release.answer
            }
        })
    });
}

#[test]
fn unsound_header_behind_its_objects_accepted() {
    find(|image, table, call| {
        changed(image, table, call, 7, |mut release| {
            let of_cue: Vec<_> = release.blocks().into_iter().filter(|block| block.1.carries(release.cue)).collect();
            if of_cue.is_empty() || of_cue.iter().any(|&block| release.lost(block).is_some()) {
                return release.answer;
            }
            release.singly(AS_IT_IS)
        })
    });
}

#[test]
fn writes_before_7() {
    let failure = find(|image, table, call| {
        changed(image, table, call, 7, |mut release| {
            release.instead(|release, block| block.1.carries(release.cue) && release.lost(block).is_none(), AS_IT_IS);
            release.answer
        })
    });
    assert!(failure.case.steps.len() <= SHORT, "{failure}");
}

#[test]
fn writes_before_21() {
    find(|image, table, call| {
        changed(image, table, call, 21, |mut release| {
            let lost = release.blocks().into_iter().find(|&block| block.1.carries(release.cue) && release.lost(block).is_some()).unwrap();
            release.instead(|release, (h, header)| header.carries(release.cue) && h < lost.0, AS_IT_IS);
            release.answer
        })
    });
}

#[test]
fn clears_entries_before_21() {
    find(|image, table, call| {
        changed(image, table, call, 21, |release| {
            let entries = release.blocks().into_iter().filter(|block| block.1.carries(release.cue) && release.lost(*block).is_none());
            let entries: Vec<_> = entries.filter_map(|block| release.entry(block)).collect();
            entries.into_iter().for_each(|entry| release.table[entry] = 0);
            release.answer
        })
    });
}

// ---- release: what it writes

#[test]
fn keeps_entries() {
    let failure = find(|image, table, call| {
        changed(image, table, call, 0, |release| {
            release.table.copy_from_slice(&release.before.1);
            release.answer
        })
    });
    assert!(failure.case.steps.len() <= SHORT, "{failure}");
}

#[test]
fn clears_the_entries_of_the_first_object_alone() {
    find(|image, table, call| {
        changed(image, table, call, 0, |release| {
            let entries: Vec<_> = release.blocks().into_iter().filter(|block| block.1.carries(release.cue)).filter_map(|block| release.entry(block)).collect();
            entries.iter().skip(1).for_each(|&entry| release.table[entry] = release.before.1[entry]);
            release.answer
        })
    });
}

#[test]
fn clears_the_whole_table() {
    find(|image, table, call| {
        changed(image, table, call, 0, |release| {
            if release.answer.values[0] > 0 {
                let used = model::used_entries(release.s, release.image.len() as u64) as usize;
                release.table[..used].fill(0);
            }
            release.answer
        })
    });
}

#[test]
fn keeps_bytes() {
    find(|image, table, call| changed(image, table, call, 0, |mut release| release.singly(Merging { zeroing: false, ..AS_IT_IS })));
}

#[test]
fn keeps_the_bytes_of_a_free_block_before() {
    find(|image, table, call| {
        changed(image, table, call, 0, |release| {
            for (h, header) in blocks(&release.before.0).into_iter().filter(|(_, header)| header.is_free()) {
                let body = h as usize + 16..h as usize + header.extent as usize;
                release.image[body.clone()].copy_from_slice(&release.before.0[body]);
            }
            release.answer
        })
    });
}

#[test]
fn keeps_the_cue() {
    find(|image, table, call| {
        changed(image, table, call, 0, |release| {
            for (h, header) in release.blocks().into_iter().filter(|(_, header)| header.carries(release.cue)) {
                let at = h as usize;
                if release.image[at..at + 16] != [0; 16] {
                    release.image[at + CUE..at + 16].copy_from_slice(&header.last.to_le_bytes());
                }
            }
            release.answer
        })
    });
}

#[test]
fn merges_with_nothing() {
    find(|image, table, call| changed(image, table, call, 0, |mut release| release.singly(Merging { before: 0, behind: 0, ..AS_IT_IS })));
}

#[test]
fn merges_with_no_block_before() {
    let failure = find(|image, table, call| changed(image, table, call, 0, |mut release| release.singly(Merging { before: 0, ..AS_IT_IS })));
    assert!(failure.case.steps.len() <= SHORT, "{failure}");
}

#[test]
fn merges_with_no_block_behind() {
    let failure = find(|image, table, call| changed(image, table, call, 0, |mut release| release.singly(Merging { behind: 0, ..AS_IT_IS })));
    // set-up, an object, the release
    assert_eq!(failure.case.steps.len(), 3, "{failure}");
}

// these show only where free blocks stand side by side, on damaged images

#[test]
fn merges_with_a_second_block_before() {
    find(|image, table, call| changed(image, table, call, 0, |mut release| release.singly(Merging { before: 2, ..AS_IT_IS })));
}

#[test]
fn merges_with_a_second_block_behind() {
    find(|image, table, call| changed(image, table, call, 0, |mut release| release.singly(Merging { behind: 2, ..AS_IT_IS })));
}

#[test]
fn merges_what_stands_between_two_objects() {
    // a run does not end at the second of two free blocks, where an object of the cue is behind it
    find(|image, table, call| {
        changed(image, table, call, 0, |release| {
            let before = release.blocks();
            for four in before.windows(4) {
                let of_cue = |i: usize| four[i].1.carries(release.cue);
                if of_cue(0) && four[1].1.is_free() && four[2].1.is_free() && of_cue(3) {
                    let now = blocks(release.image);
                    let second = now.iter().position(|block| block.0 == four[2].0).unwrap();
                    let (first, behind) = (now[second - 1], now[second]);
                    write(release.image, first.0, Header::free(u64::from(first.1.extent) + u64::from(behind.1.extent)));
                    release.image[behind.0 as usize..behind.0 as usize + 16].fill(0);
                    break;
                }
            }
            release.answer
        })
    });
}

#[test]
fn merges_free_blocks_beside_no_object() {
    find(|image, table, call| {
        changed(image, table, call, 0, |release| {
            let now = blocks(release.image);
            if let Some(two) = now.windows(2).find(|two| two[0].1.is_free() && two[1].1.is_free()) {
                write(release.image, two[0].0, Header::free(u64::from(two[0].1.extent) + u64::from(two[1].1.extent)));
                release.image[two[1].0 as usize..two[1].0 as usize + 16].fill(0);
            }
            release.answer
        })
    });
}

// ---- release: how many

const COUNTS_ONE_MORE: Behaviour = |image, table, call| changed(image, table, call, 0, |release| Answer::new(0, [release.answer.values[0] + 1]));

#[test]
fn counts_one_more() {
    find(COUNTS_ONE_MORE);
}

#[test]
fn counts_nothing() {
    find(|image, table, call| changed(image, table, call, 0, |_| Answer::new(0, [])));
}

#[test]
fn counts_all_objects() {
    find(|image, table, call| {
        changed(image, table, call, 0, |release| Answer::new(0, [release.blocks().iter().filter(|(_, header)| header.is_live()).count() as u64]))
    });
}

#[test]
fn counts_runs() {
    find(|image, table, call| {
        changed(image, table, call, 0, |release| {
            let of_cue: Vec<bool> = release.blocks().iter().map(|(_, header)| header.carries(release.cue)).collect();
            Answer::new(0, [of_cue.chunk_by(|a, b| a == b).filter(|run| run[0]).count() as u64])
        })
    });
}

#[test]
fn counts_large_framed_objects() {
    find(|image, table, call| {
        changed(image, table, call, 0, |release| {
            let large = release.blocks().into_iter().filter(|block| block.1.carries(release.cue) && release.entry(*block).is_some());
            Answer::new(0, [large.count() as u64])
        })
    });
}

#[test]
fn number_beside_7() {
    find(|image, table, call| {
        changed(image, table, call, 7, |release| {
            let passed = release.blocks().into_iter().filter(|block| block.1.carries(release.cue));
            Answer::new(7, [passed.count() as u64])
        })
    });
}

#[test]
fn number_beside_4() {
    find(|image, table, call| changed(image, table, call, 4, |_| Answer::new(4, [1])));
}

#[test]
fn number_beside_5() {
    find(|image, table, call| changed(image, table, call, 5, |_| Answer::new(5, [1])));
}

#[test]
fn number_beside_21() {
    find(|image, table, call| changed(image, table, call, 21, |_| Answer::new(21, [1])));
}

// ---- the driver's own heap

#[test]
fn expected_store_that_is_not_the_heaps() {
    let refuses: Behaviour = |image, table, call| {
        changed(image, table, call, 0, |mut release| {
            release.take_back();
            Answer::new(7, [])
        })
    };
    for fault in [NOT_STORED, LEAVES_THE_LAST, COUNTS_ONE_MORE, refuses] {
        let failure = both(fault);
        assert!(failure.text.contains(&Mismatch::NotTheHeaps.to_string()), "{failure}");
    }
}

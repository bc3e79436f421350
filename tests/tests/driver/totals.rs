//! Faults of the free total and of row 22.

use super::{both, find, right, Behaviour, Faulty, SHORT};
use cueledger_tests::case::Mismatch;
use cueledger_tests::driver::compare;
use cueledger_tests::model::{self, Header, Pointer, SUPERBLOCK};
use cueledger_tests::store::{Answer, Call, Model};

/// A call that changes the total, accepted but for 22: what it takes or gives back, and the total before.
struct Asked {
    total: u64,
    /// L - 16.
    all: u64,
    /// Extent and size of each object, in the order of their addresses.
    objects: Vec<(u64, u64)>,
    /// The free extents that objects were taken from, or have become.
    free: u64,
}

impl Asked {
    fn extents(&self) -> u64 {
        self.objects.iter().map(|object| object.0).sum()
    }

    fn sizes(&self) -> u64 {
        self.objects.iter().map(|object| object.1).sum()
    }

    fn count(&self) -> u64 {
        self.objects.len() as u64
    }

    fn first(&self) -> u64 {
        self.objects.first().map_or(0, |object| object.0)
    }

    fn last(&self) -> u64 {
        self.objects.last().map_or(0, |object| object.0)
    }
}

/// How many bytes are taken of the total or added to it, and whether the call is refused.
#[derive(Clone, Copy)]
struct Rule {
    bytes: fn(&Asked) -> u64,
    refuses: fn(&Asked) -> bool,
}

const TAKES: Rule = Rule { bytes: Asked::extents, refuses: |asked| asked.extents() > asked.total };
const GIVES: Rule = Rule { bytes: Asked::extents, refuses: |asked| asked.total + asked.extents() > asked.all };

/// The calls that change the total; allocate is both of them.
#[derive(Clone, Copy, PartialEq, Eq)]
enum Of {
    Allocate,
    Free,
    Release,
}

use Of::{Allocate, Free, Release};

fn of(call: Call<u64>) -> Option<Of> {
    match call {
        Call::Allocate { .. } | Call::AllocateFor { .. } => Some(Allocate),
        Call::Free { .. } => Some(Free),
        Call::Release { .. } => Some(Release),
        _ => None,
    }
}

fn live(image: &[u8]) -> Vec<(u64, Header)> {
    model::blocks(image).filter(|(_, header)| header.is_live()).collect()
}

/// The extents of the free blocks that are meant, by their first byte and the one behind their last.
fn free_extents(image: &[u8], holds: impl Fn(u64, u64) -> bool) -> u64 {
    let free = model::blocks(image).filter(|&(h, header)| header.is_free() && holds(h, h + u64::from(header.extent)));
    free.map(|(_, header)| u64::from(header.extent)).sum()
}

/// What the call is asked, from the image before and after it.
fn asked(total: u64, before: &[u8], after: &[u8], call: Call<u64>, answer: &Answer) -> Asked {
    let pair = |header: Header| (u64::from(header.extent), u64::from(header.size));
    let start = |pointer| Pointer::unpack(pointer).address - 16;
    let objects: Vec<(u64, Header)> = match call {
        Call::Free { pointer } => vec![(start(pointer), Header::read(before, start(pointer)))],
        Call::Release { cue } => live(before).into_iter().filter(|(_, header)| header.carries(cue)).collect(),
        _ => vec![(start(answer.values[0]), Header::read(after, start(answer.values[0])))],
    };
    let free_in = if of(call) == Some(Allocate) { before } else { after };
    let free = free_extents(free_in, |from, to| objects.iter().any(|&(h, _)| (from..to).contains(&h)));
    Asked { total, all: before.len() as u64 - SUPERBLOCK, objects: objects.into_iter().map(|(_, header)| pair(header)).collect(), free }
}

/// The model of these calls by another rule. What it answers without row 22 is that of a total which no call can exceed.
fn by(image: &mut [u8], table: &mut [u64], call: Call<u64>, which: Of, rule: Rule) -> Answer {
    if of(call) != Some(which) || image.len() < 16 {
        return right(image, table, call);
    }
    let before = (image.to_vec(), table.to_vec());
    let total = model::total(image);
    model::set_total(image, if which == Allocate { u32::MAX.into() } else { 0 });
    let answer = right(image, table, call);
    model::set_total(image, total);
    if !answer.accepted() {
        return answer;
    }
    let asked = asked(total, &before.0, image, call, &answer);
    if (rule.refuses)(&asked) {
        image.copy_from_slice(&before.0);
        table.copy_from_slice(&before.1);
        return Answer::new(22, []);
    }
    let bytes = (rule.bytes)(&asked);
    model::set_total(image, if which == Allocate { total.wrapping_sub(bytes) } else { total + bytes });
    answer
}

/// Faults of one call's rule. A closure that names a rule is no `Behaviour`, so each is written out.
macro_rules! rules {
    ($($name:ident $which:ident $rule:expr;)*) => {$(
        #[test]
        fn $name() {
            find(|image, table, call| by(image, table, call, $which, $rule));
        }
    )*};
}

/// The rules are right but for what a fault changes.
#[test]
fn no_fault() {
    let allocate: Behaviour = |image, table, call| by(image, table, call, Allocate, TAKES);
    let free: Behaviour = |image, table, call| by(image, table, call, Free, GIVES);
    let release: Behaviour = |image, table, call| by(image, table, call, Release, GIVES);
    for right in [allocate, free, release] {
        compare(&Model, &Faulty(right), 200_000, 1).unwrap_or_else(|failure| panic!("{failure}"));
    }
}

// ---- what is taken and given back

rules! {
    allocate_takes_nothing Allocate Rule { bytes: |_| 0, ..TAKES };
    allocate_takes_the_size Allocate Rule { bytes: |asked| asked.sizes(), ..TAKES };
    allocate_takes_16_and_the_size Allocate Rule { bytes: |asked| 16 + asked.sizes(), ..TAKES };
    allocate_takes_the_free_block Allocate Rule { bytes: |asked| asked.free, ..TAKES };
    allocate_takes_the_extent_twice Allocate Rule { bytes: |asked| 2 * asked.extents(), ..TAKES };
    allocate_adds Allocate Rule { bytes: |asked| 0u64.wrapping_sub(asked.extents()), ..TAKES };
    free_gives_nothing_back Free Rule { bytes: |_| 0, ..GIVES };
    free_gives_the_size_back Free Rule { bytes: |asked| asked.sizes(), ..GIVES };
    free_gives_16_and_the_size_back Free Rule { bytes: |asked| 16 + asked.sizes(), ..GIVES };
    free_gives_the_merged_block_back Free Rule { bytes: |asked| asked.free, ..GIVES };
    release_gives_nothing_back Release Rule { bytes: |_| 0, ..GIVES };
    release_gives_the_sizes_back Release Rule { bytes: |asked| asked.sizes(), ..GIVES };
    release_gives_16_and_the_sizes_back Release Rule { bytes: |asked| 16 * asked.count() + asked.sizes(), ..GIVES };
    release_gives_the_merged_blocks_back Release Rule { bytes: |asked| asked.free, ..GIVES };
    release_gives_the_first_extent_back Release Rule { bytes: Asked::first, ..GIVES };
    release_gives_the_last_extent_back Release Rule { bytes: Asked::last, ..GIVES };
    release_gives_all_but_the_last_back Release Rule { bytes: |asked| asked.extents() - asked.last(), ..GIVES };
    release_gives_one_header_back Release Rule { bytes: |asked| 16 * asked.count().min(1) + asked.sizes(), ..GIVES };
}

/// Another total in the place of the new one: made of the old one and that.
fn written(image: &mut [u8], table: &mut [u64], call: Call<u64>, total: fn(u64, u64) -> u64) -> Answer {
    let before = image.get(..16).map_or(0, model::total);
    let answer = right(image, table, call);
    if answer.accepted() && of(call).is_some() {
        let after = model::total(image);
        model::set_total(image, total(before, after));
    }
    answer
}

#[test]
fn not_kept_by_the_old_allocate() {
    let failure = find(|image, table, call| match call {
        Call::Allocate { .. } => written(image, table, call, |before, _| before),
        call => right(image, table, call),
    });
    // set-up, an object
    assert_eq!(failure.case.steps.len(), 2, "{failure}");
}

#[test]
fn not_kept_by_allocate_for() {
    let failure = find(|image, table, call| match call {
        Call::AllocateFor { .. } => written(image, table, call, |before, _| before),
        call => right(image, table, call),
    });
    assert_eq!(failure.case.steps.len(), 2, "{failure}");
}

#[test]
fn kept_in_16_bits() {
    find(|image, table, call| written(image, table, call, |before, after| before & 0xffff_0000 | after & 0xffff));
}

#[test]
fn kept_with_its_highest_byte_first() {
    find(|image, table, call| written(image, table, call, |_, after| (after as u32).swap_bytes().into()));
}

#[test]
fn kept_as_what_the_blocks_are() {
    // shows only where the total was damaged
    find(|image, table, call| {
        let answer = right(image, table, call);
        if let (Some(_), true, Answer { refusal: 0, values: [_, _, free, _] }) = (of(call), answer.accepted(), right(image, table, Call::Tally)) {
            model::set_total(image, free);
        }
        answer
    });
}

#[test]
fn spent_by_a_store() {
    find(|image, table, call| {
        let answer = right(image, table, call);
        if let (Call::Store { width, .. }, true) = (call, answer.accepted()) {
            model::set_total(image, model::total(image) - width.min(model::total(image)));
        }
        answer
    });
}

// ---- set-up

fn set_up_to(image: &mut [u8], table: &mut [u64], call: Call<u64>, total: fn(&[u8], &[u8]) -> u64) -> Answer {
    let before = image.to_vec();
    let answer = right(image, table, call);
    if let (Call::SetUp { .. }, true) = (call, answer.accepted()) {
        let total = total(&before, image);
        model::set_total(image, total);
    }
    answer
}

#[test]
fn not_set_up() {
    let zero: Behaviour = |image, table, call| set_up_to(image, table, call, |_, _| 0);
    let as_before: Behaviour = |image, table, call| set_up_to(image, table, call, |before, _| model::total(before));
    let length: Behaviour = |image, table, call| set_up_to(image, table, call, |_, image| image.len() as u64);
    let less_two_headers: Behaviour = |image, table, call| set_up_to(image, table, call, |_, image| image.len() as u64 - 32);
    let reversed: Behaviour = |image, table, call| set_up_to(image, table, call, |_, image| (image.len() as u32 - 16).swap_bytes().into());
    for fault in [zero, as_before, length, less_two_headers, reversed] {
        let failure = find(fault);
        assert_eq!(failure.case.steps.len(), 1, "{failure}");
    }
}

// ---- 22: whether

rules! {
    allocate_never_refuses Allocate Rule { refuses: |_| false, ..TAKES };
    allocate_stops_at_0 Allocate Rule { bytes: |asked| asked.extents().min(asked.total), refuses: |_| false };
    allocate_refuses_the_last_bytes Allocate Rule { refuses: |asked| asked.extents() >= asked.total, ..TAKES };
    allocate_refuses_one_too_late Allocate Rule { refuses: |asked| asked.extents() > asked.total + 1, ..TAKES };
    allocate_asks_for_the_size Allocate Rule { refuses: |asked| asked.sizes() > asked.total, ..TAKES };
    allocate_asks_for_16_and_the_size Allocate Rule { refuses: |asked| 16 + asked.sizes() > asked.total, ..TAKES };
    allocate_asks_for_the_free_block Allocate Rule { refuses: |asked| asked.free > asked.total, ..TAKES };
    allocate_refuses_a_total_above_all Allocate Rule { refuses: |asked| asked.extents() > asked.total || asked.total > asked.all, ..TAKES };
    allocate_asks_in_31_bits Allocate Rule { refuses: |asked| asked.extents() > asked.total & 0x7fff_ffff, ..TAKES };
    allocate_asks_a_signed_total Allocate Rule { refuses: |asked| asked.extents() as i64 > i64::from(asked.total as i32), ..TAKES };
    free_never_refuses Free Rule { refuses: |_| false, ..GIVES };
    free_stops_at_all Free Rule { bytes: |asked| asked.extents().min(asked.all.saturating_sub(asked.total)), refuses: |_| false };
    free_refuses_the_last_bytes Free Rule { refuses: |asked| asked.total + asked.extents() >= asked.all, ..GIVES };
    free_refuses_one_too_late Free Rule { refuses: |asked| asked.total + asked.extents() > asked.all + 1, ..GIVES };
    free_refuses_from_the_length_on Free Rule { refuses: |asked| asked.total + asked.extents() > asked.all + 16, ..GIVES };
    free_asks_for_the_size Free Rule { refuses: |asked| asked.total + asked.sizes() > asked.all, ..GIVES };
    free_asks_for_16_and_the_size Free Rule { refuses: |asked| asked.total + 16 + asked.sizes() > asked.all, ..GIVES };
    free_asks_for_the_merged_block Free Rule { refuses: |asked| asked.total + asked.free > asked.all, ..GIVES };
    free_asks_for_the_old_total Free Rule { refuses: |asked| asked.total > asked.all, ..GIVES };
    free_adds_in_32_bits Free Rule { refuses: |asked| u64::from((asked.total + asked.extents()) as u32) > asked.all, ..GIVES };
    release_never_refuses Release Rule { refuses: |_| false, ..GIVES };
    release_refuses_the_last_bytes Release Rule { refuses: |asked| asked.total + asked.extents() >= asked.all, ..GIVES };
    release_refuses_one_too_late Release Rule { refuses: |asked| asked.total + asked.extents() > asked.all + 1, ..GIVES };
    release_refuses_from_the_length_on Release Rule { refuses: |asked| asked.total + asked.extents() > asked.all + 16, ..GIVES };
    release_asks_for_the_first_alone Release Rule { refuses: |asked| asked.total + asked.first() > asked.all, ..GIVES };
    release_asks_for_the_last_alone Release Rule { refuses: |asked| asked.total + asked.last() > asked.all, ..GIVES };
    release_asks_for_each_alone Release Rule { refuses: |asked| asked.objects.iter().any(|object| asked.total + object.0 > asked.all), ..GIVES };
    release_asks_for_all_but_the_last Release Rule { refuses: |asked| asked.total + asked.extents() - asked.last() > asked.all, ..GIVES };
    release_asks_for_the_sizes Release Rule { refuses: |asked| asked.total + asked.sizes() > asked.all, ..GIVES };
    release_asks_for_the_merged_blocks Release Rule { refuses: |asked| asked.total + asked.free > asked.all, ..GIVES };
    release_asks_for_the_old_total Release Rule { refuses: |asked| asked.total > asked.all, ..GIVES };
    release_adds_in_32_bits Release Rule { refuses: |asked| u64::from((asked.total + asked.extents()) as u32) > asked.all, ..GIVES };
    release_of_none_is_not_asked Release Rule { refuses: |asked| asked.count() > 0 && (GIVES.refuses)(asked), ..GIVES };
    release_of_none_is_refused_at_all Release Rule { refuses: |asked| (GIVES.refuses)(asked) || asked.count() == 0 && asked.total == asked.all, ..GIVES };
    release_of_one_is_not_asked Release Rule { refuses: |asked| asked.count() != 1 && (GIVES.refuses)(asked), ..GIVES };
    release_of_several_is_not_asked Release Rule { refuses: |asked| asked.count() < 2 && (GIVES.refuses)(asked), ..GIVES };
}

/// As if release freed singly, and stopped where a free is refused by 22.
#[test]
fn release_refuses_midway() {
    find(|image, table, call| match (call, right(image, table, call)) {
        (Call::Release { cue }, Answer { refusal: 22, .. }) => {
            let s = u32::from(image[6]);
            for (h, header) in live(image).into_iter().filter(|(_, header)| header.carries(cue)) {
                let pointer = Pointer::to(s, h, header.size.into()).pack();
                if !right(image, table, Call::Free { pointer }).accepted() {
                    break;
                }
            }
            Answer::new(22, [])
        }
        (_, answer) => answer,
    });
}

// ---- 22: when

/// 22 in the place of another row, where the model would answer it without that row's cause.
fn before(image: &mut [u8], table: &mut [u64], call: Call<u64>, which: Of, row: u32, refuses: fn(&[u8], u64, Call<u64>) -> bool) -> Answer {
    let answer = right(image, table, call);
    if of(call) == Some(which) && answer.refusal == row && refuses(image, model::total(image), call) {
        return Answer::new(22, []);
    }
    answer
}

fn need(call: Call<u64>) -> u64 {
    match call {
        Call::Allocate { size, .. } | Call::AllocateFor { size, .. } => 16 + u64::from(size),
        _ => 0,
    }
}

/// The extents of the cue's objects up to an unsound header.
fn of_cue(image: &[u8], call: Call<u64>) -> u64 {
    let Call::Release { cue } = call else { return 0 };
    live(image).iter().filter(|(_, header)| header.carries(cue)).map(|(_, header)| u64::from(header.extent)).sum()
}

fn all(image: &[u8]) -> u64 {
    image.len() as u64 - SUPERBLOCK
}

#[test]
fn allocate_asks_before_9() {
    find(|image, table, call| before(image, table, call, Allocate, 9, |_, total, call| need(call) > total));
}

#[test]
fn allocate_asks_before_8() {
    let failure = find(|image, table, call| before(image, table, call, Allocate, 8, |_, total, call| need(call) > total));
    assert!(failure.case.steps.len() <= SHORT, "{failure}");
}

#[test]
fn allocate_asks_before_7() {
    find(|image, table, call| before(image, table, call, Allocate, 7, |_, total, call| need(call) > total));
}

#[test]
fn allocate_takes_22_for_8() {
    find(|image, table, call| match (of(call), right(image, table, call)) {
        (Some(Allocate), Answer { refusal: 22, .. }) => Answer::new(8, []),
        (_, answer) => answer,
    });
}

#[test]
fn free_asks_before_7() {
    find(|image, table, call| {
        before(image, table, call, Free, 7, |image, total, call| {
            let Call::Free { pointer } = call else { return false };
            let header = Header::read(image, Pointer::unpack(pointer).address - 16);
            total + u64::from(header.extent) > all(image)
        })
    });
}

#[test]
fn free_asks_before_15() {
    find(|image, table, call| before(image, table, call, Free, 15, |image, total, _| total > all(image)));
}

#[test]
fn free_asks_before_11() {
    find(|image, table, call| before(image, table, call, Free, 11, |image, total, _| total > all(image)));
}

#[test]
fn free_asks_before_10() {
    find(|image, table, call| before(image, table, call, Free, 10, |image, total, _| total > all(image)));
}

#[test]
fn release_asks_before_21() {
    find(|image, table, call| before(image, table, call, Release, 21, |image, total, call| total + of_cue(image, call) > all(image)));
}

#[test]
fn release_asks_before_7() {
    find(|image, table, call| before(image, table, call, Release, 7, |image, total, call| total + of_cue(image, call) > all(image)));
}

// ---- refusals that leave something

/// The total changed although the call is refused by this row.
fn written_on(image: &mut [u8], table: &mut [u64], call: Call<u64>, which: Of, row: u32, bytes: fn(u64, u64) -> u64) -> Answer {
    let answer = right(image, table, call);
    if of(call) == Some(which) && answer.refusal == row {
        model::set_total(image, bytes(model::total(image), all(image)));
    }
    answer
}

#[test]
fn total_written_by_a_refusal() {
    let faults: [Behaviour; 9] = [
        |image, table, call| written_on(image, table, call, Allocate, 22, |_, _| 0),
        |image, table, call| written_on(image, table, call, Allocate, 22, |total, _| total.wrapping_sub(17)),
        |image, table, call| written_on(image, table, call, Allocate, 9, |total, _| total.wrapping_sub(17)),
        |image, table, call| written_on(image, table, call, Allocate, 8, |_, _| 0),
        |image, table, call| written_on(image, table, call, Free, 22, |_, all| all),
        |image, table, call| written_on(image, table, call, Free, 7, |total, _| total + 17),
        |image, table, call| written_on(image, table, call, Free, 15, |total, _| total + 17),
        |image, table, call| written_on(image, table, call, Release, 22, |_, all| all),
        |image, table, call| written_on(image, table, call, Release, 21, |total, _| total + 17),
    ];
    for fault in faults {
        find(fault);
    }
}

#[test]
fn entry_written_before_22() {
    find(|image, table, call| {
        let answer = right(image, table, call);
        if let (Some(Allocate), 22) = (of(call), answer.refusal) {
            let (mut tried, mut entries) = (image.to_vec(), table.to_vec());
            model::set_total(&mut tried, u32::MAX.into());
            right(&mut tried, &mut entries, call);
            table.copy_from_slice(&entries);
        }
        answer
    });
}

#[test]
fn block_written_before_22() {
    let faults: [Behaviour; 3] = [
        |image, table, call| tried(image, table, call, Allocate),
        |image, table, call| tried(image, table, call, Free),
        |image, table, call| tried(image, table, call, Release),
    ];
    for fault in faults {
        find(fault);
    }
}

/// 22 with all else written.
fn tried(image: &mut [u8], table: &mut [u64], call: Call<u64>, which: Of) -> Answer {
    let answer = right(image, table, call);
    if of(call) == Some(which) && answer.refusal == 22 {
        let total = model::total(image);
        model::set_total(image, if which == Allocate { u32::MAX.into() } else { 0 });
        right(image, table, call);
        model::set_total(image, total);
    }
    answer
}

#[test]
fn pointer_beside_22() {
    find(|image, table, call| match (of(call), right(image, table, call)) {
        (Some(Allocate), Answer { refusal: 22, .. }) => Answer::new(22, [0x8010000000000020]),
        (_, answer) => answer,
    });
}

#[test]
fn number_beside_22() {
    find(|image, table, call| match (call, right(image, table, call)) {
        (Call::Release { cue }, Answer { refusal: 22, .. }) => Answer::new(22, [live(image).iter().filter(|(_, header)| header.carries(cue)).count() as u64]),
        (_, answer) => answer,
    });
}

// ---- row 4

#[test]
fn row_4_asks_for_zero() {
    let asks: Behaviour = |image, table, call| match call {
        Call::SetUp { .. } => right(image, table, call),
        _ if image.len() >= 16 && model::total(image) != 0 => Answer::new(4, []),
        call => right(image, table, call),
    };
    let failure = find(asks);
    assert_eq!(failure.case.steps.len(), 2, "{failure}");
}

#[test]
fn row_4_asks_for_a_total_up_to_all() {
    // for one call after the other; shows only where the total was damaged
    let faults: [Behaviour; 6] = [
        |image, table, call| four_above_all(image, table, call, |call| matches!(call, Call::FreeTotal)),
        |image, table, call| four_above_all(image, table, call, |call| matches!(call, Call::Tally)),
        |image, table, call| four_above_all(image, table, call, |call| matches!(call, Call::Load { .. })),
        |image, table, call| four_above_all(image, table, call, |call| of(call) == Some(Allocate)),
        |image, table, call| four_above_all(image, table, call, |call| of(call) == Some(Free)),
        |image, table, call| four_above_all(image, table, call, |call| of(call) == Some(Release)),
    ];
    for fault in faults {
        find(fault);
    }
}

fn four_above_all(image: &mut [u8], table: &mut [u64], call: Call<u64>, which: fn(Call<u64>) -> bool) -> Answer {
    if which(call) && image.len() >= 64 && model::total(image) > all(image) {
        return Answer::new(4, []);
    }
    right(image, table, call)
}

// ---- the call

/// The model, but for what an accepted free total gives, or whether it is refused.
fn given(image: &mut [u8], table: &mut [u64], call: Call<u64>, given: fn(&mut [u8], &mut [u64]) -> Answer) -> Answer {
    match (call, right(image, table, call)) {
        (Call::FreeTotal, Answer { refusal: 0, .. }) => given(image, table),
        (_, answer) => answer,
    }
}

#[test]
fn gives_another_number() {
    // all but the last four show only where the image was damaged
    let faults: [Behaviour; 9] = [
        // what the blocks make it
        |image, table, call| given(image, table, call, |image, table| Answer::new(0, [right(image, table, Call::Tally).values[2]])),
        |image, table, call| given(image, table, call, |image, _| Answer::new(0, [cueledger_tests::totals::of_blocks(image)])),
        |image, table, call| given(image, table, call, |image, _| Answer::new(0, [model::total(image).min(all(image))])),
        |image, table, call| given(image, table, call, |image, _| Answer::new(0, [model::total(image) & 0x7fff_ffff])),
        |image, table, call| given(image, table, call, |image, _| Answer::new(0, [model::total(image) as i32 as u64])),
        |image, table, call| given(image, table, call, |_, _| Answer::new(0, [])),
        |image, table, call| given(image, table, call, |image, _| Answer::new(0, [all(image)])),
        |image, table, call| given(image, table, call, |image, _| Answer::new(0, [image.len() as u64])),
        |image, table, call| given(image, table, call, |image, _| Answer::new(0, [model::total(image) & 0xffff])),
    ];
    for fault in faults {
        let failure = find(fault);
        assert!(failure.case.steps.len() <= SHORT, "{failure}");
    }
}

#[test]
fn refused_by_another_row() {
    // where tally is refused
    find(|image, table, call| {
        given(image, table, call, |image, table| match right(image, table, Call::Tally) {
            Answer { refusal: 0, .. } => right(image, table, Call::FreeTotal),
            refused => refused,
        })
    });
    // where the number cannot be right
    find(|image, table, call| {
        given(image, table, call, |image, table| if model::total(image) > all(image) { Answer::new(22, []) } else { right(image, table, Call::FreeTotal) })
    });
}

#[test]
fn total_beside_a_refusal() {
    let faults: [Behaviour; 2] = [
        |image, table, call| match (call, right(image, table, call)) {
            (Call::FreeTotal, Answer { refusal: 4, .. }) if image.len() >= 16 => Answer::new(4, [model::total(image)]),
            (_, answer) => answer,
        },
        |image, table, call| match (call, right(image, table, call)) {
            (Call::FreeTotal, Answer { refusal: 5, .. }) => Answer::new(5, [model::total(image)]),
            (_, answer) => answer,
        },
    ];
    for fault in faults {
        find(fault);
    }
}

#[test]
fn neither_4_nor_5_asked() {
    let faults: [Behaviour; 2] = [
        |image, table, call| match (call, right(image, table, call)) {
            (Call::FreeTotal, Answer { refusal: 4, .. }) if image.len() >= 16 => Answer::new(0, [model::total(image)]),
            (_, answer) => answer,
        },
        |image, table, call| match (call, right(image, table, call)) {
            (Call::FreeTotal, Answer { refusal: 5, .. }) => Answer::new(0, [model::total(image)]),
            (_, answer) => answer,
        },
    ];
    for fault in faults {
        let failure = find(fault);
        assert!(failure.case.steps.len() <= SHORT, "{failure}");
    }
}

#[test]
fn tally_that_gives_the_stored_total() {
    // shows only where the total was damaged
    find(|image, table, call| match (call, right(image, table, call)) {
        (Call::Tally, Answer { refusal: 0, values: [objects, live, _, overhead] }) => Answer::new(0, [objects, live, model::total(image), overhead]),
        (_, answer) => answer,
    });
}

// ---- the driver's own checks

#[test]
fn expected_store_with_another_total() {
    let faults: [Behaviour; 6] = [
        |image, table, call| set_up_to(image, table, call, |_, image| image.len() as u64 - 17),
        |image, table, call| by(image, table, call, Allocate, Rule { bytes: |asked| 16 + asked.sizes(), ..TAKES }),
        |image, table, call| by(image, table, call, Allocate, Rule { bytes: |_| 0, ..TAKES }),
        |image, table, call| by(image, table, call, Free, Rule { bytes: |asked| asked.sizes(), ..GIVES }),
        |image, table, call| by(image, table, call, Free, Rule { bytes: |_| 0, ..GIVES }),
        |image, table, call| given(image, table, call, |image, _| Answer::new(0, [all(image)])),
    ];
    for fault in faults {
        let failure = both(fault);
        assert!(failure.text.contains(&Mismatch::NotTheTallys.to_string()), "{failure}");
    }
    // single frees leave another total
    let failure = both(|image, table, call| by(image, table, call, Release, Rule { bytes: Asked::first, ..GIVES }));
    assert!(failure.text.contains(&Mismatch::NotTheHeaps.to_string()), "{failure}");
}

#[test]
fn expected_store_that_answers_22() {
    let faults: [(Behaviour, Mismatch); 3] = [
        (
            |image, table, call| by(image, table, call, Allocate, Rule { refuses: |asked| asked.extents() >= asked.total, ..TAKES }),
            Mismatch::WrongTotalInHistory,
        ),
        (
            |image, table, call| by(image, table, call, Free, Rule { refuses: |asked| asked.total + asked.extents() >= asked.all, ..GIVES }),
            Mismatch::WrongTotalInHistory,
        ),
        // a release must be accepted
        (
            |image, table, call| by(image, table, call, Release, Rule { refuses: |asked| asked.total + asked.extents() >= asked.all, ..GIVES }),
            Mismatch::NotTheHeaps,
        ),
    ];
    for (fault, mismatch) in faults {
        let failure = both(fault);
        assert!(failure.text.contains(&mismatch.to_string()), "{failure}");
    }
}

//! Faults with objects of no bytes.

use super::distances::{accepting, bytes, pointers, unchecked, unsound, Of};
use super::{both, find, mended, right, Behaviour, Faulty};
use cueledger_tests::case::Mismatch;
use cueledger_tests::driver::compare;
use cueledger_tests::empties::{is_empty, Empty};
use cueledger_tests::model::{self, Header, Pointer, HEADER};
use cueledger_tests::store::{Answer, Call, Model};

fn write(image: &mut [u8], at: u64, header: Header) {
    image[at as usize..at as usize + 16].copy_from_slice(&header.bytes());
}

fn accepted(value: u64) -> Answer {
    Answer::new(0, [value])
}

// ---- allocate

/// An accepted allocate of no bytes, with image and table as it leaves them.
struct Given<'a> {
    image: &'a mut [u8],
    table: &'a mut [u64],
    before: (Vec<u8>, Vec<u64>),
    call: Call<u64>,
    pointer: u64,
    h: u64,
}

impl Given<'_> {
    fn p(&self) -> Pointer {
        Pointer::unpack(self.pointer)
    }

    fn s(&self) -> u32 {
        self.image[6].into()
    }

    /// The extent of the free block that it takes.
    fn free(&self) -> u32 {
        Header::read(&self.before.0, self.h).extent
    }

    fn at_end(&self) -> bool {
        self.h + HEADER == self.image.len() as u64
    }

    fn right(&self) -> Answer {
        accepted(self.pointer)
    }

    fn undo(&mut self) {
        self.image.copy_from_slice(&self.before.0);
        self.table.copy_from_slice(&self.before.1);
    }

    fn refuse(&mut self, row: u32) -> Answer {
        self.undo();
        Answer::new(row, [])
    }

    fn refuse_where(&mut self, refuses: bool, row: u32) -> Answer {
        if refuses {
            self.refuse(row)
        } else {
            self.right()
        }
    }

    /// With so many bytes.
    fn again(&mut self, size: u32) -> Answer {
        self.undo();
        let call = match self.call {
            Call::AllocateFor { type_number, cue, .. } => Call::AllocateFor { size, type_number, cue },
            Call::Allocate { type_number, .. } => Call::Allocate { size, type_number },
            call => call,
        };
        right(self.image, self.table, call)
    }

    /// With another header; the free block behind it stays.
    fn header(&mut self, change: fn(&mut Header)) -> Answer {
        let mut header = Header::read(self.image, self.h);
        change(&mut header);
        write(self.image, self.h, header);
        self.right()
    }

    /// With so much of the free block as extent.
    fn extent(&mut self, extent: u32) -> Answer {
        let old = Header::read(self.image, self.h);
        self.image[self.h as usize + 16..].copy_from_slice(&self.before.0[self.h as usize + 16..]);
        write(self.image, self.h, Header { extent, ..old });
        self.right()
    }

    fn total(&mut self, taken: u64) -> Answer {
        let total = model::total(&self.before.0).saturating_sub(taken);
        model::set_total(self.image, total);
        self.right()
    }

    /// Its pointer with the wrapper frame of h and this place.
    fn framed(&self, last: u64) -> u64 {
        let (s, wrapper) = (self.s(), model::frame_number(self.h, last));
        let small = wrapper <= s;
        let tag = if small { self.h & ((1 << s) - 1) } else { wrapper.into() };
        Pointer { small, tag, address: self.h + HEADER }.pack()
    }

    /// The one that is there before, in the place of a new one.
    fn the_first_again(&mut self) -> Answer {
        match self.first() {
            Some(first) => {
                self.undo();
                accepted(first)
            }
            None => self.right(),
        }
    }

    /// The one that is there before, if there is one.
    fn first(&self) -> Option<u64> {
        let (h, _) = model::blocks(&self.before.0).find(|block| is_empty(block.1))?;
        Some(Pointer::to(self.s(), h, 0).pack())
    }
}

/// The model with something else done where size 0 is accepted.
fn allocating(image: &mut [u8], table: &mut [u64], call: Call<u64>, fault: fn(&mut Given<'_>) -> Answer) -> Answer {
    let before = (image.to_vec(), table.to_vec());
    let answer = right(image, table, call);
    match call {
        Call::Allocate { size: 0, .. } | Call::AllocateFor { size: 0, .. } if answer.accepted() => {
            let pointer = answer.values[0];
            fault(&mut Given { image, table, before, call, pointer, h: Pointer::unpack(pointer).address - HEADER })
        }
        _ => answer,
    }
}

/// A closure that takes its fault from outside is no `Behaviour`, so each is written out.
macro_rules! allocates {
    ($($name:ident $fault:expr;)*) => {$(
        #[test]
        fn $name() {
            find(|image, table, call| allocating(image, table, call, $fault));
        }
    )*};
}

allocates! {
    refused_by_8 |g| g.refuse(8);
    refused_by_7 |g| g.refuse(7);
    refused_at_the_image_end |g| g.refuse_where(g.at_end(), 8);
    refused_where_large_framed |g| g.refuse_where(!g.p().small, 9);
    refused_in_16_bytes |g| g.refuse_where(g.free() == 16, 8);
    refused_where_bytes_are_spare |g| g.refuse_where((17..32).contains(&g.free()), 8);
    refused_beside_another |g| g.refuse_where(g.first().is_some(), 8);
    rounded_up_to_a_byte |g| g.again(1);
    rounded_up_to_16_bytes |g| g.again(16);
    rounded_up_where_there_is_room |g| if g.free() == 16 { g.right() } else { g.again(1) };
    rounded_up_to_the_spare_bytes |g| if (17..32).contains(&g.free()) { g.again(g.free() - 16) } else { g.right() };
    takes_no_space |g| { g.undo(); g.right() };
    takes_the_whole_block |g| g.extent(g.free());
    takes_a_rest_of_16 |g| if g.free() == 32 { g.extent(32) } else { g.right() };
    leaves_spare_bytes |g| if g.free() < 32 { g.extent(16) } else { g.right() };
    leaves_no_free_header |g| if g.free() < 32 { g.right() } else { g.extent(16) };
    header_of_a_byte |g| g.header(|header| header.size = 1);
    header_of_the_spare_bytes |g| g.header(|header| header.size = header.extent - 16);
    header_of_a_free_block |g| g.header(|header| *header = Header::free(header.extent.into()));
    header_without_a_type |g| g.header(|header| header.type_number = 0);
    header_without_a_cue |g| g.header(|header| header.last = 0);
    total_as_before |g| g.total(0);
    total_less_16 |g| g.total(16);
    total_less_17 |g| g.total(17);
    entry_as_before |g| { g.table.copy_from_slice(&g.before.1); g.right() };
    entry_of_the_base |g| { g.table.iter_mut().zip(&g.before.1).filter(|(new, old)| new != old).for_each(|(new, _)| *new += 16); g.right() };
    pointer_of_0 |_| accepted(0);
    pointer_to_the_header |g| accepted(g.pointer - 16);
    pointer_behind_a_byte |g| accepted(g.pointer + 1);
    pointer_of_one_byte |g| accepted(Pointer::to(g.s(), g.h, 1).pack());
    pointer_without_the_imaginary_byte |g| accepted(g.framed(g.h + 15));
    pointer_by_the_header_place_alone |g| accepted(g.framed(g.h));
    pointer_of_the_first |g| match g.first() { Some(first) => accepted(first), None => g.right() };
    object_of_the_first |g| g.the_first_again();
}

#[test]
fn refused_by_6() {
    let faults: [(Behaviour, &str); 2] = [
        (
            |image, table, call| {
                if matches!(call, Call::Allocate { .. }) {
                    allocating(image, table, call, |g| g.refuse(6))
                } else {
                    right(image, table, call)
                }
            },
            "allocate",
        ),
        (
            |image, table, call| {
                if matches!(call, Call::AllocateFor { .. }) {
                    allocating(image, table, call, |g| g.refuse(6))
                } else {
                    right(image, table, call)
                }
            },
            "allocate for",
        ),
    ];
    for (fault, name) in faults {
        let failure = find(fault);
        // set-up, allocate
        assert_eq!(failure.case.steps.len(), 2, "{failure}");
        assert!(failure.text.contains(&format!("the tested store answered 6, which is no row of {name}")), "{failure}");
    }
}

/// The model without a row of allocate for size 0.
fn admitting(image: &mut [u8], table: &mut [u64], call: Call<u64>, row: u32, admit: fn(&mut [u8], &mut [u64], Call<u64>) -> Answer) -> Answer {
    let answer = right(image, table, call);
    match call {
        Call::Allocate { size: 0, .. } | Call::AllocateFor { size: 0, .. } if answer.refusal == row => admit(image, table, call),
        _ => answer,
    }
}

#[test]
fn rows_left_out() {
    let faults: [Behaviour; 4] = [
        // a pointer to the image's end, where no object is
        |image, table, call| admitting(image, table, call, 8, |image, _, _| accepted(Pointer::to(image[6].into(), image.len() as u64 - HEADER, 0).pack())),
        |image, table, call| admitting(image, table, call, 7, |image, _, _| accepted(Pointer::to(image[6].into(), 16, 0).pack())),
        |image, table, call| {
            admitting(image, table, call, 9, |image, table, call| {
                table.fill(0);
                right(image, table, call)
            })
        },
        |image, table, call| {
            admitting(image, table, call, 22, |image, table, call| {
                model::set_total(image, 31);
                right(image, table, call)
            })
        },
    ];
    for fault in faults {
        find(fault);
    }
}

/// 22 by the header's bytes alone, where some are spare.
#[test]
fn total_asked_for_16_bytes() {
    find(|image, table, call| {
        admitting(image, table, call, 22, |image, table, call| {
            let total = model::total(image);
            if total < 16 {
                return Answer::new(22, []);
            }
            model::set_total(image, 31);
            let answer = right(image, table, call);
            model::set_total(image, 0);
            answer
        })
    });
}

// ---- soundness

/// The blocks whose headers a call's walk tests before it ends as it does.
fn walked(image: &[u8], call: Call<u64>) -> Vec<(u64, Header)> {
    let blocks = model::blocks(image);
    match call {
        Call::Tally | Call::Release { .. } => blocks.collect(),
        Call::Allocate { size, .. } | Call::AllocateFor { size, .. } => {
            blocks.take_while(|(_, header)| header.is_live() || u64::from(header.extent) < HEADER + u64::from(size)).collect()
        }
        Call::Free { pointer } => {
            let h = Pointer::unpack(pointer).address.wrapping_sub(HEADER);
            let next = blocks.scan(false, |past, block| {
                (!*past).then(|| {
                    *past = block.0 > h;
                    block
                })
            });
            next.filter(|block| block.0 != h).collect()
        }
        _ => Vec::new(),
    }
}

/// The model with 7 where a walk meets such a block.
fn walking(image: &mut [u8], table: &mut [u64], call: Call<u64>, which: &str, refuses: fn(u64, Header, u64) -> bool) -> Answer {
    let before = (image.to_vec(), table.to_vec());
    let answer = right(image, table, call);
    let length = image.len() as u64;
    if call.kind().name != which
        || [4, 5, 10, 11, 15].contains(&answer.refusal)
        || !walked(&before.0, call).into_iter().any(|(h, header)| refuses(h, header, length))
    {
        return answer;
    }
    image.copy_from_slice(&before.0);
    table.copy_from_slice(&before.1);
    Answer::new(7, [])
}

/// A header test that asks for more, in each call that walks.
macro_rules! stricter {
    ($($name:ident $refuses:expr;)*) => {$(
        #[test]
        fn $name() {
            let faults: [Behaviour; 5] = [
                |image, table, call| walking(image, table, call, "allocate", $refuses),
                |image, table, call| walking(image, table, call, "allocate for", $refuses),
                |image, table, call| walking(image, table, call, "free", $refuses),
                |image, table, call| walking(image, table, call, "release", $refuses),
                |image, table, call| walking(image, table, call, "tally", $refuses),
            ];
            for fault in faults {
                find(fault);
            }
        }
    )*};
}

stricter! {
    walk_that_asks_for_a_byte |_, header, _| is_empty(header);
    walk_that_asks_for_no_spare_bytes |_, header, _| is_empty(header) && header.extent > 16;
    walk_that_asks_for_spare_bytes |_, header, _| is_empty(header) && header.extent == 16;
    walk_that_asks_for_less_than_15_spare_bytes |_, header, _| is_empty(header) && header.extent == 31;
    walk_that_asks_for_a_base_in_the_image |h, header, length| is_empty(header) && h + HEADER == length;
}

/// A call that walks is refused by 7 where one of the blocks that `walked` gives has no kind, and answers as before where another has
/// none, but for the block that is freed or taken.
fn spoiled(image: &mut [u8], table: &mut [u64], call: Call<u64>) -> Answer {
    let before = (image.to_vec(), table.to_vec());
    let answer = right(image, table, call);
    let own = match call {
        Call::Free { pointer } => Some(Pointer::unpack(pointer).address.wrapping_sub(HEADER)),
        Call::Allocate { size, .. } | Call::AllocateFor { size, .. } if before.0.len() >= 64 => {
            let fits = |header: Header| header.is_free() && u64::from(header.extent) >= HEADER + u64::from(size);
            model::blocks(&before.0).find(|block| fits(block.1)).map(|block| block.0)
        }
        _ => None,
    };
    let walks = matches!(call, Call::Allocate { .. } | Call::AllocateFor { .. } | Call::Free { .. } | Call::Release { .. } | Call::Tally);
    if !walks || [4, 5, 10, 11, 15].contains(&answer.refusal) {
        return answer;
    }
    let walked = walked(&before.0, call);
    for (h, header) in model::blocks(&before.0).filter(|block| own != Some(block.0)) {
        let (mut image, mut table) = before.clone();
        write(&mut image, h, Header { kind: 9, ..header });
        let expected = if walked.iter().any(|block| block.0 == h) { 7 } else { answer.refusal };
        assert_eq!(right(&mut image, &mut table, call).refusal, expected, "{call}, kind 9 at {h}");
    }
    answer
}

#[test]
fn walked_blocks() {
    compare(&Model, &Faulty(spoiled), 50_000, 1).unwrap_or_else(|failure| panic!("{failure}"));
}

/// A tally and distances that take a live header of this extent and size for sound.
macro_rules! laxer {
    ($($name:ident $extent:literal $size:literal;)*) => {$(
        #[test]
        fn $name() {
            find(|image, table, call| match (call, right(image, table, call)) {
                (Call::Tally, Answer { refusal: 7, .. }) => right(&mut mended(image, |header| {
                    if header.is_live() && (header.extent, header.size) == ($extent, $size) {
                        header.size = $extent - 16;
                    }
                }), table, call),
                (_, answer) => answer,
            });
            find(|image, table, call| {
                accepting(image, table, call, |image, h, header, p| unsound(image, h, header, p) && (header.extent, header.size) == ($extent, $size))
            });
        }
    )*};
}

laxer! {
    sound_with_16_spare_bytes 32 0;
    sound_with_32_spare_bytes 48 0;
    sound_without_its_byte 16 1;
    sound_with_16_spare_bytes_behind_one 33 1;
}

/// 15 bytes and none at all would do for a header: the walk goes on behind 16.
#[test]
fn sound_with_less_than_a_header() {
    let faults: [Behaviour; 2] = [
        |image, table, call| match (call, right(image, table, call)) {
            (Call::Tally, Answer { refusal: 7, .. }) => right(
                &mut mended(image, |header| {
                    if is_empty(*header) && header.extent < 16 {
                        header.extent = 16
                    }
                }),
                table,
                call,
            ),
            (_, answer) => answer,
        },
        |image, table, call| accepting(image, table, call, |image, h, header, p| unsound(image, h, header, p) && is_empty(header) && header.extent < 16),
    ];
    for fault in faults {
        find(fault);
    }
}

// ---- calls through its pointer

/// The one pointer that is not good for its first byte, and the object of no bytes that it leads to.
fn outside(image: &[u8], table: &[u64], call: Call<u64>) -> Option<(Of, Empty)> {
    let operands: Vec<_> = pointers(call)?.into_iter().flatten().filter(|operand| model::load(image, table, operand.1, 1).is_err()).collect();
    match operands[..] {
        [(of, pointer)] => Some((of, Empty::led_to(image, table, pointer)?)),
        _ => None,
    }
}

/// The model with another answer in the place of the 13 of this pointer.
fn instead(image: &mut [u8], table: &mut [u64], call: Call<u64>, of: Of, answers: fn(&mut [u8], Call<u64>, Empty) -> Option<Answer>) -> Answer {
    let answer = right(image, table, call);
    match outside(image, table, call) {
        Some((which, empty)) if which == of && answer.refusal == 13 => answers(image, call, empty).unwrap_or(answer),
        _ => answer,
    }
}

/// One byte there, without any test.
fn a_byte(image: &mut [u8], call: Call<u64>, is: bool) -> Option<Answer> {
    if is && bytes(image, call, Of::TextTarget) == Some(1) {
        return unchecked(image, call);
    }
    None
}

/// A fault of each call, for each of its pointers.
macro_rules! accesses {
    ($($name:ident $answers:expr;)*) => {$(
        mod $name {
            use super::*;

            accesses! { $answers; load Load store Store fill Fill copy_to Target copy_from Source compare_left Left compare_right Right text_from TextSource text_to TextTarget }
        }
    )*};
    ($answers:expr; $($name:ident $of:ident)*) => {$(
        #[test]
        fn $name() {
            find(|image, table, call| instead(image, table, call, Of::$of, $answers));
        }
    )*};
}

accesses! {
    byte_where_one_is_spare |image, call, empty| a_byte(image, call, empty.at_base() && empty.spare() > 0);
    byte_behind_its_header |image, call, empty| a_byte(image, call, empty.at_base() && empty.spare() == 0);
    byte_of_its_own_header |image, call, empty| a_byte(image, call, empty.p.address < empty.h + HEADER && empty.p.address >= empty.h);
    nothing_at_the_image_end |_, _, empty| (empty.at_base() && empty.at_end()).then(|| accepted(0));
    nothing_anywhere |_, _, empty| empty.at_base().then(|| accepted(0));
    no_live_header |_, _, _| Some(Answer::new(11, []));
    no_live_header_at_the_image_end |_, _, empty| empty.at_end().then(|| Answer::new(11, []));
    no_live_header_where_large_framed |_, _, empty| (!empty.p.small).then(|| Answer::new(11, []));
}

#[test]
fn other_rows_than_13() {
    let faults: [Behaviour; 6] = [
        |image, table, call| instead(image, table, call, Of::Fill, |_, _, _| Some(Answer::new(6, []))),
        |image, table, call| instead(image, table, call, Of::Target, |_, _, _| Some(Answer::new(6, []))),
        |image, table, call| instead(image, table, call, Of::Source, |_, _, _| Some(Answer::new(6, []))),
        |image, table, call| instead(image, table, call, Of::Left, |_, _, _| Some(Answer::new(6, []))),
        |image, table, call| instead(image, table, call, Of::Right, |_, _, _| Some(Answer::new(6, []))),
        // no zero byte in no bytes
        |image, table, call| instead(image, table, call, Of::TextSource, |_, _, empty| empty.at_base().then(|| Answer::new(20, []))),
    ];
    for fault in faults {
        find(fault);
    }
}

/// 6 before 10, 11 and 13, also of these.
fn of_no_length(image: &mut [u8], table: &mut [u64], call: Call<u64>, of: Of, answer: Answer) -> Answer {
    let given = right(image, table, call);
    let empty = |(which, pointer): (Of, u64)| which == of && Empty::led_to(image, table, pointer).is_some_and(Empty::at_base);
    match pointers(call) {
        Some(pointers) if given.refusal == 6 && pointers.into_iter().flatten().any(empty) => answer,
        _ => given,
    }
}

#[test]
fn lengths_of_0() {
    let faults: [Behaviour; 10] = [
        |image, table, call| of_no_length(image, table, call, Of::Fill, accepted(0)),
        |image, table, call| of_no_length(image, table, call, Of::Target, accepted(0)),
        |image, table, call| of_no_length(image, table, call, Of::Source, accepted(0)),
        |image, table, call| of_no_length(image, table, call, Of::Left, accepted(0)),
        |image, table, call| of_no_length(image, table, call, Of::Right, accepted(0)),
        |image, table, call| of_no_length(image, table, call, Of::Fill, Answer::new(13, [])),
        |image, table, call| of_no_length(image, table, call, Of::Target, Answer::new(13, [])),
        |image, table, call| of_no_length(image, table, call, Of::Source, Answer::new(13, [])),
        |image, table, call| of_no_length(image, table, call, Of::Left, Answer::new(13, [])),
        |image, table, call| of_no_length(image, table, call, Of::Right, Answer::new(13, [])),
    ];
    for fault in faults {
        find(fault);
    }
}

/// The model with other distances of it, or none.
fn measured(image: &mut [u8], table: &mut [u64], call: Call<u64>, answers: fn(Empty, [i64; 2]) -> Result<[i64; 2], u32>) -> Answer {
    let answer = right(image, table, call);
    let Call::Distances { pointer } = call else { return answer };
    match Empty::led_to(image, table, pointer) {
        Some(empty) if answer.accepted() => {
            answers(empty, [answer.values[0] as i64, answer.values[1] as i64]).map(|given| given.map(|distance| distance as u64)).into()
        }
        _ => answer,
    }
}

#[test]
fn distances() {
    let faults: [Behaviour; 9] = [
        |image, table, call| measured(image, table, call, |_, [from, to]| Ok([from, to + 1])),
        |image, table, call| measured(image, table, call, |empty, [from, to]| Ok([from, to + empty.spare() as i64])),
        |image, table, call| measured(image, table, call, |_, [from, to]| Ok([from + 16, to])),
        |image, table, call| measured(image, table, call, |_, _| Ok([0, 0])),
        |image, table, call| measured(image, table, call, |_, [from, _]| Ok([from, from])),
        |image, table, call| measured(image, table, call, |_, _| Err(11)),
        |image, table, call| measured(image, table, call, |_, _| Err(13)),
        |image, table, call| measured(image, table, call, |empty, given| if empty.at_end() && empty.at_base() { Err(11) } else { Ok(given) }),
        |image, table, call| measured(image, table, call, |empty, given| if empty.at_base() { Ok(given) } else { Err(11) }),
    ];
    for fault in faults {
        find(fault);
    }
}

/// The model with another answer to a move of its pointer.
fn moved(image: &mut [u8], table: &mut [u64], call: Call<u64>, answers: fn(Empty, i64, Answer) -> Answer) -> Answer {
    let answer = right(image, table, call);
    let Call::Move { pointer, distance } = call else { return answer };
    match Empty::led_to(image, table, pointer) {
        Some(empty) => answers(empty, distance, answer),
        None => answer,
    }
}

#[test]
fn moves() {
    let faults: [Behaviour; 5] = [
        |image, table, call| moved(image, table, call, |_, _, _| Answer::new(12, [])),
        |image, table, call| moved(image, table, call, |_, distance, answer| if distance != 0 { Answer::new(12, []) } else { answer }),
        |image, table, call| moved(image, table, call, |empty, _, answer| if empty.at_end() && empty.at_base() { Answer::new(12, []) } else { answer }),
        |image, table, call| moved(image, table, call, |empty, distance, answer| if empty.at_end() && distance < 0 { Answer::new(12, []) } else { answer }),
        |image, table, call| moved(image, table, call, |empty, distance, answer| if empty.at_end() && distance > 0 { Answer::new(12, []) } else { answer }),
    ];
    for fault in faults {
        find(fault);
    }
}

// ---- free

/// An accepted free of one, with image and table as it leaves them.
struct Freed<'a> {
    image: &'a mut [u8],
    table: &'a mut [u64],
    before: (Vec<u8>, Vec<u64>),
    empty: Empty,
}

impl Freed<'_> {
    fn refuse_where(&mut self, refuses: bool, row: u32) -> Answer {
        if refuses {
            self.image.copy_from_slice(&self.before.0);
            self.table.copy_from_slice(&self.before.1);
            return Answer::new(row, []);
        }
        accepted(0)
    }

    fn total(&mut self, given_back: u32) {
        let total = model::total(&self.before.0) + u64::from(given_back);
        model::set_total(self.image, total);
    }

    /// As before from this place on, for so many bytes.
    fn leave(&mut self, at: u64, count: u64) {
        let range = at as usize..(at + count) as usize;
        self.image[range.clone()].copy_from_slice(&self.before.0[range]);
    }

    fn next(&self) -> Option<(u64, Header)> {
        let next = self.empty.h + u64::from(self.empty.header.extent);
        model::sound(&self.before.0, next).map(|header| (next, header))
    }

    /// The free block directly behind it stays one of its own.
    fn unmerged(&mut self) {
        let Some((next, _)) = self.next().filter(|next| next.1.is_free()) else { return };
        let Some((from, _)) = model::blocks(self.image).find(|(at, header)| (*at..at + u64::from(header.extent)).contains(&self.empty.h)) else { return };
        write(self.image, from, Header::free(next - from));
        self.leave(next, HEADER);
    }
}

fn freeing(image: &mut [u8], table: &mut [u64], call: Call<u64>, fault: fn(&mut Freed<'_>) -> Answer) -> Answer {
    let before = (image.to_vec(), table.to_vec());
    let answer = right(image, table, call);
    let Call::Free { pointer } = call else { return answer };
    match Empty::led_to(&before.0, &before.1, pointer) {
        Some(empty) if answer.accepted() => fault(&mut Freed { image, table, before, empty }),
        _ => answer,
    }
}

macro_rules! frees {
    ($($name:ident $fault:expr;)*) => {$(
        #[test]
        fn $name() {
            find(|image, table, call| freeing(image, table, call, $fault));
        }
    )*};
}

frees! {
    free_refused_by_15 |f| f.refuse_where(true, 15);
    free_refused_by_11 |f| f.refuse_where(true, 11);
    free_refused_by_7 |f| f.refuse_where(true, 7);
    free_refused_by_13 |f| f.refuse_where(true, 13);
    free_refused_at_the_image_end |f| f.refuse_where(f.empty.at_end(), 11);
    free_refused_where_bytes_are_spare |f| f.refuse_where(f.empty.spare() > 0, 15);
    free_refused_where_large_framed |f| f.refuse_where(!f.empty.p.small, 11);
    free_of_nothing |f| f.refuse_where(true, 0);
    free_that_leaves_the_entry |f| { f.table.copy_from_slice(&f.before.1); accepted(0) };
    free_that_gives_nothing_back |f| { f.total(0); accepted(0) };
    free_that_gives_16_back |f| { f.total(16); accepted(0) };
    free_that_leaves_a_merged_header |f| { if f.image[f.empty.h as usize..][..16] == [0; 16] { f.leave(f.empty.h, HEADER); } accepted(0) };
    free_that_does_not_merge |f| { f.unmerged(); accepted(0) };
    free_that_leaves_spare_bytes |f| { let spare = f.empty.spare(); f.leave(f.empty.base(), spare); accepted(0) };
}

/// At its header, past its base, and before its header.
#[test]
fn free_beside_it() {
    let faults: [Behaviour; 3] = [
        |image, table, call| freeing_beside(image, table, call, |empty| empty.p.address == empty.h),
        |image, table, call| freeing_beside(image, table, call, |empty| empty.p.address > empty.h + HEADER),
        |image, table, call| freeing_beside(image, table, call, |empty| empty.p.address < empty.h),
    ];
    for fault in faults {
        find(fault);
    }
}

fn freeing_beside(image: &mut [u8], table: &mut [u64], call: Call<u64>, frees: fn(Empty) -> bool) -> Answer {
    let answer = right(image, table, call);
    let Call::Free { pointer } = call else { return answer };
    match Empty::led_to(image, table, pointer) {
        Some(empty) if answer.refusal == 15 && frees(empty) => {
            right(image, table, Call::Free { pointer: Pointer { address: empty.h + HEADER, ..empty.p }.pack() })
        }
        _ => answer,
    }
}

// ---- release and tally

/// The objects of no bytes of a release's cue.
fn of_cue(image: &[u8], call: Call<u64>) -> Vec<(u64, Header)> {
    match call {
        Call::Release { cue } if image.len() >= 64 => model::blocks(image).filter(|(_, header)| is_empty(*header) && header.carries(cue)).collect(),
        _ => Vec::new(),
    }
}

/// The table entry of a large-framed one.
fn entry(s: u32, h: u64) -> Option<usize> {
    let p = Pointer::to(s, h, 0);
    (!p.small).then(|| model::entry(s, p.tag as u32, h) as usize)
}

/// They stay, as if they carried another cue.
fn release_of_others(image: &mut [u8], table: &mut [u64], call: Call<u64>) -> Answer {
    let empties = of_cue(image, call);
    for &(h, header) in &empties {
        write(image, h, Header { last: !header.last, ..header });
    }
    let answer = right(image, table, call);
    for (h, header) in empties {
        write(image, h, header);
    }
    answer
}

/// Of image and table, the entries before, the objects of no bytes, and the answer.
type Released = fn(&mut [u8], &mut [u64], &[u64], Vec<(u64, Header)>, Answer) -> Answer;

fn releasing(image: &mut [u8], table: &mut [u64], call: Call<u64>, fault: Released) -> Answer {
    let (entries, empties) = (table.to_vec(), of_cue(image, call));
    let answer = right(image, table, call);
    if answer.accepted() && !empties.is_empty() {
        fault(image, table, &entries, empties, answer)
    } else {
        answer
    }
}

#[test]
fn releases() {
    let faults: [Behaviour; 6] = [
        release_of_others,
        // freed and not counted
        |image, table, call| releasing(image, table, call, |_, _, _, empties, answer| accepted(answer.values[0] - empties.len() as u64)),
        |image, table, call| {
            releasing(image, table, call, |image, table, entries, empties, answer| {
                let s = image[6].into();
                empties.into_iter().filter_map(|(h, _)| entry(s, h)).for_each(|entry| table[entry] = entries[entry]);
                answer
            })
        },
        |image, table, call| {
            releasing(image, table, call, |image, _, _, empties, answer| {
                let total = model::total(image);
                model::set_total(image, total - 16 * empties.len() as u64);
                answer
            })
        },
        |image, table, call| {
            releasing(image, table, call, |image, _, _, empties, answer| {
                let spare: u32 = empties.iter().map(|(_, header)| header.extent - 16).sum();
                let total = model::total(image);
                model::set_total(image, total - u64::from(spare));
                answer
            })
        },
        // 21 is not asked of them
        |image, table, call| {
            let answer = right(image, table, call);
            if answer.refusal == 21 {
                let s = image[6].into();
                let before = table.to_vec();
                of_cue(image, call).into_iter().filter_map(|(h, _)| entry(s, h).map(|entry| (entry, h))).for_each(|(entry, h)| table[entry] = h);
                let mended = right(image, table, call);
                if mended.accepted() {
                    return mended;
                }
                table.copy_from_slice(&before);
            }
            answer
        },
    ];
    for fault in faults {
        find(fault);
    }
}

/// Another count, where the image has such objects: of their number and their spare bytes.
fn tallying(image: &mut [u8], table: &mut [u64], call: Call<u64>, values: fn([u64; 4], u64, u64) -> [u64; 4]) -> Answer {
    match (call, right(image, table, call)) {
        (Call::Tally, Answer { refusal: 0, values: given }) => {
            let empties: Vec<u64> = model::blocks(image).filter(|block| is_empty(block.1)).map(|(_, header)| u64::from(header.extent) - HEADER).collect();
            Answer::new(0, values(given, empties.len() as u64, empties.iter().sum()))
        }
        (_, answer) => answer,
    }
}

#[test]
fn tallies() {
    let faults: [Behaviour; 6] = [
        |image, table, call| tallying(image, table, call, |[objects, live, free, overhead], count, _| [objects - count, live, free, overhead]),
        |image, table, call| tallying(image, table, call, |[objects, live, free, overhead], count, _| [objects, live + count, free, overhead - count]),
        |image, table, call| tallying(image, table, call, |[objects, live, free, overhead], count, _| [objects, live, free, overhead - 16 * count]),
        |image, table, call| tallying(image, table, call, |[objects, live, free, overhead], _, spare| [objects, live, free, overhead - spare]),
        |image, table, call| tallying(image, table, call, |[objects, live, free, overhead], _, spare| [objects, live + spare, free, overhead - spare]),
        // free blocks
        |image, table, call| {
            tallying(image, table, call, |[objects, live, free, overhead], count, spare| {
                [objects - count, live, free + 16 * count + spare, overhead - 16 * count - spare]
            })
        },
    ];
    for fault in faults {
        find(fault);
    }
}

// ---- the driver's own checks

fn finds(mismatch: Mismatch, faults: &[Behaviour]) {
    for (place, &fault) in faults.iter().enumerate() {
        let failure = both(fault);
        assert!(failure.text.contains(&mismatch.to_string()), "{place}: {failure}");
    }
}

#[test]
fn expected_store_that_wastes_room() {
    finds(
        Mismatch::NotByRoom,
        &[
            |image, table, call| allocating(image, table, call, |g| g.refuse(8)),
            |image, table, call| allocating(image, table, call, |g| g.refuse_where(g.free() == 16, 8)),
            |image, table, call| allocating(image, table, call, |g| g.refuse_where(g.at_end(), 8)),
            |image, table, call| allocating(image, table, call, |g| g.refuse_where(!g.p().small, 8)),
        ],
    );
}

/// Where there is no room, it gives the pointer of one that is there.
#[test]
fn expected_store_that_finds_room_where_none_is() {
    let without_room: Behaviour = |image, table, call| {
        admitting(image, table, call, 8, |image, _, _| match model::blocks(image).find(|block| is_empty(block.1)) {
            Some((h, _)) => accepted(Pointer::to(image[6].into(), h, 0).pack()),
            None => Answer::new(8, []),
        })
    };
    finds(Mismatch::NotByRoom, &[without_room]);
}

#[test]
fn expected_store_that_gives_a_pointer_twice() {
    finds(Mismatch::NotItsOwn, &[|image, table, call| allocating(image, table, call, |g| g.the_first_again())]);
}

#[test]
fn expected_store_without_the_object() {
    finds(
        Mismatch::NotByDistances,
        &[
            |image, table, call| {
                allocating(image, table, call, |g| {
                    g.undo();
                    g.right()
                })
            },
            |image, table, call| allocating(image, table, call, |g| g.again(1)),
            |image, table, call| instead(image, table, call, Of::Load, |image, call, empty| a_byte(image, call, empty.at_base())),
            |image, table, call| instead(image, table, call, Of::Store, |image, call, empty| a_byte(image, call, empty.at_base())),
        ],
    );
}

#[test]
fn expected_store_that_does_not_release_it() {
    finds(Mismatch::NotTheHeaps, &[release_of_others]);
}

//! Faults of distances, and of the calls that measure by them: at both ends of the body.

use super::{both, find, right, Behaviour, Faulty};
use cueledger_tests::case::{Action, Arg, Buffers, Case, Damage, Mismatch, Step};
use cueledger_tests::driver::compare;
use cueledger_tests::model::{self, Header, Pointer};
use cueledger_tests::store::{Answer, Call, Model};

// ---- what is given

/// What the distances are made of.
#[derive(Clone, Copy)]
struct Measured {
    s: u32,
    pointer: u64,
    address: i64,
    /// The header's place.
    h: i64,
    extent: i64,
    size: i64,
    from_start: i64,
    to_end: i64,
}

impl Measured {
    fn new(image: &[u8], pointer: u64, answer: &Answer) -> Measured {
        let [from_start, to_end, ..] = answer.values.map(|value| value as i64);
        let address = Pointer::unpack(pointer).address as i64;
        let h = address - from_start - 16;
        let header = Header::read(image, h as u64);
        Measured { s: image[6].into(), pointer, address, h, extent: header.extent.into(), size: header.size.into(), from_start, to_end }
    }

    /// The address's place in its slot or frame.
    fn in_frame(self) -> i64 {
        let p = Pointer::unpack(self.pointer);
        self.address & ((1 << if p.small { self.s } else { p.tag as u32 }) - 1)
    }
}

/// The model with other distances where it accepts.
fn given(image: &mut [u8], table: &mut [u64], call: Call<u64>, distances: fn(Measured) -> [i64; 2]) -> Answer {
    match (call, right(image, table, call)) {
        (Call::Distances { pointer }, answer @ Answer { refusal: 0, .. }) => {
            Answer::new(0, distances(Measured::new(image, pointer, &answer)).map(|distance| distance as u64))
        }
        (_, answer) => answer,
    }
}

/// Faults of the two numbers. A closure that takes its numbers from outside is no `Behaviour`, so each is written out.
macro_rules! numbers {
    ($($name:ident $distances:expr;)*) => {$(
        #[test]
        fn $name() {
            find(|image, table, call| given(image, table, call, $distances));
        }
    )*};
}

/// The numbers are right but for what a fault changes.
#[test]
fn no_fault() {
    let made: Behaviour = |image, table, call| given(image, table, call, |m| [m.address - m.h - 16, m.h + 16 + m.size - m.address]);
    compare(&Model, &Faulty(made), 200_000, 1).unwrap_or_else(|failure| panic!("{failure}"));
}

/// What the exports are handed before, so what stands in a value that is not written.
const STALE: i64 = 0xdead_beef_dead_beef_u64 as i64;

numbers! {
    swapped |m| [m.to_end, m.from_start];
    swapped_outside |m| if m.from_start < 0 || m.to_end < 0 { [m.to_end, m.from_start] } else { [m.from_start, m.to_end] };
    start_without_a_sign |m| [m.from_start.abs(), m.to_end];
    end_without_a_sign |m| [m.from_start, m.to_end.abs()];
    start_with_the_other_sign |m| [-m.from_start, m.to_end];
    end_with_the_other_sign |m| [m.from_start, -m.to_end];
    start_not_below_0 |m| [m.from_start.max(0), m.to_end];
    end_not_below_0 |m| [m.from_start, m.to_end.max(0)];
    start_not_above_the_size |m| [m.from_start.min(m.size), m.to_end];
    end_not_above_the_size |m| [m.from_start, m.to_end.min(m.size)];
    neither_outside_the_body |m| [m.from_start.clamp(0, m.size), m.to_end.clamp(0, m.size)];
    start_of_32_bits |m| [i64::from(m.from_start as u32), m.to_end];
    end_of_32_bits |m| [m.from_start, i64::from(m.to_end as u32)];
    start_of_16_bits |m| [i64::from(m.from_start as i16), m.to_end];
    end_of_16_bits |m| [m.from_start, i64::from(m.to_end as i16)];
    start_from_the_header |m| [m.address - m.h, m.to_end];
    end_from_the_header |m| [m.from_start, m.h + m.size - m.address];
    both_from_the_header |m| [m.address - m.h, m.h + m.size - m.address];
    end_by_the_extent |m| [m.from_start, m.h + m.extent - m.address];
    end_by_the_extent_behind_the_base |m| [m.from_start, m.h + 16 + m.extent - m.address];
    start_one_more |m| [m.from_start + 1, m.to_end];
    start_one_less |m| [m.from_start - 1, m.to_end];
    end_one_more |m| [m.from_start, m.to_end + 1];
    end_one_less |m| [m.from_start, m.to_end - 1];
    both_one_up |m| [m.from_start + 1, m.to_end - 1];
    both_one_down |m| [m.from_start - 1, m.to_end + 1];
    end_at_the_last_byte_outside |m| [m.from_start, m.to_end - i64::from(m.to_end <= 0)];
    start_from_the_frame |m| [m.in_frame(), m.to_end];
    start_from_the_frame_where_before |m| if m.from_start < 0 { [m.in_frame(), m.to_end] } else { [m.from_start, m.to_end] };
    start_is_the_address |m| [m.address, m.to_end];
    end_is_the_size |m| [m.from_start, m.size];
    end_is_the_size_where_before |m| if m.from_start < 0 { [m.from_start, m.size] } else { [m.from_start, m.to_end] };
    tag_not_taken_off |m| [(m.pointer as i64).wrapping_sub(m.h + 16), m.to_end];
    start_not_written |m| [STALE, m.to_end];
    end_not_written |m| [m.from_start, STALE];
    start_not_written_outside |m| if m.from_start < 0 { [STALE, m.to_end] } else { [m.from_start, m.to_end] };
    end_not_written_outside |m| if m.to_end < 0 { [m.from_start, STALE] } else { [m.from_start, m.to_end] };
    nothing_given |_| [0, 0];
}

// ---- refusals

/// The model, but for accepted distances of this kind, which are refused.
fn refusing(image: &mut [u8], table: &mut [u64], call: Call<u64>, row: u32, refuses: fn(Measured, u64) -> bool) -> Answer {
    match (call, right(image, table, call)) {
        (Call::Distances { pointer }, answer @ Answer { refusal: 0, .. }) if refuses(Measured::new(image, pointer, &answer), image.len() as u64) => {
            Answer::new(row, [])
        }
        (_, answer) => answer,
    }
}

#[test]
fn thirteen_outside_the_body() {
    let faults: [Behaviour; 4] = [
        |image, table, call| refusing(image, table, call, 13, |m, _| m.from_start < 0),
        |image, table, call| refusing(image, table, call, 13, |m, _| m.to_end < 0),
        |image, table, call| refusing(image, table, call, 13, |m, _| m.to_end == 0),
        |image, table, call| refusing(image, table, call, 12, |m, _| m.from_start < 0 || m.to_end < 0),
    ];
    for fault in faults {
        let failure = find(fault);
        assert!(failure.text.contains("which is no row of distances"), "{failure}");
    }
}

#[test]
fn eleven_in_frame() {
    let faults: [Behaviour; 6] = [
        |image, table, call| refusing(image, table, call, 11, |m, _| m.from_start < 0),
        |image, table, call| refusing(image, table, call, 11, |m, _| m.to_end < 0),
        |image, table, call| refusing(image, table, call, 11, |m, _| m.from_start < -16),
        |image, table, call| refusing(image, table, call, 11, |m, _| m.in_frame() == 0),
        |image, table, call| refusing(image, table, call, 11, |m, _| m.address == 0),
        |image, table, call| refusing(image, table, call, 11, |m, length| m.address as u64 >= length),
    ];
    for fault in faults {
        find(fault);
    }
}

/// The model with other values or another row where it refuses by this row.
fn refused(image: &mut [u8], table: &mut [u64], call: Call<u64>, row: u32, answers: fn(&[u8], &[u64], u64) -> Option<Answer>) -> Answer {
    let answer = right(image, table, call);
    match call {
        Call::Distances { pointer } if answer.refusal == row => answers(image, table, pointer).unwrap_or(answer),
        _ => answer,
    }
}

#[test]
fn distances_beside_a_refusal() {
    let faults: [Behaviour; 12] = [
        |image, table, call| refused(image, table, call, 4, |_, _, _| Some(Answer::new(4, [STALE as u64, 0]))),
        |image, table, call| refused(image, table, call, 4, |_, _, _| Some(Answer::new(4, [0, STALE as u64]))),
        |image, table, call| refused(image, table, call, 5, |_, _, _| Some(Answer::new(5, [STALE as u64, 0]))),
        |image, table, call| refused(image, table, call, 5, |_, _, _| Some(Answer::new(5, [0, STALE as u64]))),
        |image, table, call| refused(image, table, call, 10, |_, _, _| Some(Answer::new(10, [STALE as u64, 0]))),
        |image, table, call| refused(image, table, call, 10, |_, _, _| Some(Answer::new(10, [0, STALE as u64]))),
        |image, table, call| refused(image, table, call, 11, |_, _, _| Some(Answer::new(11, [STALE as u64, 0]))),
        |image, table, call| refused(image, table, call, 11, |_, _, _| Some(Answer::new(11, [0, STALE as u64]))),
        // in the place of 0, base and end of an object at 0
        |image, table, call| refused(image, table, call, 10, |_, _, pointer| Some(Answer::new(10, [Pointer::unpack(pointer).address]))),
        |image, table, call| refused(image, table, call, 11, |_, _, pointer| Some(Answer::new(11, [Pointer::unpack(pointer).address]))),
        |image, table, call| refused(image, table, call, 11, |_, _, pointer| Some(Answer::new(11, [0, Pointer::unpack(pointer).address.wrapping_neg()]))),
        |image, table, call| refused(image, table, call, 11, |_, _, _| Some(Answer::new(11, [16, 16u64.wrapping_neg()]))),
    ];
    for fault in faults {
        find(fault);
    }
}

#[test]
fn rows_left_out() {
    let faults: [Behaviour; 6] = [
        |image, table, call| refused(image, table, call, 4, |_, _, _| Some(Answer::new(0, []))),
        |image, table, call| refused(image, table, call, 5, |_, _, _| Some(Answer::new(0, []))),
        |image, table, call| refused(image, table, call, 10, |_, _, _| Some(Answer::new(0, []))),
        |image, table, call| refused(image, table, call, 11, |_, _, _| Some(Answer::new(0, []))),
        |image, table, call| refused(image, table, call, 10, |_, _, _| Some(Answer::new(11, []))),
        |image, table, call| refused(image, table, call, 11, |_, _, _| Some(Answer::new(10, []))),
    ];
    for fault in faults {
        find(fault);
    }
}

/// As the superblock has it.
fn exponent(image: &[u8]) -> Option<u32> {
    image.get(6).map(|&s| u32::from(s)).filter(|s| (6..=15).contains(s) && image.len() >= 64)
}

/// 10 before 4 or 5.
fn tag_first(image: &[u8], _: &[u64], pointer: u64) -> Option<Answer> {
    (!Pointer::unpack(pointer).tag_in_range(exponent(image)?)).then(|| Answer::new(10, []))
}

/// Accepted before 5: a small-framed pointer needs no table.
fn small_framed_first(image: &[u8], _: &[u64], pointer: u64) -> Option<Answer> {
    let entries = model::used_entries(exponent(image)?, image.len() as u64);
    let answer = model::distances(image, &vec![0; entries as usize], pointer);
    answer.ok().map(|distances| Answer::new(0, distances.map(|distance| distance as u64)))
}

#[test]
fn rows_in_another_order() {
    find(|image, table, call| refused(image, table, call, 4, tag_first));
    find(|image, table, call| refused(image, table, call, 5, tag_first));
    find(|image, table, call| refused(image, table, call, 5, small_framed_first));
    find(|image, table, call| refused(image, table, call, 4, |image, table, _| (image.len() >= 64 && table.len() < 48).then(|| Answer::new(5, []))));
}

/// The header that a tag in range leads to, and its place, if there are 16 bytes.
fn led_to(image: &[u8], table: &[u64], p: Pointer) -> Option<(u64, Header)> {
    let s = exponent(image).filter(|&s| p.tag_in_range(s))?;
    let reach = p.reach(s);
    let start = p.address >> reach << reach;
    let h = if p.small { start + p.tag } else { *table.get(model::entry(s, reach, p.address) as usize)? };
    (start < image.len() as u64 && h <= image.len() as u64 - 16).then(|| (h, Header::read(image, h)))
}

/// The model without 11 where the header that the tag leads to is so.
pub(super) fn accepting(image: &mut [u8], table: &mut [u64], call: Call<u64>, accepts: fn(&[u8], u64, Header, Pointer) -> bool) -> Answer {
    let answer = right(image, table, call);
    let Call::Distances { pointer } = call else { return answer };
    let p = Pointer::unpack(pointer);
    match led_to(image, table, p) {
        Some((h, header)) if answer.refusal == 11 && accepts(image, h, header, p) => {
            let from_start = p.address.wrapping_sub(h + 16);
            Answer::new(0, [from_start, u64::from(header.size).wrapping_sub(from_start)])
        }
        _ => answer,
    }
}

fn sound_and_live(image: &[u8], h: u64) -> bool {
    model::sound(image, h).is_some_and(|header| header.is_live())
}

fn in_its_frame(image: &[u8], h: u64, p: Pointer) -> bool {
    let reach = p.reach(image[6].into());
    h >> reach == p.address >> reach
}

/// Whether flag and tag number are those of the header.
fn tags(image: &[u8], h: u64, header: Header, p: Pointer) -> bool {
    let afresh = Pointer::to(image[6].into(), h, header.size.into());
    (afresh.small, afresh.tag) == (p.small, p.tag)
}

/// Live, at a place from 16 on, with the tag: unsound by its extent or size alone.
pub(super) fn unsound(image: &[u8], h: u64, header: Header, p: Pointer) -> bool {
    h >= 16 && header.is_live() && in_its_frame(image, h, p) && tags(image, h, header, p)
}

#[test]
fn eleven_by_fewer_tests() {
    let faults: [Behaviour; 9] = [
        |image, table, call| accepting(image, table, call, |_, _, header, _| header.is_free()),
        |image, table, call| accepting(image, table, call, |_, _, header, _| header.is_live()),
        |image, table, call| accepting(image, table, call, |image, h, _, p| sound_and_live(image, h) && in_its_frame(image, h, p)),
        |image, table, call| accepting(image, table, call, |image, h, header, p| sound_and_live(image, h) && tags(image, h, header, p)),
        |image, table, call| accepting(image, table, call, |image, h, header, p| unsound(image, h, header, p) && header.size == 0),
        |image, table, call| accepting(image, table, call, |image, h, header, p| unsound(image, h, header, p) && header.extent < 16),
        |image, table, call| {
            accepting(image, table, call, |image, h, header, p| unsound(image, h, header, p) && header.extent > header.size.saturating_add(31))
        },
        |image, table, call| {
            accepting(image, table, call, |image, h, header, p| unsound(image, h, header, p) && header.extent < header.size.saturating_add(16))
        },
        |image, table, call| accepting(image, table, call, |image, h, header, p| h == 15 && tags(image, h, header, p)),
    ];
    for fault in faults {
        find(fault);
    }
}

/// 11 in the place of 10 for this tag.
fn one_further(image: &mut [u8], table: &mut [u64], call: Call<u64>, is: fn(u64, Pointer) -> bool) -> Answer {
    match (call, right(image, table, call)) {
        (Call::Distances { pointer }, Answer { refusal: 10, .. }) if is(image[6].into(), Pointer::unpack(pointer)) => Answer::new(11, []),
        (_, answer) => answer,
    }
}

#[test]
fn tag_range_off_by_one() {
    let faults: [Behaviour; 3] = [
        |image, table, call| one_further(image, table, call, |s, p| p.small && p.tag == 1 << s),
        |image, table, call| one_further(image, table, call, |s, p| !p.small && p.tag == s),
        |image, table, call| one_further(image, table, call, |_, p| !p.small && p.tag == 32),
    ];
    for fault in faults {
        find(fault);
    }
}

// ---- what is written

#[test]
fn written_by_distances() {
    let faults: [Behaviour; 4] = [
        |image, table, call| writing(image, table, call, 0, |image, _, at| image[at] ^= 1),
        |image, table, call| writing(image, table, call, 0, |_, table, _| table[0] ^= 1),
        |image, table, call| writing(image, table, call, 10, |image, _, _| image[16] ^= 1),
        |image, table, call| writing(image, table, call, 11, |_, table, _| table[0] ^= 1),
    ];
    for fault in faults {
        find(fault);
        both(fault);
    }
}

/// Something written where distances are accepted or refused so; the place is the address, inside the image.
fn writing(image: &mut [u8], table: &mut [u64], call: Call<u64>, row: u32, write: fn(&mut [u8], &mut [u64], usize)) -> Answer {
    let answer = right(image, table, call);
    if let Call::Distances { pointer } = call {
        let at = Pointer::unpack(pointer).address as usize;
        if answer.refusal == row && at < image.len() {
            write(image, table, at);
        }
    }
    answer
}

// ---- the calls that measure by them

/// Of a pointer: both distances, for so many bytes.
#[derive(Clone, Copy)]
struct Asked {
    from_start: i64,
    to_end: i64,
    bytes: i64,
}

type Fits = fn(Asked) -> bool;

const INSIDE: Fits = |a| a.from_start >= 0 && a.to_end >= a.bytes;

/// The calls, and which of their pointers: the one tested first or the other.
#[derive(Clone, Copy, PartialEq, Eq)]
pub(super) enum Of {
    Load,
    Store,
    Fill,
    Target,
    Source,
    Left,
    Right,
    TextSource,
    TextTarget,
}

/// The calls that access bytes.
pub(super) fn pointers(call: Call<u64>) -> Option<[Option<(Of, u64)>; 2]> {
    Some(match call {
        Call::Load { pointer, .. } => [Some((Of::Load, pointer)), None],
        Call::Store { pointer, .. } => [Some((Of::Store, pointer)), None],
        Call::Fill { pointer, .. } => [Some((Of::Fill, pointer)), None],
        Call::Copy { target, source, .. } => [Some((Of::Target, target)), Some((Of::Source, source))],
        Call::Compare { left, right, .. } => [Some((Of::Left, left)), Some((Of::Right, right))],
        Call::CopyText { target, source } => [Some((Of::TextSource, source)), Some((Of::TextTarget, target))],
        _ => return None,
    })
}

fn address(pointer: u64) -> usize {
    Pointer::unpack(pointer).address as usize
}

/// How many bytes from the pointer on are asked for; a text's are those up to the first zero byte, here also behind its body.
pub(super) fn bytes(image: &[u8], call: Call<u64>, of: Of) -> Option<u64> {
    match call {
        Call::Load { width, .. } | Call::Store { width, .. } => Some(width),
        Call::Fill { length, .. } | Call::Copy { length, .. } | Call::Compare { length, .. } => Some(length.into()),
        Call::CopyText { source, .. } if of == Of::TextTarget => Some(image.get(address(source)..)?.iter().position(|&byte| byte == 0)? as u64 + 1),
        _ => Some(1),
    }
}

/// The call without any test, where its bytes are in the image.
pub(super) fn unchecked(image: &mut [u8], call: Call<u64>) -> Option<Answer> {
    let count = bytes(image, call, Of::TextTarget)? as usize;
    let place = |image: &[u8], pointer: u64| image.get(address(pointer)..)?.get(..count).map(|_| address(pointer));
    let value = match call {
        Call::Load { pointer, .. } => {
            let at = place(image, pointer)?;
            image[at..at + count].iter().rev().fold(0, |value, &byte| value << 8 | u64::from(byte))
        }
        Call::Store { pointer, value, .. } => {
            let at = place(image, pointer)?;
            image[at..at + count].copy_from_slice(&value.to_le_bytes()[..count]);
            0
        }
        Call::Fill { pointer, value, .. } => {
            let at = place(image, pointer)?;
            image[at..at + count].fill(value);
            0
        }
        Call::Compare { left, right, .. } => {
            let (left, right) = (place(image, left)?, place(image, right)?);
            image[left..left + count].cmp(&image[right..right + count]) as i64 as u64
        }
        Call::Copy { target, source, .. } | Call::CopyText { target, source } => {
            let (to, from) = (place(image, target)?, place(image, source)?);
            image.copy_within(from..from + count, to);
            if matches!(call, Call::CopyText { .. }) {
                count as u64
            } else {
                0
            }
        }
        _ => return None,
    };
    Some(Answer::new(0, [value]))
}

/// The model with another rule for one pointer of one call: where it fits by that rule, and the other by the right one, the call
/// is made without a test; where it does not, 13 comes.
fn measuring(image: &mut [u8], table: &mut [u64], call: Call<u64>, which: Of, fits: Fits) -> Answer {
    let before = image.to_vec();
    let answer = right(image, table, call);
    let Some(pointers) = pointers(call).filter(|pointers| pointers.iter().flatten().any(|pointer| pointer.0 == which)) else { return answer };
    if ![0, 13, 20].contains(&answer.refusal) {
        return answer;
    }
    image.copy_from_slice(&before);
    for (of, pointer) in pointers.into_iter().flatten() {
        let Ok([from_start, to_end]) = model::distances(image, table, pointer) else {
            return right(image, table, call);
        };
        let Some(bytes) = bytes(image, call, of) else {
            return right(image, table, call);
        };
        let fits = if of == which { fits } else { INSIDE };
        if !fits(Asked { from_start, to_end, bytes: bytes as i64 }) {
            return if answer.accepted() { Answer::new(13, []) } else { answer };
        }
        // 20, in the right body
        if of == Of::TextSource && to_end > 0 && from_start >= 0 && answer.refusal == 20 {
            return answer;
        }
    }
    unchecked(image, call).unwrap_or(answer)
}

/// A fault of each call, for each of its pointers.
macro_rules! measures {
    ($($name:ident $fits:expr;)*) => {$(
        mod $name {
            use super::*;

            #[test]
            fn load() {
                find(|image, table, call| measuring(image, table, call, Of::Load, $fits));
            }

            #[test]
            fn store() {
                find(|image, table, call| measuring(image, table, call, Of::Store, $fits));
            }

            #[test]
            fn fill() {
                find(|image, table, call| measuring(image, table, call, Of::Fill, $fits));
            }

            #[test]
            fn copy() {
                find(|image, table, call| measuring(image, table, call, Of::Target, $fits));
                find(|image, table, call| measuring(image, table, call, Of::Source, $fits));
            }

            #[test]
            fn compare() {
                find(|image, table, call| measuring(image, table, call, Of::Left, $fits));
                find(|image, table, call| measuring(image, table, call, Of::Right, $fits));
            }

            #[test]
            fn copy_text() {
                find(|image, table, call| measuring(image, table, call, Of::TextSource, $fits));
                find(|image, table, call| measuring(image, table, call, Of::TextTarget, $fits));
            }
        }
    )*};
}

measures! {
    one_before_the_base |a| a.from_start >= -1 && a.to_end >= a.bytes;
    at_the_header |a| INSIDE(a) || a.from_start == -16 && a.to_end >= a.bytes;
    before_the_header |a| INSIDE(a) || a.from_start < -16 && a.to_end >= a.bytes;
    one_past_the_end |a| a.from_start >= 0 && a.to_end >= a.bytes - 1;
    at_the_end |a| INSIDE(a) || a.to_end == 0;
    // a negative distance as a large one
    start_unsigned |a| a.to_end >= a.bytes;
    end_unsigned |a| a.from_start >= 0 && a.to_end as u64 >= a.bytes as u64;
    not_at_the_base |a| a.from_start > 0 && a.to_end >= a.bytes;
    not_up_to_the_end |a| a.from_start >= 0 && a.to_end > a.bytes;
    ends_exchanged |a| a.to_end >= 0 && a.from_start >= a.bytes;
}

/// The rules are right but for what a fault changes.
#[test]
fn no_fault_of_measures() {
    let faults: [Behaviour; 9] = [
        |image, table, call| measuring(image, table, call, Of::Load, INSIDE),
        |image, table, call| measuring(image, table, call, Of::Store, INSIDE),
        |image, table, call| measuring(image, table, call, Of::Fill, INSIDE),
        |image, table, call| measuring(image, table, call, Of::Target, INSIDE),
        |image, table, call| measuring(image, table, call, Of::Source, INSIDE),
        |image, table, call| measuring(image, table, call, Of::Left, INSIDE),
        |image, table, call| measuring(image, table, call, Of::Right, INSIDE),
        |image, table, call| measuring(image, table, call, Of::TextSource, INSIDE),
        |image, table, call| measuring(image, table, call, Of::TextTarget, INSIDE),
    ];
    for fault in faults {
        compare(&Model, &Faulty(fault), 200_000, 1).unwrap_or_else(|failure| panic!("{failure}"));
    }
}

/// Lengths from 2^31 on as negative ones, which any distance to the end exceeds.
#[test]
fn lengths_of_31_bits() {
    let faults: [Behaviour; 3] = [
        |image, table, call| signed_length(image, table, call, |call| matches!(call, Call::Fill { .. })),
        |image, table, call| signed_length(image, table, call, |call| matches!(call, Call::Copy { .. })),
        |image, table, call| signed_length(image, table, call, |call| matches!(call, Call::Compare { .. })),
    ];
    for fault in faults {
        find(fault);
    }
}

/// Accepted, as if there were no bytes.
fn signed_length(image: &mut [u8], table: &mut [u64], call: Call<u64>, which: fn(Call<u64>) -> bool) -> Answer {
    let answer = right(image, table, call);
    let (Call::Fill { length, .. } | Call::Copy { length, .. } | Call::Compare { length, .. }) = call else { return answer };
    let Some(pointers) = pointers(call).filter(|_| which(call) && answer.refusal == 13 && length >= 1 << 31) else { return answer };
    let starts = |pointer| model::distances(image, table, pointer).is_ok_and(|[from_start, _]| from_start >= 0);
    if pointers.into_iter().flatten().all(|(_, pointer)| starts(pointer)) {
        return Answer::new(0, []);
    }
    answer
}

/// Free at an offset that is not 0, where this is so of it and of the size; the object goes.
fn freeing(image: &mut [u8], table: &mut [u64], call: Call<u64>, frees: fn(i64, i64) -> bool) -> Answer {
    match (call, right(image, table, call)) {
        (Call::Free { pointer }, answer @ Answer { refusal: 15, .. }) => match model::distances(image, table, pointer) {
            Ok([from_start, to_end]) if frees(from_start, from_start + to_end) => {
                let base = Pointer { address: (address(pointer) as i64 - from_start) as u64, ..Pointer::unpack(pointer) };
                right(image, table, Call::Free { pointer: base.pack() })
            }
            _ => answer,
        },
        (_, answer) => answer,
    }
}

#[test]
fn free_at_another_offset() {
    let faults: [Behaviour; 9] = [
        |image, table, call| freeing(image, table, call, |from_start, _| from_start == -1),
        |image, table, call| freeing(image, table, call, |from_start, _| from_start == 1),
        |image, table, call| freeing(image, table, call, |from_start, _| from_start < 0),
        |image, table, call| freeing(image, table, call, |from_start, _| from_start > 0),
        |image, table, call| freeing(image, table, call, |from_start, _| from_start == -16),
        |image, table, call| freeing(image, table, call, |from_start, size| from_start == size),
        |image, table, call| freeing(image, table, call, |from_start, size| from_start == size + 1),
        |image, table, call| freeing(image, table, call, |from_start, size| (1..size).contains(&from_start)),
        // an offset of 8 bits
        |image, table, call| freeing(image, table, call, |from_start, _| from_start as u8 == 0),
    ];
    for fault in faults {
        find(fault);
    }
}

#[test]
fn free_refused_otherwise() {
    // 13 for 15; 15 where the object is one byte; 15 before 11 and 10
    let faults: [Behaviour; 4] = [
        |image, table, call| match (call, right(image, table, call)) {
            (Call::Free { .. }, Answer { refusal: 15, .. }) => Answer::new(13, []),
            (_, answer) => answer,
        },
        |image, table, call| match (call, model_distances(image, table, call)) {
            (Call::Free { .. }, Some([0, 1])) => Answer::new(15, []),
            (call, _) => right(image, table, call),
        },
        |image, table, call| match (call, right(image, table, call)) {
            (Call::Free { .. }, Answer { refusal: 11, .. }) => Answer::new(15, []),
            (_, answer) => answer,
        },
        |image, table, call| match (call, right(image, table, call)) {
            (Call::Free { .. }, Answer { refusal: 10, .. }) => Answer::new(15, []),
            (_, answer) => answer,
        },
    ];
    for fault in faults {
        find(fault);
    }
}

fn model_distances(image: &[u8], table: &[u64], call: Call<u64>) -> Option<[i64; 2]> {
    let Call::Free { pointer } = call else { return None };
    model::distances(image, table, pointer).ok()
}

// ---- the driver's own checks

#[test]
fn expected_store_with_other_distances() {
    let faults: [Behaviour; 5] = [
        |image, table, call| given(image, table, call, |m| [m.to_end, m.from_start]),
        |image, table, call| given(image, table, call, |m| [m.from_start, m.to_end + 1]),
        |image, table, call| given(image, table, call, |m| [m.from_start + 1, m.to_end - 1]),
        |image, table, call| given(image, table, call, |m| [m.from_start, m.h + m.extent - m.address]),
        |image, table, call| given(image, table, call, |m| [m.from_start.max(0), m.to_end.max(0)]),
    ];
    for fault in faults {
        let failure = both(fault);
        assert!([Mismatch::NotOfABody, Mismatch::NotByDistances].iter().any(|mismatch| failure.text.contains(&mismatch.to_string())), "{failure}");
    }
}

/// By the extent, which is 16 + size until the size is damaged: no other call tells.
#[test]
fn expected_store_with_another_sum() {
    let calls = [Call::SetUp { slot_exponent: 6 }, Call::Allocate { size: 10, type_number: 7 }, Call::Distances { pointer: Arg::of(1) }].map(Action::Call);
    let damage = Action::Damage(Damage::Image { at: Arg::Number(24), bytes: [9; 16], count: 1 });
    let steps = [calls[0], calls[1], damage, calls[2]].iter().zip(0..).map(|(&action, number)| Step { number, action }).collect();
    let buffers = Buffers { image: 1024, table: 384, lent_image: 1024, lent_table: 384, content: 1, history: false };
    let case = Case { buffers, steps };
    assert!(case.run(&Model, &Model).is_ok());
    let by_extent = Faulty(|image, table, call| given(image, table, call, |m| [m.from_start, m.h + m.extent - m.address]));
    assert!(matches!(case.run(&by_extent, &by_extent), Err((3, Mismatch::NotOfABody))));
}

/// Each call's measure for itself.
#[test]
fn expected_store_that_measures_otherwise() {
    let faults: [Behaviour; 8] = [
        |image, table, call| measuring(image, table, call, Of::Load, |a| a.from_start >= -1 && a.to_end >= a.bytes),
        |image, table, call| measuring(image, table, call, Of::Store, |a| a.from_start >= -1 && a.to_end >= a.bytes),
        |image, table, call| measuring(image, table, call, Of::Fill, |a| a.from_start >= 0 && a.to_end > a.bytes),
        |image, table, call| measuring(image, table, call, Of::Target, |a| a.from_start >= 0 && a.to_end >= a.bytes - 1),
        |image, table, call| measuring(image, table, call, Of::Source, |a| a.from_start >= -1 && a.to_end >= a.bytes),
        |image, table, call| measuring(image, table, call, Of::TextSource, |a| a.from_start >= -1 && a.to_end >= a.bytes),
        |image, table, call| measuring(image, table, call, Of::TextTarget, |a| a.from_start >= 0 && a.to_end >= a.bytes - 1),
        |image, table, call| freeing(image, table, call, |from_start, _| from_start == 1),
    ];
    for fault in faults {
        let failure = both(fault);
        assert!(failure.text.contains(&Mismatch::NotByDistances.to_string()), "{failure}");
    }
    // swapped, the other rule is asked
    let faults: [Behaviour; 2] = [
        |image, table, call| measuring(image, table, call, Of::Left, |a| a.from_start >= 0),
        |image, table, call| measuring(image, table, call, Of::Right, |a| a.from_start >= 0 && a.to_end >= a.bytes - 1),
    ];
    for fault in faults {
        let failure = both(fault);
        assert!(failure.text.contains(&Mismatch::NotNegated.to_string()), "{failure}");
    }
}

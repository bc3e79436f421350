//! What occurred in questions.

use super::case::{Case, Question};
use super::lists::{Kind, AMISS, DEPTH};
use super::model::{Descriptor, Rules, HEAD, PLAIN, RECORD};
use super::{BAD, ROWS, UNDESCRIBED};
use crate::model::{self, Header, Pointer, HEADER};
use crate::store::{Answer, Model};

/// How often each thing occurred.
#[derive(Clone, Debug, Default)]
pub struct Seen {
    pub cases: u64,
    pub questions: u64,
    by_question: Vec<u64>,
    by_list: Vec<u64>,
    rows: [u64; ROWS.len()],
    /// Accepted by slot exponent.
    slot_exponents: [u64; 16],
    /// Refused with 24, by what is amiss.
    amiss: Vec<u64>,
    /// No and yes, by the fields around the pointer and by those around the found one.
    depths: [[u64; DEPTH + 1]; 2],
}

/// An object to which a pointer leads.
struct Object {
    header: Header,
    distance: i64,
}

/// A type at a distance from its start.
#[derive(Clone, Copy)]
struct Place<'a> {
    described: &'a Descriptor,
    offset: u64,
}

struct Looked<'a> {
    case: &'a Case,
    question: Question,
    answer: Answer,
    /// Of a good list; and of one that can at least be split.
    types: Option<&'a [Descriptor]>,
    split: Option<&'a [Descriptor]>,
    /// What the tag leads to, where image and table are good.
    tag: Result<Object, u32>,
    /// From the object's type to the innermost one around the pointer's address, where there is an answer and the address is not before the base.
    path: Vec<Place<'a>>,
}

fn position(types: &[Descriptor], number: u16) -> Option<usize> {
    types.iter().position(|described| described.type_number == number)
}

/// From a type to the innermost one around an offset that is inside it; the list is good.
fn path(types: &[Descriptor], mut place: usize, mut offset: u64) -> Vec<Place<'_>> {
    let mut path = vec![Place { described: &types[place], offset }];
    while let Some((field, inner)) = types[place].fields.iter().find_map(|field| {
        let inner = position(types, field.type_number).unwrap();
        (field.offset <= offset && offset < field.offset + types[inner].size).then_some((field, inner))
    }) {
        (place, offset) = (inner, offset - field.offset);
        path.push(Place { described: &types[place], offset });
    }
    path
}

fn tag(image: &[u8], table: &[u64], pointer: u64) -> Result<Object, u32> {
    let (s, p) = (model::open(image, table)?, Pointer::unpack(pointer));
    let (h, header) = model::read_tag(image, table, s, p)?;
    Ok(Object { header, distance: p.address as i64 - (h + HEADER) as i64 })
}

impl Looked<'_> {
    fn refused(&self, row: u32) -> bool {
        self.answer.refusal == row
    }

    fn yes(&self) -> bool {
        self.answer == Answer::new(0, [1])
    }

    fn no(&self) -> bool {
        self.answer == Answer::new(0, [0])
    }

    fn small(&self) -> bool {
        Pointer::unpack(self.question.pointer).small
    }

    fn bad_list(&self) -> bool {
        self.types.is_none()
    }

    fn empty_list(&self) -> bool {
        self.case.list().is_empty()
    }

    fn header(&self) -> Option<Header> {
        self.tag.as_ref().ok().map(|object| object.header)
    }

    fn distance(&self) -> i64 {
        self.tag.as_ref().map_or(0, |object| object.distance)
    }

    /// The size with which the object's type is described.
    fn described(&self) -> Option<u64> {
        let (types, header) = (self.types?, self.header()?);
        position(types, header.type_number).map(|place| types[place].size)
    }

    /// Answered no, at the given distance from the object's end, and from the described one.
    fn no_at(&self, end: bool, distance: i64) -> bool {
        let size = if end { self.header().map(|header| header.size.into()) } else { self.described() };
        self.no() && size.is_some_and(|size| self.distance() - size as i64 == distance)
    }

    /// The address is that of the last described byte.
    fn last_byte(&self) -> bool {
        self.described().is_some_and(|size| self.distance() + 1 == size as i64)
    }

    /// Refused with 25 for the size, which is that much under the described one.
    fn under(&self, by: u64) -> bool {
        self.refused(UNDESCRIBED) && self.described().is_some_and(|described| u64::from(self.header().unwrap().size) + by == described)
    }

    /// The size is under the described one, and the extent has as many bytes.
    fn spare(&self) -> bool {
        let header = self.header();
        self.refused(UNDESCRIBED) && header.is_some_and(|header| self.described().is_some_and(|described| described <= u64::from(header.extent) - HEADER))
    }

    fn unlisted(&self) -> bool {
        self.types.is_some_and(|types| position(types, self.question.wanted).is_none())
    }

    fn own(&self) -> bool {
        self.header().is_some_and(|header| header.type_number == self.question.wanted)
    }

    /// Whether the object's type has the wanted one this much further.
    fn has_at(&self, further: i64) -> bool {
        let (Some(types), Some(header)) = (self.types, self.header()) else { return false };
        let place = position(types, header.type_number);
        self.distance() + further >= 0 && place.is_some_and(|place| Model.has(&types[..=place], (self.distance() + further) as u64, self.question.wanted))
    }

    /// The fields around what was found.
    fn found(&self) -> Option<usize> {
        self.path.iter().position(|place| place.offset == 0 && place.described.type_number == self.question.wanted)
    }

    /// The address is inside a record, before a field of it and not in one; behind another one or not.
    fn gap(&self, behind: bool) -> bool {
        let inside = self.described().is_some_and(|size| self.distance() < size as i64);
        let gap = |place: &Place| {
            let before = place.described.fields.iter().filter(|field| field.offset < place.offset).count();
            place.offset > 0 && before < place.described.fields.len() && (before > 0) == behind
        };
        self.no() && inside && self.path.last().is_some_and(gap)
    }

    /// A field of this type ends where the next one starts, at the address.
    fn boundary(&self, is: impl Fn(u16) -> bool) -> bool {
        let Some(types) = self.types else { return false };
        self.path.iter().any(|place| {
            place.described.fields.windows(2).any(|pair| {
                let size = position(types, pair[0].type_number).map_or(0, |at| types[at].size);
                pair[1].offset == place.offset && pair[0].offset + size == place.offset && is(pair[0].type_number)
            })
        })
    }

    /// The object's type is that of no descriptor of a bad list.
    fn not_in_bad_list(&self) -> bool {
        self.header().zip(self.split).is_some_and(|(header, types)| position(types, header.type_number).is_none())
    }

    /// Where a tag that is in range leads, be it to no live header: the type and size that stand there.
    fn dangling(&self) -> Option<Header> {
        let s = model::open(self.case.image(), self.case.table()).ok()?;
        let h = model::place(self.case.table(), s, Pointer::unpack(self.question.pointer), self.case.lent[0] as u64)?;
        (h <= self.case.lent[0] as u64 - HEADER).then(|| Header::read(self.case.image(), h))
    }

    /// Refused with 11, with a header whose type is listed, or not.
    fn dangling_listed(&self, listed: bool) -> bool {
        let types = self.types.unwrap_or_default();
        self.refused(11) && self.dangling().is_some_and(|header| position(types, header.type_number).is_some() == listed)
    }
}

type ByQuestion = (&'static str, fn(&Looked<'_>) -> bool);

const BY_QUESTION: [ByQuestion; 56] = [
    // rows in order
    ("4, the table has no entry", |q| q.refused(4) && q.case.lent[1] == 0),
    ("4, no byte", |q| q.refused(4) && q.case.lent[0] == 0),
    ("4, the list is bad too", |q| q.refused(4) && q.bad_list()),
    ("4, the list is good", |q| q.refused(4) && !q.bad_list()),
    ("5, the list is bad too", |q| q.refused(5) && q.bad_list()),
    ("5, the list is good", |q| q.refused(5) && !q.bad_list()),
    ("5, some entries", |q| q.refused(5) && q.case.lent[1] > 0),
    ("24, the tag is out of range too", |q| q.refused(BAD) && q.tag.as_ref().is_err_and(|&row| row == 10)),
    ("24, the pointer dangles too", |q| q.refused(BAD) && q.tag.as_ref().is_err_and(|&row| row == 11)),
    ("24, the object's type is not there either", |q| q.refused(BAD) && q.not_in_bad_list()),
    ("24, the tag leads to an object", |q| q.refused(BAD) && q.tag.is_ok()),
    ("10, nothing is listed", |q| q.refused(10) && q.empty_list()),
    ("10, something is listed", |q| q.refused(10) && !q.empty_list()),
    ("11, nothing is listed", |q| q.refused(11) && q.empty_list()),
    ("11, a header of a type not listed", |q| q.dangling_listed(false)),
    ("11, a header of a listed type", |q| q.dangling_listed(true)),
    ("11, small-framed", |q| q.refused(11) && q.small()),
    ("11, large-framed", |q| q.refused(11) && !q.small()),
    ("25, nothing is listed", |q| q.refused(UNDESCRIBED) && q.empty_list()),
    ("25, the type is not listed", |q| q.refused(UNDESCRIBED) && !q.empty_list() && q.described().is_none()),
    ("25, one byte too few", |q| q.under(1)),
    ("25, many bytes too few", |q| q.refused(UNDESCRIBED) && !q.under(1) && q.described().is_some()),
    ("25, an object of no bytes", |q| q.refused(UNDESCRIBED) && q.described().is_some() && q.header().is_some_and(|header| header.size == 0)),
    ("25, with enough spare bytes", |q| q.spare()),
    ("25, the wanted type is the object's", |q| q.refused(UNDESCRIBED) && q.own() && q.distance() == 0),
    ("25, before the base", |q| q.refused(UNDESCRIBED) && q.distance() < 0),
    ("25, the type is not listed, nor the wanted one", |q| q.refused(UNDESCRIBED) && q.described().is_none() && q.unlisted()),
    // yes
    ("yes, small-framed", |q| q.yes() && q.small()),
    ("yes, large-framed", |q| q.yes() && !q.small()),
    ("yes, the object as large as described", |q| q.yes() && q.described() == q.header().map(|header| header.size.into())),
    ("yes, the object larger than described", |q| q.yes() && q.described() < q.header().map(|header| header.size.into())),
    ("yes, a first field at 0", |q| q.yes() && q.distance() == 0 && q.found() == Some(1)),
    ("yes, a first field of a first field at 0", |q| q.yes() && q.distance() == 0 && q.found() >= Some(2)),
    ("yes, a first field of a field behind others", |q| q.yes() && q.distance() > 0 && q.found() >= Some(2)),
    ("yes, where the field before ends", |q| q.yes() && q.found() > Some(0) && q.boundary(|number| number != q.question.wanted)),
    ("yes, beyond 65,535", |q| q.yes() && q.distance() > 65_535),
    ("yes, the last byte", |q| q.yes() && q.distance() > 0 && q.last_byte()),
    // no
    ("no, small-framed", |q| q.no() && q.small()),
    ("no, large-framed", |q| q.no() && !q.small()),
    ("no, where a field of the type ends and another starts", |q| q.no() && q.boundary(|number| number == q.question.wanted)),
    ("no, between fields", |q| q.gap(true)),
    ("no, before the first field", |q| q.gap(false)),
    ("no, at the described end", |q| q.no_at(false, 0)),
    ("no, at the described end, the object's type", |q| q.no_at(false, 0) && q.own()),
    ("no, at the end of a larger object", |q| q.no_at(true, 0) && !q.no_at(false, 0)),
    ("no, past the end", |q| q.no() && q.header().is_some_and(|header| q.distance() > header.size.into())),
    ("no, beyond 65,535", |q| q.no() && q.distance() > 65_535),
    ("no, one before the base", |q| q.no() && q.distance() == -1),
    ("no, one before the base, the object's type", |q| q.no() && q.distance() == -1 && q.own()),
    ("no, as far before the base as it would be behind", |q| q.no() && q.distance() < 0 && q.has_at(-2 * q.distance())),
    ("no, one byte before one", |q| q.no() && q.has_at(1)),
    ("no, one byte behind one", |q| q.no() && q.has_at(-1)),
    ("no, another type there", |q| q.no() && q.path.iter().any(|place| place.offset == 0) && !q.unlisted()),
    ("no, the object's type, not at 0", |q| q.no() && q.own() && q.distance() > 0 && q.distance() < q.described().unwrap_or(0) as i64),
    ("no, not listed", |q| q.no() && q.unlisted() && q.distance() == 0),
    ("no, listed and not in it, at 0", |q| q.no() && !q.unlisted() && q.distance() == 0),
];

type ByList = (&'static str, fn(&Case, &[Descriptor]) -> bool);

/// The ends of a record's fields.
fn ends<'a>(types: &'a [Descriptor], described: &'a Descriptor) -> impl Iterator<Item = u64> + 'a {
    described.fields.iter().map(|field| field.offset + types[position(types, field.type_number).unwrap()].size)
}

/// Whether a field and the next one are that far from each other.
fn apart(types: &[Descriptor], is: fn(u64) -> bool) -> bool {
    types.iter().any(|described| ends(types, described).zip(&described.fields[1.min(described.fields.len())..]).any(|(end, next)| is(next.offset - end)))
}

/// Of good lists.
const BY_LIST: [ByList; 22] = [
    ("list of any bytes", |case, _| case.kind == Kind::Any && case.lent[2] > 0),
    ("empty list", |_, types| types.is_empty()),
    ("list of one type", |_, types| types.len() == 1),
    ("list of 100 types", |_, types| types.len() == 100),
    ("type 0", |_, types| position(types, 0).is_some()),
    ("type 65535", |_, types| position(types, 65_535).is_some()),
    ("record without fields", |_, types| types.iter().any(|described| described.kind == RECORD && described.fields.is_empty())),
    ("plain behind a record", |_, types| types.windows(2).any(|pair| pair[0].kind == RECORD && pair[1].kind == PLAIN)),
    ("size 1", |_, types| types.iter().any(|described| described.size == 1)),
    ("size 2^32 - 1", |_, types| types.iter().any(|described| described.size == u64::from(u32::MAX))),
    ("size above 65,535", |_, types| types.iter().any(|described| (65_536..1 << 31).contains(&described.size))),
    ("field above 65,535", |_, types| types.iter().any(|described| described.fields.iter().any(|field| field.offset > 65_535))),
    ("field that ends at 2^32 - 1", |_, types| types.iter().any(|described| ends(types, described).any(|end| end == u64::from(u32::MAX)))),
    ("first field at 0", |_, types| types.iter().any(|described| described.fields.first().is_some_and(|field| field.offset == 0))),
    ("first field not at 0", |_, types| types.iter().any(|described| described.fields.first().is_some_and(|field| field.offset > 0))),
    ("fields that meet", |_, types| apart(types, |bytes| bytes == 0)),
    ("fields one byte apart", |_, types| apart(types, |bytes| bytes == 1)),
    ("field that fills its record", |_, types| {
        types.iter().any(|described| described.fields.len() == 1 && ends(types, described).any(|end| end == described.size))
    }),
    ("last field ends with its record", |_, types| types.iter().any(|described| ends(types, described).last() == Some(described.size))),
    ("last field ends before its record", |_, types| types.iter().any(|described| ends(types, described).last().is_some_and(|end| end < described.size))),
    ("one type twice in a record", |_, types| types.iter().any(|described| described.fields.windows(2).any(|pair| pair[0].type_number == pair[1].type_number))),
    ("types of one low byte", |_, types| {
        types.iter().enumerate().any(|(at, one)| types[..at].iter().any(|other| other.type_number as u8 == one.type_number as u8))
    }),
];

/// Of bad lists of any bytes: fewer than a descriptor has, or more.
const BAD_LISTS: [&str; 2] = ["bad list of 1 to 11 bytes", "bad list of 12 bytes or more"];

impl Seen {
    pub fn look(&mut self, case: &Case, answers: &[Answer]) {
        let (types, split) = (Model.types(case.list()).ok(), Model.split(case.list()).ok());
        self.cases += 1;
        self.by_question.resize(BY_QUESTION.len(), 0);
        self.amiss.resize(AMISS.len(), 0);
        self.by_list.resize(BY_LIST.len() + BAD_LISTS.len(), 0);
        match &types {
            Some(types) => self.by_list.iter_mut().zip(&BY_LIST).for_each(|(count, (_, met))| *count += u64::from(met(case, types))),
            None if case.kind == Kind::Any => self.by_list[BY_LIST.len() + usize::from(case.lent[2] >= HEAD)] += 1,
            None => {}
        }
        for (&question, &answer) in case.questions.iter().zip(answers) {
            let tag = tag(case.image(), case.table(), question.pointer);
            let path = match (&types, &tag) {
                (Some(types), Ok(object)) if answer.accepted() && object.distance >= 0 => {
                    path(types, position(types, object.header.type_number).unwrap(), object.distance as u64)
                }
                _ => Vec::new(),
            };
            self.add(&Looked { case, question, answer, types: types.as_deref(), split: split.as_deref(), tag, path });
        }
    }

    fn add(&mut self, looked: &Looked<'_>) {
        self.questions += 1;
        self.by_question.iter_mut().zip(&BY_QUESTION).for_each(|(count, (_, met))| *count += u64::from(met(looked)));
        if let Some(row) = ROWS.iter().position(|&row| looked.refused(row)) {
            self.rows[row] += 1;
        }
        match looked.case.kind {
            Kind::Amiss(nth) if looked.refused(BAD) => self.amiss[nth] += 1,
            _ => {}
        }
        if looked.answer.accepted() {
            self.slot_exponents[usize::from(looked.case.image[6])] += 1;
            let around = looked.path.len().checked_sub(1);
            if let Some(depth) = if looked.yes() { looked.found() } else { around } {
                self.depths[usize::from(looked.yes())][depth] += 1;
            }
        }
    }

    /// Each thing that is counted, and how often it occurred.
    pub fn all(&self) -> Vec<(String, u64)> {
        let by_question = BY_QUESTION.iter().zip(&self.by_question).map(|((what, _), &count)| (what.to_string(), count));
        let names = BY_LIST.iter().map(|(what, _)| what).chain(&BAD_LISTS);
        let by_list = names.zip(&self.by_list).map(|(what, &count)| (what.to_string(), count));
        let rows = ROWS.iter().zip(&self.rows).map(|(row, &count)| (format!("row {row}"), count));
        let slot_exponents = (6..16).map(|s| (format!("s = {s}"), self.slot_exponents[s]));
        let amiss = AMISS.iter().zip(&self.amiss).map(|((what, _), &count)| (format!("24, {what}"), count));
        let depths =
            ["no", "yes"].iter().zip(&self.depths).flat_map(|(what, counts)| (0..=DEPTH).map(move |depth| (format!("{what}, depth {depth}"), counts[depth])));
        by_question.chain(by_list).chain(rows).chain(slot_exponents).chain(amiss).chain(depths).collect()
    }

    /// What never occurred.
    pub fn missing(&self) -> Vec<String> {
        self.all().into_iter().filter(|&(_, count)| count == 0).map(|(what, _)| what).collect()
    }
}

impl std::fmt::Display for Seen {
    fn fmt(&self, f: &mut std::fmt::Formatter<'_>) -> std::fmt::Result {
        let all: Vec<_> = self.all().into_iter().map(|(what, count)| format!("{what}: {count}")).collect();
        write!(f, "{} questions in {} cases\n{}", self.questions, self.cases, all.join("; "))
    }
}

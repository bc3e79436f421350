//! The comparison itself: it finds each of these faults, and only in lists of the kinds that show it.

use cueledger_tests::casts::case::{Case, Failure, Question};
use cueledger_tests::casts::generate::case;
use cueledger_tests::casts::lists::Kind;
use cueledger_tests::casts::model::{listed, Descriptor, Field, Rules, HEAD, PLAIN, RECORD};
use cueledger_tests::casts::Casts;
use cueledger_tests::model::{self, Header, Pointer, HEADER};
use cueledger_tests::store::{Answer, Model};
use std::collections::BTreeMap;

/// The cases of the seeds from 0 on among which a fault must be found.
const WITHIN: u64 = 2_000;

/// Its name, the first words of the kinds of lists that show it, and itself.
type Fault = (&'static str, &'static [&'static str], &'static dyn Casts);

const ALL: &[&str] = &[""];
const GOOD: &[&str] = &["good"];

/// The model with one rule each that is not the text's.
macro_rules! rules {
    ($($name:literal, $by:expr => { $($rule:tt)* })*) => {
        const RULES: &[Fault] = &[$(($name, $by, {
            struct Wrong;
            impl Rules for Wrong {
                $($rule)*
            }
            &Wrong
        })),*];
    };
}

/// What was given, and what the model answers.
struct Asked<'a> {
    image: &'a mut [u8],
    table: &'a mut [u64],
    list: &'a mut [u8],
    question: Question,
    right: Answer,
}

impl Asked<'_> {
    /// The given answer where the right one is of that row.
    fn instead(&self, row: u32, when: bool, answer: u32) -> Answer {
        if self.right.refusal == row && when {
            Answer::new(answer, [])
        } else {
            self.right
        }
    }

    fn bad_list(&self) -> bool {
        Model.types(self.list).is_err()
    }

    /// The place of the object's header and the header.
    fn tag(&self) -> Result<(u64, Header), u32> {
        let s = model::open(self.image, self.table)?;
        model::read_tag(self.image, self.table, s, Pointer::unpack(self.question.pointer))
    }

    fn distance(&self) -> i64 {
        self.tag().map_or(0, |(h, _)| Pointer::unpack(self.question.pointer).address as i64 - (h + HEADER) as i64)
    }

    fn type_number(&self) -> Option<u16> {
        self.tag().ok().map(|(_, header)| header.type_number)
    }

    /// The types of the longest good list at the start of this one.
    fn prefix(&self) -> Vec<Descriptor> {
        (0..=self.list.len()).rev().find_map(|end| Model.types(&self.list[..end]).ok()).unwrap()
    }

    /// What stands where the tag leads.
    fn dangling(&self) -> Option<Header> {
        let (s, p) = (model::open(self.image, self.table).ok()?, Pointer::unpack(self.question.pointer));
        let h = p.tag_in_range(s).then(|| model::place(self.table, s, p, self.image.len() as u64))??;
        (h <= self.image.len() as u64 - HEADER).then(|| Header::read(self.image, h))
    }
}

/// The model with something else done when it has answered.
struct Behind(fn(&mut Asked<'_>) -> Answer);

impl Casts for Behind {
    fn has_type(&self, image: &mut [u8], table: &mut [u64], list: &mut [u8], pointer: u64, wanted: u16) -> Answer {
        let right = Model.has_type(image, table, list, pointer, wanted);
        (self.0)(&mut Asked { image, table, list, question: Question { pointer, wanted }, right })
    }
}

/// The inner types and offsets of the last of these types at an offset: those of the chosen fields.
fn inner<'a>(types: &'a [Descriptor], fields: &[Field], offset: u64) -> Vec<(&'a [Descriptor], u64)> {
    let inner = |field: &Field| Some((&types[..=types.iter().position(|other| other.type_number == field.type_number)?], offset - field.offset));
    fields.iter().filter(|field| field.offset <= offset).filter_map(inner).collect()
}

/// The relation down to so many fields in fields.
fn has_within(types: &[Descriptor], offset: u64, wanted: u16, depth: usize) -> bool {
    let last = types.last().unwrap();
    let inner = inner(types, &last.fields, offset);
    Model.is(last, offset, wanted) || depth > 0 && inner.into_iter().any(|(types, offset)| has_within(types, offset, wanted, depth - 1))
}

/// The relation through one field of each record.
fn has_through(types: &[Descriptor], offset: u64, wanted: u16, chosen: fn(&[Field], u64) -> Option<&Field>) -> bool {
    let last = types.last().unwrap();
    let field: Vec<_> = chosen(&last.fields, offset).copied().into_iter().collect();
    Model.is(last, offset, wanted) || inner(types, &field, offset).into_iter().any(|(types, offset)| has_through(types, offset, wanted, chosen))
}

/// A record's fields with another rule for a field, the ones before it, and the sizes of their types.
fn fields(types: &[Descriptor], position: usize, good: fn(Field, u64, &[Field], u64) -> bool) -> bool {
    let Descriptor { fields, size, .. } = &types[position];
    let named = |field: Field| listed(&types[..position], field.type_number);
    fields.iter().enumerate().all(|(nth, &field)| named(field).is_some_and(|named| good(field, named.size, &fields[..nth], *size)))
}

rules! {
    // ---- reading
    "type read big-endian", ALL => {
        fn head(&self, bytes: &[u8]) -> Descriptor {
            let head = Model.head(bytes);
            Descriptor { type_number: head.type_number.swap_bytes(), ..head }
        }
    }
    "type read as one byte", ALL => {
        fn head(&self, bytes: &[u8]) -> Descriptor {
            let head = Model.head(bytes);
            Descriptor { type_number: head.type_number & 255, ..head }
        }
    }
    "size read as 2 bytes", ALL => {
        fn head(&self, bytes: &[u8]) -> Descriptor {
            let head = Model.head(bytes);
            Descriptor { size: head.size & 0xffff, ..head }
        }
    }
    "length read as 2 bytes", &["length and 3 * 2^16"] => {
        fn head(&self, bytes: &[u8]) -> Descriptor {
            let head = Model.head(bytes);
            Descriptor { length: head.length & 0xffff, ..head }
        }
    }
    "kind read as one byte", &["kind 4 or 5"] => {
        fn head(&self, bytes: &[u8]) -> Descriptor {
            let head = Model.head(bytes);
            Descriptor { kind: head.kind & 255, ..head }
        }
    }
    "offset read as 2 bytes", ALL => {
        fn field(&self, bytes: &[u8]) -> Field {
            let field = Model.field(bytes);
            Field { offset: field.offset & 0xffff, ..field }
        }
    }
    "offset read as 3 bytes", ALL => {
        fn field(&self, bytes: &[u8]) -> Field {
            let field = Model.field(bytes);
            Field { offset: field.offset & 0xff_ffff, ..field }
        }
    }
    "a field's type read as one byte", ALL => {
        fn field(&self, bytes: &[u8]) -> Field {
            let field = Model.field(bytes);
            Field { type_number: field.type_number & 255, ..field }
        }
    }
    // ---- cut short
    "bytes behind the last ignored", &["one byte behind", "bytes behind", "cut in the head", "cut by one"] => {
        fn ends(&self, left: &[u8]) -> bool { left.len() < HEAD }
    }
    "one byte behind the last ignored", &["one byte behind", "bytes behind", "cut in the head"] => { fn ends(&self, left: &[u8]) -> bool { left.len() < 2 } }
    "zeros behind the last ignored", &["one byte behind", "bytes behind"] => {
        fn ends(&self, left: &[u8]) -> bool { left.len() < HEAD && left.iter().all(|&byte| byte == 0) }
    }
    "length beyond the end", &["length", "cut in the fields", "cut by one"] => { fn cut_short(&self, _: u64, _: u64) -> bool { false } }
    "length beyond the end by one", &["cut in the fields", "cut by one"] => { fn cut_short(&self, length: u64, left: u64) -> bool { length > left + 1 } }
    "length beyond the end by a field", &["length beyond", "cut in the fields", "cut by one"] => {
        fn cut_short(&self, length: u64, left: u64) -> bool { length > left + 6 }
    }
    "length taken as signed", &["length 2^32 - 4"] => { fn cut_short(&self, length: u64, left: u64) -> bool { i64::from(length as i32) > left as i64 } }
    "length up to the end is beyond it", GOOD => { fn cut_short(&self, length: u64, left: u64) -> bool { length >= left } }
    "an empty list is bad", GOOD => {
        fn types(&self, list: &[u8]) -> Result<Vec<Descriptor>, u32> {
            if list.is_empty() {
                Err(24)
            } else {
                Model.types(list)
            }
        }
    }
    // ---- kinds
    "kind 6", &["kind 6"] => { fn known(&self, kind: u16) -> bool { (PLAIN..=6).contains(&kind) } }
    "kind 3", &["kind 3"] => { fn known(&self, kind: u16) -> bool { (3..=RECORD).contains(&kind) } }
    "kind 0", &["kind 0"] => { fn known(&self, kind: u16) -> bool { kind == 0 || Model.known(kind) } }
    "kinds above", &["kind"] => { fn known(&self, kind: u16) -> bool { kind >= PLAIN } }
    "no plain types", ALL => { fn known(&self, kind: u16) -> bool { kind == RECORD } }
    // ---- lengths
    "plain of any length", &["plain"] => { fn whole(&self, kind: u16, length: u64) -> bool { kind == PLAIN || Model.whole(kind, length) } }
    "plain of 18 bytes", &["plain of 18", "plain with fields"] => {
        fn whole(&self, kind: u16, length: u64) -> bool { kind == PLAIN && length == 18 || Model.whole(kind, length) }
    }
    "plain of 13 bytes", &["plain of 13"] => { fn whole(&self, kind: u16, length: u64) -> bool { kind == PLAIN && length == 13 || Model.whole(kind, length) } }
    "plain of length 11", &["plain, length 11"] => {
        fn whole(&self, kind: u16, length: u64) -> bool { kind == PLAIN && length == 11 || Model.whole(kind, length) }
    }
    "plain of length 0", &["plain, length 0"] => {
        fn whole(&self, kind: u16, length: u64) -> bool { kind == PLAIN && length == 0 || Model.whole(kind, length) }
    }
    "record not of whole fields", &["record, "] => { fn whole(&self, kind: u16, length: u64) -> bool { kind == RECORD || Model.whole(kind, length) } }
    "record of half fields", &["record, 3"] => {
        fn whole(&self, kind: u16, length: u64) -> bool { kind == RECORD && length > 12 && length.is_multiple_of(3) || Model.whole(kind, length) }
    }
    "record of 2 bytes more", &["record, 2", "record, 4"] => {
        fn whole(&self, kind: u16, length: u64) -> bool { kind == RECORD && length > 12 && length.is_multiple_of(2) || Model.whole(kind, length) }
    }
    "record of 1 byte more", &["record, 1"] => {
        fn whole(&self, kind: u16, length: u64) -> bool { kind == RECORD && length % 6 == 1 && length > 12 || Model.whole(kind, length) }
    }
    "record of 5 bytes more", &["record, 5"] => {
        fn whole(&self, kind: u16, length: u64) -> bool { kind == RECORD && length % 6 == 5 && length > 12 || Model.whole(kind, length) }
    }
    "record's length in 64 bits, wrapped", &["record, length under 12"] => {
        fn whole(&self, kind: u16, length: u64) -> bool {
            if kind == RECORD {
                length.wrapping_sub(12).is_multiple_of(6)
            } else {
                length == 12
            }
        }
    }
    "record without fields is bad", GOOD => { fn whole(&self, kind: u16, length: u64) -> bool { Model.whole(kind, length) && (kind, length) != (RECORD, 12) } }
    // ---- sizes and types
    "size 0", &["size 0"] => { fn size_is_good(&self, _: u64) -> bool { true } }
    "size 1 is bad", GOOD => { fn size_is_good(&self, size: u64) -> bool { size > 1 } }
    "size above 2^31 is bad", GOOD => { fn size_is_good(&self, size: u64) -> bool { Model.size_is_good(size) && size >> 31 == 0 } }
    "type repeated", &["type repeated"] => { fn repeated(&self, _: &[Descriptor], _: usize) -> bool { false } }
    "type repeated, not at once", &["type repeated"] => {
        fn repeated(&self, types: &[Descriptor], position: usize) -> bool { position > 0 && types[position - 1].type_number == types[position].type_number }
    }
    "type repeated, but the first", &["type repeated"] => {
        fn repeated(&self, types: &[Descriptor], position: usize) -> bool { position > 0 && types[0].type_number == types[position].type_number }
    }
    "type repeated, with another size", &["type repeated"] => {
        fn repeated(&self, types: &[Descriptor], position: usize) -> bool { types[..position].contains(&types[position]) }
    }
    "type 0 is bad", GOOD => {
        fn is_good(&self, types: &[Descriptor], position: usize) -> bool { types[position].type_number != 0 && Model.is_good(types, position) }
    }
    "type 65535 is bad", GOOD => {
        fn is_good(&self, types: &[Descriptor], position: usize) -> bool { types[position].type_number != 65_535 && Model.is_good(types, position) }
    }
    "the last descriptor not checked", &["size", "type", "field", "offset"] => {
        fn is_good(&self, types: &[Descriptor], position: usize) -> bool { position + 1 == types.len() || Model.is_good(types, position) }
    }
    "the first descriptor not checked", &["size", "field of a later", "field of its own"] => {
        fn is_good(&self, types: &[Descriptor], position: usize) -> bool { position == 0 || Model.is_good(types, position) }
    }
    // ---- fields
    "fields not checked", &["field", "offset"] => { fn fields_are_good(&self, _: &[Descriptor], _: usize) -> bool { true } }
    "the first field alone checked", &["field", "offset"] => {
        fn fields_are_good(&self, types: &[Descriptor], position: usize) -> bool {
            fields(types, position, |field, size, before, whole| !before.is_empty() || field.offset + size <= whole)
        }
    }
    "field of its own type", &["field of its own"] => {
        fn named<'a>(&self, types: &'a [Descriptor], position: usize, number: u16) -> Option<&'a Descriptor> { listed(&types[..=position], number) }
    }
    "field of a later type", &["field of a later", "field of its own"] => {
        fn named<'a>(&self, types: &'a [Descriptor], _: usize, number: u16) -> Option<&'a Descriptor> { listed(types, number) }
    }
    "field of a type not listed", &["field of"] => {
        fn named<'a>(&self, types: &'a [Descriptor], position: usize, number: u16) -> Option<&'a Descriptor> {
            listed(&types[..position], number).or(types[..position].first())
        }
    }
    "field of a type other than the one before is bad", GOOD => {
        fn named<'a>(&self, types: &'a [Descriptor], position: usize, number: u16) -> Option<&'a Descriptor> {
            listed(&types[position.saturating_sub(1)..position], number)
        }
    }
    "field of a record is bad", GOOD => {
        fn named<'a>(&self, types: &'a [Descriptor], position: usize, number: u16) -> Option<&'a Descriptor> {
            listed(&types[..position], number).filter(|named| named.fields.is_empty())
        }
    }
    "field one byte before the end of the one before", &["field one byte before", "field where", "field before"] => {
        fn starts(&self, offset: u64, end_before: u64) -> bool { offset + 1 >= end_before }
    }
    "fields overlap", &["field one byte before", "field where", "field before", "fields in another"] => { fn starts(&self, _: u64, _: u64) -> bool { true } }
    "fields overlap, in order", &["field one byte before"] => {
        fn fields_are_good(&self, types: &[Descriptor], position: usize) -> bool {
            fields(types, position, |field, size, before, whole| before.last().is_none_or(|last| last.offset < field.offset) && field.offset + size <= whole)
        }
    }
    "fields in any order", &["fields in another", "field before"] => {
        fn fields_are_good(&self, types: &[Descriptor], position: usize) -> bool {
            let mut types = types.to_vec();
            types[position].fields.sort_by_key(|field| field.offset);
            Model.fields_are_good(&types, position)
        }
    }
    "fields that meet are bad", GOOD => { fn starts(&self, offset: u64, end_before: u64) -> bool { offset > end_before || end_before == 0 } }
    "fields apart are bad", GOOD => { fn starts(&self, offset: u64, end_before: u64) -> bool { offset == end_before || end_before == 0 } }
    "first field not at 0 is bad", GOOD => {
        fn starts(&self, offset: u64, end_before: u64) -> bool { Model.starts(offset, end_before) && (end_before > 0 || offset == 0) }
    }
    "first field at 0 is bad", GOOD => { fn starts(&self, offset: u64, end_before: u64) -> bool { Model.starts(offset, end_before) && offset > 0 } }
    "field one byte past the record", &["field one byte past"] => { fn fits(&self, end: u64, size: u64) -> bool { end <= size + 1 } }
    "field past the record", &["field one byte past", "field larger", "offset"] => { fn fits(&self, _: u64, _: u64) -> bool { true } }
    "field that ends with the record is bad", GOOD => { fn fits(&self, end: u64, size: u64) -> bool { end < size } }
    "record not filled is bad", GOOD => {
        fn is_good(&self, types: &[Descriptor], position: usize) -> bool {
            let Descriptor { fields, size, .. } = &types[position];
            let end = fields.last().and_then(|field| Some(field.offset + listed(types, field.type_number)?.size));
            Model.is_good(types, position) && end.is_none_or(|end| end == *size)
        }
    }
    "end in 32 bits", &["offset", "field larger"] => { fn end_of(&self, field: Field, named: &Descriptor) -> u64 { (field.offset + named.size) & 0xffff_ffff } }
    "end is the offset", &["field", "offset 2^32 - 1", "offset and"] => { fn end_of(&self, field: Field, _: &Descriptor) -> u64 { field.offset } }
    // ---- the relation
    "fields before the offset alone", GOOD => { fn reaches(&self, field: Field, offset: u64) -> bool { field.offset < offset } }
    "the first field that starts at or before", GOOD => {
        fn has(&self, types: &[Descriptor], offset: u64, wanted: u16) -> bool {
            has_through(types, offset, wanted, |fields, offset| fields.iter().find(|field| field.offset <= offset))
        }
    }
    "the last field that starts before", GOOD => {
        fn has(&self, types: &[Descriptor], offset: u64, wanted: u16) -> bool {
            has_through(types, offset, wanted, |fields, offset| fields.iter().rev().find(|field| field.offset < offset || offset == 0))
        }
    }
    "the last field", GOOD => {
        fn has(&self, types: &[Descriptor], offset: u64, wanted: u16) -> bool { has_through(types, offset, wanted, |fields, _| fields.last()) }
    }
    "not in fields", GOOD => { fn has(&self, types: &[Descriptor], offset: u64, wanted: u16) -> bool { has_within(types, offset, wanted, 0) } }
    "one level deep", GOOD => { fn has(&self, types: &[Descriptor], offset: u64, wanted: u16) -> bool { has_within(types, offset, wanted, 1) } }
    "two levels deep", GOOD => { fn has(&self, types: &[Descriptor], offset: u64, wanted: u16) -> bool { has_within(types, offset, wanted, 2) } }
    "four levels deep", GOOD => { fn has(&self, types: &[Descriptor], offset: u64, wanted: u16) -> bool { has_within(types, offset, wanted, 4) } }
    "fields alone", GOOD => {
        fn has(&self, types: &[Descriptor], offset: u64, wanted: u16) -> bool {
            inner(types, &types.last().unwrap().fields, offset).into_iter().any(|(types, offset)| Model.has(types, offset, wanted))
        }
    }
    "innermost types alone", GOOD => {
        fn is(&self, described: &Descriptor, offset: u64, wanted: u16) -> bool { Model.is(described, offset, wanted) && described.fields.is_empty() }
    }
    "at any offset", GOOD => { fn is(&self, described: &Descriptor, _: u64, wanted: u16) -> bool { described.type_number == wanted } }
    "anywhere inside", GOOD => {
        fn is(&self, described: &Descriptor, offset: u64, wanted: u16) -> bool { described.type_number == wanted && offset < described.size }
    }
    "at the end too", GOOD => {
        fn is(&self, described: &Descriptor, offset: u64, wanted: u16) -> bool { described.type_number == wanted && [0, described.size].contains(&offset) }
    }
    "one byte behind too", GOOD => { fn is(&self, described: &Descriptor, offset: u64, wanted: u16) -> bool { described.type_number == wanted && offset <= 1 } }
    "any type", GOOD => { fn is(&self, _: &Descriptor, offset: u64, _: u16) -> bool { offset == 0 } }
    "a type of one low byte", GOOD => {
        fn is(&self, described: &Descriptor, offset: u64, wanted: u16) -> bool { described.type_number as u8 == wanted as u8 && offset == 0 }
    }
    // ---- the object
    "distance either way", GOOD => { fn distance(&self, address: u64, base: u64) -> Option<u64> { Some(address.abs_diff(base)) } }
    "0 before the base", GOOD => { fn distance(&self, address: u64, base: u64) -> Option<u64> { Some(address.saturating_sub(base)) } }
    "distance from the header", GOOD => { fn distance(&self, address: u64, base: u64) -> Option<u64> { address.checked_sub(base - HEADER) } }
    "distance in 16 bits", GOOD => { fn distance(&self, address: u64, base: u64) -> Option<u64> { Some(address.checked_sub(base)? & 0xffff) } }
    "distance in 8 bits", GOOD => { fn distance(&self, address: u64, base: u64) -> Option<u64> { Some(address.checked_sub(base)? & 255) } }
    "always at the base", GOOD => { fn distance(&self, _: u64, _: u64) -> Option<u64> { Some(0) } }
    "the extent for the size", GOOD => { fn size_of(&self, header: Header) -> u64 { header.extent.into() } }
    "the size with spare bytes", GOOD => { fn size_of(&self, header: Header) -> u64 { u64::from(header.extent) - HEADER } }
    "any size", GOOD => { fn under(&self, _: u64, _: u64) -> bool { false } }
    "one byte too few", GOOD => { fn under(&self, size: u64, described: u64) -> bool { size + 1 < described } }
    "no bytes", GOOD => { fn under(&self, size: u64, described: u64) -> bool { size != 0 && size < described } }
    "size as described alone", GOOD => { fn under(&self, size: u64, described: u64) -> bool { size != described } }
    "size above the described one alone", GOOD => { fn under(&self, size: u64, described: u64) -> bool { size <= described } }
    "the object's type by its low byte", GOOD => {
        fn described(&self, types: &[Descriptor], header: Header) -> Result<usize, u32> {
            let number = types.iter().map(|described| described.type_number).find(|&number| number as u8 == header.type_number as u8);
            Model.described(types, Header { type_number: number.unwrap_or(header.type_number), ..header })
        }
    }
}

const BEHIND: &[Fault] = &[
    // ---- the rows' order
    ("5 before 4", ALL, &Behind(|a| a.instead(4, a.table.is_empty(), 5))),
    ("24 before 4", ALL, &Behind(|a| a.instead(4, a.bad_list(), 24))),
    ("24 before 5", ALL, &Behind(|a| a.instead(5, a.bad_list(), 24))),
    ("10 before 24", ALL, &Behind(|a| a.instead(24, a.tag() == Err(10), 10))),
    ("11 before 24", ALL, &Behind(|a| a.instead(24, a.tag() == Err(11), 11))),
    ("25 before 24", ALL, &Behind(|a| a.instead(24, a.type_number().is_some_and(|number| listed(&a.prefix(), number).is_none()), 25))),
    ("25 before 10", GOOD, &Behind(|a| a.instead(10, a.list.is_empty(), 25))),
    ("25 before 11", GOOD, &Behind(|a| a.instead(11, a.dangling().is_some_and(|header| listed(&a.prefix(), header.type_number).is_none()), 25))),
    ("25, not listed, before 11, no header there", GOOD, &Behind(|a| a.instead(11, a.dangling().is_none() && a.list.is_empty(), 25))),
    (
        "24 up to the object's type alone",
        ALL,
        &Behind(|a| {
            let list: Vec<u8> = a.prefix().iter().flat_map(Descriptor::bytes).collect();
            let is_there = a.type_number().is_some_and(|number| listed(&a.prefix(), number).is_some());
            match a.right.refusal == 24 && is_there {
                true => Model.checked(a.image, a.table, &list, a.question.pointer, a.question.wanted).into(),
                false => a.right,
            }
        }),
    ),
    // ---- other answers
    ("25 for a wanted type that is not listed", GOOD, &Behind(|a| a.instead(0, listed(&a.prefix(), a.question.wanted).is_none(), 25))),
    (
        "no for an object's type that is not listed",
        GOOD,
        &Behind(|a| {
            let listed = a.type_number().is_some_and(|number| listed(&a.prefix(), number).is_some());
            a.instead(25, !listed, 0)
        }),
    ),
    ("25 before the base", GOOD, &Behind(|a| a.instead(0, a.distance() < 0, 25))),
    ("13 before the base", GOOD, &Behind(|a| a.instead(0, a.distance() < 0, 13))),
    ("13 past the end", GOOD, &Behind(|a| a.instead(0, a.tag().is_ok_and(|(_, header)| a.distance() > header.size.into()), 13))),
    ("13 at the end", GOOD, &Behind(|a| a.instead(0, a.tag().is_ok_and(|(_, header)| a.distance() == header.size.into()), 13))),
    ("yes is 255", GOOD, &Behind(|a| Answer { values: a.right.values.map(|value| value * 255), ..a.right })),
    ("yes and no exchanged", GOOD, &Behind(|a| if a.right.accepted() { Answer::new(0, [1 - a.right.values[0]]) } else { a.right })),
    ("refused with 1", ALL, &Behind(|a| if a.right.accepted() { a.right } else { Answer::new(a.right.refusal, [1]) })),
    // ---- writes
    (
        "writes the image",
        GOOD,
        &Behind(|a| {
            if a.right.values[0] == 1 {
                *a.image.last_mut().unwrap() ^= 1;
            }
            a.right
        }),
    ),
    (
        "writes the table",
        GOOD,
        &Behind(|a| {
            if a.right.values[0] == 1 {
                *a.table.last_mut().unwrap() ^= 1;
            }
            a.right
        }),
    ),
    (
        "writes the list",
        &["good"],
        &Behind(|a| {
            if a.right.refusal == 25 && !a.list.is_empty() {
                a.list[0] ^= 1;
            }
            a.right
        }),
    ),
    (
        "writes a bad list",
        ALL,
        &Behind(|a| {
            if a.right.refusal == 24 {
                a.list[0] ^= 1;
            }
            a.right
        }),
    ),
];

/// How many cases show a fault, by the kind of their lists, and what the first one shows.
fn find(cases: &[(Case, Vec<Answer>)], fault: &dyn Casts) -> (BTreeMap<&'static str, u64>, Option<Box<Failure>>) {
    let (mut found, mut first) = (BTreeMap::new(), None);
    for (case, answers) in cases {
        let Err(failure) = case.check(answers, fault) else { continue };
        *found.entry(case.kind.name()).or_default() += 1;
        first.get_or_insert(failure);
    }
    (found, first)
}

/// The cases and the right answers.
fn cases() -> Vec<(Case, Vec<Answer>)> {
    let answered = |case: Case| {
        let answers = case.answers(&Model).unwrap_or_else(|failure| panic!("{failure}"));
        (case, answers)
    };
    (0..WITHIN).map(case).map(answered).collect()
}

/// What is wrong with how a fault is found.
fn amiss(cases: &[(Case, Vec<Answer>)], (name, by, fault): &Fault) -> Option<String> {
    let (found, Some(first)) = find(cases, *fault) else { return Some(format!("not found: {name}")) };
    println!("{name}: {found:?}\n{first}\n");
    let kinds: Vec<_> = found.into_keys().filter(|&kind| kind != Kind::Any.name()).collect();
    let expected = |kind: &&str| by.iter().any(|by| kind.starts_with(by));
    (kinds.is_empty() || !kinds.iter().all(expected)).then(|| format!("{name}: found in {kinds:?}"))
}

fn are_found(faults: &[Fault]) {
    let cases = cases();
    let amiss: Vec<_> = faults.iter().filter_map(|fault| amiss(&cases, fault)).collect();
    assert!(amiss.is_empty(), "{}", amiss.join("\n"));
}

#[test]
fn rules_are_found() {
    are_found(RULES);
}

#[test]
fn others_are_found() {
    are_found(BEHIND);
}

/// On good lists other rules come to the same: only the last field that starts at or before the offset can have a type there, and a
/// distance that wraps round is beyond every end.
#[test]
fn what_is_no_fault_is_not_found() {
    struct Pruned;
    impl Rules for Pruned {
        fn has(&self, types: &[Descriptor], offset: u64, wanted: u16) -> bool {
            has_through(types, offset, wanted, |fields, offset| fields.iter().rev().find(|field| field.offset <= offset))
        }
    }
    struct Wrapped;
    impl Rules for Wrapped {
        fn distance(&self, address: u64, base: u64) -> Option<u64> {
            Some(address.wrapping_sub(base))
        }
    }
    let cases = cases();
    for right in [&Pruned as &dyn Casts, &Wrapped, &Behind(|asked| asked.right)] {
        assert!(find(&cases, right).1.is_none());
    }
}

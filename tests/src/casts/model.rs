//! The text, in the literal way: any field may have the wanted type. That takes time exponential in the depth of the layouts, which the
//! generator therefore limits.

use super::{Casts, BAD, UNDESCRIBED};
use crate::model::{self, Header, Pointer, HEADER};
use crate::store::{Answer, Model};

pub const PLAIN: u16 = 4;
pub const RECORD: u16 = 5;

/// Bytes of a descriptor without fields, and of a field.
pub const HEAD: usize = 12;
pub const FIELD: usize = 6;

/// A descriptor as it stands in a list, be it bad.
#[derive(Clone, Debug, PartialEq, Eq)]
pub struct Descriptor {
    pub length: u64,
    pub kind: u16,
    pub type_number: u16,
    pub size: u64,
    pub fields: Vec<Field>,
}

#[derive(Clone, Copy, Debug, PartialEq, Eq)]
pub struct Field {
    pub offset: u64,
    pub type_number: u16,
}

impl Descriptor {
    pub fn plain(type_number: u16, size: u64) -> Descriptor {
        Descriptor { length: HEAD as u64, kind: PLAIN, type_number, size, fields: Vec::new() }
    }

    pub fn record(type_number: u16, size: u64, fields: Vec<Field>) -> Descriptor {
        Descriptor { length: (HEAD + FIELD * fields.len()) as u64, kind: RECORD, type_number, size, fields }
    }

    /// Its bytes, whatever its length says.
    pub fn bytes(&self) -> Vec<u8> {
        let mut bytes = Vec::new();
        bytes.extend((self.length as u32).to_le_bytes());
        bytes.extend(self.kind.to_le_bytes());
        bytes.extend(self.type_number.to_le_bytes());
        bytes.extend((self.size as u32).to_le_bytes());
        for field in &self.fields {
            bytes.extend((field.offset as u32).to_le_bytes());
            bytes.extend(field.type_number.to_le_bytes());
        }
        bytes
    }
}

/// The first descriptor of that type.
pub fn listed(types: &[Descriptor], type_number: u16) -> Option<&Descriptor> {
    types.iter().find(|described| described.type_number == type_number)
}

/// The little-endian number of these bytes.
fn number(bytes: &[u8]) -> u64 {
    bytes.iter().rev().fold(0, |value, &byte| value << 8 | u64::from(byte))
}

/// The text's rules. What is here is right; a test that plants a fault has another one in the place of one of them.
pub trait Rules {
    // ---- the list

    /// Of at least 12 bytes.
    fn head(&self, bytes: &[u8]) -> Descriptor {
        Descriptor {
            length: number(&bytes[..4]),
            kind: number(&bytes[4..6]) as u16,
            type_number: number(&bytes[6..8]) as u16,
            size: number(&bytes[8..12]),
            fields: Vec::new(),
        }
    }

    /// Of 6 bytes.
    fn field(&self, bytes: &[u8]) -> Field {
        Field { offset: number(&bytes[..4]), type_number: number(&bytes[4..]) as u16 }
    }

    /// Whether the list ends before these bytes.
    fn ends(&self, left: &[u8]) -> bool {
        left.is_empty()
    }

    /// Whether a descriptor of that length ends behind the list, of which so many bytes are left.
    fn cut_short(&self, length: u64, left: u64) -> bool {
        length > left
    }

    fn known(&self, kind: u16) -> bool {
        kind == PLAIN || kind == RECORD
    }

    /// Whether that length is one of its kind.
    fn whole(&self, kind: u16, length: u64) -> bool {
        let (head, field) = (HEAD as u64, FIELD as u64);
        length == head || kind == RECORD && length > head && (length - head).is_multiple_of(field)
    }

    /// The descriptors one behind the other; 24.
    fn split(&self, list: &[u8]) -> Result<Vec<Descriptor>, u32> {
        let (mut types, mut left) = (Vec::new(), list);
        while !self.ends(left) {
            if left.len() < HEAD {
                return Err(BAD);
            }
            let mut described = self.head(left);
            let Descriptor { length, kind, .. } = described;
            if self.cut_short(length, left.len() as u64) || !self.known(kind) || !self.whole(kind, length) {
                return Err(BAD);
            }
            // only rules that let more pass have it outside
            let (own, rest) = left.split_at((length as usize).clamp(HEAD, left.len()));
            if kind == RECORD {
                described.fields = own[HEAD..].chunks_exact(FIELD).map(|bytes| self.field(bytes)).collect();
            }
            types.push(described);
            left = rest;
        }
        Ok(types)
    }

    fn size_is_good(&self, size: u64) -> bool {
        size != 0
    }

    fn repeated(&self, types: &[Descriptor], position: usize) -> bool {
        listed(&types[..position], types[position].type_number).is_some()
    }

    /// The descriptor that a field of the one at the position names.
    fn named<'a>(&self, types: &'a [Descriptor], position: usize, type_number: u16) -> Option<&'a Descriptor> {
        listed(&types[..position], type_number)
    }

    fn end_of(&self, field: Field, named: &Descriptor) -> u64 {
        field.offset + named.size
    }

    /// Whether a field may start where the one before it ends there.
    fn starts(&self, offset: u64, end_before: u64) -> bool {
        offset >= end_before
    }

    fn fits(&self, end: u64, size: u64) -> bool {
        end <= size
    }

    fn fields_are_good(&self, types: &[Descriptor], position: usize) -> bool {
        let mut end_before = 0;
        types[position].fields.iter().all(|&field| {
            let Some(named) = self.named(types, position, field.type_number) else { return false };
            let end = self.end_of(field, named);
            self.starts(field.offset, std::mem::replace(&mut end_before, end)) && self.fits(end, types[position].size)
        })
    }

    fn is_good(&self, types: &[Descriptor], position: usize) -> bool {
        self.size_is_good(types[position].size) && !self.repeated(types, position) && self.fields_are_good(types, position)
    }

    /// The types that a list describes; 24.
    fn types(&self, list: &[u8]) -> Result<Vec<Descriptor>, u32> {
        let types = self.split(list)?;
        match (0..types.len()).all(|position| self.is_good(&types, position)) {
            true => Ok(types),
            false => Err(BAD),
        }
    }

    // ---- the relation

    fn is(&self, described: &Descriptor, offset: u64, wanted: u16) -> bool {
        described.type_number == wanted && offset == 0
    }

    /// Whether a field that starts there may have a type at the offset.
    fn reaches(&self, field: Field, offset: u64) -> bool {
        field.offset <= offset
    }

    /// Whether the last of these types has the wanted one at the offset. A good field's type is among those before it.
    fn has(&self, types: &[Descriptor], offset: u64, wanted: u16) -> bool {
        let Some((described, earlier)) = types.split_last() else { return false };
        self.is(described, offset, wanted)
            || described.fields.iter().any(|&field| {
                let position = earlier.iter().position(|other| other.type_number == field.type_number);
                self.reaches(field, offset) && position.is_some_and(|position| self.has(&earlier[..=position], offset - field.offset, wanted))
            })
    }

    // ---- the object

    /// From the object's base to the address; none before the base.
    fn distance(&self, address: u64, base: u64) -> Option<u64> {
        address.checked_sub(base)
    }

    fn size_of(&self, header: Header) -> u64 {
        header.size.into()
    }

    /// Whether the object is too small for what is described.
    fn under(&self, size: u64, described: u64) -> bool {
        size < described
    }

    /// The place of the type of an object with that header; 25.
    fn described(&self, types: &[Descriptor], header: Header) -> Result<usize, u32> {
        let position = types.iter().position(|described| described.type_number == header.type_number).ok_or(UNDESCRIBED)?;
        match self.under(self.size_of(header), types[position].size) {
            true => Err(UNDESCRIBED),
            false => Ok(position),
        }
    }

    fn checked(&self, image: &[u8], table: &[u64], list: &[u8], pointer: u64, wanted: u16) -> model::Answer {
        let s = model::open(image, table)?;
        let types = self.types(list)?;
        let p = Pointer::unpack(pointer);
        let (h, header) = model::read_tag(image, table, s, p)?;
        let position = self.described(&types, header)?;
        let yes = self.distance(p.address, h + HEADER).is_some_and(|distance| self.has(&types[..=position], distance, wanted));
        Ok(yes.into())
    }
}

impl Rules for Model {}

impl<R: Rules> Casts for R {
    fn has_type(&self, image: &mut [u8], table: &mut [u64], descriptors: &mut [u8], pointer: u64, wanted: u16) -> Answer {
        self.checked(image, table, descriptors, pointer, wanted).into()
    }
}

#[cfg(test)]
mod tests {
    use super::*;

    /// Type 1 of 4 bytes; 2 of 12 with 1 at 0 and 8; 3 of 30 with 2 at 2 and 14 and 1 at 26.
    fn types() -> Vec<Descriptor> {
        let fields = |fields: &[(u64, u16)]| fields.iter().map(|&(offset, type_number)| Field { offset, type_number }).collect();
        vec![Descriptor::plain(1, 4), Descriptor::record(2, 12, fields(&[(0, 1), (8, 1)])), Descriptor::record(3, 30, fields(&[(2, 2), (14, 2), (26, 1)]))]
    }

    #[test]
    fn bytes_are_the_wrappers() {
        use cueledger::descriptor::{field, plain, record};
        let list: Vec<u8> = types().iter().flat_map(Descriptor::bytes).collect();
        let expected = [&plain(1, 4)[..], &record(2, 12, 2), &field(0, 1), &field(8, 1), &record(3, 30, 3), &field(2, 2), &field(14, 2), &field(26, 1)];
        assert_eq!(list, expected.concat());
        assert_eq!(Model.types(&list), Ok(types()));
    }

    #[test]
    fn offsets_of_each_type() {
        let all = |position: usize, wanted| (0..40).filter(|&offset| Model.has(&types()[..=position], offset, wanted)).collect::<Vec<_>>();
        assert_eq!([all(0, 1), all(0, 2), all(1, 1), all(1, 2)], [vec![0], vec![], vec![0, 8], vec![0]]);
        assert_eq!([all(2, 1), all(2, 2), all(2, 3), all(2, 4)], [vec![2, 10, 14, 22, 26], vec![2, 14], vec![0], vec![]]);
    }
}

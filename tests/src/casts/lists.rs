//! Lists of descriptors: good ones, those with one thing amiss, and any bytes.

use super::model::{listed, Descriptor, Field, FIELD, HEAD, PLAIN, RECORD};
use crate::random::Random;

/// The most fields in fields, below the object's type; and the most fields of a type.
pub const DEPTH: usize = 6;
const FIELDS: u64 = 5;

const LARGEST: u64 = u32::MAX as u64;

/// Among them numbers that have a byte in common, or the two bytes swapped.
const NUMBERS: [u16; 14] = [0, 1, 2, 3, 4, 5, 7, 255, 256, 257, 512, 0xff00, 0xfffe, 0xffff];

/// What a list is meant to be.
#[derive(Clone, Copy, Debug, PartialEq, Eq)]
pub enum Kind {
    Good,
    /// By its place in `AMISS`.
    Amiss(usize),
    /// Any bytes, or descriptors of any numbers.
    Any,
}

impl Kind {
    pub fn name(self) -> &'static str {
        match self {
            Kind::Good => "good",
            Kind::Amiss(nth) => AMISS[nth].0,
            Kind::Any => "any bytes",
        }
    }
}

/// A list, and the bytes behind it that are not lent.
pub struct List {
    pub kind: Kind,
    pub bytes: Vec<u8>,
    pub beyond: Vec<u8>,
    /// What it described before something was put amiss.
    pub types: Vec<Descriptor>,
}

pub fn bytes(types: &[Descriptor]) -> Vec<u8> {
    types.iter().flat_map(Descriptor::bytes).collect()
}

// ---- good ones

/// A number that no type has.
pub fn unlisted(random: &mut Random, types: &[Descriptor]) -> u16 {
    loop {
        let number = if random.percent(60) { random.pick(&NUMBERS) } else { random.word() as u16 };
        if listed(types, number).is_none() {
            return number;
        }
    }
}

/// How deep the fields in each type's fields are.
fn depths(types: &[Descriptor]) -> Vec<usize> {
    let mut depths: Vec<usize> = Vec::new();
    for described in types {
        let inner = described.fields.iter().map(|field| types.iter().position(|other| other.type_number == field.type_number).unwrap());
        depths.push(inner.map(|position| 1 + depths[position]).max().unwrap_or(0));
    }
    depths
}

fn plain_size(random: &mut Random) -> u64 {
    match random.below(100) {
        0..75 => random.within(1, 8),
        75..92 => random.within(1, 40),
        92..96 => random.within(40, 300),
        96 => random.within(60_000, 70_000),
        97 => LARGEST,
        98 => random.within(LARGEST - 20, LARGEST),
        _ => random.within(1, LARGEST),
    }
}

fn gap(random: &mut Random) -> u64 {
    match random.below(100) {
        0..60 => 0,
        60..75 => 1,
        75..96 => random.within(1, 12),
        96..99 => random.within(65_000, 67_000),
        _ => random.within(1, LARGEST),
    }
}

fn record(random: &mut Random, types: &[Descriptor], number: u16) -> Descriptor {
    let most = random.pick(&[40, 200, 200, 600, 600, 3_000, 100_000, LARGEST]);
    let (mut end, mut fields) = (0, Vec::new());
    let inner: Vec<_> = types.iter().zip(depths(types)).filter(|&(_, depth)| depth < DEPTH).map(|(described, _)| described).collect();
    let Some(last) = inner.len().checked_sub(1) else { return Descriptor::record(number, 1 + gap(random).min(40), fields) };
    for _ in 0..random.within(0, FIELDS) {
        let named = if random.percent(45) { inner[last] } else { random.pick(&inner) };
        let offset = end + gap(random);
        if offset + named.size <= most {
            fields.push(Field { offset, type_number: named.type_number });
            end = offset + named.size;
        }
    }
    let size = (end + gap(random)).clamp(1, LARGEST);
    Descriptor::record(number, if random.percent(1) { LARGEST } else { size }, fields)
}

fn described(random: &mut Random, types: &[Descriptor]) -> Descriptor {
    let number = unlisted(random, types);
    match random.percent(30) || types.is_empty() && random.percent(80) {
        true => Descriptor::plain(number, plain_size(random)),
        false => record(random, types, number),
    }
}

pub fn good(random: &mut Random) -> Vec<Descriptor> {
    let count = match random.below(200) {
        0..6 => 0,
        6 => 100,
        _ => random.within(1, 12),
    };
    let mut types = Vec::new();
    for _ in 0..count {
        types.push(described(random, &types));
    }
    types
}

// ---- with one thing amiss

/// Puts one thing amiss, where there is something that it can be done to.
type Amiss = fn(&mut Random, &mut Vec<Descriptor>) -> Option<Vec<u8>>;

/// Some place of those that are as asked for.
fn place(random: &mut Random, types: &[Descriptor], is: impl Fn(&Descriptor) -> bool) -> Option<usize> {
    let places: Vec<_> = (0..types.len()).filter(|&at| is(&types[at])).collect();
    (!places.is_empty()).then(|| random.pick(&places))
}

/// The list with a descriptor changed.
fn changed(types: &[Descriptor], at: usize, change: impl FnOnce(&mut Descriptor)) -> Option<Vec<u8>> {
    let mut types = types.to_vec();
    change(&mut types[at]);
    Some(bytes(&types))
}

/// Any descriptor with another kind.
fn kind(random: &mut Random, types: &[Descriptor], kind: u16) -> Option<Vec<u8>> {
    let at = place(random, types, |_| true)?;
    changed(types, at, |described| described.kind = kind)
}

/// The last so many bytes of the list's last descriptor taken off.
fn cut(types: &[Descriptor], bytes_off: usize) -> Option<Vec<u8>> {
    let mut list = bytes(types);
    list.truncate(list.len() - bytes_off);
    Some(list)
}

/// A descriptor with bytes behind its own that its length counts.
fn longer(random: &mut Random, types: &[Descriptor], kind: u16, more: usize) -> Option<Vec<u8>> {
    let at = place(random, types, |described| described.kind == kind)?;
    let mut described = types[at].clone();
    described.length += more as u64;
    let extra = (0..more).map(|_| random.word() as u8);
    Some([bytes(&types[..at]), described.bytes(), extra.collect(), bytes(&types[at + 1..])].concat())
}

/// A descriptor with another length, its bytes left as they are.
fn length(random: &mut Random, types: &[Descriptor], kind: u16, length: u64) -> Option<Vec<u8>> {
    let at = place(random, types, |described| described.kind == kind)?;
    changed(types, at, |described| described.length = length)
}

/// A record and one of its fields, which is not the first where another is to be before it.
fn field(random: &mut Random, types: &[Descriptor], behind_another: bool) -> Option<(usize, usize)> {
    let first = usize::from(behind_another);
    let at = place(random, types, |described| described.fields.len() > first)?;
    Some((at, random.within(first as u64, types[at].fields.len() as u64 - 1) as usize))
}

fn size_of(types: &[Descriptor], field: Field) -> u64 {
    listed(types, field.type_number).unwrap().size
}

/// A record's last field with its offset changed, of what it was and of its size.
fn last_moved(random: &mut Random, types: &[Descriptor], offset: impl FnOnce(u64, u64) -> u64) -> Option<Vec<u8>> {
    let at = place(random, types, |described| !described.fields.is_empty())?;
    let last = types[at].fields.len() - 1;
    let size = size_of(types, types[at].fields[last]);
    changed(types, at, |described| described.fields[last].offset = offset(described.fields[last].offset, size))
}

/// A field that follows another, moved to where that one starts or ends and so many bytes before it.
fn moved_back(random: &mut Random, types: &[Descriptor], to_end: bool, before: u64) -> Option<Vec<u8>> {
    let (at, nth) = field(random, types, true)?;
    let other = types[at].fields[nth - 1];
    let from = other.offset + if to_end { size_of(types, other) } else { 0 };
    let offset = from.checked_sub(before)?;
    changed(types, at, |described| described.fields[nth].offset = offset)
}

/// Each thing that can be amiss, alone.
pub const AMISS: [(&str, Amiss); 40] = [
    ("cut in the head", |random, types| cut(types, FIELD * types.last()?.fields.len() + random.within(1, HEAD as u64 - 1) as usize)),
    ("cut in the fields", |random, types| {
        let fields = types.last()?.fields.len() as u64;
        (fields > 0).then(|| cut(types, random.within(1, FIELD as u64 * fields) as usize))?
    }),
    ("cut by one byte", |_, types| (!types.is_empty()).then(|| cut(types, 1))?),
    ("one byte behind the last", |random, types| Some([bytes(types), vec![random.pick(&[0, 4, 12, 255])]].concat())),
    ("bytes behind the last", |random, types| {
        let more = random.within(1, HEAD as u64 - 1) as usize;
        let next = described(random, types).bytes();
        Some([bytes(types), if random.percent(50) { vec![0; more] } else { next[..more].to_vec() }].concat())
    }),
    ("length beyond the end", |random, types| {
        let last = types.len().checked_sub(1)?;
        let more = FIELD as u64 * random.within(1, 3);
        (types[last].kind == RECORD).then(|| changed(types, last, |described| described.length += more))?
    }),
    // both are 12 and whole fields
    ("length and 3 * 2^16", |random, types| {
        let at = place(random, types, |described| described.kind == RECORD)?;
        changed(types, at, |described| described.length += 3 << 16)
    }),
    ("length 2^32 - 4", |random, types| match types.len().checked_sub(1)? {
        last if types[last].kind == RECORD => changed(types, last, |described| described.length = LARGEST - 3),
        _ => length(random, types, RECORD, LARGEST - 3),
    }),
    ("length 2^32 - 1", |random, types| {
        let kind = random.pick(&[PLAIN, RECORD]);
        length(random, types, kind, LARGEST)
    }),
    ("kind 0", |random, types| kind(random, types, 0)),
    ("kind 3", |random, types| kind(random, types, 3)),
    ("kind 6", |random, types| kind(random, types, 6)),
    ("kind 7", |random, types| kind(random, types, 7)),
    ("kind 65535", |random, types| kind(random, types, 0xffff)),
    ("kind 4 or 5, and the high byte", |random, types| {
        let at = place(random, types, |_| true)?;
        changed(types, at, |described| described.kind |= 0x100)
    }),
    ("size 0", |random, types| {
        let at = place(random, types, |described| described.fields.is_empty())?;
        changed(types, at, |described| described.size = 0)
    }),
    ("plain with fields", |random, types| {
        let at = place(random, types, |described| !described.fields.is_empty())?;
        changed(types, at, |described| described.kind = PLAIN)
    }),
    ("plain of 13 bytes", |random, types| longer(random, types, PLAIN, 1)),
    ("plain of 18 bytes", |random, types| longer(random, types, PLAIN, FIELD)),
    ("plain, length 11", |random, types| length(random, types, PLAIN, 11)),
    ("plain, length 0", |random, types| length(random, types, PLAIN, 0)),
    ("record, 1 byte more", |random, types| longer(random, types, RECORD, 1)),
    ("record, 2 bytes more", |random, types| longer(random, types, RECORD, 2)),
    ("record, 3 bytes more", |random, types| longer(random, types, RECORD, 3)),
    ("record, 4 bytes more", |random, types| longer(random, types, RECORD, 4)),
    ("record, 5 bytes more", |random, types| longer(random, types, RECORD, 5)),
    ("record, length under 12", |random, types| {
        let at = place(random, types, |described| described.kind == RECORD && described.fields.is_empty())?;
        // 2 and 8 are 12 less so many fields, in numbers that wrap round
        let under = random.pick(&[0, 2, 6, 8, 11]);
        changed(types, at, |described| described.length = under)
    }),
    ("type repeated", |random, types| {
        let number = types[place(random, types, |_| true)?].type_number;
        let again = described(random, types);
        Some([bytes(types), Descriptor { type_number: number, ..again }.bytes()].concat())
    }),
    ("type repeated, the same descriptor", |random, types| Some([bytes(types), types[place(random, types, |_| true)?].bytes()].concat())),
    ("field of a type not listed", |random, types| {
        let ((at, nth), number) = (field(random, types, false)?, unlisted(random, types));
        changed(types, at, |described| described.fields[nth].type_number = number)
    }),
    ("field of its own type", |random, types| {
        let number = unlisted(random, types);
        types.push(Descriptor::record(number, random.within(1, 20), vec![Field { offset: 0, type_number: number }]));
        Some(bytes(types))
    }),
    ("field of a later type", |random, types| {
        let later = described(random, types);
        types.push(later.clone());
        let record = Descriptor::record(unlisted(random, types), later.size, vec![Field { offset: 0, type_number: later.type_number }]);
        let last = types.len() - 1;
        types.insert(random.below(last as u64 + 1) as usize, record);
        Some(bytes(types))
    }),
    ("field one byte before the end of the one before", |random, types| moved_back(random, types, true, 1)),
    ("field where the one before starts", |random, types| moved_back(random, types, false, 0)),
    ("field before the one before", |random, types| moved_back(random, types, false, 1)),
    ("fields in another order", |random, types| {
        let (at, nth) = field(random, types, true)?;
        changed(types, at, |described| described.fields.swap(nth - 1, nth))
    }),
    ("field one byte past the record", |random, types| {
        let at = place(random, types, |described| !described.fields.is_empty())?;
        let last = *types[at].fields.last().unwrap();
        let size = last.offset + size_of(types, last) - 1;
        (size > 0).then(|| changed(types, at, |described| described.size = size))?
    }),
    ("field larger than its record", |random, types| {
        let (large, number) = (unlisted(random, types), random.below(2));
        types.push(Descriptor::plain(large, LARGEST - random.below(3)));
        let record = Descriptor::record(unlisted(random, types), random.within(1, 40), vec![Field { offset: number, type_number: large }]);
        types.push(record);
        Some(bytes(types))
    }),
    ("offset 2^32 - 1", |random, types| last_moved(random, types, |_, _| LARGEST)),
    ("offset and size are 2^32", |random, types| last_moved(random, types, |_, size| LARGEST + 1 - size)),
];

/// What is put amiss is the chosen thing where it can be, and the next one otherwise.
fn amiss(random: &mut Random, mut types: Vec<Descriptor>) -> List {
    let whole = bytes(&types);
    let chosen = random.below(AMISS.len() as u64) as usize;
    let nth = (chosen..AMISS.len()).chain(0..chosen);
    let (kind, bytes) = nth.filter_map(|nth| AMISS[nth].1(random, &mut types).map(|bytes| (Kind::Amiss(nth), bytes))).next().unwrap();
    // behind a list that is cut short there is what was cut off
    let beyond = if whole.starts_with(&bytes) { whole[bytes.len()..].to_vec() } else { Vec::new() };
    List { kind, bytes, beyond, types }
}

// ---- any bytes

/// A descriptor of small numbers, good by chance.
fn near(random: &mut Random) -> Vec<u8> {
    let fields = random.below(3);
    let small = |random: &mut Random| Field { offset: random.below(6), type_number: random.below(3) as u16 };
    let described = Descriptor {
        length: if random.percent(85) { 12 + 6 * fields } else { random.below(30) },
        kind: random.pick(&[PLAIN, PLAIN, PLAIN, PLAIN, RECORD, RECORD, RECORD, RECORD, RECORD, 6]),
        type_number: random.below(4) as u16,
        size: random.below(12),
        fields: (0..fields).map(|_| small(random)).collect(),
    };
    described.bytes()
}

fn any(random: &mut Random) -> List {
    let mut bytes = Vec::new();
    if random.percent(50) {
        bytes.extend((0..random.below(65)).map(|_| random.word() as u8));
    } else {
        let count = random.within(1, 4);
        bytes.extend((0..count).flat_map(|_| near(random)));
    }
    List { kind: Kind::Any, bytes, beyond: Vec::new(), types: (0..4).map(|number| Descriptor::plain(number, 1 + random.below(12))).collect() }
}

pub fn list(random: &mut Random) -> List {
    let types = good(random);
    match random.below(100) {
        0..58 => List { kind: Kind::Good, bytes: bytes(&types), beyond: Vec::new(), types },
        58..90 => amiss(random, types),
        _ => any(random),
    }
}

//! Two images: where they differ, and in which objects.

use crate::image::{header_reasons, Header, Superblock, FIRST, HEADER};
use crate::progress::Progress;
use crate::text::{counted, digits, grouped};
use cueledger::{Block, Blocks, Kind};
use std::io::{self, Write};

/// Bytes that are compared at a time.
const PIECE: usize = 1 << 16;

/// An image of a good superblock, and its name.
#[derive(Clone, Copy)]
pub struct Side<'a> {
    pub name: &'a str,
    pub image: &'a [u8],
}

/// The first place at which one has another byte, or one has ended.
pub fn first_difference(a: &[u8], b: &[u8]) -> Option<usize> {
    let both = a.len().min(b.len());
    let differing = a[..both].chunks(PIECE).zip(b[..both].chunks(PIECE)).position(|(a, b)| a != b);
    let from = differing.map_or(both, |nth| nth * PIECE);
    let within = a[from..both].iter().zip(&b[from..both]).position(|(a, b)| a != b);
    within.map(|at| from + at).or((a.len() != b.len()).then_some(both))
}

/// How many bytes differ, as far as both go.
fn differing(a: &[u8], b: &[u8]) -> u64 {
    a.chunks(PIECE).zip(b.chunks(PIECE)).filter(|(a, b)| a != b).map(|(a, b)| a.iter().zip(b).filter(|(a, b)| a != b).count() as u64).sum()
}

/// What the byte at `place` belongs to, and its value.
fn field(image: &[u8], place: usize) -> String {
    let Some(byte) = image.get(place) else { return format!("has ended, at {}", image.len()) };
    if let (true, Some(superblock)) = (place < FIRST, Superblock::of(image)) {
        return format!("superblock, {}", superblock_field(superblock, place));
    }
    for block in Blocks::new(image) {
        match block {
            Ok(block) if place < block.place + block.extent as usize => return block_field(image, &block, place),
            Ok(_) => {}
            Err(unsound) => {
                let reasons = header_reasons(image, unsound.place as u64).join("; ");
                let what = match Header::at(image, unsound.place as u64).filter(|_| place < unsound.place + HEADER) {
                    Some(header) => header_field(header, place - unsound.place),
                    None => format!("byte 0x{byte:02x} behind it"),
                };
                return format!("unsound header at {}, {what} ({reasons})", unsound.place);
            }
        }
    }
    format!("byte 0x{byte:02x}")
}

fn superblock_field(superblock: Superblock, place: usize) -> String {
    match place {
        0..4 => format!("length {}", superblock.length),
        4..6 => format!("kind {}", superblock.kind),
        6..8 => format!("s = {}", superblock.slot_exponent),
        8..12 => format!("L = {}", superblock.image_length),
        _ => format!("free total {}", superblock.free_total),
    }
}

/// The field that has the header's byte `at`.
fn header_field(header: Header, at: usize) -> String {
    match at {
        0..4 => format!("extent {}", header.extent),
        4..6 => format!("kind {}", header.kind),
        6..8 => format!("type {}", header.type_number),
        8..12 => format!("size {}", header.size),
        _ => format!("cue {}", header.cue),
    }
}

/// `place` is in the block.
fn block_field(image: &[u8], block: &Block, place: usize) -> String {
    let at = place - block.place;
    let byte = image[place];
    let body = HEADER + block.size as usize;
    let kind = if block.kind == Kind::Live { "object" } else { "free block" };
    let what = match (Header::at(image, block.place as u64), block.kind) {
        (Some(header), _) if at < HEADER => format!("header, {}", header_field(header, at)),
        (_, Kind::Free) => format!("free space, 0x{byte:02x}"),
        (_, Kind::Live) if at < body => format!("body, its byte {} 0x{byte:02x}", at - HEADER),
        _ => format!("spare byte 0x{byte:02x}"),
    };
    format!("{kind} at {}, {what}", block.place)
}

/// How the objects at one place differ; None where they are the same.
fn difference(a: Side, b: Side, left: &Block, right: &Block) -> Option<String> {
    let fields = [
        ("extent", left.extent, right.extent),
        ("type", left.type_number.into(), right.type_number.into()),
        ("size", left.size, right.size),
        ("cue", left.cue, right.cue),
    ];
    let mut found: Vec<_> = fields.iter().filter(|(_, a, b)| a != b).map(|(name, a, b)| format!("{name} {a} and {b}")).collect();
    let (left_body, right_body) = (body(a.image, left), body(b.image, right));
    if let Some(first) = first_difference(left_body, right_body).filter(|&first| first < left_body.len().min(right_body.len())) {
        let both = left_body.len().min(right_body.len()) as u64;
        found.push(format!("{} of {} of body, from its byte {first} on", grouped(differing(left_body, right_body)), counted(both, "byte")));
    }
    (!found.is_empty()).then(|| found.join("; "))
}

fn body<'a>(image: &'a [u8], block: &Block) -> &'a [u8] {
    let base = block.place + HEADER;
    &image[base..base + block.size as usize]
}

fn only(side: Side, block: &Block) -> String {
    format!("only in {}: {}, type {}, cue {}", side.name, counted(block.size.into(), "byte"), block.type_number, block.cue)
}

/// Writes each object before `end` that differs, by place; gives how many do, and how many are the same.
fn objects(a: Side, b: Side, end: usize, out: &mut impl Write, progress: &mut Progress) -> io::Result<(u64, u64)> {
    let live = |image| Blocks::new(image).flatten().take_while(|block| block.place < end).filter(|block| block.kind == Kind::Live).peekable();
    let width = digits(a.image.len().max(b.image.len()) as u64);
    let (mut left, mut right) = (live(a.image), live(b.image));
    let (mut differ, mut same) = (0, 0);
    loop {
        let (l, r) = (left.peek().copied(), right.peek().copied());
        let place = match (l, r) {
            (None, None) => return Ok((differ, same)),
            (Some(block), None) | (None, Some(block)) => block.place,
            (Some(l), Some(r)) => l.place.min(r.place),
        };
        let l = l.filter(|block| block.place == place).and_then(|_| left.next());
        let r = r.filter(|block| block.place == place).and_then(|_| right.next());
        let found = match (l, r) {
            (Some(l), Some(r)) => difference(a, b, &l, &r),
            (Some(l), None) => Some(only(a, &l)),
            (None, Some(r)) => Some(only(b, &r)),
            (None, None) => None,
        };
        progress.at(place as u64, a.image.len() as u64);
        match found {
            Some(found) => {
                differ += 1;
                writeln!(out, "  {place:>width$}  {found}")?;
            }
            None => same += 1,
        }
    }
}

/// Says where the walk of an image ends before its end, and gives that place.
fn damage(side: Side, out: &mut impl Write) -> io::Result<Option<usize>> {
    let Some(unsound) = Blocks::new(side.image).find_map(Result::err) else { return Ok(None) };
    let reasons = header_reasons(side.image, unsound.place as u64).join("; ");
    writeln!(out, "{} has an unsound header at {}: {reasons}", side.name, unsound.place)?;
    Ok(Some(unsound.place))
}

/// A count with its verb.
fn counted_differ(number: u64, noun: &str) -> String {
    format!("{} differ{}", counted(number, noun), if number == 1 { "s" } else { "" })
}

/// Writes how the two differ, and says whether they are equal and sound.
pub fn write(a: Side, b: Side, out: &mut impl Write, progress: &mut Progress) -> io::Result<bool> {
    let Some(first) = first_difference(a.image, b.image) else {
        writeln!(out, "{} and {} are equal: {}", a.name, b.name, counted(a.image.len() as u64, "byte"))?;
        return Ok(damage(a, out)?.is_none());
    };
    let width = a.name.chars().count().max(b.name.chars().count());
    writeln!(out, "{} and {} differ, first at {first}", a.name, b.name)?;
    for side in [a, b] {
        writeln!(out, "  {:<width$}  {}", side.name, field(side.image, first))?;
    }
    let as_far = if a.image.len() == b.image.len() { "" } else { " as far as both go" };
    writeln!(out, "{}{as_far}", counted_differ(differing(a.image, b.image), "byte"))?;
    writeln!(out)?;
    let ends = [damage(a, out)?, damage(b, out)?];
    let end = ends.into_iter().flatten().min();
    match end {
        Some(end) => writeln!(out, "Objects that differ, by place, up to {end}; those from there on are not compared")?,
        None => writeln!(out, "Objects that differ, by place")?,
    }
    let (differ, same) = objects(a, b, end.unwrap_or(usize::MAX), out, progress)?;
    if differ == 0 {
        writeln!(out, "  none")?;
    }
    writeln!(out, "{}, {} the same", counted_differ(differ, "object"), if same == 1 { "1 is".to_string() } else { format!("{} are", grouped(same)) })?;
    Ok(false)
}

//! The chart as text: superblock, tally, blocks, cues, and the map.

use crate::dump::Chart;
use crate::image::{Header, FIRST, HEADER};
use crate::map;
use crate::object::Object;
use crate::progress::Progress;
use crate::summary::Summary;
use crate::text::{counted, digits, grouped, per_cent};
use cueledger::{Block, Kind, Tally};
use std::io::{self, Write};

/// Writes the chart and says whether all of it is sound.
pub fn write(chart: &Chart, out: &mut impl Write, progress: &mut Progress) -> io::Result<bool> {
    let summary = Summary::of(chart);
    superblock(chart, out)?;
    tally(&summary, out)?;
    blocks(chart, &summary, out, progress)?;
    cues(&summary, out)?;
    writeln!(out)?;
    map::write(chart, &summary, out)?;
    Ok(summary.is_sound())
}

fn superblock(chart: &Chart, out: &mut impl Write) -> io::Result<()> {
    let s = chart.slot_exponent;
    let length = grouped(chart.image().len() as u64);
    let total = chart.store.free_total().map_or_else(|refusal| format!("refused: {refusal}"), grouped);
    writeln!(out, "{}: L = {length} bytes, s = {s} (slots of {} bytes), free total {total}", chart.name, grouped(1 << s))?;
    let entries = grouped(chart.store.table().len() as u64);
    if chart.has_table {
        return writeln!(out, "Table: {entries} used entries");
    }
    writeln!(out, "No table is given: pointers, entries and distances are not shown")
}

fn tally(summary: &Summary, out: &mut impl Write) -> io::Result<()> {
    writeln!(out)?;
    let Tally { objects, live_bytes, free_bytes, overhead_bytes } = match summary.tally {
        Ok(tally) => tally,
        Err(refusal) => return writeln!(out, "Tally refused: {refusal}"),
    };
    let whole = live_bytes + free_bytes + overhead_bytes;
    let width = grouped(whole).len();
    let free = if summary.total_agrees() { "as the superblock's free total says" } else { "which is not the superblock's free total" };
    writeln!(out, "Tally of the {} behind the superblock", counted(whole, "byte"))?;
    for (name, bytes, words) in [
        ("live", live_bytes, format!("in {}", counted(objects, "object"))),
        ("overhead", overhead_bytes, "headers and spare bytes".to_string()),
        ("free", free_bytes, free.to_string()),
    ] {
        writeln!(out, "  {name:<8}  {:>width$}  {:>7}  {words}", grouped(bytes), per_cent(bytes, whole))?;
    }
    Ok(())
}

/// Widths of the columns of blocks.
struct Widths {
    place: usize,
    extent: usize,
    address: usize,
    type_number: usize,
    size: usize,
    cue: usize,
    tag: usize,
    entry: usize,
}

impl Widths {
    fn of(chart: &Chart, summary: &Summary) -> Widths {
        let length = digits(chart.image().len() as u64);
        Widths {
            place: length.max("place".len()),
            extent: length.max("extent".len()),
            address: length.max("address".len()),
            type_number: digits(summary.highest_type.into()).max("type".len()),
            size: digits(summary.largest_size.into()).max("size".len()),
            cue: digits(summary.highest_cue().into()).max("cue".len()),
            tag: digits((1 << chart.slot_exponent) - 1).max("tag".len()),
            entry: digits(chart.store.table().len() as u64).max("entry".len()),
        }
    }
}

fn blocks(chart: &Chart, summary: &Summary, out: &mut impl Write, progress: &mut Progress) -> io::Result<()> {
    let widths = Widths::of(chart, summary);
    let end = chart.image().len() as u64;
    headings(chart, &widths, summary, out)?;
    for (nth, block) in chart.store.blocks().flatten().enumerate() {
        if nth % 4096 == 0 {
            progress.at(block.place as u64, end);
        }
        block_fields(&block, &widths, out)?;
        if block.kind == Kind::Live {
            object_fields(chart, &Object::of(block, chart.slot_exponent), &widths, out)?;
        }
        writeln!(out)?;
    }
    damage(chart, summary, out)?;
    for line in summary.amiss() {
        writeln!(out, "{line}")?;
    }
    Ok(())
}

fn headings(chart: &Chart, widths: &Widths, summary: &Summary, out: &mut impl Write) -> io::Result<()> {
    let Widths { place, extent, address, type_number, size, cue, tag, entry } = *widths;
    writeln!(out)?;
    writeln!(out, "{}: place, extent, size, spare, address and distances in bytes; frames of 2^N bytes", counted(summary.blocks, "block"))?;
    write!(out, "{:>place$} {:>extent$} kind {:>type_number$} {:>size$} {:>cue$} spare  frame  N", "place", "extent", "type", "size", "cue")?;
    if chart.has_table {
        write!(out, "  {:<18} flag {:>tag$} {:>address$}  {:>entry$} holds it  distances", "pointer", "tag", "address", "entry")?;
    }
    writeln!(out)
}

fn block_fields(block: &Block, widths: &Widths, out: &mut impl Write) -> io::Result<()> {
    let Widths { place, extent, type_number, size, cue, .. } = *widths;
    write!(out, "{:>place$} {:>extent$} ", block.place, block.extent)?;
    match block.kind {
        Kind::Free => write!(out, "free"),
        Kind::Live => {
            let spare = block.extent - HEADER as u32 - block.size;
            write!(out, "live {:>type_number$} {:>size$} {:>cue$} {spare:>5}", block.type_number, block.size, block.cue)
        }
    }
}

fn object_fields(chart: &Chart, object: &Object, widths: &Widths, out: &mut impl Write) -> io::Result<()> {
    let Widths { address, tag, entry, .. } = *widths;
    let pointer = object.pointer;
    write!(out, "  {} {:>2}", if object.entry.is_none() { "small" } else { "large" }, object.exponent)?;
    if !chart.has_table {
        return Ok(());
    }
    write!(out, "  0x{:016x} {:>4} {:>tag$} {:>address$}  ", u64::from(pointer), u8::from(pointer.flag()), pointer.tag(), pointer.address())?;
    let held = object.entry.map(|at| chart.store.table()[at]);
    let holds = held == Some(object.block.place as u64);
    match object.entry {
        Some(at) => write!(out, "{at:>entry$} {:<8}", if holds { "yes" } else { "no" })?,
        None => write!(out, "{:>entry$} {:<8}", "-", "-")?,
    }
    match chart.store.distances(pointer) {
        Ok(distances) => write!(out, "  {}, {}", distances.from_start, distances.to_end)?,
        Err(refusal) => write!(out, "  refused: {refusal}")?,
    }
    match held.filter(|_| !holds) {
        Some(held) => write!(out, "; the entry holds {held}"),
        None => Ok(()),
    }
}

/// The unsound header and the bytes that it has.
fn damage(chart: &Chart, summary: &Summary, out: &mut impl Write) -> io::Result<()> {
    let Some(damage) = &summary.damage else { return Ok(()) };
    let (image, place) = (chart.image(), damage.place);
    writeln!(out, "Unsound header at {place}: {}", damage.reasons)?;
    if let Some(Header { extent, kind, type_number, size, cue }) = Header::at(image, place as u64) {
        writeln!(out, "  its fields: extent {extent}, kind {kind}, type {type_number}, size {size}, cue {cue}")?;
    }
    let bytes = &image[place..image.len().min(place + HEADER)];
    write!(out, "  its bytes:")?;
    for byte in bytes {
        write!(out, " {byte:02x}")?;
    }
    writeln!(out)?;
    let before = if place == FIRST { "the superblock" } else { "the block before it" };
    writeln!(out, "  {} from there on cannot be read; look also at what ends at {place}, {before}", counted((image.len() - place) as u64, "byte"))
}

fn cues(summary: &Summary, out: &mut impl Write) -> io::Result<()> {
    writeln!(out)?;
    if summary.objects == 0 {
        return writeln!(out, "Cues: none has an object");
    }
    let letters = map::Letters::of(summary);
    let count = |number| grouped(number).len();
    let cue = digits(summary.highest_cue().into()).max("cue".len());
    let objects = count(summary.objects).max("objects".len());
    let bytes = count(summary.live_bytes).max("bytes".len());
    writeln!(out, "Cues: their objects, the sum of the sizes, and its share of all")?;
    writeln!(out, "  map  {:>cue$}  {:>objects$}  {:>bytes$}    share", "cue", "objects", "bytes")?;
    for sum in summary.cues() {
        let letter = letters.letter(sum.cue);
        let share = per_cent(sum.bytes, summary.live_bytes);
        writeln!(out, "  {letter}    {:>cue$}  {:>objects$}  {:>bytes$}  {share:>7}", sum.cue, grouped(sum.objects), grouped(sum.bytes))?;
    }
    Ok(())
}

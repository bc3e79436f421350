//! A tag, read step by step.

use crate::dump::Chart;
use crate::image::{block_at, header_reasons, Header, FIRST};
use crate::object::{entry_index, frame_start, Object};
use cueledger::{Kind, Pointer, Refusal};
use std::io::{self, Write};

/// Of the largest frame that an object can have.
const LARGEST_EXPONENT: u32 = 31;

/// A step, and what was found there.
#[derive(Debug)]
pub struct Step {
    pub name: &'static str,
    pub found: String,
}

/// The steps up to the one that fails.
#[derive(Debug, Default)]
pub struct Reading {
    pub steps: Vec<Step>,
    /// What the last step is refused with; None where the tag leads to an object.
    pub refusal: Option<Refusal>,
}

impl Reading {
    fn step(&mut self, name: &'static str, found: String) {
        self.steps.push(Step { name, found });
    }

    /// A step that may fail. None where it does.
    fn test(&mut self, name: &'static str, passed: bool, refusal: Refusal, found: String) -> Option<()> {
        self.step(name, found);
        if !passed {
            self.refusal = Some(refusal);
        }
        passed.then_some(())
    }

    /// Reads the tag as FORMAT.md does, "Reading a tag".
    pub fn of(chart: &Chart, pointer: Pointer) -> Reading {
        let mut reading = Reading::default();
        let words = if pointer.flag() {
            "1: small-framed, the tag is the header's distance from its slot's start"
        } else {
            "0: large-framed, the tag is the exponent of its frame"
        };
        reading.step("flag", words.to_string());
        reading.follow(chart, pointer);
        reading
    }

    fn follow(&mut self, chart: &Chart, pointer: Pointer) -> Option<()> {
        let (tag, address) = (pointer.tag(), pointer.address());
        let exponent = self.range(pointer, chart.slot_exponent)?;
        let start = frame_start(address, exponent);
        let length = chart.image().len() as u64;
        let last = start + (1 << exponent) - 1;
        let inside = if start < length { "it starts in the image" } else { "it starts behind the image's end" };
        let frame = if pointer.flag() { "slot" } else { "frame" };
        self.test(frame, start < length, Refusal::Dangling, format!("{start} .. {last}, 2^{exponent} bytes: {inside}, L = {length}"))?;
        let header = if pointer.flag() {
            let header = start + u64::from(tag);
            self.step("header", format!("at {start} + {tag} = {header}"));
            header
        } else {
            self.fetched(chart, start, exponent)?
        };
        self.examined(chart, pointer, header, exponent)
    }

    /// The exponent of the slot or frame.
    fn range(&mut self, pointer: Pointer, slot_exponent: u32) -> Option<u32> {
        let tag = u32::from(pointer.tag());
        let (range, exponent) = if pointer.flag() { (0..=(1 << slot_exponent) - 1, slot_exponent) } else { (slot_exponent + 1..=LARGEST_EXPONENT, tag) };
        let passed = range.contains(&tag);
        let words = if passed { "in" } else { "outside" };
        self.test("tag", passed, Refusal::BadTag, format!("{tag}: {words} its range {} .. {}, s = {slot_exponent}", range.start(), range.end()))?;
        Some(exponent)
    }

    /// What the frame's entry holds.
    fn fetched(&mut self, chart: &Chart, start: u64, exponent: u32) -> Option<u64> {
        let s = chart.slot_exponent;
        let index = entry_index(start, exponent, s);
        // a frame that starts in the image has its entry among the used ones
        let held = chart.store.table().get(index).copied().unwrap_or(0);
        let none = if held == 0 { ": no object" } else { "" };
        let found = format!("48 x ({start} / {}) + {exponent} - {s} - 1 = {index}, holds {held}{none}", 2u64 << s);
        self.test("entry", held != 0, Refusal::Dangling, found)?;
        Some(held)
    }

    fn examined(&mut self, chart: &Chart, pointer: Pointer, header: u64, exponent: u32) -> Option<()> {
        let image = chart.image();
        let fields = match Header::at(image, header) {
            _ if header < FIRST as u64 => "in the superblock".to_string(),
            Some(Header { extent, kind, type_number, size, cue }) => format!("extent {extent}, kind {kind}, type {type_number}, size {size}, cue {cue}"),
            None => "not in the image".to_string(),
        };
        self.step("found", format!("at {header}: {fields}"));
        let Some(block) = block_at(image, header) else {
            let reasons = header_reasons(image, header).join("; ");
            return self.test("sound", false, Refusal::Dangling, format!("no: {reasons}"));
        };
        self.step("sound", "yes".to_string());
        let live = block.kind == Kind::Live;
        self.test("live", live, Refusal::Dangling, if live { "yes" } else { "no: a free block" }.to_string())?;
        let own = Object::of(block, chart.slot_exponent).pointer;
        let same = (own.flag(), own.tag()) == (pointer.flag(), pointer.tag());
        let words = if same { "the pointer's" } else { "not the pointer's" };
        self.test("own tag", same, Refusal::Dangling, format!("flag {}, tag {}: {words}", u8::from(own.flag()), own.tag()))?;
        let (at, start) = (frame_start(header, exponent), frame_start(pointer.address(), exponent));
        let words = if at == start { "the address's" } else { "not the address's" };
        self.test("its frame", at == start, Refusal::Dangling, format!("starts at {at}: {words}"))
    }
}

/// Writes the steps and the library's answer, and says whether it is accepted.
pub fn write(chart: &Chart, pointer: Pointer, out: &mut impl Write) -> io::Result<bool> {
    let line = |out: &mut dyn Write, name: &str, found: &str| writeln!(out, "  {name:<10}{found}");
    let (flag, tag, address) = (u8::from(pointer.flag()), pointer.tag(), pointer.address());
    writeln!(out, "0x{:016x} in {}: flag {flag}, tag {tag}, address {address}", u64::from(pointer), chart.name)?;
    for Step { name, found } in &Reading::of(chart, pointer).steps {
        line(out, name, found)?;
    }
    let answer = chart.store.distances(pointer);
    match answer {
        Ok(distances) => {
            line(out, "distances", &format!("{} from the start, {} to the end{}", distances.from_start, distances.to_end, where_it_is(distances)))?;
            line(out, "answer", "accepted: the tag leads to a live object")?;
        }
        Err(refusal) => line(out, "answer", &format!("refused: {refusal}"))?,
    }
    Ok(answer.is_ok())
}

/// What the distances say about the address.
fn where_it_is(distances: cueledger::Distances) -> &'static str {
    match (distances.from_start, distances.to_end) {
        (0, _) => ": at its base",
        (..0, _) => ": before the body",
        (_, ..=0) => ": behind the body",
        _ => ": in the body",
    }
}

//! The rows of the picture, with slots and wrapper frames.

use super::page::{pixels, Length, BAR, BAR_HEIGHT, LABEL, LEFT, PIXEL};
use super::row::{Fill, Frame, Row, LEAST};
use super::style::STYLES;
use crate::dump::Chart;
use crate::image::{parts, Part, FIRST, HEADER};
use crate::object::Object;
use crate::summary::{reaches, CueSum, Damage, Summary};
use crate::text::{counted, grouped};
use cueledger::{Block, Kind};
use std::fmt::Write as _;
use std::ops::Range;

/// Rows at most, and a row's bytes at least, as exponents.
const ROWS: u32 = 5;
const LEAST_ROW: u32 = 6;
/// Headers that are narrower are drawn so wide.
const LEAST_HEADER: Length = 2 * PIXEL;
/// Slots and frames that are narrower are not drawn.
const LEAST_SLOT: Length = 6 * PIXEL;
const LEAST_FRAME: Length = 8 * PIXEL;
/// From one bracket to the next, below a row and beside the rows.
const BELOW: Length = 6 * PIXEL;
const BESIDE: Length = 20 * PIXEL;
/// Between rows.
const GAP: Length = 11 * PIXEL;
/// Cues in the legend.
const LISTED: usize = 24;

/// A wrapper frame of several rows.
#[derive(Clone, Copy)]
struct TallFrame {
    exponent: u32,
    /// Its first row, and the one behind its last.
    rows: (usize, usize),
    header_row: usize,
    place: usize,
    lost: bool,
}

/// The picture in the making.
pub struct Picture<'a> {
    pub chart: &'a Chart<'a>,
    /// The cues by number, as many as are listed, and how many there are.
    pub cues: Vec<CueSum>,
    pub cue_count: usize,
    /// A row has 2^exponent bytes.
    exponent: u32,
    row: Row,
    /// The rows drawn, and where each one starts.
    pub drawn: String,
    tops: Vec<Length>,
    /// Where the rows end, below and at their right.
    pub bottom: Length,
    pub right: Length,
    tall: Vec<TallFrame>,
}

/// The exponent of a row's bytes.
pub fn row_exponent(length: usize) -> u32 {
    LEAST_ROW.max(length.next_power_of_two().ilog2().saturating_sub(ROWS))
}

impl<'a> Picture<'a> {
    /// Draws the rows from `top` on.
    pub fn of(chart: &'a Chart<'a>, summary: &Summary, top: Length) -> Picture<'a> {
        let mut picture = Picture {
            chart,
            cues: summary.cues().take(LISTED).collect(),
            cue_count: summary.cues().count(),
            exponent: row_exponent(chart.image().len()),
            row: Row::default(),
            drawn: String::new(),
            tops: Vec::new(),
            bottom: top,
            right: LEFT + BAR,
            tall: Vec::new(),
        };
        picture.draw(summary.damage.as_ref());
        picture.tall_brackets();
        picture
    }

    fn row_bytes(&self) -> usize {
        1 << self.exponent
    }

    /// How wide so many bytes are.
    fn wide(&self, bytes: usize) -> Length {
        (bytes as Length * BAR) >> self.exponent
    }

    /// How far from its row's start a byte is.
    fn across(&self, place: usize) -> Length {
        self.wide(place % self.row_bytes())
    }

    /// The pattern of a cue: by its number's rank among the first ones, and by the number behind them.
    pub fn style(&self, cue: u32) -> usize {
        self.cues.binary_search_by_key(&cue, |sum| sum.cue).unwrap_or(cue as usize) % STYLES
    }

    fn fill(&self, part: Part, large: bool) -> Fill {
        match part {
            Part::Superblock => Fill::Superblock,
            Part::Header => Fill::Header,
            Part::Body(cue) => Fill::Body { style: self.style(cue), large },
            Part::Spare => Fill::Spare,
            Part::FreeHeader => Fill::FreeHeader,
            Part::Free => Fill::Free,
            Part::Unread => Fill::Unread,
        }
    }

    /// The parts of a range row by row: `each` gets what of it is in the current row, which is ended where the range goes on.
    fn by_rows(&mut self, range: Range<usize>, mut each: impl FnMut(&mut Self, Range<usize>, (Length, Length))) {
        let mut from = range.start;
        while from < range.end {
            let row_end = (from / self.row_bytes() + 1) * self.row_bytes();
            let to = range.end.min(row_end);
            let left = self.across(from);
            each(self, from..to, (left, left + self.wide(to - from)));
            if to == row_end {
                self.end_row();
            }
            from = to;
        }
    }

    fn block(&mut self, block: &Block) {
        let object = (block.kind == Kind::Live).then(|| Object::of(*block, self.chart.slot_exponent));
        let large = object.is_some_and(|object| object.entry.is_some());
        if let Some(object) = object.filter(|_| large) {
            self.frame(&object);
        }
        self.by_rows(block.place..block.place + block.extent as usize, |picture, here, (left, right)| {
            if right - left < LEAST {
                let inside = parts(block).map(|(part, range)| (picture.fill(part, large), overlap(&range, &here).len() as u64));
                picture.row.narrow(&inside, left, right);
            } else {
                picture.row.end_run();
                picture.wide_block(block, large, here, (left, right));
            }
        });
    }

    /// What is in this row of a block that is wide enough to be seen alone.
    fn wide_block(&mut self, block: &Block, large: bool, here: Range<usize>, (left, right): (Length, Length)) {
        let mut from = left;
        for (part, range) in parts(block) {
            let inside = overlap(&range, &here);
            if inside.is_empty() {
                continue;
            }
            let mut to = left + self.wide(inside.end - here.start);
            if matches!(part, Part::Header | Part::FreeHeader) && self.wide(HEADER) < LEAST_HEADER {
                to = to.max(from + LEAST_HEADER);
            }
            let to = to.clamp(from, right);
            self.row.draw(self.fill(part, large), from, to);
            self.part_label(part, block, inside.start == range.start, (from, to));
            from = to;
        }
    }

    /// `first`: not a part's continuation from the row before.
    fn part_label(&mut self, part: Part, block: &Block, first: bool, (from, to): (Length, Length)) {
        let place = block.place.to_string();
        let (class, texts) = match part {
            Part::Header if first => ("onheader", vec![format!("header at {place}"), place]),
            Part::FreeHeader if first => {
                let extent = counted(block.extent.into(), "byte");
                ("onfree", vec![format!("free at {place}: {extent}"), format!("free at {place}"), place])
            }
            Part::Body(cue) if first => {
                let size = counted(block.size.into(), "byte");
                ("body", vec![format!("cue {cue}: {size}"), format!("cue {cue}"), cue.to_string()])
            }
            Part::Body(cue) => ("body", vec![format!("cue {cue}"), cue.to_string()]),
            Part::Free => ("onfree", vec!["free".to_string()]),
            Part::Spare => ("body", vec!["spare".to_string()]),
            _ => return,
        };
        self.row.label(class, from, to, &texts);
    }

    fn frame(&mut self, object: &Object) {
        let Object { block, exponent, frame, .. } = *object;
        let lost = self.chart.has_table && !reaches(self.chart, &block);
        if exponent > self.exponent {
            let (first, rows) = (frame as usize >> self.exponent, 1 << (exponent - self.exponent));
            self.tall.push(TallFrame { exponent, rows: (first, first + rows), header_row: block.place >> self.exponent, place: block.place, lost });
            return;
        }
        let (from, wide) = (self.across(frame as usize), self.wide(1 << exponent));
        if wide >= LEAST_FRAME {
            self.row.frames.push(Frame { exponent, across: (from, from + wide, self.across(block.place)), lost });
        }
    }

    /// Draws the row that is complete, and begins the next.
    fn end_row(&mut self) {
        self.row.end_run();
        let row = std::mem::take(&mut self.row);
        let start = self.tops.len() * self.row_bytes();
        let length = self.chart.image().len();
        let bytes = self.row_bytes().min(length - start);
        let _ = writeln!(self.drawn, r#"<g transform="translate({} {})">"#, pixels(LEFT), pixels(self.bottom));
        let _ = writeln!(self.drawn, r#"<text class="address" x="-12" y="19">{}</text>"#, grouped(start as u64));
        for (index, path) in row.paths.iter().enumerate().filter(|(_, path)| !path.is_empty()) {
            let _ = writeln!(self.drawn, r#"<path class="{}" d="{path}"/>"#, Fill::class(index));
        }
        if !row.together.is_empty() {
            let _ = writeln!(self.drawn, r#"<path class="together" d="{}"/>"#, row.together);
        }
        self.slots(start, bytes);
        self.drawn += &row.labels;
        let lanes = self.brackets(&row.frames);
        self.drawn += "</g>\n";
        self.tops.push(self.bottom);
        self.bottom += BAR_HEIGHT + GAP + lanes as Length * BELOW;
    }

    /// A rule at each slot's first byte.
    fn slots(&mut self, start: usize, bytes: usize) {
        let slot = 1 << self.chart.slot_exponent;
        if self.wide(slot) < LEAST_SLOT {
            return;
        }
        let mut path = String::new();
        for place in (start.next_multiple_of(slot)..start + bytes).step_by(slot) {
            let _ = write!(path, "M{} -4V34", pixels(self.across(place)));
        }
        if !path.is_empty() {
            let _ = writeln!(self.drawn, r#"<path class="slot" d="{path}"/>"#);
        }
    }

    /// The brackets below a row, small frames nearest to it; gives how many lie one below the other.
    fn brackets(&mut self, frames: &[Frame]) -> usize {
        let mut exponents: Vec<_> = frames.iter().map(|frame| frame.exponent).collect();
        exponents.sort_unstable();
        exponents.dedup();
        let (mut held, mut lost, mut dots) = (String::new(), String::new(), String::new());
        for Frame { exponent, across: (from, to, header), lost: is_lost } in frames {
            let lane = exponents.binary_search(exponent).unwrap_or(0) as Length;
            let y = pixels(BAR_HEIGHT + 6 * PIXEL + lane * BELOW);
            let path = if *is_lost { &mut lost } else { &mut held };
            let _ = write!(path, "M{} {y}v-3v3H{}v-3", pixels(from + 50), pixels(to - 50));
            let _ = write!(dots, "M{} {y}h0", pixels((*header).max(from + 50)));
        }
        for (class, path) in [("frame", held), ("frame lost", lost), ("dot", dots)] {
            if !path.is_empty() {
                let _ = writeln!(self.drawn, r#"<path class="{class}" d="{path}"/>"#);
            }
        }
        exponents.len()
    }

    /// The brackets beside the rows.
    fn tall_brackets(&mut self) {
        let mut exponents: Vec<_> = self.tall.iter().map(|frame| frame.exponent).collect();
        exponents.sort_unstable();
        exponents.dedup();
        for TallFrame { exponent, rows: (first, behind), header_row, place, lost } in std::mem::take(&mut self.tall) {
            let lane = exponents.binary_search(&exponent).unwrap_or(0) as Length;
            let x = LEFT + BAR + 14 * PIXEL + lane * BESIDE;
            let last = behind.min(self.tops.len()) - 1;
            let (top, bottom) = (self.tops[first], self.tops[last] + BAR_HEIGHT);
            let class = if lost { "frame lost" } else { "frame" };
            // open below where it goes on behind the image
            let close = if behind > self.tops.len() { "" } else { "h-4" };
            let _ = writeln!(self.drawn, r#"<path class="{class}" d="M{} {}h4V{}{close}"/>"#, pixels(x - 4 * PIXEL), pixels(top), pixels(bottom));
            let dot = self.tops[header_row] + BAR_HEIGHT / 2;
            let _ = writeln!(self.drawn, r#"<path class="dot" d="M{} {}h0"/>"#, pixels(x), pixels(dot));
            let text = format!("2^{exponent} of {place}");
            if text.len() as Length * LABEL <= bottom - top {
                let (x, y) = (pixels(x + 11 * PIXEL), pixels((top + bottom) / 2));
                let _ = writeln!(self.drawn, r#"<text class="label side" x="{x}" y="{y}" transform="rotate(-90 {x} {y})">{text}</text>"#);
            }
        }
        if !exponents.is_empty() {
            self.right += exponents.len() as Length * BESIDE + 4 * PIXEL;
        }
    }

    /// Superblock, blocks, and what cannot be read.
    fn draw(&mut self, damage: Option<&Damage>) {
        self.by_rows(0..FIRST, |picture, _, (from, to)| {
            picture.row.draw(Fill::Superblock, from, to);
            picture.row.label("onsuper", from, to, &["superblock".to_string(), "S".to_string()]);
        });
        let chart = self.chart;
        for block in chart.store.blocks().flatten() {
            self.block(&block);
        }
        let length = chart.image().len();
        if let Some(damage) = damage {
            self.row.end_run();
            self.by_rows(damage.place..length, |picture, here, (from, to)| {
                picture.row.draw(Fill::Unread, from, to);
                let texts = if here.start == damage.place { vec![format!("unsound header at {}", damage.place), "unsound".to_string()] } else { Vec::new() };
                picture.row.label("body", from, to, &texts);
            });
        }
        if !length.is_multiple_of(self.row_bytes()) {
            self.end_row();
        }
    }
}

fn overlap(a: &Range<usize>, b: &Range<usize>) -> Range<usize> {
    let start = a.start.max(b.start);
    start..a.end.min(b.end).max(start)
}

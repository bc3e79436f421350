//! A map of the image in characters.

use crate::dump::Chart;
use crate::image::{parts, Part, FIRST};
use crate::summary::Summary;
use crate::text::{counted, digits, grouped};
use std::io::{self, Write};
use std::ops::Range;

/// Characters of a row.
const ROW: usize = 64;
/// Rows at most.
const ROWS: usize = 32;
/// Slots of fewer characters are not marked.
const LEAST_SLOT: usize = 4;
/// Columns of the legend.
const COLUMNS: usize = 100;

/// The cues that have a letter of their own: the first 26 by number.
pub struct Letters(Vec<u32>);

impl Letters {
    pub fn of(summary: &Summary) -> Letters {
        Letters(summary.cues().take(26).map(|sum| sum.cue).collect())
    }

    /// `+` for a cue without a letter.
    pub fn letter(&self, cue: u32) -> char {
        self.0.binary_search(&cue).map_or('+', |nth| (b'a' + nth as u8) as char)
    }
}

/// The character for a part.
fn mark(part: Part, letters: &Letters) -> char {
    match part {
        Part::Superblock => 'S',
        Part::Header => '#',
        Part::Body(cue) => letters.letter(cue),
        Part::Spare => '-',
        Part::FreeHeader => ':',
        Part::Free => '.',
        Part::Unread => '?',
    }
}

/// Bytes for each character: the lowest power of two with which the rows suffice.
pub fn scale(length: usize) -> usize {
    length.div_ceil(ROW * ROWS).next_power_of_two()
}

/// Characters in the making: each is the one for the most of its bytes, of equals the first in ASCII, so that headers are seen.
struct Cells {
    scale: usize,
    /// Bytes of the current cell for each character.
    counts: [usize; 128],
    filled: usize,
    text: String,
}

impl Cells {
    fn add(&mut self, mark: char, mut bytes: usize) {
        while bytes > 0 {
            let now = bytes.min(self.scale - self.filled);
            self.counts[mark as usize] += now;
            self.filled += now;
            bytes -= now;
            if self.filled == self.scale {
                self.end();
            }
        }
    }

    fn end(&mut self) {
        if self.filled > 0 {
            // of equal counts the last is taken, so from the last
            let (most, _) = self.counts.iter().enumerate().rev().max_by_key(|count| count.1).unwrap_or((0, &0));
            self.text.push(char::from(most as u8));
            (self.counts, self.filled) = ([0; 128], 0);
        }
    }
}

/// All parts of the image in order, up to its end.
fn each_part(chart: &Chart, mut take: impl FnMut(Part, Range<usize>)) {
    take(Part::Superblock, 0..FIRST);
    let mut end = FIRST;
    for block in chart.store.blocks().flatten() {
        for (part, range) in parts(&block) {
            end = range.end;
            take(part, range);
        }
    }
    take(Part::Unread, end..chart.image().len());
}

/// A character for each `scale` bytes.
fn cells(chart: &Chart, letters: &Letters, scale: usize) -> String {
    let mut cells = Cells { scale, counts: [0; 128], filled: 0, text: String::new() };
    each_part(chart, |part, range| cells.add(mark(part, letters), range.len()));
    cells.end();
    cells.text
}

/// A row of cells with a `|` before each one that begins a slot, and behind the last.
fn ruled(row: &str, first: usize, slot: usize) -> String {
    let mut text = String::new();
    for (nth, cell) in row.chars().enumerate() {
        if (first + nth).is_multiple_of(slot) {
            text.push('|');
        } else if nth == 0 {
            text.push(' ');
        }
        text.push(cell);
    }
    text
}

fn legend(cells: &str, letters: &Letters, summary: &Summary) -> Vec<String> {
    let cue = summary.cues().take(26).map(|sum| (letters.letter(sum.cue), format!("cue {}", sum.cue)));
    let fixed = [('S', "superblock"), ('#', "header"), ('-', "spare"), (':', "header of a free block"), ('.', "free"), ('+', "other cues")];
    let damage = [('?', "behind the unsound header")];
    let all = fixed.into_iter().chain(damage).map(|(mark, what)| (mark, what.to_string())).chain(cue);
    let mut lines = vec![String::new()];
    for (mark, what) in all.filter(|(mark, _)| cells.contains(*mark)) {
        let word = format!("{mark} {what}");
        if lines.last().is_some_and(|line| line.len() + word.len() + 3 > COLUMNS) {
            lines.push(String::new());
        }
        if let Some(line) = lines.last_mut() {
            *line += if line.is_empty() { "" } else { "   " };
            *line += &word;
        }
    }
    lines
}

/// The map, with what its characters mean.
pub fn write(chart: &Chart, summary: &Summary, out: &mut impl Write) -> io::Result<()> {
    let length = chart.image().len();
    let scale = scale(length);
    let letters = Letters::of(summary);
    let cells = cells(chart, &letters, scale);
    let slot = (1usize << chart.slot_exponent) / scale;
    let most = if scale > 1 { ", for the most of them" } else { "" };
    let slots = if slot < LEAST_SLOT { "too small to be marked" } else { "each begins at a |" };
    let slot_bytes = grouped(1 << chart.slot_exponent);
    writeln!(out, "Map: a character for {}{most}; slots of {slot_bytes} bytes, {slots}", counted(scale as u64, "byte"))?;
    let width = digits(length as u64);
    for (nth, row) in cells.as_bytes().chunks(ROW).enumerate() {
        let row = String::from_utf8_lossy(row);
        let row = if slot < LEAST_SLOT { format!(" {row}") } else { ruled(&row, nth * ROW, slot) };
        writeln!(out, "  {:>width$} {row}", nth * ROW * scale)?;
    }
    for line in legend(&cells, &letters, summary) {
        writeln!(out, "  {line}")?;
    }
    Ok(())
}

#[cfg(test)]
mod tests {
    use super::*;

    #[test]
    fn most_of_the_bytes() {
        let mut cells = Cells { scale: 4, counts: [0; 128], filled: 0, text: String::new() };
        for (mark, bytes) in [('a', 2), ('#', 2), ('#', 1), ('.', 9), ('a', 2), ('-', 1)] {
            cells.add(mark, bytes);
        }
        cells.end();
        assert_eq!(cells.text, "#...-");
    }

    #[test]
    fn scales() {
        assert_eq!([64, 2048, 2049, 8192, 8193, 1 << 30].map(scale), [1, 1, 2, 4, 8, 1 << 19]);
        assert_eq!(ruled("abcdef", 4, 4), "|abcd|ef");
        assert_eq!(ruled("abcdef", 6, 4), " ab|cdef");
    }
}

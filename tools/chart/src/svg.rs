//! The map as a picture: rows of equal length, blocks by cue, slots and wrapper frames.
//!
//! Lengths are whole hundredths of a pixel, so that the same dumps give the same picture everywhere. Its size does not grow with the number of
//! blocks: what is narrower than 4 pixels is drawn together.

mod legend;
mod page;
mod picture;
mod row;
mod style;

use crate::dump::Chart;
use crate::summary::{Damage, Summary};
use crate::text::{counted, grouped, per_cent};
use cueledger::Tally;
use legend::Legend;
use page::{escaped, pixels, Length, LEFT, PIXEL};
use picture::{row_exponent, Picture};
use std::io::{self, Write};
use style::style_sheet;

/// Space right of all.
const RIGHT: Length = 30 * PIXEL;

/// The lines under the title.
fn facts(chart: &Chart, summary: &Summary, row_bytes: usize) -> Vec<(&'static str, String)> {
    let s = chart.slot_exponent;
    let length = counted(chart.image().len() as u64, "byte");
    let total = summary.free_total.map_or_else(|refusal| format!("refused: {refusal}"), grouped);
    let mut lines =
        vec![("fact", format!("{length}, s = {s}: slots of {} bytes. Free total {total}. A row is {} bytes.", grouped(1 << s), grouped(row_bytes as u64)))];
    match summary.tally {
        Ok(Tally { objects, live_bytes, free_bytes, overhead_bytes }) => {
            let whole = live_bytes + free_bytes + overhead_bytes;
            let share = |bytes| format!("{} ({})", counted(bytes, "byte"), per_cent(bytes, whole));
            let words = format!(
                "{}: live {}, overhead {}, free {}, of the {} behind the superblock.",
                counted(objects, "object"),
                share(live_bytes),
                share(overhead_bytes),
                share(free_bytes),
                grouped(whole)
            );
            lines.push(("fact", words));
        }
        Err(refusal) => lines.push(("fact amiss", format!("Tally refused: {refusal}"))),
    }
    if let Some(Damage { place, reasons }) = &summary.damage {
        lines.push(("fact amiss", format!("Unsound header at {place}: {reasons}")));
    }
    lines.extend(summary.amiss().into_iter().map(|line| ("fact amiss", line)));
    lines
}

/// Writes the picture and says whether all of the chart is sound.
pub fn write(chart: &Chart, out: &mut impl Write) -> io::Result<bool> {
    let summary = Summary::of(chart);
    let facts = facts(chart, &summary, 1 << row_exponent(chart.image().len()));
    let top = 62 * PIXEL + facts.len() as Length * 19 * PIXEL;
    let picture = Picture::of(chart, &summary, top);
    let legend = Legend::of(&picture, picture.bottom + 12 * PIXEL);
    let (width, height) = (pixels(picture.right + RIGHT), pixels(legend.y + 46 * PIXEL));
    let name = escaped(chart.name);
    writeln!(out, r#"<?xml version="1.0" encoding="UTF-8"?>"#)?;
    writeln!(out, r#"<svg xmlns="http://www.w3.org/2000/svg" width="{width}" height="{height}" viewBox="0 0 {width} {height}">"#)?;
    writeln!(out, "<title>{name}: {}</title>", escaped(&facts[0].1))?;
    out.write_all(style_sheet().as_bytes())?;
    writeln!(out, r##"<path fill="#fff" d="M0 0H{width}V{height}H0z"/>"##)?;
    writeln!(out, r#"<text class="title" x="{}" y="44">{name}</text>"#, pixels(LEFT))?;
    for (nth, (class, fact)) in facts.iter().enumerate() {
        writeln!(out, r#"<text class="{class}" x="{}" y="{}">{}</text>"#, pixels(LEFT), 68 + 19 * nth, escaped(fact))?;
    }
    out.write_all(picture.drawn.as_bytes())?;
    out.write_all(legend.drawn.as_bytes())?;
    writeln!(out, "</svg>")?;
    Ok(summary.is_sound())
}

//! A row of the picture.

use super::page::{escaped, pixels, Length, BAR_HEIGHT, LABEL, PIXEL};
use super::style::STYLES;
use std::fmt::Write as _;

/// Blocks that are narrower in a row are drawn together.
pub const LEAST: Length = 4 * PIXEL;

/// What a piece of the bar is drawn as.
#[derive(Clone, Copy, PartialEq, Eq)]
pub enum Fill {
    Superblock,
    Header,
    Spare,
    FreeHeader,
    Free,
    Unread,
    Body { style: usize, large: bool },
}

pub const FILLS: usize = 6 + 2 * STYLES;

impl Fill {
    fn index(self) -> usize {
        match self {
            Fill::Superblock => 0,
            Fill::Free => 1,
            Fill::FreeHeader => 2,
            Fill::Spare => 3,
            Fill::Unread => 4,
            Fill::Body { style, large } => 5 + style + if large { STYLES } else { 0 },
            Fill::Header => FILLS - 1,
        }
    }

    /// The classes of the fill with this index.
    pub fn class(index: usize) -> String {
        match index {
            0 => "superblock".to_string(),
            1 => "free".to_string(),
            2 => "freeheader".to_string(),
            3 => "spare".to_string(),
            4 => "unread".to_string(),
            _ if index == FILLS - 1 => "header".to_string(),
            _ if index < 5 + STYLES => format!("c{}", index - 5),
            _ => format!("c{} large", index - 5 - STYLES),
        }
    }
}

/// A wrapper frame inside one row.
#[derive(Clone, Copy)]
pub struct Frame {
    pub exponent: u32,
    /// From and to, and where the header is.
    pub across: (Length, Length, Length),
    pub lost: bool,
}

/// A row in the making.
#[derive(Default)]
pub struct Row {
    /// Path data for each fill, and for what is drawn together.
    pub paths: [String; FILLS],
    pub together: String,
    pub labels: String,
    pub frames: Vec<Frame>,
    /// Narrow pieces that are not drawn yet: from, to, and their bytes for each fill.
    run: Option<(Length, Length, [u64; FILLS])>,
}

fn rectangle(path: &mut String, from: Length, to: Length) {
    let width = pixels(to - from);
    let _ = write!(path, "M{} 0h{width}v{}h-{width}z", pixels(from), BAR_HEIGHT / PIXEL);
}

impl Row {
    pub fn draw(&mut self, fill: Fill, from: Length, to: Length) {
        if from < to {
            rectangle(&mut self.paths[fill.index()], from, to);
        }
    }

    /// A narrow piece; a run of them is drawn as what most of its bytes are.
    pub fn narrow(&mut self, pieces: &[(Fill, u64)], from: Length, to: Length) {
        let (start, _, mut bytes) = self.run.take().unwrap_or((from, from, [0; FILLS]));
        for (fill, count) in pieces {
            bytes[fill.index()] += count;
        }
        self.run = Some((start, to, bytes));
        if to - start >= LEAST {
            self.end_run();
        }
    }

    pub fn end_run(&mut self) {
        let Some((from, to, bytes)) = self.run.take() else { return };
        let most = (0..FILLS).rev().max_by_key(|&fill| bytes[fill]).unwrap_or(0);
        if from < to {
            rectangle(&mut self.paths[most], from, to);
            rectangle(&mut self.together, from, to);
        }
    }

    /// The first of the texts that fits, in the middle.
    pub fn label(&mut self, class: &str, from: Length, to: Length, texts: &[String]) {
        let plate = class == "body";
        let margin = if plate { 12 * PIXEL } else { 4 * PIXEL };
        let width = |text: &String| text.chars().count() as Length * LABEL;
        let Some(text) = texts.iter().find(|text| width(text) + margin <= to - from) else { return };
        let middle = (from + to) / 2;
        if plate {
            let (left, wide) = (middle - width(text) / 2 - 3 * PIXEL, width(text) + 6 * PIXEL);
            let _ = write!(self.labels, r#"<rect class="plate" x="{}" y="8" width="{}" height="14" rx="2"/>"#, pixels(left), pixels(wide));
        }
        let _ = writeln!(self.labels, r#"<text class="label {class}" x="{}" y="18.5">{}</text>"#, pixels(middle), escaped(text));
    }
}

//! What the picture's colours and lines mean.

use super::page::{escaped, pixels, Length, BAR, LEFT, PIXEL};
use super::picture::Picture;
use super::style::STYLES;
use crate::text::{counted, grouped};
use std::fmt::Write as _;

/// A character, 12 pixels high: 0.602 of the height.
const WORD: Length = 723;

/// Swatch and words, one behind the other, in lines as wide as the bars.
pub struct Legend {
    x: Length,
    pub y: Length,
    pub drawn: String,
}

impl Legend {
    /// Of what is in the picture, from `y` on.
    pub fn of(picture: &Picture, y: Length) -> Legend {
        let mut legend = Legend { x: LEFT, y, drawn: String::new() };
        for sum in &picture.cues {
            let text = format!("cue {}: {}, {}", sum.cue, counted(sum.objects, "object"), counted(sum.bytes, "byte"));
            legend.add(&swatch(&format!("c{}", picture.style(sum.cue))), &text);
        }
        if picture.cue_count > picture.cues.len() {
            legend.add("", &format!("and {} more", counted((picture.cue_count - picture.cues.len()) as u64, "cue")));
        }
        if picture.cue_count > STYLES {
            legend.add("", "colours come again: the number in a block is its cue");
        }
        if !picture.cues.is_empty() {
            legend.next_line();
        }
        let used = |what: &str| picture.drawn.contains(what);
        let fills = [
            ("superblock", "superblock"),
            ("header", "header of an object"),
            ("spare", "spare bytes"),
            ("freeheader", "header of a free block"),
            ("free", "free"),
            ("unread", "not to be read: from the unsound header on"),
        ];
        for (class, text) in fills.iter().filter(|(class, _)| used(&format!("<path class=\"{class}\""))) {
            legend.add(&swatch(class), text);
        }
        if used("together") {
            let both = format!("{}{}", swatch("c7"), swatch("together"));
            legend.add(&both, "blocks under 4 pixels, drawn together as what most of their bytes are");
        }
        let slot = format!("{} bytes", grouped(1 << picture.chart.slot_exponent));
        if used(r#"class="slot""#) {
            legend.add(r#"<path class="slot" d="M14 -3V21"/>"#, &format!("a slot of {slot} begins"));
        } else {
            legend.add("", &format!("slots of {slot} are too small to be drawn"));
        }
        if used(" large") {
            legend.add(&swatch("outline large"), "large-framed");
        }
        if used(r#"class="frame""#) || used("frame lost") {
            legend.add(r#"<path class="frame" d="M1 6v6H27v-6"/><path class="dot" d="M9 12h0"/>"#, "its wrapper frame; the dot: its header");
        }
        if used("frame lost") {
            legend.add(r#"<path class="frame lost" d="M1 6v6H27v-6"/>"#, "its table entry does not lead to it");
        }
        legend
    }

    fn add(&mut self, swatch: &str, text: &str) {
        let wide = 34 * PIXEL + text.chars().count() as Length * WORD;
        if self.x > LEFT && self.x + wide > LEFT + BAR {
            self.next_line();
        }
        let (x, y) = (pixels(self.x), pixels(self.y));
        let _ = writeln!(self.drawn, r#"<g transform="translate({x} {y})">{swatch}<text class="word" x="34" y="14">{}</text></g>"#, escaped(text));
        self.x += wide + 22 * PIXEL;
    }

    fn next_line(&mut self) {
        (self.x, self.y) = (LEFT, self.y + 26 * PIXEL);
    }
}

fn swatch(class: &str) -> String {
    format!(r#"<path class="{class}" d="M0 0h28v18h-28z"/>"#)
}

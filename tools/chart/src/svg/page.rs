//! Lengths and texts of the picture.

/// Hundredths of a pixel.
pub type Length = u64;

pub const PIXEL: Length = 100;
/// A row's bar.
pub const BAR: Length = 1024 * PIXEL;
pub const BAR_HEIGHT: Length = 30 * PIXEL;
/// Space for the addresses left of the bars.
pub const LEFT: Length = 110 * PIXEL;
/// A character of the labels, 10 pixels high: 0.602 of the height.
pub const LABEL: Length = 602;

/// A length in pixels.
pub fn pixels(length: Length) -> String {
    let (whole, rest) = (length / PIXEL, length % PIXEL);
    let digits = format!("{rest:02}");
    match digits.trim_end_matches('0') {
        "" => whole.to_string(),
        digits => format!("{whole}.{digits}"),
    }
}

/// The text with nothing in it that XML reads otherwise, or not at all.
pub fn escaped(text: &str) -> String {
    let mut safe = String::new();
    for letter in text.chars() {
        match letter {
            '&' => safe += "&amp;",
            '<' => safe += "&lt;",
            '>' => safe += "&gt;",
            '"' => safe += "&quot;",
            '\'' => safe += "&#39;",
            '\u{0}'..='\u{1f}' | '\u{7f}'..='\u{9f}' | '\u{fffe}' | '\u{ffff}' => safe.push('\u{fffd}'),
            _ => safe.push(letter),
        }
    }
    safe
}

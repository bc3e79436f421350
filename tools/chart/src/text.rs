//! Numbers as text.

/// With a comma between each three digits.
pub fn grouped(number: u64) -> String {
    let digits = number.to_string();
    let mut text = String::new();
    for (nth, digit) in digits.chars().enumerate() {
        if nth > 0 && (digits.len() - nth).is_multiple_of(3) {
            text.push(',');
        }
        text.push(digit);
    }
    text
}

/// `part` of `whole` in per cent, to one decimal, half up; 0 of nothing.
pub fn per_cent(part: u64, whole: u64) -> String {
    let tenths = (2 * 1000 * part + whole).checked_div(2 * whole).unwrap_or(0);
    format!("{}.{} %", tenths / 10, tenths % 10)
}

/// The number and its noun, whose plural has an s.
pub fn counted(number: u64, noun: &str) -> String {
    format!("{} {noun}{}", grouped(number), if number == 1 { "" } else { "s" })
}

/// How many decimal digits the number has.
pub fn digits(number: u64) -> usize {
    number.checked_ilog10().unwrap_or(0) as usize + 1
}

#[cfg(test)]
mod tests {
    use super::*;

    #[test]
    fn numbers() {
        assert_eq!([0, 999, 1000, 1 << 30].map(grouped), ["0", "999", "1,000", "1,073,741,824"]);
        assert_eq!([per_cent(0, 0), per_cent(1, 3), per_cent(1, 2000), per_cent(7, 7)], ["0.0 %", "33.3 %", "0.1 %", "100.0 %"]);
        assert_eq!([counted(1, "object"), counted(0, "byte")], ["1 object", "0 bytes"]);
        assert_eq!([0, 9, 10, u64::MAX].map(digits), [1, 1, 2, 20]);
    }
}

//! The cases of `golden/overheads.txt`.

use super::case::Case;
use super::Answer;
use std::str::FromStr;

pub const FILE: &str = include_str!("../../golden/overheads.txt");

fn number<T: FromStr>(word: &str) -> T {
    word.parse().ok().unwrap_or_else(|| panic!("{word:?} is not such a number"))
}

/// A size, or `COUNTxSIZE`.
fn sizes(word: &str) -> Vec<u32> {
    let (count, size) = word.split_once('x').unwrap_or(("1", word));
    vec![number(size); number(count)]
}

fn fraction(word: &str) -> [u64; 2] {
    let (extra, over) = word.split_once('/').unwrap_or_else(|| panic!("{word:?} is no fraction"));
    [number(extra), number(over)]
}

/// A line's case and answer: `sizes -> row raw with_headers padded end headers padding`, the last two as fractions.
fn line(line: &str) -> (Case, Answer) {
    let (asked, given) = line.split_once("->").unwrap_or_else(|| panic!("no answer in {line:?}"));
    let given: Vec<_> = given.split_whitespace().collect();
    let [row, raw, with_headers, padded, end, headers, padding] = given[..] else { panic!("not seven words behind {line:?}'s arrow") };
    let ([headers_extra, headers_over], [padded_extra, padded_over]) = (fraction(headers), fraction(padding));
    let [raw, with_headers, padded, end] = [raw, with_headers, padded, end].map(number);
    let sizes: Vec<_> = asked.split_whitespace().flat_map(sizes).collect();
    (Case::from(&sizes[..]), Answer::new(number(row), [raw, with_headers, padded, end, headers_extra, headers_over, padded_extra, padded_over]))
}

/// The lines below the names of the columns.
pub fn cases() -> Vec<(Case, Answer)> {
    FILE.lines().skip(1).map(line).collect()
}

#[cfg(test)]
mod tests {
    use super::*;

    #[test]
    fn lines() {
        assert_eq!(line("4 2x20  ->  0  44 92 80 96  48/44 36/44"), (Case::from(&[4, 20, 20][..]), Answer::new(0, [44, 92, 80, 96, 48, 44, 36, 44])));
        assert_eq!(line("->  0  0 0 0 0  0/1 0/1"), (Case::from(&[][..]), Answer::new(0, [0, 0, 0, 0, 0, 1, 0, 1])));
        assert_eq!(line("3x0  ->  29  0 0 0 0  0/0 0/0"), (Case::from(&[0; 3][..]), Answer::new(29, [])));
    }
}

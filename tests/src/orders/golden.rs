//! The cases of `golden/orders.txt`.

use super::case::Case;
use crate::store::Answer;

pub const FILE: &str = include_str!("../../golden/orders.txt");

fn number<T: std::str::FromStr>(word: &str) -> T {
    word.parse().ok().unwrap_or_else(|| panic!("{word:?} is not such a number"))
}

/// A line's case and answer: `s budget sizes -> row order large tried floor`, with as many sizes and places of the order as there are.
fn line(line: &str) -> (Case, Answer) {
    let (asked, given) = line.split_once("->").unwrap_or_else(|| panic!("no answer in {line:?}"));
    let (asked, given): (Vec<_>, Vec<_>) = (asked.split_whitespace().collect(), given.split_whitespace().collect());
    let ([s, budget, sizes @ ..], [row, order @ .., large, tried, floor]) = (&asked[..], &given[..]) else { panic!("too few numbers in {line:?}") };
    let mut places = [0; 8];
    order.iter().enumerate().for_each(|(place, word)| places[place] = number(word));
    let sizes: Vec<_> = sizes.iter().map(|word| number(word)).collect();
    let case = Case { lent: sizes.len(), sizes, slot_exponent: number(s), budget: number(budget) };
    (case, Answer::new(number(row), [u64::from_le_bytes(places), number(large), number(tried), number(floor)]))
}

/// The lines below the names of the columns.
pub fn cases() -> Vec<(Case, Answer)> {
    FILE.lines().skip(1).map(line).collect()
}

#[cfg(test)]
mod tests {
    use super::*;

    #[test]
    fn lines() {
        let case = |sizes: &[u32], slot_exponent, budget| Case { sizes: sizes.to_vec(), lent: sizes.len(), slot_exponent, budget };
        assert_eq!(line("6  5  4 20 100  ->  0  0 2 1  1 5 1"), (case(&[4, 20, 100], 6, 5), Answer::new(0, [0x01_02_00, 1, 5, 1])));
        assert_eq!(line("15  1  ->  26  0 0 0"), (case(&[], 15, 1), Answer::new(26, [])));
    }
}

//! The overhead report of a list of sizes: `overhead [FILE]`, or from standard input.
//!
//! Sizes are decimal numbers between blanks or line ends; `#` to the end of its line is a comment. It prints one table, in Markdown. Exit
//! status 1 where the list is refused, 2 where it cannot be read.

use cueledger::{Fraction, Overhead, Refusal};
use std::fs;
use std::io::{self, Read, Write};
use std::process::ExitCode;

const REFUSED: u8 = 1;
const UNREADABLE: u8 = 2;

/// Exit status, and what to say.
type Failure = (u8, String);

struct Word<'a> {
    line: usize,
    text: &'a str,
}

fn words(list: &str) -> Vec<Word<'_>> {
    let mut words = Vec::new();
    for (before, line) in list.lines().enumerate() {
        let numbers = line.split('#').next().unwrap_or_default();
        words.extend(numbers.split_ascii_whitespace().map(|text| Word { line: before + 1, text }));
    }
    words
}

/// A number above 32 bits is given as the highest of them, which is no size either.
fn size(Word { line, text }: &Word<'_>) -> Result<u32, String> {
    if text.bytes().all(|byte| byte.is_ascii_digit()) {
        return Ok(text.parse().unwrap_or(u32::MAX));
    }
    Err(format!("line {line}: {text:?} is not a decimal number"))
}

/// What the refusal is about.
fn cause(refusal: Refusal, words: &[Word<'_>], sizes: &[u32]) -> String {
    let first = words.iter().zip(sizes).find(|(_, size)| !(1..=65_536).contains(*size));
    match (refusal, first) {
        (Refusal::BadSize, Some((Word { line, text }, _))) => format!("line {line}: {text}"),
        _ => format!("{} sizes", with_commas(sizes.len() as u64)),
    }
}

fn with_commas(number: u64) -> String {
    let digits = number.to_string();
    let mut text = String::new();
    for (nth, digit) in digits.chars().enumerate() {
        if nth > 0 && (digits.len() - nth) % 3 == 0 {
            text.push(',');
        }
        text.push(digit);
    }
    text
}

fn fraction(Fraction { extra, over }: Fraction) -> String {
    format!("{}/{}", with_commas(extra), with_commas(over))
}

/// To one decimal, half up.
fn per_cent(Fraction { extra, over }: Fraction) -> String {
    let tenths = (2 * 1000 * extra + over) / (2 * over);
    format!("{}.{} %", with_commas(tenths / 10), tenths % 10)
}

/// The first column to the left, the others to the right.
fn table(rows: &[[String; 4]]) -> String {
    let widths: [usize; 4] = std::array::from_fn(|column| rows.iter().map(|row| row[column].len()).max().unwrap_or(0));
    let mut text = String::new();
    for (nth, [name, others @ ..]) in rows.iter().enumerate() {
        text += &format!("| {name:<0$} |", widths[0]);
        for (other, &width) in others.iter().zip(&widths[1..]) {
            text += &format!(" {other:>width$} |");
        }
        text.push('\n');
        if nth == 0 {
            text += &format!("|-{:-<1$}-|", "", widths[0]);
            for &width in &widths[1..] {
                text += &format!("-{:-<width$}:|", "");
            }
            text.push('\n');
        }
    }
    text
}

fn report(count: usize, report: Overhead) -> String {
    let objects = format!("{} object{}", with_commas(count as u64), if count == 1 { "" } else { "s" });
    let plain = |name: &str, bytes| [name.to_string(), with_commas(bytes), String::new(), String::new()];
    let with_overhead = |name: &str, bytes, overhead| [name.to_string(), with_commas(bytes), fraction(overhead), per_cent(overhead)];
    let rows = [
        [objects, "bytes".to_string(), "over raw bytes".to_string(), "in %".to_string()],
        plain("raw", report.raw),
        with_overhead("with our headers", report.with_headers, report.headers),
        with_overhead("padded", report.padded, report.padding),
        plain("padded, end reached", report.end),
    ];
    format!(
        "{}\nPadded: the blocks of baggy bounds, each the lowest power of two not under its object's size, with a least block of 16 bytes.\n\
         End reached: the blocks in the list's order from 0, each at the lowest multiple of its own size not before the previous end.\n",
        table(&rows)
    )
}

/// Where the list is from, and its text.
fn list() -> Result<(String, String), Failure> {
    let mut arguments = std::env::args_os().skip(1);
    let (file, more) = (arguments.next(), arguments.next());
    if more.is_some() {
        return Err((UNREADABLE, "usage: overhead [FILE]".to_string()));
    }
    let mut bytes = Vec::new();
    let (name, read) = match file {
        Some(file) => (file.to_string_lossy().into_owned(), fs::read(&file).map(|read| bytes = read)),
        None => ("standard input".to_string(), io::stdin().read_to_end(&mut bytes).map(|_| ())),
    };
    match read {
        Ok(()) => Ok((name, String::from_utf8_lossy(&bytes).into_owned())),
        Err(error) => Err((UNREADABLE, format!("{name}: {error}"))),
    }
}

fn run() -> Result<(), Failure> {
    let (name, list) = list()?;
    let words = words(&list);
    let sizes: Vec<_> = words.iter().map(size).collect::<Result<_, _>>().map_err(|what| (UNREADABLE, format!("{name}, {what}")))?;
    let overhead = Overhead::of(&sizes).map_err(|refusal| (REFUSED, format!("{name}, {}: refused, {refusal}", cause(refusal, &words, &sizes))))?;
    io::stdout().write_all(report(sizes.len(), overhead).as_bytes()).map_err(|error| (UNREADABLE, format!("standard output: {error}")))
}

fn main() -> ExitCode {
    match run() {
        Ok(()) => ExitCode::SUCCESS,
        Err((status, what)) => {
            eprintln!("overhead: {what}");
            ExitCode::from(status)
        }
    }
}

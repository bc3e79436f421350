//! The program `cue-chart`.

use cue_chart::compare::{self, Side};
use cue_chart::dump::{file_name, read_image, Dump};
use cue_chart::progress::Progress;
use cue_chart::{pointer, show, svg, Failure};
use std::ffi::{OsStr, OsString};
use std::io::{self, BufWriter, Write};
use std::process::ExitCode;

const USAGE: &str = "\
usage: cue-chart show IMAGE [TABLE]       superblock, tally, blocks, cues and a map
       cue-chart svg IMAGE [TABLE]        the map as a picture
       cue-chart compare IMAGE IMAGE      where two images differ, and in which objects
       cue-chart pointer IMAGE TABLE P    a pointer's tag read step by step; P in decimal, or 0x and hexadecimal

IMAGE is a dump of an image, its bytes; TABLE one of its table, 64-bit little-endian numbers.
Status 0: sound; of compare: also equal; of pointer: it leads to an object. 1: not so, or a file is no dump or cannot be
read. 2: wrong arguments.
";
const AMISS: u8 = 1;
const MISUSED: u8 = 2;

/// A number of 64 bits, in decimal or, behind 0x, in hexadecimal.
fn number(text: &OsStr) -> Option<u64> {
    let text = text.to_str()?;
    let (digits, radix) = match text.strip_prefix("0x").or(text.strip_prefix("0X")) {
        Some(digits) => (digits, 16),
        None => (text, 10),
    };
    // a sign is no digit
    digits.chars().all(|digit| digit.is_digit(radix)).then(|| u64::from_str_radix(digits, radix).ok())?
}

/// Says whether nothing is amiss.
fn run(arguments: &[OsString], out: &mut impl Write) -> Result<bool, Failure> {
    let mut words = arguments.iter().map(OsString::as_os_str);
    let command = words.next().and_then(OsStr::to_str).ok_or(Failure::Usage)?;
    match (command, &words.collect::<Vec<_>>()[..]) {
        ("show", [image, table @ ..]) if table.len() < 2 => {
            let mut dump = Dump::read(image, table.first().copied())?;
            Ok(show::write(&dump.chart()?, out, &mut Progress::of_output("listing"))?)
        }
        ("svg", [image, table @ ..]) if table.len() < 2 => {
            let mut dump = Dump::read(image, table.first().copied())?;
            Ok(svg::write(&dump.chart()?, out)?)
        }
        ("compare", [a, b]) => {
            let (first, second) = (read_image(a)?, read_image(b)?);
            let names = names(a, b);
            let (a, b) = (Side { name: &names[0], image: &first }, Side { name: &names[1], image: &second });
            Ok(compare::write(a, b, out, &mut Progress::of_output("comparing"))?)
        }
        ("pointer", [image, table, text]) => {
            let number = number(text).ok_or(Failure::Usage)?;
            let mut dump = Dump::read(image, Some(table))?;
            Ok(pointer::write(&dump.chart()?, number.into(), out)?)
        }
        ("--help" | "-h" | "help", []) => Ok(out.write_all(USAGE.as_bytes()).map(|()| true)?),
        _ => Err(Failure::Usage),
    }
}

/// Names of the files: with their folders where they are the same without.
fn names(a: &OsStr, b: &OsStr) -> [String; 2] {
    match [a, b].map(file_name) {
        [first, second] if first == second => [a, b].map(|path| path.to_string_lossy().into_owned()),
        names => names,
    }
}

fn say(text: &str) {
    // where standard error is closed nobody reads it
    let _ = io::stderr().write_all(text.as_bytes());
}

fn main() -> ExitCode {
    let arguments: Vec<_> = std::env::args_os().skip(1).collect();
    let mut out = BufWriter::with_capacity(1 << 16, io::stdout().lock());
    let answer = run(&arguments, &mut out);
    match answer.and_then(|sound| Ok(out.flush().map(|()| sound)?)) {
        Ok(true) => ExitCode::SUCCESS,
        Ok(false) => ExitCode::from(AMISS),
        Err(Failure::Usage) => {
            say(USAGE);
            ExitCode::from(MISUSED)
        }
        Err(Failure::Said(what)) => {
            say(&format!("cue-chart: {what}\n"));
            ExitCode::from(AMISS)
        }
        // whoever reads it has seen enough
        Err(Failure::Unwritten(error)) if error.kind() == io::ErrorKind::BrokenPipe => ExitCode::from(AMISS),
        Err(Failure::Unwritten(error)) => {
            say(&format!("cue-chart: standard output: {error}\n"));
            ExitCode::from(AMISS)
        }
    }
}

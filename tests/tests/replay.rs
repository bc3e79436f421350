//! The program `replay` against the model of the call log, each input given at once and in pieces.

use cueledger_tests::counts::Counts;
use cueledger_tests::generate;
use cueledger_tests::log::{self, record, record_of, records, Reading, HEAD, LIMIT, SAMPLE, SAMPLE_LINES};
use cueledger_tests::print;
use cueledger_tests::random::{fresh_seed, Random};
use cueledger_tests::store::{Answer, Call, Model, Store, KINDS};
use std::ffi::OsString;
use std::fs::{self, File};
use std::io::{ErrorKind, Seek, Write};
use std::path::PathBuf;
use std::process::{self, Command, Output, Stdio};
use std::sync::atomic::{AtomicU32, Ordering};
use std::thread;
use std::time::{Duration, Instant};

const SEED: u64 = 1;

// ---- programs

/// What it prints, or what else it did wrong.
type Printed = Result<Vec<u8>, String>;

trait Program {
    fn at_once(&self, input: &[u8]) -> Printed;
    fn in_pieces(&self, pieces: &[&[u8]]) -> Printed;
}

impl<F: Fn(&[u8]) -> String> Program for F {
    fn at_once(&self, input: &[u8]) -> Printed {
        Ok(self(input).into())
    }

    fn in_pieces(&self, pieces: &[&[u8]]) -> Printed {
        self.at_once(&pieces.concat())
    }
}

/// A compiled program and its arguments.
struct Compiled(Vec<OsString>);

impl Compiled {
    fn replay() -> Compiled {
        Compiled(vec![log::program().into()])
    }

    /// A shell's commands, in which `replay` is `"$0"`.
    fn around_replay(commands: &str) -> Compiled {
        let shell = ["sh", "-c", commands].map(OsString::from);
        Compiled(shell.into_iter().chain(Compiled::replay().0).collect())
    }

    fn command(&self) -> Command {
        let mut command = Command::new(&self.0[0]);
        command.args(&self.0[1..]);
        command
    }
}

impl Program for Compiled {
    /// From a file.
    fn at_once(&self, input: &[u8]) -> Printed {
        let path = temporary("input");
        fs::write(&path, input).unwrap();
        let mut file = File::open(&path).unwrap();
        fs::remove_file(&path).unwrap();
        let output = self.command().stdin(file.try_clone().unwrap()).output().unwrap();
        // the place in the file is the program's too
        match file.stream_position().unwrap() {
            read if read > LIMIT as u64 => Err(format!("it read {read} bytes")),
            _ => printed(output),
        }
    }

    /// Through a pipe, with pauses, so that reads come back with fewer bytes than were asked for.
    fn in_pieces(&self, pieces: &[&[u8]]) -> Printed {
        let mut child = self.command().stdin(Stdio::piped()).stdout(Stdio::piped()).stderr(Stdio::piped()).spawn().unwrap();
        let mut pipe = child.stdin.take().unwrap();
        let output = thread::scope(|scope| {
            scope.spawn(move || {
                for (i, piece) in pieces.iter().enumerate() {
                    match pipe.write_all(piece).and_then(|()| pipe.flush()) {
                        // it does not read beyond the limit
                        Err(error) if error.kind() == ErrorKind::BrokenPipe => break,
                        result => result.unwrap(),
                    }
                    match i % 16 {
                        0 => thread::sleep(Duration::from_millis(1)),
                        _ => thread::yield_now(),
                    }
                }
            });
            child.wait_with_output().unwrap()
        });
        printed(output)
    }
}

fn printed(Output { status, stdout, stderr }: Output) -> Printed {
    if status.code() == Some(0) && stderr.is_empty() {
        Ok(stdout)
    } else {
        Err(format!("{status}, standard error {:?}", String::from_utf8_lossy(&stderr)))
    }
}

/// A path that nobody else has.
fn temporary(name: &str) -> PathBuf {
    static NEXT: AtomicU32 = AtomicU32::new(0);
    format!("{}/replay-{name}-{}-{}", env!("CARGO_TARGET_TMPDIR"), process::id(), NEXT.fetch_add(1, Ordering::Relaxed)).into()
}

// ---- the comparison

struct Input {
    name: String,
    bytes: Vec<u8>,
    expected: String,
}

impl Input {
    fn new(name: impl Into<String>, bytes: Vec<u8>) -> Input {
        Input { name: name.into(), expected: log::replay(&bytes), bytes }
    }

    fn difference(&self, printed: Printed) -> Option<String> {
        let printed = match printed {
            Ok(printed) if printed == self.expected.as_bytes() => return None,
            Ok(printed) => printed,
            Err(otherwise) => return Some(otherwise),
        };
        let mut expected = self.expected.as_bytes().split_inclusive(|&byte| byte == b'\n');
        let mut got = printed.split_inclusive(|&byte| byte == b'\n');
        (1..).find_map(|line| {
            let (expected, got) = (expected.next(), got.next());
            let show = |text: Option<&[u8]>| text.map(|text| String::from_utf8_lossy(text).into_owned());
            (expected != got).then(|| format!("line {line}: expected {:?}, got {:?}", show(expected), show(got)))
        })
    }
}

/// Pieces of 1 to 4,096 bytes, not too many.
fn pieces<'a>(random: &mut Random, mut input: &'a [u8]) -> Vec<&'a [u8]> {
    let most = random.pick(&[1, 4, 30, 4096]).max(input.len() / 20).min(4096);
    let mut pieces = Vec::new();
    while !input.is_empty() {
        let (piece, rest) = input.split_at(input.len().min(random.within(1, most as u64) as usize));
        pieces.push(piece);
        input = rest;
    }
    pieces
}

/// The first input of which the program prints something else than the model, and what.
fn difference<'a>(program: &dyn Program, inputs: &'a [Input]) -> Option<(&'a Input, String)> {
    let mut random = Random::new(SEED);
    inputs.iter().find_map(|input| {
        let pieces = pieces(&mut random, &input.bytes);
        let at_once = || input.difference(program.at_once(&input.bytes));
        let in_pieces = || input.difference(program.in_pieces(&pieces)).map(|what| format!("in {} pieces: {what}", pieces.len()));
        at_once().or_else(in_pieces).map(|what| (input, what))
    })
}

fn agrees(name: &str, inputs: Vec<Input>) {
    let lines: usize = inputs.iter().map(|input| input.expected.lines().count()).sum();
    print(&format!("{name}: {} logs, {lines} lines, each twice", inputs.len()));
    if let Some((input, what)) = difference(&Compiled::replay(), &inputs) {
        let kept = temporary("failed");
        fs::write(&kept, &input.bytes).unwrap();
        panic!("{}, kept as {}: {what}", input.name, kept.display());
    }
}

// ---- inputs

/// An object's start.
const POINTER: u64 = 0x8010000000000020;

/// Every kind accepted, on a fresh store, and a refusal.
fn every_kind() -> Vec<Call<u64>> {
    vec![
        Call::Allocate { size: 10, type_number: 7 },
        Call::Store { pointer: POINTER, width: 4, value: 0xfedcba98 },
        Call::Move { pointer: POINTER, distance: 3 },
        Call::Move { pointer: POINTER + 3, distance: -1 },
        Call::Load { pointer: POINTER + 2, width: 3 },
        Call::Fill { pointer: POINTER + 1, length: 2, value: 255 },
        Call::Copy { target: POINTER + 3, source: POINTER, length: 7 },
        Call::Load { pointer: POINTER, width: 8 },
        Call::Free { pointer: POINTER },
        Call::Load { pointer: POINTER, width: 8 },
    ]
}

/// Document 02's, and none.
fn sample() -> Vec<Input> {
    let (sample, none) = (Input::new("sample", SAMPLE.to_vec()), Input::new("no input", Vec::new()));
    assert_eq!(sample.expected, SAMPLE_LINES);
    assert_eq!(none.expected, "");
    vec![sample, none]
}

/// An object of no bytes alone, and as many as there can be, each used and freed.
fn empties() -> Vec<Input> {
    let empty = Call::Allocate { size: 0, type_number: 7 };
    let through = |pointer| {
        [
            Call::Load { pointer, width: 1 },
            Call::Store { pointer, width: 1, value: 0 },
            Call::Fill { pointer, length: 0, value: 0 },
            Call::Fill { pointer, length: 1, value: 0 },
            Call::Copy { target: pointer, source: pointer, length: 0 },
            Call::Copy { target: pointer, source: pointer, length: 1 },
            Call::Move { pointer, distance: 1 },
            Call::Move { pointer, distance: -1 },
            Call::Free { pointer: pointer + 1 },
            Call::Free { pointer },
            Call::Free { pointer },
        ]
    };
    let alone = Input::new("an object of no bytes", records(&[&[empty][..], &through(POINTER)].concat()));
    let moved = ["18 0 8010000000000021", "18 0 801000000000001F"];
    let refused = |line: &str| format!("{line} 0000000000000000\n");
    let lines = ["19 13", "20 13", "21 6", "21 13", "22 6", "22 13"].map(refused).concat() + &moved.map(|line| line.to_string() + "\n").concat();
    assert_eq!(alone.expected, "16 0 8010000000000020\n".to_string() + &lines + &["17 15", "17 0", "17 11"].map(refused).concat());

    let calls = vec![empty; log::LENGTH / 16];
    let answers = log::answers(&calls);
    // headers up to 8176; the last base is the image's end
    assert_eq!((answers[510], answers[511]), (Answer::new(0, [0x000E000000002000]), Answer::new(8, [])));
    let used = answers[..511].iter().flat_map(|answer| through(answer.values[0]));
    vec![alone, Input::new("as many as there can be", records(&calls.into_iter().chain(used).collect::<Vec<_>>()))]
}

/// Random logs without a malformed record, unless they are longer than the limit.
fn valid(seed: u64) -> Vec<Input> {
    let mut random = Random::new(seed);
    let log = |i| {
        let count = match i % 10 {
            0 => random.within(1000, 5000),
            1..4 => random.within(100, 600),
            _ => random.within(1, 60),
        };
        Input::new(format!("log {i} of seed {seed}"), records(&generate::log::calls(random.word(), count as usize)))
    };
    (0..120).map(log).collect()
}

/// Valid logs with one to three bits or bytes changed.
fn changed(seed: u64) -> Vec<Input> {
    let mut random = Random::new(seed);
    let log = |i| {
        let count = random.within(1, 40) as usize;
        let mut bytes = records(&generate::log::calls(random.word(), count));
        for _ in 0..random.within(1, 3) {
            let at = random.below(bytes.len() as u64) as usize;
            bytes[at] = if random.percent(50) { bytes[at] ^ 1 << random.below(8) } else { random.word() as u8 };
        }
        Input::new(format!("changed log {i} of seed {seed}"), bytes)
    };
    (0..200).map(log).collect()
}

/// Random bytes, and records of random fields whose length and kind are mostly right.
fn noise(seed: u64) -> Vec<Input> {
    let mut random = Random::new(seed);
    let log = |i| {
        let mut bytes = Vec::new();
        if i % 3 == 0 {
            bytes.resize_with(random.within(1, 60) as usize, || random.word() as u8);
        }
        for _ in 0..random.within(0, 20) {
            let (kind, widths) = random.pick(&log::KINDS);
            let kind = if random.percent(3) { random.within(0, 30) as u16 } else { kind };
            let mut fields: Vec<u8> = widths.iter().flat_map(|&width| random.number().to_le_bytes()[..width].to_vec()).collect();
            // most fill values would be too large
            if let (21, Some(high)) = (kind, fields.get_mut(13)) {
                *high = 0;
            }
            let length = if random.percent(3) { random.within(0, 300) as usize } else { HEAD + fields.len() };
            bytes.extend(record_of(length, kind, &fields));
        }
        Input::new(format!("noise {i} of seed {seed}"), bytes)
    };
    (0..200).map(log).collect()
}

/// Each malformed record behind good ones; where anything may follow, good ones follow.
fn malformed() -> Vec<Input> {
    let good = records(&every_kind());
    let mut inputs = Vec::new();
    let mut add = |number: u32, name: String, bad: &[u8]| {
        let input = Input::new(name, [&good, bad].concat());
        assert!(input.expected.ends_with(&format!("\nlog {number}\n")), "{number}: {}", input.name);
        inputs.push(input);
    };

    for left in [&[10][..], &[0], &[10, 0], &[0, 0], &[255, 255], &[10, 0, 16], &[3, 0, 16], &[0, 0, 0], &[255, 255, 255]] {
        add(17, format!("{left:?} left"), left);
    }
    for kind in 15..=23 {
        for length in 0..4 {
            add(17, format!("kind {kind}, length {length}"), &[&record_of(length, kind, &[]), &good[..]].concat());
        }
    }
    for byte in [0, 255] {
        for (kind, length) in lengths().chain([(23, 10)]) {
            let fields = vec![byte; length - HEAD];
            for more in [1, 2, 256, 60_000, 65_535 - length] {
                add(17, format!("kind {kind}, {more} bytes missing, fields of {byte}"), &record_of(length + more, kind, &fields));
            }
            add(17, format!("kind {kind}, last of {length} bytes missing, fields of {byte}"), &record_of(length, kind, &fields[1..]));
        }
    }

    for kind in [0, 1, 10, 15, 23, 24, 32, 0x110, 0x1000, 0x1010, 0x1300, 0x1610, 0x8010, 0xff15, 0xffff] {
        for length in [4, 5, 10, 12, 14, 18, 20, 22, 24, 40] {
            add(18, format!("kind {kind}, length {length}"), &[record_of(length, kind, &vec![0; length - HEAD]), good.clone()].concat());
        }
    }

    // the second fill has a bad value too
    for ((kind, right), byte) in lengths().map(|row| (row, 0)).chain([((21, 18), 255)]) {
        for length in (4..=40).chain([right + 256]).filter(|&length| length != right) {
            let bad = record_of(length, kind, &vec![byte; length - HEAD]);
            add(19, format!("kind {kind}, length {length}, fields of {byte}"), &[bad, good.clone()].concat());
        }
    }
    let fill = record(Call::Fill { pointer: POINTER, length: 1, value: 0 }).unwrap();
    for value in [256, 257, 0x1000, 0xff00, 0xffff] {
        add(19, format!("fill value {value}"), &[&fill[..16], &u16::to_le_bytes(value), &good].concat());
    }
    inputs
}

/// The kinds and the lengths of their records.
fn lengths() -> impl Iterator<Item = (u16, usize)> {
    log::KINDS.iter().map(|(kind, widths)| (*kind, HEAD + widths.iter().sum::<usize>()))
}

/// A log with all kinds, at every length.
fn cut() -> Vec<Input> {
    let refused: Vec<_> = log::answers(&every_kind()).iter().map(|answer| answer.refusal).filter(|&refusal| refusal != 0).collect();
    assert_eq!(refused, [11], "the last load's");
    let log = records(&every_kind());
    (0..=log.len()).map(|length| Input::new(format!("cut at {length}"), log[..length].to_vec())).collect()
}

/// The calls' records, as many as fit, and others to make up so many bytes, an even number.
fn exactly(calls: &[Call<u64>], bytes: usize) -> Vec<u8> {
    let mut log = Vec::new();
    for &call in calls {
        let record = record(call).unwrap();
        if log.len() + record.len() + 40 > bytes {
            break;
        }
        log.extend(record);
    }
    // 40 and all even numbers above are sums of tens and up to four twelves
    let left = bytes - log.len();
    let frees = left / 2 % 5;
    log.extend(records(&vec![Call::Free { pointer: POINTER }; frees]));
    log.extend(records(&vec![Call::Allocate { size: 1, type_number: 0 }; (left - 12 * frees) / 10]));
    assert_eq!(log.len(), bytes);
    log
}

/// A record of each kind that ends at the limit, with nothing behind or something, or goes across it.
fn at_the_limit() -> Vec<Input> {
    let good = records(&every_kind());
    let calls = generate::log::calls(SEED, 5000);
    let mut inputs = Vec::new();
    for (kind, length) in lengths() {
        let record = record_of(length, kind, &vec![0; length - HEAD]);
        let full = [exactly(&calls, LIMIT - length), record.clone()].concat();
        let mut add = |malformed: bool, name: &str, bytes: &[u8]| {
            let input = Input::new(format!("kind {kind}, {name}"), bytes.to_vec());
            assert_eq!(input.expected.ends_with("\nlog 17\n"), malformed, "{}", input.name);
            inputs.push(input);
        };
        add(false, "up to the limit", &full);
        add(true, "one byte before the limit missing", &full[..LIMIT - 1]);
        add(false, "one byte behind the limit", &[&full[..], &[10]].concat());
        add(false, "records behind the limit", &[&full[..], &good].concat());
        add(false, "as much again behind the limit", &[&full[..], &full].concat());
        for inside in (2..length).step_by(2) {
            let across = [exactly(&calls, LIMIT - inside), record.clone(), good.clone()].concat();
            add(true, &format!("{inside} bytes up to the limit"), &across);
        }
        let across = [exactly(&calls, LIMIT + 2 - length), record].concat();
        add(true, "one byte across the limit", &across[..LIMIT + 1]);
    }
    inputs
}

// ---- the program

/// A fresh seed, or that of a run that is to be repeated.
fn fresh(name: &str) -> u64 {
    let seed = std::env::var("CUELEDGER_REPLAY_SEED").map_or_else(|_| fresh_seed(), |seed| seed.parse().unwrap());
    print(&format!("{name}: again by CUELEDGER_REPLAY_SEED={seed}"));
    seed
}

#[test]
fn samples() {
    agrees("samples", sample());
}

#[test]
fn objects_of_no_bytes() {
    agrees("objects of no bytes", empties());
}

#[test]
fn valid_logs() {
    agrees("valid logs", valid(SEED));
}

#[test]
fn valid_logs_with_a_fresh_seed() {
    agrees("valid logs, fresh", valid(fresh("valid logs, fresh")));
}

#[test]
fn malformed_logs() {
    agrees("malformed logs", malformed());
}

#[test]
fn changed_logs_and_noise() {
    agrees("changed logs", changed(SEED));
    agrees("noise", noise(SEED));
}

#[test]
fn changed_logs_and_noise_with_a_fresh_seed() {
    let seed = fresh("changed logs and noise, fresh");
    agrees("changed logs, fresh", changed(seed));
    agrees("noise, fresh", noise(seed));
}

#[test]
fn logs_cut_short() {
    agrees("logs cut short", cut());
}

#[test]
fn logs_at_the_limit() {
    agrees("logs at the limit", at_the_limit());
}

/// Best of five runs, process start included.
#[test]
fn fast_enough() {
    const MOST: Duration = Duration::from_millis(100);
    for (name, log) in generate::log::slow() {
        let input = Input::new(name, log);
        let program = Compiled::replay();
        let timed = || {
            let begun = Instant::now();
            let printed = program.at_once(&input.bytes);
            let taken = begun.elapsed();
            assert_eq!(input.difference(printed), None, "{name}");
            taken
        };
        let best = (0..5).map(|_| timed()).min().unwrap();
        print(&format!("{name}: {:.1} ms", best.as_secs_f64() * 1e3));
        assert!(best < MOST, "{name}: {best:?}");
    }
}

// ---- the comparison itself

/// Every row of the seven calls but those of a damaged superblock or a table too short. 7 from allocate, 9 and 22 need
/// headers that were changed through forged pointers.
#[test]
fn every_answer_occurs() {
    let mut counts = Counts::default();
    for input in valid(SEED) {
        counts.cases += 1;
        counts.largest_image = log::LENGTH;
        counts.slot_exponents[log::SLOT_EXPONENT as usize] += 1;
        let Reading { calls, .. } = log::read(log::cut(&input.bytes));
        calls.iter().zip(log::answers(&calls)).for_each(|(call, answer)| counts.add(call, &answer));
    }
    print(&counts.to_string());
    let of_a_log = |name: &str| !["set-up", "allocate for", "release", "compare", "text copy", "tally", "free total", "distances"].contains(&name);
    let missing: Vec<_> = counts.missing().into_iter().filter(|&(name, row)| of_a_log(name) && ![4, 5].contains(&row)).collect();
    assert!(missing.is_empty(), "{missing:?}");
    assert!(KINDS.iter().zip(&counts.by_call).all(|(kind, answers)| answers[0] > 0 || !of_a_log(kind.name)));
}

/// With the records changed that the function changes, up to one that it does not.
fn mended(input: &[u8], mend: fn(u32, &mut [u8]) -> bool) -> String {
    let mut input = log::cut(input).to_vec();
    loop {
        let Reading { rest, malformed, .. } = log::read(&input);
        let at = input.len() - rest.len();
        match malformed {
            Some(number) if mend(number, &mut input[at..]) => {}
            _ => return log::run(&input),
        }
    }
}

/// With another number for the malformed record.
fn renumbered(input: &[u8], number: fn(u32, &[u8]) -> Option<u32>) -> String {
    let Reading { calls, malformed, rest } = log::read(log::cut(input));
    log::text(&calls, &log::answers(&calls), malformed.and_then(|right| number(right, rest)))
}

/// With other calls instead, which print as themselves.
fn replaced(input: &[u8], replace: fn(Call<u64>) -> Call<u64>) -> String {
    let Reading { calls, malformed, .. } = log::read(log::cut(input));
    let calls: Vec<_> = calls.into_iter().map(replace).collect();
    log::text(&calls, &log::answers(&calls), malformed)
}

/// With other answers.
fn answered(input: &[u8], answers: fn(&[Call<u64>]) -> Vec<Answer>) -> String {
    let Reading { calls, malformed, .. } = log::read(log::cut(input));
    log::text(&calls, &answers(&calls), malformed)
}

fn lines(input: &[u8], line: fn(&str) -> String) -> String {
    log::replay(input).split_inclusive('\n').map(line).collect()
}

/// The answers on another store than document 02's.
fn on(length: usize, slot_exponent: u32, calls: &[Call<u64>]) -> Vec<Answer> {
    let (mut image, mut table) = (vec![0; length], vec![0; 2 * log::ENTRIES]);
    assert!(Model.call(&mut image, &mut table, Call::SetUp { slot_exponent }).accepted());
    calls.iter().map(|&call| Model.call(&mut image, &mut table, call)).collect()
}

/// Prints right what it gets first.
struct FirstPiece;

impl Program for FirstPiece {
    fn at_once(&self, input: &[u8]) -> Printed {
        log::replay.at_once(input)
    }

    fn in_pieces(&self, pieces: &[&[u8]]) -> Printed {
        self.at_once(pieces.first().unwrap_or(&&[][..]))
    }
}

type Faulty = fn(&[u8]) -> String;

const FAULTS: [(&str, Faulty); 31] = [
    // what is printed
    ("lower-case digits", |input| log::replay(input).to_lowercase()),
    ("kind with a zero before", |input| lines(input, |line| if line.starts_with("log") { line.into() } else { format!("0{line}") })),
    ("two spaces", |input| log::replay(input).replacen(' ', "  ", 1)),
    ("fewer digits", |input| lines(input, |line| line.replace(" 00000000", " "))),
    ("no newline at the end", |input| log::replay(input).trim_end().into()),
    ("carriage returns", |input| log::replay(input).replace('\n', "\r\n")),
    ("a line behind the last", |input| log::replay(input) + "\n"),
    ("a value beside a refusal", |input| {
        answered(input, |calls| {
            let beside = |(call, answer): (&Call<u64>, Answer)| match *call {
                Call::Move { pointer, .. } if !answer.accepted() => Answer::new(answer.refusal, [pointer]),
                _ => answer,
            };
            calls.iter().zip(log::answers(calls)).map(beside).collect()
        })
    }),
    // when it ends
    ("a refused call ends the run", |input| {
        let refused = |line: &&str| !line.starts_with("log") && line.split(' ').nth(1) != Some("0");
        let text = log::replay(input);
        let kept = text.split_inclusive('\n').position(|line| refused(&line)).map_or(usize::MAX, |at| at + 1);
        text.split_inclusive('\n').take(kept).collect()
    }),
    ("a malformed record is skipped", |input| {
        let mut input = log::cut(input);
        let mut text = String::new();
        let mut calls = Vec::new();
        loop {
            let reading = log::read(input);
            let before = calls.len();
            calls.extend(reading.calls);
            text += &log::text(&calls[before..], &log::answers(&calls)[before..], reading.malformed);
            match reading.malformed {
                Some(18 | 19) => input = &reading.rest[usize::from(u16::from_le_bytes([reading.rest[0], reading.rest[1]]))..],
                _ => return text,
            }
        }
    }),
    ("nothing for a malformed record", |input| renumbered(input, |_, _| None)),
    ("bytes left are the end", |input| renumbered(input, |right, rest| (rest.len() >= HEAD).then_some(right))),
    ("limit one less", |input| log::run(&input[..input.len().min(LIMIT - 1)])),
    ("limit one more", |input| log::run(&input[..input.len().min(LIMIT + 1)])),
    ("no limit", log::run),
    // how records are read
    ("19 before 18", |input| {
        renumbered(input, |right, rest| match right {
            18 if !lengths().any(|(_, length)| rest[..2] == (length as u16).to_le_bytes()) => Some(19),
            _ => Some(right),
        })
    }),
    ("18 before 17", |input| {
        renumbered(input, |right, rest| match right {
            17 if rest.len() >= HEAD && !lengths().any(|(kind, _)| rest[2..4] == kind.to_le_bytes()) => Some(18),
            _ => Some(right),
        })
    }),
    ("19 before 17", |input| {
        renumbered(input, |right, rest| match right {
            17 if rest.len() >= HEAD && rest[..2] != [18, 0] && rest[2..4] == [21, 0] => Some(19),
            _ => Some(right),
        })
    }),
    ("fill values modulo 256", |input| {
        mended(input, |number, record| {
            let fill = number == 19 && record[..4] == [18, 0, 21, 0];
            if fill {
                record[17] = 0;
            }
            fill
        })
    }),
    ("one byte of the kind", |input| mended(input, |number, record| number == 18 && std::mem::take(&mut record[3]) != 0)),
    ("one byte of the length", |input| mended(input, |_, record| record.len() >= HEAD && std::mem::take(&mut record[1]) != 0)),
    ("distance without sign", |input| {
        replaced(input, |call| match call {
            Call::Move { pointer, distance } => Call::Move { pointer, distance: distance & i64::MAX },
            call => call,
        })
    }),
    ("distance of 32 bits", |input| {
        replaced(input, |call| match call {
            Call::Move { pointer, distance } => Call::Move { pointer, distance: (distance as i32).into() },
            call => call,
        })
    }),
    ("one byte of the width", |input| {
        replaced(input, |call| match call {
            Call::Load { pointer, width } => Call::Load { pointer, width: width & 0xff },
            call => call,
        })
    }),
    ("target and source exchanged", |input| {
        replaced(input, |call| match call {
            Call::Copy { target, source, length } => Call::Copy { target: source, source: target, length },
            call => call,
        })
    }),
    // how calls are made
    ("a fresh store for each call", |input| answered(input, |calls| calls.iter().flat_map(|&call| log::answers(&[call])).collect())),
    ("the calls backwards", |input| {
        answered(input, |calls| {
            let backwards: Vec<_> = calls.iter().rev().copied().collect();
            log::answers(&backwards).into_iter().rev().collect()
        })
    }),
    ("6 for an object of no bytes", |input| {
        answered(input, |calls| {
            let asked = |call: &Call<u64>| matches!(call, Call::Allocate { size: 0, .. });
            let others: Vec<_> = calls.iter().copied().filter(|call| !asked(call)).collect();
            let mut answers = log::answers(&others).into_iter();
            calls.iter().map(|call| if asked(call) { Answer::new(6, []) } else { answers.next().unwrap() }).collect()
        })
    }),
    ("one byte for none", |input| {
        replaced(input, |call| match call {
            Call::Allocate { size: 0, type_number } => Call::Allocate { size: 1, type_number },
            call => call,
        })
    }),
    ("another length", |input| answered(input, |calls| on(log::LENGTH + 1, log::SLOT_EXPONENT, calls))),
    ("another slot exponent", |input| answered(input, |calls| on(log::LENGTH, log::SLOT_EXPONENT + 1, calls))),
];

#[test]
fn faults_are_found() {
    let groups = [sample(), cut(), malformed(), empties(), valid(SEED), changed(SEED), noise(SEED), at_the_limit()];
    let inputs: Vec<_> = groups.into_iter().flatten().collect();
    assert!(difference(&log::replay, &inputs).is_none(), "the model itself");
    for (fault, program) in FAULTS {
        let (input, what) = difference(&program, &inputs).unwrap_or_else(|| panic!("not found: {fault}"));
        println!("{fault}: {}: {what}", input.name);
    }
    let (input, what) = difference(&FirstPiece, &inputs).expect("not found: the first piece alone is read");
    println!("first piece: {}: {what}", input.name);
}

/// Faults around the program itself. The first one shows that the pieces arrive as pieces.
#[test]
fn faults_of_a_process_are_found() {
    let long = Input::new("more than the limit", exactly(&[], LIMIT + 40));
    let inputs: Vec<_> = sample().into_iter().chain(cut()).chain([long]).collect();
    for commands in ["dd bs=65536 count=1 2>/dev/null | \"$0\"", "\"$0\"; exit 1", "\"$0\"; echo >&2", "\"$0\"; cat >/dev/null"] {
        let (input, what) = difference(&Compiled::around_replay(commands), &inputs).unwrap_or_else(|| panic!("not found: {commands}"));
        println!("{commands}: {}: {what}", input.name);
    }
}

//! The program `traffic` against the model's log, and what `replay` makes of it.

use super::SEED;
use cueledger_tests::log::{self, LIMIT};
use cueledger_tests::print;
use cueledger_tests::random::{fresh_seed, Random};
use cueledger_tests::traffic::{program, written};
use std::ffi::OsString;
use std::process::{Command, Output, Stdio};
use std::time::{Duration, Instant};

/// A compiled program, and the arguments before its own.
struct Compiled(Vec<OsString>);

impl Compiled {
    fn traffic() -> Compiled {
        Compiled(vec![program().into()])
    }

    /// A shell's commands, in which `traffic` is `"$0"`.
    fn around_traffic(commands: &str) -> Compiled {
        let shell = ["sh", "-c", commands].map(OsString::from);
        Compiled(shell.into_iter().chain(Compiled::traffic().0).collect())
    }

    fn run(&self, words: &[String]) -> Output {
        Command::new(&self.0[0]).args(&self.0[1..]).args(words).stdin(Stdio::null()).output().unwrap()
    }
}

/// What arguments should give: the log, and whether it is full; `None` where they are refused.
type Expected = Option<(Vec<u8>, bool)>;

struct Input {
    words: Vec<String>,
    expected: Expected,
}

impl Input {
    fn right(words: &[&str], state: u64, draws: u64) -> Input {
        Input { words: words.iter().map(|word| word.to_string()).collect(), expected: Some(written(state, draws)) }
    }

    fn numbers(state: u64, draws: u64) -> Input {
        Input::right(&[&state.to_string(), &draws.to_string()], state, draws)
    }

    fn bad(words: &[&str]) -> Input {
        Input { words: words.iter().map(|word| word.to_string()).collect(), expected: None }
    }

    /// How the output is not as it should be: a full log is told in one line, bad arguments by the usage.
    fn difference(&self, Output { status, stdout, stderr }: Output) -> Option<String> {
        let told = String::from_utf8_lossy(&stderr);
        let one_line = told.ends_with('\n') && told.lines().count() == 1;
        let (log, right) = match &self.expected {
            Some((log, false)) => (&log[..], status.success() && told.is_empty()),
            Some((log, true)) => (&log[..], status.success() && one_line && told.contains("log")),
            None => (&[][..], status.code().is_some() && told.starts_with("usage: traffic [STATE [DRAWS]]")),
        };
        if stdout != log {
            let at = stdout.iter().zip(log).take_while(|(got, expected)| got == expected).count();
            return Some(format!("{} bytes, not {}, alike up to {at}", stdout.len(), log.len()));
        }
        (!right).then(|| format!("{status}, standard error {told:?}"))
    }
}

fn difference<'a>(program: &Compiled, inputs: &'a [Input]) -> Option<(&'a Input, String)> {
    inputs.iter().find_map(|input| Some((input, input.difference(program.run(&input.words))?)))
}

fn agrees(inputs: &[Input]) {
    if let Some((input, what)) = difference(&Compiled::traffic(), inputs) {
        panic!("traffic {:?}: {what}", input.words);
    }
}

// ---- inputs

const MOST: &str = "18446744073709551615";

/// The records of the log that it fills.
fn records_to_the_limit(state: u64) -> u64 {
    log::read(&written(state, u64::MAX).0).calls.len() as u64
}

fn numbers() -> Vec<Input> {
    vec![
        Input::right(&[], 0, 1_000),
        Input::right(&["0"], 0, 1_000),
        Input::right(&["1"], 1, 1_000),
        Input::right(&[MOST], u64::MAX, 1_000),
        Input::right(&["7", "0"], 7, 0),
        Input::right(&["7", "1"], 7, 1),
        Input::right(&["123456789", "20"], 123_456_789, 20),
        Input::right(&["9223372036854775808", "300"], 1 << 63, 300),
        Input::right(&["007", "0010"], 7, 10),
        Input::right(&["00000000000000000000000007", "00"], 7, 0),
        Input::right(&[&format!("{:064}", 7), "1"], 7, 1),
    ]
}

/// 10,000 draws, all that there are, and the last number of draws that the log has space for, with its neighbours; a log that is
/// filled to its last byte.
fn full() -> Vec<Input> {
    let mut inputs = vec![Input::right(&["0", "10000"], 0, 10_000), Input::right(&["5", MOST], 5, u64::MAX)];
    let exact = (0..).find(|&state| written(state, u64::MAX).0.len() == LIMIT).unwrap();
    for state in [0, exact] {
        let records = records_to_the_limit(state);
        inputs.extend([records - 1, records, records + 1].map(|draws| Input::numbers(state, draws)));
    }
    let told: Vec<_> = inputs.iter().map(|input| input.expected.as_ref().unwrap().1).collect();
    assert_eq!(told, [true, true, false, false, true, false, false, true]);
    inputs
}

fn random(seed: u64) -> Vec<Input> {
    let mut random = Random::new(seed);
    (0..50).map(|_| Input::numbers(random.number(), random.below(6_000))).collect()
}

/// Words that are no number below 2^64, in either place, and more words than two.
fn bad() -> Vec<Input> {
    let words = [
        "", " ", "-", "+", "x", "-1", "+1", "-0", " 1", "1 ", "1\n", "1.0", "1e3", "1,000", "1_000", "0x10", "0b1", "1a", "a1", "/", ":", "1:", "/1", "１",
        "²", "٣",
    ];
    let above =
        ["18446744073709551616", "18446744073709551620", "18446744073709551625", "20000000000000000000", "99999999999999999999", "184467440737095516150"];
    let more = ["340282366920938463463374607431768211456", "10000000000000000000000000000000000000000"];
    let words = words.iter().chain(&above).chain(&more);
    let alone = words.clone().map(|word| Input::bad(&[word]));
    let second = words.clone().map(|word| Input::bad(&["1", word]));
    let first = words.clone().map(|word| Input::bad(&[word, "1"]));
    // 64 bytes are the most that are read
    let long = format!("{:065}", 7);
    let many = [&["1", "2", "3"][..], &["1", "2", ""], &["1", "2", "3", "4"], &[&long], &["1", &long]].map(Input::bad);
    alone.chain(second).chain(first).chain(many).collect()
}

// ---- the program

#[test]
fn right_arguments() {
    agrees(&numbers());
}

#[test]
fn full_logs() {
    agrees(&full());
}

#[test]
fn random_arguments() {
    agrees(&random(SEED));
    let seed = fresh_seed();
    print(&format!("program traffic, fresh: seed {seed}"));
    agrees(&random(seed));
}

#[test]
fn bad_arguments() {
    agrees(&bad());
}

/// As a rigger runs it: `traffic | replay`.
#[test]
fn through_replay() {
    for (words, state, draws) in [(&[][..], 0, 1_000), (&["1"], 1, 1_000), (&[MOST, "1000"], u64::MAX, 1_000), (&["3", "4000"], 3, 4_000), (&["9", "0"], 9, 0)]
    {
        let both = Compiled::around_traffic("replay=$1; shift; \"$0\" \"$@\" | \"$replay\"");
        let replay = log::program().to_str().unwrap().to_string();
        let Output { status, stdout, stderr } = both.run(&[&[replay], &words.iter().map(|word| word.to_string()).collect::<Vec<_>>()[..]].concat());
        assert!(status.success() && stderr.is_empty(), "{status}, {}", String::from_utf8_lossy(&stderr));
        let printed = String::from_utf8(stdout).unwrap();
        assert!(printed == log::replay(&written(state, draws).0), "from {state}");
        assert_eq!(printed.lines().count() as u64, draws);
        for line in printed.lines() {
            let answer: Vec<_> = line.split(' ').take(2).collect();
            assert!([["16", "0"], ["16", "8"], ["17", "0"], ["20", "0"]].iter().any(|right| *right == answer[..]), "{line}");
        }
    }
}

/// Best of five runs, process start included.
#[test]
fn fast_enough() {
    const LONGEST: Duration = Duration::from_millis(100);
    let program = Compiled::traffic();
    let input = Input::numbers(0, u64::MAX);
    let timed = || {
        let begun = Instant::now();
        let output = program.run(&input.words);
        let taken = begun.elapsed();
        assert_eq!(input.difference(output), None);
        taken
    };
    let best = (0..5).map(|_| timed()).min().unwrap();
    print(&format!("traffic up to its limit: {:.1} ms", best.as_secs_f64() * 1e3));
    assert!(best < LONGEST, "{best:?}");
}

// ---- the comparison itself

#[test]
fn faults_are_found() {
    let inputs: Vec<_> = [numbers(), full(), bad()].into_iter().flatten().collect();
    assert!(difference(&Compiled::around_traffic("\"$0\" \"$@\""), &inputs).is_none(), "the program itself");
    for commands in [
        "\"$0\" \"$@\"; exit 1",
        "\"$0\" \"$@\"; kill -9 $$",
        "\"$0\" \"$@\"; echo >&2",
        "\"$0\" \"$@\"; echo",
        "\"$0\" \"$@\" 2>&1",
        "\"$0\" \"$@\" 2>/dev/null",
        "\"$0\" \"$@\" | head -c 65535",
        "\"$0\" \"${1-1}\" \"${2-1000}\"",
        "\"$0\" \"${1-0}\" \"${2-999}\"",
        "\"$0\" \"${2-0}\" \"${1-1000}\"",
        "\"$0\" ${1+\"$1\"} ${2+\"$2\"}",
        "\"$0\" $@",
        "\"$0\" ${1+\"${1#+}\"} ${2+\"$2\"} ${3+\"$3\"}",
        "\"$0\" ${1+\"$1\"} ${2+\"${2#-}\"} ${3+\"$3\"}",
        "\"$0\" ${1+\"${1%[a-z]}\"} ${2+\"$2\"} ${3+\"$3\"}",
    ] {
        let (input, what) = difference(&Compiled::around_traffic(commands), &inputs).unwrap_or_else(|| panic!("not found: {commands}"));
        println!("{commands}: traffic {:?}: {what}", input.words);
    }
}

//! The program `overhead` of `rust/examples`, and `make report`: what they print, and how they end.

use cueledger_tests::overheads::generate::case;
use cueledger_tests::overheads::model::Rules;
use cueledger_tests::store::Model;
use std::fs;
use std::io::Write;
use std::path::PathBuf;
use std::process::{self, Command, Output, Stdio};
use std::sync::atomic::{AtomicU32, Ordering};
use std::sync::OnceLock;
use std::thread;

const ROOT: &str = concat!(env!("CARGO_MANIFEST_DIR"), "/..");

/// Built once, in a folder of its own: the cargo that runs the tests may hold theirs.
fn program() -> Command {
    static BUILT: OnceLock<PathBuf> = OnceLock::new();
    let built = BUILT.get_or_init(|| {
        let rust = format!("{ROOT}/rust");
        let build = ["build", "--offline", "--locked", "--release", "--quiet", "--example", "overhead", "--manifest-path"];
        let status = Command::new(env!("CARGO")).args(build).arg(format!("{rust}/Cargo.toml")).arg("--target-dir").arg(format!("{rust}/target")).status();
        assert!(status.unwrap().success());
        format!("{rust}/target/release/examples/overhead").into()
    });
    Command::new(built)
}

/// Exit status, standard output and standard error.
type Ended = (Option<i32>, String, String);

fn ended(Output { status, stdout, stderr }: Output) -> Ended {
    (status.code(), String::from_utf8(stdout).unwrap(), String::from_utf8(stderr).unwrap())
}

fn from_input(list: &[u8]) -> Ended {
    let mut child = program().stdin(Stdio::piped()).stdout(Stdio::piped()).stderr(Stdio::piped()).spawn().unwrap();
    let mut pipe = child.stdin.take().unwrap();
    thread::scope(|scope| {
        scope.spawn(move || pipe.write_all(list).unwrap());
        ended(child.wait_with_output().unwrap())
    })
}

/// A file that nobody else has, gone behind `run`.
fn with_file<T>(list: &[u8], run: impl FnOnce(&str) -> T) -> T {
    static NEXT: AtomicU32 = AtomicU32::new(0);
    let path = format!("{}/report-{}-{}", env!("CARGO_TARGET_TMPDIR"), process::id(), NEXT.fetch_add(1, Ordering::Relaxed));
    fs::write(&path, list).unwrap();
    let result = run(&path);
    fs::remove_file(&path).unwrap();
    result
}

fn from_file(list: &[u8]) -> Ended {
    with_file(list, |path| ended(program().arg(path).stdin(Stdio::null()).output().unwrap()))
}

const BELOW: &str = "
Padded: the blocks of baggy bounds, each the lowest power of two not under its object's size, with a least block of 16 bytes.
End reached: the blocks in the list's order from 0, each at the lowest multiple of its own size not before the previous end.
";

/// From a file and from standard input.
fn prints(list: &[u8], table: &str) {
    for ended in [from_file(list), from_input(list)] {
        assert_eq!(ended, (Some(0), format!("{}{BELOW}", table.trim_start()), String::new()));
    }
}

/// What is said of it has the list's name in front.
fn fails(list: &[u8], status: i32, what: &str) {
    assert_eq!(from_input(list), (Some(status), String::new(), format!("overhead: standard input, {what}\n")));
    with_file(list, |path| {
        let ended = ended(program().arg(path).output().unwrap());
        assert_eq!(ended, (Some(status), String::new(), format!("overhead: {path}, {what}\n")));
    });
}

fn list(sizes: &[u32]) -> Vec<u8> {
    sizes.iter().map(|size| format!("{size}\n")).collect::<String>().into()
}

const FIVE: &str = "
| 5 objects           | bytes | over raw bytes |   in % |
|---------------------|------:|---------------:|-------:|
| raw                 | 3,205 |                |        |
| with our headers    | 3,285 |       80/3,205 |  2.5 % |
| padded              | 5,168 |    1,963/3,205 | 61.2 % |
| padded, end reached | 6,144 |                |        |
";

#[test]
fn lists() {
    prints(b"2600 10 3 12 580\n", FIVE);
    prints(b"# five objects\n 2600\t10#, and\r\n\n3 # of few bytes: 4 5\n0012 580", FIVE);
    let none = "
| 0 objects           | bytes | over raw bytes |  in % |
|---------------------|------:|---------------:|------:|
| raw                 |     0 |                |       |
| with our headers    |     0 |            0/1 | 0.0 % |
| padded              |     0 |            0/1 | 0.0 % |
| padded, end reached |     0 |                |       |
";
    prints(b"", none);
    prints(b"\n# 16\n#", none);
    prints(
        b"1",
        "
| 1 object            | bytes | over raw bytes |      in % |
|---------------------|------:|---------------:|----------:|
| raw                 |     1 |                |           |
| with our headers    |    17 |           16/1 | 1,600.0 % |
| padded              |    16 |           15/1 | 1,500.0 % |
| padded, end reached |    16 |                |           |
",
    );
    prints(
        b"1 65536",
        "
| 2 objects           |   bytes | over raw bytes |  in % |
|---------------------|--------:|---------------:|------:|
| raw                 |  65,537 |                |       |
| with our headers    |  65,569 |      32/65,537 | 0.0 % |
| padded              |  65,552 |      15/65,537 | 0.0 % |
| padded, end reached | 131,072 |                |       |
",
    );
}

#[test]
fn the_longest_list() {
    prints(
        &list(&[65_536; 65_536]),
        "
| 65,536 objects      |         bytes |          over raw bytes |  in % |
|---------------------|--------------:|------------------------:|------:|
| raw                 | 4,294,967,296 |                         |       |
| with our headers    | 4,296,015,872 | 1,048,576/4,294,967,296 | 0.0 % |
| padded              | 4,294,967,296 |         0/4,294,967,296 | 0.0 % |
| padded, end reached | 4,294,967,296 |                         |       |
",
    );
}

/// The two percentages of a list of one size.
fn per_cents(size: u32) -> [String; 2] {
    let (_, printed, _) = from_input(&list(&[size]));
    let cell = |line| printed.lines().nth(line).and_then(|line| line.split('|').nth(4)).unwrap().trim().to_string();
    [cell(3), cell(4)]
}

/// Half up.
#[test]
fn percentages() {
    // 16 over 32,000 is 0.05 %
    assert_eq!(per_cents(32_000), ["0.1 %", "2.4 %"]);
    assert_eq!(per_cents(32_001), ["0.0 %", "2.4 %"]);
    // 16 over 10,666 is 0.15001 %, and over 10,667 is 0.14999 %
    assert_eq!([per_cents(10_666)[0].as_str(), &per_cents(10_667)[0]], ["0.2 %", "0.1 %"]);
    // 1.25 %, and 2.5 %
    assert_eq!([per_cents(1_280)[0].as_str(), &per_cents(640)[0]], ["1.3 %", "2.5 %"]);
    assert_eq!(per_cents(1_001), ["1.6 %", "2.3 %"]);
    assert_eq!(per_cents(16), ["100.0 %", "0.0 %"]);
    assert_eq!(per_cents(65_536), ["0.0 %", "0.0 %"]);
}

/// The numbers of random lists are the model's, in lines of one length.
#[test]
fn numbers() {
    for case in (0..60).map(case).filter(|case| case.kind() == "good") {
        let (status, printed, said) = from_input(&list(case.sizes()));
        assert_eq!((status, said.as_str()), (Some(0), ""));
        let lines: Vec<_> = printed.lines().take(6).collect();
        assert!(lines.iter().all(|line| line.len() == lines[0].len()), "{printed}");
        let digits = |text: &str| text.chars().filter(|c| *c != ',').collect::<String>().trim().parse::<u64>().unwrap();
        let cell = |line: usize, column| lines[line].split('|').nth(column).unwrap();
        let fraction = |line| cell(line, 3).split_once('/').map(|(extra, over)| [digits(extra), digits(over)]).unwrap();
        let sums = [2, 3, 4, 5].map(|line| digits(cell(line, 2)));
        assert_eq!(Model.report(case.sizes()).map(|values| values.to_vec()), Ok([&sums[..], &fraction(3), &fraction(4)].concat()));
    }
}

#[test]
fn refused_lists() {
    fails(&list(&[1; 65_537]), 1, "65,537 sizes: refused, more than 65,536 sizes (28)");
    fails(&list(&[0; 65_537]), 1, "65,537 sizes: refused, more than 65,536 sizes (28)");
    fails(b"1 2\n3 0 65537", 1, "line 2: 0: refused, size outside 1 to 65,536 (29)");
    fails(b"1\n\n\n65536 65537 0", 1, "line 4: 65537: refused, size outside 1 to 65,536 (29)");
    fails(b"4294967297", 1, "line 1: 4294967297: refused, size outside 1 to 65,536 (29)");
    fails(b"99999999999999999999999999", 1, "line 1: 99999999999999999999999999: refused, size outside 1 to 65,536 (29)");
}

#[test]
fn bad_words() {
    fails(b"1 2\n3 four 5x", 2, "line 2: \"four\" is not a decimal number");
    fails(b"0 1,000", 2, "line 1: \"1,000\" is not a decimal number");
    for word in ["-1", "+1", "1.0", "0x10", "1e3", "\u{661}", "1/2"] {
        fails(format!("16\n16 {word} 16").as_bytes(), 2, &format!("line 2: {word:?} is not a decimal number"));
    }
    fails(b"\xff", 2, "line 1: \"\u{fffd}\" is not a decimal number");
}

#[test]
fn arguments() {
    let missing = ended(program().arg("/nowhere/sizes").output().unwrap());
    assert_eq!(missing, (Some(2), String::new(), "overhead: /nowhere/sizes: No such file or directory (os error 2)\n".to_string()));
    let two = ended(program().args(["a", "b"]).output().unwrap());
    assert_eq!(two, (Some(2), String::new(), "overhead: usage: overhead [FILE]\n".to_string()));
}

/// As a hirer runs it, with the archive that is there.
fn make(arguments: &[&str]) -> Ended {
    program();
    let mut make = Command::new("make");
    make.args(["--no-print-directory", "-o", "target/staticlib/libcapi.a", "report"]).args(arguments).current_dir(ROOT);
    ended(make.env_remove("MAKEFLAGS").env_remove("MAKELEVEL").env_remove("SIZES").output().unwrap())
}

#[test]
fn make_report() {
    with_file(b"2600 10 3 12 580", |path| {
        assert_eq!(make(&[&format!("SIZES={path}")]), (Some(0), format!("{}{BELOW}", FIVE.trim_start()), String::new()));
    });
    let (status, printed, said) = make(&[]);
    assert!(status == Some(2) && printed.is_empty() && said.starts_with("usage: make report SIZES=file\n"), "{said}");
}

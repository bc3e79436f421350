//! The files that `replay` and `traffic` leave, against what the models leave, byte by byte.

use cueledger_tests::generate;
use cueledger_tests::log::{self, records, Dump, SAMPLE};
use cueledger_tests::store::Call;
use cueledger_tests::traffic::{self, Load};
use std::collections::BTreeMap;
use std::ffi::OsString;
use std::fs::{self, File};
use std::path::{Path, PathBuf};
use std::process::{self, Command, Output};
use std::sync::atomic::{AtomicU32, Ordering};

// ---- a run

/// A shell's commands that add nothing.
const AS_IT_IS: &str = "exec \"$0\" \"$@\"";

/// A folder of its own, removed with it.
struct Folder(PathBuf);

impl Folder {
    fn new() -> Folder {
        static NEXT: AtomicU32 = AtomicU32::new(0);
        let path = format!("{}/dumps-{}-{}", env!("CARGO_TARGET_TMPDIR"), process::id(), NEXT.fetch_add(1, Ordering::Relaxed));
        fs::create_dir(&path).unwrap();
        Folder(path.into())
    }

    /// Its files, by name.
    fn files(&self) -> Files {
        let file = |path: PathBuf| (path.file_name().unwrap().to_str().unwrap().to_string(), fs::read(&path).unwrap());
        fs::read_dir(&self.0).unwrap().map(|entry| file(entry.unwrap().path())).collect()
    }
}

impl Drop for Folder {
    fn drop(&mut self) {
        fs::remove_dir_all(&self.0).unwrap();
    }
}

type Files = BTreeMap<String, Vec<u8>>;

/// The words that name the files; either may be left out behind, or be empty.
fn words(names: &[&str]) -> Vec<String> {
    ["IMAGE=", "TABLE="].iter().zip(names).map(|(key, name)| format!("{key}{name}")).collect()
}

/// A program with the words before those that name files, what it reads and writes, and what it leaves.
struct Case {
    program: PathBuf,
    words: Vec<String>,
    input: Vec<u8>,
    output: Vec<u8>,
    dump: Dump,
}

impl Case {
    fn replay(input: Vec<u8>) -> Case {
        Case { program: log::program(), words: Vec::new(), output: log::replay(&input).into(), dump: log::left(&input), input }
    }

    fn traffic(state: u64, draws: u64) -> Case {
        let Load { log, dump, .. } = traffic::load(state, draws);
        Case { program: traffic::program(), words: vec![state.to_string(), draws.to_string()], input: Vec::new(), output: log, dump }
    }

    /// In the folder, with these words behind its own, and with a shell's commands around it, in which it is `"$0"`.
    fn run_by(&self, commands: &str, folder: &Path, words: &[String]) -> Output {
        let input = Folder::new();
        let log = input.0.join("log");
        fs::write(&log, &self.input).unwrap();
        let words = self.words.iter().chain(words).map(OsString::from);
        let mut shell = Command::new("sh");
        shell.args(["-c", commands]).arg(&self.program).args(words);
        shell.current_dir(folder).stdin(File::open(log).unwrap()).output().unwrap()
    }

    fn run(&self, folder: &Path, words: &[String]) -> Output {
        self.run_by(AS_IT_IS, folder, words)
    }

    /// What the files of these names should hold; an empty name is none.
    fn expected(&self, names: &[&str]) -> Files {
        let files = names.iter().zip([&self.dump.image, &self.dump.table]);
        files.filter(|(name, _)| !name.is_empty()).map(|(name, bytes)| (name.to_string(), bytes.clone())).collect()
    }

    /// How output, status or files are not as they should be. Files that are there already are longer than what is written.
    fn difference(&self, commands: &str, names: &[&str], there: bool) -> Option<String> {
        self.difference_of(commands, &words(names), names, there)
    }

    /// The same for these words, which name these files.
    fn difference_of(&self, commands: &str, words: &[String], names: &[&str], there: bool) -> Option<String> {
        let folder = Folder::new();
        let expected = self.expected(names);
        if there {
            expected.keys().for_each(|name| fs::write(folder.0.join(name), [0xAA; 20_000]).unwrap());
        }
        let Output { status, stdout, stderr } = self.run_by(commands, &folder.0, words);
        if status.code() != Some(0) || !stderr.is_empty() && !self.is_full() {
            return Some(format!("{status}, standard error {:?}", String::from_utf8_lossy(&stderr)));
        }
        if stdout != self.output {
            return Some("another output".into());
        }
        let files = folder.files();
        if files.keys().ne(expected.keys()) {
            return Some(format!("files {:?}", files.keys()));
        }
        files.iter().zip(expected.values()).find_map(|((name, bytes), expected)| {
            let at = bytes.iter().zip(expected).take_while(|(got, expected)| got == expected).count();
            (bytes != expected).then(|| format!("{name}: {} bytes, not {}, alike up to {at}", bytes.len(), expected.len()))
        })
    }

    /// Only `traffic` tells of a full log.
    fn is_full(&self) -> bool {
        !self.words.is_empty() && self.output.len() > log::LIMIT - 22
    }
}

// ---- the cases

/// An object's start.
const POINTER: u64 = 0x8010000000000020;

/// Small- and large-framed objects, written and in part freed, and refused calls between them.
fn show() -> Vec<u8> {
    let allocate = |size| Call::Allocate { size, type_number: 0x0201 };
    let calls = [allocate(10), allocate(300), allocate(2000), Call::Store { pointer: POINTER, width: 8, value: 0x0807_0605_0403_0201 }];
    let answers = log::answers(&calls);
    let more = [
        Call::Store { pointer: POINTER + 3, width: 8, value: 1 },
        allocate(9000),
        Call::Free { pointer: answers[1].values[0] },
        Call::Free { pointer: answers[1].values[0] },
        Call::Fill { pointer: answers[2].values[0], length: 2000, value: 0xEE },
        Call::Load { pointer: POINTER, width: 9 },
    ];
    let calls = [&calls[..], &more].concat();
    let refusals: Vec<_> = log::answers(&calls).iter().map(|answer| answer.refusal).collect();
    assert_eq!(refusals, [0, 0, 0, 0, 13, 8, 0, 11, 0, 14]);
    records(&calls)
}

fn replays() -> Vec<Case> {
    let show = show();
    let malformed = [&show[..], &[3, 0, 16, 0], &SAMPLE].concat();
    let beyond = records(&generate::log::calls(1, 6000));
    assert!(beyond.len() > log::LIMIT);
    let random = (2..30).map(|seed| records(&generate::log::calls(seed, 40 * seed as usize)));
    [Vec::new(), SAMPLE.to_vec(), show, malformed, beyond].into_iter().chain(random).map(Case::replay).collect()
}

fn loads() -> Vec<Case> {
    [(0, 1000), (0, 0), (1, 1), (7, 500), (u64::MAX, 30), (5, u64::MAX)].map(|(state, draws)| Case::traffic(state, draws)).into()
}

/// Table entries whose bytes are not the same in reverse are among what is compared, and images that are not fresh.
#[test]
fn dumps_differ() {
    for cases in [replays(), loads()] {
        assert!(cases.iter().any(|case| case.dump.table.chunks(8).any(|entry| entry[0] != 0 && entry[1] != 0)));
        assert!(cases.iter().filter(|case| case.dump != log::left(&[])).count() > cases.len() / 2);
        assert!(cases.iter().all(|case| (case.dump.image.len(), case.dump.table.len()) == (8192, 6144)));
    }
}

fn agrees(cases: &[Case], names: &[&str], there: bool) {
    for (i, case) in cases.iter().enumerate() {
        assert_eq!(case.difference(AS_IT_IS, names, there), None, "case {i} {:?}, {names:?}", case.words);
    }
}

#[test]
fn both_files() {
    for cases in [replays(), loads()] {
        agrees(&cases, &["image", "table"], false);
        agrees(&cases, &["image", "table"], true);
    }
}

/// The image alone, the table alone by an empty name, no file by empty names, and none at all.
#[test]
fn one_file_or_none() {
    for cases in [replays(), loads()] {
        for names in [&["image"][..], &["", "table"], &["image", ""], &[""], &["", ""], &[]] {
            agrees(&cases[..5], names, false);
        }
    }
}

/// The words in the other order, one of them alone, and, of `traffic`, without numbers before them or with one.
#[test]
fn other_words() {
    let mut loads = Vec::new();
    for (state, draws, numbers) in [(0, 1000, 0), (7, 1000, 1), (7, 500, 2)] {
        let mut case = Case::traffic(state, draws);
        case.words.truncate(numbers);
        loads.push(case);
    }
    for case in [Case::replay(SAMPLE.to_vec()), Case::replay(show())].iter().chain(&loads) {
        for (words, names) in [
            (&["TABLE=table", "IMAGE=image"][..], &["image", "table"][..]),
            (&["TABLE=table"], &["", "table"]),
            (&["TABLE=", "IMAGE=image"], &["image"]),
            (&["TABLE=IMAGE=", "IMAGE=TABLE="], &["TABLE=", "IMAGE="]),
        ] {
            let words: Vec<_> = words.iter().map(|word| word.to_string()).collect();
            assert_eq!(case.difference_of(AS_IT_IS, &words, names, false), None, "{:?}, {words:?}", case.words);
        }
    }
}

/// `replay` takes no other word for a file's, and refuses none.
#[test]
fn words_without_meaning() {
    let case = Case::replay(show());
    for words in [&["image"][..], &["image", "table"], &["", ""], &["image=x"], &["IMAGE"], &["IMAGE:x", "TABLE "], &["-h"], &["1", "2", "3", "4"]] {
        let words: Vec<_> = words.iter().map(|word| word.to_string()).collect();
        assert_eq!(case.difference_of(AS_IT_IS, &words, &[], false), None, "{words:?}");
    }
}

// ---- what cannot be written

/// The lines on standard error, of a run that is all right otherwise.
fn told(case: &Case, folder: &Path, names: &[&str]) -> Vec<String> {
    let Output { status, stdout, stderr } = case.run(folder, &words(names));
    assert!(stdout == case.output, "{names:?}");
    assert_eq!(status.code(), Some(0), "{names:?}");
    let text = String::from_utf8(stderr).unwrap();
    assert!(text.is_empty() || text.ends_with('\n'), "{text:?}");
    text.lines().map(str::to_string).collect()
}

/// A folder, one that is missing, a full device, names that are too long; whichever of the two files it is, the other is written.
#[test]
fn not_writable() {
    // the system's longest path has 4,095 bytes, and the longest name that is read 4,096
    let [path, word, longer] = [4095, 4096, 4097].map(|length| "x/".repeat(length).split_off(length));
    let name = "x".repeat(256);
    for case in [Case::replay(show()), Case::traffic(7, 500)] {
        for (name, line) in [
            (".", ".: Is a directory".to_string()),
            ("missing/image", "missing/image: No such file or directory".to_string()),
            ("/dev/full", "/dev/full: No space left on device".to_string()),
            (&name, format!("{name}: File name too long")),
            (&path, format!("{path}: No such file or directory")),
            (&word, format!("{word}: File name too long")),
            (&longer, "name of a dump: File name too long".to_string()),
        ] {
            // `traffic` reads no word that is longer, and refuses it
            if !case.words.is_empty() && name == longer {
                continue;
            }
            let folder = Folder::new();
            assert_eq!(told(&case, &folder.0, &[name, name]), [&line[..], &line]);
            assert!(folder.files().is_empty());
            assert_eq!(told(&case, &folder.0, &[name, "table"]), [&line[..]]);
            assert_eq!(told(&case, &folder.0, &["image", name]), [&line[..]]);
            assert!(folder.files() == case.expected(&["image", "table"]));
        }
    }
}

/// Of `traffic`: words behind the numbers that name no file, numbers behind those that do, too many, or a malformed number before
/// them: the usage, no output and no file.
#[test]
fn refused_arguments() {
    for words in [
        &["0", "10", "image"][..],
        &["0", "10", "image", "table"],
        &["0", "10", "image=x"],
        &["0", "10", "IMAGE"],
        &["0", "10", ""],
        &["0", "10", "IMAGE=image", "more"],
        &["0", "10", "IMAGE=image", ""],
        &["0", "10", "IMAGE=image", "TABLE=table", "more"],
        &["0", "10", "IMAGE=image", "TABLE=table", ""],
        &["IMAGE=image", "10"],
        &["0", "IMAGE=image", "10"],
        &["IMAGE=image", "TABLE=table", "0", "10"],
        &["x", "10", "IMAGE=image", "TABLE=table"],
        &["x", "IMAGE=image"],
        &["0", "x", "IMAGE=image"],
        &["0", "10", &format!("IMAGE={}", "x".repeat(4097))],
    ] {
        let folder = Folder::new();
        let case = Case { words: Vec::new(), ..Case::traffic(0, 10) };
        let words: Vec<_> = words.iter().map(|word| word.to_string()).collect();
        let Output { status, stdout, stderr } = case.run(&folder.0, &words);
        let told = String::from_utf8(stderr).unwrap();
        assert!(told.starts_with("usage: traffic [STATE [DRAWS]] [IMAGE=file] [TABLE=file]"), "{told:?}");
        assert!(told.ends_with('\n') && told.lines().count() == 1, "{told:?}");
        assert!(status.success() && stdout.is_empty() && folder.files().is_empty(), "{words:?}");
    }
}

// ---- the comparison itself

#[test]
fn faults_are_found() {
    for case in [Case::replay(show()), Case::traffic(7, 500)] {
        let find = |commands| case.difference(commands, &["image", "table"], false);
        assert_eq!(find("\"$0\" \"$@\""), None);
        for commands in [
            "\"$0\" \"$@\"; mv image kept; mv table image; mv kept table",
            "\"$0\" \"$@\"; exit 1",
            "\"$0\" \"$@\"; echo >&2",
            "\"$0\" \"$@\"; echo",
            "\"$0\" \"$@\"; rm table",
            "\"$0\" \"$@\"; echo >more",
            "\"$0\" \"$@\"; echo >>image",
            "\"$0\" \"$@\"; truncate -s 8191 image",
            "\"$0\" \"$@\"; printf x | dd of=image bs=1 seek=40 conv=notrunc status=none",
            "\"$0\" \"$@\"; printf x | dd of=table bs=1 seek=6143 conv=notrunc status=none",
            "\"$0\" \"$@\"; truncate -s 6136 table",
        ] {
            assert!(find(commands).is_some(), "not found: {commands}");
        }
    }
}

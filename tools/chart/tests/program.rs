//! The program itself: its statuses, what it says of files that are no dumps, and that it never panics.

mod common;

use common::{damage, folder, noise, rig, sample, table_bytes, Random};
use cue_chart::object::Object;
use cueledger::{Block, Kind};
use std::fs;
use std::io::{Read, Seek, SeekFrom, Write};
use std::path::Path;
use std::process::{Child, Command, Output, Stdio};
use std::time::{Duration, Instant};

fn run(folder: &Path, words: &[&str]) -> Output {
    Command::new(env!("CARGO_BIN_EXE_cue-chart")).args(words).current_dir(folder).output().unwrap()
}

fn said(output: &Output) -> String {
    String::from_utf8_lossy(&output.stderr).into_owned()
}

fn rig_folder(name: &str) -> std::path::PathBuf {
    let folder = folder(name);
    let (image, table) = rig::dumps().unwrap();
    fs::write(folder.join("image"), image).unwrap();
    fs::write(folder.join("table"), table_bytes(&table)).unwrap();
    folder
}

#[test]
fn wrong_arguments() {
    let folder = rig_folder("wrong_arguments");
    let cases: [&[&str]; 14] = [
        &[],
        &["draw", "image"],
        &["show"],
        &["show", "image", "table", "more"],
        &["svg"],
        &["compare", "image"],
        &["compare", "image", "image", "image"],
        &["pointer", "image", "table"],
        &["pointer", "image", "table", "0x"],
        &["pointer", "image", "table", ""],
        &["pointer", "image", "table", "+5"],
        &["pointer", "image", "table", "0x-5"],
        &["pointer", "image", "table", "18446744073709551616"],
        &["--help", "image"],
    ];
    for words in cases {
        let output = run(&folder, words);
        assert_eq!(output.status.code(), Some(2), "{words:?}");
        assert!(said(&output).starts_with("usage: cue-chart show IMAGE [TABLE]") && output.stdout.is_empty(), "{words:?}");
    }
    let help = run(&folder, &["--help"]);
    assert_eq!(help.status.code(), Some(0));
    assert!(help.stdout.starts_with(b"usage: ") && help.stderr.is_empty());
}

#[test]
fn pointers_in_decimal_and_hexadecimal() {
    let folder = rig_folder("numbers");
    let answers = ["0x8010000000000020", "0X8010000000000020", "9227875636482146336"].map(|number| run(&folder, &["pointer", "image", "table", number]));
    assert!(answers.iter().all(|answer| answer.status.code() == Some(0) && answer.stdout == answers[0].stdout));
    assert_eq!(run(&folder, &["pointer", "image", "table", "18446744073709551615"]).status.code(), Some(1));
}

/// Files that are no dumps: the reason on standard error, and status 1.
#[test]
fn no_dumps() {
    let folder = rig_folder("no_dumps");
    let image = fs::read(folder.join("image")).unwrap();
    let table = fs::read(folder.join("table")).unwrap();
    let write = |name: &str, bytes: &[u8]| fs::write(folder.join(name), bytes).unwrap();
    write("empty", b"");
    write("cut", &image[..1000]);
    write("text", b"Winch 4 is down. Winch 5 is up. Winch 6 is down. Winch 7 is gone.");
    write("odd", &table[1..]);
    write("short", &table[8..]);
    fs::create_dir(folder.join("folder")).unwrap();
    let cases: [(&[&str], &str); 10] = [
        (&["show", "empty"], "empty: no image: superblock not as laid out (4): 0 bytes are under the superblock's 16"),
        (&["svg", "cut", "table"], "cut: no image: superblock not as laid out (4): its L = 1024 is not the dump's length, 1000"),
        (
            &["compare", "image", "text"],
            "text: no image: superblock not as laid out (4): its length 1668180311 is not 16; its kind 8296 is not 3; its s = 8244",
        ),
        (&["compare", "empty", "image"], "empty: no image"),
        (&["pointer", "text", "table", "0"], "text: no image"),
        (&["show", "image", "odd"], "odd: no table: 3,071 bytes are not whole entries of 8"),
        (&["show", "image", "short"], "short: table shorter than the used entries (5): it has 383, the image uses 384"),
        (&["show", "absent"], "absent: No such file"),
        (&["show", "image", "absent"], "absent: No such file"),
        (&["show", "folder"], "folder: Is a directory"),
    ];
    for (words, reason) in cases {
        let output = run(&folder, words);
        assert_eq!(output.status.code(), Some(1), "{words:?}");
        assert!(said(&output).starts_with(&format!("cue-chart: {reason}")), "{words:?}: {}", said(&output));
        assert!(output.stdout.is_empty(), "{words:?}");
    }
}

/// A longer table is as good; its further entries are not looked at.
#[test]
fn longer_table() {
    let folder = rig_folder("longer_table");
    let mut table = fs::read(folder.join("table")).unwrap();
    table.extend([0xff; 24]);
    fs::write(folder.join("longer"), table).unwrap();
    let [usual, longer] = ["table", "longer"].map(|table| run(&folder, &["show", "image", table]));
    assert_eq!(longer.status.code(), Some(0));
    assert_eq!(usual.stdout, longer.stdout);
}

/// A file of more than 2^30 bytes is no image; no more of it is read. The file has no blocks on the disk.
#[test]
fn longer_than_any_image() {
    let folder = folder("long");
    fs::File::create(folder.join("long")).unwrap().set_len((1 << 30) + 5).unwrap();
    let output = run(&folder, &["show", "long"]);
    assert_eq!(said(&output), "cue-chart: long: no image: more than 2^30 bytes: superblock not as laid out (4)\n");
}

/// An image of 2^30 bytes and 100,000 blocks, and its table; on the disk it has few bytes.
fn write_largest(folder: &Path, s: u32) {
    const LENGTH: u32 = 1 << 30;
    const BLOCKS: u32 = 100_000;
    let header = |extent: u32, kind: u32, size: u32| [extent, kind, size, 12].map(u32::to_le_bytes).concat();
    let mut image = [16, 3 | s << 16, LENGTH, 0].map(u32::to_le_bytes).concat();
    let mut table = vec![0; cueledger::Store::table_entries(LENGTH as usize, s)];
    for nth in 0..BLOCKS {
        let place = image.len() as u32;
        let size = if nth + 1 < BLOCKS { nth % 50 } else { LENGTH - place - 16 };
        let block = Block { place: place as usize, extent: 16 + size, kind: Kind::Live, type_number: 0, size, cue: 12 };
        if let Some(entry) = Object::of(block, s).entry {
            table[entry] = place.into();
        }
        image.extend(header(block.extent, 2, size));
        image.resize(image.len() + if nth + 1 < BLOCKS { size as usize } else { 0 }, 1);
    }
    fs::write(folder.join("image"), image).unwrap();
    fs::OpenOptions::new().write(true).open(folder.join("image")).unwrap().set_len(LENGTH.into()).unwrap();
    fs::write(folder.join("table"), table_bytes(&table)).unwrap();
}

/// The most memory that a running process has had, in bytes.
fn peak(child: &Child) -> u64 {
    let status = fs::read_to_string(format!("/proc/{}/status", child.id())).unwrap();
    let line = status.lines().find_map(|line| line.strip_prefix("VmHWM:")).unwrap();
    1024 * line.trim().trim_end_matches(" kB").parse::<u64>().unwrap()
}

/// It takes seconds, and less memory than the dumps twice; zeros lent for a table take none.
#[test]
fn largest_image() {
    let folder = folder("largest");
    write_largest(&folder, 15);
    let start = Instant::now();
    let output = run(&folder, &["show", "image", "table"]);
    assert!(start.elapsed() < Duration::from_secs(30), "{:?}", start.elapsed());
    assert_eq!((output.status.code(), said(&output).as_str()), (Some(0), ""));
    assert_eq!(output.stdout.split(|&byte| byte == b'\n').filter(|line| line.windows(6).any(|word| word == b" live ")).count(), 100_001);
    let picture = run(&folder, &["svg", "image", "table"]);
    assert!(picture.status.success() && picture.stdout.len() < 100_000, "{}", picture.stdout.len());

    // 3 GiB of zeros for s = 6
    let mut image = fs::OpenOptions::new().write(true).open(folder.join("image")).unwrap();
    image.seek(SeekFrom::Start(6)).unwrap();
    image.write_all(&[6]).unwrap();
    let program = env!("CARGO_BIN_EXE_cue-chart");
    let mut child = Command::new(program).args(["show", "image"]).current_dir(&folder).stdout(Stdio::piped()).spawn().unwrap();
    // it has walked the blocks when it writes, and its list is longer than a pipe holds
    child.stdout.as_mut().unwrap().read_exact(&mut [0]).unwrap();
    let peak = peak(&child);
    assert!((1 << 30..5 << 28).contains(&peak), "{peak}");
    drop(child.stdout.take());
    child.wait().unwrap();
    fs::remove_dir_all(folder).unwrap();
}

/// Whoever reads the output may stop.
#[test]
fn closed_pipe() {
    let folder = folder("closed_pipe");
    // 3,000 lines, more than a pipe holds
    let (mut image, mut table) = (vec![0; 1 << 17], vec![0; cueledger::Store::table_entries(1 << 17, 6)]);
    let mut store = cueledger::Store::set_up(&mut image, &mut table, 6).unwrap();
    for size in 0..3000 {
        store.allocate(size % 20, 0).unwrap();
    }
    fs::write(folder.join("image"), &image).unwrap();
    fs::write(folder.join("table"), table_bytes(&table)).unwrap();
    for command in ["show", "svg"] {
        let program = env!("CARGO_BIN_EXE_cue-chart");
        let mut child =
            Command::new(program).args([command, "image", "table"]).current_dir(&folder).stdout(Stdio::piped()).stderr(Stdio::piped()).spawn().unwrap();
        drop(child.stdout.take());
        let output = child.wait_with_output().unwrap();
        assert_eq!((output.status.code(), said(&output).as_str()), (Some(1), ""), "{command}");
    }
}

/// A full disk is told.
#[test]
fn full_disk() {
    let folder = rig_folder("full_disk");
    let full = fs::OpenOptions::new().write(true).open("/dev/full").unwrap();
    let output = Command::new(env!("CARGO_BIN_EXE_cue-chart")).args(["show", "image"]).current_dir(&folder).stdout(full).output().unwrap();
    assert_eq!(output.status.code(), Some(1));
    assert!(said(&output).starts_with("cue-chart: standard output: "), "{}", said(&output));
}

/// Noise, damaged stores and files cut short: 0 or 1, and no panic.
#[test]
fn never_panics() {
    let folder = folder("never_panics");
    let mut random = Random(7);
    let mut statuses = [0; 2];
    for nth in 0..120 {
        let mut dumps = sample(&mut random, 3000);
        if nth % 6 != 2 {
            damage(&mut random, &mut dumps);
        }
        let mut table = table_bytes(&dumps.table);
        let mut image = if nth % 3 == 0 { noise(&mut random) } else { dumps.image };
        if nth % 3 == 1 {
            image.truncate(random.below(image.len()));
            table.truncate(random.below(table.len()));
        }
        fs::write(folder.join("image"), image).unwrap();
        fs::write(folder.join("table"), table).unwrap();
        let pointer = format!("{:#x}", random.word() & 0x801f_0000_0000_0fff);
        let commands: [&[&str]; 5] = [
            &["show", "image", "table"],
            &["show", "image"],
            &["svg", "image", "table"],
            &["compare", "image", "image"],
            &["pointer", "image", "table", &pointer],
        ];
        for words in commands {
            let output = run(&folder, words);
            let status = output.status.code().unwrap_or_else(|| panic!("{words:?} was killed"));
            assert!(status < 2 && !said(&output).contains("panicked"), "{words:?}: {status} {}", said(&output));
            statuses[status as usize] += 1;
        }
    }
    assert!(statuses.iter().all(|&count| count > 50), "{statuses:?}");
}

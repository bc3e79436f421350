//! What the program prints for the rig, and for a damaged one, against files; README's picture is one of them. `CUE_CHART_BLESS=1` writes them.

mod common;

use common::{folder, rig, table_bytes, xml};
use std::path::{Path, PathBuf};
use std::process::Command;

const ROOT: &str = concat!(env!("CARGO_MANIFEST_DIR"), "/../..");

fn golden(name: &str) -> PathBuf {
    Path::new(env!("CARGO_MANIFEST_DIR")).join("tests/golden").join(name)
}

/// The folder of the rig's dumps, of the same with a broken header at 279 and a lost entry, and of one that another cue has ended in.
fn dumps(name: &str) -> PathBuf {
    let folder = folder(name);
    let (mut image, mut table) = rig::dumps().unwrap();
    let write = |name: &str, bytes: &[u8]| std::fs::write(folder.join(name), bytes).unwrap();
    write("rig.image", &image);
    write("rig.table", &table_bytes(&table));
    let (mut damaged, mut lost) = (image.clone(), table.clone());
    damaged[279] = 9;
    lost[0] = 77;
    write("damaged.image", &damaged);
    write("lost.table", &table_bytes(&lost));
    let mut store = cueledger::Store::open(&mut image, &mut table).unwrap();
    store.release(13).unwrap();
    store.fill(0x8010_0000_0000_0022.into(), 3, 9).unwrap();
    write("later.image", &image);
    folder
}

fn prints(folder: &Path, words: &[&str]) -> (i32, String) {
    let output = Command::new(env!("CARGO_BIN_EXE_cue-chart")).args(words).current_dir(folder).output().unwrap();
    assert_eq!(String::from_utf8_lossy(&output.stderr), "", "{words:?}");
    (output.status.code().unwrap(), String::from_utf8(output.stdout).unwrap())
}

fn compare(folder: &Path, words: &[&str], status: i32, file: &Path) {
    let (found, text) = prints(folder, words);
    assert_eq!(found, status, "{words:?}");
    if std::env::var_os("CUE_CHART_BLESS").is_some() {
        std::fs::write(file, &text).unwrap();
    }
    let expected = std::fs::read_to_string(file).unwrap_or_default();
    let differing = text.lines().zip(expected.lines()).position(|(found, expected)| found != expected);
    assert!(text == expected, "{words:?}: not as {}, from its line {:?} on:\n{text}", file.display(), differing.map(|line| line + 1));
}

#[test]
fn texts() {
    let folder = dumps("texts");
    let cases: [(&[&str], i32, &str); 9] = [
        (&["show", "rig.image", "rig.table"], 0, "rig.txt"),
        (&["show", "rig.image"], 0, "no_table.txt"),
        (&["show", "damaged.image", "rig.table"], 1, "damaged.txt"),
        (&["show", "rig.image", "lost.table"], 1, "lost.txt"),
        (&["compare", "rig.image", "later.image"], 1, "compare.txt"),
        (&["compare", "rig.image", "damaged.image"], 1, "compare_damaged.txt"),
        (&["pointer", "rig.image", "rig.table", "0x000700000000003a"], 0, "pointer.txt"),
        (&["pointer", "rig.image", "rig.table", "0x8010000000000040"], 1, "pointer_small.txt"),
        (&["pointer", "rig.image", "lost.table", "1970324836974650"], 1, "pointer_lost.txt"),
    ];
    for (words, status, file) in cases {
        compare(&folder, words, status, &golden(file));
    }
    assert_eq!(prints(&folder, &["compare", "rig.image", "rig.image"]), (0, "rig.image and rig.image are equal: 1,024 bytes\n".to_string()));
}

#[test]
fn pictures() {
    let folder = dumps("pictures");
    compare(&folder, &["svg", "rig.image", "rig.table"], 0, &Path::new(ROOT).join("docs/chart.svg"));
    compare(&folder, &["svg", "damaged.image", "lost.table"], 1, &golden("damaged.svg"));
    for words in [["svg", "rig.image", "rig.table"], ["svg", "damaged.image", "lost.table"]] {
        xml::check(&prints(&folder, &words).1).unwrap();
    }
}

/// The rig begins with the buffers that `make run` has shown: their pointers are in what its program prints.
#[test]
fn begins_as_the_examples() {
    let examples = std::fs::read_to_string(Path::new(ROOT).join("crates/examples/stdout")).unwrap();
    let (mut image, _) = rig::dumps().unwrap();
    let s = cue_chart::dump::slot_exponent(&mut image).unwrap();
    let first = cueledger::Blocks::new(&image).flatten().take(4).map(|block| cue_chart::object::Object::of(block, s));
    for object in first {
        let printed = format!("pointer {:#018x}, ", u64::from(object.pointer));
        assert!(examples.contains(&printed), "{printed}");
    }
}

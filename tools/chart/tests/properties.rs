//! On thousands of stores, damaged ones and noise: no panic, and what is said agrees with the proved library.

mod common;

use common::{chart, damage, noise, sample, xml, Random, Sample};
use cue_chart::compare::{self, Side};
use cue_chart::dump::slot_exponent;
use cue_chart::image::{block_at, header_reasons, superblock_reasons};
use cue_chart::pointer::{self, Reading};
use cue_chart::progress::Progress;
use cue_chart::summary::Summary;
use cue_chart::{show, svg};
use cueledger::{Pointer, Refusal, Tally};
use std::collections::BTreeMap;

/// Good stores, damaged ones and noise, in turn.
fn any(random: &mut Random, nth: usize) -> Sample {
    if nth % 3 == 2 {
        return Sample { image: noise(random), table: (0..random.below(60)).map(|_| random.word() >> random.below(64)).collect(), live: Vec::new() };
    }
    let longest = random.pick(&[64, 1000, 5000, 40_000]);
    let mut sample = sample(random, longest);
    if nth % 3 == 1 {
        damage(random, &mut sample);
    }
    sample
}

fn shown(chart: &cue_chart::dump::Chart) -> (bool, String) {
    let mut text = Vec::new();
    let sound = show::write(chart, &mut text, &mut Progress::none()).unwrap();
    (sound, String::from_utf8(text).unwrap())
}

fn drawn(chart: &cue_chart::dump::Chart) -> (bool, String) {
    let mut text = Vec::new();
    let sound = svg::write(chart, &mut text).unwrap();
    (sound, String::from_utf8(text).unwrap())
}

/// Reasons are found exactly where the library, or the wrapper's walk, finds something.
#[test]
fn reasons() {
    let mut random = Random(1);
    let (mut no_images, mut unsound) = (0, 0);
    for nth in 0..6000 {
        let mut image = any(&mut random, nth).image;
        let good = slot_exponent(&mut image).is_ok();
        assert_eq!(superblock_reasons(&image).is_empty(), good);
        no_images += u32::from(!good);
        let damaged = cueledger::Blocks::new(&image).find_map(Result::err);
        unsound += u32::from(damaged.is_some());
        let walked = cueledger::Blocks::new(&image).flatten().map(|block| block.place as u64);
        assert!(walked.into_iter().all(|place| header_reasons(&image, place).is_empty()));
        if let Some(damaged) = damaged {
            assert!(!header_reasons(&image, damaged.place as u64).is_empty());
        }
        for _ in 0..50 {
            let any = random.word();
            let place = random.pick(&[any % (image.len() as u64 + 40), any]);
            assert_eq!(header_reasons(&image, place).is_empty(), block_at(&image, place).is_some(), "place {place}");
        }
        let mut table = Vec::new();
        if let Some(chart) = chart(&mut image, &mut table, false) {
            assert_eq!(chart.store.tally().err(), damaged.map(Refusal::from));
        }
    }
    assert!(no_images > 100 && unsound > 1000, "{no_images} {unsound}");
}

/// Each field of a superblock at the ends of its range, and short images.
#[test]
fn superblocks() {
    let mut good = 0;
    for length in 0..70u32 {
        for (field, kind, s, stored) in
            [(16, 3, 6, length), (16, 3, 15, length), (15, 3, 6, length), (16, 4, 6, length), (16, 3, 5, length), (16, 3, 16, length), (16, 3, 6, length + 1)]
        {
            let mut image = vec![field, 0, 0, 0, kind, 0, s, 0];
            image.extend(stored.to_le_bytes());
            image.resize(length as usize, 0);
            let reasons = superblock_reasons(&image);
            assert_eq!(reasons.is_empty(), slot_exponent(&mut image).is_ok(), "{image:?}: {reasons:?}");
            good += u32::from(reasons.is_empty());
        }
    }
    assert_eq!(good, 2 * 6);
}

/// Headers of likely numbers at any place: every branch of the reasons.
#[test]
fn any_header() {
    let mut random = Random(2);
    let mut sound = 0;
    for _ in 0..200_000 {
        let any = random.word();
        let extent = random.pick(&[0, 9, 15, 16, 17, 20, 31, 32, 33, 47, 48, 49, any as u32]);
        let kind = random.pick(&[0u16, 1, 1, 2, 2, 3, 258]);
        let type_number = random.pick(&[0, 0, 1, any as u16]);
        let [size, cue] = [0, 1].map(|_| random.pick(&[0, 0, 0, 1, 4, 16, 17, 32, any as u32]));
        let mut image = [0; 64];
        let place = 16 + random.below(33);
        image[place..place + 4].copy_from_slice(&extent.to_le_bytes());
        image[place + 4..place + 6].copy_from_slice(&kind.to_le_bytes());
        image[place + 6..place + 8].copy_from_slice(&type_number.to_le_bytes());
        image[place + 8..place + 12].copy_from_slice(&size.to_le_bytes());
        image[place + 12..place + 16].copy_from_slice(&cue.to_le_bytes());
        let reasons = header_reasons(&image, place as u64);
        assert_eq!(reasons.is_empty(), block_at(&image, place as u64).is_some(), "{image:?}");
        sound += u32::from(reasons.is_empty());
    }
    assert!(sound > 5000, "{sound}");
}

/// The step that fails and the library's refusal agree, for pointers of objects, changed ones and others.
#[test]
fn pointers() {
    let mut random = Random(3);
    let mut last_steps = BTreeMap::new();
    for nth in 0..6000 {
        let Sample { mut image, mut table, live } = any(&mut random, nth);
        let Some(chart) = chart(&mut image, &mut table, true) else { continue };
        for _ in 0..40 {
            let mut number = if live.is_empty() { random.word() } else { u64::from(random.pick(&live)) };
            match random.below(6) {
                0 => number ^= 1 << random.below(64),
                1 => number = number.wrapping_add(random.word() >> (16 + random.below(48))),
                2 => number = random.word() & 0x801f_0000_0000_ffff,
                3 => number = random.word(),
                4 => number = number & 0xffff_0000_0000_0000 | random.below(chart.image().len()) as u64,
                _ => {}
            }
            let pointer = Pointer::from(number);
            let reading = Reading::of(&chart, pointer);
            assert_eq!(reading.refusal, chart.store.distances(pointer).err(), "{number:#x}: {reading:?}");
            let last = reading.steps.last().unwrap().name;
            *last_steps.entry((last, reading.refusal.map(Refusal::number))).or_insert(0) += 1;
            let mut text = Vec::new();
            assert_eq!(pointer::write(&chart, pointer, &mut text).unwrap(), reading.refusal.is_none());
        }
    }
    let dangling = ["entry", "frame", "its frame", "live", "own tag", "slot", "sound"].map(|name| (name, Some(11)));
    for end in dangling.into_iter().chain([("tag", Some(10)), ("its frame", None)]) {
        assert!(last_steps.contains_key(&end), "no pointer ended at {end:?}: {last_steps:?}");
    }
}

/// Every chart is made, and calls sound exactly what the library finds nothing in.
#[test]
fn charts() {
    let mut random = Random(4);
    let (mut sound_ones, mut others) = (0, 0);
    for nth in 0..3000 {
        let Sample { mut image, mut table, live } = any(&mut random, nth);
        let Some(chart) = chart(&mut image, &mut table, nth % 2 == 0) else { continue };
        let (sound, text) = shown(&chart);
        let (also_sound, picture) = drawn(&chart);
        assert_eq!(sound, also_sound);
        let elements = xml::check(&picture).unwrap();
        let total = chart.store.tally().is_ok_and(|tally| chart.store.free_total() == Ok(tally.free_bytes));
        assert!(!sound || total);
        if nth % 3 == 0 {
            assert!(sound, "{text}");
            assert_eq!(text.lines().filter(|line| line.contains(" live ") && !line.contains('%')).count(), live.len(), "{text}");
            // each object's own pointer is listed
            let listed = |pointer: &Pointer| text.contains(&format!("{:#018x}", u64::from(*pointer)));
            assert!(!chart.has_table || live.iter().all(listed));
        }
        if let Ok(tally) = chart.store.tally() {
            areas(&elements, &tally, chart.image().len());
            letters(&text, &tally, chart.image().len());
        }
        sound_ones += u32::from(sound);
        others += u32::from(!sound);
    }
    assert!(sound_ones > 500 && others > 500, "{sound_ones} {others}");
}

/// Where a byte is a pixel or more, the drawn widths are the bytes that the library counts.
fn areas(elements: &[xml::Element], tally: &Tally, length: usize) {
    let row = (length.next_power_of_two() / 32).max(64);
    let mut bytes: BTreeMap<&str, f64> = BTreeMap::new();
    // the legend has its own swatches, in groups without an address
    let mut in_row = false;
    for element in elements {
        in_row = match element.name.as_str() {
            "g" => false,
            "text" if element.get("class") == Some("address") => true,
            _ => in_row,
        };
        let class = element.get("class").unwrap_or_default().split(' ').next().unwrap_or_default();
        let filled = ["superblock", "header", "spare", "freeheader", "free", "unread"].contains(&class) || class.starts_with('c');
        if element.name == "path" && in_row && filled {
            let widths = xml::rectangles(element.get("d").unwrap()).unwrap();
            assert!(widths.iter().all(|&(at, width)| at >= 0.0 && width > 0.0 && at + width <= 1024.01));
            *bytes.entry(if class.starts_with('c') { "body" } else { class }).or_default() += widths.iter().map(|width| width.1).sum::<f64>();
        }
    }
    let of = |class: &str| bytes.get(class).copied().unwrap_or(0.0) * row as f64 / 1024.0;
    if row <= 1024 && !elements.iter().any(|element| element.get("class") == Some("together")) {
        assert_eq!(of("superblock"), 16.0);
        assert_eq!(of("body"), tally.live_bytes as f64);
        assert_eq!(of("header") + of("spare"), tally.overhead_bytes as f64);
        assert_eq!(of("freeheader") + of("free"), tally.free_bytes as f64);
    } else {
        let all: f64 = bytes.keys().map(|class| of(class)).sum();
        assert!((all - length as f64).abs() < length as f64 / 1000.0 + 16.0, "{all} of {length}");
    }
}

/// Blocks of half a pixel are drawn together, and none is left out.
#[test]
fn dense() {
    let (length, s) = (1 << 20, 15);
    let (mut image, mut table) = (vec![0; length], vec![0; cueledger::Store::table_entries(length, s)]);
    let mut store = cueledger::Store::set_up(&mut image, &mut table, s).unwrap();
    for nth in 0..3000 {
        store.allocate(nth % 3, 0).unwrap();
    }
    let chart = chart(&mut image, &mut table, true).unwrap();
    let elements = xml::check(&drawn(&chart).1).unwrap();
    areas(&elements, &chart.store.tally().unwrap(), length);
    let together = elements.iter().filter(|element| element.get("class") == Some("together") && element.get("d") != Some("M0 0h28v18h-28z"));
    let widths: Vec<_> = together.flat_map(|element| xml::rectangles(element.get("d").unwrap()).unwrap()).map(|(_, width)| width).collect();
    // 3,000 blocks of 17 bytes are 1,593 pixels
    assert!((1590.0..1594.0).contains(&widths.iter().sum::<f64>()), "{widths:?}");
    assert!(widths.len() > 100 && widths.iter().filter(|&&width| width < 4.0).count() <= 2, "{widths:?}");
}

/// Where a character is a byte, there are as many of each as the library counts.
fn letters(text: &str, tally: &Tally, length: usize) {
    if length > 2048 {
        return;
    }
    let (_, map) = text.split_once("Map: a character for 1 byte;").unwrap();
    let rows: String = map.lines().skip(1).take(length.div_ceil(64)).map(|row| row.trim_start().split_once(' ').unwrap().1).collect();
    let count = |marks: &str| rows.chars().filter(|&mark| marks.contains(mark)).count() as u64;
    assert_eq!(count("S"), 16);
    assert_eq!(count("#-"), tally.overhead_bytes, "{text}");
    assert_eq!(count(".:"), tally.free_bytes);
    assert_eq!(count("+abcdefghijklmnopqrstuvwxyz"), tally.live_bytes);
}

/// Sums by cue are those of the library: releasing the cue frees as many objects.
#[test]
fn cues() {
    let mut random = Random(5);
    for _ in 0..500 {
        let Sample { mut image, mut table, .. } = sample(&mut random, 5000);
        let (sums, tally) = {
            let chart = chart(&mut image, &mut table, true).unwrap();
            (Summary::of(&chart).cues().collect::<Vec<_>>(), chart.store.tally().unwrap())
        };
        assert!(sums.is_sorted_by(|a, b| a.cue < b.cue));
        assert_eq!(sums.iter().map(|sum| sum.objects).sum::<u64>(), tally.objects);
        let mut store = cueledger::Store::open(&mut image, &mut table).unwrap();
        for sum in sums {
            let before = store.tally().unwrap().live_bytes;
            assert_eq!(store.release(sum.cue), Ok(sum.objects));
            assert_eq!(before - store.tally().unwrap().live_bytes, sum.bytes);
        }
        assert_eq!(store.tally().unwrap().objects, 0);
    }
}

/// Two images are called equal exactly when they are; a changed byte is where the first difference is told.
#[test]
fn compares() {
    let mut random = Random(6);
    let mut differing = 0;
    for nth in 0..3000 {
        let first = any(&mut random, nth).image;
        let mut second = if random.below(4) == 0 { any(&mut random, nth).image } else { first.clone() };
        if !second.is_empty() && random.below(3) > 0 {
            let at = random.below(second.len());
            second[at] ^= 1 << random.below(8);
        }
        let mut text = Vec::new();
        let (a, b) = (Side { name: "a", image: &first }, Side { name: "b", image: &second });
        let same = compare::write(a, b, &mut text, &mut Progress::none()).unwrap();
        let text = String::from_utf8(text).unwrap();
        assert_eq!(text.starts_with("a and b are equal"), first == second);
        assert!(!same || first == second);
        if first != second {
            let longer = first.len().max(second.len());
            let at = (0..longer).find(|&at| first.get(at) != second.get(at)).unwrap();
            assert_eq!(text.lines().next(), Some(format!("a and b differ, first at {at}").as_str()));
            differing += 1;
        }
    }
    assert!(differing > 1000);
}

/// Entries that no object has are told: eight of them, and how many more there are.
#[test]
fn stale_entries() {
    let (mut image, mut table) = common::rig::dumps().unwrap();
    table[300..311].fill(16);
    let chart = chart(&mut image, &mut table, true).unwrap();
    let (sound, text) = shown(&chart);
    assert!(!sound);
    assert_eq!(text.lines().filter(|line| line.ends_with("holds 16, and no object there has this entry.")).count(), 8);
    assert!(text.contains("Entry 300 holds 16, ") && text.contains("So it is with 3 more entries."), "{text}");
}

/// The checker of pictures refuses broken ones.
#[test]
fn broken_pictures() {
    let (mut image, mut table) = common::rig::dumps().unwrap();
    let (_, good) = drawn(&chart(&mut image, &mut table, true).unwrap());
    xml::check(&good).unwrap();
    let breaks: [(&str, &str); 14] = [
        ("</svg>", ""),
        ("</svg>", "</svg><svg/>"),
        ("</svg>", "</svg>x"),
        ("</g>", ""),
        ("<g ", "<g <g "),
        ("<text ", "<1text "),
        ("x=\"110\"", "x=110"),
        ("x=\"110\"", "x=\"110\" x=\"110\""),
        ("x=\"110\"", "x=\"110"),
        ("superblock</text>", "super&block</text>"),
        ("superblock</text>", "super&nbsp;block</text>"),
        ("superblock</text>", "super\u{1}block</text>"),
        (".header{", ".other{"),
        ("id=\"p0\"", "id=\"q0\""),
    ];
    for (from, to) in breaks {
        assert!(good.contains(from), "{from}");
        assert!(xml::check(&good.replacen(from, to, 1)).is_err(), "{from} replaced by {to}");
    }
    for end in 0..good.len() - 2 {
        assert!(xml::check(&good[..end]).is_err(), "cut at {end}");
    }
}

/// A name may have anything in it.
#[test]
fn names_are_escaped() {
    let (mut image, mut table) = common::rig::dumps().unwrap();
    let s = slot_exponent(&mut image).unwrap();
    let name = "a<b>&\"'\u{7}\u{fffe}]]>.image";
    let chart = cue_chart::dump::Chart::open(name, &mut image, &mut table, s, true).unwrap();
    let elements = xml::check(&drawn(&chart).1).unwrap();
    let title = elements.iter().find(|element| element.get("class") == Some("title")).unwrap();
    assert_eq!(title.text.trim(), "a<b>&\"'\u{fffd}\u{fffd}]]>.image");
}

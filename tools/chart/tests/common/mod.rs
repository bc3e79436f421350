//! Stores, damage and files for the tests.
#![allow(dead_code)] // each test program uses some of it

pub mod xml;

#[path = "../../examples/rig.rs"]
pub mod rig;

use cue_chart::dump::{slot_exponent, Chart};
use cueledger::{Pointer, Store};
use std::path::PathBuf;

/// splitmix64.
pub struct Random(pub u64);

impl Random {
    pub fn word(&mut self) -> u64 {
        self.0 = self.0.wrapping_add(0x9e37_79b9_7f4a_7c15);
        let mut z = self.0;
        z = (z ^ (z >> 30)).wrapping_mul(0xbf58_476d_1ce4_e5b9);
        z = (z ^ (z >> 27)).wrapping_mul(0x94d0_49bb_1331_11eb);
        z ^ (z >> 31)
    }

    /// 0 to bound - 1.
    pub fn below(&mut self, bound: usize) -> usize {
        (self.word() % bound as u64) as usize
    }

    pub fn pick<T: Copy>(&mut self, from: &[T]) -> T {
        from[self.below(from.len())]
    }
}

/// An image, its table, and the pointers of its objects.
pub struct Sample {
    pub image: Vec<u8>,
    pub table: Vec<u64>,
    pub live: Vec<Pointer>,
}

/// What some allocates, frees and fills leave.
pub fn sample(random: &mut Random, longest: usize) -> Sample {
    let length = 64 + random.below(longest - 63);
    let s = 6 + random.below(10) as u32;
    let (mut image, mut table) = (vec![0; length], vec![0; Store::table_entries(length, s)]);
    let mut store = Store::set_up(&mut image, &mut table, s).unwrap();
    let (mut live, largest, cues) = (Vec::new(), random.pick(&[2, 40, 300, 3000]), random.pick(&[1, 4, 40]));
    for _ in 0..random.below(60) {
        let size = random.below(largest) as u32;
        if let Ok(pointer) = store.allocate_for(size, random.word() as u16, random.below(cues) as u32) {
            live.push(pointer);
            if size > 0 {
                store.fill(pointer, size, random.word() as u8).unwrap();
            }
        }
        if !live.is_empty() && random.below(3) == 0 {
            let freed = live.swap_remove(random.below(live.len()));
            store.free(freed).unwrap();
        }
    }
    Sample { image, table, live }
}

/// Changes some bytes of headers, or any bytes, or entries. The superblock stays good; its free total may not.
pub fn damage(random: &mut Random, sample: &mut Sample) {
    let places: Vec<_> = cueledger::Blocks::new(&sample.image).flatten().map(|block| block.place).collect();
    for _ in 0..=random.below(3) {
        let at = match random.below(4) {
            0 => 12 + random.below(4),
            1 => 16 + random.below(sample.image.len() - 16),
            _ => random.pick(&places) + random.below(16),
        };
        let any = random.word();
        sample.image[at] = random.pick(&[0, 1, 2, 16, 255, any as u8]);
        if random.below(2) == 0 {
            let at = random.below(sample.table.len());
            let place = random.pick(&places) as u64;
            sample.table[at] = random.pick(&[0, place, any, any % 2000]);
        }
        // another frame of the same exponent is led to the same object
        if let Some(at) = sample.table.iter().position(|&entry| entry != 0) {
            let other = (at + 48 * random.below(8)) % sample.table.len();
            sample.table[other] = sample.table[at];
        }
    }
}

/// Any bytes, sometimes behind a good superblock, sometimes such that headers are likely.
pub fn noise(random: &mut Random) -> Vec<u8> {
    let length = random.below(400);
    let mut image: Vec<u8> = (0..length).map(|_| if random.below(2) == 0 { random.pick(&[0, 1, 2, 3, 16, 32]) } else { random.word() as u8 }).collect();
    if length >= 64 && random.below(4) > 0 {
        image[..8].copy_from_slice(&[16, 0, 0, 0, 3, 0, 6 + random.below(10) as u8, 0]);
        image[8..12].copy_from_slice(&(length as u32).to_le_bytes());
    }
    image
}

/// The chart of these; None where they are no image.
pub fn chart<'a>(image: &'a mut [u8], table: &'a mut Vec<u64>, has_table: bool) -> Option<Chart<'a>> {
    let s = slot_exponent(image).ok()?;
    table.resize(Store::table_entries(image.len(), s), 0);
    Chart::open("a.image", image, table, s, has_table).ok()
}

pub fn table_bytes(table: &[u64]) -> Vec<u8> {
    table.iter().flat_map(|entry| entry.to_le_bytes()).collect()
}

/// A new folder for a test's files.
pub fn folder(name: &str) -> PathBuf {
    let folder = PathBuf::from(env!("CARGO_TARGET_TMPDIR")).join(name);
    let _ = std::fs::remove_dir_all(&folder);
    std::fs::create_dir_all(&folder).unwrap();
    folder
}

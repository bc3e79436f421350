//! Images of many blocks.

use crate::library::Exports;
use crate::model::{self, Header, Pointer};
use crate::store::{Answer, Call, Model, Store};
use std::time::{Duration, Instant};

/// Live blocks of one extent from 16 on, one for each cue, with bodies that are not clear and with their table entries; then a
/// free block up to the image's end, and the free total. As allocate would leave a fresh store, without its walk for each. Gives their
/// pointers.
pub fn live_blocks(image: &mut [u8], table: &mut [u64], slot_exponent: u32, extent: usize, cues: impl Iterator<Item = u32>) -> Vec<u64> {
    let (mut pointers, mut h, size) = (Vec::new(), 16, extent as u32 - 16);
    for cue in cues {
        let block = &mut image[h..h + extent];
        block.fill(0x5a);
        block[..16].copy_from_slice(&Header::live(extent as u64, 1, size, cue).bytes());
        let pointer = Pointer::to(slot_exponent, h as u64, size.into());
        if !pointer.small {
            table[model::entry(slot_exponent, pointer.tag as u32, h as u64) as usize] = h as u64;
        }
        pointers.push(pointer.pack());
        h += extent;
    }
    let free = (image.len() - h) as u64;
    image[h..h + 16].copy_from_slice(&Header::free(free).bytes());
    model::set_total(image, free);
    pointers
}

/// An image of many blocks for the library, with its table.
pub struct Lent {
    pub image: Vec<u8>,
    pub table: Vec<u64>,
    pub pointers: Vec<u64>,
}

impl Lent {
    /// The extent of each live block, and of the free one behind them.
    pub const EXTENT: usize = 32;
    pub const FREE: usize = 64;

    /// A live block for each cue.
    pub fn new(slot_exponent: u32, cues: impl ExactSizeIterator<Item = u32>) -> Lent {
        let length = 16 + Lent::EXTENT * cues.len() + Lent::FREE;
        let (mut image, mut table) = (vec![0; length], vec![0; model::used_entries(slot_exponent, length as u64) as usize]);
        assert!(Model.call(&mut image, &mut table, Call::SetUp { slot_exponent }).accepted());
        let pointers = live_blocks(&mut image, &mut table, slot_exponent, Lent::EXTENT, cues);
        Lent { image, table, pointers }
    }

    pub fn call(&mut self, call: Call<u64>) -> Answer {
        Exports.call(&mut self.image, &mut self.table, call)
    }

    /// Fails where a call takes over a microsecond at its best. A walk over the blocks has to take ten times that, or the limit
    /// tells nothing.
    pub fn assert_constant_time(&mut self, call: Call<u64>) {
        let limit = Duration::from_micros(1);
        let best = self.best(call, 1_000);
        assert!(best < limit, "{best:?}");
        let walk = self.best(Call::Tally, 10);
        assert!(walk > 10 * limit, "{walk:?}");
    }

    /// The best time of so many accepted calls.
    fn best(&mut self, call: Call<u64>, runs: usize) -> Duration {
        let time = |_| {
            let begun = Instant::now();
            assert!(self.call(call).accepted());
            begun.elapsed()
        };
        (0..runs).map(time).min().unwrap()
    }
}

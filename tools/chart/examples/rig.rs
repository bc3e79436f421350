//! The dumps of a small rig: `rig IMAGE TABLE` writes them. Its first four buffers are those of `make run`.

use cueledger::{Refusal, Store, Width};
use std::io;

const IMAGE: usize = 1024;
const SLOT_EXPONENT: u32 = 6;

/// Size, type and cue of each load buffer.
const BUFFERS: [(u32, u16, u32); 13] = [
    (10, 7, 0),
    (20, 7, 0),
    (32, 7, 12),
    (1, 7, 12),
    (40, 1, 13),
    (24, 1, 13),
    (24, 1, 14),
    (100, 2, 14),
    (0, 3, 14),
    (16, 1, 21),
    (60, 2, 21),
    (30, 1, 30),
    (200, 2, 30),
];
/// The buffer that is freed, and 12 bytes put in its place.
const REPLACED: usize = 5;
/// The cue that ends.
const ENDED: u32 = 21;

/// Image and table of the rig.
pub fn dumps() -> Result<(Vec<u8>, Vec<u64>), Refusal> {
    let (mut image, mut table) = (vec![0; IMAGE], vec![0; Store::table_entries(IMAGE, SLOT_EXPONENT)]);
    let mut store = Store::set_up(&mut image, &mut table, SLOT_EXPONENT)?;
    let mut buffers = Vec::new();
    for (size, type_number, cue) in BUFFERS {
        buffers.push(store.allocate_for(size, type_number, cue)?);
    }
    store.store(buffers[1], Width::Four, 1250)?; // kg
    store.free(buffers[REPLACED])?;
    store.allocate_for(12, 1, 13)?;
    store.release(ENDED)?;
    Ok((image, table))
}

fn main() -> io::Result<()> {
    let mut files = std::env::args_os().skip(1);
    let (Some(image_file), Some(table_file), None) = (files.next(), files.next(), files.next()) else {
        return Err(io::Error::other("usage: rig IMAGE TABLE"));
    };
    let (image, table) = dumps().map_err(io::Error::other)?;
    std::fs::write(image_file, image)?;
    std::fs::write(table_file, table.iter().flat_map(|entry| entry.to_le_bytes()).collect::<Vec<u8>>())
}

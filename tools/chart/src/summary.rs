//! What one walk over the blocks finds.

use crate::dump::Chart;
use crate::image::{block_at, header_reasons};
use crate::object::Object;
use crate::text::{counted, grouped};
use cueledger::{Block, Distances, Kind, Refusal, Store, Tally};

/// Stale entries that are named one by one.
const NAMED: usize = 8;

/// The first unsound header.
#[derive(Clone, Debug, PartialEq, Eq)]
pub struct Damage {
    pub place: usize,
    pub reasons: String,
}

/// The objects of a cue.
#[derive(Clone, Copy, Debug, PartialEq, Eq)]
pub struct CueSum {
    pub cue: u32,
    pub objects: u64,
    /// The sum of their sizes.
    pub bytes: u64,
}

/// The library's counts, and the blocks up to the first unsound header.
pub struct Summary {
    pub tally: Result<Tally, Refusal>,
    pub free_total: Result<u64, Refusal>,
    pub blocks: u64,
    pub objects: u64,
    /// The sum of the objects' sizes.
    pub live_bytes: u64,
    pub highest_type: u16,
    pub largest_size: u32,
    pub damage: Option<Damage>,
    /// Objects to which the pointer that allocate gave does not lead; 0 without a table.
    pub lost: u64,
    /// Used entries that are not zero and lead to no object that has them, the first `NAMED` of them; none without a table.
    pub stale: Vec<(usize, u64)>,
    pub stale_count: usize,
    /// Cue and size of each object, as one number, sorted: 8 bytes for each object, which has 16 of image at least.
    sizes: Vec<u64>,
}

/// Whether the pointer that allocate gave for a live block leads to it.
pub fn reaches(chart: &Chart, block: &Block) -> bool {
    let pointer = Object::of(*block, chart.slot_exponent).pointer;
    chart.store.distances(pointer) == Ok(Distances { from_start: 0, to_end: block.size.into() })
}

/// The used entries that are not zero and lead to no object that has them.
fn stale<'a>(chart: &'a Chart) -> impl Iterator<Item = (usize, u64)> + 'a {
    let used = if chart.has_table { Store::table_entries(chart.image().len(), chart.slot_exponent) } else { 0 };
    let entries = chart.store.table()[..used].iter().copied().enumerate().filter(|entry| entry.1 != 0);
    entries.filter(|&(at, held)| {
        let object = block_at(chart.image(), held).filter(|block| block.kind == Kind::Live).map(|block| Object::of(block, chart.slot_exponent));
        object.and_then(|object| object.entry) != Some(at)
    })
}

impl Summary {
    pub fn of(chart: &Chart) -> Summary {
        let live = |block: &Block| block.kind == Kind::Live;
        let objects = chart.store.blocks().flatten().filter(live).count();
        let mut summary = Summary {
            tally: chart.store.tally(),
            free_total: chart.store.free_total(),
            blocks: 0,
            objects: objects as u64,
            live_bytes: 0,
            highest_type: 0,
            largest_size: 0,
            damage: None,
            lost: 0,
            stale: Vec::new(),
            stale_count: 0,
            sizes: Vec::with_capacity(objects),
        };
        for block in chart.store.blocks() {
            match block {
                Ok(block) => summary.add(chart, &block),
                Err(unsound) => {
                    let reasons = header_reasons(chart.image(), unsound.place as u64).join("; ");
                    summary.damage = Some(Damage { place: unsound.place, reasons });
                }
            }
        }
        summary.sizes.sort_unstable();
        for entry in stale(chart) {
            summary.stale_count += 1;
            if summary.stale.len() < NAMED {
                summary.stale.push(entry);
            }
        }
        summary
    }

    fn add(&mut self, chart: &Chart, block: &Block) {
        self.blocks += 1;
        self.highest_type = self.highest_type.max(block.type_number);
        self.largest_size = self.largest_size.max(block.size);
        if block.kind == Kind::Live {
            self.live_bytes += u64::from(block.size);
            self.sizes.push(u64::from(block.cue) << 32 | u64::from(block.size));
            self.lost += u64::from(chart.has_table && !reaches(chart, block));
        }
    }

    /// Whether the superblock's free total is the tally's; also where there is no tally.
    pub fn total_agrees(&self) -> bool {
        self.tally.is_err() || self.free_total == self.tally.map(|tally| tally.free_bytes)
    }

    /// What is amiss beside an unsound header, a line for each.
    pub fn amiss(&self) -> Vec<String> {
        let mut lines = Vec::new();
        if self.lost > 0 {
            lines.push(format!("{} cannot be reached by the pointer that allocate gave.", counted(self.lost, "object")));
        }
        lines.extend(self.stale.iter().map(|(at, held)| format!("Entry {at} holds {held}, and no object there has this entry.")));
        if self.stale_count > self.stale.len() {
            lines.push(format!("So it is with {} more entries.", grouped((self.stale_count - self.stale.len()) as u64)));
        }
        if !self.total_agrees() {
            lines.push("The superblock's free total is not the sum of the free blocks.".to_string());
        }
        lines
    }

    /// Whether nothing is amiss.
    pub fn is_sound(&self) -> bool {
        self.damage.is_none() && self.tally.is_ok() && self.amiss().is_empty()
    }

    /// The cues that have objects, by number.
    pub fn cues(&self) -> impl Iterator<Item = CueSum> + '_ {
        let same = |a: &u64, b: &u64| a >> 32 == b >> 32;
        self.sizes.chunk_by(same).map(|sizes| CueSum {
            cue: (sizes[0] >> 32) as u32,
            objects: sizes.len() as u64,
            bytes: sizes.iter().map(|size| size & u64::from(u32::MAX)).sum(),
        })
    }

    pub fn highest_cue(&self) -> u32 {
        self.sizes.last().map_or(0, |last| (last >> 32) as u32)
    }
}

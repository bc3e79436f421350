//! Each call of the library, through its exports, against the Rust model, against hand-written C (`floor.c`) and, where there is one,
//! against what does the same work unchecked or by slice functions: all built for release, on the same buffers in the same run; and
//! the program `replay` on long logs.
//!
//! `cueledger-bench [MILLISECONDS [TABLE…]]`: three passes over all tables, with so many milliseconds for a line; where tables are
//! named, one pass over these, `all` being each of them.

mod accesses;
mod blocks;
mod bulk;
mod casts;
mod contestants;
mod floor;
mod freeing;
mod heap;
mod logs;
mod measure;
mod memory;
mod orders;
mod overheads;
mod refused;
mod releases;
mod report;
mod texts;
mod traffic;
mod tree;

use measure::{Bench, LEAST_ROUNDS};
use std::time::{Duration, Instant};

/// Made on `floor.c` and the model before measuring.
const CHECKED_CALLS: u64 = 200_000;
const SEED: u64 = 1;
const MILLISECONDS: u64 = 250;
const PASSES: usize = 3;

/// A name, how many times the milliseconds a line takes, and what measures it.
type Measured = (&'static str, u32, fn(&mut Bench));

/// The longest images, of many blocks, do not fit the second-level cache, and the third is shared with other programs: more rounds.
const TABLES: [Measured; 17] = [
    ("accesses", 1, accesses::measure),
    ("refused", 1, refused::measure),
    ("independence", 1, blocks::independence),
    ("totals", 1, blocks::free_totals),
    ("few", 1, blocks::few),
    ("many", 3, blocks::many),
    ("releases", 3, releases::measure),
    ("bulk", 1, bulk::measure),
    ("texts", 1, texts::measure),
    ("freeing", 1, freeing::measure),
    ("heap", 1, heap::measure),
    ("tree", 1, tree::measure),
    ("casts", 1, casts::measure),
    ("orders", 1, orders::measure),
    ("overheads", 1, overheads::measure),
    ("traffic", 1, traffic::measure),
    ("logs", 1, logs::measure),
];

fn usage() -> ! {
    let names: Vec<&str> = TABLES.iter().map(|&(name, ..)| name).collect();
    eprintln!("usage: cueledger-bench [MILLISECONDS [TABLE…]]\ntables: all {} memory", names.join(" "));
    std::process::exit(2)
}

fn main() {
    let mut arguments = std::env::args().skip(1);
    let milliseconds = arguments.next().map_or(MILLISECONDS, |text| text.parse().unwrap_or_else(|_| usage()));
    let chosen: Vec<String> = arguments.collect();
    if !chosen.iter().all(|name| ["all", "memory"].contains(&&**name) || TABLES.iter().any(|&(table, ..)| table == name)) {
        usage();
    }
    let passes = if chosen.is_empty() { PASSES } else { 1 };
    let wanted = |name: &str| chosen.is_empty() || chosen.iter().any(|chosen| chosen == "all" || chosen == name);
    let begun = Instant::now();
    let checked = floor::check(CHECKED_CALLS, SEED).calls;
    let pass = |nth: usize| {
        let mut bench = Bench::new();
        for (name, times, measure) in TABLES.into_iter().filter(|&(name, ..)| wanted(name)) {
            let before = bench.tables.len();
            bench.for_each_line = times * Duration::from_millis(milliseconds);
            measure(&mut bench);
            bench.tables[before..].iter_mut().for_each(|table| table.key = name);
        }
        eprintln!("pass {} of {passes}: {:.0} s", nth + 1, begun.elapsed().as_secs_f64());
        bench.tables
    };
    let tables = report::of_passes(&(0..passes).map(pass).collect::<Vec<_>>());
    println!("Passes: {passes}. In each, rounds of library, model, floor and other alternate for {milliseconds} ms a line (many blocks, releases: three times that),");
    println!("{LEAST_ROUNDS} of each at least; the best counts. A time is the median of the passes' times.");
    println!("A ratio is the library's time over the other's, below 1 where the library is faster: the median of the passes' ratios.");
    println!("Floor: the same call in hand-written C (floor.c, cc -O3), which answered {checked} random calls as the model does.");
    println!("Buffers were written before the first round (every page is in memory) and not cleared between rounds.");
    report::print(&tables);
    if wanted("memory") {
        memory::measure();
    }
    report::summary(&tables);
    println!("{:.1} s", begun.elapsed().as_secs_f64());
}

//! The program `replay` on logs up to its limit, process start included, and the model on the same.

use crate::measure::{sink, time, Bench};
use crate::report::{Columns, Table};
use cueledger_tests::generate::log::slow;
use cueledger_tests::log::{program, replay};
use std::fs::{self, File};
use std::process::{Command, Stdio};

pub fn measure(bench: &mut Bench) {
    bench.tables.push(Table::new("a log of 65,536 bytes, or none", Columns::Logs));
    let file = std::env::temp_dir().join(format!("cueledger-bench-{}.log", std::process::id()));
    for (name, log) in [("no input", Vec::new())].into_iter().chain(slow()) {
        fs::write(&file, &log).unwrap();
        let run = |_: &mut ()| {
            let mut command = Command::new(program());
            command.stdin(File::open(&file).unwrap()).stdout(Stdio::null());
            time(|| assert!(command.status().unwrap().success()))
        };
        let best = bench.best(&mut (), [&mut { run }, &mut |_| time(|| sink(replay(&log)))]);
        bench.row(name, best.map(|ns| Some(ns / 1e6)).to_vec(), false);
    }
    fs::remove_file(&file).unwrap();
}

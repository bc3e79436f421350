//! `golden [FOLDER]`: golden/traffic.txt, by the model; and image, table and written log of each run as files in the folder, for
//! `cksum`.

use cueledger_tests::store::Model;
use cueledger_tests::traffic::golden::{text, Run, STATES};
use std::path::PathBuf;

fn main() -> std::io::Result<()> {
    print!("{}", text(&Model));
    if let Some(folder) = std::env::args_os().nth(1).map(PathBuf::from) {
        for state in STATES {
            let Run { image, table, log, .. } = Run::new(&Model, state);
            for (name, bytes) in [("image", image), ("table", table), ("log", log)] {
                std::fs::write(folder.join(format!("{name}-{state}")), bytes)?;
            }
        }
    }
    Ok(())
}

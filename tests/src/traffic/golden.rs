//! The figures of three runs, as `golden/traffic.txt` has them.

use super::{Asked, Traffic};
use crate::log::{ENTRIES, LENGTH, LIMIT, SLOT_EXPONENT};

pub const STATES: [u64; 3] = [0, 1, u64::MAX];
pub const DRAWS: u64 = 1_000;

pub const FILE: &str = include_str!("../../golden/traffic.txt");

/// What the run from a state leaves.
pub struct Run {
    pub state: u64,
    pub state_after: u64,
    pub image: Vec<u8>,
    /// The table's entries, little-endian.
    pub table: Vec<u8>,
    /// What is written of it.
    pub log: Vec<u8>,
}

impl Run {
    pub fn new(traffic: &dyn Traffic, state: u64) -> Run {
        let (mut image, mut table, mut log) = (vec![0; LENGTH], vec![0; ENTRIES], vec![0; LIMIT]);
        let answer = traffic.traffic(&mut image, &mut table, Asked { slot_exponent: SLOT_EXPONENT, state, draws: DRAWS }, &mut log);
        assert!(answer.accepted(), "{answer}");
        let [state_after, written, ..] = answer.values;
        log.truncate(written as usize);
        Run { state, state_after, image, table: table.iter().flat_map(|entry| entry.to_le_bytes()).collect(), log }
    }
}

/// The CRC that POSIX's `cksum` prints: of the bytes, and of their number's bytes, lowest first, without zeros at its end.
pub fn cksum(bytes: &[u8]) -> u32 {
    let length = bytes.len().to_le_bytes();
    let counted = length.iter().rposition(|&byte| byte != 0).map_or(0, |last| last + 1);
    let mut crc = 0u32;
    for &byte in bytes.iter().chain(&length[..counted]) {
        crc ^= u32::from(byte) << 24;
        for _ in 0..8 {
            crc = if crc >> 31 == 1 { crc << 1 ^ 0x04C1_1DB7 } else { crc << 1 };
        }
    }
    !crc
}

/// A line for each state, below what it is of and the names of the columns.
pub fn text(traffic: &dyn Traffic) -> String {
    let of = format!("{DRAWS} draws, L = {LENGTH}, s = {SLOT_EXPONENT}; of image, table (little-endian) and written log the sum that POSIX cksum prints\n");
    let columns = format!("{:<22}{:<22}{:<11}{:<12}{:<12}{}\n", "state", "state after", "log bytes", "image", "table", "log");
    let line = |state| {
        let Run { state_after, image, table, log, .. } = Run::new(traffic, state);
        format!("{state:<22}{state_after:<22}{:<11}{:<12}{:<12}{}\n", log.len(), cksum(&image), cksum(&table), cksum(&log))
    };
    of + &columns + &STATES.map(line).concat()
}

#[cfg(test)]
mod tests {
    use super::cksum;

    /// As the tool prints them.
    #[test]
    fn of_known_bytes() {
        for (bytes, sum) in [(&b""[..], 4294967295), (b"a", 1220704766), (b"123456789", 930766865), (&[0; 256], 4215202376)] {
            assert_eq!(cksum(bytes), sum, "{bytes:?}");
        }
    }
}

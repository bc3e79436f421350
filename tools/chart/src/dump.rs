//! Dumps: reading them, and opening the store that they hold.

use crate::image::{superblock_reasons, Superblock, LONGEST};
use crate::progress::Progress;
use crate::text::counted;
use crate::Failure;
use cueledger::{Refusal, Store};
use std::ffi::OsStr;
use std::fs::File;
use std::io::{self, Read};
use std::path::Path;

/// Bytes that are read at a time, whole entries.
const PIECE: usize = 1 << 20;

/// An image and its table, and a name for them.
pub struct Dump {
    /// The image's file name without its folder.
    pub name: String,
    image: Vec<u8>,
    /// The used entries.
    table: Vec<u64>,
    /// Whether the table is a dump, and not zeros lent in its place.
    has_table: bool,
}

/// An opened store, to be charted.
pub struct Chart<'a> {
    pub name: &'a str,
    pub store: Store<'a>,
    /// s.
    pub slot_exponent: u32,
    /// Whether the table's entries mean something.
    pub has_table: bool,
}

/// The file's name without its folder, as text.
pub fn file_name(path: &OsStr) -> String {
    Path::new(path).file_name().unwrap_or(path).to_string_lossy().into_owned()
}

fn said(path: &OsStr, what: impl std::fmt::Display) -> Failure {
    Failure::Said(format!("{}: {what}", path.to_string_lossy()))
}

/// The file, its length where it is known, and its progress line.
fn open_file(path: &OsStr) -> Result<(File, u64, Progress), Failure> {
    let file = File::open(path).map_err(|error| said(path, error))?;
    let length = file.metadata().map(|data| data.len()).unwrap_or(0);
    Ok((file, length, Progress::of(format!("reading {}", file_name(path)))))
}

/// The bytes of an image, which has a good superblock.
pub fn read_image(path: &OsStr) -> Result<Vec<u8>, Failure> {
    let (file, length, mut progress) = open_file(path)?;
    let mut image = Vec::new();
    // a byte more than an image has tells of a file that is longer
    let limit = LONGEST + 1;
    image.try_reserve_exact(usize::try_from(length).unwrap_or(limit).min(limit)).map_err(|error| said(path, error))?;
    while image.len() < limit {
        let piece = PIECE.min(limit - image.len());
        let read = (&file).take(piece as u64).read_to_end(&mut image).map_err(|error| said(path, error))?;
        progress.at(image.len() as u64, length);
        if read < piece {
            break;
        }
    }
    slot_exponent(&mut image).map_err(|reason| said(path, reason))?;
    Ok(image)
}

/// s of an image, or why its superblock is not good.
pub fn slot_exponent(image: &mut [u8]) -> Result<u32, String> {
    // no image has a table of no entries: where the superblock is good, that is what is refused
    match (Store::open(image, &mut []).err(), Superblock::of(image)) {
        (Some(Refusal::ShortTable), Some(superblock)) => Ok(superblock.slot_exponent.into()),
        _ if image.len() > LONGEST => Err(format!("no image: more than 2^30 bytes: {}", Refusal::BadSuperblock)),
        _ => Err(format!("no image: {}: {}", Refusal::BadSuperblock, superblock_reasons(image).join("; "))),
    }
}

/// The first `used` entries of a table.
pub fn read_table(path: &OsStr, used: usize) -> Result<Vec<u64>, Failure> {
    let (mut file, length, mut progress) = open_file(path)?;
    let mut table = Vec::new();
    table.try_reserve_exact(used.min(usize::try_from(length / 8).unwrap_or(used))).map_err(|error| said(path, error))?;
    let mut piece = vec![0; PIECE];
    let mut bytes = 0;
    loop {
        let read = read_piece(&mut file, &mut piece).map_err(|error| said(path, error))?;
        bytes += read as u64;
        let entries = piece[..read].chunks_exact(8).take(used - table.len());
        table.extend(entries.map(|entry| u64::from_le_bytes(entry.try_into().unwrap_or_default())));
        progress.at(bytes, length);
        if read < PIECE {
            break;
        }
    }
    if !bytes.is_multiple_of(8) {
        return Err(said(path, format!("no table: {} are not whole entries of 8", counted(bytes, "byte"))));
    }
    if table.len() < used {
        return Err(said(path, format!("{}: it has {}, the image uses {used}", Refusal::ShortTable, table.len())));
    }
    Ok(table)
}

/// Fills the piece; fewer bytes are the file's last ones.
fn read_piece(file: &mut impl Read, piece: &mut [u8]) -> io::Result<usize> {
    let mut filled = 0;
    while filled < piece.len() {
        match file.read(&mut piece[filled..]) {
            Ok(0) => break,
            Ok(read) => filled += read,
            Err(error) if error.kind() == io::ErrorKind::Interrupted => {}
            Err(error) => return Err(error),
        }
    }
    Ok(filled)
}

impl Dump {
    /// Reads the dumps; without a table's, zeros are lent.
    pub fn read(image: &OsStr, table: Option<&OsStr>) -> Result<Dump, Failure> {
        let mut bytes = read_image(image)?;
        let s = slot_exponent(&mut bytes).map_err(|reason| said(image, reason))?;
        let used = Store::table_entries(bytes.len(), s);
        let has_table = table.is_some();
        let table = match table {
            Some(path) => read_table(path, used)?,
            // never touched, so that it takes no memory
            None => vec![0; used],
        };
        Ok(Dump { name: file_name(image), image: bytes, table, has_table })
    }

    /// The store that the dumps hold.
    pub fn chart(&mut self) -> Result<Chart<'_>, Failure> {
        let (name, image) = (&self.name, &mut self.image);
        let s = slot_exponent(image).map_err(|reason| Failure::Said(format!("{name}: {reason}")))?;
        Chart::open(name, image, &mut self.table, s, self.has_table).map_err(|refusal| Failure::Said(format!("{name}: {refusal}")))
    }
}

impl<'a> Chart<'a> {
    /// Refused as [`Store::open`] is. `slot_exponent` is the superblock's.
    pub fn open(name: &'a str, image: &'a mut [u8], table: &'a mut [u64], slot_exponent: u32, has_table: bool) -> Result<Chart<'a>, Refusal> {
        Ok(Chart { name, store: Store::open(image, table)?, slot_exponent, has_table })
    }

    pub fn image(&self) -> &[u8] {
        self.store.image()
    }
}

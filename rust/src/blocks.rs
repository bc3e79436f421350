use crate::Refusal;
use core::fmt;
use core::iter::FusedIterator;

const FIRST: usize = 16; // behind the superblock
const HEADER: usize = 16;

/// Whether a block holds an object.
#[derive(Clone, Copy, Debug, PartialEq, Eq, Hash)]
pub enum Kind {
    /// No object.
    Free,
    /// An object.
    Live,
}

/// A block of the image, as its header describes it.
#[derive(Clone, Copy, Debug, PartialEq, Eq, Hash)]
pub struct Block {
    /// Where the header starts in the image; the body starts 16 bytes on.
    pub place: usize,
    /// Bytes of the whole block, header included.
    pub extent: u32,
    /// Free or live.
    pub kind: Kind,
    /// The object's type number; 0 for a free block.
    pub type_number: u16,
    /// Bytes of the object, which may have none; 0 for a free block.
    pub size: u32,
    /// The cue that the object was allocated for; 0 for a free block.
    pub cue: u32,
}

/// A header that no sound image has: where a walk over the blocks ends.
///
/// Allocate, free, release and tally answer [`Refusal::Unsound`] when they meet it.
#[derive(Clone, Copy, Debug, PartialEq, Eq, Hash)]
pub struct UnsoundHeader {
    /// Where the header starts in the image.
    pub place: usize,
}

impl fmt::Display for UnsoundHeader {
    fn fmt(&self, f: &mut fmt::Formatter<'_>) -> fmt::Result {
        write!(f, "unsound header at {}", self.place)
    }
}

impl core::error::Error for UnsoundHeader {}

impl From<UnsoundHeader> for Refusal {
    fn from(_: UnsoundHeader) -> Refusal {
        Refusal::Unsound
    }
}

/// The blocks of an image in the order of their places, read from their headers.
///
/// An unsound header is the last item, as an error; what stands behind it cannot be found. An image of any bytes and any length
/// is walked without a panic.
///
/// ```
/// use cueledger::{Block, Blocks, Kind, Refusal, Store, UnsoundHeader};
///
/// let mut image = [0u8; 1024];
/// let mut table = [0u64; Store::table_entries(1024, 9)];
/// let mut store = Store::set_up(&mut image, &mut table, 9)?;
/// store.allocate_for(10, 7, 12)?;
///
/// let blocks: Vec<_> = store.blocks().collect::<Result<_, _>>()?;
/// assert_eq!(blocks[0], Block { place: 16, extent: 26, kind: Kind::Live, type_number: 7, size: 10, cue: 12 });
/// assert_eq!(blocks[1], Block { place: 42, extent: 982, kind: Kind::Free, type_number: 0, size: 0, cue: 0 });
///
/// image[42 + 4] = 9; // no kind
/// let mut damaged = Blocks::new(&image);
/// assert!(damaged.next().unwrap().is_ok());
/// assert_eq!(damaged.next(), Some(Err(UnsoundHeader { place: 42 })));
/// assert_eq!(damaged.next(), None);
/// # Ok::<(), Refusal>(())
/// ```
#[derive(Clone, Debug)]
pub struct Blocks<'a> {
    image: &'a [u8],
    /// the next header; the image's length where there is none
    place: usize,
}

impl<'a> Blocks<'a> {
    /// The blocks of these bytes. The superblock is passed over, so that an image whose superblock is damaged can be looked at.
    ///
    /// ```
    /// use cueledger::{Blocks, UnsoundHeader};
    ///
    /// let mut blocks = Blocks::new(&[0; 64]); // never set up
    /// assert_eq!(blocks.next(), Some(Err(UnsoundHeader { place: 16 })));
    /// ```
    pub const fn new(image: &'a [u8]) -> Blocks<'a> {
        Blocks { image, place: FIRST }
    }

    /// The block at `place` where its header is sound.
    fn sound(&self) -> Option<Block> {
        let rest = self.image.get(self.place..)?;
        let header: &[u8; HEADER] = rest.first_chunk()?;
        let [e0, e1, e2, e3, k0, k1, t0, t1, s0, s1, s2, s3, c0, c1, c2, c3] = *header;
        let (extent, size) = (u32::from_le_bytes([e0, e1, e2, e3]), u32::from_le_bytes([s0, s1, s2, s3]));
        let (type_number, cue) = (u16::from_le_bytes([t0, t1]), u32::from_le_bytes([c0, c1, c2, c3]));
        let kind = match u16::from_le_bytes([k0, k1]) {
            1 if type_number == 0 && size == 0 && cue == 0 => Kind::Free,
            2 if (16..=31).contains(&(i64::from(extent) - i64::from(size))) => Kind::Live,
            _ => return None,
        };
        let inside = extent as usize >= HEADER && extent as usize <= rest.len();
        inside.then_some(Block { place: self.place, extent, kind, type_number, size, cue })
    }
}

impl Iterator for Blocks<'_> {
    type Item = Result<Block, UnsoundHeader>;

    fn next(&mut self) -> Option<Self::Item> {
        if self.place == self.image.len() {
            return None;
        }
        let place = self.place;
        Some(match self.sound() {
            Some(block) => {
                self.place += block.extent as usize;
                Ok(block)
            }
            None => {
                self.place = self.image.len();
                Err(UnsoundHeader { place })
            }
        })
    }
}

impl FusedIterator for Blocks<'_> {}

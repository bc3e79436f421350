//! What calls take of the free total and give back, and its limits in row 22.

use crate::model::{self, Pointer};
use crate::store::Call;

/// What the blocks make it: all bytes behind the superblock, less the live extents up to the image's end or to an unsound header;
/// 0 for an image that is too short.
pub fn of_blocks(image: &[u8]) -> u64 {
    if image.len() < 64 {
        return 0;
    }
    let live: u64 = model::blocks(image).filter(|(_, header)| header.is_live()).map(|(_, header)| u64::from(header.extent)).sum();
    image.len() as u64 - model::SUPERBLOCK - live
}

/// The live extents that allocate takes, or free or release gives back, where no row but 22 refuses it.
pub fn extents(image: &[u8], call: &Call<u64>) -> Option<u64> {
    if image.len() < 64 {
        return None;
    }
    match *call {
        Call::Allocate { size, .. } | Call::AllocateFor { size, .. } => {
            let fits = |extent: u64| extent >= model::HEADER + u64::from(size);
            let free = model::blocks(image).find(|(_, header)| header.is_free() && fits(header.extent.into()))?.1;
            Some(model::live_extent(free.extent.into(), size))
        }
        Call::Free { pointer } => {
            let h = Pointer::unpack(pointer).address.checked_sub(model::HEADER)?;
            model::sound(image, h).filter(|header| header.is_live()).map(|header| header.extent.into())
        }
        Call::Release { cue } => Some(model::blocks(image).filter(|(_, header)| header.carries(cue)).map(|(_, header)| u64::from(header.extent)).sum()),
        _ => None,
    }
}

/// The last total that row 22 lets pass: for allocate the least, for free and release the most.
pub fn limit(image: &[u8], call: &Call<u64>) -> Option<u64> {
    let extents = extents(image, call)?;
    match call {
        Call::Free { .. } | Call::Release { .. } => (image.len() as u64 - model::SUPERBLOCK).checked_sub(extents),
        _ => Some(extents),
    }
}

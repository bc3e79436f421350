//! Release in time linear in the blocks: the bench's contestant. A walk makes every test; a second one writes, each run of
//! blocks that become one once.

use crate::model::{entry, given_back, open, set_total, sound, Answer, Header, Pointer, SUPERBLOCK};

/// The table entry of a large-framed object.
fn entry_of(s: u32, h: u64, header: Header) -> Option<usize> {
    let pointer = Pointer::to(s, h, u64::from(header.size));
    (!pointer.small).then(|| entry(s, pointer.tag as u32, h) as usize)
}

pub fn release(image: &mut [u8], table: &mut [u64], cue: u32) -> Answer {
    let s = open(image, table)?;
    let (count, total) = test(image, table, s, cue)?;
    if count > 0 {
        write(image, table, s, cue);
        set_total(image, total);
    }
    Ok(count)
}

/// 7, 21, 22; gives the number of objects, and the free total with their extents.
fn test(image: &[u8], table: &[u64], s: u32, cue: u32) -> Result<(u64, u64), u32> {
    let (mut at, mut count, mut extents, mut lost) = (SUPERBLOCK, 0, 0, false);
    while at != image.len() as u64 {
        let header = sound(image, at).ok_or(7u32)?;
        if header.carries(cue) {
            count += 1;
            extents += u64::from(header.extent);
            lost |= entry_of(s, at, header).is_some_and(|entry| table[entry] != at);
        }
        at += u64::from(header.extent);
    }
    if lost {
        return Err(21);
    }
    Ok((count, given_back(image, extents)?))
}

/// A free block that ends where the pass stands.
#[derive(Clone, Copy)]
struct Before {
    from: u64,
    /// It has objects in it, and is not written yet.
    pending: bool,
}

/// The image's headers are sound.
fn write(image: &mut [u8], table: &mut [u64], s: u32, cue: u32) {
    let length = image.len() as u64;
    let mut before: Option<Before> = None;
    let mut at = SUPERBLOCK;
    while at != length {
        let header = Header::read(image, at);
        let end = at + u64::from(header.extent);
        if header.carries(cue) {
            if let Some(entry) = entry_of(s, at, header) {
                table[entry] = 0;
            }
            before = Some(Before { from: before.map_or(at, |free| free.from), pending: true });
            at = end;
            // one free block behind an object goes with it; another behind that one does not
            if end != length {
                let next = Header::read(image, end);
                if next.is_free() {
                    at += u64::from(next.extent);
                }
            }
        } else {
            settle(image, before, at);
            before = header.is_free().then_some(Before { from: at, pending: false });
            at = end;
        }
    }
    settle(image, before, at);
}

fn settle(image: &mut [u8], before: Option<Before>, to: u64) {
    if let Some(Before { from, pending: true }) = before {
        let run = &mut image[from as usize..to as usize];
        run.fill(0);
        run[..16].copy_from_slice(&Header::free(to - from).bytes());
    }
}

//! Objects of no bytes, and the pointers that lead to them.

use crate::model::{self, Header, Pointer, HEADER};

/// A live header of no bytes.
pub fn is_empty(header: Header) -> bool {
    header.is_live() && header.size == 0
}

/// Where a pointer leads to an object of no bytes.
#[derive(Clone, Copy)]
pub struct Empty {
    pub h: u64,
    pub header: Header,
    pub p: Pointer,
    /// The image's.
    pub length: u64,
}

impl Empty {
    /// The object that the pointer leads to, if it has no bytes.
    pub fn led_to(image: &[u8], table: &[u64], pointer: u64) -> Option<Empty> {
        let [from_start, to_end] = model::distances(image, table, pointer).ok()?;
        let p = Pointer::unpack(pointer);
        let h = (p.address as i64 - from_start) as u64 - HEADER;
        (from_start + to_end == 0).then(|| Empty { h, header: Header::read(image, h), p, length: image.len() as u64 })
    }

    pub fn base(self) -> u64 {
        self.h + HEADER
    }

    pub fn spare(self) -> u64 {
        u64::from(self.header.extent) - HEADER
    }

    pub fn at_base(self) -> bool {
        self.p.address == self.base()
    }

    pub fn at_end(self) -> bool {
        self.base() == self.length
    }
}

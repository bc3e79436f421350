//! The text, by doubling and searching. Sums do not wrap: this crate is built with overflow checks.

use super::{Answer, Overheads, LARGEST, MANY, MOST, SIZE, VALUES};
use crate::model::HEADER;
use crate::store::Model;

/// The text's rules. What is here is right; a test that plants a fault has another one in the place of one of them.
pub trait Rules {
    // ---- what is refused

    fn count_is_good(&self, count: usize) -> bool {
        count <= MOST
    }

    fn size_is_good(&self, size: u32) -> bool {
        (1..=LARGEST).contains(&size)
    }

    fn sizes_are_good(&self, sizes: &[u32]) -> bool {
        sizes.iter().all(|&size| self.size_is_good(size))
    }

    /// 28, 29.
    fn refused(&self, sizes: &[u32]) -> Result<(), u32> {
        if !self.count_is_good(sizes.len()) {
            return Err(MANY);
        }
        if !self.sizes_are_good(sizes) {
            return Err(SIZE);
        }
        Ok(())
    }

    // ---- one size

    fn with_header(&self, size: u64) -> u64 {
        size + HEADER
    }

    /// The least padded block.
    fn least(&self) -> u64 {
        16
    }

    fn padded(&self, size: u64) -> u64 {
        let mut block = self.least();
        while block < size {
            block *= 2;
        }
        block
    }

    // ---- the end reached

    /// Where the first block may stand.
    fn start(&self) -> u64 {
        0
    }

    /// The lowest multiple of the block not before this end. It is one of 1, of 2, of 4, .. up to the block: of two multiples of each that
    /// follow one another, one is a multiple of the next.
    fn place(&self, end: u64, block: u64) -> u64 {
        let (mut place, mut of) = (end, 1);
        while of < block {
            if !place.is_multiple_of(2 * of) {
                place += of;
            }
            of *= 2;
        }
        place
    }

    fn end(&self, blocks: &[u64]) -> u64 {
        blocks.iter().fold(self.start(), |end, &block| self.place(end, block) + block)
    }

    // ---- all of it

    /// Extra and over of these bytes.
    fn fraction(&self, bytes: u64, raw: u64) -> [u64; 2] {
        // no list but the empty one has no bytes
        if raw == 0 {
            return [0, 1];
        }
        [bytes - raw, raw]
    }

    /// Raw bytes, those with headers, padded ones, and the end reached.
    fn sums(&self, sizes: &[u32]) -> [u64; 4] {
        let sizes: Vec<u64> = sizes.iter().map(|&size| size.into()).collect();
        let blocks: Vec<u64> = sizes.iter().map(|&size| self.padded(size)).collect();
        [sizes.iter().sum(), sizes.iter().map(|&size| self.with_header(size)).sum(), blocks.iter().sum(), self.end(&blocks)]
    }

    /// The four sums, and the overheads of the second and third.
    fn values(&self, [raw, with_headers, padded, end]: [u64; 4]) -> [u64; VALUES] {
        let ([headers_extra, headers_over], [padded_extra, padded_over]) = (self.fraction(with_headers, raw), self.fraction(padded, raw));
        [raw, with_headers, padded, end, headers_extra, headers_over, padded_extra, padded_over]
    }

    fn report(&self, sizes: &[u32]) -> Result<[u64; VALUES], u32> {
        self.refused(sizes)?;
        Ok(self.values(self.sums(sizes)))
    }
}

impl Rules for Model {}

impl<R: Rules> Overheads for R {
    fn overhead(&self, sizes: &mut [u32]) -> Answer {
        self.report(sizes).into()
    }
}

#[cfg(test)]
mod tests {
    use super::*;

    /// By definition: among all powers of two from 16 on, and among all numbers.
    #[test]
    fn blocks_and_places() {
        for size in 1..=u64::from(LARGEST) {
            assert_eq!(Some(Model.padded(size)), (4..=16).map(|exponent| 1 << exponent).find(|&power| power >= size));
        }
        for block in [16, 32, 64, 128, 1_024] {
            for end in 0..3_000 {
                assert_eq!(Some(Model.place(end, block)), (end..).find(|place| place % block == 0), "{end}, {block}");
            }
        }
        assert_eq!([Model.place((1 << 32) - 65_535, 65_536), Model.place((1 << 32) - 65_536, 65_536)], [1 << 32, (1 << 32) - 65_536]);
    }

    /// Blocks of 16, 128 and 64 bytes, at 0, 128 and 256.
    #[test]
    fn sizes_10_100_and_50() {
        assert_eq!(Model.report(&[10, 100, 50]), Ok([160, 208, 208, 320, 48, 160, 48, 160]));
    }
}

use crate::{ffi, store::answer, Refusal};

/// An overhead, left unreduced.
#[derive(Clone, Copy, Debug, PartialEq, Eq)]
pub struct Fraction {
    /// The bytes beyond the raw ones.
    pub extra: u64,
    /// The raw bytes; 1 for an empty list.
    pub over: u64,
}

/// What objects take with headers, and what they take in padded blocks, as [`Overhead::of`] reports it.
#[derive(Clone, Copy, Debug, PartialEq, Eq)]
pub struct Overhead {
    /// The sum of the sizes, at most 2^32.
    pub raw: u64,
    /// 16 bytes more for each size.
    pub with_headers: u64,
    /// The sum of the padded blocks. Each is the lowest power of two not under the size, 16 at least.
    pub padded: u64,
    /// Where the last padded block ends when they go, in the list's order from 0, each to the lowest multiple of its own padded size not
    /// before the previous end.
    pub end: u64,
    /// The overhead of headers.
    pub headers: Fraction,
    /// The overhead of padding, without the gaps that `end` has.
    pub padding: Fraction,
}

impl Overhead {
    /// What objects of these sizes take with this store's headers, and what they take in the padded blocks of baggy bounds, with a least
    /// block of 16 bytes. No image is read.
    ///
    /// Refused with, in this order: [`TooManySizes`](Refusal::TooManySizes), [`BadSize`](Refusal::BadSize).
    ///
    /// ```
    /// use cueledger::{Fraction, Overhead, Refusal};
    ///
    /// // blocks of 16, 128 and 64 bytes, at 0, 128 and 256
    /// let report = Overhead::of(&[10, 100, 50])?;
    /// assert_eq!((report.raw, report.with_headers, report.padded, report.end), (160, 208, 208, 320));
    /// assert_eq!((report.headers, report.padding), (Fraction { extra: 48, over: 160 }, Fraction { extra: 48, over: 160 }));
    ///
    /// assert_eq!(Overhead::of(&[])?.padding, Fraction { extra: 0, over: 1 });
    /// assert_eq!(Overhead::of(&[1; 65_537]), Err(Refusal::TooManySizes));
    /// assert_eq!(Overhead::of(&[10, 0]), Err(Refusal::BadSize));
    /// assert_eq!(Overhead::of(&[65_537]), Err(Refusal::BadSize));
    /// # Ok::<(), Refusal>(())
    /// ```
    #[inline]
    pub fn of(sizes: &[u32]) -> Result<Overhead, Refusal> {
        let (mut raw, mut with_headers, mut padded, mut end) = (0, 0, 0, 0);
        let (mut headers, mut padding) = (Fraction { extra: 0, over: 0 }, Fraction { extra: 0, over: 0 });
        // SAFETY: the slice is valid for the call and only read; the eight values are locals of their own.
        let number = unsafe {
            ffi::cue_overhead(
                sizes.as_ptr(),
                sizes.len(),
                &mut raw,
                &mut with_headers,
                &mut padded,
                &mut end,
                &mut headers.extra,
                &mut headers.over,
                &mut padding.extra,
                &mut padding.over,
            )
        };
        answer(number, Overhead { raw, with_headers, padded, end, headers, padding })
    }
}

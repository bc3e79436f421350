use crate::{ffi, Blocks, Pointer, Refusal, Width};
use core::cmp::Ordering;
use core::fmt;

/// An object store on a lent image and a lent table.
///
/// Nothing is kept outside the two slices: they can be saved, restored at another address and [opened](Store::open) again, and
/// pointers keep their meaning.
pub struct Store<'a> {
    image: &'a mut [u8],
    table: &'a mut [u64],
}

/// What is in use, as [`Store::tally`] counts it.
#[derive(Clone, Copy, Debug, PartialEq, Eq)]
pub struct Tally {
    /// Live objects.
    pub objects: u64,
    /// The sum of their sizes.
    pub live_bytes: u64,
    /// The sum of the extents of free blocks. Allocate takes 16 bytes of one block for its header.
    pub free_bytes: u64,
    /// The live blocks' other bytes: 16 for each header, and the spare ones behind the objects.
    ///
    /// Live, free and overhead bytes are the image's length less 16, on every image that is counted.
    pub overhead_bytes: u64,
}

/// How far a pointer's address is from either end of its object's body, as [`Store::distances`] gives it.
#[derive(Clone, Copy, Debug, PartialEq, Eq)]
pub struct Distances {
    /// The address less the body's start: negative before it.
    pub from_start: i64,
    /// The body's end less the address: negative past it.
    ///
    /// The sum of the two is the object's size.
    pub to_end: i64,
}

/// What [`Store::traffic`] has recorded.
#[derive(Clone, Copy, Debug, PartialEq, Eq)]
pub struct Traffic {
    /// The generator's state after the last recorded draw; the given one where there is none.
    pub state: u64,
    /// The bytes of log written.
    pub written: usize,
    /// Whether the log had no space for the next record, so that not all draws were made (C: `CUE_LOG_FULL`, 23).
    pub full: bool,
}

// What traffic answers where the log has no space for the next record.
const LOG_FULL: u32 = 23;

// A number that is neither 0 nor a refusal's means that the archive is not the one this crate was written for.
pub(crate) fn answer<T>(number: u32, value: T) -> Result<T, Refusal> {
    if number == 0 {
        return Ok(value);
    }
    match Refusal::from_number(number) {
        Some(refusal) => Err(refusal),
        None => panic!("libcapi answered {number}, which is no refusal that this crate knows"),
    }
}

impl<'a> Store<'a> {
    /// The table entries that an image uses: what the table needs at least.
    ///
    /// `image_len` is 64..=2^30 and `slot_exponent` 6..=15; elsewhere the number means nothing.
    ///
    /// ```
    /// use cueledger::Store;
    ///
    /// static TABLE: [u64; Store::table_entries(1 << 16, 10)] = [0; Store::table_entries(1 << 16, 10)];
    /// assert_eq!(TABLE.len(), 48 * 32); // 48 for each division of 2^(10 + 1) bytes
    /// ```
    pub const fn table_entries(image_len: usize, slot_exponent: u32) -> usize {
        48 * ((image_len.saturating_sub(1) >> ((slot_exponent & 15) + 1)) + 1)
    }

    /// A fresh store: zeroes the image, writes its superblock and one free block, and zeroes the used table entries. The
    /// [free total](Store::free_total) is the image's length less 16.
    ///
    /// Entries beyond the used ones stay as they are. A larger slot exponent makes the table smaller and more objects
    /// small-framed; with a smaller one [`offset`](Store::offset) refuses nearer to the object.
    ///
    /// Refused with, in this order: [`BadExponent`](Refusal::BadExponent), [`BadLength`](Refusal::BadLength),
    /// [`TooFewEntries`](Refusal::TooFewEntries).
    ///
    /// ```
    /// use cueledger::{Refusal, Store};
    ///
    /// let mut image = [0u8; 1024];
    /// let mut table = [0u64; Store::table_entries(1024, 9)];
    /// assert_eq!(Store::set_up(&mut image, &mut table, 5).err(), Some(Refusal::BadExponent));
    /// assert_eq!(Store::set_up(&mut image[..63], &mut table, 9).err(), Some(Refusal::BadLength));
    /// assert_eq!(Store::set_up(&mut image, &mut table[1..], 9).err(), Some(Refusal::TooFewEntries));
    /// assert!(Store::set_up(&mut image, &mut table, 9).is_ok());
    /// ```
    #[inline]
    pub fn set_up(image: &'a mut [u8], table: &'a mut [u64], slot_exponent: u32) -> Result<Store<'a>, Refusal> {
        // SAFETY: both slices are valid for the call and, borrowed mutably, do not overlap.
        let number = unsafe { ffi::cue_setup(image.as_mut_ptr(), image.len(), table.as_mut_ptr(), table.len(), slot_exponent) };
        answer(number, Store { image, table })
    }

    /// The store that an image and a table already hold.
    ///
    /// The two tests that every call begins with are made here, so none of the methods gives their refusals:
    /// [`BadSuperblock`](Refusal::BadSuperblock), [`ShortTable`](Refusal::ShortTable), in this order. Headers and entries are not
    /// looked at.
    ///
    /// ```
    /// use cueledger::{Refusal, Store, Width};
    ///
    /// let mut image = [0u8; 1024];
    /// let mut table = [0u64; Store::table_entries(1024, 9)];
    /// assert_eq!(Store::open(&mut image, &mut table).err(), Some(Refusal::BadSuperblock));
    ///
    /// let record = Store::set_up(&mut image, &mut table, 9)?.allocate(10, 7)?;
    /// assert_eq!(Store::open(&mut image, &mut table[1..]).err(), Some(Refusal::ShortTable));
    ///
    /// let (mut saved_image, mut saved_table) = (image.to_vec(), table.to_vec());
    /// assert_eq!(Store::open(&mut saved_image, &mut saved_table)?.load(record, Width::Four), Ok(0));
    /// # Ok::<(), Refusal>(())
    /// ```
    #[inline]
    pub fn open(image: &'a mut [u8], table: &'a mut [u64]) -> Result<Store<'a>, Refusal> {
        let store = Store { image, table };
        // no slot exponent admits tag number 0, so a sound superblock and table leave BadTag
        match store.offset(Pointer::from(0), 0) {
            Err(refusal @ (Refusal::BadSuperblock | Refusal::ShortTable)) => Err(refusal),
            _ => Ok(store),
        }
    }

    /// A repeatable load, under which controllers are accepted: [sets the store up](Store::set_up), whatever image and table held, and
    /// makes one call for each draw: an allocate of 1 to 97 bytes, a free, or a store of one byte, with at most 64 objects live. Equal
    /// arguments give the same calls; `docs/FORMAT.md` has the rule.
    ///
    /// Each call's record is written into `log`, for the program `replay`; the bytes behind the last one stay. Where there is no space for the
    /// next record, its call is not made, and what was recorded stands: that is [`full`](Traffic::full), and no refusal.
    ///
    /// Refused as [`set_up`](Store::set_up), with nothing written.
    ///
    /// ```
    /// use cueledger::{Refusal, Store, Traffic};
    ///
    /// let (mut image, mut table, mut log) = ([0u8; 8192], [0u64; Store::table_entries(8192, 8)], [0u8; 65_536]);
    /// let all = Store::traffic(&mut image, &mut table, 8, 0, 1_000, &mut log)?;
    /// assert!(!all.full);
    /// assert_eq!(log[..4], [10, 0, 16, 0]); // the first record is an allocate's
    /// println!("{:?}", Store::open(&mut image, &mut table)?.tally()?);
    ///
    /// let cut = Store::traffic(&mut image, &mut table, 8, 0, 1_000, &mut log[..21])?;
    /// assert_eq!(cut, Traffic { state: 0x9e37_79b9_7f4a_7c15, written: 10, full: true }); // 11 bytes are left
    /// # Ok::<(), Refusal>(())
    /// ```
    #[inline]
    pub fn traffic(image: &mut [u8], table: &mut [u64], slot_exponent: u32, state: u64, draws: u64, log: &mut [u8]) -> Result<Traffic, Refusal> {
        let (mut after, mut written) = (0, 0);
        let (bytes, n, entries, m) = (image.as_mut_ptr(), image.len(), table.as_mut_ptr(), table.len());
        // SAFETY: as in `set_up`, the log with the two slices; the two values are locals of their own.
        let number = unsafe { ffi::cue_traffic(bytes, n, entries, m, slot_exponent, state, draws, log.as_mut_ptr(), log.len(), &mut after, &mut written) };
        let full = number == LOG_FULL;
        answer(if full { 0 } else { number }, Traffic { state: after, written: written as usize, full })
    }

    /// The image's bytes, to save them.
    ///
    /// ```
    /// # use cueledger::{Refusal, Store};
    /// # let (mut image, mut table) = ([0u8; 1024], [0u64; Store::table_entries(1024, 9)]);
    /// let store = Store::set_up(&mut image, &mut table, 9)?;
    /// assert_eq!(store.image()[..8], [16, 0, 0, 0, 3, 0, 9, 0]); // length, kind and slot exponent
    /// # Ok::<(), Refusal>(())
    /// ```
    pub const fn image(&self) -> &[u8] {
        self.image
    }

    /// The table's entries, to save them.
    ///
    /// ```
    /// # use cueledger::{Refusal, Store};
    /// # let (mut image, mut table) = ([0u8; 1024], [0u64; Store::table_entries(1024, 9)]);
    /// let mut store = Store::set_up(&mut image, &mut table, 9)?;
    /// store.allocate(600, 7)?; // too large for a slot of 2^9 bytes: its entry holds the header's place
    /// assert_eq!(store.table()[0], 16);
    /// # Ok::<(), Refusal>(())
    /// ```
    pub const fn table(&self) -> &[u64] {
        self.table
    }

    /// Allocates `size` bytes in the lowest free block that fits and gives the tagged pointer to their start.
    ///
    /// The body is not written; it is zero on an image that only these calls have written since [`Store::set_up`]. The
    /// [free total](Store::free_total) falls by the object's extent.
    ///
    /// Size 0 gives an object of no bytes, a header without a body: no other live object has its pointer, and nothing can be
    /// read or written through it. Its address may be the image's length.
    ///
    /// Refused with, in this order: [`Unsound`](Refusal::Unsound) or [`NoSpace`](Refusal::NoSpace), as the walk over the blocks
    /// ends; [`EntryTaken`](Refusal::EntryTaken); [`WrongTotal`](Refusal::WrongTotal). The last two never occur where only these
    /// calls have written, through pointers of live objects.
    ///
    /// ```
    /// # use cueledger::{Refusal, Store, Width};
    /// # let (mut image, mut table) = ([0u8; 1024], [0u64; Store::table_entries(1024, 9)]);
    /// let mut store = Store::set_up(&mut image, &mut table, 9)?;
    /// assert_eq!(store.allocate(10, 7)?.address(), 32); // 16 bytes of superblock, 16 of header
    /// assert_eq!(store.allocate(1000, 7), Err(Refusal::NoSpace));
    ///
    /// let empty = store.allocate(0, 7)?;
    /// assert_eq!(empty.address(), 58); // behind its header
    /// assert_eq!(store.load(empty, Width::One), Err(Refusal::OutOfBounds));
    /// # Ok::<(), Refusal>(())
    /// ```
    #[inline]
    pub fn allocate(&mut self, size: u32, type_number: u16) -> Result<Pointer, Refusal> {
        let mut pointer = 0;
        // SAFETY: as in `set_up`; `pointer` is a local of its own.
        let number =
            unsafe { ffi::cue_allocate(self.image.as_mut_ptr(), self.image.len(), self.table.as_mut_ptr(), self.table.len(), size, type_number, &mut pointer) };
        answer(number, pointer.into())
    }

    /// Allocates as [`allocate`](Store::allocate) does, for a cue: [`release`](Store::release) frees all objects of a cue together.
    /// `allocate` is the same for cue 0.
    ///
    /// Refused as `allocate`.
    ///
    /// ```
    /// # use cueledger::{Refusal, Store};
    /// # let (mut image, mut table) = ([0u8; 1024], [0u64; Store::table_entries(1024, 9)]);
    /// let mut store = Store::set_up(&mut image, &mut table, 9)?;
    /// assert_eq!(store.allocate_for(10, 7, 12)?.address(), 32);
    /// assert_eq!(store.blocks().next().unwrap()?.cue, 12);
    /// # Ok::<(), Refusal>(())
    /// ```
    #[inline]
    pub fn allocate_for(&mut self, size: u32, type_number: u16, cue: u32) -> Result<Pointer, Refusal> {
        let mut pointer = 0;
        let (image, table) = (&mut *self.image, &mut *self.table);
        // SAFETY: as in `allocate`.
        let number = unsafe { ffi::cue_allocate_for(image.as_mut_ptr(), image.len(), table.as_mut_ptr(), table.len(), size, type_number, cue, &mut pointer) };
        answer(number, pointer.into())
    }

    /// Moves a pointer by a signed distance (C: `cue_move`). The tag stays; no header is read.
    ///
    /// The new address must be in the pointer's slot or frame, not necessarily in its object.
    ///
    /// Refused with, in this order: [`BadTag`](Refusal::BadTag), [`Leaves`](Refusal::Leaves).
    ///
    /// ```
    /// # use cueledger::{Refusal, Store};
    /// # let (mut image, mut table) = ([0u8; 1024], [0u64; Store::table_entries(1024, 9)]);
    /// let mut store = Store::set_up(&mut image, &mut table, 9)?;
    /// let record = store.allocate(10, 7)?; // small-framed, in the slot 0..512
    /// assert_eq!(store.offset(record, 511 - 32)?.address(), 511);
    /// assert_eq!(store.offset(record, 512 - 32), Err(Refusal::Leaves));
    /// # Ok::<(), Refusal>(())
    /// ```
    #[inline]
    pub fn offset(&self, pointer: Pointer, distance: i64) -> Result<Pointer, Refusal> {
        let mut moved = 0;
        // SAFETY: both slices are valid for the call and only read; `moved` is a local of its own.
        let number =
            unsafe { ffi::cue_move(self.image.as_ptr(), self.image.len(), self.table.as_ptr(), self.table.len(), pointer.into(), distance, &mut moved) };
        answer(number, moved.into())
    }

    /// How far a pointer's address is from either end of its object's body.
    ///
    /// `n` bytes from the address on are inside the body exactly where `from_start >= 0` and `to_end >= n`. The address need not be inside
    /// the body, only in the pointer's slot or frame: wherever [`offset`](Store::offset) leads to.
    ///
    /// Refused with, in this order: [`BadTag`](Refusal::BadTag), [`Dangling`](Refusal::Dangling).
    ///
    /// ```
    /// # use cueledger::{Distances, Refusal, Store};
    /// # let (mut image, mut table) = ([0u8; 1024], [0u64; Store::table_entries(1024, 9)]);
    /// let mut store = Store::set_up(&mut image, &mut table, 9)?;
    /// let record = store.allocate(10, 7)?;
    /// assert_eq!(store.distances(record), Ok(Distances { from_start: 0, to_end: 10 }));
    /// assert_eq!(store.distances(store.offset(record, 4)?), Ok(Distances { from_start: 4, to_end: 6 }));
    /// assert_eq!(store.distances(store.offset(record, -1)?), Ok(Distances { from_start: -1, to_end: 11 }));
    /// assert_eq!(store.distances(store.offset(record, 11)?), Ok(Distances { from_start: 11, to_end: -1 }));
    /// store.free(record)?;
    /// assert_eq!(store.distances(record), Err(Refusal::Dangling));
    /// # Ok::<(), Refusal>(())
    /// ```
    #[inline]
    pub fn distances(&self, pointer: Pointer) -> Result<Distances, Refusal> {
        let (mut from_start, mut to_end) = (0, 0);
        let (image, table) = (self.image(), self.table());
        // SAFETY: as in `offset`; the two values are locals of their own.
        let number = unsafe { ffi::cue_distances(image.as_ptr(), image.len(), table.as_ptr(), table.len(), pointer.into(), &mut from_start, &mut to_end) };
        answer(number, Distances { from_start, to_end })
    }

    /// Type check before a cast: whether the object's type has the type `wanted` at the pointer's distance from the base.
    ///
    /// A type has another one at an offset when it is that type and the offset is 0, or when one of its fields has it there. So a pointer to a
    /// record may be taken for one to the record's first field, and one moved to a field's offset for one to that field. Before the base,
    /// between fields, at the end and past it the answer is no, and for a type that is not listed too. Nothing is written.
    ///
    /// `descriptors` lists the types, one after another: [`descriptor`](crate::descriptor) makes their bytes. Time grows with the list:
    /// see `include/cueledger.h`.
    ///
    /// Refused with, in this order: [`BadDescriptor`](Refusal::BadDescriptor), whatever the pointer; [`BadTag`](Refusal::BadTag),
    /// [`Dangling`](Refusal::Dangling); [`Undescribed`](Refusal::Undescribed).
    ///
    /// ```
    /// # use cueledger::{descriptor, Refusal, Store};
    /// # let (mut image, mut table) = ([0u8; 1024], [0u64; Store::table_entries(1024, 9)]);
    /// const NUMBER: u16 = 1; // 4 bytes
    /// const SAMPLE: u16 = 2; // a number at 0, and one at 8
    /// let mut list = Vec::new();
    /// list.extend(descriptor::plain(NUMBER, 4));
    /// list.extend(descriptor::record(SAMPLE, 12, 2));
    /// list.extend(descriptor::field(0, NUMBER));
    /// list.extend(descriptor::field(8, NUMBER));
    ///
    /// let mut store = Store::set_up(&mut image, &mut table, 9)?;
    /// let sample = store.allocate(12, SAMPLE)?;
    /// assert_eq!(store.has_type(&list, sample, SAMPLE), Ok(true));
    /// assert_eq!(store.has_type(&list, sample, NUMBER), Ok(true)); // its first field
    /// assert_eq!(store.has_type(&list, store.offset(sample, 8)?, NUMBER), Ok(true));
    /// assert_eq!(store.has_type(&list, store.offset(sample, 4)?, NUMBER), Ok(false)); // between its fields
    /// assert_eq!(store.has_type(&list[..12], sample, NUMBER), Err(Refusal::Undescribed));
    /// assert_eq!(store.has_type(&list[..13], sample, NUMBER), Err(Refusal::BadDescriptor));
    /// # Ok::<(), Refusal>(())
    /// ```
    #[inline]
    pub fn has_type(&self, descriptors: &[u8], pointer: Pointer, wanted: u16) -> Result<bool, Refusal> {
        let mut yes = 0;
        let (image, table) = (self.image(), self.table());
        // SAFETY: as in `offset`; the third slice is valid for the call and only read, too.
        let number = unsafe {
            ffi::cue_has_type(
                image.as_ptr(),
                image.len(),
                table.as_ptr(),
                table.len(),
                descriptors.as_ptr(),
                descriptors.len(),
                pointer.into(),
                wanted,
                &mut yes,
            )
        };
        answer(number, yes == 1)
    }

    /// Loads a number of `width` bytes, little-endian.
    ///
    /// Refused with, in this order: [`BadTag`](Refusal::BadTag), [`Dangling`](Refusal::Dangling),
    /// [`OutOfBounds`](Refusal::OutOfBounds).
    ///
    /// ```
    /// # use cueledger::{Refusal, Store, Width};
    /// # let (mut image, mut table) = ([0u8; 1024], [0u64; Store::table_entries(1024, 9)]);
    /// let mut store = Store::set_up(&mut image, &mut table, 9)?;
    /// let record = store.allocate(10, 7)?;
    /// assert_eq!(store.load(record, Width::Eight), Ok(0));
    /// assert_eq!(store.load(store.offset(record, 3)?, Width::Eight), Err(Refusal::OutOfBounds));
    /// # Ok::<(), Refusal>(())
    /// ```
    #[inline]
    pub fn load(&self, pointer: Pointer, width: Width) -> Result<u64, Refusal> {
        let mut value = 0;
        // SAFETY: as in `offset`.
        let number =
            unsafe { ffi::cue_load(self.image.as_ptr(), self.image.len(), self.table.as_ptr(), self.table.len(), pointer.into(), width.bytes(), &mut value) };
        answer(number, value)
    }

    /// Stores a number in `width` bytes, little-endian.
    ///
    /// Refused with, in this order: [`TooLarge`](Refusal::TooLarge), [`BadTag`](Refusal::BadTag),
    /// [`Dangling`](Refusal::Dangling), [`OutOfBounds`](Refusal::OutOfBounds).
    ///
    /// ```
    /// # use cueledger::{Refusal, Store, Width};
    /// # let (mut image, mut table) = ([0u8; 1024], [0u64; Store::table_entries(1024, 9)]);
    /// let mut store = Store::set_up(&mut image, &mut table, 9)?;
    /// let record = store.allocate(10, 7)?;
    /// store.store(record, Width::Three, 0xff_ffff)?;
    /// assert_eq!(store.load(record, Width::Three), Ok(0xff_ffff));
    /// assert_eq!(store.store(record, Width::Three, 0x100_0000), Err(Refusal::TooLarge));
    /// # Ok::<(), Refusal>(())
    /// ```
    #[inline]
    pub fn store(&mut self, pointer: Pointer, width: Width, value: u64) -> Result<(), Refusal> {
        // SAFETY: both slices are valid for the call and do not overlap; the table is only read.
        let number =
            unsafe { ffi::cue_store(self.image.as_mut_ptr(), self.image.len(), self.table.as_ptr(), self.table.len(), pointer.into(), width.bytes(), value) };
        answer(number, ())
    }

    /// Frees the object whose start `pointer` is, merges its block with free neighbours and zeroes what it held. The
    /// [free total](Store::free_total) grows by the object's extent. Where only these calls have written, through pointers of live
    /// objects, two objects may be freed in either order: image and table are then the same.
    ///
    /// Refused with, in this order: [`BadTag`](Refusal::BadTag), [`Dangling`](Refusal::Dangling), [`NotBase`](Refusal::NotBase),
    /// [`Unsound`](Refusal::Unsound), [`WrongTotal`](Refusal::WrongTotal). The last never occurs where only these calls have written,
    /// through pointers of live objects.
    ///
    /// ```
    /// # use cueledger::{Refusal, Store};
    /// # let (mut image, mut table) = ([0u8; 1024], [0u64; Store::table_entries(1024, 9)]);
    /// let mut store = Store::set_up(&mut image, &mut table, 9)?;
    /// let record = store.allocate(10, 7)?;
    /// assert_eq!(store.free(store.offset(record, 1)?), Err(Refusal::NotBase));
    /// store.free(record)?;
    /// assert_eq!(store.free(record), Err(Refusal::Dangling));
    /// # Ok::<(), Refusal>(())
    /// ```
    #[inline]
    pub fn free(&mut self, pointer: Pointer) -> Result<(), Refusal> {
        // SAFETY: as in `set_up`.
        let number = unsafe { ffi::cue_free(self.image.as_mut_ptr(), self.image.len(), self.table.as_mut_ptr(), self.table.len(), pointer.into()) };
        answer(number, ())
    }

    /// Frees all objects of a cue and gives how many: none where no object carries it.
    ///
    /// Image and table are then as if each had been [freed](Store::free), in the order of their addresses. Cue 0 is that of the
    /// objects of [`allocate`](Store::allocate). Where only these calls have written, through pointers of live objects, two cues may be
    /// released in either order: image, table and both numbers are the same.
    ///
    /// Refused with, in this order: [`Unsound`](Refusal::Unsound), wherever in the image; [`EntryLost`](Refusal::EntryLost);
    /// [`WrongTotal`](Refusal::WrongTotal), asked of all the objects' extents together, and also where there are none. None of them
    /// occurs where only these calls have written, through pointers of live objects.
    ///
    /// ```
    /// # use cueledger::{Refusal, Store, Width};
    /// # let (mut image, mut table) = ([0u8; 1024], [0u64; Store::table_entries(1024, 9)]);
    /// let mut store = Store::set_up(&mut image, &mut table, 9)?;
    /// let [first, other, second] = [store.allocate_for(10, 7, 12)?, store.allocate(10, 7)?, store.allocate_for(20, 7, 12)?];
    /// assert_eq!(store.release(12), Ok(2));
    /// assert_eq!([first, second].map(|buffer| store.load(buffer, Width::One)), [Err(Refusal::Dangling); 2]);
    /// assert_eq!(store.load(other, Width::One), Ok(0));
    /// assert_eq!(store.release(12), Ok(0));
    /// # Ok::<(), Refusal>(())
    /// ```
    #[inline]
    pub fn release(&mut self, cue: u32) -> Result<u64, Refusal> {
        let mut count = 0;
        // SAFETY: as in `set_up`; `count` is a local of its own.
        let number = unsafe { ffi::cue_release(self.image.as_mut_ptr(), self.image.len(), self.table.as_mut_ptr(), self.table.len(), cue, &mut count) };
        answer(number, count)
    }

    /// Sets `length` bytes to `value`.
    ///
    /// Refused with, in this order: [`Empty`](Refusal::Empty), [`BadTag`](Refusal::BadTag), [`Dangling`](Refusal::Dangling),
    /// [`OutOfBounds`](Refusal::OutOfBounds).
    ///
    /// ```
    /// # use cueledger::{Refusal, Store, Width};
    /// # let (mut image, mut table) = ([0u8; 1024], [0u64; Store::table_entries(1024, 9)]);
    /// let mut store = Store::set_up(&mut image, &mut table, 9)?;
    /// let record = store.allocate(10, 7)?;
    /// store.fill(record, 10, 0xff)?;
    /// assert_eq!(store.load(record, Width::Two), Ok(0xffff));
    /// assert_eq!(store.fill(record, 11, 0xff), Err(Refusal::OutOfBounds));
    /// # Ok::<(), Refusal>(())
    /// ```
    #[inline]
    pub fn fill(&mut self, pointer: Pointer, length: u32, value: u8) -> Result<(), Refusal> {
        // SAFETY: as in `store`.
        let number = unsafe { ffi::cue_fill(self.image.as_mut_ptr(), self.image.len(), self.table.as_ptr(), self.table.len(), pointer.into(), length, value) };
        answer(number, ())
    }

    /// Copies `length` bytes from `source` to `target` as if all were read first: the two may overlap.
    ///
    /// Refused with, in this order: [`Empty`](Refusal::Empty); the target's [`BadTag`](Refusal::BadTag),
    /// [`Dangling`](Refusal::Dangling), [`OutOfBounds`](Refusal::OutOfBounds); then the source's.
    ///
    /// ```
    /// # use cueledger::{Refusal, Store, Width};
    /// # let (mut image, mut table) = ([0u8; 1024], [0u64; Store::table_entries(1024, 9)]);
    /// let mut store = Store::set_up(&mut image, &mut table, 9)?;
    /// let record = store.allocate(10, 7)?;
    /// store.store(record, Width::Eight, 0x0807_0605_0403_0201)?;
    /// store.copy(store.offset(record, 2)?, record, 8)?; // six bytes in common
    /// assert_eq!(store.load(record, Width::Eight), Ok(0x0605_0403_0201_0201));
    /// # Ok::<(), Refusal>(())
    /// ```
    #[inline]
    pub fn copy(&mut self, target: Pointer, source: Pointer, length: u32) -> Result<(), Refusal> {
        // SAFETY: as in `store`.
        let number =
            unsafe { ffi::cue_copy(self.image.as_mut_ptr(), self.image.len(), self.table.as_ptr(), self.table.len(), target.into(), source.into(), length) };
        answer(number, ())
    }

    /// Compares `length` bytes as slices are compared: by the first byte that differs, unsigned. A zero byte does not end it.
    ///
    /// Refused with, in this order: [`Empty`](Refusal::Empty); the left's [`BadTag`](Refusal::BadTag),
    /// [`Dangling`](Refusal::Dangling), [`OutOfBounds`](Refusal::OutOfBounds); then the right's.
    ///
    /// ```
    /// # use cueledger::{Refusal, Store, Width};
    /// # use std::cmp::Ordering;
    /// # let (mut image, mut table) = ([0u8; 1024], [0u64; Store::table_entries(1024, 9)]);
    /// let mut store = Store::set_up(&mut image, &mut table, 9)?;
    /// let [left, right] = [store.allocate(8, 7)?, store.allocate(8, 7)?];
    /// store.store(left, Width::Eight, u64::from_le_bytes(*b"winch 1\0"))?;
    /// store.store(right, Width::Eight, u64::from_le_bytes(*b"winch 2\0"))?;
    /// assert_eq!(store.compare(left, right, 6), Ok(Ordering::Equal));
    /// assert_eq!(store.compare(left, right, 8), Ok(Ordering::Less));
    /// assert_eq!(store.compare(left, right, 9), Err(Refusal::OutOfBounds));
    /// # Ok::<(), Refusal>(())
    /// ```
    #[inline]
    pub fn compare(&self, left: Pointer, right: Pointer, length: u32) -> Result<Ordering, Refusal> {
        let mut order = 0;
        let (image, table) = (self.image(), self.table());
        // SAFETY: as in `offset`.
        let number = unsafe { ffi::cue_compare(image.as_ptr(), image.len(), table.as_ptr(), table.len(), left.into(), right.into(), length, &mut order) };
        answer(number, order.cmp(&0))
    }

    /// Copies a text from `source` to `target`, up to and including its first zero byte, and gives the number of bytes copied.
    ///
    /// It is copied as if all bytes were read first: the two may overlap. The zero byte counts, so that a text of 5 letters
    /// takes 6 bytes in the target.
    ///
    /// Refused with, in this order: the source's [`BadTag`](Refusal::BadTag), [`Dangling`](Refusal::Dangling),
    /// [`OutOfBounds`](Refusal::OutOfBounds) for its first byte; [`Unterminated`](Refusal::Unterminated); then the target's, for
    /// all bytes.
    ///
    /// ```
    /// # use cueledger::{Refusal, Store, Width};
    /// # let (mut image, mut table) = ([0u8; 1024], [0u64; Store::table_entries(1024, 9)]);
    /// let mut store = Store::set_up(&mut image, &mut table, 9)?;
    /// let [name, copy, short] = [store.allocate(8, 7)?, store.allocate(8, 7)?, store.allocate(5, 7)?];
    /// store.store(name, Width::Eight, u64::from_le_bytes(*b"winch\0??"))?;
    /// assert_eq!(store.copy_text(copy, name), Ok(6));
    /// assert_eq!(store.load(copy, Width::Eight), Ok(u64::from_le_bytes(*b"winch\0\0\0")));
    /// assert_eq!(store.copy_text(short, name), Err(Refusal::OutOfBounds)); // no room for the zero byte
    /// assert_eq!(store.copy_text(copy, store.offset(name, 6)?), Err(Refusal::Unterminated));
    /// # Ok::<(), Refusal>(())
    /// ```
    #[inline]
    pub fn copy_text(&mut self, target: Pointer, source: Pointer) -> Result<u64, Refusal> {
        let mut copied = 0;
        // SAFETY: as in `store`; `copied` is a local of its own.
        let number = unsafe {
            ffi::cue_copy_text(self.image.as_mut_ptr(), self.image.len(), self.table.as_ptr(), self.table.len(), target.into(), source.into(), &mut copied)
        };
        answer(number, copied)
    }

    /// Walks the image and counts what is in use.
    ///
    /// Refused with [`Unsound`](Refusal::Unsound).
    ///
    /// ```
    /// # use cueledger::{Refusal, Store, Tally};
    /// # let (mut image, mut table) = ([0u8; 1024], [0u64; Store::table_entries(1024, 9)]);
    /// let mut store = Store::set_up(&mut image, &mut table, 9)?;
    /// store.allocate(10, 7)?;
    /// assert_eq!(store.tally(), Ok(Tally { objects: 1, live_bytes: 10, free_bytes: 982, overhead_bytes: 16 }));
    /// # Ok::<(), Refusal>(())
    /// ```
    #[inline]
    pub fn tally(&self) -> Result<Tally, Refusal> {
        let (mut objects, mut live_bytes, mut free_bytes, mut overhead_bytes) = (0, 0, 0, 0);
        let (image, table) = (self.image(), self.table());
        // SAFETY: as in `offset`; the four values are locals of their own.
        let number = unsafe {
            ffi::cue_tally(image.as_ptr(), image.len(), table.as_ptr(), table.len(), &mut objects, &mut live_bytes, &mut free_bytes, &mut overhead_bytes)
        };
        answer(number, Tally { objects, live_bytes, free_bytes, overhead_bytes })
    }

    /// The free bytes as the superblock has them, in constant time.
    ///
    /// They are [`tally`](Store::tally)'s free bytes where only these calls have written, through pointers of live objects. On a damaged
    /// image they are any number of 32 bits.
    ///
    /// No store that was [opened](Store::open) or [set up](Store::set_up) refuses it.
    ///
    /// ```
    /// # use cueledger::{Refusal, Store};
    /// # let (mut image, mut table) = ([0u8; 1024], [0u64; Store::table_entries(1024, 9)]);
    /// let mut store = Store::set_up(&mut image, &mut table, 9)?;
    /// assert_eq!(store.free_total(), Ok(1008));
    /// let record = store.allocate(10, 7)?;
    /// assert_eq!(store.free_total(), Ok(1008 - 26)); // 16 bytes of header, 10 of body
    /// store.free(record)?;
    /// assert_eq!(store.free_total(), Ok(1008));
    /// # Ok::<(), Refusal>(())
    /// ```
    #[inline]
    pub fn free_total(&self) -> Result<u64, Refusal> {
        let mut total = 0;
        // SAFETY: as in `offset`.
        let number = unsafe { ffi::cue_free_total(self.image.as_ptr(), self.image.len(), self.table.as_ptr(), self.table.len(), &mut total) };
        answer(number, total)
    }

    /// The blocks of the image, free and live, in the order of their places.
    ///
    /// ```
    /// # use cueledger::{Kind, Refusal, Store};
    /// # let (mut image, mut table) = ([0u8; 1024], [0u64; Store::table_entries(1024, 9)]);
    /// let mut store = Store::set_up(&mut image, &mut table, 9)?;
    /// store.allocate(10, 7)?;
    /// for block in store.blocks() {
    ///     let block = block?;
    ///     println!("{} bytes at {}: {:?}", block.extent, block.place, block.kind);
    /// }
    /// assert_eq!(store.blocks().filter(|block| block.is_ok_and(|block| block.kind == Kind::Live)).count(), 1);
    /// # Ok::<(), Refusal>(())
    /// ```
    pub const fn blocks(&self) -> Blocks<'_> {
        Blocks::new(self.image())
    }
}

impl fmt::Debug for Store<'_> {
    fn fmt(&self, f: &mut fmt::Formatter<'_>) -> fmt::Result {
        f.debug_struct("Store").field("image_len", &self.image.len()).field("table_len", &self.table.len()).finish_non_exhaustive()
    }
}

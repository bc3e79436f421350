use core::fmt;

/// A tagged pointer to a byte of the image: the address in the low 48 bits, 15 bits of tag number above, the flag on top.
///
/// [`Store::allocate`](crate::Store::allocate) gives one, [`Store::offset`](crate::Store::offset) moves it. Any number is a
/// `Pointer`; whether it leads to a live object is tested by each call that reads or writes through it, and by
/// [`Store::distances`](crate::Store::distances). As a number it can be kept anywhere, inside an object too.
///
/// ```
/// use cueledger::Pointer;
///
/// let pointer = Pointer::from(0x8010_0000_0000_0020);
/// assert_eq!((pointer.flag(), pointer.tag(), pointer.address()), (true, 16, 32));
/// assert_eq!(u64::from(pointer), 0x8010_0000_0000_0020);
/// assert_eq!(format!("{pointer:?}"), "Pointer { flag: true, tag: 16, address: 32 }");
/// ```
#[derive(Clone, Copy, PartialEq, Eq, Hash)]
#[repr(transparent)]
pub struct Pointer(u64);

impl Pointer {
    /// Whether the object is small-framed: header, body and the byte behind them inside one slot.
    ///
    /// ```
    /// # use cueledger::Pointer;
    /// assert!(!Pointer::from(0x0007_0000_0000_003a).flag());
    /// ```
    pub const fn flag(self) -> bool {
        self.0 >> 63 == 1
    }

    /// The tag number: the header's distance from its slot's start, or, large-framed, the exponent of the object's frame.
    ///
    /// ```
    /// # use cueledger::Pointer;
    /// assert_eq!(Pointer::from(0x0007_0000_0000_003a).tag(), 7);
    /// ```
    pub const fn tag(self) -> u16 {
        (self.0 >> 48) as u16 & 0x7fff
    }

    /// The place in the image.
    ///
    /// ```
    /// # use cueledger::Pointer;
    /// assert_eq!(Pointer::from(0x0007_0000_0000_003a).address(), 0x3a);
    /// ```
    pub const fn address(self) -> u64 {
        self.0 & 0xffff_ffff_ffff
    }
}

impl From<u64> for Pointer {
    fn from(number: u64) -> Pointer {
        Pointer(number)
    }
}

impl From<Pointer> for u64 {
    fn from(pointer: Pointer) -> u64 {
        pointer.0
    }
}

impl fmt::Debug for Pointer {
    fn fmt(&self, f: &mut fmt::Formatter<'_>) -> fmt::Result {
        f.debug_struct("Pointer").field("flag", &self.flag()).field("tag", &self.tag()).field("address", &self.address()).finish()
    }
}

use core::fmt;

/// Why a call was declined, under the names of the proved library. A refused call has changed no byte of image or table.
///
/// ```
/// use cueledger::Refusal;
///
/// assert_eq!(Refusal::from_number(13), Some(Refusal::OutOfBounds));
/// assert_eq!(Refusal::OutOfBounds.to_string(), "bytes not all inside the body (13)");
/// assert_eq!(Refusal::ALL.map(Refusal::number)[..3], [1, 2, 3]);
/// ```
#[derive(Clone, Copy, Debug, PartialEq, Eq, Hash)]
#[repr(u8)]
pub enum Refusal {
    /// 1, set-up: the slot exponent is outside 6..=15.
    BadExponent = 1,
    /// 2, set-up: the image's length is outside 64..=2^30.
    BadLength = 2,
    /// 3, set-up: the table is shorter than the used entries.
    TooFewEntries = 3,
    /// 4: the image is under 16 bytes, or its superblock is not as laid out, out of range, or for another length.
    BadSuperblock = 4,
    /// 5: the table is shorter than the used entries.
    ShortTable = 5,
    /// 6, fill, copy, compare: the length is 0.
    Empty = 6,
    /// 7: the walk met an unsound header; free: it passed the object's header without meeting it, or the next one is unsound.
    ///
    /// Something else has written into the image. Allocate, free and release nothing more there. Objects that their pointers still
    /// reach can be loaded; save image and table for diagnosis, then set the store up afresh.
    Unsound = 7,
    /// 8: the walk reached the image's end and no free block fits.
    NoSpace = 8,
    /// 9: the new object's table entry is not zero.
    EntryTaken = 9,
    /// 10: the pointer's tag number is out of range.
    BadTag = 10,
    /// 11: the tag leads to no live header that has this tag.
    Dangling = 11,
    /// 12: the move leaves the slot, the frame or 48 bits.
    Leaves = 12,
    /// 13: the bytes are not all inside the body.
    OutOfBounds = 13,
    /// 14: the width is outside 1 to 8.
    BadWidth = 14,
    /// 15, free: the address is not the object's base.
    NotBase = 15,
    /// 16, store: the value is too large for the width.
    TooLarge = 16,
    /// 20, text copy: no byte from the source's address to the end of its body is zero.
    Unterminated = 20,
    /// 21, release: the table entry of a large-framed object of the cue does not hold the place of its header.
    ///
    /// Something else has written into the table, or it is another image's.
    EntryLost = 21,
    /// 22: allocate would take the free total below zero, or free or release leave it above the image's length less 16.
    ///
    /// Something else has written into the image, as for [`Unsound`](Refusal::Unsound); or it was set up before 1.4.0, and
    /// README.md, "Saving", says how to take it over.
    WrongTotal = 22,
    /// 24, type check: a descriptor of the list is cut short, of an unknown kind, of size 0, of a length that is not 12 (or, for a record,
    /// 12 and whole fields), of a type that is described before it, or has a bad field: one that names no earlier type, starts before
    /// the end of the field before it, or does not fit inside its record's size.
    BadDescriptor = 24,
    /// 25, type check: the object's type is not listed, or the object has fewer bytes than it is described with.
    Undescribed = 25,
    /// 26, order: there is no size or more than 8, a size is above 65,535, or the slot exponent is outside 6..=15.
    BadPlan = 26,
    /// 27, order: the budget of orders is 0.
    NoBudget = 27,
    /// 28, overhead: there are more than 65,536 sizes.
    TooManySizes = 28,
    /// 29, overhead: a size is outside 1..=65,536.
    BadSize = 29,
}

impl Refusal {
    /// Every refusal, in the order of its number.
    pub const ALL: [Refusal; 25] = [
        Refusal::BadExponent,
        Refusal::BadLength,
        Refusal::TooFewEntries,
        Refusal::BadSuperblock,
        Refusal::ShortTable,
        Refusal::Empty,
        Refusal::Unsound,
        Refusal::NoSpace,
        Refusal::EntryTaken,
        Refusal::BadTag,
        Refusal::Dangling,
        Refusal::Leaves,
        Refusal::OutOfBounds,
        Refusal::BadWidth,
        Refusal::NotBase,
        Refusal::TooLarge,
        Refusal::Unterminated,
        Refusal::EntryLost,
        Refusal::WrongTotal,
        Refusal::BadDescriptor,
        Refusal::Undescribed,
        Refusal::BadPlan,
        Refusal::NoBudget,
        Refusal::TooManySizes,
        Refusal::BadSize,
    ];

    /// The number that the exports return: 1 to 16, 20 to 22, or 24 to 29. 17 to 19 are a call log's, and 23 is no refusal here but
    /// [`Traffic::full`](crate::Traffic::full): what was recorded stands, and a refused call has changed nothing.
    ///
    /// ```
    /// # use cueledger::Refusal;
    /// assert_eq!(Refusal::Unsound.number(), 7);
    /// ```
    pub const fn number(self) -> u32 {
        self as u32
    }

    /// The refusal with this number, if there is one.
    ///
    /// ```
    /// # use cueledger::Refusal;
    /// assert_eq!(Refusal::from_number(7), Some(Refusal::Unsound));
    /// assert_eq!(Refusal::from_number(0), None); // accepted
    /// assert_eq!(Refusal::from_number(17), None); // a malformed record of a call log
    /// assert_eq!(Refusal::from_number(23), None); // a log that traffic has filled
    /// ```
    pub const fn from_number(number: u32) -> Option<Refusal> {
        let place = match number {
            1..=16 => number - 1,
            20..=22 => number - 4,
            24..=29 => number - 5,
            _ => return None,
        };
        Some(Self::ALL[place as usize])
    }

    /// The reason in words, as `cue_reason` of the C header has it.
    ///
    /// ```
    /// # use cueledger::Refusal;
    /// assert_eq!(Refusal::NoSpace.reason(), "no free block fits");
    /// ```
    pub const fn reason(self) -> &'static str {
        match self {
            Refusal::BadExponent => "slot exponent outside 6 to 15",
            Refusal::BadLength => "image length outside 64 to 2^30",
            Refusal::TooFewEntries => "table too short to set up",
            Refusal::BadSuperblock => "superblock not as laid out",
            Refusal::ShortTable => "table shorter than the used entries",
            Refusal::Empty => "length 0",
            Refusal::Unsound => "walk meets an unsound header",
            Refusal::NoSpace => "no free block fits",
            Refusal::EntryTaken => "table entry not zero",
            Refusal::BadTag => "tag number out of range",
            Refusal::Dangling => "tag leads to no live object",
            Refusal::Leaves => "move leaves slot, frame or 48 bits",
            Refusal::OutOfBounds => "bytes not all inside the body",
            Refusal::BadWidth => "width outside 1 to 8",
            Refusal::NotBase => "address is not the base",
            Refusal::TooLarge => "value too large for the width",
            Refusal::Unterminated => "no zero byte up to the body's end",
            Refusal::EntryLost => "table entry does not hold its header",
            Refusal::WrongTotal => "free total below 0 or above L - 16",
            Refusal::BadDescriptor => "bad type descriptor",
            Refusal::Undescribed => "object not described",
            Refusal::BadPlan => "sizes or slot exponent out of range",
            Refusal::NoBudget => "budget of orders is 0",
            Refusal::TooManySizes => "more than 65,536 sizes",
            Refusal::BadSize => "size outside 1 to 65,536",
        }
    }
}

impl fmt::Display for Refusal {
    fn fmt(&self, f: &mut fmt::Formatter<'_>) -> fmt::Result {
        write!(f, "{} ({})", self.reason(), self.number())
    }
}

impl core::error::Error for Refusal {}

#[cfg(test)]
mod tests {
    use super::Refusal;

    #[test]
    fn numbers() {
        let numbers = Refusal::ALL.map(Refusal::number);
        assert!(numbers.is_sorted_by(|a, b| a < b));
        for number in (0..300).chain([u32::MAX]) {
            assert_eq!(Refusal::from_number(number).map(Refusal::number), numbers.contains(&number).then_some(number));
        }
        assert!([0, 17, 18, 19, 23].iter().all(|&number| Refusal::from_number(number).is_none()));
    }
}

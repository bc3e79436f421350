use crate::Refusal;

/// How many bytes a load or store touches.
///
/// ```
/// use cueledger::{Refusal, Width};
///
/// assert_eq!(Width::try_from(3), Ok(Width::Three));
/// assert_eq!(Width::try_from(9), Err(Refusal::BadWidth));
/// ```
#[derive(Clone, Copy, Debug, PartialEq, Eq, Hash)]
#[repr(u8)]
pub enum Width {
    /// 1 byte.
    One = 1,
    /// 2 bytes.
    Two = 2,
    /// 3 bytes.
    Three = 3,
    /// 4 bytes.
    Four = 4,
    /// 5 bytes.
    Five = 5,
    /// 6 bytes.
    Six = 6,
    /// 7 bytes.
    Seven = 7,
    /// 8 bytes.
    Eight = 8,
}

impl Width {
    /// The number of bytes.
    ///
    /// ```
    /// # use cueledger::Width;
    /// assert_eq!(Width::Eight.bytes(), 8);
    /// ```
    pub const fn bytes(self) -> u64 {
        self as u64
    }
}

/// Refused with [`Refusal::BadWidth`] where the number is outside 1 to 8.
impl TryFrom<u64> for Width {
    type Error = Refusal;

    fn try_from(bytes: u64) -> Result<Width, Refusal> {
        match bytes {
            1 => Ok(Width::One),
            2 => Ok(Width::Two),
            3 => Ok(Width::Three),
            4 => Ok(Width::Four),
            5 => Ok(Width::Five),
            6 => Ok(Width::Six),
            7 => Ok(Width::Seven),
            8 => Ok(Width::Eight),
            _ => Err(Refusal::BadWidth),
        }
    }
}

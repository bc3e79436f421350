//! The bytes of type descriptors, whose list [`Store::has_type`](crate::Store::has_type) checks: each descriptor of a record is followed by its
//! fields.

/// The descriptor of a plain type of `size` bytes.
///
/// ```
/// # use cueledger::descriptor;
/// assert_eq!(descriptor::plain(7, 4), [12, 0, 0, 0, 4, 0, 7, 0, 4, 0, 0, 0]);
/// ```
pub const fn plain(type_number: u16, size: u32) -> [u8; 12] {
    head(12, 4, type_number, size)
}

/// The descriptor of a record of `size` bytes without its fields, of which so many must follow.
///
/// # Panics
///
/// With more than 715,827,880 fields: their bytes are more than a length of 32 bits can say.
///
/// ```
/// # use cueledger::descriptor;
/// assert_eq!(descriptor::record(9, 16, 2), [24, 0, 0, 0, 5, 0, 9, 0, 16, 0, 0, 0]);
/// ```
pub const fn record(type_number: u16, size: u32, fields: u32) -> [u8; 12] {
    assert!(fields <= 715_827_880, "more fields than a length can say");
    head(12 + 6 * fields, 5, type_number, size)
}

/// A field at that offset in its record. Its type must be described before the record; it must start at or after the end of the field before
/// it, and fit inside the record's size.
///
/// ```
/// # use cueledger::descriptor;
/// assert_eq!(descriptor::field(8, 7), [8, 0, 0, 0, 7, 0]);
/// ```
pub const fn field(offset: u32, type_number: u16) -> [u8; 6] {
    let ([a, b, c, d], [e, f]) = (offset.to_le_bytes(), type_number.to_le_bytes());
    [a, b, c, d, e, f]
}

const fn head(length: u32, kind: u16, type_number: u16, size: u32) -> [u8; 12] {
    let ([a, b, c, d], [e, f]) = (length.to_le_bytes(), kind.to_le_bytes());
    let ([g, h], [i, j, k, l]) = (type_number.to_le_bytes(), size.to_le_bytes());
    [a, b, c, d, e, f, g, h, i, j, k, l]
}

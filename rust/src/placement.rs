use crate::{ffi, store::answer, Refusal};

/// An order in which few objects are large-framed, as [`Placement::find`] finds it.
#[derive(Clone, Copy, Debug, PartialEq, Eq)]
pub struct Placement {
    /// Place `i` has the position, among the given sizes, of the object to allocate `i`-th. Places behind the last are 0.
    pub order: [u8; 8],
    /// How many objects are large-framed in this order.
    pub large: u64,
    /// How many orders were tried: the lesser of the budget and all of them.
    pub tried: u64,
    /// How many objects are large-framed wherever they stand: those with 17 + size > 2^s. No order has fewer, tried or not.
    pub floor: u64,
}

impl Placement {
    /// Which object to allocate first: an order of these sizes in which few objects are large-framed, so that few loads and stores read
    /// the table.
    ///
    /// It holds for a store that was just set up with this slot exponent, or whose objects were all freed, and for objects that are
    /// allocated one after the other, none freed in between. No image is read.
    ///
    /// Orders of the sizes' positions are tried lexicographically, at most `budget` of them, and the first with the fewest large-framed
    /// objects is given. With a budget of 40,320, all orders of 8, no order has fewer. Time grows with the orders tried: see
    /// `include/cueledger.h`.
    ///
    /// Refused with, in this order: [`BadPlan`](Refusal::BadPlan), [`NoBudget`](Refusal::NoBudget).
    ///
    /// ```
    /// use cueledger::{Placement, Refusal, Store};
    ///
    /// let sizes = [4, 20, 100];
    /// let found = Placement::find(&sizes, 6, 40_320)?;
    /// assert_eq!(found, Placement { order: [0, 2, 1, 0, 0, 0, 0, 0], large: 1, tried: 6, floor: 1 });
    ///
    /// let large_framed = |order: &[u8]| -> Result<usize, Refusal> {
    ///     let (mut image, mut table) = ([0u8; 1024], [0u64; Store::table_entries(1024, 6)]);
    ///     let mut store = Store::set_up(&mut image, &mut table, 6)?;
    ///     let mut large = 0;
    ///     for &position in order {
    ///         large += usize::from(!store.allocate(sizes[usize::from(position)], 7)?.flag());
    ///     }
    ///     Ok(large)
    /// };
    /// assert_eq!(large_framed(&found.order[..sizes.len()])?, 1);
    /// assert_eq!(large_framed(&[0, 1, 2])?, 2); // as they are listed, the object of 20 bytes is large-framed too
    ///
    /// assert_eq!(Placement::find(&sizes, 6, 1)?.large, 2); // only that order is tried
    /// assert_eq!(Placement::find(&[4, 20, 65_536], 6, 1), Err(Refusal::BadPlan));
    /// assert_eq!(Placement::find(&sizes, 6, 0), Err(Refusal::NoBudget));
    /// # Ok::<(), Refusal>(())
    /// ```
    #[inline]
    pub fn find(sizes: &[u32], slot_exponent: u32, budget: u64) -> Result<Placement, Refusal> {
        let (mut order, mut large, mut tried, mut floor) = (0u64, 0, 0, 0);
        // SAFETY: the slice is valid for the call and only read; the four values are locals of their own.
        let number = unsafe { ffi::cue_order(sizes.as_ptr(), sizes.len(), slot_exponent, budget, &mut order, &mut large, &mut tried, &mut floor) };
        answer(number, Placement { order: order.to_le_bytes(), large, tried, floor })
    }
}

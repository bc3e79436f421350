//! What the distances of a call's pointers have to do with its answer.

use crate::model::{Header, Pointer, HEADER};
use crate::store::{Answer, Call, Store};

/// Whether accepted distances are those from the body behind a live header of the image: their sum is its size.
pub fn are_of_a_body(image: &[u8], pointer: u64, answer: &Answer) -> bool {
    let [from_start, to_end, ..] = answer.values.map(|value| i128::from(value as i64));
    let h = i128::from(Pointer::unpack(pointer).address) - from_start - i128::from(HEADER);
    if h < 0 || h + i128::from(HEADER) > image.len() as i128 {
        return false;
    }
    let header = Header::read(image, h as u64);
    header.is_live() && i128::from(header.size) == from_start + to_end
}

/// A store, and the image and table on which it is asked.
struct Asked<'a, S> {
    store: &'a S,
    image: &'a mut [u8],
    table: &'a mut [u64],
}

impl<S: Store> Asked<'_, S> {
    fn distances(&mut self, pointer: u64) -> Result<[i64; 2], u32> {
        let answer = self.store.call(self.image, self.table, Call::Distances { pointer });
        if answer.accepted() {
            Ok([answer.values[0] as i64, answer.values[1] as i64])
        } else {
            Err(answer.refusal)
        }
    }

    /// 10, 11, 13 for so many bytes from the pointer's address on; 0 where they are all inside the body.
    fn row(&mut self, pointer: u64, bytes: u64) -> u32 {
        match self.distances(pointer) {
            Ok([from_start, to_end]) if from_start >= 0 && to_end >= bytes as i64 => 0,
            Ok(_) => 13,
            Err(row) => row,
        }
    }

    /// The first row that is not 0.
    fn rows(&mut self, pointers: [u64; 2], bytes: u64) -> u32 {
        pointers.into_iter().map(|pointer| self.row(pointer, bytes)).find(|&row| row != 0).unwrap_or(0)
    }
}

/// Whether the answer is what the distances of the call's pointers say. Image and table are as they were before the call, or as
/// an allocate has left them.
pub fn agree(store: &impl Store, image: &mut [u8], table: &mut [u64], call: Call<u64>, answer: &Answer) -> bool {
    let mut asked = Asked { store, image, table };
    let (refusal, value) = (answer.refusal, answer.values[0]);
    // tested before any pointer
    if [4, 5, 6, 14, 16].contains(&refusal) {
        return true;
    }
    match call {
        Call::Allocate { size, .. } | Call::AllocateFor { size, .. } => !answer.accepted() || asked.distances(value) == Ok([0, size.into()]),
        Call::Move { pointer, distance } => {
            let distances = asked.distances(pointer);
            let shifted = |[from_start, to_end]: [i64; 2]| Some([from_start.checked_add(distance)?, to_end.checked_sub(distance)?]);
            match refusal {
                0 => asked.distances(value).map(Some) == distances.map(shifted),
                row => (row == 10) == (distances == Err(10)),
            }
        }
        Call::Load { pointer, width } | Call::Store { pointer, width, .. } => refusal == asked.row(pointer, width),
        Call::Fill { pointer, length, .. } => refusal == asked.row(pointer, length.into()),
        Call::Copy { target: first, source: second, length } | Call::Compare { left: first, right: second, length } => {
            refusal == asked.rows([first, second], length.into())
        }
        Call::CopyText { target, source } => match (refusal, asked.row(source, 1)) {
            (0, _) => asked.rows([source, target], value) == 0,
            (20, row) => row == 0,
            // the target's: the answer does not tell for how many bytes
            (_, 0) => asked.distances(target).map_or_else(|row| row == refusal, |_| refusal == 13),
            (_, row) => row == refusal,
        },
        Call::Free { pointer } => match asked.distances(pointer) {
            Ok([from_start, _]) => (refusal == 15) == (from_start != 0) && ![10, 11].contains(&refusal),
            Err(row) => row == refusal,
        },
        Call::SetUp { .. } | Call::Release { .. } | Call::Tally | Call::FreeTotal | Call::Distances { .. } => true,
    }
}

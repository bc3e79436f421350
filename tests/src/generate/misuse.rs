//! Slices of wrong length, and set-ups that are refused or come in the middle.

use super::{Generator, Make};
use crate::case::{Action, View};
use crate::model;
use crate::store::Call;

const MISUSES: [(u64, Make); 3] = [(30, |generator, _| generator.refused_set_up()), (6, |generator, _| generator.set_up()), (64, Generator::wrong_slices)];

impl Generator {
    pub(super) fn misuse(&mut self, view: &View<'_>) {
        self.random.weighted(&MISUSES)(self, view);
    }

    pub(super) fn lend_all(&mut self) {
        self.push(Action::Lend { image: self.buffers.lent_image, table: self.buffers.lent_table });
    }

    pub(super) fn refused_set_up(&mut self) {
        let slot_exponent = self.slot_exponent;
        let wrong = self.random.pick(&[0, 5, 16, 17, 64, 255, 256 + 6, 65536 + 6, u32::MAX]);
        let (all, used) = (self.buffers.lent_image, model::used_entries(slot_exponent, self.buffers.lent_image as u64) as usize);
        let short = self.random.pick(&[0, 15, 16, 47, 63]);
        let fewer = self.random.pick(&[0, 1, used / 2, used - 1]);
        let image = if self.random.percent(30) { short } else { all };
        let table = if self.random.percent(60) { fewer } else { used };
        self.push(Action::Lend { image, table });
        let slot_exponent = if self.random.percent(40) { wrong } else { slot_exponent };
        self.call(Call::SetUp { slot_exponent });
        self.lend_all();
    }

    fn wrong_slices(&mut self, view: &View<'_>) {
        let all = self.buffers.lent_image;
        let used = model::used_entries(self.slot_exponent, all as u64) as usize;
        let image = if self.random.percent(50) { all } else { self.random.pick(&[0, 1, 12, 15, 16, 17, 63, 64, all - 1, all + 1, all + 16]) };
        let table = if self.random.percent(50) { used } else { self.random.pick(&[0, 1, 48.min(used - 1), used - 1]) };
        self.push(Action::Lend { image, table });
        self.any_calls(view);
        self.lend_all();
    }
}

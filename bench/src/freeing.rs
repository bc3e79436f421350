//! What free zeroes: the object's block, and the free blocks that it merges with it.

use crate::contestants::{Calls, Lent, Library, Model};
use crate::measure::{sink, time, Bench};
use cueledger_tests::model::{self, Header};

/// Images whose only object, of `size` bytes, is freed; what is left of the image is free, and zeroed with it.
struct Images {
    lents: Vec<Lent>,
    size: u32,
    pointer: u64,
}

impl Images {
    fn new(count: usize, length: usize, size: u32) -> Images {
        let mut lents: Vec<Lent> = (0..count).map(|_| Lent::new(length, 15)).collect();
        let pointer = lents.iter_mut().map(|lent| lent.allocate(size)).last().unwrap();
        Images { lents, size, pointer }
    }

    /// Not timed.
    fn allocate_again(&mut self) {
        self.lents.iter_mut().for_each(|lent| sink(lent.allocate(self.size)));
    }

    fn free<C: Calls>(&mut self) -> f64 {
        let ns = time(|| self.lents.iter_mut().for_each(|lent| sink(C::free(lent, self.pointer).unwrap())));
        self.allocate_again();
        ns / self.lents.len() as f64
    }

    /// The slice function on the same bytes.
    fn zero(&mut self) -> f64 {
        let ns = time(|| {
            self.lents.iter_mut().for_each(|lent| {
                lent.image[16..].fill(0);
                sink(&mut lent.image);
            })
        });
        // not timed: as free would have left them
        for lent in &mut self.lents {
            let extent = lent.image.len() as u64 - 16;
            lent.image[16..32].copy_from_slice(&Header::free(extent).bytes());
            model::set_total(&mut lent.image, extent);
            lent.table.fill(0);
        }
        self.allocate_again();
        ns / self.lents.len() as f64
    }
}

pub fn measure(bench: &mut Bench) {
    bench.heading("whole call; zeroing: less that of 16 B", "slice");
    for (name, size, count) in [("4 KiB, 8 images", 4 << 10, 8), ("4 KiB, 64 images", 4 << 10, 64), ("1 MiB, 2 images", 1 << 20, 2)] {
        let mut images = (Images::new(count, 64, 16), Images::new(count, 32 + size as usize, size));
        let [a, b, c, d, e, f] = bench.best(
            &mut images,
            [
                &mut |(few, _)| few.free::<Library>(),
                &mut |(few, _)| few.free::<Model>(),
                &mut |(few, _)| few.zero(),
                &mut |(_, many)| many.free::<Library>(),
                &mut |(_, many)| many.free::<Model>(),
                &mut |(_, many)| many.zero(),
            ],
        );
        bench.row(&format!("free {name}"), vec![Some(d), Some(e), None, Some(f)], false);
        bench.row(&format!("zeroing {name}"), vec![Some(d - a), Some(e - b), None, Some(f - c)], true);
    }
    let mut images = Images::new(1, 48 + (4 << 20), 16);
    let [library, model, slice] = bench.best(&mut images, [&mut |i| i.free::<Library>(), &mut |i| i.free::<Model>(), &mut |i| i.zero()]);
    bench.row("free 16 B beside 4 MiB of free space", vec![Some(library), Some(model), None, Some(slice)], true);
}

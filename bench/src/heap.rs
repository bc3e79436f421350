//! A random heap: objects of random sizes, allocated and freed in random order, and accesses through its pointers.

use crate::accesses::{is_small, load, store};
use crate::all;
use crate::contestants::{Calls, Lent, Model};
use crate::measure::{sink, time, Bench, Other};
use cueledger_tests::random::Random;
use std::alloc::{alloc, dealloc, Layout};

const LENGTH: usize = 192 << 10;
const SLOT_EXPONENT: u32 = 8;
const LARGEST: u64 = 512;
/// Around so many are live.
const OBJECTS: u64 = 400;
const STEPS_BEFORE: usize = 4_000;
const STEPS_TIMED: usize = 500;

enum Step {
    Allocate { size: u32 },
    Free { pointer: u64, object: usize },
}

struct Heap {
    lent: Lent,
    random: Random,
    /// The size of each object, by its number.
    sizes: Vec<u32>,
    /// Pointer and number.
    live: Vec<(u64, usize)>,
}

impl Heap {
    fn steps(&mut self, count: usize) -> Vec<Step> {
        (0..count).map(|_| if self.random.below(2 * OBJECTS) < self.live.len() as u64 { self.free() } else { self.allocate() }).collect()
    }

    fn allocate(&mut self) -> Step {
        let size = self.random.within(1, LARGEST) as u32;
        self.live.push((self.lent.allocate(size), self.sizes.len()));
        self.sizes.push(size);
        Step::Allocate { size }
    }

    fn free(&mut self) -> Step {
        let (pointer, object) = self.live.swap_remove(self.random.below(self.live.len() as u64) as usize);
        Model::free(&mut self.lent, pointer).unwrap();
        Step::Free { pointer, object }
    }

    /// Pointers into live objects, 8 bytes of them at each.
    fn pointers(&mut self, count: usize) -> Vec<u64> {
        let wide: Vec<(u64, usize)> = self.live.iter().copied().filter(|&(_, object)| self.sizes[object] >= 8).collect();
        let inside = |_| {
            let (pointer, object) = self.random.pick(&wide);
            pointer + self.random.below(u64::from(self.sizes[object]) - 7)
        };
        (0..count).map(inside).collect()
    }
}

/// The same steps by `malloc` and `free`, only the later ones timed.
fn by_malloc(before: &[Step], timed: &[Step], sizes: &[u32]) -> f64 {
    let layout = |size: u32| Layout::array::<u8>(size as usize).unwrap();
    let mut objects: Vec<*mut u8> = Vec::with_capacity(sizes.len());
    let mut make = |steps: &[Step]| {
        for step in steps {
            match *step {
                // SAFETY: no layout is empty.
                Step::Allocate { size } => objects.push(unsafe { alloc(layout(size)) }),
                // SAFETY: allocated before with this layout, and not freed.
                Step::Free { object, .. } => unsafe { dealloc(std::mem::replace(&mut objects[object], std::ptr::null_mut()), layout(sizes[object])) },
            }
        }
    };
    make(before);
    let ns = time(|| make(timed));
    for (object, &size) in objects.into_iter().zip(sizes).filter(|(object, _)| !object.is_null()) {
        // SAFETY: as above.
        unsafe { dealloc(object, layout(size)) };
    }
    ns
}

pub fn measure(bench: &mut Bench) {
    let mut heap = Heap { lent: Lent::new(LENGTH, SLOT_EXPONENT), random: Random::new(1), sizes: Vec::new(), live: Vec::new() };
    let before = heap.steps(STEPS_BEFORE);
    let start = heap.lent.clone();
    let large = heap.live.iter().filter(|&&(pointer, _)| !is_small(pointer)).count();
    bench.heading(&format!("random heap: {} live, {large} large-framed", heap.live.len()), "malloc");
    let pointers = heap.pointers(1024);
    let timed = heap.steps(STEPS_TIMED);
    let replay = all!(|C, lent: Lent| {
        lent.image.copy_from_slice(&start.image);
        lent.table.copy_from_slice(&start.table);
        time(|| {
            for step in &timed {
                sink(match *step {
                    Step::Allocate { size } => C::allocate(lent, size).unwrap(),
                    Step::Free { pointer, .. } => C::free(lent, pointer).unwrap(),
                })
            }
        })
    });
    let sizes = heap.sizes;
    bench.line("allocate or free, random heap", STEPS_TIMED, &mut heap.lent, replay, Other::Shown(&mut |_| by_malloc(&before, &timed, &sizes)));
    bench.heading("random heap, a call", "unchecked");
    let mut lent = start.clone();
    load::<8>(bench, "random heap", &mut lent, &pointers);
    store::<8>(bench, "random heap", &mut lent, &pointers);
}

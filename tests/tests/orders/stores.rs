//! Without the model: objects allocated in the found order on a fresh store of the library are large-framed as often as it says, and in
//! no other order less often.

use cueledger::{Kind, Placement, Pointer, Store};
use cueledger_tests::orders::generate::case;
use cueledger_tests::print;
use cueledger_tests::random::{fresh_seed, Random};

/// Objects of these sizes, allocated in this order on a fresh store with so many bytes to spare; the pointers, in that order.
fn allocated(sizes: &[u32], order: &[usize], s: u32, spare: usize) -> Vec<Pointer> {
    let length = (16 + sizes.iter().map(|&size| 16 + size as usize).sum::<usize>() + spare).max(64);
    let (mut image, mut table) = (vec![0; length], vec![0; Store::table_entries(length, s)]);
    let mut store = Store::set_up(&mut image, &mut table, s).unwrap();
    let pointers: Vec<_> = order.iter().map(|&position| store.allocate(sizes[position], 7).unwrap()).collect();
    // they stand end to end
    let mut h = 16;
    for (pointer, &position) in pointers.iter().zip(order) {
        assert_eq!(pointer.address(), h + 16, "{sizes:?} in order {order:?}");
        h = pointer.address() + u64::from(sizes[position]);
    }
    let live: Vec<_> = store.blocks().map(Result::unwrap).filter(|block| block.kind == Kind::Live).map(|block| (block.place, block.size)).collect();
    let expected: Vec<_> = pointers.iter().zip(order).map(|(pointer, &position)| (pointer.address() as usize - 16, sizes[position])).collect();
    assert_eq!(live, expected);
    pointers
}

fn large_framed(pointers: &[Pointer]) -> u64 {
    pointers.iter().filter(|pointer| !pointer.flag()).count() as u64
}

fn positions(found: &Placement, count: usize) -> Vec<usize> {
    assert!(found.order[count..].iter().all(|&position| position == 0), "{found:?}");
    found.order[..count].iter().map(|&position| position.into()).collect()
}

fn found_is_as_large_as_it_says(seed: u64) -> [u64; 9] {
    const CASES: u64 = 3_000;
    let (mut random, mut by_large) = (Random::new(seed), [0; 9]);
    for case in (0..CASES).map(|number| case(seed.wrapping_add(number))) {
        let (sizes, s) = (case.sizes(), case.slot_exponent);
        let Ok(found) = Placement::find(sizes, s, case.budget) else { continue };
        let order = positions(&found, sizes.len());
        let spare = random.pick(&[0, 1, 15, 16, 100]);
        assert_eq!(large_framed(&allocated(sizes, &order, s, spare)), found.large, "{sizes:?}, s = {s}: {found:?}");
        by_large[found.large as usize] += 1;
    }
    by_large
}

#[test]
fn the_found_order_is_as_it_says() {
    for seed in [1, fresh_seed()] {
        print(&format!("orders, allocated: seed {seed}"));
        let by_large = found_is_as_large_as_it_says(seed);
        print(&format!("found orders by large-framed objects: {by_large:?}"));
        assert!(by_large[..7].iter().all(|&count| count > 0), "{by_large:?}");
    }
}

/// All orders: of the tuples of positions, counted up, those that have no position twice.
fn orders(count: usize) -> Vec<Vec<usize>> {
    let tuples = (0..count.pow(count as u32)).map(|number| (0..count).rev().map(|digit| number / count.pow(digit as u32) % count).collect::<Vec<_>>());
    tuples.filter(|tuple| (1..count).all(|place| !tuple[..place].contains(&tuple[place]))).collect()
}

#[test]
fn orders_are_all() {
    assert_eq!(orders(3), [[0, 1, 2], [0, 2, 1], [1, 0, 2], [1, 2, 0], [2, 0, 1], [2, 1, 0]]);
    assert_eq!([1, 2, 3, 4, 5].map(|count| orders(count).len()), [1, 2, 6, 24, 120]);
    assert!(orders(5).is_sorted_by(|a, b| a < b));
}

/// Sizes of objects in and over few frames.
fn sizes(random: &mut Random, s: u32) -> Vec<u32> {
    let frame = 1 << s;
    let size = |random: &mut Random| match random.below(6) {
        0..3 => random.below(frame - 16) as u32,
        3 => random.within(frame - 18, frame - 14) as u32,
        _ => random.within(frame - 16, 3 * frame) as u32,
    };
    (0..random.pick(&[1, 2, 3, 4, 4, 5, 5])).map(|_| size(random)).collect()
}

/// How often the found order was not the first, was found beside a worse one, had more than the floor, and missed a better one.
type Counts = [u64; 4];

/// Every order is allocated: none has fewer among those tried, none so few before the found one, and none at all is under the floor.
fn no_other_order_is_better(random: &mut Random, counts: &mut Counts) {
    let s = random.within(6, 8) as u32;
    let sizes = sizes(random, s);
    let orders = orders(sizes.len());
    let large: Vec<_> = orders.iter().map(|order| large_framed(&allocated(&sizes, order, s, 0))).collect();
    let all = orders.len() as u64;
    for budget in [1, 2, all / 2, all - 1, all, all + 1, u64::MAX].into_iter().filter(|&budget| budget > 0) {
        let found = Placement::find(&sizes, s, budget).unwrap();
        assert_eq!(found.tried, if budget < all { budget } else { all });
        let tried = &large[..found.tried as usize];
        let place = orders.iter().position(|order| *order == positions(&found, sizes.len())).unwrap();
        let what = format!("{sizes:?}, s = {s}, budget {budget}: {found:?}, and {large:?}");
        assert!(place < tried.len() && large[place] == found.large, "{what}");
        assert!(tried.iter().all(|&large| large >= found.large), "{what}");
        assert!(tried[..place].iter().all(|&large| large > found.large), "{what}");
        assert!(large.iter().all(|&large| large >= found.floor), "{what}");
        let (worse, better) = (tried.iter().any(|&large| large > found.large), large.iter().any(|&large| large < found.large));
        let occurred = [place > 0, worse, found.large > found.floor, better];
        counts.iter_mut().zip(occurred).for_each(|(count, occurred)| *count += u64::from(occurred));
    }
}

#[test]
fn every_order_is_allocated() {
    for seed in [1, fresh_seed()] {
        print(&format!("orders, all allocated: seed {seed}"));
        let (mut random, mut counts) = (Random::new(seed), [0; 4]);
        (0..400).for_each(|_| no_other_order_is_better(&mut random, &mut counts));
        print(&format!(
            "found: not the first {}, beside a worse one {}, above the floor {}, a better one not tried {}",
            counts[0], counts[1], counts[2], counts[3]
        ));
        assert!(counts.iter().all(|&count| count > 20), "{counts:?}");
    }
}

/// Behind an object of each size up to a frame's, so that its header has every distance from a frame's start: whether it is large-framed at
/// each, or at some.
fn anywhere(size: u32, s: u32) -> (bool, bool) {
    let flags: Vec<_> = (0..1 << s).map(|before| allocated(&[before, size], &[0, 1], s, 0)[1].flag()).collect();
    (flags.iter().all(|&flag| !flag), flags.iter().any(|&flag| !flag))
}

/// The floor counts what is large-framed wherever it stands.
#[test]
fn floors() {
    for s in 6..=9 {
        let frame = 1 << s;
        for size in [0, 1, frame / 2, frame - 19, frame - 18, frame - 17, frame - 16, frame - 15, frame - 1, frame, frame + 1, 3 * frame] {
            let (always, sometimes) = anywhere(size, s);
            assert!(sometimes, "size {size}, s = {s}");
            assert_eq!(Placement::find(&[size], s, 1).unwrap().floor, u64::from(always), "size {size}, s = {s}");
            assert_eq!(always, size > frame - 17);
        }
    }
}

//! A whole program: a binary tree is built, summed and freed. Its links are tagged pointers in the store; beside it the
//! same program with `malloc`, `free` and unchecked access.

use crate::all;
use crate::contestants::{Calls, Lent, Model};
use crate::measure::{repeat, sink, Bench, Other};
use std::alloc::{alloc, dealloc, Layout};
use std::hint::black_box;
use std::ptr;

const SLOT_EXPONENT: u32 = 10;

// ---- in the store: no pointer is 0, so that 0 is the empty tree

const NODE: u32 = 24;
const LEFT: i64 = 0;
const RIGHT: i64 = 8;
const VALUE: i64 = 16;

fn get<C: Calls>(lent: &Lent, node: u64, field: i64) -> u64 {
    C::load(lent, C::offset(lent, node, field).unwrap(), 8).unwrap()
}

fn set<C: Calls>(lent: &mut Lent, node: u64, field: i64, value: u64) {
    let at = C::offset(lent, node, field).unwrap();
    C::store(lent, at, 8, value).unwrap();
}

fn build<C: Calls>(lent: &mut Lent, depth: u32) -> u64 {
    if depth == 0 {
        return 0;
    }
    let node = C::allocate(lent, NODE).unwrap();
    let left = build::<C>(lent, depth - 1);
    set::<C>(lent, node, LEFT, left);
    let right = build::<C>(lent, depth - 1);
    set::<C>(lent, node, RIGHT, right);
    set::<C>(lent, node, VALUE, u64::from(depth));
    node
}

fn sum<C: Calls>(lent: &Lent, node: u64) -> u64 {
    if node == 0 {
        return 0;
    }
    get::<C>(lent, node, VALUE) + sum::<C>(lent, get::<C>(lent, node, LEFT)) + sum::<C>(lent, get::<C>(lent, node, RIGHT))
}

fn free<C: Calls>(lent: &mut Lent, node: u64) {
    if node != 0 {
        let (left, right) = (get::<C>(lent, node, LEFT), get::<C>(lent, node, RIGHT));
        free::<C>(lent, left);
        free::<C>(lent, right);
        C::free(lent, node).unwrap();
    }
}

// ---- with malloc

struct Node {
    left: *mut Node,
    right: *mut Node,
    value: u64,
}

fn build_unchecked(depth: u32) -> *mut Node {
    if depth == 0 {
        return ptr::null_mut();
    }
    // SAFETY: the layout is not empty; the node is written whole before it is read.
    unsafe {
        let node = alloc(Layout::new::<Node>()).cast::<Node>();
        node.write(Node { left: build_unchecked(depth - 1), right: build_unchecked(depth - 1), value: u64::from(depth) });
        node
    }
}

/// SAFETY: the tree is one that `build_unchecked` gave, not freed.
unsafe fn sum_unchecked(node: *mut Node) -> u64 {
    if node.is_null() {
        return 0;
    }
    (*node).value + sum_unchecked((*node).left) + sum_unchecked((*node).right)
}

/// SAFETY: as for `sum_unchecked`.
unsafe fn free_unchecked(node: *mut Node) {
    if !node.is_null() {
        free_unchecked((*node).left);
        free_unchecked((*node).right);
        dealloc(node.cast(), Layout::new::<Node>());
    }
}

pub fn measure(bench: &mut Bench) {
    bench.heading("whole program", "unchecked");
    for (nodes, depth, passes) in [("63", 6, 50), ("1,023", 10, 1)] {
        let count = (1usize << depth) - 1;
        let mut lent = Lent::new(16 + 40 * count, SLOT_EXPONENT);
        let expected: u64 = (1..=depth).map(|level| u64::from(level) << (depth - level)).sum();
        let programs = all!(|C, lent: Lent| repeat(passes, |_| {
            let tree = build::<C>(lent, black_box(depth));
            assert_eq!(sum::<C>(lent, tree), expected);
            free::<C>(lent, tree);
        }));
        // SAFETY: the tree is freed last.
        let mut unchecked = |_: &mut Lent| {
            repeat(passes, |_| unsafe {
                let tree = black_box(build_unchecked(black_box(depth)));
                assert_eq!(sum_unchecked(tree), expected);
                free_unchecked(tree);
            })
        };
        bench.line(&format!("build, sum, free {nodes} nodes"), passes, &mut lent, programs, Other::Shown(&mut unchecked));

        let tree = build::<Model>(&mut lent, depth);
        let plain = build_unchecked(depth);
        let sums = all!(|C, lent: Lent| repeat(16, |_| sink(sum::<C>(lent, black_box(tree)))));
        // SAFETY: the tree is freed below.
        bench.line(&format!("sum {nodes} nodes"), 16, &mut lent, sums, Other::Shown(&mut |_| repeat(16, |_| unsafe { sink(sum_unchecked(black_box(plain))) })));
        // SAFETY: not freed before.
        unsafe { free_unchecked(plain) };
    }
}

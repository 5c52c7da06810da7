//! Only what is returned is allocated: draws, chances and checks allocate nothing, the others what they return, once
//! a `Vec`.

use light_tree::*;
use std::alloc::{GlobalAlloc, Layout, System};
use std::cell::Cell;

thread_local! {
    static CALLS: Cell<usize> = const { Cell::new(0) };
    static LIVE: Cell<isize> = const { Cell::new(0) };
}

struct Counting;

#[global_allocator]
static COUNTING: Counting = Counting;

fn count(calls: usize, bytes: isize) {
    CALLS.set(CALLS.get() + calls);
    LIVE.set(LIVE.get() + bytes);
}

// SAFETY: the system's own allocator does the work.
unsafe impl GlobalAlloc for Counting {
    unsafe fn alloc(&self, layout: Layout) -> *mut u8 {
        count(1, layout.size() as isize);
        unsafe { System.alloc(layout) }
    }

    unsafe fn dealloc(&self, at: *mut u8, layout: Layout) {
        count(0, -(layout.size() as isize));
        unsafe { System.dealloc(at, layout) }
    }

    // giving room back is no new allocation
    unsafe fn realloc(&self, at: *mut u8, layout: Layout, size: usize) -> *mut u8 {
        count(usize::from(size > layout.size()), size as isize - layout.size() as isize);
        unsafe { System.realloc(at, layout, size) }
    }
}

/// What a call gives, how often it allocated, and how many bytes it left so.
fn counted<T>(call: impl FnOnce() -> T) -> (T, usize, isize) {
    let (calls, live) = (CALLS.get(), LIVE.get());
    let given = call();
    (given, CALLS.get() - calls, LIVE.get() - live)
}

#[test]
fn only_what_is_returned() {
    let lamps: Vec<Lamp> = (0..100)
        .map(|i| Lamp::Point { world_position: [i as f32, 0.0, 0.0], intensity_max: 1.0, scale: (i % 4) as f32 })
        .collect();
    let (m, k) = (100, 75);

    let (block, calls, bytes) = counted(|| bounds_block(&lamps).unwrap());
    assert_eq!((calls, bytes), (1, 4 * (1 + 14 * m)));
    let bounds: Vec<LightBounds> = block.records().collect();
    let tree_bytes = 64 * (2 * k - 1) + 4 * m;
    let (tree, calls, bytes) = counted(|| LightTree::build(&bounds).unwrap());
    assert_eq!((calls, bytes), (2, tree_bytes));
    let (_tree, calls, bytes) = counted(|| LightTree::from_block(block.words()).unwrap());
    assert_eq!((calls, bytes), (2, tree_bytes));

    let (p, n) = ([3.0, 1.0, 0.0], [0.0, 1.0, 0.0]);
    let (lamp, calls, bytes) = counted(|| tree.sample(p, n, 0.5).unwrap().unwrap().0);
    assert_eq!((calls, bytes), (0, 0));
    assert_eq!(counted(|| tree.pmf(p, n, lamp).unwrap() > 0.0), (true, 0, 0));
    assert_eq!(counted(|| tree.sample(p, n, 2.0)), (Err(Refusal::BadU), 0, 0));
    assert_eq!(counted(|| tree.run_of(0.5, p, n).unwrap().is_some()), (true, 0, 0));
    assert_eq!(counted(|| tree.shares(p, n, 0).unwrap().is_some()), (true, 0, 0));
    assert_eq!(counted(|| sample_nodes(&[0; 16], p, n, 0.5)), (Err(Refusal::BrokenTree), 0, 0));
    assert_eq!(counted(|| bounds[0].validate().is_ok()), (true, 0, 0));
    assert_eq!(counted(|| tree.nodes().filter(LightBVHNode::is_leaf).count()), (k as usize, 0, 0));

    let (_packed, calls, bytes) = counted(|| tree.pack().unwrap().unwrap());
    // the header's row is left as room behind the nodes
    assert_eq!((calls, bytes), (2, 32 * 2 * k + 4 * m));
    let (table, calls, bytes) = counted(|| AliasTable::build(&[1.0; 100]).unwrap());
    assert_eq!((calls, bytes), (1, 12 * m));
    assert_eq!(counted(|| table.sample(0.5).unwrap().unwrap().0), (50, 0, 0));

    // a refusal leaves nothing, and too many lamps are refused before anything is allocated
    let (refused, _, bytes) = counted(|| AliasTable::build(&[1.0, -1.0]));
    assert_eq!((refused, bytes), (Err(Refusal::OutOfRange), 0));
    let many = vec![bounds[0]; MAX_LAMPS + 1];
    assert_eq!(counted(|| LightTree::build(&many)), (Err(Refusal::Crowded), 0, 0));
}

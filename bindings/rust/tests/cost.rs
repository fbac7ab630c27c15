//! The cost of a list, counted in bytes that the crate asks for. To clear and copy these bytes takes time.
use kovshenul::{Limits, Rights, Store, Value};
use std::alloc::{GlobalAlloc, Layout, System};
use std::cell::Cell;

/// How many edges the long row has.
const EDGES: usize = 20_001;

thread_local! {
    static ASKED: Cell<usize> = const { Cell::new(0) };
}

struct Counting;

#[global_allocator]
static COUNTING: Counting = Counting;

// The system's allocator, which is asked in all cases.
unsafe impl GlobalAlloc for Counting {
    unsafe fn alloc(&self, layout: Layout) -> *mut u8 {
        let _ = ASKED.try_with(|asked| asked.set(asked.get() + layout.size()));
        System.alloc(layout)
    }

    unsafe fn dealloc(&self, at: *mut u8, layout: Layout) {
        System.dealloc(at, layout)
    }
}

// How many bytes were asked for while it ran.
fn bytes_of<T>(call: impl FnOnce() -> T) -> usize {
    let before = ASKED.with(Cell::get);
    drop(call());
    ASKED.with(Cell::get) - before
}

#[test]
fn a_list_costs_what_its_row_is() {
    let inspected = [kovshenul::Edge { from: 1, to: 0, rights: Rights::INSPECT }];
    let mut store = Store::open(&[Value::Cell(0); 2], &inspected, &Limits::default()).unwrap();
    let short = bytes_of(|| store.list(1).unwrap());
    for _ in 0..EDGES {
        store.create(0, Rights::READ, Value::Cell(0)).unwrap();
    }
    let entries = store.entries().unwrap();
    assert_eq!(store.list(0).unwrap().len(), EDGES);
    assert_eq!(store.inspect(1, 0).unwrap().len(), EDGES);
    // Each made one entry, and none of what they asked for is asked for again.
    assert_eq!(store.entries(), Ok(entries + 2));
    assert_eq!(bytes_of(|| store.list(1).unwrap()), short);
    assert!(short < 64 && bytes_of(|| store.list(0).unwrap()) <= 40 * EDGES);
}

//! A run of a list that has its plan asks for no memory.

use pickbracken::{Error, Locks};
use std::alloc::{GlobalAlloc, Layout, System};
use std::cell::Cell;

thread_local! {
    static ASKED: Cell<usize> = const { Cell::new(0) };
}

/// The system's memory. It counts how often this thread asks for some.
struct Counted;

// SAFETY: each call is the system's, with what it was given.
unsafe impl GlobalAlloc for Counted {
    unsafe fn alloc(&self, layout: Layout) -> *mut u8 {
        ASKED.set(ASKED.get() + 1);
        // SAFETY: as above.
        unsafe { System.alloc(layout) }
    }

    unsafe fn dealloc(&self, at: *mut u8, layout: Layout) {
        // SAFETY: as above.
        unsafe { System.dealloc(at, layout) }
    }
}

#[global_allocator]
static MEMORY: Counted = Counted;

#[test]
fn a_kept_plan_is_run_without_memory() -> Result<(), Error> {
    let locks = Locks::new([("/", 9), ("/g/a", 1), ("/h/b", 1)], |_| 0)?;
    let list = locks.list([("/g/a", 1), ("/h/b", 3), ("/g/a", 1)])?;
    for list in [list.clone(), list.clone().whole(), list] {
        locks.run(&list, |_, record| *record += 1)?;
        let before = ASKED.get();
        for _ in 0..100 {
            locks.run(&list, |_, record| *record += 1)?;
        }
        assert_eq!(ASKED.get(), before);
    }
    Ok(())
}

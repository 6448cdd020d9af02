//! What a request allocates: nothing but the bytes of a target.

use sidluqethe::{decide, Perms, Policy, Request};
use std::alloc::{GlobalAlloc, Layout, System};
use std::cell::Cell;

/// The system's allocator, which counts.
struct Counting;

thread_local! {
    /// Allocations of this thread, and their bytes.
    static COUNT: Cell<(usize, usize)> = const { Cell::new((0, 0)) };
}

// SAFETY: all work is the system's; the cell neither allocates nor is dropped.
unsafe impl GlobalAlloc for Counting {
    unsafe fn alloc(&self, layout: Layout) -> *mut u8 {
        let (times, bytes) = COUNT.with(Cell::get);
        COUNT.with(|count| count.set((times + 1, bytes + layout.size())));
        System.alloc(layout)
    }

    unsafe fn dealloc(&self, at: *mut u8, layout: Layout) {
        System.dealloc(at, layout);
    }
}

#[global_allocator]
static ALLOCATOR: Counting = Counting;

/// Allocations and bytes of this work.
fn allocated<T>(work: impl FnOnce() -> T) -> (usize, usize) {
    let (times, bytes) = COUNT.with(Cell::get);
    let result = work();
    let (now, all) = COUNT.with(Cell::get);
    drop(result);
    (now - times, all - bytes)
}

#[test]
fn a_request_allocates_a_target_alone() {
    let text = "@{A}=/a /b\n/p { @{A}/{x,y}/** rw, /bin/* px -> tool, /sbin/* ux, }";
    let policy = Policy::read(text).unwrap();
    let all = Perms::from_bits(127);
    for (name, path, target) in [
        ("/p", "/b/y/file", 0),
        ("/p", "/none", 0),
        ("/p", "/sbin/x", 0),
        ("/p", "/bin/ls", 4),
        ("/p", "no path", 0),
        ("/q", "/bin/ls", 0),
    ] {
        let request = Request::new(name, path, all);
        let expected = (usize::from(target > 0), target);
        assert_eq!(allocated(|| policy.ask(&request)), expected, "{path}");
        let decided = allocated(|| decide(text.as_bytes(), &request));
        assert_eq!(decided, expected, "{path}");
        for rule in 0..4 {
            let matched = allocated(|| policy.rule_match(rule, &request));
            assert_eq!(matched, (0, 0), "{path}");
        }
    }
    // It does count.
    assert!(allocated(|| Policy::read(text)).0 > 1);
}

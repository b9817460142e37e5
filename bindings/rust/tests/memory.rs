//! Calls allocate nothing, also those of the crate.

// Clippy 1.63 takes the macro `thread_local!` for a constant.
#![allow(clippy::declare_interior_mutable_const)]

use mquerier::{Config, Igmp, Link, Workspace};
use std::alloc::{GlobalAlloc, Layout, System};
use std::cell::Cell;

const HOST: [u8; 4] = [10, 0, 0, 1];
const JOIN: [u8; 8] = [0x16, 0, 0xf8, 0xfa, 239, 1, 2, 3];
const LEAVE: [u8; 8] = [0x17, 0, 0xf7, 0xfa, 239, 1, 2, 3];

thread_local! {
    // Of each thread, since that of the harness allocates while a test runs.
    static ALLOCATED: Cell<u64> = const { Cell::new(0) };
}

struct Counting;

unsafe impl GlobalAlloc for Counting {
    unsafe fn alloc(&self, layout: Layout) -> *mut u8 {
        ALLOCATED.with(|it| it.set(it.get() + 1));
        System.alloc(layout)
    }
    unsafe fn dealloc(&self, at: *mut u8, layout: Layout) {
        System.dealloc(at, layout)
    }
}

#[global_allocator]
static COUNTING: Counting = Counting;

#[test]
fn a_million_calls_allocate_nothing() {
    // valgrind is a hundred times as slow
    let calls = if std::env::var_os("FEW_CALLS").is_some() { 20_000 } else { 1_000_000 };
    let config = Config::<Igmp>::new([10, 0, 0, 9]);
    let (mut link, mut workspace) = (Link::new(&config, 0).unwrap(), Workspace::new(&config).unwrap());
    let (mut queries, mut changed, mut sent) = ([0; 4096], 0, 0);
    let before = ALLOCATED.with(Cell::get);
    assert!(before > 0);
    for now in 0..calls {
        let body = if now / 5000 % 2 == 0 { &JOIN } else { &LEAVE };
        let answer = link.receive(&mut workspace, HOST, body, now, &mut queries).unwrap();
        assert_eq!((answer.applied, answer.dropped, answer.unsent), (u32::from(answer.ignored == 0), None, 0));
        sent += answer.queries().count();
        changed += workspace.changed().count();
    }
    assert_eq!(ALLOCATED.with(Cell::get), before);
    assert!(changed > 1 && sent > 2 && link.counts().received == calls);
}

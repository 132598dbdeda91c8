//! A file that is loaded is given no more memory than a few times its own length, whatever its
//! trailer says. The allocator of this program keeps the greatest request.

#![cfg(feature = "alloc")]

use std::alloc::{GlobalAlloc, Layout, System};
use std::sync::atomic::{AtomicUsize, Ordering};

use midvokt::{load, store, Head, Record, LARGEST_CEILING, TRAILER_WORDS};

/// The system's allocator, which notes the greatest request.
struct Noting;

static GREATEST: AtomicUsize = AtomicUsize::new(0);

// SAFETY: all requests go to the system's allocator as they are.
unsafe impl GlobalAlloc for Noting {
    unsafe fn alloc(&self, layout: Layout) -> *mut u8 {
        GREATEST.fetch_max(layout.size(), Ordering::Relaxed);
        unsafe { System.alloc(layout) }
    }

    unsafe fn dealloc(&self, place: *mut u8, layout: Layout) {
        unsafe { System.dealloc(place, layout) }
    }

    unsafe fn realloc(&self, place: *mut u8, layout: Layout, size: usize) -> *mut u8 {
        GREATEST.fetch_max(size, Ordering::Relaxed);
        unsafe { System.realloc(place, layout, size) }
    }
}

#[global_allocator]
static ALLOCATOR: Noting = Noting;

/// The greatest request while a file is loaded.
fn greatest(file: &[u8]) -> usize {
    GREATEST.store(0, Ordering::Relaxed);
    let _ = load(file);
    GREATEST.load(Ordering::Relaxed)
}

#[test]
fn memory_is_bounded_by_the_file() {
    let head = Head {
        initial_k: 3,
        max_k: 8,
        nexpvals: 0,
        ceiling: LARGEST_CEILING,
    };
    let file = store(
        &head,
        &[Record::Promotion, Record::measurement(4, 0, 6, 0, 2)],
    )
    .unwrap();
    let trailer = file.len() - 8 * TRAILER_WORDS;
    assert!(greatest(&file) <= 2 * file.len());
    for place in 0..TRAILER_WORDS {
        for word in [1u64 << 32, 1 << 60, u64::MAX] {
            let mut hostile = file.clone();
            hostile[trailer + 8 * place..][..8].copy_from_slice(&word.to_le_bytes());
            let found = greatest(&hostile);
            assert!(found <= 2 * file.len(), "{place}: {found}");
        }
    }
}

//! How much memory a document takes.

use simple_asn1_records::Document;
use std::alloc::{GlobalAlloc, Layout, System};
use std::sync::atomic::{AtomicUsize, Ordering};

/// The system's allocator, with the size of the largest allocation.
struct Largest(AtomicUsize);

unsafe impl GlobalAlloc for Largest {
    unsafe fn alloc(&self, layout: Layout) -> *mut u8 {
        self.0.fetch_max(layout.size(), Ordering::SeqCst);
        System.alloc(layout)
    }

    unsafe fn dealloc(&self, at: *mut u8, layout: Layout) {
        System.dealloc(at, layout)
    }
}

#[global_allocator]
static ALLOCATOR: Largest = Largest(AtomicUsize::new(0));

#[test]
fn memory_goes_with_the_blocks_and_not_with_the_octets() {
    let mut octets = vec![0; 0x800006];
    octets[..6].copy_from_slice(&[0x04, 0x84, 0x00, 0x80, 0x00, 0x00]);
    ALLOCATOR.0.store(0, Ordering::SeqCst);
    assert_eq!(Document::read(&octets).unwrap().all_blocks().len(), 1);
    assert!(ALLOCATOR.0.load(Ordering::SeqCst) < 1_000_000);
}

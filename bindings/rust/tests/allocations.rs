//! A stream allocates nothing, however its bytes come.

use imagesize::{ImageType, StreamProbe};
use std::alloc::{GlobalAlloc, Layout, System};
use std::cell::Cell;

/// The allocator of the system, with a count of the calls of each thread.
struct Counting;

thread_local! {
    static COUNT: Cell<usize> = const { Cell::new(0) };
}

// SAFETY: each call is that of the allocator of the system.
unsafe impl GlobalAlloc for Counting {
    unsafe fn alloc(&self, layout: Layout) -> *mut u8 {
        COUNT.with(|count| count.set(count.get() + 1));
        System.alloc(layout)
    }

    unsafe fn dealloc(&self, bytes: *mut u8, layout: Layout) {
        System.dealloc(bytes, layout);
    }
}

#[global_allocator]
static ALLOCATOR: Counting = Counting;

fn allocations() -> usize {
    COUNT.with(Cell::get)
}

#[test]
fn a_stream_allocates_nothing() {
    let mut jpeg = vec![0xFF, 0xD8];
    for _ in 0..100 {
        jpeg.extend(b"\xff\xe1\x02\x00");
        jpeg.resize(jpeg.len() + 510, 0);
    }
    jpeg.extend([0xFF, 0xC0, 0, 17, 8, 0, 5, 0, 7, 3]);
    let before = allocations();
    for piece in [1, 7, 4096] {
        let mut probe = StreamProbe::new(None);
        let found = jpeg.chunks(piece).find_map(|chunk| probe.push(chunk));
        let found = found.expect("a size");
        assert!(found.size().is_ok_and(|size| size.width == 7));
        assert!(matches!(found.image_type(), Ok(ImageType::Jpeg)));
        assert_eq!(probe.finish(), found);
        assert!(StreamProbe::new(Some(3)).push(&jpeg).is_some());
    }
    assert_eq!(allocations(), before);
    drop(vec![0; 1]);
    assert_eq!(allocations(), before + 1, "the count sees an allocation");
}

//! The library's memory, from this program's global allocator. Before each block stands its size,
//! since the library doesn't tell it when it gives a block back.
use alloc::alloc::{alloc, dealloc, realloc, Layout};

/// The bytes before a block; each lies at a multiple of as many.
const HEAD: usize = 16;

/// What an allocation gives: `ok` is 1, or 0 where it failed, and `at` is never null.
#[repr(C)]
pub struct Block {
    ok: usize,
    at: *mut u8,
}

const NONE: Block = Block {
    ok: 0,
    at: HEAD as *mut u8,
};

fn layout_of(size: usize) -> Option<Layout> {
    Layout::from_size_align(size.checked_add(HEAD)?, HEAD).ok()
}

/// The block behind a head, if there is one.
///
/// # Safety
/// `head` is null, or begins memory of HEAD bytes and more at a multiple of HEAD.
unsafe fn block_behind(head: *mut u8, size: usize) -> Block {
    if head.is_null() {
        return NONE;
    }
    head.cast::<usize>().write(size);
    Block {
        ok: 1,
        at: head.add(HEAD),
    }
}

// SAFETY of these three: the library alone calls them, as acpins_heap.h says: `at` is a block that
// one of the first two gave, and that was not given back.

#[no_mangle]
unsafe extern "C" fn rattle_alloc(size: usize, _align: usize) -> Block {
    match layout_of(size) {
        Some(layout) => block_behind(alloc(layout), size),
        None => NONE,
    }
}

#[no_mangle]
unsafe extern "C" fn rattle_realloc(
    at: *mut u8,
    _kept: usize,
    size: usize,
    _align: usize,
) -> Block {
    let head = at.sub(HEAD);
    match (layout_of(head.cast::<usize>().read()), layout_of(size)) {
        (Some(old), Some(new)) => block_behind(realloc(head, old, new.size()), size),
        _ => NONE,
    }
}

#[no_mangle]
unsafe extern "C" fn rattle_dealloc(at: *mut u8) {
    let head = at.sub(HEAD);
    if let Some(layout) = layout_of(head.cast::<usize>().read()) {
        dealloc(head, layout);
    }
}

//! The library's memory from Rust's allocator, for products with `std`; a product without it links a back end of c/.
//!
//! A block has a header of 16 octets in front of it, which keeps its size.
use std::alloc::{alloc, dealloc, realloc, Layout};

const HEAD: usize = 16;

#[repr(C)]
pub struct Tried {
    is_there: u64,
    at: u64,
}

fn layout(size: u64) -> Option<Layout> {
    let size = usize::try_from(size).ok()?.checked_add(HEAD)?;
    Layout::from_size_align(size, HEAD).ok()
}

/// The block behind this header, or none, with an address that stands for it.
unsafe fn tried(head: *mut u8, size: u64, instead: *mut u8) -> Tried {
    if head.is_null() {
        return Tried { is_there: 0, at: instead as u64 };
    }
    head.cast::<u64>().write(size);
    Tried { is_there: 1, at: head.add(HEAD) as u64 }
}

/// # Safety
/// The library calls it.
#[no_mangle]
pub unsafe extern "C" fn rattle_alloc(size: u64, align: u64) -> Tried {
    let head = match layout(size) {
        Some(layout) if align <= HEAD as u64 => alloc(layout),
        _ => core::ptr::null_mut(),
    };
    tried(head, size, HEAD as *mut u8)
}

/// # Safety
/// The library calls it with a block of its own.
#[no_mangle]
pub unsafe extern "C" fn rattle_realloc(block: *mut u8, _had: u64, size: u64, align: u64) -> Tried {
    let head = block.sub(HEAD);
    let had = layout(head.cast::<u64>().read());
    let head = match (had, layout(size)) {
        (Some(had), Some(new)) if align <= HEAD as u64 => realloc(head, had, new.size()),
        _ => core::ptr::null_mut(),
    };
    tried(head, size, block)
}

/// # Safety
/// The library calls it with a block of its own.
#[no_mangle]
pub unsafe extern "C" fn rattle_dealloc(block: *mut u8) {
    let head = block.sub(HEAD);
    if let Some(layout) = layout(head.cast::<u64>().read()) {
        dealloc(head, layout);
    }
}

//! Advice to the system on memory that is about to be written: pages of 2 MB. A judge's notes are read and written all over
//! their length, and with small pages much of a long capture's time goes into finding them. The rest of the crate does not
//! depend on it.

/// Less is not worth the advice.
const LEAST: usize = 4 << 20;

/// Asks for large pages for the room that a vector has beyond its elements. Where the system does not give them, nothing
/// differs but the time.
pub(crate) fn advise_large(cells: &mut Vec<u32>) {
    let room = cells.spare_capacity_mut();
    if size_of_val(room) >= LEAST {
        advise(room.as_mut_ptr().cast(), size_of_val(room));
    }
}

#[cfg(target_os = "linux")]
fn advise(start: *mut u8, length: usize) {
    use std::ffi::{c_int, c_void};

    const PAGE: usize = 4096;
    const MADV_HUGEPAGE: c_int = 14;

    extern "C" {
        fn madvise(start: *mut c_void, length: usize, advice: c_int) -> c_int;
    }

    // The call takes whole pages: those inside.
    let lead = start.align_offset(PAGE);
    let length = length.saturating_sub(lead) / PAGE * PAGE;
    // SAFETY: the pages lie inside memory that the vector owns and lends for this call; the advice changes no byte of them,
    // and a failure changes nothing.
    unsafe { madvise(start.wrapping_add(lead).cast(), length, MADV_HUGEPAGE) };
}

#[cfg(not(target_os = "linux"))]
fn advise(_: *mut u8, _: usize) {}

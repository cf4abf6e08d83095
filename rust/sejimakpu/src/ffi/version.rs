//! The archive's version, as `include/sejimakpu.h` declares it.

extern "C" {
    fn sejimakpu_version() -> u32;
}

/// The version as one number.
pub(crate) fn version() -> u32 {
    // SAFETY: the function takes nothing, and reads and writes no memory of ours.
    unsafe { sejimakpu_version() }
}

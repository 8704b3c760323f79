//! The archive's doors and their Rust twins, all with the same shape. A slice is a pointer and a length.

unsafe extern "C" {
    pub fn measure_clear(words: *mut u32, len: usize);
    pub fn measure_copy(target: *mut u32, target_len: usize, source: *const u32, source_len: usize);
    pub fn measure_all_zero(words: *const u32, len: usize) -> bool;
    pub fn measure_hash(words: *const u64, len: usize) -> u64;
}

/// # Safety
/// `words` points to `len` words that nothing else uses during the call.
#[inline(never)]
pub unsafe extern "C" fn rust_clear(words: *mut u32, len: usize) {
    unsafe { std::slice::from_raw_parts_mut(words, len) }.fill(0);
}

/// # Safety
/// Both slices are sound, do not overlap, and source is no longer than target.
#[inline(never)]
pub unsafe extern "C" fn rust_copy(
    target: *mut u32,
    target_len: usize,
    source: *const u32,
    source_len: usize,
) {
    let target = unsafe { std::slice::from_raw_parts_mut(target, target_len) };
    let source = unsafe { std::slice::from_raw_parts(source, source_len) };
    target[..source_len].copy_from_slice(source);
}

/// # Safety
/// `words` points to `len` words.
#[inline(never)]
pub unsafe extern "C" fn rust_all_zero(words: *const u32, len: usize) -> bool {
    let words = unsafe { std::slice::from_raw_parts(words, len) };
    words.iter().fold(0, |seen, word| seen | word) == 0
}

/// # Safety
/// `words` points to `len` words.
#[inline(never)]
pub unsafe extern "C" fn rust_hash(words: *const u64, len: usize) -> u64 {
    let words = unsafe { std::slice::from_raw_parts(words, len) };
    words.iter().fold(0u64, |hash, word| (hash.rotate_left(5) ^ word).wrapping_mul(0x517c_c1b7_2722_0a95))
}

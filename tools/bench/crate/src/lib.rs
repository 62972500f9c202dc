//! The exports of crates/bench_exports once more, over the Rust crate `postcard` 1.1.3. The comments there say what each call
//! does and returns. `crate.h` declares these.

mod frames;
mod kinds;
mod lists;
mod records;

/// What a call returns if encoding or decoding fails.
pub(crate) const FAILED: u64 = u64::MAX;

/// The elements that a caller in C passes.
///
/// # Safety
///
/// `start` must lead to `count` elements that nobody changes while they are used.
pub(crate) unsafe fn list<'a, T>(start: *const T, count: usize) -> &'a [T] {
    unsafe { std::slice::from_raw_parts(start, count) }
}

/// The room that a caller in C passes.
///
/// # Safety
///
/// `start` must lead to `count` bytes that nobody else uses meanwhile.
pub(crate) unsafe fn room<'a>(start: *mut u8, count: usize) -> &'a mut [u8] {
    unsafe { std::slice::from_raw_parts_mut(start, count) }
}

/// The length of what a call wrote.
pub(crate) fn written(result: postcard::Result<&mut [u8]>) -> u64 {
    result.map_or(FAILED, |bytes| bytes.len() as u64)
}

/// The sum of the length and the last byte.
pub(crate) fn ends_of(bytes: &[u8]) -> u64 {
    (bytes.len() as u64).wrapping_add(bytes.last().map_or(0, |byte| u64::from(*byte)))
}

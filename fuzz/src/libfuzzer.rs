//! What libFuzzer calls.

use crate::{check, mutator};
use std::slice;

extern "C" {
    fn LLVMFuzzerMutate(data: *mut u8, size: usize, most: usize) -> usize;
}

/// # Safety
///
/// `data` points to `size` bytes.
#[no_mangle]
pub unsafe extern "C" fn LLVMFuzzerTestOneInput(data: *const u8, size: usize) -> i32 {
    check(if size == 0 {
        &[]
    } else {
        slice::from_raw_parts(data, size)
    });
    0
}

/// One change in four is libFuzzer's own; the others go on with the games of the text.
///
/// # Safety
///
/// `data` points to `most` bytes, of which `size` are the input.
#[no_mangle]
pub unsafe extern "C" fn LLVMFuzzerCustomMutator(
    data: *mut u8,
    size: usize,
    most: usize,
    seed: u32,
) -> usize {
    if seed % 4 == 0 || size == 0 {
        return LLVMFuzzerMutate(data, size, most);
    }
    let text = mutator::changed(slice::from_raw_parts(data, size), seed);
    let length = text.len().min(most);
    slice::from_raw_parts_mut(data, length).copy_from_slice(&text[..length]);
    length
}

//! Lists of numbers and of bytes.

use crate::{ends_of, list, room, written, FAILED};
use postcard::{from_bytes, from_io, to_allocvec, to_io, to_slice};

#[no_mangle]
pub unsafe extern "C" fn crate_u32s_encode(
    values: *const u32,
    count: usize,
    out: *mut u8,
    size: usize,
) -> u64 {
    written(to_slice(list(values, count), room(out, size)))
}

#[no_mangle]
pub unsafe extern "C" fn crate_u32s_allocate(values: *const u32, count: usize) -> u64 {
    to_allocvec(list(values, count)).map_or(FAILED, |bytes| bytes.len() as u64)
}

#[no_mangle]
pub unsafe extern "C" fn crate_u32s_decode(bytes: *const u8, size: usize) -> u64 {
    from_bytes::<Vec<u32>>(list(bytes, size)).map_or(FAILED, |numbers| {
        numbers
            .iter()
            .fold(0, |sum: u64, number| sum.wrapping_add(u64::from(*number)))
    })
}

#[no_mangle]
pub unsafe extern "C" fn crate_f32s_encode(
    values: *const f32,
    count: usize,
    out: *mut u8,
    size: usize,
) -> u64 {
    written(to_slice(list(values, count), room(out, size)))
}

#[no_mangle]
pub unsafe extern "C" fn crate_f32s_decode(bytes: *const u8, size: usize) -> u64 {
    from_bytes::<Vec<f32>>(list(bytes, size)).map_or(FAILED, |numbers| {
        let positive = numbers.last().is_some_and(|last| *last > 0.0);
        numbers.len() as u64 + u64::from(positive)
    })
}

#[no_mangle]
pub unsafe extern "C" fn crate_f64s_encode(
    values: *const f64,
    count: usize,
    out: *mut u8,
    size: usize,
) -> u64 {
    written(to_slice(list(values, count), room(out, size)))
}

#[no_mangle]
pub unsafe extern "C" fn crate_f64s_decode(bytes: *const u8, size: usize) -> u64 {
    from_bytes::<Vec<f64>>(list(bytes, size)).map_or(FAILED, |numbers| {
        let positive = numbers.last().is_some_and(|last| *last > 0.0);
        numbers.len() as u64 + u64::from(positive)
    })
}

#[no_mangle]
pub unsafe extern "C" fn crate_bytes_encode(
    values: *const u8,
    count: usize,
    out: *mut u8,
    size: usize,
) -> u64 {
    written(to_slice(list(values, count), room(out, size)))
}

#[no_mangle]
pub unsafe extern "C" fn crate_bytes_allocate(values: *const u8, count: usize) -> u64 {
    to_allocvec(list(values, count)).map_or(FAILED, |bytes| bytes.len() as u64)
}

#[no_mangle]
pub unsafe extern "C" fn crate_bytes_decode(bytes: *const u8, size: usize) -> u64 {
    from_bytes::<Vec<u8>>(list(bytes, size)).map_or(FAILED, |read| ends_of(&read))
}

#[no_mangle]
pub unsafe extern "C" fn crate_bytes_lend(bytes: *const u8, size: usize) -> u64 {
    from_bytes::<&[u8]>(list(bytes, size)).map_or(FAILED, ends_of)
}

#[no_mangle]
pub unsafe extern "C" fn crate_bytes_to_memory(
    values: *const u8,
    count: usize,
    out: *mut u8,
    size: usize,
) -> u64 {
    to_io(list(values, count), room(out, size)).map_or(FAILED, |_| count as u64)
}

#[no_mangle]
pub unsafe extern "C" fn crate_bytes_from_memory(
    bytes: *const u8,
    size: usize,
    scratch: *mut u8,
    most: usize,
) -> u64 {
    from_io::<&[u8], _>((list(bytes, size), room(scratch, most)))
        .map_or(FAILED, |(read, _)| ends_of(read))
}

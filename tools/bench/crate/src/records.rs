//! Small records, in buffers and over `std::io`.

use crate::{list, room, written, FAILED};
use postcard::{from_io, take_from_bytes, to_allocvec, to_io, to_slice};
use serde::{Deserialize, Serialize};

#[derive(Deserialize, Serialize)]
pub struct Record<'a> {
    a: u32,
    b: u16,
    c: Option<u8>,
    d: &'a str,
}

impl Record<'_> {
    pub fn numbered(i: u32) -> Record<'static> {
        let mixed = i.wrapping_mul(2_654_435_761);
        let high = mixed >> 16;
        Record {
            a: mixed >> (i % 4 * 8),
            b: (if i % 2 == 0 { high } else { high >> 8 }) as u16,
            c: (i % 3 != 0).then_some((i % 256) as u8),
            d: "twelve bytes",
        }
    }

    pub fn sum(&self) -> u64 {
        u64::from(self.a)
            .wrapping_add(u64::from(self.b))
            .wrapping_add(self.c.map_or(7, u64::from))
            .wrapping_add(self.d.len() as u64)
    }
}

#[no_mangle]
pub unsafe extern "C" fn crate_record(i: u32, out: *mut u8, size: usize) -> u64 {
    written(to_slice(&Record::numbered(i), room(out, size)))
}

#[no_mangle]
pub unsafe extern "C" fn crate_small_encode(count: u32, out: *mut u8, size: usize) -> u64 {
    let out = room(out, size);
    let mut sum: u64 = 0;
    for i in 0..count {
        let Ok(bytes) = to_slice(&Record::numbered(i), out) else {
            return FAILED;
        };
        sum = sum.wrapping_add(crate::ends_of(bytes));
    }
    sum
}

#[no_mangle]
pub extern "C" fn crate_small_allocate(count: u32) -> u64 {
    let mut sum: u64 = 0;
    for i in 0..count {
        let Ok(bytes) = to_allocvec(&Record::numbered(i)) else {
            return FAILED;
        };
        sum = sum.wrapping_add(bytes.len() as u64);
    }
    sum
}

#[no_mangle]
pub unsafe extern "C" fn crate_small_stream(count: u32, out: *mut u8, size: usize) -> u64 {
    let out = room(out, size);
    let mut used = 0;
    for i in 0..count {
        let Ok(bytes) = to_slice(&Record::numbered(i), &mut out[used..]) else {
            return FAILED;
        };
        used += bytes.len();
    }
    used as u64
}

#[no_mangle]
pub unsafe extern "C" fn crate_small_decode(bytes: *const u8, size: usize) -> u64 {
    let mut rest = list(bytes, size);
    let mut sum: u64 = 0;
    while !rest.is_empty() {
        let Ok((record, left)) = take_from_bytes::<Record>(rest) else {
            return FAILED;
        };
        sum = sum.wrapping_add(record.sum());
        rest = left;
    }
    sum
}

#[no_mangle]
pub unsafe extern "C" fn crate_records_to_memory(count: u32, out: *mut u8, size: usize) -> u64 {
    let mut writer = room(out, size);
    for i in 0..count {
        let Ok(after) = to_io(&Record::numbered(i), writer) else {
            return FAILED;
        };
        writer = after;
    }
    u64::from(count)
}

#[no_mangle]
pub unsafe extern "C" fn crate_records_from_memory(
    count: u32,
    bytes: *const u8,
    size: usize,
) -> u64 {
    let mut reader = list(bytes, size);
    let mut sum: u64 = 0;
    for _ in 0..count {
        let mut scratch = [0; 32];
        let Ok((record, (rest, _))) = from_io::<Record, _>((reader, &mut scratch)) else {
            return FAILED;
        };
        sum = sum.wrapping_add(record.sum());
        reader = rest;
    }
    sum
}

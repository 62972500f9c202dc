//! Lists and maps of many types: a message is decoded, or its value encoded or counted, many times.

use crate::records::Record;
use crate::{list, room, FAILED};
use postcard::experimental::serialized_size;
use postcard::{from_bytes, to_slice};
use serde::{Deserialize, Serialize};
use std::collections::BTreeMap;

#[derive(Deserialize, Serialize)]
struct Outer(u8, Middle);

#[derive(Deserialize, Serialize)]
struct Middle(u16, Inner);

#[derive(Deserialize, Serialize)]
struct Inner(u32, bool);

#[derive(Deserialize, Serialize)]
enum Either<'a> {
    Number(u8),
    Text(&'a str),
}

#[derive(Deserialize, Serialize)]
struct Le32(#[serde(with = "postcard::fixint::le")] u32);

#[derive(Deserialize, Serialize)]
struct Be32(#[serde(with = "postcard::fixint::be")] u32);

#[derive(Deserialize, Serialize)]
struct Le64(#[serde(with = "postcard::fixint::le")] u64);

#[derive(Deserialize, Serialize)]
struct Be16(#[serde(with = "postcard::fixint::be")] u16);

fn read<'a, T: Deserialize<'a>>(bytes: &'a [u8], rounds: u32) -> u64 {
    (0..rounds)
        .filter(|_| from_bytes::<T>(bytes).is_ok())
        .count() as u64
}

fn write<'a, T: Deserialize<'a> + Serialize>(bytes: &'a [u8], rounds: u32, out: &mut [u8]) -> u64 {
    let Ok(value) = from_bytes::<T>(bytes) else {
        return FAILED;
    };
    let mut sum: u64 = 0;
    for _ in 0..rounds {
        let Ok(written) = to_slice(&value, out) else {
            return FAILED;
        };
        sum = sum.wrapping_add(written.len() as u64);
    }
    sum
}

fn size<'a, T: Deserialize<'a> + Serialize>(bytes: &'a [u8], rounds: u32) -> u64 {
    let Ok(value) = from_bytes::<T>(bytes) else {
        return FAILED;
    };
    let mut sum: u64 = 0;
    for _ in 0..rounds {
        let Ok(count) = serialized_size(&value) else {
            return FAILED;
        };
        sum = sum.wrapping_add(count as u64);
    }
    sum
}

#[no_mangle]
pub unsafe extern "C" fn crate_read(kind: u32, bytes: *const u8, length: usize, rounds: u32) -> u64 {
    let bytes = list(bytes, length);
    match kind {
        0 => read::<Vec<&str>>(bytes, rounds),
        1 => read::<BTreeMap<u32, u32>>(bytes, rounds),
        2 => read::<Vec<Option<u32>>>(bytes, rounds),
        3 => read::<Vec<Record>>(bytes, rounds),
        4 => read::<Vec<Outer>>(bytes, rounds),
        5 => read::<Vec<Either>>(bytes, rounds),
        6 => read::<Vec<Le32>>(bytes, rounds),
        7 => read::<Vec<Be32>>(bytes, rounds),
        8 => read::<Vec<Le64>>(bytes, rounds),
        9 => read::<Vec<Be16>>(bytes, rounds),
        _ => 0,
    }
}

#[no_mangle]
pub unsafe extern "C" fn crate_write(
    kind: u32,
    bytes: *const u8,
    length: usize,
    rounds: u32,
    out: *mut u8,
    most: usize,
) -> u64 {
    let (bytes, out) = (list(bytes, length), room(out, most));
    match kind {
        0 => write::<Vec<&str>>(bytes, rounds, out),
        1 => write::<BTreeMap<u32, u32>>(bytes, rounds, out),
        2 => write::<Vec<Option<u32>>>(bytes, rounds, out),
        3 => write::<Vec<Record>>(bytes, rounds, out),
        4 => write::<Vec<Outer>>(bytes, rounds, out),
        5 => write::<Vec<Either>>(bytes, rounds, out),
        6 => write::<Vec<Le32>>(bytes, rounds, out),
        7 => write::<Vec<Be32>>(bytes, rounds, out),
        8 => write::<Vec<Le64>>(bytes, rounds, out),
        9 => write::<Vec<Be16>>(bytes, rounds, out),
        _ => 0,
    }
}

#[no_mangle]
pub unsafe extern "C" fn crate_size(kind: u32, bytes: *const u8, length: usize, rounds: u32) -> u64 {
    let bytes = list(bytes, length);
    match kind {
        0 => size::<Vec<&str>>(bytes, rounds),
        1 => size::<BTreeMap<u32, u32>>(bytes, rounds),
        3 => size::<Vec<Record>>(bytes, rounds),
        _ => 0,
    }
}

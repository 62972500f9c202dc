//! Frames of records and of a list of bytes, and a stream of frames.

use crate::records::Record;
use crate::{ends_of, list, room, written, FAILED};
use postcard::accumulator::{CobsAccumulator, FeedResult};
use postcard::{from_bytes_cobs, take_from_bytes_cobs, to_slice_cobs};

#[no_mangle]
pub unsafe extern "C" fn crate_cobs_encode(
    values: *const u8,
    count: usize,
    out: *mut u8,
    size: usize,
) -> u64 {
    written(to_slice_cobs(list(values, count), room(out, size)))
}

#[no_mangle]
pub unsafe extern "C" fn crate_cobs_decode(frame: *mut u8, size: usize) -> u64 {
    from_bytes_cobs::<&[u8]>(room(frame, size)).map_or(FAILED, ends_of)
}

#[no_mangle]
pub unsafe extern "C" fn crate_record_frame(i: u32, out: *mut u8, size: usize) -> u64 {
    written(to_slice_cobs(&Record::numbered(i), room(out, size)))
}

#[no_mangle]
pub unsafe extern "C" fn crate_frames_encode(count: u32, out: *mut u8, size: usize) -> u64 {
    let out = room(out, size);
    let mut used = 0;
    for i in 0..count {
        let Ok(frame) = to_slice_cobs(&Record::numbered(i), &mut out[used..]) else {
            return FAILED;
        };
        used += frame.len();
    }
    used as u64
}

#[no_mangle]
pub unsafe extern "C" fn crate_frames_decode(count: u32, frames: *mut u8, size: usize) -> u64 {
    let mut rest = room(frames, size);
    let mut sum: u64 = 0;
    for _ in 0..count {
        let Ok((record, left)) = take_from_bytes_cobs::<Record>(rest) else {
            return FAILED;
        };
        sum = sum.wrapping_add(record.sum());
        rest = left;
    }
    sum
}

#[no_mangle]
pub unsafe extern "C" fn crate_accumulate(stream: *const u8, size: usize, piece: usize) -> u64 {
    if piece == 0 {
        return FAILED;
    }
    let mut accumulator = CobsAccumulator::<64>::new();
    let mut sum: u64 = 0;
    for chunk in list(stream, size).chunks(piece) {
        let mut rest = chunk;
        while !rest.is_empty() {
            rest = match accumulator.feed_ref::<Record>(rest) {
                FeedResult::Consumed => &[],
                FeedResult::OverFull(left) => {
                    sum = sum.wrapping_add(1_000);
                    left
                }
                FeedResult::DeserError(left) => {
                    sum = sum.wrapping_add(1_000_000);
                    left
                }
                FeedResult::Success { data, remaining } => {
                    sum = sum.wrapping_add(data.sum());
                    remaining
                }
            };
        }
    }
    sum
}

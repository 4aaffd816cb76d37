//! The plain codecs with the proved ones' interface for C, so that a call costs both the same: a slice is a pointer and a length. Each function is
//! to be called as the proved one of that interface.

use std::slice::{from_raw_parts, from_raw_parts_mut};

use crate::plain;

pub type Decode = unsafe extern "C" fn(*const u32, usize, usize, u32, *mut u32, usize) -> u32;
pub type Encode = unsafe extern "C" fn(*const u32, usize, *mut u32, usize, usize) -> u32;

/// # Safety
/// `words` and `values` point to as many words, which do not overlap.
pub unsafe extern "C" fn decode(
    words: *const u32, length: usize, start: usize, stream: u32, values: *mut u32, room: usize,
) -> u32 {
    unsafe { plain::codec::decode(from_raw_parts(words, length), start, stream, from_raw_parts_mut(values, room)) }
}

/// # Safety
/// As above.
pub unsafe extern "C" fn encode(values: *const u32, count: usize, words: *mut u32, length: usize, start: usize) -> u32 {
    unsafe { plain::codec::encode(from_raw_parts(values, count), from_raw_parts_mut(words, length), start) }
}

/// # Safety
/// As above.
pub unsafe extern "C" fn decode_fetch(
    words: *const u32, length: usize, start: usize, kind: u32, values: *mut u32, room: usize,
) -> u32 {
    unsafe { plain::fetch_codec::decode(from_raw_parts(words, length), start, kind, from_raw_parts_mut(values, room)) }
}

/// # Safety
/// As above.
pub unsafe extern "C" fn encode_fetch(values: *const u32, count: usize, words: *mut u32, length: usize, start: usize) -> u32 {
    unsafe { plain::fetch_codec::encode(from_raw_parts(values, count), from_raw_parts_mut(words, length), start) }
}

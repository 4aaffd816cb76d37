//! The proved functions: the judge and both codecs from the archive that C links (libzlatomruk.a), and rules 10 to 15 on one clause, which is in
//! an archive for these comparisons alone (libbench_clause_c.a).

use crate::plain::Kind;

unsafe extern "C" {
    fn zlatomruk_alu_clause(
        words: *const u32, words_len: usize, start: usize, slots: usize, push_before: u32, kind: u32, gprs: u32, temps: u32,
        consts: u32, modes: u32,
    ) -> u64;
}

/// `plain::alu_clause`, proved.
#[allow(clippy::too_many_arguments)]
#[inline]
pub fn alu_clause(
    words: &[u32], start: usize, slots: usize, push_before: bool, kind: Kind, gprs: u32, temps: u32, consts: u32, mode0: u32,
    mode1: u32,
) -> (u32, usize) {
    // The slice is passed as the pointer and length that it is made of; the callee only reads it.
    let answer = unsafe {
        zlatomruk_alu_clause(
            words.as_ptr(),
            words.len(),
            start,
            slots,
            u32::from(push_before),
            kind as u32,
            gprs,
            temps,
            consts,
            mode0 + 4 * mode1,
        )
    };
    ((answer & 0xFF) as u32, (answer >> 32) as usize)
}

unsafe extern "C" {
    fn zlatomruk_judge(card: *const u8, card_len: usize, words: *const u32, words_len: usize) -> u64;
}

/// `plain::judge`, proved.
#[inline]
pub fn judge(card: &[u8], words: &[u32]) -> (u32, usize, usize) {
    // As above: two slices, only read.
    let answer = unsafe { zlatomruk_judge(card.as_ptr(), card.len(), words.as_ptr(), words.len()) };
    ((answer & 0xFF) as u32, (answer >> 16 & 0xFFFF) as usize, (answer >> 32) as usize)
}

unsafe extern "C" {
    pub fn zlatomruk_decode(
        words: *const u32, words_len: usize, start: usize, stream: u32, values: *mut u32, values_len: usize,
    ) -> u32;
    pub fn zlatomruk_encode(values: *const u32, values_len: usize, words: *mut u32, words_len: usize, start: usize) -> u32;
}

/// `plain::codec::decode`, proved.
#[inline]
pub fn decode(words: &[u32], start: usize, stream: u32, values: &mut [u32]) -> u32 {
    // Two slices that do not overlap; the callee reads the first and writes the second.
    unsafe { zlatomruk_decode(words.as_ptr(), words.len(), start, stream, values.as_mut_ptr(), values.len()) }
}

/// `plain::codec::encode`, proved.
#[inline]
pub fn encode(values: &[u32], words: &mut [u32], start: usize) -> u32 {
    // As above.
    unsafe { zlatomruk_encode(values.as_ptr(), values.len(), words.as_mut_ptr(), words.len(), start) }
}

unsafe extern "C" {
    pub fn zlatomruk_decode_fetch(
        words: *const u32, words_len: usize, start: usize, kind: u32, values: *mut u32, values_len: usize,
    ) -> u32;
    pub fn zlatomruk_encode_fetch(values: *const u32, values_len: usize, words: *mut u32, words_len: usize, start: usize) -> u32;
}

/// `plain::fetch_codec::decode`, proved.
#[inline]
pub fn decode_fetch(words: &[u32], start: usize, kind: u32, values: &mut [u32]) -> u32 {
    // As above.
    unsafe { zlatomruk_decode_fetch(words.as_ptr(), words.len(), start, kind, values.as_mut_ptr(), values.len()) }
}

/// `plain::fetch_codec::encode`, proved.
#[inline]
pub fn encode_fetch(values: &[u32], words: &mut [u32], start: usize) -> u32 {
    // As above.
    unsafe { zlatomruk_encode_fetch(values.as_ptr(), values.len(), words.as_mut_ptr(), words.len(), start) }
}

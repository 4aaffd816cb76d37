//! Decoder and encoder of fetches, between their four words and rows of values: the form (5 texture, 6 vertex with a register, 7 vertex with a
//! semantic id), then each field from the lowest bit of the first word up; the fourth word is 0. Bits are as sections 10.3 and 10.4 give them,
//! high:low; the order of values and of answers is the proved code's.

use super::codec::{VALUES, bits};
use super::fetches::{TEX_NUMBERS, VTX_NUMBERS};

/// What the longest form, texture, takes of a row.
pub const LONGEST: usize = 30;

/// The kinds, by the CF_INST of their opener.
pub const TEX: u32 = 1;
pub const VTX: u32 = 2;
pub const VTX_TC: u32 = 3;

/// The fetch at word `start`, in a clause of this kind. Answers 0, or 21 if there is no such kind, 2, 8 (document 01) or 20 if `values` is short;
/// then nothing is written.
pub fn decode(words: &[u32], start: usize, kind: u32, values: &mut [u32]) -> u32 {
    if !matches!(kind, TEX | VTX | VTX_TC) {
        return 21;
    }
    let Some(&[first, second, third, fourth]) = words.get(start..).and_then(|rest| rest.first_chunk()) else { return 2 };
    let number = bits::<4, 0>(first);
    let taken = if kind == TEX { TEX_NUMBERS } else { VTX_NUMBERS };
    if taken >> number & 1 == 0 || fourth != 0 {
        return 8;
    }
    let Some(values) = values.first_chunk_mut() else { return 20 };
    match (kind, number) {
        (TEX, _) => tex(first, second, third, values),
        (_, 0) => vtx_gpr(first, second, third, values),
        _ => vtx_sem(first, second, third, values),
    }
    0
}

// The functions of the forms are not inlined, but for the first here: the compiler would join the ends of those that are, and each would take
// longer.

fn tex(first: u32, second: u32, third: u32, values: &mut [u32; VALUES]) {
    values[..LONGEST].copy_from_slice(&[
        5,
        bits::<4, 0>(first),
        bits::<5, 5>(first),
        bits::<6, 6>(first),
        bits::<7, 7>(first),
        bits::<15, 8>(first),
        bits::<22, 16>(first),
        bits::<23, 23>(first),
        bits::<24, 24>(first),
        bits::<31, 25>(first),
        bits::<6, 0>(second),
        bits::<7, 7>(second),
        bits::<8, 8>(second),
        bits::<11, 9>(second),
        bits::<14, 12>(second),
        bits::<17, 15>(second),
        bits::<20, 18>(second),
        bits::<27, 21>(second),
        bits::<28, 28>(second),
        bits::<29, 29>(second),
        bits::<30, 30>(second),
        bits::<31, 31>(second),
        bits::<4, 0>(third),
        bits::<9, 5>(third),
        bits::<14, 10>(third),
        bits::<19, 15>(third),
        bits::<22, 20>(third),
        bits::<25, 23>(third),
        bits::<28, 26>(third),
        bits::<31, 29>(third),
    ]);
}

#[inline(never)]
fn vtx_gpr(first: u32, second: u32, third: u32, values: &mut [u32; VALUES]) {
    values[..27].copy_from_slice(&[
        6,
        bits::<4, 0>(first),
        bits::<6, 5>(first),
        bits::<7, 7>(first),
        bits::<15, 8>(first),
        bits::<22, 16>(first),
        bits::<23, 23>(first),
        bits::<25, 24>(first),
        bits::<31, 26>(first),
        bits::<6, 0>(second),
        bits::<7, 7>(second),
        bits::<8, 8>(second),
        bits::<11, 9>(second),
        bits::<14, 12>(second),
        bits::<17, 15>(second),
        bits::<20, 18>(second),
        bits::<21, 21>(second),
        bits::<27, 22>(second),
        bits::<29, 28>(second),
        bits::<30, 30>(second),
        bits::<31, 31>(second),
        bits::<15, 0>(third),
        bits::<17, 16>(third),
        bits::<18, 18>(third),
        bits::<19, 19>(third),
        bits::<20, 20>(third),
        bits::<31, 21>(third),
    ]);
}

#[inline(never)]
fn vtx_sem(first: u32, second: u32, third: u32, values: &mut [u32; VALUES]) {
    values[..26].copy_from_slice(&[
        7,
        bits::<4, 0>(first),
        bits::<6, 5>(first),
        bits::<7, 7>(first),
        bits::<15, 8>(first),
        bits::<22, 16>(first),
        bits::<23, 23>(first),
        bits::<25, 24>(first),
        bits::<31, 26>(first),
        bits::<7, 0>(second),
        bits::<8, 8>(second),
        bits::<11, 9>(second),
        bits::<14, 12>(second),
        bits::<17, 15>(second),
        bits::<20, 18>(second),
        bits::<21, 21>(second),
        bits::<27, 22>(second),
        bits::<29, 28>(second),
        bits::<30, 30>(second),
        bits::<31, 31>(second),
        bits::<15, 0>(third),
        bits::<17, 16>(third),
        bits::<18, 18>(third),
        bits::<19, 19>(third),
        bits::<20, 20>(third),
        bits::<31, 21>(third),
    ]);
}

/// The record in `values`, as four words at `start`. Answers 0, or 21 or 20 (document 01); then nothing is written.
pub fn encode(values: &[u32], words: &mut [u32], start: usize) -> u32 {
    let Some(values) = values.first_chunk() else { return 21 };
    if !is_taken(values) {
        return 21;
    }
    let Some(room) = words.get_mut(start..).and_then(|rest| rest.first_chunk_mut()) else { return 20 };
    match values[0] {
        5 => tex_words(values, room),
        6 => vtx_gpr_words(values, room),
        _ => vtx_sem_words(values, room),
    }
    0
}

/// A form that there is, within its widths, with a number that is taken.
#[inline(always)]
fn is_taken(values: &[u32; VALUES]) -> bool {
    match values[0] {
        5 => within(values, &TEX_BEYOND) && TEX_NUMBERS >> values[1] & 1 == 1,
        6 => within(values, &VTX_GPR_BEYOND) && values[1] == 0,
        7 => within(values, &VTX_SEM_BEYOND) && values[1] == 1,
        _ => false,
    }
}

/// The bits that values are not to have, from the fields' widths in their order. The form, and what is behind the last, may have any.
const fn beyond<const N: usize>(widths: [u32; N]) -> [u32; VALUES] {
    let mut beyond = [0; VALUES];
    let mut field = 0;
    while field < N {
        beyond[1 + field] = u32::MAX << widths[field];
        field += 1;
    }
    beyond
}

const TEX_BEYOND: [u32; VALUES] = beyond([5, 1, 1, 1, 8, 7, 1, 1, 7, 7, 1, 1, 3, 3, 3, 3, 7, 1, 1, 1, 1, 5, 5, 5, 5, 3, 3, 3, 3]);
const VTX_GPR_BEYOND: [u32; VALUES] = beyond([5, 2, 1, 8, 7, 1, 2, 6, 7, 1, 1, 3, 3, 3, 3, 1, 6, 2, 1, 1, 16, 2, 1, 1, 1, 11]);
const VTX_SEM_BEYOND: [u32; VALUES] = beyond([5, 2, 1, 8, 7, 1, 2, 6, 8, 1, 3, 3, 3, 3, 1, 6, 2, 1, 1, 16, 2, 1, 1, 1, 11]);

/// All of a row at once, so that the machine takes several values to a step.
#[inline(always)]
fn within(values: &[u32; VALUES], beyond: &[u32; VALUES]) -> bool {
    values.iter().zip(beyond).fold(0, |excess, (value, beyond)| excess | value & beyond) == 0
}

#[inline(never)]
fn tex_words(v: &[u32; VALUES], words: &mut [u32; 4]) {
    *words = [
        v[1] | v[2] << 5 | v[3] << 6 | v[4] << 7 | v[5] << 8 | v[6] << 16 | v[7] << 23 | v[8] << 24 | v[9] << 25,
        v[10]
            | v[11] << 7
            | v[12] << 8
            | v[13] << 9
            | v[14] << 12
            | v[15] << 15
            | v[16] << 18
            | v[17] << 21
            | v[18] << 28
            | v[19] << 29
            | v[20] << 30
            | v[21] << 31,
        v[22] | v[23] << 5 | v[24] << 10 | v[25] << 15 | v[26] << 20 | v[27] << 23 | v[28] << 26 | v[29] << 29,
        0,
    ];
}

/// VTX_WORD0 is the same for both.
#[inline(always)]
fn vtx_first(v: &[u32; VALUES]) -> u32 {
    v[1] | v[2] << 5 | v[3] << 7 | v[4] << 8 | v[5] << 16 | v[6] << 23 | v[7] << 24 | v[8] << 26
}

/// So is what stands behind the destination in VTX_WORD1, and VTX_WORD2.
#[inline(always)]
fn vtx_rest(v: &[u32; 16]) -> [u32; 2] {
    [
        v[0] << 8
            | v[1] << 9
            | v[2] << 12
            | v[3] << 15
            | v[4] << 18
            | v[5] << 21
            | v[6] << 22
            | v[7] << 28
            | v[8] << 30
            | v[9] << 31,
        v[10] | v[11] << 16 | v[12] << 18 | v[13] << 19 | v[14] << 20 | v[15] << 21,
    ]
}

#[inline(never)]
fn vtx_gpr_words(v: &[u32; VALUES], words: &mut [u32; 4]) {
    let [second, third] = vtx_rest(v[11..].first_chunk().expect("16 values"));
    *words = [vtx_first(v), v[9] | v[10] << 7 | second, third, 0];
}

#[inline(never)]
fn vtx_sem_words(v: &[u32; VALUES], words: &mut [u32; 4]) {
    let [second, third] = vtx_rest(v[10..].first_chunk().expect("16 values"));
    *words = [vtx_first(v), v[9] | second, third, 0];
}

#[cfg(test)]
mod tests {
    use super::*;

    /// Words and their kind, and the row that they are.
    fn comes_back(words: [u32; 4], kind: u32, row: &[u32]) {
        let (mut values, mut back) = ([7; VALUES], [7; 6]);
        assert_eq!(decode(&words, 0, kind, &mut values), 0);
        assert_eq!(values[..row.len()], *row);
        assert_eq!(values[row.len()..], [7; VALUES][row.len()..]);
        assert_eq!(encode(&values, &mut back, 1), 0);
        assert_eq!(back, [7, words[0], words[1], words[2], words[3], 7]);
    }

    /// The fetch of examples/texture.pack, with an offset of one texel to the left.
    #[test]
    fn a_texture_fetch() {
        let row = [5, 16, 0, 0, 0, 0, 0, 0, 0, 0, 1, 0, 0, 0, 1, 2, 3, 0, 1, 1, 1, 1, 30, 0, 0, 0, 0, 1, 2, 3];
        comes_back([0x0000_0010, 0xF00D_1001, 0x6880_001E, 0], TEX, &row);
    }

    /// Words of tests/fetch-vectors.txt: f9, f4.
    #[test]
    fn vertex_fetches() {
        for kind in [VTX, VTX_TC] {
            let row = [6, 0, 1, 1, 255, 24, 1, 1, 2, 127, 0, 0, 0, 0, 7, 0, 1, 0, 3, 0, 0, 11522, 0, 0, 1, 1, 858];
            comes_back([0x0998_FFA0, 0x3023_807F, 0x6B58_2D02, 0], kind, &row);
            let row = [7, 1, 3, 0, 11, 0, 1, 2, 63, 66, 1, 0, 0, 1, 2, 1, 52, 2, 1, 0, 2, 3, 1, 1, 0, 755];
            comes_back([0xFE80_0B61, 0x6D28_8142, 0x5E6F_0002, 0], kind, &row);
        }
    }

    /// Every bit of the first three words is in one field: each comes back alone, and the number with it.
    #[test]
    fn every_bit_comes_back() {
        for (kind, number) in [(TEX, 16), (VTX, 0), (VTX_TC, 1)] {
            for bit in 5..96 {
                let mut words = [number, 0, 0, 0];
                words[bit / 32] |= 1 << (bit % 32);
                let (mut values, mut back) = ([0; VALUES], [7; 4]);
                assert_eq!(decode(&words, 0, kind, &mut values), 0);
                assert_eq!(values[2..].iter().map(|value| value.count_ones()).sum::<u32>(), 1);
                assert_eq!(encode(&values, &mut back, 0), 0);
                assert_eq!(back, words);
            }
        }
    }

    #[test]
    fn refused_ones() {
        let sample = [0x0000_0010, 0xF00D_1001, 0x6880_0000, 0];
        let mut values = [7; VALUES];
        for (answer, words, start, kind, room) in [
            (21, &sample[..0], usize::MAX, 0, 0),
            (21, &sample[..], 0, 4, VALUES),
            (2, &sample[..], 1, TEX, VALUES),
            (2, &sample[..], usize::MAX, TEX, 0),
            (8, &sample[..], 0, VTX, 0),
            (8, &[0x10, 0, 0, 1], 0, TEX, 0),
            (8, &[9, 0, 0, 0], 0, TEX, 0),
            (20, &sample[..], 0, TEX, VALUES - 1),
        ] {
            assert_eq!(decode(words, start, kind, &mut values[..room]), answer);
            assert_eq!(values, [7; VALUES]);
        }
        assert_eq!(decode(&sample, 0, TEX, &mut values), 0);
        let mut words = [7; 4];
        assert_eq!(encode(&values, &mut words, 1), 20);
        assert_eq!(encode(&values[..VALUES - 1], &mut words, 0), 21);
        for (place, value) in [(0, 4), (0, 8), (1, 9), (1, 48), (2, 2), (22, 32), (29, 8), (29, 1 << 31)] {
            let mut changed = values;
            changed[place] = value;
            assert_eq!(encode(&changed, &mut words, 1), 21);
        }
        assert_eq!(words, [7; 4]);
    }
}

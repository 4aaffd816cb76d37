//! Decoder and encoder of the taken pairs, between words and rows of values: the form (0 CF_ALU, 1 CF, 2 export, 3 OP2,
//! 4 OP3), then each field from the lowest bit of the low word up. Bits are as chapter 10 gives them, high:low; unlike the judge's
//! files, this one has its order of values and of answers from the proved code.

use super::opcodes::{UNTAKEN, class_of};

/// Elements that a row of values has to have, whatever its form.
pub const VALUES: usize = 32;

/// What the longest form of a pair, OP2, takes of them.
pub const LONGEST: usize = 24;

/// Bits HIGH:LOW of a word.
#[inline(always)]
pub(super) fn bits<const HIGH: u32, const LOW: u32>(word: u32) -> u32 {
    word << (31 - HIGH) >> (31 - HIGH + LOW)
}

/// The pair at word `start`, in control flow if `stream` is 0 and in an ALU clause if it is 1. Answers 0, or 21 if it is neither, 2, 4, 11
/// (document 01) or 20 if `values` is short; then nothing is written.
pub fn decode(words: &[u32], start: usize, stream: u32, values: &mut [u32]) -> u32 {
    if stream > 1 {
        return 21;
    }
    let Some([low, high]) = words.get(start..).and_then(|rest| rest.first_chunk()).copied() else { return 2 };
    if stream == 0 { decode_control(low, high, values) } else { decode_alu(low, high, values) }
}

fn decode_control(low: u32, high: u32, values: &mut [u32]) -> u32 {
    if bits::<29, 29>(high) == 1 {
        return if cf_alu_taken(bits::<29, 26>(high)) { put(cf_alu(low, high), values) } else { 4 };
    }
    let number = bits::<29, 23>(high);
    if cf_taken(number) {
        put(cf(low, high), values)
    } else if export_taken(number) {
        put(export(low, high), values)
    } else {
        4
    }
}

fn decode_alu(low: u32, high: u32, values: &mut [u32]) -> u32 {
    if class_of(high) & UNTAKEN != 0 {
        11
    } else if bits::<17, 15>(high) == 0 {
        put(op2(low, high), values)
    } else {
        put(op3(low, high), values)
    }
}

fn cf_alu_taken(number: u32) -> bool {
    matches!(number, 8..=11)
}

fn cf_taken(number: u32) -> bool {
    matches!(number, 0..=3 | 5 | 6 | 8..=10 | 13 | 14)
}

fn export_taken(number: u32) -> bool {
    matches!(number, 39 | 40)
}

#[inline]
fn put<const N: usize>(row: [u32; N], values: &mut [u32]) -> u32 {
    if values.len() < VALUES {
        return 20;
    }
    values[..N].copy_from_slice(&row);
    0
}

fn cf_alu(low: u32, high: u32) -> [u32; 13] {
    [
        0,
        bits::<21, 0>(low),
        bits::<25, 22>(low),
        bits::<29, 26>(low),
        bits::<31, 30>(low),
        bits::<1, 0>(high),
        bits::<9, 2>(high),
        bits::<17, 10>(high),
        bits::<24, 18>(high),
        bits::<25, 25>(high),
        bits::<29, 26>(high),
        bits::<30, 30>(high),
        bits::<31, 31>(high),
    ]
}

fn cf(low: u32, high: u32) -> [u32; 13] {
    [
        1,
        low,
        bits::<2, 0>(high),
        bits::<7, 3>(high),
        bits::<9, 8>(high),
        bits::<12, 10>(high) | bits::<19, 19>(high) << 3, // COUNT and COUNT_3
        bits::<18, 13>(high),
        bits::<20, 20>(high),
        bits::<21, 21>(high),
        bits::<22, 22>(high),
        bits::<29, 23>(high),
        bits::<30, 30>(high),
        bits::<31, 31>(high),
    ]
}

fn export(low: u32, high: u32) -> [u32; 18] {
    [
        2,
        bits::<12, 0>(low),
        bits::<14, 13>(low),
        bits::<21, 15>(low),
        bits::<22, 22>(low),
        bits::<29, 23>(low),
        bits::<31, 30>(low),
        bits::<2, 0>(high),
        bits::<5, 3>(high),
        bits::<8, 6>(high),
        bits::<11, 9>(high),
        bits::<16, 12>(high),
        bits::<20, 17>(high),
        bits::<21, 21>(high),
        bits::<22, 22>(high),
        bits::<29, 23>(high),
        bits::<30, 30>(high),
        bits::<31, 31>(high),
    ]
}

fn op2(low: u32, high: u32) -> [u32; LONGEST] {
    [
        3,
        bits::<8, 0>(low),
        bits::<9, 9>(low),
        bits::<11, 10>(low),
        bits::<12, 12>(low),
        bits::<21, 13>(low),
        bits::<22, 22>(low),
        bits::<24, 23>(low),
        bits::<25, 25>(low),
        bits::<28, 26>(low),
        bits::<30, 29>(low),
        bits::<31, 31>(low),
        bits::<0, 0>(high),
        bits::<1, 1>(high),
        bits::<2, 2>(high),
        bits::<3, 3>(high),
        bits::<4, 4>(high),
        bits::<6, 5>(high),
        bits::<17, 7>(high),
        bits::<20, 18>(high),
        bits::<27, 21>(high),
        bits::<28, 28>(high),
        bits::<30, 29>(high),
        bits::<31, 31>(high),
    ]
}

fn op3(low: u32, high: u32) -> [u32; 22] {
    [
        4,
        bits::<8, 0>(low),
        bits::<9, 9>(low),
        bits::<11, 10>(low),
        bits::<12, 12>(low),
        bits::<21, 13>(low),
        bits::<22, 22>(low),
        bits::<24, 23>(low),
        bits::<25, 25>(low),
        bits::<28, 26>(low),
        bits::<30, 29>(low),
        bits::<31, 31>(low),
        bits::<8, 0>(high),
        bits::<9, 9>(high),
        bits::<11, 10>(high),
        bits::<12, 12>(high),
        bits::<17, 13>(high),
        bits::<20, 18>(high),
        bits::<27, 21>(high),
        bits::<28, 28>(high),
        bits::<30, 29>(high),
        bits::<31, 31>(high),
    ]
}

/// The record in `values`, as two words at `start`. Answers 0, or 21 or 20 (document 01); then nothing is written.
pub fn encode(values: &[u32], words: &mut [u32], start: usize) -> u32 {
    let Some(pair) = pair(values) else { return 21 };
    let Some(room) = words.get_mut(start..).and_then(|rest| rest.first_chunk_mut()) else { return 20 };
    *room = pair;
    0
}

/// The words of a record that is of a taken form and within its widths.
fn pair(values: &[u32]) -> Option<[u32; 2]> {
    let values: &[u32; VALUES] = values.first_chunk()?;
    match values[0] {
        0 => cf_alu_pair(values),
        1 => cf_pair(values),
        2 => export_pair(values),
        3 => op2_pair(values),
        4 => op3_pair(values),
        _ => None,
    }
}

/// The word with these fields, each a value and its bits high:low, if none has more bits.
#[inline(always)]
fn word<const N: usize>(fields: [(u32, u32, u32); N]) -> Option<u32> {
    let (mut word, mut excess) = (0, 0);
    for (value, high, low) in fields {
        excess |= value & !(u32::MAX >> (31 - high + low));
        word |= value << low;
    }
    (excess == 0).then_some(word)
}

fn cf_alu_pair(v: &[u32; VALUES]) -> Option<[u32; 2]> {
    let low = word([(v[1], 21, 0), (v[2], 25, 22), (v[3], 29, 26), (v[4], 31, 30)])?;
    let high = word([
        (v[5], 1, 0),
        (v[6], 9, 2),
        (v[7], 17, 10),
        (v[8], 24, 18),
        (v[9], 25, 25),
        (v[10], 29, 26),
        (v[11], 30, 30),
        (v[12], 31, 31),
    ])?;
    cf_alu_taken(v[10]).then_some([low, high])
}

fn cf_pair(v: &[u32; VALUES]) -> Option<[u32; 2]> {
    let high = word([
        (v[2], 2, 0),
        (v[3], 7, 3),
        (v[4], 9, 8),
        (v[5] & 7, 12, 10),
        (v[6], 18, 13),
        (v[5] >> 3, 19, 19),
        (v[7], 20, 20),
        (v[8], 21, 21),
        (v[9], 22, 22),
        (v[10], 29, 23),
        (v[11], 30, 30),
        (v[12], 31, 31),
    ])?;
    cf_taken(v[10]).then_some([v[1], high])
}

fn export_pair(v: &[u32; VALUES]) -> Option<[u32; 2]> {
    let low = word([(v[1], 12, 0), (v[2], 14, 13), (v[3], 21, 15), (v[4], 22, 22), (v[5], 29, 23), (v[6], 31, 30)])?;
    let high = word([
        (v[7], 2, 0),
        (v[8], 5, 3),
        (v[9], 8, 6),
        (v[10], 11, 9),
        (v[11], 16, 12),
        (v[12], 20, 17),
        (v[13], 21, 21),
        (v[14], 22, 22),
        (v[15], 29, 23),
        (v[16], 30, 30),
        (v[17], 31, 31),
    ])?;
    export_taken(v[15]).then_some([low, high])
}

/// ALU_WORD0 is the same for OP2 and OP3.
fn alu_low(v: &[u32; VALUES]) -> Option<u32> {
    word([
        (v[1], 8, 0),
        (v[2], 9, 9),
        (v[3], 11, 10),
        (v[4], 12, 12),
        (v[5], 21, 13),
        (v[6], 22, 22),
        (v[7], 24, 23),
        (v[8], 25, 25),
        (v[9], 28, 26),
        (v[10], 30, 29),
        (v[11], 31, 31),
    ])
}

/// An OP2 number of 256 or more would read as OP3.
fn op2_pair(v: &[u32; VALUES]) -> Option<[u32; 2]> {
    let low = alu_low(v)?;
    let high = word([
        (v[12], 0, 0),
        (v[13], 1, 1),
        (v[14], 2, 2),
        (v[15], 3, 3),
        (v[16], 4, 4),
        (v[17], 6, 5),
        (v[18], 17, 7),
        (v[19], 20, 18),
        (v[20], 27, 21),
        (v[21], 28, 28),
        (v[22], 30, 29),
        (v[23], 31, 31),
    ])?;
    (v[18] < 256 && class_of(high) & UNTAKEN == 0).then_some([low, high])
}

/// An OP3 number below 4 would read as OP2.
fn op3_pair(v: &[u32; VALUES]) -> Option<[u32; 2]> {
    let low = alu_low(v)?;
    let high = word([
        (v[12], 8, 0),
        (v[13], 9, 9),
        (v[14], 11, 10),
        (v[15], 12, 12),
        (v[16], 17, 13),
        (v[17], 20, 18),
        (v[18], 27, 21),
        (v[19], 28, 28),
        (v[20], 30, 29),
        (v[21], 31, 31),
    ])?;
    (v[16] >= 4 && class_of(high) & UNTAKEN == 0).then_some([low, high])
}

#[cfg(test)]
mod tests {
    use super::*;

    /// Document 01's packs, all pairs: control flow ends with the first pair that has its end bit.
    #[test]
    fn the_papers_pairs_come_back() {
        let copy = [0x0000_0002, 0xA000_0000, 0x0000_0000, 0x0020_0000, 0x8000_0000, 0x0020_0C90];
        let branch = [
            0x0000_0004,
            0x2400_0000,
            0x0000_0003,
            0x0500_0001,
            0x0000_0003,
            0x0700_0001,
            0x0000_0000,
            0x0020_0000,
            0x801F_0000,
            0x0000_100C,
        ];
        for (words, section) in [(&copy[..], 2), (&branch[..], 4)] {
            for pair in 0..words.len() / 2 {
                let (mut values, mut back) = ([0; VALUES], [0; 2]);
                assert_eq!(decode(words, 2 * pair, u32::from(pair >= section), &mut values), 0);
                assert_eq!(encode(&values, &mut back, 0), 0);
                assert_eq!(back, words[2 * pair..2 * pair + 2]);
            }
        }
    }

    #[test]
    fn the_copy_packs_mov() {
        let mut values = [7; VALUES];
        assert_eq!(decode(&[0x8000_0000, 0x0020_0C90], 0, 1, &mut values), 0);
        assert_eq!(values[..LONGEST], [3, 0, 0, 0, 0, 0, 0, 0, 0, 0, 0, 1, 0, 0, 0, 0, 1, 0, 25, 0, 1, 0, 0, 0]);
        assert_eq!(values[LONGEST..], [7; VALUES - LONGEST]);
    }
}

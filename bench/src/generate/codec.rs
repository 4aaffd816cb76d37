//! Pairs of words and rows of values for the codec: random ones, ones with every number, and rows just beyond what is taken.

use super::random::Random;
use crate::plain::codec::{LONGEST, VALUES, decode};

/// The two streams, as the codec numbers them.
pub const STREAMS: [u32; 2] = [0, 1];

/// Where a stream's numbers stand in the high word, lowest bit and width: control flow 29:23 (CF_ALU's are its top four), ALU 17:7.
fn number_bits(stream: u32) -> (u32, u32) {
    if stream == 0 { (23, 7) } else { (7, 11) }
}

/// How many numbers a stream has, taken or not.
pub fn numbers(stream: u32) -> u32 {
    1 << number_bits(stream).1
}

/// A pair with this number; all other bits are random.
pub fn numbered(stream: u32, number: u32, random: &mut Random) -> [u32; 2] {
    let (low, width) = number_bits(stream);
    let mask = ((1 << width) - 1) << low;
    [random.word(), random.word() & !mask | number << low]
}

/// A pair that is taken: numbers are tried until one is.
pub fn taken(stream: u32, random: &mut Random) -> [u32; 2] {
    loop {
        let number = random.below(numbers(stream) as usize) as u32;
        let pair = numbered(stream, number, random);
        if decode(&pair, 0, stream, &mut [0; VALUES]) == 0 {
            return pair;
        }
    }
}

/// A row of values: of a taken pair, most often with one value changed, and random ones behind the form's last.
pub fn row(random: &mut Random) -> Vec<u32> {
    let mut values: Vec<u32> = (0..VALUES + random.below(4)).map(|_| random.word()).collect();
    let stream = random.pick(&STREAMS);
    let pair = taken(stream, random);
    assert_eq!(decode(&pair, 0, stream, &mut values), 0, "a pair made to be taken");
    let place = random.below(LONGEST);
    match random.below(12) {
        0..=3 => {}
        4 => values[place] = random.word(),
        5 => values[place] = random.below(64) as u32,
        6 => values[place] |= 1 << random.below(32), // within the width, at it and beyond
        7 => values[place] = (1 << random.below(32)) - 1,
        8 => values[0] = random.below(8) as u32, // another form, or none
        9 => values[0] = 5 << random.below(29),
        10 => values.iter_mut().skip(1).for_each(|value| *value = random.below(4) as u32),
        _ => values.truncate(random.below(VALUES)),
    }
    values
}

/// A start in words of this length: `inside` most often, else any, also the largest numbers.
pub fn start(inside: usize, length: usize, random: &mut Random) -> usize {
    match random.below(30) {
        0 => random.below(length + 3),
        1 => usize::MAX - random.below(4),
        _ => inside,
    }
}

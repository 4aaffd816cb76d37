//! Fetches and rows of values for their codec: random ones, ones with every number, and rows just beyond what is taken.

use super::random::Random;
use crate::plain::codec::VALUES;
use crate::plain::fetch_codec::{LONGEST, TEX, VTX, VTX_TC, decode};

pub const KINDS: [u32; 3] = [TEX, VTX, VTX_TC];

/// How many numbers there are, taken or not: the lowest five bits.
pub const NUMBERS: u32 = 32;

/// A fetch with this number and its fourth word 0; all other bits are random.
pub fn numbered(number: u32, random: &mut Random) -> [u32; 4] {
    [random.word() & !(NUMBERS - 1) | number, random.word(), random.word(), 0]
}

/// A fetch that is taken: numbers are tried until one is.
pub fn taken(kind: u32, random: &mut Random) -> [u32; 4] {
    // VTX has two numbers.
    let numbers = if kind == TEX { NUMBERS } else { 2 };
    loop {
        let fetch = numbered(random.below(numbers as usize) as u32, random);
        if decode(&fetch, 0, kind, &mut [0; VALUES]) == 0 {
            return fetch;
        }
    }
}

/// A fetch as it comes: random words, or a taken one with a bit of its fourth word set, or many bits clear.
pub fn wild(kind: u32, random: &mut Random) -> [u32; 4] {
    let mut fetch = taken(kind, random);
    match random.below(4) {
        0 => fetch.fill_with(|| random.word()),
        1 => fetch[3] = 1 << random.below(32),
        2 => fetch.iter_mut().for_each(|word| *word &= random.word() & random.word()),
        _ => fetch[0] = random.word(),
    }
    fetch
}

/// A row of values: of a taken fetch, most often with one value changed, and random ones behind the form's last.
pub fn row(random: &mut Random) -> Vec<u32> {
    let mut values: Vec<u32> = (0..VALUES + random.below(4)).map(|_| random.word()).collect();
    let kind = random.pick(&KINDS);
    let fetch = taken(kind, random);
    assert_eq!(decode(&fetch, 0, kind, &mut values), 0, "a fetch made to be taken");
    let place = random.below(LONGEST);
    match random.below(12) {
        0..=3 => {}
        4 => values[place] = random.word(),
        5 => values[place] = random.below(64) as u32,
        6 => values[place] |= 1 << random.below(32), // within the width, at it and beyond
        7 => values[place] = (1 << random.below(32)) - 1,
        8 => values[0] = random.below(10) as u32, // another form, a pair's, or none
        9 => values[1] = random.below(40) as u32, // another number, or none
        10 => values.iter_mut().skip(1).for_each(|value| *value = random.below(4) as u32),
        _ => values.truncate(random.below(VALUES)),
    }
    values
}

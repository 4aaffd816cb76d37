//! Aimed damage: small changes, each meant for one rule, though it may well break another or none.

use super::control::{self, ELSE, JUMP, LOOP_BREAK, LOOP_CONTINUE, LOOP_END, LOOP_START, POP};
use super::overlap;
use super::pack::Pack;
use super::random::Random;
use crate::plain::Kind;

/// Replaces the bits `high:low` of a word.
pub fn set(word: &mut u32, high: u32, low: u32, value: u32) {
    let mask = (u32::MAX >> (31 - (high - low))) << low;
    *word = *word & !mask | value << low & mask;
}

/// A number close to `near`, or far off.
fn close_to(near: usize, random: &mut Random) -> u32 {
    match random.below(10) {
        0 => random.pick(&[0, u32::MAX, u32::MAX - 1, 1 << 31, 1 << 22, (1 << 22) - 1]),
        1 => random.below(2 * near + 4) as u32,
        _ => (near + random.below(5)).saturating_sub(2) as u32,
    }
}

/// Damages a pack in one way.
pub fn pack(pack: &mut Pack, random: &mut Random) {
    match random.below(28) {
        0 => figures(pack, random),
        1 => length(pack, random),
        2 => ends(pack, random),
        3 => {
            let at = random.below(pack.words.len());
            pack.words[at] ^= 1 << random.below(32);
        }
        4..=9 => flow(pack, random),
        10 | 11 => openers(pack, random),
        12 => fields(pack, random),
        13..=15 => exports(pack, random),
        16..=18 => clause_part(pack, random, false),
        19..=22 => clause_part(pack, random, true),
        23..=26 => overlap::pack(pack, random),
        _ => reorder(pack, random),
    }
}

/// Position of a pair in the section for which `wanted` holds of the high word, if there is one.
fn find(pack: &mut Pack, random: &mut Random, wanted: impl Fn(u32) -> bool) -> Option<usize> {
    let section = pack.section();
    let places: Vec<usize> = (0..section.len() / 2).filter(|place| wanted(section[2 * place + 1])).collect();
    (!places.is_empty()).then(|| random.pick(&places))
}

fn number(high: u32) -> u32 {
    if high >> 29 & 1 != 0 { 64 + (high >> 26 & 15) } else { high >> 23 & 127 }
}

/// Figures of the card that grant less, or another kind.
fn figures(pack: &mut Pack, random: &mut Random) {
    let card = &mut pack.card;
    match random.below(7) {
        0 => card.kind = random.pick(&[Kind::Pixel, Kind::Vertex, Kind::Geometry]),
        1 => card.gprs = random.between(1, card.gprs as usize) as u32,
        2 => card.temps = random.below(card.temps as usize + 1) as u32,
        3 => card.consts = random.below(card.consts as usize + 1) as u32,
        4 | 5 => card.stack = random.below(card.stack as usize + 1) as u32,
        _ => card.quads = close_to(card.quads as usize, random).clamp(1, 8192),
    }
}

/// Words too many or too few, sometimes with the card following.
fn length(pack: &mut Pack, random: &mut Random) {
    if random.once_in(2) {
        pack.words.truncate(random.below(pack.words.len() + 1).max(2));
    } else {
        pack.words.extend((0..random.below(4)).map(|_| random.word()));
    }
    if random.once_in(2) {
        if pack.words.len() % 2 == 1 {
            pack.words.push(0);
        }
        pack.card.quads = ((pack.words.len() / 2) as u32).clamp(1, 8192);
    }
    pack.end = pack.end.min(pack.words.len() / 2 - 1);
    let quads = pack.words.len() / 2;
    pack.alu.retain(|(start, length)| start + length <= quads);
    pack.fetches.retain(|(start, length)| start + length <= quads);
}

/// The end: gone, earlier, or on a pair that must not have it; sometimes no pair at all is one.
fn ends(pack: &mut Pack, random: &mut Random) {
    let at = 2 * pack.end + 1;
    match random.below(4) {
        0 => pack.words[at] &= !(1 << 21),
        1 => pack.words.iter_mut().skip(1).step_by(2).take(512).for_each(|high| *high &= !(1 << 21)),
        2 => pack.words.iter_mut().skip(1).step_by(2).for_each(|high| *high |= 1 << 29),
        _ => {
            let earlier = random.below(pack.end + 1);
            pack.words[2 * earlier + 1] |= 1 << 21;
        }
    }
}

/// Targets, pop counts, and numbers of branches and openers.
fn flow(pack: &mut Pack, random: &mut Random) {
    let is_branch = |high: u32| matches!(number(high), LOOP_END | LOOP_START | LOOP_CONTINUE..=JUMP | ELSE | POP);
    let is_opener = |high: u32| number(high) >= 64;
    let what = random.below(10);
    let found = match what {
        0..=6 => find(pack, random, is_branch),
        7 | 8 => find(pack, random, is_opener),
        _ => Some(random.below(pack.end + 1)),
    };
    let Some(place) = found else { return };
    let end = pack.end;
    let [low, high] = &mut pack.words[2 * place..2 * place + 2] else { return };
    match what {
        0 | 1 => *low = close_to(*low as usize, random),
        2 => *low = random.below(end + 2) as u32,
        3 => *low = random.between(place, end) as u32,
        4 => set(high, 2, 0, random.word()),
        5 => set(high, 2, 0, (*high & 7) ^ 1),
        6 => set(high, 29, 23, random.pick(&[LOOP_END, LOOP_START, LOOP_CONTINUE, LOOP_BREAK, JUMP, ELSE, POP, 0])),
        7 | 8 => set(high, 29, 26, random.between(8, 11) as u32),
        _ => set(high, 29, 23, random.word()),
    }
}

/// Where a clause lies, and how long it is.
fn openers(pack: &mut Pack, random: &mut Random) {
    let Some(place) = find(pack, random, |high| matches!(number(high), 1..=3 | 64..)) else { return };
    let (end, quads) = (pack.end, pack.words.len() / 2);
    let others: Vec<usize> = pack.alu.iter().chain(&pack.fetches).map(|(start, _)| *start).collect();
    let [low, high] = &mut pack.words[2 * place..2 * place + 2] else { return };
    let opens_alu = number(*high) >= 64;
    let around = random.pick(&[end, quads, *low as usize & 0x3F_FFFF]);
    match random.below(4) {
        0 if opens_alu => set(high, 24, 18, random.word()),
        0 => set(high, 12, 10, random.word()),
        1 if opens_alu => set(high, 24, 18, (*high >> 18) + 1),
        1 => *high ^= 1 << 19,
        2 if !others.is_empty() => set(low, 21, 0, random.pick(&others) as u32), // the same range, if as long
        _ if opens_alu => set(low, 21, 0, close_to(around, random)),
        _ => *low = close_to(around, random),
    }
}

/// Rule 5's fields, on any pair.
fn fields(pack: &mut Pack, random: &mut Random) {
    let place = random.below(pack.end + 1);
    let high = &mut pack.words[2 * place + 1];
    match random.below(5) {
        0 => *high |= 1 << 20,
        1 => *high |= 1 << 22 | 1 << 30,
        2 => set(high, 9, 8, random.word()),
        3 => *high |= 1 << random.between(12, 16),
        _ => *high ^= 1 << random.pick(&[20, 21, 22, 30, 31]),
    }
}

/// An export's fields; where there is none, a pair is made one.
fn exports(pack: &mut Pack, random: &mut Random) {
    let card = pack.card;
    let place = match find(pack, random, |high| matches!(number(high), 39 | 40)) {
        Some(place) => place,
        None => {
            let place = random.below(pack.end + 1);
            let ends = pack.words[2 * place + 1] & 1 << 21;
            if let Some([low, high]) = control::export(&card, random) {
                pack.words[2 * place..2 * place + 2].copy_from_slice(&[low, high | ends]);
            }
            place
        }
    };
    let [low, high] = &mut pack.words[2 * place..2 * place + 2] else { return };
    match random.below(8) {
        0 => set(low, 14, 13, random.word()),
        1 => set(low, 12, 0, random.pick(&[0, 7, 8, 31, 32, 59, 60, 61, 62, 63, 64, 8191])),
        2 => set(high, 20, 17, random.word()),
        3 => set(low, 21, 15, close_to(card.gprs as usize, random)),
        4 => *low ^= 1 << 22,
        5 => set(high, 2, 0, 6),
        6 => set(high, 11, 9, 6),
        _ => *high |= 6 << random.pick(&[3, 6]),
    }
}

/// Inside a clause of fetches, or of ALU slots.
fn clause_part(pack: &mut Pack, random: &mut Random, in_alu: bool) {
    let clauses = if in_alu { &pack.alu } else { &pack.fetches };
    if clauses.is_empty() {
        return;
    }
    let (start, length) = random.pick(clauses);
    let part = &mut pack.words[2 * start..2 * (start + length)];
    if in_alu { alu(part, random) } else { fetch(part, pack.card.gprs, random) }
}

fn fetch(words: &mut [u32], gprs: u32, random: &mut Random) {
    let at = 4 * random.below(words.len() / 4);
    let [first, second, _, fourth] = &mut words[at..at + 4] else { return };
    match random.below(7) {
        0 => set(first, 4, 0, random.word()),
        1 => *fourth = 1 << random.below(32),
        2 => set(first, 22, 16, close_to(gprs as usize, random)),
        3 => set(second, 6, 0, close_to(gprs as usize, random)),
        4 => *first ^= 1 << 23,
        5 => *second ^= 1 << 7,
        _ => *first ^= 1,
    }
}

/// Pairs of the section swapped or doubled.
fn reorder(pack: &mut Pack, random: &mut Random) {
    let (one, other) = (random.below(pack.end + 1), random.below(pack.end + 1));
    for word in 0..2 {
        if random.once_in(2) {
            pack.words.swap(2 * one + word, 2 * other + word);
        } else {
            pack.words[2 * one + word] = pack.words[2 * other + word];
        }
    }
}

/// Damages one pair of an ALU clause, wherever it lies in a group (literals included).
pub fn alu(pairs: &mut [u32], random: &mut Random) {
    let slot = random.below(pairs.len() / 2);
    if random.once_in(12) {
        let other = random.below(pairs.len() / 2);
        pairs.copy_within(2 * other..2 * other + 2, 2 * slot);
        return;
    }
    let [low, high] = &mut pairs[2 * slot..2 * slot + 2] else { return };
    let odd_select = random.between(186, 258) as u32;
    match random.below(16) {
        0 => *low ^= 1 << random.below(32),
        1 => *high ^= 1 << random.below(32),
        2 => *low ^= 1 << 31,                  // LAST
        3 => set(low, 8, 0, 253),              // a literal more
        4 => set(high, 14, 7, random.word()),  // the number, if OP2
        5 => set(high, 17, 13, random.word()), // the number, if OP3
        6 => set(low, 30, 26, random.word()),  // PRED_SEL, INDEX_MODE
        7 => set(high, 20, 18, random.word()), // bank swizzle
        8 => set(low, 8, 0, odd_select),       // around what is never a source
        9 => set(low, 22, 13, odd_select | random.word() & 0x200),
        10 => set(high, 9, 0, odd_select | random.word() & 0x200),
        11 => set(high, 30, 29, random.word()), // DST_CHAN
        12 => set(high, 17, 7, random.pick(&[21, 24, 32, 44, 47, 52, 70, 71, 80, 83, 97, 120])),
        13 => *high ^= random.pick(&[1 << 31, 1 << 5, 1 << 6]), // CLAMP, OMOD
        14 => set(low, 21, 13, random.pick(&[0, 1, 123, 124, 127, 128, 143, 144, 159, 160, 175, 176, 191, 256, 511])),
        _ => set(high, 28, 21, random.word()), // destination
    }
}

/// Damages the text of a card.
pub fn card(text: &mut Vec<u8>, random: &mut Random) {
    let at = random.below(text.len());
    let feeds: Vec<usize> = (0..text.len()).filter(|&at| text[at] == b'\n').collect();
    let feed = random.pick(&feeds);
    match random.below(9) {
        0 => text[at] = random.word() as u8,
        1 => text[at] ^= 1 << random.below(8),
        2 => text.truncate(at),
        3 => drop(text.remove(at)),
        4 => text.insert(at, random.pick(b"0 1+\r\n=-")),
        5 => text.insert(feed, random.pick(b"0\r 9")),
        6 => drop(text.remove(feed)),
        7 => {
            // another figure, at times far too long
            let value = text[..feed].iter().rposition(|&byte| byte == b'=').map_or(0, |equals| equals + 1);
            let figures: [&[u8]; 10] = [b"0", b"00", b"01", b"1", b"5", b"33", b"129", b"257", b"8193", b"18446744073709551617"];
            text.splice(value..feed, random.pick(&figures).iter().copied());
        }
        _ => text.insert(text.len(), random.word() as u8), // behind the card
    }
}

//! The packs that are timed and counted, all accepted.

use std::fs;

use super::card_text;
use super::clause::{Setting, clause};
use super::control::{self, VTX, VTX_TC};
use super::layout::{Layout, Order};
use super::pack::{Pack, QUADS, Size, openers_for, pack_for};
use super::random::Random;
use crate::plain::Kind;
use crate::plain::card::Card;

/// A card's bytes and a pack's words.
pub type Input = (Vec<u8>, Vec<u32>);

const PAIRS: usize = 512;
const SLOTS: usize = 128;

/// A grant of every sort; ps, since only there kills may stand.
const GENEROUS: Card = Card { kind: Kind::Pixel, production: true, gprs: 100, temps: 4, consts: 256, stack: 0, quads: 0 };

/// The names that the programs and scripts know them by.
pub const NAMES: [&str; 7] = ["mixed", "pairs", "openers", "rising", "falling", "same", "copy"];

pub fn named(name: &str) -> Option<Input> {
    match name {
        "mixed" => Some(mixed()),
        "pairs" => Some(pairs()),
        "openers" => Some(openers()),
        "rising" => Some(short_clauses(Order::Rising)),
        "falling" => Some(short_clauses(Order::Falling)),
        "same" => Some(same()),
        "copy" => Some(copy_pack()),
        _ => None,
    }
}

/// One of these, or that of a file, where card and pack lie one behind the other.
pub fn named_or_read(name: &str) -> Option<Input> {
    named(name).or_else(|| {
        let bytes = fs::read(name).ok()?;
        let feeds = bytes.iter().enumerate().filter(|(_, byte)| **byte == b'\n');
        let behind_card = feeds.map(|(at, _)| at + 1).nth(6)?;
        let (card, pack) = bytes.split_at(behind_card);
        Some((card.to_vec(), pack.as_chunks::<4>().0.iter().map(|bytes| u32::from_le_bytes(*bytes)).collect()))
    })
}

/// A pack as large as one may be, everything in it drawn at random: what no machine learns by heart when it is judged once.
pub fn mixed() -> Input {
    let size = Size { steps: PAIRS - 2, slots: SLOTS, fetches: 16, depth: 5 };
    full(size, |pack| pack.words.len() / 2 > QUADS - 600 && (200..=250).contains(&(pack.alu.len() + pack.fetches.len())))
}

/// As many pairs of all kinds, each clause as short as it can be: one slot or one fetch. What this takes goes for the passes over pairs.
pub fn pairs() -> Input {
    full(Size { steps: PAIRS - 2, slots: 1, fetches: 1, depth: 5 }, |_| true)
}

/// A generated pack with a full section. Packs come out in all sizes, so seeds are tried until one is as wanted; what is left is filled with words
/// that nothing opens.
fn full(size: Size, wanted: fn(&Pack) -> bool) -> Input {
    let mut pack = (0..)
        .map(|seed| pack_for(GENEROUS, size, Layout::PLAIN, &mut Random::new(seed)))
        .find(|pack| pack.end == PAIRS - 1 && pack.words.len() <= 2 * QUADS && wanted(pack))
        .expect("one of all seeds");
    pack.words.resize(2 * QUADS, 0);
    pack.card.quads = QUADS as u32;
    (card_text(&pack.card), pack.words)
}

/// One clause opened again and again: what a machine soon knows by heart.
pub fn openers() -> Input {
    let random = &mut Random::new(511);
    let setting = Setting::generous(Kind::Pixel, false);
    let mut words = Vec::new();
    for _ in 1..PAIRS {
        words.extend(control::alu(8, PAIRS, SLOTS, setting.mode0, setting.mode1, random));
    }
    words.extend([0, 1 << 21]);
    words.extend(clause(SLOTS, &setting, random));
    let Setting { kind, gprs, temps, consts, .. } = setting;
    let card = Card { kind, production: true, gprs, temps, consts, stack: 0, quads: (PAIRS + SLOTS) as u32 };
    (card_text(&card), words)
}

/// As many openers as there may be, each of a clause of its own, which lie in the order of the openers or the other way round. The clauses are the same
/// in both, and short, so that it shows what rule 22 takes. The last one is of fetches: an opener of ALU slots is no end.
fn short_clauses(order: Order) -> Input {
    let size = Size { steps: PAIRS, slots: 8, fetches: 1, depth: 0 };
    let pack = openers_for(GENEROUS, size, Layout { order, ..Layout::PLAIN }, &mut Random::new(22));
    (card_text(&pack.card), pack.words)
}

/// As many openers of one clause, a single fetch.
pub fn same() -> Input {
    let random = &mut Random::new(22);
    let mut words = Vec::new();
    for _ in 0..PAIRS {
        let number = random.pick(&[VTX, VTX_TC]);
        words.extend(control::pair(number, PAIRS as u32, 0, 0, random));
    }
    words[2 * PAIRS - 1] |= 1 << 21;
    words.extend(control::fetch(VTX, GENEROUS.gprs, random));
    let card = Card { quads: (words.len() / 2) as u32, ..GENEROUS };
    (card_text(&card), words)
}

/// Document 01's copy pack.
pub fn copy_pack() -> Input {
    let card = Card { kind: Kind::Pixel, production: true, gprs: 2, temps: 0, consts: 0, stack: 0, quads: 3 };
    (card_text(&card), vec![0x0000_0002, 0xA000_0000, 0, 0x0020_0000, 0x8000_0000, 0x0020_0C90])
}

#[cfg(test)]
mod tests {
    use super::*;
    use crate::mixture::Mixture;
    use crate::plain::control::{Control, Extent};
    use crate::plain::{judge, opcodes};

    fn mixture((card, words): Input) -> Mixture {
        assert_eq!(judge(&card, &words), (0, 0, 0));
        assert_eq!(words.len(), 2 * QUADS);
        let mixture = Mixture::of(&words);
        assert_eq!(mixture.pairs, PAIRS);
        // Every kind of pair, none just by chance.
        assert!(mixture.controls.iter().all(|&count| count >= 3), "{:?}", mixture.controls);
        mixture
    }

    #[test]
    fn the_mixed_pack_is_mixed() {
        let mixture = mixture(mixed());
        assert!((200..=250).contains(&mixture.clauses()));
        // Short clauses, long ones and all between: some in every sixteen lengths.
        assert!(
            mixture.alu_clauses[1..].chunks(16).all(|lengths| lengths.iter().sum::<usize>() >= 3),
            "{:?}",
            mixture.alu_clauses
        );
        assert!(
            mixture.fetch_clauses[1..].chunks(4).all(|lengths| lengths.iter().sum::<usize>() >= 3),
            "{:?}",
            mixture.fetch_clauses
        );
        assert!(mixture.instructions > 5000);
        // All numbers that are taken.
        let taken = |high: u32| opcodes::class_of(high) & opcodes::UNTAKEN == 0;
        assert!(
            (0..256).all(|number| (mixture.op2_numbers[number as usize] > 0) == taken(number << 7)),
            "{:?}",
            mixture.op2_numbers
        );
        assert!(
            (4..32).all(|number| (mixture.op3_numbers[number as usize] > 0) == taken(number << 13)),
            "{:?}",
            mixture.op3_numbers
        );
        // All kinds of operands and groups, often enough to be met unforeseen.
        assert!(mixture.operands.iter().all(|&count| count > 100), "{:?}", mixture.operands);
        assert!(mixture.without_trans[1..5].iter().all(|&count| count > 100), "{:?}", mixture.without_trans);
        assert!(mixture.with_trans[1..].iter().all(|&count| count > 10), "{:?}", mixture.with_trans);
        assert!(mixture.literals.iter().all(|&count| count > 100), "{:?}", mixture.literals);
        for count in [mixture.relative_sources, mixture.relative_destinations, mixture.unwritten, mixture.moved] {
            assert!(count > 100, "{mixture:?}");
        }
        for count in [mixture.setters, mixture.kills, mixture.movas, mixture.reductions] {
            assert!(count > 50, "{mixture:?}");
        }
    }

    #[test]
    fn the_pairs_are_mixed_and_their_clauses_short() {
        let mixture = mixture(pairs());
        assert_eq!(mixture.clauses(), mixture.alu_clauses[1] + mixture.fetch_clauses[1]);
        assert!(mixture.alu_clauses[1] > 100 && mixture.fetch_clauses[1] > 10);
    }
    #[test]
    fn every_name_is_known_and_its_pack_accepted() {
        for name in NAMES {
            let (card, words) = named(name).expect(name);
            assert_eq!(judge(&card, &words), (0, 0, 0), "{name}");
        }
    }

    /// All pairs of such a pack are openers: the clause of each, and what they hold together.
    fn clauses(name: &str) -> (Vec<Extent>, Mixture) {
        let (_, words) = named(name).expect(name);
        let mixture = Mixture::of(&words);
        assert_eq!((mixture.pairs, mixture.clauses()), (PAIRS, PAIRS), "{name}");
        let pairs = words.as_chunks::<2>().0[..PAIRS].iter();
        (pairs.map(|&pair| Control::new(pair).clause().expect("an opener")).collect(), mixture)
    }

    #[test]
    fn clauses_rise_or_fall() {
        let ((rising, mixture), (falling, _)) = (clauses("rising"), clauses("falling"));
        assert!(rising.windows(2).all(|two| two[0].end() <= two[1].start));
        assert!(falling.windows(2).all(|two| two[1].end() <= two[0].start));
        let lengths = |clauses: &[Extent]| clauses.iter().map(|clause| clause.length).collect::<Vec<_>>();
        assert_eq!(lengths(&rising), lengths(&falling));
        // One of fetches, all others of up to 8 slots.
        assert_eq!(mixture.fetch_clauses[1], 1);
        assert_eq!(mixture.alu_clauses[1..=8].iter().sum::<usize>(), PAIRS - 1);
        assert!(mixture.alu_clauses[1..=8].iter().all(|&count| count > 10), "{:?}", mixture.alu_clauses);
        assert!(mixture.literals.iter().chain(&mixture.without_trans[1..5]).all(|&count| count > 10), "{mixture:?}");
    }

    #[test]
    fn clauses_are_the_same() {
        let (same, mixture) = clauses("same");
        assert!(same.iter().all(|&clause| clause == Extent { start: PAIRS, length: 2 }));
        assert_eq!(mixture.fetch_clauses[1], PAIRS);
    }
}

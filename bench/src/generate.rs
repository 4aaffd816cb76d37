//! Seeded cases: packs that are accepted by construction, aimed damage of every rule, and random words.

pub mod clause;
pub mod codec;
pub mod control;
pub mod damage;
pub mod fetch_codec;
pub mod layout;
pub mod overlap;
pub mod pack;
pub mod random;
pub mod timed;

use crate::plain::Kind;
use crate::plain::card::Card;
use layout::Layout;
use pack::{Pack, Size};
use random::Random;

/// What a judge is given.
pub struct Case {
    pub card: Vec<u8>,
    pub words: Vec<u32>,
    /// Made to be accepted.
    pub sound: bool,
}

/// The case of a seed.
pub fn case(seed: u64) -> Case {
    let random = &mut Random::new(seed);
    if random.once_in(40) {
        return noise(random);
    }
    let mut pack = pack::pack(size(random), Layout::any(random), random);
    let faults = random.pick(&[0, 1, 1, 1, 1, 2, 3, 8]);
    for _ in 0..faults {
        damage::pack(&mut pack, random);
    }
    let mut card = card_text(&pack.card);
    let bad_card = random.once_in(30);
    if bad_card {
        damage::card(&mut card, random);
    }
    Case { card, words: pack.words, sound: faults == 0 && !bad_card && pack.end < 512 }
}

/// Small packs mostly, since faults at the first few places say the most; some large in one way or another.
fn size(random: &mut Random) -> Size {
    let small = Size { steps: random.below(14), slots: 6, fetches: 3, depth: 3 };
    match random.below(400) {
        0 => Size { steps: random.between(380, 479), depth: 32, ..small },
        1 => Size { steps: 40, slots: 128, fetches: 16, depth: 8 },
        2 => Size { steps: random.between(508, 512), depth: 1, ..small }, // around the longest section
        3..=20 => Size { steps: random.between(10, 60), depth: random.between(1, 32), ..small },
        21..=60 => Size { slots: 128, fetches: 16, ..small },
        _ => small,
    }
}

/// Random words behind a good card, few bits set or many.
fn noise(random: &mut Random) -> Case {
    let pack = pack::pack(Size { steps: 0, slots: 1, fetches: 1, depth: 0 }, Layout::PLAIN, random);
    let quads = if random.once_in(20) { random.between(500, 600) } else { random.between(1, 12) };
    let thin = random.below(4);
    let words = (0..2 * quads).map(|_| (0..thin).fold(random.word(), |word, _| word & random.word())).collect();
    let card = Card { stack: random.below(33) as u32, quads: quads as u32, ..pack.card };
    Case { card: card_text(&card), words, sound: false }
}

/// The seven lines of a card, whatever its figures are.
pub fn card_text(card: &Card) -> Vec<u8> {
    let kind = match card.kind {
        Kind::Pixel => "ps",
        Kind::Vertex => "vs",
        Kind::Geometry => "gs",
    };
    let build = if card.production { "production" } else { "debug" };
    let Card { gprs, temps, consts, stack, quads, .. } = card;
    format!("kind={kind}\nbuild={build}\ngprs={gprs}\ntemps={temps}\nconsts={consts}\nstack={stack}\nquads={quads}\n")
        .into_bytes()
}

/// The parts of a sound pack, for those that damage it.
impl Pack {
    pub fn section(&mut self) -> &mut [u32] {
        let end = (2 * self.end + 2).min(self.words.len());
        &mut self.words[..end]
    }
}

//! Damage aimed at rule 22: a fetch clause at an odd quadword, and a clause that shares a part with an earlier one. All else stays as it is, and the
//! clause keeps rule 6: so a pack that was accepted is refused by this rule, at the opener that is changed.

use std::cmp::Ordering::{self, Equal, Greater, Less};

use super::damage::set;
use super::pack::{Pack, QUADS};
use super::random::Random;
use crate::plain::control::{Control, Extent, OPENS_FETCHES};

/// What a clause shares with an earlier one.
#[derive(Clone, Copy, PartialEq, Eq, Debug)]
pub enum Sharing {
    /// Only its first quadwords, or only its last.
    Head,
    Tail,
    /// It lies in the earlier one, or the earlier one in it, with no common edge.
    Inside,
    Around,
    /// One common edge.
    Start,
    End,
    /// The same range, which is no fault, though its words may be one to this opener.
    All,
}

pub const SHARINGS: [Sharing; 7] =
    [Sharing::Head, Sharing::Tail, Sharing::Inside, Sharing::Around, Sharing::Start, Sharing::End, Sharing::All];

/// An edge is moved by so many quadwords at most, or by the earlier clause's length.
const BESIDE: usize = 4;
const TRIES: usize = 20;

/// Damages a pack in one of these ways, if it has clauses that can be.
pub fn pack(pack: &mut Pack, random: &mut Random) {
    if random.once_in(4) {
        move_to_odd(pack, random);
    } else {
        share(pack, random.pick(&SHARINGS), random);
    }
}

/// Positions of openers, with their clauses.
fn openers(pack: &mut Pack) -> Vec<(usize, Extent)> {
    let clauses = pack.section().as_chunks::<2>().0.iter().map(|&pair| Control::new(pair).clause());
    clauses.enumerate().filter_map(|(position, clause)| clause.map(|clause| (position, clause))).collect()
}

fn opens_fetches(pack: &Pack, position: usize) -> bool {
    Control::new([pack.words[2 * position], pack.words[2 * position + 1]]).number().is(OPENS_FETCHES)
}

/// Has an opener name other quadwords.
fn set_clause(pack: &mut Pack, position: usize, clause: Extent) {
    let fetches = opens_fetches(pack, position);
    let [low, high] = &mut pack.words[2 * position..2 * position + 2] else { return };
    if fetches {
        let count = clause.length as u32 / 2 - 1;
        *low = clause.start as u32;
        set(high, 12, 10, count);
        set(high, 19, 19, count >> 3);
    } else {
        set(low, 21, 0, clause.start as u32);
        set(high, 24, 18, clause.length as u32 - 1);
    }
}

/// Puts the same fetches once more behind all else, at an odd quadword, for one of their openers. Its position, if there was one.
pub fn move_to_odd(pack: &mut Pack, random: &mut Random) -> Option<usize> {
    let mut openers = openers(pack);
    openers.retain(|&(position, _)| opens_fetches(pack, position));
    if openers.is_empty() || pack.words.len() != 2 * pack.card.quads as usize {
        return None;
    }
    let (position, clause) = random.pick(&openers);
    let fetches = pack.words.get(2 * clause.start..2 * clause.end())?.to_vec();
    let start = (pack.words.len() / 2) | 1;
    if start + clause.length > QUADS {
        return None;
    }
    pack.words.resize(2 * start, 0);
    pack.words.extend(fetches);
    pack.card.quads = (pack.words.len() / 2) as u32;
    set_clause(pack, position, Extent { start, ..clause });
    Some(position)
}

/// Has an opener share its clause so with that of the opener before or of one far before. Its position, if that can be.
pub fn share(pack: &mut Pack, sharing: Sharing, random: &mut Random) -> Option<usize> {
    let openers = openers(pack);
    if openers.len() < 2 {
        return None;
    }
    let later = random.between(1, openers.len() - 1);
    let any_earlier = random.below(later);
    let earlier = random.pick(&[later - 1, any_earlier, 0]);
    let (position, _) = openers[later];
    let fetches = opens_fetches(pack, position);
    let room = pack.end + 1..pack.words.len() / 2 + 1;
    let fits = |&Extent { start, length }: &Extent| {
        let as_opened = if fetches { (start | length) % 2 == 0 && length <= 32 } else { length <= 128 };
        as_opened && room.contains(&start) && room.contains(&(start + length))
    };
    let drawn = (0..TRIES).filter_map(|_| beside(openers[earlier].1, sharing, random)).find(fits)?;
    set_clause(pack, position, drawn);
    Some(position)
}

/// A range that shares so with an earlier one, if it comes out so: not every earlier one is long enough, nor is there room for every range.
fn beside(earlier: Extent, sharing: Sharing, random: &mut Random) -> Option<Extent> {
    let either = random.pick(&[Less, Greater]);
    let (start_moves, end_moves) = match sharing {
        Sharing::Head => (Greater, Greater),
        Sharing::Tail => (Less, Less),
        Sharing::Inside => (Greater, Less),
        Sharing::Around => (Less, Greater),
        Sharing::Start => (Equal, either),
        Sharing::End => (either, Equal),
        Sharing::All => (Equal, Equal),
    };
    let mut moved = |edge: usize, to: Ordering| {
        let by = random.between(1, earlier.length.max(BESIDE));
        match to {
            Less => edge.checked_sub(by),
            Equal => Some(edge),
            Greater => Some(edge + by),
        }
    };
    let (start, end) = (moved(earlier.start, start_moves)?, moved(earlier.end(), end_moves)?);
    let clause = Extent { start, length: end.checked_sub(start).filter(|&length| length > 0)? };
    (shared(clause, earlier) == Some(sharing)).then_some(clause)
}

/// What a clause shares with another, if anything.
pub fn shared(clause: Extent, other: Extent) -> Option<Sharing> {
    if clause.end() <= other.start || other.end() <= clause.start {
        return None;
    }
    Some(match (clause.start.cmp(&other.start), clause.end().cmp(&other.end())) {
        (Equal, Equal) => Sharing::All,
        (Equal, _) => Sharing::Start,
        (_, Equal) => Sharing::End,
        (Greater, Greater) => Sharing::Head,
        (Less, Less) => Sharing::Tail,
        (Greater, Less) => Sharing::Inside,
        (Less, Greater) => Sharing::Around,
    })
}

#[cfg(test)]
mod tests {
    use super::super::card_text;
    use super::super::layout::Layout;
    use super::super::pack::{self, Size};
    use super::*;
    use crate::plain::judge;
    use crate::plain::judge::Answer;

    fn sound(random: &mut Random) -> Pack {
        let size = Size { steps: random.between(2, 20), slots: 12, fetches: 4, depth: 3 };
        let pack = pack::pack(size, Layout::any(random), random);
        assert_eq!(judged(&pack), (0, 0, 0));
        pack
    }

    fn judged(pack: &Pack) -> Answer {
        judge(&card_text(&pack.card), &pack.words)
    }

    #[test]
    fn odd_starts_are_refused_there() {
        let mut refused = 0;
        for seed in 0..1000 {
            let random = &mut Random::new(seed);
            let mut pack = sound(random);
            if let Some(position) = move_to_odd(&mut pack, random) {
                assert_eq!(judged(&pack), (22, position, 0), "seed {seed}");
                refused += 1;
            }
        }
        assert!(refused > 300, "{refused}");
    }

    /// In every way, with the clause of the opener before and with that of one farther before alone.
    #[test]
    fn shared_parts_are_refused_there() {
        for sharing in SHARINGS {
            let (mut near, mut far) = (0, 0);
            for seed in 0..1000 {
                let random = &mut Random::new(seed);
                let mut pack = sound(random);
                let Some(position) = share(&mut pack, sharing, random) else { continue };
                if sharing == Sharing::All {
                    assert_ne!(judged(&pack).0, 22, "seed {seed}");
                } else {
                    assert_eq!(judged(&pack), (22, position, 0), "{sharing:?}, seed {seed}");
                }
                let openers = openers(&mut pack);
                let later = openers.iter().position(|opener| opener.0 == position).expect("an opener");
                match shared(openers[later].1, openers[later - 1].1) {
                    Some(_) => near += 1,
                    None => far += 1,
                }
            }
            assert!(near > 20 && far > 20, "{sharing:?}: {near} {far}");
        }
    }
}

//! Rule 22: a fetch clause starts at an even quadword, and two clauses are the same range or disjoint.
//!
//! Nearly all packs have their clauses in the order of the openers, which is seen in passing, with two numbers kept. Only where they come in another
//! order is a section gone through once more, and only where a rule is broken are clauses asked for one after the other. What it costs goes by the
//! openers and the quadwords, never by the pairs of openers.

use super::control::{Control, Extent};

/// Where a clause of fetches must not start.
#[inline]
pub fn starts_odd(fetches: Extent) -> bool {
    fetches.start & 1 != 0
}

/// Whether clauses come in order: each starts at or above the end of all earlier ones, or is the highest of them once more. Then any two are apart.
pub struct Order {
    /// Of the highest.
    start: usize,
    end: usize,
    left: bool,
}

impl Order {
    pub const NEW: Order = Order { start: 0, end: 0, left: false };

    #[inline]
    pub fn open(&mut self, clause: Extent) {
        if clause.start >= self.end {
            (self.start, self.end) = (clause.start, clause.end());
        } else if clause.start != self.start || clause.end() != self.end {
            self.left = true;
        }
    }

    #[inline]
    pub fn is_left(&self) -> bool {
        self.left
    }
}

/// Whether all clauses of a section, in whatever order, are the same range or disjoint, two by two. Each has to keep rule 6.
#[inline(never)]
pub fn all_apart(section: &[[u32; 2]], quads: usize) -> bool {
    let mut starts = Starts { bits: vec![0; quads.div_ceil(64)], lengths: vec![0; quads] };
    let mut clauses = section.iter().filter_map(|&pair| Control::new(pair).clause());
    clauses.all(|clause| starts.add(clause)) && starts.are_apart()
}

/// A bit for each quadword where a clause starts, and there its length, which is at most 128.
struct Starts {
    bits: Vec<u64>,
    lengths: Vec<u8>,
}

impl Starts {
    /// Adds a clause; false if one of another length starts there.
    #[inline]
    fn add(&mut self, Extent { start, length }: Extent) -> bool {
        let known = &mut self.lengths[start];
        let fits = (*known == 0) | (usize::from(*known) == length);
        *known = length as u8;
        self.bits[start / 64] |= 1 << (start % 64);
        fits
    }

    /// From the lowest to the highest, each starts at or above the end of the last.
    #[inline]
    fn are_apart(&self) -> bool {
        let (mut end, mut apart) = (0, true);
        for (&word, lengths) in self.bits.iter().zip(self.lengths.chunks(64)) {
            // Counted from the first of these 64 quadwords, so below 0 where a clause ended before.
            let mut bits = word;
            while bits != 0 {
                let start = bits.trailing_zeros() as usize;
                apart &= start as isize >= end;
                end = start as isize + isize::from(lengths[start]);
                bits &= bits - 1;
            }
            end -= 64;
        }
        apart
    }
}

/// The clauses opened so far, for who asks position by position: at the first quadword of each its length.
pub struct Opened(Vec<u8>);

/// At all others that lie in one. No clause is so long.
const INSIDE: u8 = u8::MAX;

impl Opened {
    pub fn none(quads: usize) -> Self {
        Opened(vec![0; quads])
    }

    /// Whether a clause is neither disjoint from all earlier ones nor the same range as one; if it is not so, it is one of them from now on. All have to
    /// keep rule 6, and the earlier ones this rule: so what is the same as one of them is disjoint from the others.
    pub fn half_shares(&mut self, clause: Extent) -> bool {
        let length = clause.length as u8;
        let quadwords = &mut self.0[clause.start..clause.end()];
        if quadwords[0] == length {
            return false;
        }
        let shares = quadwords.iter().any(|&mark| mark != 0);
        quadwords.fill(INSIDE);
        quadwords[0] = length;
        shares
    }
}

#[cfg(test)]
mod tests {
    use super::*;
    use crate::generate::random::Random;

    /// The rule as it is written.
    fn same_or_disjoint(one: Extent, other: Extent) -> bool {
        one == other || one.end() <= other.start || other.end() <= one.start
    }

    /// The first clause that is not so with some earlier one.
    fn first_half_shared(clauses: &[Extent]) -> Option<usize> {
        let half_shares = |&at: &usize| !clauses[..at].iter().all(|&earlier| same_or_disjoint(clauses[at], earlier));
        (0..clauses.len()).find(half_shares)
    }

    /// An ALU opener.
    fn opener(clause: Extent) -> [u32; 2] {
        [clause.start as u32, 8 << 26 | (clause.length as u32 - 1) << 18]
    }

    fn compare(clauses: &[Extent], quads: usize) -> bool {
        let expected = first_half_shared(clauses);
        let mut opened = Opened::none(quads);
        assert_eq!(clauses.iter().position(|&clause| opened.half_shares(clause)), expected, "{clauses:?}");
        let section: Vec<[u32; 2]> = clauses.iter().map(|&clause| opener(clause)).collect();
        assert_eq!(all_apart(&section, quads), expected.is_none(), "{clauses:?}");
        let mut order = Order::NEW;
        clauses.iter().for_each(|&clause| order.open(clause));
        assert!(order.is_left() || expected.is_none(), "{clauses:?}");
        expected.is_none()
    }

    /// Clauses of a few quadwords, every two of them in every order, and with a third.
    #[test]
    fn few_quadwords() {
        const QUADS: usize = 6;
        let all: Vec<Extent> =
            (0..QUADS).flat_map(|start| (1..=QUADS - start).map(move |length| Extent { start, length })).collect();
        for &first in &all {
            for &second in &all {
                assert_eq!(compare(&[first, second], QUADS), same_or_disjoint(first, second));
                for &third in &all {
                    compare(&[first, second, third], QUADS);
                }
            }
        }
    }

    /// Parts of some quadwords, drawn again and again in any order, rising or falling, at times with a clause that is none of them.
    #[test]
    fn many_quadwords() {
        let (mut apart, mut shared) = (0, 0);
        for seed in 0..4000 {
            let random = &mut Random::new(seed);
            let longest = random.pick(&[2, 5, 128]);
            let mut parts = Vec::new();
            let mut quads = random.below(70);
            for _ in 0..random.between(1, 20) {
                let length = random.between(1, longest);
                parts.push(Extent { start: quads, length });
                quads += length + random.pick(&[0, 0, 1, 70]);
            }
            let mut clauses: Vec<Extent> = (0..random.between(1, 24)).map(|_| random.pick(&parts)).collect();
            match random.below(3) {
                0 => clauses.sort_by_key(|clause| clause.start),
                1 => clauses.sort_by_key(|clause| quads - clause.start),
                _ => {}
            }
            if !random.once_in(3) {
                let start = random.below(quads);
                let length = random.between(1, longest.min(quads - start));
                clauses.insert(random.below(clauses.len() + 1), Extent { start, length });
            }
            if compare(&clauses, quads) { apart += 1 } else { shared += 1 }
        }
        assert!(apart > 500 && shared > 500, "{apart} {shared}");
    }

    #[test]
    fn what_comes_in_order_is_seen_in_passing() {
        let left = |clauses: &[(usize, usize)]| {
            let mut order = Order::NEW;
            clauses.iter().for_each(|&(start, length)| order.open(Extent { start, length }));
            order.is_left()
        };
        assert!(!left(&[(3, 2), (5, 1), (5, 1), (9, 4)]));
        assert!(left(&[(3, 2), (5, 1), (3, 2)]));
        assert!(left(&[(3, 2), (3, 1)]));
        assert!(left(&[(3, 2), (2, 1)]));
    }
}

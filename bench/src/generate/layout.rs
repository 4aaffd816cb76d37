//! The clauses of a pack: made or found opener by opener, then laid out behind the section in one order or another.

use super::clause::{self, Setting};
use super::control::{self, TEX};
use super::pack::{Pack, QUADS, Size};
use super::random::Random;
use crate::plain::card::Card;

/// How clauses lie, beside the order of their openers.
#[derive(Clone, Copy, PartialEq, Eq, Debug)]
pub enum Order {
    Rising,
    Falling,
    Shuffled,
}

#[derive(Clone, Copy, Debug)]
pub struct Layout {
    pub order: Order,
    /// Openers may name an earlier one's clause, also of another kind.
    pub shared: bool,
    /// They lie anywhere in the largest pack, far behind the section.
    pub far: bool,
}

impl Layout {
    /// As assemblers do it.
    pub const PLAIN: Layout = Layout { order: Order::Rising, shared: false, far: false };

    pub fn any(random: &mut Random) -> Self {
        let order = random.pick(&[Order::Rising, Order::Rising, Order::Falling, Order::Shuffled]);
        Layout { order, shared: random.once_in(2), far: random.once_in(40) }
    }
}

/// A clause and who may open it.
struct Clause {
    words: Vec<u32>,
    alu: Option<Slots>,
    fetches: Option<Fetches>,
}

/// ALU slots: the modes they were made for, and whether PUSH_BEFORE may open them.
#[derive(Clone, Copy)]
struct Slots {
    mode0: u32,
    mode1: u32,
    one_setter: bool,
}

/// Numbers of texture fetches are none of vertex fetches; VTX and VTX_TC take the same.
#[derive(Clone, Copy, PartialEq, Eq)]
enum Fetches {
    Texture,
    Vertex,
}

impl Fetches {
    fn opened_by(number: u32) -> Self {
        if number == TEX { Fetches::Texture } else { Fetches::Vertex }
    }
}

/// The clauses of the openers so far.
pub struct Clauses {
    card: Card,
    size: Size,
    layout: Layout,
    made: Vec<Clause>,
    /// Position and clause.
    openers: Vec<(usize, usize)>,
}

impl Clauses {
    pub fn new(card: Card, size: Size, layout: Layout) -> Self {
        Clauses { card, size, layout, made: Vec::new(), openers: Vec::new() }
    }

    /// An opener of fetches; its ADDR is filled in when clauses are laid out.
    pub fn open_fetches(&mut self, position: usize, number: u32, random: &mut Random) -> [u32; 2] {
        let kind = Fetches::opened_by(number);
        let found = self.earlier(|clause| clause.fetches == Some(kind), random);
        let index = found.unwrap_or_else(|| {
            let clause = if self.makes_both_ways(random) { self.both_ways(kind, random) } else { self.fetches(number, random) };
            self.add(clause)
        });
        self.openers.push((position, index));
        let count = self.made[index].words.len() / 4;
        control::pair(number, 0, random.word() & 7, count as u32 - 1, random)
    }

    /// The same of ALU slots.
    pub fn open_alu(&mut self, position: usize, number: u32, random: &mut Random) -> [u32; 2] {
        let push_before = number == 9;
        let found = self.earlier(|clause| clause.alu.is_some_and(|slots| slots.one_setter || !push_before), random);
        let index = found.unwrap_or_else(|| {
            let kind = random.pick(&[Fetches::Texture, Fetches::Vertex]);
            let clause = if self.makes_both_ways(random) { self.both_ways(kind, random) } else { self.alu(push_before, random) };
            self.add(clause)
        });
        self.openers.push((position, index));
        let Clause { words, alu, .. } = &self.made[index];
        let Slots { mode0, mode1, .. } = alu.expect("ALU slots were asked for");
        // A higher mode grants no less.
        let (mode0, mode1) = if found.is_some() {
            (random.between(mode0 as usize, 3) as u32, random.between(mode1 as usize, 3) as u32)
        } else {
            (mode0, mode1)
        };
        control::alu(number, 0, words.len() / 2, mode0, mode1, random)
    }

    fn add(&mut self, clause: Clause) -> usize {
        self.made.push(clause);
        self.made.len() - 1
    }

    /// Now and then a clause that is there already, if one is as wanted.
    fn earlier(&self, wanted: impl Fn(&Clause) -> bool, random: &mut Random) -> Option<usize> {
        if !self.layout.shared || !random.once_in(3) {
            return None;
        }
        let fitting: Vec<usize> = (0..self.made.len()).filter(|&index| wanted(&self.made[index])).collect();
        (!fitting.is_empty()).then(|| random.pick(&fitting))
    }

    /// Now and then one for both kinds of openers.
    fn makes_both_ways(&self, random: &mut Random) -> bool {
        self.layout.shared && self.size.slots >= 2 && random.once_in(4)
    }

    fn setting(&self, push_before: bool, random: &mut Random) -> Setting {
        let Card { kind, gprs, temps, consts, .. } = self.card;
        Setting { kind, push_before, gprs, temps, consts, mode0: random.word() & 3, mode1: random.word() & 3 }
    }

    fn fetches(&self, number: u32, random: &mut Random) -> Clause {
        let count = random.between(1, self.size.fetches.min(16));
        let words = (0..count).flat_map(|_| control::fetch(number, self.card.gprs, random)).collect();
        Clause { words, alu: None, fetches: Some(Fetches::opened_by(number)) }
    }

    fn alu(&self, push_before: bool, random: &mut Random) -> Clause {
        let setting = self.setting(push_before, random);
        // Short ones more often than long ones, as in shaders.
        let most = if random.once_in(2) { self.size.slots } else { self.size.slots.div_ceil(4) };
        let slots = random.between(1, most.min(128));
        let words = clause::clause(slots, &setting, random);
        let Setting { mode0, mode1, .. } = setting;
        Clause { words, alu: Some(Slots { mode0, mode1, one_setter: push_before }), fetches: None }
    }

    fn both_ways(&self, kind: Fetches, random: &mut Random) -> Clause {
        let setting = self.setting(true, random);
        let fetches = random.between(1, self.size.fetches.min(self.size.slots / 2).min(16));
        let words = clause::both_ways(fetches, kind == Fetches::Texture, &setting, random);
        let Setting { mode0, mode1, .. } = setting;
        Clause { words, alu: Some(Slots { mode0, mode1, one_setter: true }), fetches: Some(kind) }
    }

    /// Puts all clauses behind the section, and where they lie into their openers.
    pub fn lay_out(self, pack: &mut Pack, random: &mut Random) {
        if self.layout.far {
            let clauses: usize = self.made.iter().map(|clause| clause.words.len() / 2 + LONGEST_GAP).sum();
            let room = QUADS.saturating_sub(pack.words.len() / 2 + clauses);
            pack.words.resize(pack.words.len() + 2 * random.below(room + 1), 0);
        }
        let mut starts = vec![0; self.made.len()];
        for index in self.layout.order.of(self.made.len(), random) {
            let clause = &self.made[index];
            let start = pack.gap(clause.fetches.is_some(), random);
            let length = clause.words.len() / 2;
            pack.words.extend(&clause.words);
            starts[index] = start;
            if clause.alu.is_some() {
                pack.alu.push((start, length));
            }
            if clause.fetches.is_some() {
                pack.fetches.push((start, length));
            }
        }
        for (position, index) in self.openers {
            pack.words[2 * position] |= starts[index] as u32;
        }
    }
}

impl Order {
    /// Clauses as they come to lie, those of earlier openers having lower numbers.
    fn of(self, count: usize, random: &mut Random) -> Vec<usize> {
        let mut order: Vec<usize> = (0..count).collect();
        match self {
            Order::Rising => {}
            Order::Falling => order.reverse(),
            Order::Shuffled => (1..count).for_each(|at| order.swap(at, random.below(at + 1))),
        }
        order
    }
}

/// As many quadwords lie between two clauses at most.
const LONGEST_GAP: usize = 2;

impl Pack {
    /// Where the next clause starts: directly behind the last, but for the even quadword that fetches need, and now and then a few words that nothing
    /// opens.
    fn gap(&mut self, even: bool, random: &mut Random) -> usize {
        if random.once_in(8) {
            self.words.extend([random.word(), random.word()]);
        }
        if even && self.words.len() / 2 % 2 == 1 {
            self.words.extend([random.word(), random.word()]);
        }
        self.words.len() / 2
    }
}

#[cfg(test)]
mod tests {
    use super::super::card_text;
    use super::super::pack;
    use super::*;
    use crate::plain::control::{Control, Op};
    use crate::plain::judge;

    /// Packs of every layout are accepted, and what they are to have occurs: one clause named twice, also by different openers, clauses that lie
    /// lower than the opener's before, and far behind the section.
    #[test]
    fn clauses_are_shared_and_come_in_every_order() {
        let (mut same, mut push_before, mut vertex, mut both_ways, mut lower, mut far) = (0, 0, 0, 0, 0, 0);
        for seed in 0..2000 {
            let random = &mut Random::new(seed);
            let size = Size { steps: 20, slots: 8, fetches: 3, depth: 4 };
            let pack = pack::pack(size, Layout::any(random), random);
            assert_eq!(judge(&card_text(&pack.card), &pack.words), (0, 0, 0), "seed {seed}");
            let controls = pack.words.as_chunks::<2>().0[..=pack.end].iter().map(|&pair| Control::new(pair));
            let openers: Vec<_> = controls.filter_map(|control| Some((control.clause()?, control.op()?))).collect();
            for (at, &(clause, op)) in openers.iter().enumerate() {
                for &(_, earlier) in openers[..at].iter().filter(|opener| opener.0 == clause) {
                    let pair = [earlier, op];
                    same += 1;
                    push_before += usize::from(op != earlier && pair.contains(&Op::PushBefore));
                    vertex += usize::from(op != earlier && pair.contains(&Op::VtxTc) && pair.contains(&Op::Vtx));
                    let fetches = pair.map(|op| matches!(op, Op::Tex | Op::Vtx | Op::VtxTc));
                    both_ways += usize::from(fetches[0] != fetches[1]);
                }
                lower += usize::from(at > 0 && clause.start < openers[at - 1].0.start);
            }
            far += usize::from(openers.iter().any(|opener| opener.0.start > QUADS / 2));
        }
        let counts = [same, push_before, vertex, both_ways, lower, far];
        assert!(counts.iter().all(|&count| count > 15), "{counts:?}");
    }
}

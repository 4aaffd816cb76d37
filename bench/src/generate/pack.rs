//! Whole packs that are accepted, by construction: first the steps along "no", then targets that carry the right stack,
//! then the clauses.

use super::control::{self, ELSE, JUMP, LOOP_BREAK, LOOP_CONTINUE, LOOP_END, LOOP_START, NOP, POP, TEX, VTX, VTX_TC};
use super::layout::{Clauses, Layout};
use super::random::Random;
use crate::plain::Kind;
use crate::plain::card::Card;

/// A pack has at most so many quadwords.
pub const QUADS: usize = 8192;

/// A pack and where its parts lie (in quadwords), so that damage can be aimed.
#[derive(Clone)]
pub struct Pack {
    pub card: Card,
    pub words: Vec<u32>,
    pub end: usize,
    pub alu: Vec<(usize, usize)>,
    pub fetches: Vec<(usize, usize)>,
}

/// How large a pack is to be: steps of control flow, slots of an ALU clause, fetches of a clause.
#[derive(Clone, Copy)]
pub struct Size {
    pub steps: usize,
    pub slots: usize,
    pub fetches: usize,
    pub depth: usize,
}

#[derive(Clone, Copy, PartialEq, Eq)]
enum Frame {
    Mask,
    Loop(usize),
}

#[derive(Clone, Copy, PartialEq, Eq)]
enum Step {
    Plain,
    Fetch(u32),
    Export,
    Alu(u32),
    Branch(u32),
    Pop(usize),
}

/// The steps and the stack before each; the last is the end.
struct Course {
    steps: Vec<Step>,
    before: Vec<Vec<Frame>>,
    stack: Vec<Frame>,
}

fn masks(stack: &[Frame]) -> usize {
    stack.iter().rev().take_while(|frame| **frame == Frame::Mask).count()
}

impl Course {
    const EMPTY: Course = Course { steps: Vec::new(), before: Vec::new(), stack: Vec::new() };

    fn take(&mut self, step: Step) {
        let position = self.steps.len();
        self.steps.push(step);
        self.before.push(self.stack.clone());
        let depth = self.stack.len();
        match step {
            Step::Alu(9) => self.stack.push(Frame::Mask),
            Step::Alu(10) => self.stack.truncate(depth - 1),
            Step::Alu(11) => self.stack.truncate(depth - 2),
            Step::Pop(count) => self.stack.truncate(depth - count),
            Step::Branch(LOOP_START) => self.stack.push(Frame::Loop(position)),
            Step::Branch(LOOP_END) => self.stack.truncate(depth - 1),
            _ => {}
        }
    }

    fn random(size: Size, random: &mut Random) -> Self {
        let mut course = Course::EMPTY;
        while course.steps.len() < size.steps {
            let masks = masks(&course.stack);
            let in_loop = course.stack.len() > masks;
            let may_push = course.stack.len() < size.depth;
            match random.below(16) {
                0 => course.take(Step::Plain),
                1 => course.take(Step::Fetch(random.pick(&[TEX, VTX, VTX_TC]))),
                2 => course.take(Step::Export),
                3 | 4 => course.take(Step::Alu(8)),
                5 | 6 if may_push => course.take(Step::Alu(9)),
                7 | 8 if may_push => course.take(Step::Branch(LOOP_START)),
                9 if masks >= 1 => course.take(Step::Alu(10)),
                9 => course.take(Step::Branch(JUMP)),
                10 if masks >= 2 => course.take(Step::Alu(11)),
                11 | 12 if masks >= 1 => course.take(Step::Branch(random.pick(&[JUMP, ELSE]))),
                13 => course.take(Step::Pop(random.below(masks.min(7) + 1))),
                14 if in_loop && masks <= 7 => course.take(Step::Branch(random.pick(&[LOOP_BREAK, LOOP_CONTINUE]))),
                15 if in_loop && masks == 0 => course.take(Step::Branch(LOOP_END)),
                _ => {}
            }
        }
        course.close(random);
        course.take(random.pick(&[Step::Plain, Step::Plain, Step::Export, Step::Fetch(TEX), Step::Fetch(VTX)]));
        course
    }

    /// Pops what is left.
    fn close(&mut self, random: &mut Random) {
        while !self.stack.is_empty() {
            let masks = masks(&self.stack);
            self.take(match (masks, random.below(2)) {
                (0, _) => Step::Branch(LOOP_END),
                (1, 0) => Step::Alu(10),
                (2.., 0) => Step::Alu(11),
                _ => Step::Pop(random.between(1, masks.min(7))),
            });
        }
    }

    /// A target for the branch at `position`, and its POP_COUNT.
    fn target(&self, position: usize, random: &mut Random) -> (usize, usize) {
        let stack = &self.before[position];
        let masks = masks(stack);
        let behind = |pops: usize, wanted: fn(Step) -> bool| -> Vec<usize> {
            let carried = &stack[..stack.len() - pops];
            let equal = |&at: &usize| self.before[at] == carried && wanted(self.steps[at]);
            (position + 1..self.steps.len()).filter(equal).collect()
        };
        let is_end = |step| step == Step::Branch(LOOP_END);
        match self.steps[position] {
            Step::Pop(count) => (random.pick(&behind(count, |_| true)), count),
            Step::Branch(LOOP_BREAK | LOOP_CONTINUE) => (behind(masks, is_end)[0], masks),
            Step::Branch(LOOP_START) => {
                let loop_end = |&at: &usize| self.before[at].last() == Some(&Frame::Loop(position)) && is_end(self.steps[at]);
                ((position..self.steps.len()).find(loop_end).expect("every loop is closed") + 1, 0)
            }
            Step::Branch(LOOP_END) => match stack.last() {
                Some(&Frame::Loop(start)) => (start + 1, 0),
                _ => unreachable!("taken only with a loop on top"),
            },
            _ => {
                let pops = random.below(masks.min(7) + 1);
                match behind(pops, |_| true).as_slice() {
                    [] => (position + 1, 0), // "no" pops nothing, so the next position always fits
                    fitting => (random.pick(fitting), pops),
                }
            }
        }
    }
}

fn card(random: &mut Random) -> Card {
    let gprs = random.pick(&[1, 2, 9, 64, 124, 127, 128]);
    Card {
        kind: random.pick(&[Kind::Pixel, Kind::Pixel, Kind::Vertex, Kind::Geometry]),
        production: !random.once_in(4),
        gprs,
        temps: random.below((128 - gprs as usize).min(4) + 1) as u32,
        consts: random.pick(&[0, 1, 17, 255, 256]),
        stack: 0,
        quads: 0,
    }
}

/// A pack that every rule lets pass, unless its section gets longer than 512 pairs; `size` must not be so large that it
/// could exceed 8,192 quadwords.
pub fn pack(size: Size, layout: Layout, random: &mut Random) -> Pack {
    let card = card(random);
    pack_for(card, size, layout, random)
}

/// The same for a card; its stack and quads are filled in.
pub fn pack_for(card: Card, size: Size, layout: Layout, random: &mut Random) -> Pack {
    Course::random(size, random).pack(card, size, layout, random)
}

/// The same, all pairs openers of ALU clauses but for the last: no end opens one, so that opens fetches.
pub fn openers_for(card: Card, size: Size, layout: Layout, random: &mut Random) -> Pack {
    let mut course = Course::EMPTY;
    (1..size.steps).for_each(|_| course.take(Step::Alu(8)));
    course.take(Step::Fetch(TEX));
    course.pack(card, size, layout, random)
}

impl Course {
    fn pack(&self, card: Card, size: Size, layout: Layout, random: &mut Random) -> Pack {
        let end = self.steps.len() - 1;
        let mut clauses = Clauses::new(card, size, layout);
        let mut words = Vec::with_capacity(2 * (end + 1));
        for (position, &step) in self.steps.iter().enumerate() {
            words.extend(match step {
                Step::Plain => control::pair(NOP, random.word(), random.word() & 7, 0, random),
                Step::Export => control::export(&card, random).unwrap_or_else(|| control::pair(NOP, 0, 0, 0, random)),
                Step::Fetch(number) => clauses.open_fetches(position, number, random),
                Step::Alu(number) => clauses.open_alu(position, number, random),
                Step::Pop(_) | Step::Branch(_) => {
                    let (target, pops) = self.target(position, random);
                    let number = if let Step::Branch(number) = step { number } else { POP };
                    // Loop starts and ends don't read POP_COUNT.
                    let pops = if matches!(number, LOOP_START | LOOP_END) { random.word() & 7 } else { pops as u32 };
                    control::pair(number, target as u32, pops, 0, random)
                }
            });
        }
        words[2 * end + 1] |= 1 << 21;
        let mut pack = Pack { card, words, end, alu: Vec::new(), fetches: Vec::new() };
        clauses.lay_out(&mut pack, random);
        let deepest = self.before.iter().map(Vec::len).max().unwrap_or(0);
        pack.card.stack = random.between(deepest, (deepest + 2).min(32)) as u32;
        pack.card.quads = (pack.words.len() / 2) as u32;
        pack
    }
}

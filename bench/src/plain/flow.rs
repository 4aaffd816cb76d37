//! The walk's stack, and rules 16 to 19.

use super::control::{BRANCH, Control, LOOP_END, LOOP_START, Number, TO_LOOP_END};

/// The frames on the stack. Below a loop's frame lies what lay there when its LOOP_START was passed, and the first pass
/// passes each once: so the innermost loop and the number of M frames above it are the whole stack, and two stacks are
/// equal, frame by frame, exactly if these are.
///
/// Bits 7:0 have the depth, 15:8 the M frames on top, and 31:16 the innermost LOOP_START's position plus 1, or 0.
#[derive(Clone, Copy, PartialEq, Eq)]
pub struct Stack(u32);

/// One M frame more.
const MASK: u32 = 0x101;

impl Stack {
    pub const EMPTY: Stack = Stack(0);

    #[inline]
    fn depth(self) -> u32 {
        self.0 & 0xFF
    }

    #[inline]
    fn masks(self) -> u32 {
        self.0 >> 8 & 0xFF
    }

    #[inline]
    fn innermost(self) -> usize {
        (self.0 >> 16) as usize
    }

    #[inline]
    fn push_loop(self, position: usize) -> Stack {
        Stack((position as u32 + 1) << 16 | (self.depth() + 1))
    }

    /// The topmost `count` frames have to be M.
    #[inline]
    fn pop_masks(self, count: u32) -> Stack {
        Stack(self.0.wrapping_sub(count * MASK))
    }

    /// The LOOP_START at this position has its frame on top.
    #[inline]
    fn has_on_top(self, start: usize) -> bool {
        self.0 >> 8 == (start as u32 + 1) << 8
    }
}

/// The first pass along "no", as far as rules 4, 5 and 16 are kept: the stack before each position. The first of all is an empty one, for where there is
/// no loop.
pub struct Walk {
    stacks: Vec<Stack>,
}

impl Walk {
    #[inline(never)]
    pub fn new(section: &[[u32; 2]], limit: u32) -> Self {
        let mut stacks = vec![Stack::EMPTY; section.len() + 2];
        let mut stack = Stack::EMPTY;
        for (position, &pair) in section.iter().enumerate() {
            let control = Control::new(pair);
            let number = control.number();
            let (next, rule_16) = stack.on_no(position, control, number, &stacks, limit);
            if number.op.is_none() | control.rule_5(number) | rule_16 {
                stacks.truncate(position + 2);
                break;
            }
            stack = next;
            stacks[position + 2] = stack;
        }
        Walk { stacks }
    }

    /// Rule 16 is broken at a position: none of this number, 4 and 5 is at those before, nor 4 and 5 there.
    pub fn rule_16(&self, position: usize) -> bool {
        position + 2 >= self.stacks.len()
    }

    /// Rule 17 at the end, if the walk gets there.
    pub fn rule_17(&self, end: usize) -> bool {
        self.stacks.get(end + 2) != Some(&Stack::EMPTY)
    }

    #[inline]
    fn before(&self, position: usize) -> Stack {
        self.stacks[position + 1]
    }
}

impl Stack {
    /// The stack on "no", and whether a frame is missing, also one that "yes" needs, or the stack gets too deep. No branch goes by the number.
    #[inline]
    fn on_no(self, position: usize, control: Control, number: &Number, stacks: &[Stack], limit: u32) -> (Stack, bool) {
        let needed = control.pop_count(number).max(number.least);
        let mut next = Stack(self.0 + number.pushed * MASK).pop_masks(needed & number.popped);
        next = if number.is(LOOP_START) { self.push_loop(position) } else { next };
        let below_loop = stacks[self.innermost()];
        next = if number.is(LOOP_END) { below_loop } else { next };
        let no_loop = (self.masks() != 0) | (self.innermost() == 0);
        (next, (self.masks() < needed) | (next.depth() > limit) | (number.is(LOOP_END) & no_loop))
    }
}

/// The section once more, with the stacks of a whole walk along it.
pub struct Section<'a> {
    pub pairs: &'a [[u32; 2]],
    pub walk: &'a Walk,
}

impl Section<'_> {
    #[inline]
    fn is_loop_end(&self, position: usize) -> bool {
        Control::new(self.pairs[position]).number().is(LOOP_END)
    }

    /// Whether rules 18 and 19 are broken at a position, without a branch on what stands there. 19 is only right where 18 is kept.
    #[inline]
    pub fn rules_18_and_19(&self, position: usize) -> (bool, bool) {
        let control = Control::new(self.pairs[position]);
        let number = control.number();
        // A target outside is the section's last position instead, so that there is something to ask about.
        let target = control.target().min(self.pairs.len() - 1);
        let stack = self.walk.before(position);
        let branch = number.is(BRANCH);
        // Rule 18: outside, on the wrong side, or no LOOP_END where one has to be.
        let outside = control.target() != target;
        let wrong_side = (target > position) == number.is(LOOP_END);
        let rule_18 = outside | wrong_side | (number.is(TO_LOOP_END) & !self.is_loop_end(target));
        // Rule 19: the stack carried differs from the first pass's there, or a loop's ends don't pair. A LOOP_START goes just behind the LOOP_END that
        // has its frame on top, a LOOP_END just behind the LOOP_START whose frame it has.
        let behind = target.saturating_sub(1);
        let own_end = self.is_loop_end(behind) & self.walk.before(behind).has_on_top(position);
        let own_start = (target != 0) & stack.has_on_top(behind);
        let unpaired = (number.is(LOOP_START) & !own_end) | (number.is(LOOP_END) & !own_start);
        let carried = stack.pop_masks(control.pop_count(number));
        (branch & rule_18, branch & (unpaired | (carried != self.walk.before(target))))
    }
}

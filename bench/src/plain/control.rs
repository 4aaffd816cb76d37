//! Pairs of the control-flow section: their forms, and rules 4 to 7 on one of them.

use super::Kind;
use super::card::Card;

/// The taken numbers (rule 4).
#[derive(Clone, Copy, PartialEq, Eq, Debug)]
pub enum Op {
    Nop,
    Tex,
    Vtx,
    VtxTc,
    LoopEnd,
    LoopStart,
    LoopContinue,
    LoopBreak,
    Jump,
    Else,
    Pop,
    Export,
    Alu,
    PushBefore,
    PopAfter,
    Pop2After,
}

/// What the rules have to know of a number, looked up: packs mix all of them.
#[derive(Clone, Copy)]
pub struct Number {
    pub op: Option<Op>,
    /// Rule 5: bits of the high word that have to be 0.
    clear: u32,
    /// Rule 5: bit 22, if it must not be set together with bit 30.
    one_mode: u32,
    /// The walk: bits of POP_COUNT that are read, M frames that are needed at least, and whether "no" pops what is needed (all ones) or nothing.
    counted: u32,
    pub least: u32,
    pub popped: u32,
    /// M frames that "no" pushes.
    pub pushed: u32,
    /// Bits of those below.
    kinds: u32,
}

/// It has a target. Of LOOP_BREAK and LOOP_CONTINUE that is a LOOP_END.
pub const BRANCH: u32 = 1;
pub const TO_LOOP_END: u32 = 2;
pub const LOOP_START: u32 = 4;
pub const LOOP_END: u32 = 8;
/// It opens a clause of ALU slots, or one of fetches.
pub const OPENS_ALU: u32 = 16;
pub const OPENS_FETCHES: u32 = 32;

const fn about(op: Option<Op>) -> Number {
    let none = Number { op, clear: 0, one_mode: 0, counted: 0, least: 0, popped: 0, pushed: 0, kinds: 0 };
    // Rule 5 does not read the openers of ALU clauses.
    let general = Number { clear: 1 << 20, one_mode: 1 << 22, ..none };
    let no_end = Number { clear: general.clear | 1 << 21, ..general };
    let branch = Number { counted: 7, kinds: BRANCH, ..no_end };
    let opener = Number { kinds: OPENS_ALU, ..none };
    let no_cond = Number { clear: general.clear | 0x300, ..general };
    match op {
        None => none,
        Some(Op::Alu) => opener,
        Some(Op::PushBefore) => Number { pushed: 1, ..opener },
        Some(Op::PopAfter) => Number { least: 1, popped: u32::MAX, ..opener },
        Some(Op::Pop2After) => Number { least: 2, popped: u32::MAX, ..opener },
        Some(Op::Nop) => no_cond,
        Some(Op::Tex | Op::Vtx | Op::VtxTc) => Number { kinds: OPENS_FETCHES, ..no_cond },
        Some(Op::Export) => Number { clear: 0x1F000, ..general },
        Some(Op::Jump) => branch,
        Some(Op::LoopBreak | Op::LoopContinue) => Number { kinds: BRANCH | TO_LOOP_END, ..branch },
        Some(Op::Else) => Number { least: 1, ..branch },
        Some(Op::Pop) => Number { popped: u32::MAX, ..branch },
        Some(Op::LoopStart) => Number { kinds: BRANCH | LOOP_START, ..no_end },
        Some(Op::LoopEnd) => Number { kinds: BRANCH | LOOP_END, ..no_end },
    }
}

/// Rule 4: by high bits 29:23. An ALU opener's number is 29:26, which fills eight places.
const fn taken(bits: usize) -> Option<Op> {
    if bits & 64 != 0 {
        return match bits >> 3 {
            8 => Some(Op::Alu),
            9 => Some(Op::PushBefore),
            10 => Some(Op::PopAfter),
            11 => Some(Op::Pop2After),
            _ => None,
        };
    }
    match bits {
        0 => Some(Op::Nop),
        1 => Some(Op::Tex),
        2 => Some(Op::Vtx),
        3 => Some(Op::VtxTc),
        5 => Some(Op::LoopEnd),
        6 => Some(Op::LoopStart),
        8 => Some(Op::LoopContinue),
        9 => Some(Op::LoopBreak),
        10 => Some(Op::Jump),
        13 => Some(Op::Else),
        14 => Some(Op::Pop),
        39 | 40 => Some(Op::Export),
        _ => None,
    }
}

static NUMBERS: [Number; 128] = {
    let mut table = [about(None); 128];
    let mut bits = 0;
    while bits < table.len() {
        table[bits] = about(taken(bits));
        bits += 1;
    }
    table
};

/// Clause that a pair opens: its first quadword and its length in quadwords.
#[derive(Clone, Copy, PartialEq, Eq, Debug)]
pub struct Extent {
    pub start: usize,
    pub length: usize,
}

/// One pair of the section.
#[derive(Clone, Copy)]
pub struct Control {
    low: u32,
    high: u32,
}

impl Number {
    #[inline]
    pub fn is(&self, kinds: u32) -> bool {
        self.kinds & kinds != 0
    }
}

impl Control {
    #[inline]
    pub fn new([low, high]: [u32; 2]) -> Self {
        Control { low, high }
    }

    /// Bit `index` of the high word.
    #[inline]
    fn bit(self, index: u32) -> bool {
        self.high >> index & 1 != 0
    }

    /// An end has bit 29 clear, or else bit 21 is COUNT's. Its number may be one that is not taken.
    #[inline]
    pub fn is_end(self) -> bool {
        !self.bit(29) && self.bit(21)
    }

    #[inline]
    pub fn number(self) -> &'static Number {
        &NUMBERS[(self.high >> 23 & 127) as usize]
    }

    /// Rule 4: the number, if it is taken.
    #[inline]
    pub fn op(self) -> Option<Op> {
        self.number().op
    }

    /// Where a branch goes on "yes".
    #[inline]
    pub fn target(self) -> usize {
        self.low as usize
    }

    /// POP_COUNT, where the number reads it, else 0.
    #[inline]
    pub fn pop_count(self, number: &Number) -> u32 {
        self.high & number.counted
    }

    /// Modes of an ALU clause's two sets of constants.
    #[inline]
    pub fn modes(self) -> (u32, u32) {
        (self.low >> 30, self.high & 3)
    }

    /// Rule 5: fields of a pair that is no ALU opener.
    #[inline]
    pub fn rule_5(self, number: &Number) -> bool {
        self.high & (number.clear | self.high >> 8 & number.one_mode) != 0
    }

    /// The clause that an ALU opener opens: one quadword for each slot.
    #[inline]
    pub fn alu_clause(self) -> Extent {
        Extent { start: (self.low & 0x3F_FFFF) as usize, length: (self.high >> 18 & 127) as usize + 1 }
    }

    /// The clause that an opener of fetches opens: two quadwords for each.
    #[inline]
    pub fn fetch_clause(self) -> Extent {
        Extent { start: self.low as usize, length: 2 * ((self.high >> 10 & 7 | self.high >> 16 & 8) as usize + 1) }
    }

    /// The clause that a pair opens, if it opens one.
    #[inline]
    pub fn clause(self) -> Option<Extent> {
        let number = self.number();
        if number.is(OPENS_ALU) { Some(self.alu_clause()) } else { number.is(OPENS_FETCHES).then(|| self.fetch_clause()) }
    }

    /// Rule 7 on an export.
    pub fn rule_7(self, card: &Card) -> bool {
        let burst = self.high >> 17 & 15;
        let base = self.low & 0x1FFF;
        let last = base + burst;
        let allowed = match self.low >> 13 & 3 {
            0 => card.kind == Kind::Pixel && (last <= 7 || (base == 61 && burst == 0)),
            1 => card.kind == Kind::Vertex && base >= 60 && last <= 63,
            2 => card.kind == Kind::Vertex && last <= 31,
            _ => false,
        };
        let selects_six = [0, 3, 6, 9].iter().any(|&place| self.high >> place & 7 == 6);
        let relative = self.low >> 22 & 1 != 0;
        let outside = !relative && (self.low >> 15 & 127) + burst >= card.gprs;
        !allowed || selects_six || outside
    }
}

impl Extent {
    /// The first quadword behind it. ADDR has at most 32 bits and the sum is made in 64, so that it can't wrap.
    #[inline]
    pub fn end(self) -> usize {
        self.start + self.length
    }

    /// The clause's pairs, if it keeps rule 6: behind the section that ends with `end`, and inside the pairs.
    #[inline]
    pub fn within(self, pairs: &[[u32; 2]], end: usize) -> Option<&[[u32; 2]]> {
        if self.start <= end { None } else { pairs.get(self.start..self.end()) }
    }
}

//! What has to be kept of a group of ALU slots while it is read: for rule 13 the units that are taken, for rule 14 its classes, and its literals.

use super::instruction::Instruction;
use super::opcodes::{EXCLUSIVE, KILL, MOVA, REDUCTION, SPECIAL, TRANS, VECTOR};

/// The units that are taken, where the latest instruction went, and whether a class was there that is asked about.
#[derive(Clone, Copy)]
pub struct Group(u32);

/// One bit for each unit, X lowest, then Trans, just above the class's two that decide the unit.
const TAKEN_AT: u32 = 12;
const TRANS_UNIT: u32 = 16;
/// The latest one is not above all earlier ones.
const FALLS: u32 = 1;
/// The latest one is in Trans. This lies where the highest bit of an instruction's bank swizzle does.
const IN_TRANS: u32 = 1 << 20;

/// Classes that are asked about.
const KEPT: u32 = KILL | MOVA | REDUCTION | EXCLUSIVE | SPECIAL;

impl Group {
    pub const NEW: Group = Group(0);

    /// The same group where `mask` is all ones, a new one where it is 0.
    #[inline]
    pub fn masked(self, mask: u32) -> Group {
        Group(self.0 & mask)
    }

    /// With one instruction more. Its unit is looked up, since packs mix all that decides it.
    #[inline]
    pub fn with(self, instruction: Instruction) -> Group {
        let joined = self.0 | instruction.class();
        let index = joined >> VECTOR.trailing_zeros() & 127 | instruction.channel() << 7;
        Group(PLACED[index as usize] | joined & KEPT)
    }

    /// Not 0 if `latest`, which is in it, breaks rule 13: it is not above all earlier ones, or is in Trans with a swizzle above 3.
    #[inline]
    pub fn misplaces(self, latest: Instruction) -> u32 {
        self.0 & (latest.high_swizzle() | FALLS)
    }

    /// Not 0 if `next`, which is not yet in it, would be a second setter or kill.
    #[inline]
    pub fn excludes(self, next: Instruction) -> u32 {
        self.0 & next.class() & EXCLUSIVE
    }

    /// It has a kill, MOVA or reduction, and `last` is 1.
    #[inline]
    pub fn is_special_at(self, last: u32) -> bool {
        self.0 & last << SPECIAL.trailing_zeros() != 0
    }

    /// One of these is in it, of those that are kept.
    #[inline]
    pub fn has(self, class: u32) -> bool {
        self.0 & class & KEPT != 0
    }

    /// How many instructions it has, if none broke rule 13.
    pub fn count(self) -> usize {
        (self.0 >> TAKEN_AT & 31).count_ones() as usize
    }

    /// X, Y, Z and W are taken.
    pub fn has_all_vector_units(self) -> bool {
        self.0 >> TAKEN_AT & 15 == 15
    }
}

/// The group's own bits by the units taken, class and channel. Units have to rise, Trans being the highest: that refuses a unit taken twice, a vector
/// unit below an earlier one and anything after Trans at once.
const fn placed(taken: u32, class: u32, channel: u32) -> u32 {
    let own = 1 << channel;
    let moves = class & TRANS != 0 || (class & VECTOR == 0 && taken & own != 0);
    let unit = if moves { TRANS_UNIT } else { own };
    (taken | unit) << TAKEN_AT | if taken >= unit { FALLS } else { 0 } | if moves { IN_TRANS } else { 0 }
}

static PLACED: [u32; 512] = {
    let mut table = [0; 512];
    let mut index = 0;
    while index < table.len() {
        let bits = index as u32;
        table[index] = placed(bits >> 2 & 31, (bits & 3) * VECTOR, bits >> 7);
        index += 1;
    }
    table
};

/// Literals of a group: 1 if a source is one, and 2 besides if one of them is in channel Z or W and needs a second quadword.
#[derive(Clone, Copy)]
pub struct Literals(u32);

/// The selectors of all three sources where they lie in a pair, and the bit above each.
const SELECTS: u64 = 0x1FF | 0x1FF << 13 | 0x1FF << 32;
const ABOVE: u64 = 1 << 9 | 1 << 22 | 1 << 41;
/// A literal in each.
const ALL_LITERALS: u64 = 253 | 253 << 13 | 253 << 32;

impl Literals {
    pub const NONE: Literals = Literals(0);

    /// The same where `mask` is all ones, none where it is 0.
    #[inline]
    pub fn masked(self, mask: u32) -> Self {
        Literals(self.0 & mask)
    }

    /// With those of one instruction more.
    #[inline]
    pub fn with(self, instruction: Instruction) -> Self {
        // What is left of a selector is 0 only for a literal: any other carries into the bit above it.
        let others = (instruction.selects() ^ ALL_LITERALS) + SELECTS;
        let literals = !others & ABOVE;
        // The channel's higher bit lies two above that.
        let second = literals & instruction.words() >> 2;
        Literals(self.0 | u32::from(literals != 0) | u32::from(second != 0) << 1)
    }

    /// How many quadwords they take: 1 if the highest channel is X or Y, else 2.
    #[inline]
    pub fn quadwords(self) -> usize {
        (self.0 as usize + 1) >> 1
    }
}

//! Which registers and constants a card and a clause's modes grant (rule 15), and which sources no card grants (rule 12).

use super::instruction::Instruction;

/// What is to be said of a selector with its relative bit.
const REFUSED: u8 = 1;
const UNGRANTED: u8 = 2;

/// Selectors that no instruction may use, the second range with a relative bit. A relative bit frees of all grants.
static ALL_GRANTED: [u8; 1024] = {
    let mut table = [0; 1024];
    let mut operand = 0;
    while operand < table.len() {
        let (select, relative) = (operand & 0x1FF, operand & 0x200 != 0);
        if (192 <= select && select <= 247) || (248 <= select && select <= 255 && relative) {
            table[operand] = REFUSED;
        }
        operand += 1;
    }
    table
};

#[derive(Clone)]
pub struct Grants {
    operands: [u8; 1024],
    gprs: u32,
    /// Registers from `gprs` on that are not granted.
    gap: u32,
}

impl Grants {
    /// What the card alone decides; no set of constants is locked yet.
    #[inline]
    pub fn new(gprs: u32, temps: u32, consts: u32) -> Self {
        let gap = 128u32.saturating_sub(temps + gprs);
        let mut grants = Grants { operands: ALL_GRANTED, gprs, gap };
        grants.operands[gprs as usize..(gprs + gap) as usize].fill(UNGRANTED);
        grants.operands[256 + consts as usize..512].fill(UNGRANTED);
        grants
    }

    /// The sets that a clause locks: mode 0 none of the 32, 1 the first 16, 2 and 3 all.
    #[inline]
    pub fn lock(&mut self, mode0: u32, mode1: u32) {
        const SETS: [[u8; 32]; 4] = {
            let mut first = [UNGRANTED; 32];
            let mut at = 0;
            while at < 16 {
                first[at] = 0;
                at += 1;
            }
            [[UNGRANTED; 32], first, [0; 32], [0; 32]]
        };
        self.operands[128..160].copy_from_slice(&SETS[(mode0 & 3) as usize]);
        self.operands[160..192].copy_from_slice(&SETS[(mode1 & 3) as usize]);
    }

    /// What is to be said of all three sources, by rules 12 and 15: 0 if nothing.
    #[inline]
    pub fn sources(&self, instruction: Instruction) -> u8 {
        let [first, second, third] = instruction.sources().map(|source| self.operands[source.operand()]);
        first | second | third
    }

    /// Not 0 if some source is one that no instruction may use.
    #[inline]
    pub fn refused(&self, instruction: Instruction) -> u32 {
        u32::from(self.sources(instruction) & REFUSED)
    }

    /// Not 0 if some operand without a relative bit is not granted.
    #[inline]
    pub fn ungranted(&self, instruction: Instruction) -> u32 {
        u32::from(self.sources(instruction) & UNGRANTED) | self.ungranted_destination(instruction)
    }

    /// The destination only counts where it is written. One with its relative bit is behind the gap.
    #[inline]
    pub fn ungranted_destination(&self, instruction: Instruction) -> u32 {
        let in_gap = instruction.destination().wrapping_sub(self.gprs) < self.gap;
        instruction.writes() & u32::from(in_gap).wrapping_neg()
    }
}

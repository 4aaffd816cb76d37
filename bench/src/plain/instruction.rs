//! Fields of one ALU instruction (chapter 10, ALU_WORD0 and ALU_WORD1_OP2/OP3).

use super::opcodes::{self, OP3};

/// One source: selector 8:0, relative bit 9, channel 11:10.
#[derive(Clone, Copy)]
pub struct Source(u32);

impl Source {
    /// Selector and relative bit.
    #[inline]
    pub fn operand(self) -> usize {
        (self.0 & 0x3FF) as usize
    }
}

#[derive(Clone, Copy)]
pub struct Instruction {
    /// The low word below the high one.
    words: u64,
    class: u32,
}

/// By the low word's highest six bits, which are LAST, PRED_SEL and INDEX_MODE: 1 if PRED_SEL is 1 or INDEX_MODE above 4.
static REFUSED_MODES: [u8; 64] = {
    let mut table = [0; 64];
    let mut bits = 0;
    while bits < table.len() {
        let (index_mode, pred_sel) = (bits & 7, bits >> 3 & 3);
        table[bits] = (pred_sel == 1 || index_mode > 4) as u8;
        bits += 1;
    }
    table
};

impl Instruction {
    #[inline]
    pub fn new([low, high]: [u32; 2]) -> Self {
        Instruction { words: u64::from(low) | u64::from(high) << 32, class: opcodes::class_of(high) }
    }

    #[inline]
    fn low(self) -> u32 {
        self.words as u32
    }

    #[inline]
    fn high(self) -> u32 {
        (self.words >> 32) as u32
    }

    /// LAST: 1 if it is set.
    #[inline]
    pub fn last(self) -> u32 {
        self.low() >> 31
    }

    #[inline]
    pub fn class(self) -> u32 {
        self.class
    }

    #[inline]
    pub fn is(self, class: u32) -> bool {
        self.class & class != 0
    }

    /// OP3's third source with its relative bit; of OP2 0, which is register 0 and always granted, so that it changes no answer.
    #[inline]
    fn third(self) -> u32 {
        self.high() & self.class & OP3
    }

    /// All source fields of the format.
    #[inline]
    pub fn sources(self) -> [Source; 3] {
        [Source(self.low()), Source(self.low() >> 13), Source(self.third())]
    }

    /// Both words with nothing but the sources' selectors. Where the next instruction stands goes by these, so they don't wait for the class.
    #[inline]
    pub fn selects(self) -> u64 {
        const TWO: u64 = 0x1FF | 0x1FF << 13;
        let is_op3 = self.high() & 7 << 15 != 0;
        self.words & if is_op3 { TWO | 0x1FF << 32 } else { TWO }
    }

    #[inline]
    pub fn words(self) -> u64 {
        self.words
    }

    /// Not 0 if PRED_SEL or INDEX_MODE has a refused value.
    #[inline]
    pub fn refused_modes(self) -> u8 {
        REFUSED_MODES[(self.low() >> 26) as usize]
    }

    /// The bank swizzle's highest bit where it lies: not 0 if the swizzle is above 3.
    #[inline]
    pub fn high_swizzle(self) -> u32 {
        self.high() & 1 << 20
    }

    /// Not 0 if the bank swizzle is above 5: its two highest bits are set.
    #[inline]
    pub fn refused_swizzle(self) -> u32 {
        self.high_swizzle() & self.high() << 1
    }

    /// The destination register with its relative bit above it.
    #[inline]
    pub fn destination(self) -> u32 {
        self.high() >> 21 & 0xFF
    }

    /// A relative bit on the destination or on any source field.
    #[inline]
    pub fn has_relative(self) -> bool {
        (self.low() >> 9 | self.low() >> 22 | self.third() >> 9 | self.high() >> 28) & 1 != 0
    }

    #[inline]
    pub fn channel(self) -> u32 {
        self.high() >> 29 & 3
    }

    /// Not 0 if the destination is written: OP3 always writes, OP2 with its WRITE_MASK.
    #[inline]
    pub fn writes(self) -> u32 {
        // Any bit of OP3's mask would do.
        (self.high() | self.class) & 1 << 4
    }

    /// CLAMP, the OP2 number and OMOD where they lie: what the four instructions of a reduction share.
    #[inline]
    pub fn reduction_fields(self) -> u32 {
        self.high() & 0x8003_FFE0
    }
}

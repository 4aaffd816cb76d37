//! The class of each ALU number, from tables 4.4 to 4.6 and chapter 9 of AMD's guide, as document 01 decides between them.

/// Class bits of an ALU number; what a group keeps of its own (`group.rs`) lies between them.
///
/// OP3's are a mask: of a high word it leaves the third source with its relative bit, and nothing where there is none.
pub const OP3: u32 = 0x3FF;
/// Vector only and trans only. Neither means that any unit takes it.
pub const VECTOR: u32 = 1 << 10;
pub const TRANS: u32 = 1 << 11;
pub const KILL: u32 = 1 << 17;
pub const MOVA: u32 = 1 << 18;
pub const REDUCTION: u32 = 1 << 19;
pub const UNTAKEN: u32 = 1 << 21;
/// Setters and kills: at most one of them all may stand in a group.
pub const EXCLUSIVE: u32 = 1 << 22;
/// Kills, MOVAs and reductions, of which more is to be asked when their group ends.
pub const SPECIAL: u32 = 1 << 23;
/// The topmost, so that it is counted by a shift.
pub const SETTER: u32 = 1 << 31;

/// Class of an OP2 number (high bits 14:7 where 17:15 are 0).
const fn op2_class(number: usize) -> u32 {
    match number {
        0..=6 => 0,                              // ADD (and NOP), MUL, MUL_IEEE, MAX, MIN, MAX_DX10, MIN_DX10
        8..=20 => 0,                             // SET*, SET*_DX10, FRACT, TRUNC, CEIL, RNDNE, FLOOR
        21 | 22 | 24 => VECTOR | MOVA | SPECIAL, // MOVA, MOVA_FLOOR, MOVA_INT
        25 => 0,                                 // MOV
        32..=43 => SETTER | EXCLUSIVE,           // PRED_SET*, PRED_SET_INV to _RESTORE, PRED_SET*_PUSH
        44..=47 => KILL | EXCLUSIVE | SPECIAL,   // KILLE, KILLGT, KILLGE, KILLNE
        48..=51 => 0,                            // AND, OR, XOR, NOT
        52 => VECTOR,                            // ADD_INT: table 4.5 alone names it
        53..=63 => 0,                            // SUB_INT, MAX, MIN, SET* of integers
        66..=71 => SETTER | EXCLUSIVE,           // PRED_SET*_INT; 70 and 71 are chapter 9's SETLT, SETLE
        74..=79 => SETTER | EXCLUSIVE,           // PRED_SET*_PUSH_INT
        80..=83 => VECTOR | REDUCTION | SPECIAL, // DOT4, DOT4_IEEE, CUBE, MAX4
        97..=111 => TRANS,                       // EXP to COS, and the conversions
        112..=114 => 0,                          // ASHR, LSHR, LSHL
        115..=120 => TRANS,                      // MULLO, MULHI, RECIP of integers
        _ => UNTAKEN,
    }
}

/// Class of an OP3 number (high bits 17:13, 4 or more).
const fn op3_class(number: usize) -> u32 {
    match number {
        12..=15 => OP3 | TRANS, // MUL_LIT*
        16..=26 => OP3,         // MULADD*, MULADD_IEEE*, CMOVE, CMOVGT, CMOVGE
        _ => OP3 | UNTAKEN,
    }
}

/// Indexed by high bits 17:7 as they stand, so that no branch parts OP2 from OP3: an OP3 number fills 64 places.
static CLASSES: [u32; 2048] = {
    let mut table = [0; 2048];
    let mut bits = 0;
    while bits < table.len() {
        table[bits] = if bits < 256 { op2_class(bits) } else { op3_class(bits >> 6) };
        bits += 1;
    }
    table
};

/// Class of the instruction with this high word.
#[inline]
pub fn class_of(high: u32) -> u32 {
    CLASSES[(high >> 7 & 0x7FF) as usize]
}

#[cfg(test)]
mod tests {
    use super::*;

    fn count(numbers: impl Iterator<Item = u32>, wanted: impl Fn(u32) -> bool) -> usize {
        numbers.filter(|&class| class & UNTAKEN == 0 && wanted(class)).count()
    }

    #[test]
    fn the_sums_are_those_decided() {
        let op2 = || (0..256).map(op2_class);
        let op3 = || (4..32).map(op3_class);
        assert_eq!(count(op2(), |_| true), 96);
        assert_eq!(count(op2(), |c| c & (VECTOR | TRANS) == 0), 67);
        assert_eq!(count(op2(), |c| c & VECTOR != 0), 8);
        assert_eq!(count(op2(), |c| c & TRANS != 0), 21);
        assert_eq!(count(op3(), |_| true), 15);
        assert_eq!(count(op3(), |c| c & TRANS != 0), 4);
        assert_eq!(count(op2(), |c| c & SETTER != 0), 24);
        assert_eq!(count(op2(), |c| c & KILL != 0), 4);
        assert_eq!(count(op2(), |c| c & MOVA != 0), 3);
        assert_eq!(count(op2(), |c| c & REDUCTION != 0), 4);
    }
}

//! Words of control-flow pairs and of fetches; fields that no rule reads are filled at random.

use super::random::Random;
use crate::plain::Kind;
use crate::plain::card::Card;

pub const NOP: u32 = 0;
pub const TEX: u32 = 1;
pub const VTX: u32 = 2;
pub const VTX_TC: u32 = 3;
pub const LOOP_END: u32 = 5;
pub const LOOP_START: u32 = 6;
pub const LOOP_CONTINUE: u32 = 8;
pub const LOOP_BREAK: u32 = 9;
pub const JUMP: u32 = 10;
pub const ELSE: u32 = 13;
pub const POP: u32 = 14;
pub const EXPORT: u32 = 39;
pub const EXPORT_DONE: u32 = 40;

/// A pair of the general form.
pub fn pair(number: u32, address: u32, pop_count: u32, count: u32, random: &mut Random) -> [u32; 2] {
    let is_fetch = (TEX..=VTX_TC).contains(&number);
    let cond = if number == NOP || is_fetch { 0 } else { random.word() & 3 };
    let count = if is_fetch { count } else { random.word() & 15 };
    let high = pop_count
        | (random.word() & 31) << 3
        | cond << 8
        | (count & 7) << 10
        | (random.word() & 63) << 13
        | (count >> 3) << 19
        | number << 23
        | modes(random);
    [address, high]
}

/// VALID_PIXEL_MODE and WHOLE_QUAD_MODE, not both, and BARRIER.
fn modes(random: &mut Random) -> u32 {
    random.pick(&[0, 0, 1 << 22, 1 << 30]) | random.word() & 1 << 31
}

/// An ALU clause opener.
pub fn alu(number: u32, start: usize, slots: usize, mode0: u32, mode1: u32, random: &mut Random) -> [u32; 2] {
    let low = start as u32 | (random.word() & 0xFF) << 22 | mode0 << 30;
    let high = mode1
        | (random.word() & 0xFFFF) << 2
        | (slots as u32 - 1) << 18
        | (random.word() & 1) << 25
        | number << 26
        | random.word() & 0xC000_0000;
    [low, high]
}

/// An export that rule 7 lets pass, if the kind may export at all.
pub fn export(card: &Card, random: &mut Random) -> Option<[u32; 2]> {
    let (kind, base, burst) = match (card.kind, random.below(2)) {
        (Kind::Pixel, 0) => (0, 61, 0),
        (Kind::Pixel, _) => ranged(0, 7, 0, random),
        (Kind::Vertex, 0) => ranged(60, 63, 1, random),
        (Kind::Vertex, _) => ranged(0, 31, 2, random),
        (Kind::Geometry, _) => return None,
    };
    let fits = burst < card.gprs;
    let relative = !fits || random.once_in(4);
    let register = if relative { random.word() & 127 } else { random.below((card.gprs - burst) as usize) as u32 };
    let low = base | kind << 13 | register << 15 | u32::from(relative) << 22 | (random.word() & 0x1FF) << 23;
    let selectors = (0..4).fold(0, |all, place| all | random.pick(&[0, 1, 2, 3, 4, 5, 7]) << (3 * place));
    let number = random.pick(&[EXPORT, EXPORT_DONE]);
    Some([low, selectors | burst << 17 | number << 23 | modes(random)])
}

/// Type, base and burst with base and base+burst in `low..=high`.
fn ranged(low: usize, high: usize, kind: u32, random: &mut Random) -> (u32, u32, u32) {
    let base = random.between(low, high);
    let burst = random.below((high - base + 1).min(16));
    (kind, base as u32, burst as u32)
}

/// One fetch of a clause that `number` opens.
pub fn fetch(number: u32, gprs: u32, random: &mut Random) -> [u32; 4] {
    let operation = if number == TEX {
        random.pick(&[2, 3, 4, 5, 6, 7, 8, 10, 11, 12, 14, 16, 17, 18, 19, 20, 23, 24, 27, 28, 30, 31])
    } else {
        random.word() & 1
    };
    let mut register = || {
        let relative = random.once_in(6);
        if relative { random.word() & 127 | 128 } else { random.below(gprs as usize) as u32 }
    };
    let (source, destination) = (register(), register());
    let semantic = number != TEX && operation == 1;
    // A semantic fetch has its id in place of a register.
    let destination = if semantic { random.word() & 255 } else { destination };
    let first = operation | random.word() & 0xFF00_FFE0 | source << 16;
    [first, destination | random.word() & !255, random.word(), 0]
}

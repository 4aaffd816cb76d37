//! Rules 8 and 9 on a fetch clause.

/// One bit for each taken number: section 9.4 for TEX, section 9.3 for VTX and VTX_TC.
pub(super) const TEX_NUMBERS: u32 = 0xFFFF_0000 | 1 << 14 | 7 << 10 | 0x7F << 2;
pub(super) const VTX_NUMBERS: u32 = 0b11;
const SEMANTIC: u32 = 1;

/// Number and slot of the first fault, fetch by fetch.
pub fn fetch_rules(clause: &[[u32; 2]], texture: bool, gprs: u32) -> Result<(), (u32, usize)> {
    for (index, fetch) in clause.as_chunks::<2>().0.iter().enumerate() {
        if rule_8(fetch, texture) {
            return Err((8, 2 * index));
        }
        if rule_9(fetch, texture, gprs) {
            return Err((9, 2 * index));
        }
    }
    Ok(())
}

/// The number is not taken, or the padding is not 0.
#[inline]
fn rule_8(&[[first, _], [_, fourth]]: &[[u32; 2]; 2], texture: bool) -> bool {
    let taken = if texture { TEX_NUMBERS } else { VTX_NUMBERS };
    taken >> (first & 31) & 1 == 0 || fourth != 0
}

/// A register without relative bit is not below gprs. A semantic fetch names no destination.
#[inline]
fn rule_9(&[[first, second], _]: &[[u32; 2]; 2], texture: bool, gprs: u32) -> bool {
    // In both places the relative bit lies just above the register's seven.
    let outside = |field: u32| field & 0x80 == 0 && field & 0x7F >= gprs;
    let semantic = !texture && first & 31 == SEMANTIC;
    outside(first >> 16) || (!semantic && outside(second))
}

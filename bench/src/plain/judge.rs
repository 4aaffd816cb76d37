//! The order of the rules: card, length, end, then the two passes.

use super::alu;
use super::apart::{self, Opened, Order};
use super::card::{self, Card};
use super::control::{BRANCH, Control, OPENS_ALU, OPENS_FETCHES, Op};
use super::fetches;
use super::flow::{Section, Walk};
use super::grants::Grants;

/// Number, place and slot.
pub type Answer = (u32, usize, usize);

/// The section has at most so many pairs.
const LONGEST_SECTION: usize = 512;

/// Judges the words of a pack by the card in `card` (bytes behind its seventh line are not read).
pub fn judge(card: &[u8], words: &[u32]) -> Answer {
    let card = match card::parse(card) {
        Ok(card) => card,
        Err(line) => return (1, line, 0),
    };
    match rules(&card, words) {
        Ok(()) => (0, 0, 0),
        Err(fault) => fault,
    }
}

fn rules(card: &Card, words: &[u32]) -> Result<(), Answer> {
    let pairs = rule_2(card, words).ok_or((2, 0, 0))?;
    let end = rule_3(pairs).ok_or((3, 0, 0))?;
    let walk = Walk::new(&pairs[..=end], card.stack);
    let section = Section { pairs: &pairs[..=end], walk: &walk };
    // Which rule is broken first, and where, is asked only if one is.
    let kept = !walk.rule_17(end) && keeps_all_rules(card, pairs, &section);
    if kept { Ok(()) } else { first_fault(card, pairs, &section) }
}

/// The words as pairs, if they are as many as the card says.
fn rule_2<'a>(card: &Card, words: &'a [u32]) -> Option<&'a [[u32; 2]]> {
    let (pairs, rest) = words.as_chunks::<2>();
    (rest.is_empty() && pairs.len() == card.quads as usize).then_some(pairs)
}

/// The end of the control-flow section.
fn rule_3(pairs: &[[u32; 2]]) -> Option<usize> {
    for (position, &pair) in pairs.iter().take(LONGEST_SECTION).enumerate() {
        if Control::new(pair).is_end() {
            return Some(position);
        }
    }
    None
}

/// Whether rules 6 to 15, 18, 19 and 22 are kept, where all others are: each number is asked only what goes for it. Order is no matter here, so both
/// passes are one.
fn keeps_all_rules(card: &Card, pairs: &[[u32; 2]], section: &Section) -> bool {
    let end = section.pairs.len() - 1;
    let mut grants = Grants::new(card.gprs, card.temps, card.consts);
    let mut order = Order::NEW;
    for (position, &pair) in section.pairs.iter().enumerate() {
        let control = Control::new(pair);
        let number = control.number();
        let kept = if number.is(BRANCH) {
            let (rule_18, rule_19) = section.rules_18_and_19(position);
            !(rule_18 | rule_19)
        } else if number.is(OPENS_ALU) {
            let (mode0, mode1) = control.modes();
            grants.lock(mode0, mode1);
            let clause = control.alu_clause();
            order.open(clause);
            let push_before = number.op == Some(Op::PushBefore);
            clause.within(pairs, end).is_some_and(|slots| alu::keeps_all_rules(slots, push_before, card.kind, &grants))
        } else if number.is(OPENS_FETCHES) {
            let clause = control.fetch_clause();
            order.open(clause);
            let texture = number.op == Some(Op::Tex);
            let keeps_rules = |fetches| !apart::starts_odd(clause) && fetches::fetch_rules(fetches, texture, card.gprs).is_ok();
            clause.within(pairs, end).is_some_and(keeps_rules)
        } else {
            number.op != Some(Op::Export) || !control.rule_7(card)
        };
        if !kept {
            return false;
        }
    }
    !order.is_left() || apart::all_apart(section.pairs, pairs.len())
}

/// Rules 6, 22 and 7 to 15 on a pair and its clause, in this order: number and slot of the first fault.
fn rules_6_to_15(
    card: &Card, pairs: &[[u32; 2]], end: usize, control: Control, opened: &mut Opened, grants: &mut Grants,
) -> Result<(), (u32, usize)> {
    match control.op() {
        Some(op @ (Op::Alu | Op::PushBefore | Op::PopAfter | Op::Pop2After)) => {
            let clause = control.alu_clause();
            let slots = clause.within(pairs, end).ok_or((6, 0))?;
            if opened.half_shares(clause) {
                return Err((22, 0));
            }
            let (mode0, mode1) = control.modes();
            grants.lock(mode0, mode1);
            match alu::clause_rules(slots, op == Op::PushBefore, card.kind, grants) {
                (0, _) => Ok(()),
                fault => Err(fault),
            }
        }
        Some(op @ (Op::Tex | Op::Vtx | Op::VtxTc)) => {
            let clause = control.fetch_clause();
            let fetches = clause.within(pairs, end).ok_or((6, 0))?;
            if apart::starts_odd(clause) || opened.half_shares(clause) {
                return Err((22, 0));
            }
            fetches::fetch_rules(fetches, op == Op::Tex, card.gprs)
        }
        Some(Op::Export) if control.rule_7(card) => Err((7, 0)),
        _ => Ok(()),
    }
}

/// Number, place and slot of the first fault: all rules in their order.
#[cold]
fn first_fault(card: &Card, pairs: &[[u32; 2]], section: &Section) -> Result<(), Answer> {
    let end = section.pairs.len() - 1;
    let mut grants = Grants::new(card.gprs, card.temps, card.consts);
    let mut opened = Opened::none(pairs.len());
    for (position, &pair) in section.pairs.iter().enumerate() {
        let control = Control::new(pair);
        if control.op().is_none() {
            return Err((4, position, 0));
        }
        if control.rule_5(control.number()) {
            return Err((5, position, 0));
        }
        rules_6_to_15(card, pairs, end, control, &mut opened, &mut grants).map_err(|(number, slot)| (number, position, slot))?;
        if section.walk.rule_16(position) {
            return Err((16, position, 0));
        }
    }
    if section.walk.rule_17(end) {
        return Err((17, end, 0));
    }
    for position in 0..=end {
        match section.rules_18_and_19(position) {
            (true, _) => return Err((18, position, 0)),
            (_, true) => return Err((19, position, 0)),
            _ => {}
        }
    }
    Ok(())
}

#[cfg(test)]
mod tests {
    use super::*;

    /// The examples of document 01: pairs as printed there, and the answer.
    fn judged(gprs: u32, stack: u32, pairs: &[[u32; 2]]) -> Answer {
        let quads = pairs.len();
        let card = format!("kind=ps\nbuild=production\ngprs={gprs}\ntemps=0\nconsts=0\nstack={stack}\nquads={quads}\n");
        judge(card.as_bytes(), pairs.as_flattened())
    }

    #[test]
    fn copy_pack() {
        let pack = |first, second, third| [first, second, third];
        let [opener, end, mov] = [[2, 0xA000_0000], [0, 0x0020_0000], [0x8000_0000, 0x0020_0C90]];
        assert_eq!(judged(2, 0, &pack(opener, end, mov)), (0, 0, 0));
        assert_eq!(judged(1, 0, &pack(opener, end, mov)), (15, 0, 0));
        assert_eq!(judged(2, 0, &pack(opener, end, [0, 0x0020_0C90])), (10, 0, 0));
        assert_eq!(judged(2, 0, &pack([2, 0xA004_0000], end, mov)), (6, 0, 0));
        assert_eq!(judged(2, 0, &pack([1, 0xA000_0000], end, mov)), (6, 0, 0));
        assert_eq!(judged(2, 0, &pack(opener, [0, 0], mov)), (6, 0, 0));
        assert_eq!(judged(2, 0, &pack(opener, [0, 0], [0x8000_0000, 0])), (3, 0, 0));
    }

    #[test]
    fn branch_pack() {
        let pack = |jump, pop| [[4, 0x2400_0000], jump, pop, [0, 0x0020_0000], [0x801F_0000, 0x0000_100C]];
        let (jump, pop) = ([3, 0x0500_0001], [3, 0x0700_0001]);
        assert_eq!(judged(1, 1, &pack(jump, pop)), (0, 0, 0));
        assert_eq!(judged(1, 0, &pack(jump, pop)), (16, 0, 0));
        assert_eq!(judged(1, 1, &pack([3, 0x0500_0000], pop)), (19, 1, 0));
        assert_eq!(judged(1, 1, &pack([4, 0x0500_0001], pop)), (18, 1, 0));
        assert_eq!(judged(1, 1, &pack(jump, [3, 0x0700_0000])), (17, 3, 0));
    }

    #[test]
    fn loop_pack() {
        let pack = |back| [[2, 0x0300_0000], [back, 0x0280_0000], [0, 0x0020_0000]];
        assert_eq!(judged(1, 1, &pack(1)), (0, 0, 0));
        assert_eq!(judged(1, 1, &pack(0)), (19, 1, 0));
    }
    /// Rule 22. Behind these openers and an end lie quadwords that are an ADD each, and any two of them a texture fetch.
    fn opened(openers: &[[u32; 2]]) -> Answer {
        let mut pairs = openers.to_vec();
        pairs.push([0, 0x0020_0000]);
        pairs.resize(16, [0x8000_0010, 0]);
        judged(17, 0, &pairs)
    }

    fn alu(start: u32, slots: u32) -> [u32; 2] {
        [start, 0x2000_0000 | (slots - 1) << 18]
    }

    fn tex(start: u32, fetches: u32) -> [u32; 2] {
        [start, 0x0080_0000 | (fetches - 1) << 10]
    }

    #[test]
    fn clauses_that_touch_or_are_the_same() {
        assert_eq!(opened(&[alu(6, 2), alu(8, 1), alu(6, 2)]), (0, 0, 0));
        assert_eq!(opened(&[tex(8, 2), alu(8, 4), alu(7, 1)]), (0, 0, 0));
        assert_eq!(opened(&[alu(10, 2), alu(8, 2), tex(6, 1)]), (0, 0, 0));
    }

    #[test]
    fn clauses_at_odd_quadwords_or_half_shared() {
        assert_eq!(opened(&[tex(7, 1)]), (22, 0, 0));
        assert_eq!(opened(&[alu(6, 3), alu(8, 1)]), (22, 1, 0));
        assert_eq!(opened(&[alu(6, 3), alu(10, 1), alu(12, 2), alu(8, 1)]), (22, 3, 0));
        assert_eq!(opened(&[alu(6, 3), alu(6, 2)]), (22, 1, 0));
        assert_eq!(opened(&[alu(7, 2), tex(6, 2)]), (22, 1, 0));
        assert_eq!(opened(&[alu(9, 2), alu(8, 4)]), (22, 1, 0));
    }

    /// Behind rule 6 and before 8 to 15 of its own position, and behind all of earlier ones.
    #[test]
    fn where_rule_22_stands() {
        let vtx = |start| [start, 0x0100_0000];
        assert_eq!(opened(&[vtx(6)]), (8, 0, 0));
        assert_eq!(opened(&[vtx(7)]), (22, 0, 0));
        assert_eq!(opened(&[vtx(15)]), (6, 0, 0));
        assert_eq!(opened(&[vtx(6), tex(7, 1)]), (8, 0, 0));
        assert_eq!(opened(&[tex(7, 1), vtx(6)]), (22, 0, 0));
    }
}

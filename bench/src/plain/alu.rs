//! Rules 10 to 15 on an ALU clause, and PUSH_BEFORE's count.
//!
//! Packs mix all that a group may hold, so a branch on what an instruction is can't be foreseen. A clause is therefore first asked as a whole whether
//! anything is wrong, its instructions one after the other with all tests joined, groups ending without a branch; which rule is broken first, and
//! where, is asked only if something is.

use super::Kind;
use super::grants::Grants;
use super::group::{Group, Literals};
use super::instruction::Instruction;
use super::opcodes::{EXCLUSIVE, KILL, MOVA, REDUCTION, SETTER, UNTAKEN};

/// Rules 10 to 15 on the clause of `slots` quadwords from quadword `start`: number (0 accepted) and slot.
/// A clause that does not lie in the words answers 0.
#[allow(clippy::too_many_arguments)]
pub fn alu_clause(
    words: &[u32], start: usize, slots: usize, push_before: bool, kind: Kind, gprs: u32, temps: u32, consts: u32, mode0: u32,
    mode1: u32,
) -> (u32, usize) {
    let mut grants = Grants::new(gprs, temps, consts);
    grants.lock(mode0, mode1);
    let pairs = words.as_chunks::<2>().0;
    match start.checked_add(slots).and_then(|end| pairs.get(start..end)) {
        Some(clause) => clause_rules(clause, push_before, kind, &grants),
        None => (0, 0),
    }
}

/// The same on the clause's own pairs.
#[inline]
pub fn clause_rules(clause: &[[u32; 2]], push_before: bool, kind: Kind, grants: &Grants) -> (u32, usize) {
    if keeps_all_rules(clause, push_before, kind, grants) { (0, 0) } else { first_fault(clause, push_before, kind, grants) }
}

/// Whether nothing is wrong: never true where a rule is broken. The rules answer with a number that is not 0 where they are broken, so that what they
/// say is joined, too, and asked for once.
#[inline(never)]
pub fn keeps_all_rules(clause: &[[u32; 2]], push_before: bool, kind: Kind, grants: &Grants) -> bool {
    let (mut slot, mut broken, mut setters) = (0, 0, 0);
    let (mut group, mut literals) = (Group::NEW, Literals::NONE);
    // All ones, or 0 behind an instruction with LAST.
    let mut same_group = u32::MAX;
    while let Some(&pair) = clause.get(slot) {
        let instruction = Instruction::new(pair);
        (group, literals) = (group.masked(same_group), literals.masked(same_group));
        // All else waits for where the next one stands, so this comes first.
        literals = literals.with(instruction);
        let last = instruction.last();
        same_group = last.wrapping_sub(1);
        let next = slot + 1 + (literals.quadwords() & (last as usize).wrapping_neg());
        broken |= group.excludes(instruction);
        group = group.with(instruction);
        broken |= rule_11(instruction) | rules_12_and_15(instruction, grants) | rule_13(instruction, group);
        setters += instruction.class() / SETTER;
        if group.is_special_at(last) {
            // Rare enough for a branch.
            broken |= u32::from(special_group(clause, slot, next, group, kind));
        }
        slot = next;
    }
    // Rule 10: LAST stands before the end, and no literals run over it. Six in a group break rule 13.
    let fills = same_group == 0 && slot == clause.len();
    broken == 0 && fills && (!push_before || setters == 1)
}

/// The rest of rule 14 on a group with a kill, MOVA or reduction whose last instruction is in `slot`. It keeps rule 13, or what is said here is not
/// asked for.
#[inline(never)]
fn special_group(clause: &[[u32; 2]], slot: usize, next: usize, group: Group, kind: Kind) -> bool {
    let pairs = &clause[(slot + 1).saturating_sub(group.count())..=slot];
    special_rule_14(pairs, group, kind, next == clause.len())
}

/// Number and slot of the first fault, group by group; 0 if there is none.
#[cold]
fn first_fault(clause: &[[u32; 2]], push_before: bool, kind: Kind, grants: &Grants) -> (u32, usize) {
    let (mut first, mut setters) = (0, 0);
    while first < clause.len() {
        let Some((group, next)) = rule_10(clause, first) else { return (10, first) };
        if let Some((number, slot)) = group_fault(group, kind, next == clause.len(), grants) {
            return (number, first + slot);
        }
        setters += instructions(group).filter(|instruction| instruction.is(SETTER)).count();
        first = next;
    }
    if push_before && setters != 1 { (14, 0) } else { (0, 0) }
}

fn instructions(group: &[[u32; 2]]) -> impl Iterator<Item = Instruction> + Clone {
    group.iter().map(|&pair| Instruction::new(pair))
}

/// The lowest number that a group breaks, and the lowest slot of it that does.
fn group_fault(pairs: &[[u32; 2]], kind: Kind, ends_clause: bool, grants: &Grants) -> Option<(u32, usize)> {
    let lowest = |number, broken: &mut dyn FnMut(Instruction) -> u32| {
        instructions(pairs).position(|instruction| broken(instruction) != 0).map(|slot| (number, slot))
    };
    let mut group = Group::NEW;
    lowest(11, &mut rule_11)
        .or_else(|| lowest(12, &mut |instruction| rule_12(instruction, grants)))
        .or_else(|| {
            lowest(13, &mut |instruction| {
                group = group.with(instruction);
                rule_13(instruction, group)
            })
        })
        .or_else(|| rule_14(pairs, group, kind, ends_clause).then_some((14, 0)))
        .or_else(|| lowest(15, &mut |instruction| rule_15(instruction, grants)))
}

/// The pairs of the group from slot `first` on and where the next one begins, if its shape is right.
fn rule_10(clause: &[[u32; 2]], first: usize) -> Option<(&[[u32; 2]], usize)> {
    let last = instructions(&clause[first..]).take(5).position(|instruction| instruction.last() == 1)?;
    let group = &clause[first..=first + last];
    let next = first + group.len() + instructions(group).fold(Literals::NONE, Literals::with).quadwords();
    (next <= clause.len()).then_some((group, next))
}

/// The number is not taken.
#[inline]
fn rule_11(instruction: Instruction) -> u32 {
    instruction.class() & UNTAKEN
}

/// Field values that are refused whatever the card grants.
#[inline]
fn rule_12(instruction: Instruction, grants: &Grants) -> u32 {
    instruction.refused_swizzle() | u32::from(instruction.refused_modes()) | grants.refused(instruction)
}

/// Both at once: what they say of a source is looked up together.
#[inline]
fn rules_12_and_15(instruction: Instruction, grants: &Grants) -> u32 {
    let looked_up = instruction.refused_modes() | grants.sources(instruction);
    u32::from(looked_up) | instruction.refused_swizzle() | grants.ungranted_destination(instruction)
}

/// The unit of the latest instruction of a group.
#[inline]
fn rule_13(latest: Instruction, group: Group) -> u32 {
    group.misplaces(latest)
}

/// On a group that keeps rule 13.
fn rule_14(pairs: &[[u32; 2]], group: Group, kind: Kind, ends_clause: bool) -> bool {
    let exclusive = instructions(pairs).filter(|instruction| instruction.is(EXCLUSIVE)).count();
    exclusive > 1 || special_rule_14(pairs, group, kind, ends_clause)
}

/// Its part on kills, MOVAs and reductions.
#[inline]
fn special_rule_14(pairs: &[[u32; 2]], group: Group, kind: Kind, ends_clause: bool) -> bool {
    (group.has(KILL) && (kind != Kind::Pixel || !ends_clause))
        || (group.has(MOVA) && instructions(pairs).any(Instruction::has_relative))
        || (group.has(REDUCTION) && !is_reduction(pairs, group))
}

/// All four vector units are filled alike. Where rule 13 is kept, what stands in X, Y, Z and W are the first four.
#[inline]
fn is_reduction(pairs: &[[u32; 2]], group: Group) -> bool {
    let alike = |four: &[[u32; 2]; 4]| {
        let [first, second, third, fourth] = four.map(|pair| Instruction::new(pair).reduction_fields());
        (first ^ second | first ^ third | first ^ fourth) == 0
    };
    group.has_all_vector_units() && pairs.first_chunk().is_some_and(alike)
}

/// A register or constant is not granted.
#[inline]
fn rule_15(instruction: Instruction, grants: &Grants) -> u32 {
    grants.ungranted(instruction)
}

//! What an accepted pack holds, counted: so that a pack which is timed as a mixed one can't lose its mixture unseen, and that a cost can be given to an
//! ALU instruction.

use crate::plain::control::{Control, Extent, Op};
use crate::plain::instruction::Instruction;
use crate::plain::opcodes::{KILL, MOVA, OP3, REDUCTION, SETTER, TRANS, VECTOR};

/// Kinds of a source, by document 01's ranges.
#[derive(Clone, Copy, PartialEq, Eq, Debug)]
pub enum Operand {
    Register,
    Set0,
    Set1,
    Inline,
    Literal,
    PreviousVector,
    PreviousScalar,
    Constant,
}

pub const OPERANDS: usize = 8;
pub const CONTROLS: usize = 16;

#[derive(Debug)]
pub struct Mixture {
    pub pairs: usize,
    /// By `Op`.
    pub controls: [usize; CONTROLS],
    /// ALU clauses by their slots, and fetch clauses by their fetches.
    pub alu_clauses: [usize; 129],
    pub fetch_clauses: [usize; 17],
    pub instructions: usize,
    pub op2_numbers: [usize; 256],
    pub op3_numbers: [usize; 32],
    /// By `Operand`.
    pub operands: [usize; OPERANDS],
    pub relative_sources: usize,
    pub relative_destinations: usize,
    pub unwritten: usize,
    /// Groups by their instructions, without Trans and with it, and by their literals.
    pub without_trans: [usize; 6],
    pub with_trans: [usize; 6],
    pub literals: [usize; 3],
    pub setters: usize,
    pub kills: usize,
    pub movas: usize,
    pub reductions: usize,
    /// Instructions that go to Trans since their channel is taken.
    pub moved: usize,
}

impl Mixture {
    /// Of a pack that was accepted.
    pub fn of(words: &[u32]) -> Self {
        let mut mixture = Mixture {
            pairs: 0,
            controls: [0; CONTROLS],
            alu_clauses: [0; 129],
            fetch_clauses: [0; 17],
            instructions: 0,
            op2_numbers: [0; 256],
            op3_numbers: [0; 32],
            operands: [0; OPERANDS],
            relative_sources: 0,
            relative_destinations: 0,
            unwritten: 0,
            without_trans: [0; 6],
            with_trans: [0; 6],
            literals: [0; 3],
            setters: 0,
            kills: 0,
            movas: 0,
            reductions: 0,
            moved: 0,
        };
        let pairs = words.as_chunks::<2>().0;
        for &pair in pairs {
            let control = Control::new(pair);
            let op = control.op().expect("a taken number");
            mixture.pairs += 1;
            mixture.controls[op as usize] += 1;
            match op {
                Op::Tex | Op::Vtx | Op::VtxTc => mixture.fetch_clauses[control.fetch_clause().length / 2] += 1,
                Op::Alu | Op::PushBefore | Op::PopAfter | Op::Pop2After => {
                    let Extent { start, length } = control.alu_clause();
                    mixture.alu_clauses[length] += 1;
                    mixture.clause(&pairs[start..start + length]);
                }
                _ => {}
            }
            if control.is_end() {
                break;
            }
        }
        mixture
    }

    pub fn clauses(&self) -> usize {
        self.alu_clauses.iter().chain(&self.fetch_clauses).sum()
    }

    pub fn groups(&self) -> usize {
        self.literals.iter().sum()
    }

    fn clause(&mut self, mut rest: &[[u32; 2]]) {
        while !rest.is_empty() {
            let count = 1 + rest.iter().position(|&[low, _]| low >> 31 != 0).expect("LAST");
            let literals = self.group(&rest[..count]);
            rest = &rest[count + literals..];
        }
    }

    fn group(&mut self, group: &[[u32; 2]]) -> usize {
        let (mut literals, mut channels, mut trans) = (0, 0, false);
        for &[low, high] in group {
            let instruction = Instruction::new([low, high]);
            self.instructions += 1;
            if instruction.is(OP3) {
                self.op3_numbers[(high >> 13 & 31) as usize] += 1;
            } else {
                self.op2_numbers[(high >> 7 & 255) as usize] += 1;
            }
            let third = if instruction.is(OP3) { Some(high) } else { None };
            for field in [low, low >> 13].into_iter().chain(third) {
                let operand = operand(field & 0x1FF);
                self.operands[operand as usize] += 1;
                self.relative_sources += (field >> 9 & 1) as usize;
                if operand == Operand::Literal {
                    literals = literals.max(1 + (field >> 11 & 1) as usize);
                }
            }
            self.relative_destinations += (high >> 28 & 1) as usize;
            self.unwritten += usize::from(!instruction.is(OP3) && high >> 4 & 1 == 0);
            let own = 1 << (high >> 29 & 3);
            let moves = !instruction.is(VECTOR | TRANS) && channels & own != 0;
            self.moved += usize::from(moves);
            trans |= moves || instruction.is(TRANS);
            channels |= own;
            for (class, count) in
                [(SETTER, &mut self.setters), (KILL, &mut self.kills), (MOVA, &mut self.movas), (REDUCTION, &mut self.reductions)]
            {
                *count += usize::from(instruction.is(class));
            }
        }
        let sizes = if trans { &mut self.with_trans } else { &mut self.without_trans };
        sizes[group.len()] += 1;
        self.literals[literals] += 1;
        literals
    }
}

fn operand(select: u32) -> Operand {
    match select {
        0..=127 => Operand::Register,
        128..=159 => Operand::Set0,
        160..=191 => Operand::Set1,
        253 => Operand::Literal,
        254 => Operand::PreviousVector,
        255 => Operand::PreviousScalar,
        192..=252 => Operand::Inline,
        _ => Operand::Constant,
    }
}

//! Request 07: programs that put addresses on the bus in every way, and walks that may leave several there.

use super::{accepted_program, image, image_sets, layout, literal, near_place, wide_set};
use crate::paper::walk::MOST_VALUES;
use crate::paper::{self, base, Line, Opcode, Operand, Operand::*, OPCODES, STATE};
use crate::random::Random;

// ---------------------------------------------------------------- runs

/// Registers that such programs have for bases, so that one reaches cell 0 now and then.
const BASES: std::ops::RangeInclusive<usize> = 4..=7;

/// A state whose bases reach the ends of each range.
pub fn state(rng: &mut Random) -> Vec<u8> {
    let mut state = super::any_state(rng);
    for value in &mut state[BASES] {
        let any = rng.byte();
        *value = rng.pick(&[0, 0, 1, 127, 128, 129, 255, any]);
    }
    state
}

/// A cell: 0, the ends of each range, a number with a single bit, or any.
fn cell(rng: &mut Random) -> Operand {
    let any = rng.below(512) as u16;
    let bit = 1 << rng.below(9);
    Cell(rng.pick(&[0, 0, 1, 127, 128, 255, 256, 511, bit, any]))
}

fn behind_base(rng: &mut Random) -> Operand {
    let base = rng.within(*BASES.start(), *BASES.end()) as u8;
    let any = rng.below(128) as u8;
    let offset = rng.pick(&[0, 0, 1, 127, any]);
    match rng.below(4) {
        0 | 1 => Public { base, offset },
        2 => Sensitive { base, offset },
        _ => Table { base, offset: offset ^ (rng.bit() << 7) },
    }
}

fn place(rng: &mut Random) -> Operand {
    match rng.below(8) {
        0 | 1 => Register(rng.within(4, 9) as u8),
        2..=4 => cell(rng),
        _ => behind_base(rng),
    }
}

fn argument(rng: &mut Random) -> Operand {
    match rng.below(6) {
        0 => literal(rng),
        _ => place(rng),
    }
}

/// A program over cells, which mostly goes on to its end.
pub fn program(rng: &mut Random) -> Vec<Line> {
    let count = rng.within(1, 12);
    let mut lines = vec![];
    for at in 0..count {
        let (marked, opcode) = (rng.one_in(2), OPCODES[rng.below(OPCODES.len())].0);
        let mut line = super::line(rng, marked, opcode, place, argument, count);
        if !rng.one_in(8) {
            line.target = line.target.map(|_| rng.within(at + 1, count) as u16);
        }
        meet(rng, &mut line);
        lines.push(line);
    }
    lines
}

/// Lets a line now and then write what it reads, or the base that it reads through.
fn meet(rng: &mut Random, line: &mut Line) {
    let Some(destination) = line.destination else { return };
    match rng.below(6) {
        0 => line.first = Some(destination),
        1 => line.second = line.second.map(|_| destination),
        2 => {
            if let Some(base) = line.first.and_then(base) {
                line.destination = Some(Register(base));
            }
        }
        _ => (),
    }
}

// ---------------------------------------------------------------- walks

/// A program to judge with the bus, and the values that each place may have.
pub fn walk(rng: &mut Random) -> (Vec<Line>, Vec<Vec<u8>>) {
    match rng.below(8) {
        0 => without_new_lines(rng),
        _ => lookups(rng),
    }
}

/// An expansion, some of its reads of a table's first cell clearing the register by r0, as before request 07.
fn without_new_lines(rng: &mut Random) -> (Vec<Line>, Vec<Vec<u8>>) {
    let layout = layout(rng);
    let mut lines = paper::expansion(layout, &accepted_program(rng));
    let registers = rng.pick(&[[Register(2); 2], [Register(3); 2], [Register(2), Register(3)]]);
    for line in &mut lines {
        let taken_back = registers.iter().any(|&register| line.destination == Some(register));
        if taken_back && matches!(line.first, Some(Table { base: 0, .. })) && !rng.one_in(4) {
            line.first = Some(Register(0));
        }
    }
    let mut image = image(rng, layout);
    image[1..=3].fill(0);
    (lines, image_sets(rng, layout, &image))
}

/// Values of a base: mostly with equally many ones, so that the cells reached often are as far from some others.
fn base_values(rng: &mut Random) -> Vec<u8> {
    const ALIKE: [&[u8]; 7] =
        [&[1, 2], &[1, 2, 4, 8], &[3, 5, 6], &[3, 12], &[5, 6, 9, 10], &[0, 128], &[7, 11, 13, 14]];
    match rng.below(10) {
        0 => wide_set(rng),
        1 => vec![rng.byte(), rng.byte()],
        2..=5 => equal_ones(rng),
        _ => rng.pick(&ALIKE).to_vec(),
    }
}

/// Up to 16 values, often just as many, with equally many ones.
fn equal_ones(rng: &mut Random) -> Vec<u8> {
    let ones = rng.within(1, 4) as u32;
    let count = rng.pick(&[3, 9, MOST_VALUES, MOST_VALUES]);
    let mut values: Vec<u8> = (0..=255u8).filter(|value| value.count_ones() == ones).collect();
    while values.len() > count {
        values.swap_remove(rng.below(values.len()));
    }
    values
}

/// Few lines that read through r1 and r2, which have several values, and name cells between.
fn lookups(rng: &mut Random) -> (Vec<Line>, Vec<Vec<u8>>) {
    let cells = Cells { page: rng.pick(&[0, 128, 256, 256]), offset: rng.pick(&[0, 0, 16, 32, 64]) };
    let count = rng.within(2, 8) as u16;
    let lines = (1..=count).map(|next| lookup_line(rng, cells, next)).collect();
    let mut sets = vec![vec![0]; STATE];
    let contents = rng.pick(&[&[0][..], &[0], &[0], &[1], &[1, 2]]);
    sets[32 + cells.page as usize..].iter_mut().for_each(|set| *set = contents.to_vec());
    sets[1] = base_values(rng);
    sets[2] = base_values(rng);
    (lines, sets)
}

/// Where the cells that are looked up begin.
#[derive(Clone, Copy)]
struct Cells {
    page: u16,
    offset: u8,
}

impl Cells {
    /// Those that a base reaches.
    fn through(self, base: u8) -> Operand {
        let offset = self.offset;
        match self.page {
            0 => Public { base, offset },
            128 => Sensitive { base, offset },
            _ => Table { base, offset },
        }
    }

    /// One that is as far from all that are looked up, or from some of them; 0, or any.
    fn named(self, rng: &mut Random) -> Operand {
        let any = rng.below(512) as u16;
        let near = self.page + self.offset as u16 + rng.pick(&[0, 0, 15, 15, 1, 2, 5]);
        Cell(rng.pick(&[near, near, near, near, 0, any]))
    }
}

fn mov(destination: Operand, first: Operand) -> Line {
    Line {
        opcode: Opcode::Mov,
        destination: Some(destination),
        first: Some(first),
        target: None,
        ..super::jump(0)
    }
}

/// A lookup, or what may come after one: the next line is known.
fn lookup_line(rng: &mut Random, cells: Cells, next: u16) -> Line {
    let looked_up = cells.through(rng.pick(&[1, 1, 2]));
    let (cell, other) = (cells.named(rng), cells.named(rng));
    let register = Register(rng.within(8, 15) as u8);
    let jump = super::jump(next + rng.below(2) as u16);
    let and = |line: Line, second: Operand| Line { opcode: Opcode::And, second: Some(second), ..line };
    match rng.below(20) {
        0..=5 => mov(register, looked_up),
        6 => and(mov(register, looked_up), cells.through(rng.pick(&[1, 2]))),
        7 => and(mov(cell, cell), looked_up),
        8 => mov(register, cells.through(0)),
        9 | 10 => mov(register, cell),
        11 => mov(cell, Register(0)),
        12 => mov(cell, looked_up),
        13..=15 => Line {
            opcode: rng.pick(&[Opcode::Beq, Opcode::Bne]),
            first: Some(cell),
            second: Some(rng.pick(&[Literal(0), other])),
            ..jump
        },
        16 | 17 => jump,
        18 => Line { opcode: Opcode::Nop, target: None, ..jump },
        _ => mov(register, near_place(rng)),
    }
}

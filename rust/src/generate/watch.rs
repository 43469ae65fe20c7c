//! Request 09: programs that write few places in every way, and watches on these, right or not.

use super::{edgy, jump, literal};
use crate::answer::Watch;
use crate::paper::watch::MOST_WATCHES;
use crate::paper::{self, base, Line, Opcode, Operand, Operand::*, Point, OPCODES, STATE};
use crate::random::Random;

// ---------------------------------------------------------------- programs

/// One of few places: a base, another register, a cell at an end of its range, or one behind a base.
fn place(rng: &mut Random) -> Operand {
    let base = rng.within(4, 7) as u8;
    match rng.below(9) {
        0..=2 => Register(base),
        3 => Register(rng.pick(&[0, 1, 16, 31])),
        4 => Cell(rng.pick(&[0, 127, 128, 255, 256, 511])),
        _ => behind(rng, base),
    }
}

fn behind(rng: &mut Random, base: u8) -> Operand {
    let any = rng.below(128) as u8;
    let offset = rng.pick(&[0, 0, 1, 127, any]);
    match rng.below(3) {
        0 => Public { base, offset },
        1 => Sensitive { base, offset },
        _ => Table { base, offset: offset ^ (rng.bit() << 7) },
    }
}

fn argument(rng: &mut Random) -> Operand {
    match rng.below(4) {
        0 => literal(rng),
        _ => place(rng),
    }
}

/// An unmarked line with two arguments.
fn unmarked(opcode: Opcode, destination: Operand, first: Operand, second: Operand) -> Line {
    Line {
        opcode,
        destination: Some(destination),
        first: Some(first),
        second: Some(second),
        target: None,
        ..jump(0)
    }
}

/// A line that writes what stands there already.
fn same_value(rng: &mut Random) -> Line {
    let place = place(rng);
    match rng.below(3) {
        0 => Line { second: None, ..unmarked(Opcode::Mov, place, place, place) },
        1 => unmarked(Opcode::Orr, place, place, Literal(0)),
        _ => unmarked(Opcode::And, place, place, place),
    }
}

/// A line that writes the register through which it reads.
fn own_base(rng: &mut Random) -> Line {
    let base = rng.within(4, 7) as u8;
    let (register, read) = (Register(base), behind(rng, base));
    match rng.below(3) {
        0 => Line { second: None, ..unmarked(Opcode::Mov, register, read, read) },
        1 => unmarked(Opcode::Add, register, read, register),
        _ => unmarked(Opcode::Xor, register, register, read),
    }
}

/// A line over few places, in a program of `count` lines.
fn line(rng: &mut Random, count: usize) -> Line {
    match rng.below(8) {
        0 => same_value(rng),
        1 => own_base(rng),
        _ => {
            let (marked, opcode) = (rng.one_in(2), OPCODES[rng.below(OPCODES.len())].0);
            super::line(rng, marked, opcode, place, argument, count)
        }
    }
}

/// A program over few places, every other one a loop.
pub fn program(rng: &mut Random) -> Vec<Line> {
    let count = rng.within(1, 10);
    let mut lines: Vec<Line> = (0..count).map(|_| line(rng, count)).collect();
    if rng.one_in(2) {
        lines.push(jump(rng.below(count) as u16));
    }
    lines
}

/// A loop of so many lines that write, mostly one and the same place, and a jump.
pub fn writing_loop(rng: &mut Random, count: usize) -> Vec<Line> {
    let often = place(rng);
    let others = rng.pick(&[0, 0, 0, 1, 3]);
    let mut lines = vec![];
    for at in 0..count {
        let destination = if at < others { place(rng) } else { often };
        lines.push(unmarked(Opcode::Add, destination, destination, Literal(1)));
    }
    lines.push(jump(0));
    lines
}

// ---------------------------------------------------------------- what runs touch

/// A step of a run: its line, the place that it writes with the value before and after, and the places that it reads, as
/// arguments and as bases.
pub struct Step {
    pub line: Line,
    pub written: Option<usize>,
    pub before: u8,
    pub after: u8,
    pub arguments: Vec<usize>,
    pub bases: Vec<usize>,
}

/// So many steps of a run, by the paper; leaves its state.
pub fn steps(lines: &[Line], start: usize, count: usize, state: &mut [u8]) -> Vec<Step> {
    let mut point = Point::start(start as u16);
    let mut steps = vec![];
    for _ in 0..count {
        let line = lines[point.counter as usize];
        let written = paper::written_place(&line, state);
        let arguments = [line.first, line.second].into_iter().flatten();
        let operands = [line.first, line.second, line.destination].into_iter().flatten();
        let mut step = Step {
            line,
            written,
            before: written.map_or(0, |place| state[place]),
            after: 0,
            arguments: arguments.filter_map(|argument| paper::place(argument, state)).collect(),
            bases: operands.filter_map(base).map(usize::from).collect(),
        };
        point = paper::step(&line, point, state).0;
        step.after = written.map_or(0, |place| state[place]);
        steps.push(step);
    }
    steps
}

// ---------------------------------------------------------------- watches

/// A watch on this place, with anything in its other fields.
fn on(rng: &mut Random, place: usize) -> Watch {
    Watch { place: place as u16, value: rng.byte(), writes: rng.number(), step: rng.number() }
}

/// A watch on whatever it is.
pub fn any(rng: &mut Random) -> Watch {
    let place = rng.number() as usize;
    on(rng, place)
}

/// The same watches with anything else in their other fields.
pub fn anew(rng: &mut Random, watches: &[Watch]) -> Vec<Watch> {
    watches.iter().map(|watch| on(rng, watch.place as usize)).collect()
}

/// Mostly as many as there may be, now and then none.
fn count(rng: &mut Random) -> usize {
    let any = rng.within(0, MOST_WATCHES);
    rng.pick(&[0, 1, any, any, MOST_WATCHES, MOST_WATCHES])
}

/// Any place, often at the end of a kind of place.
fn any_place(rng: &mut Random) -> usize {
    let any = rng.below(STATE);
    rng.pick(&[any, any, 0, 3, 4, 15, 16, 31, 32, 159, 160, 287, 288, 542, 543, 543])
}

/// Watches on places that these steps write or read, on others, and on one place several times.
pub fn list(rng: &mut Random, steps: &[Step]) -> Vec<Watch> {
    let written: Vec<usize> = steps.iter().filter_map(|step| step.written).collect();
    let read: Vec<usize> =
        steps.iter().flat_map(|step| step.arguments.iter().chain(&step.bases)).copied().collect();
    let mut watches: Vec<Watch> = vec![];
    for _ in 0..count(rng) {
        let place = match rng.below(9) {
            0 if !watches.is_empty() => rng.pick(&watches).place as usize,
            1 | 2 if !read.is_empty() => rng.pick(&read),
            3 if !written.is_empty() => written[written.len() - 1],
            4..=6 if !written.is_empty() => rng.pick(&written),
            _ => any_place(rng),
        };
        watches.push(on(rng, place));
    }
    watches
}

/// What is wrong with a list of watches.
#[derive(Clone, Copy, Debug, PartialEq, Eq)]
pub enum Wrong {
    Nothing,
    Count,
    Place,
    Both,
}
use Wrong::*;

impl Wrong {
    pub const ALL: [Wrong; 4] = [Nothing, Count, Place, Both];
}

/// A list with this wrong, on any places besides.
pub fn wrong_list(rng: &mut Random, wrong: Wrong) -> Vec<Watch> {
    let count = match wrong {
        Nothing => count(rng),
        Place => edgy(rng, 1, MOST_WATCHES),
        Count | Both => too_many(rng),
    };
    let mut watches = vec![];
    for _ in 0..count {
        let place = any_place(rng);
        watches.push(on(rng, place));
    }
    if matches!(wrong, Place | Both) {
        for _ in 0..rng.pick(&[1, 1, 2]) {
            watches[edgy(rng, 0, count - 1)].place = no_place(rng);
        }
    }
    watches
}

/// More watches than there may be: just more, and counts that are right in their lowest bits.
fn too_many(rng: &mut Random) -> usize {
    let few = rng.within(0, MOST_WATCHES);
    match rng.below(80) {
        0..=3 => 65_536 + few,
        4..=11 => 256 + few,
        12..=19 => rng.within(11, 255),
        20..=39 => MOST_WATCHES + 2,
        _ => MOST_WATCHES + 1,
    }
}

/// A number that is no place: just above the last, right in its lowest bits, or any.
fn no_place(rng: &mut Random) -> u16 {
    let any = rng.within(STATE, 65_535);
    let right = any_place(rng);
    let high = rng.pick(&[1_024, 2_048, 32_768]) + right;
    rng.pick(&[544, 544, 544, 545, 575, 576, 1_023, 65_534, 65_535, high, any]) as u16
}

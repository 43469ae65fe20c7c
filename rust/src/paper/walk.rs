//! Request 01 of document 02, the walk over sets, from the paper alone like the
//! rest: every choice of values is made, one after the other, and the machine's
//! own step is done in each. By request 07 the bus is one more place.

use super::{base, place, refused, step, value, Line, Opcode, Operand, Point, Row, STATE};
use crate::answer::Answer;
use std::collections::BTreeSet;

/// Most values of a place, and the bytes of a lent set: their count, then the values.
pub const MOST_VALUES: usize = 16;
pub const SET: usize = 1 + MOST_VALUES;

/// The values that a place may have; one listed twice is one value.
pub type Values = BTreeSet<u8>;

/// What a walk works on: the values of each place, and the addresses that the bus may hold.
#[derive(Clone)]
pub struct Sets {
    pub places: Vec<Values>,
    pub bus: BTreeSet<u16>,
}

/// What ends a walk before the run's own end: a refusal's number, or a leak.
#[derive(Clone, Copy)]
pub enum Stop {
    Refused(u16),
    Leak,
}

/// Lent bytes as one set of values for each place, and 0 on the bus; else the refusal of the start.
pub fn start(bytes: &[u8]) -> Result<Sets, Answer> {
    if bytes.len() != SET * STATE {
        return Err(refused(18, 0));
    }
    let values = |set: &[u8]| match set[0] as usize {
        count @ 1..=MOST_VALUES => Ok(set[1..=count].iter().copied().collect()),
        _ => Err(refused(22, 0)),
    };
    let places: Result<Vec<Values>, Answer> = bytes.chunks_exact(SET).map(values).collect();
    Ok(Sets { places: places?, bus: BTreeSet::from([0]) })
}

/// Each of the places takes each of its values, whatever the others take.
fn draw(places: &[usize], sets: &[Values], state: &mut [u8; STATE], visit: &mut dyn FnMut(&[u8; STATE])) {
    let Some((&first, rest)) = places.split_first() else {
        return visit(state);
    };
    for &value in &sets[first] {
        state[first] = value;
        draw(rest, sets, state, visit);
    }
}

/// The places of base registers among these operands, each once.
fn bases(operands: &[Operand]) -> Vec<usize> {
    let once: BTreeSet<usize> =
        operands.iter().filter_map(|&operand| base(operand)).map(usize::from).collect();
    once.into_iter().collect()
}

/// Every choice of a step, the bus apart: a state for each, right in all places that the step looks at.
/// The bases are drawn first, as they decide which cells the others are. A place that is
/// two of these is drawn once.
pub fn choices(line: &Line, sets: &[Values], visit: &mut dyn FnMut(&[u8; STATE])) {
    let operands: Vec<Operand> = [line.first, line.second, line.destination].into_iter().flatten().collect();
    let bases = bases(&operands);
    draw(&bases, sets, &mut [0; STATE], &mut |state| {
        let once: BTreeSet<usize> = operands.iter().filter_map(|&operand| place(operand, state)).collect();
        let others: Vec<usize> = once.into_iter().filter(|place| !bases.contains(place)).collect();
        draw(&others, sets, &mut state.clone(), visit);
    });
}

/// Every place that an operand may be.
pub fn reach(operand: Operand, sets: &[Values]) -> BTreeSet<usize> {
    let mut places = BTreeSet::new();
    draw(&bases(&[operand]), sets, &mut [0; STATE], &mut |state| places.extend(place(operand, state)));
    places
}

/// The values that an argument of a line may have: by request 03, not always its place's.
fn values(line: &Line, argument: Operand, sets: &[Values]) -> Values {
    let mut values = Values::new();
    let alone = Line { destination: None, first: Some(argument), second: None, ..*line };
    choices(&alone, sets, &mut |state| {
        values.insert(value(line.marked, alone.first, state));
    });
    values
}

/// Condition 21: a branch argument, its base or a destination's base has several values.
pub fn undecided(line: &Line, sets: &[Values]) -> bool {
    let base_is = |operand: Operand| base(operand).is_some_and(|base| sets[base as usize].len() > 1);
    let argument_is = |operand: Operand| values(line, operand, sets).len() > 1;
    let arguments = match line.opcode {
        Opcode::Beq | Opcode::Bne => [line.first, line.second],
        _ => [None, None],
    };
    line.destination.is_some_and(base_is)
        || arguments.into_iter().flatten().any(|operand| base_is(operand) || argument_is(operand))
}

/// One step on sets: gives the next counter, and the written place and the bus get all results.
pub fn step_on_sets(line: &Line, counter: u16, sets: &mut Sets) -> Result<u16, Stop> {
    step_on_sets_by(line, counter, sets, step)
}

/// The same, with the machine's step that is done in each choice.
pub fn step_on_sets_by(
    line: &Line,
    counter: u16,
    sets: &mut Sets,
    one_step: impl Fn(&Line, Point, &mut [u8]) -> (Point, Row),
) -> Result<u16, Stop> {
    if undecided(line, &sets.places) {
        return Err(Stop::Refused(21));
    }
    // One place at most, as its base has one value.
    let written = line.destination.map_or(BTreeSet::new(), |operand| reach(operand, &sets.places));
    let (mut results, mut buses) = (Values::new(), BTreeSet::new());
    // What all choices must have in common; after 21, the next counter always is.
    let mut outcomes = BTreeSet::new();
    choices(line, &sets.places, &mut |state| {
        // Nothing that follows could change the answer.
        if results.len() > MOST_VALUES {
            return;
        }
        for &bus in &sets.bus {
            let mut after = *state;
            let (next, row) = one_step(line, Point { counter, bus }, &mut after);
            outcomes.insert((next.counter, row));
            buses.insert(next.bus);
            results.extend(written.iter().map(|&place| after[place]));
        }
    });
    // Of written places alone: the last address of a step has one base, so the bus never has more values.
    if results.len() > MOST_VALUES {
        return Err(Stop::Refused(22));
    }
    let mut outcomes = outcomes.into_iter();
    let (Some((next, _)), None) = (outcomes.next(), outcomes.next()) else {
        return Err(Stop::Leak);
    };
    for place in written {
        sets.places[place] = results.clone();
    }
    sets.bus = buses;
    Ok(next)
}

/// The walk from line 0, with the step that it is made of.
pub fn walk(
    lines: &[Line],
    mut sets: Sets,
    budget: u16,
    mut one_step: impl FnMut(&Line, u16, &mut Sets) -> Result<u16, Stop>,
) -> Answer {
    let mut counter = 0;
    let mut steps = 0;
    while steps < budget && (counter as usize) < lines.len() {
        match one_step(&lines[counter as usize], counter, &mut sets) {
            Ok(next) => counter = next,
            Err(Stop::Refused(number)) => return refused(number, counter as usize),
            Err(Stop::Leak) => return Answer::Leak { line: counter, steps },
        }
        steps += 1;
    }
    if (counter as usize) < lines.len() {
        Answer::Spent { counter, steps }
    } else {
        Answer::Balanced { counter, steps }
    }
}

/// The verdict on a program, given 17 bytes for each place.
pub(super) fn judge(lines: &[Line], sets: &[u8], budget: u16) -> Answer {
    match start(sets) {
        Ok(sets) => walk(lines, sets, budget, step_on_sets),
        Err(answer) => answer,
    }
}

//! Request 07: a wrong bus, in runs and in walks, wrong rows, wrong table macros, and 20 by another count.

use super::*;
use dualrail::paper::{address, base};
use std::collections::BTreeSet;
use std::sync::atomic::{AtomicU16, Ordering};

/// All of them, with their names.
pub fn variants() -> Vec<(String, Variant)> {
    let runs = RUNS.into_iter().chain(ROOMS).map(|(fault, run)| Variant { fault, run, ..RIGHT });
    let walks = WALKS.into_iter().map(|(fault, judge)| Variant { fault, judge, ..RIGHT });
    let parts = PARTS.into_iter().map(|(fault, part)| Variant { fault, part: Some(part), ..RIGHT });
    let whole = runs.chain(walks).chain(parts).chain(OTHERS);
    whole.map(|variant| (format!("the bus: {}", variant.fault), variant)).chain(steps()).collect()
}

pub type Run = fn(&[u16], u16, u16, &mut [u8], &mut [u16]) -> Answer;
type Judge = fn(&[u16], &[u8], u16) -> Answer;

// ---------------------------------------------------------------- steps

/// The addresses of a step's first argument, second argument and destination.
type Addresses = [Option<u16>; 3];
/// The distances that a wrong bus gives, and what is on it afterwards, by what was on it before.
type Rule = fn(Addresses, u16) -> ([u16; 3], u16);
/// What a wrong machine takes for an operand's address, by the line and the state.
type Seen = fn(&Line, Option<Operand>, &[u8]) -> Option<u16>;
/// What happens to row and bus after a right step, by the line and the point before it.
type After = fn(&Line, Point, &mut Point, &mut Row);

/// A step with another bus.
#[derive(Clone, Copy)]
pub enum Fault {
    Rule(Rule),
    Seen(Seen),
    After(After),
}

/// The operands in the order of the bus.
fn operands(line: &Line) -> [Option<Operand>; 3] {
    [line.first, line.second, line.destination]
}

/// The count of bits that differ.
fn distance(one: u16, other: u16) -> u16 {
    (one ^ other).count_ones() as u16
}

/// The addresses one after the other, each beside the one before it: as is right.
fn in_order(addresses: Addresses, bus: u16) -> ([u16; 3], u16) {
    in_this_order(addresses, bus, [0, 1, 2])
}

/// The same in another order.
fn in_this_order(addresses: Addresses, mut bus: u16, order: [usize; 3]) -> ([u16; 3], u16) {
    let mut distances = [0; 3];
    for field in order {
        if let Some(address) = addresses[field] {
            distances[field] = distance(bus, address);
            bus = address;
        }
    }
    (distances, bus)
}

/// Each address beside the one before it by another measure.
fn measured(addresses: Addresses, mut bus: u16, measure: fn(u16, u16) -> u16) -> ([u16; 3], u16) {
    let distances = addresses.map(|address| match address {
        Some(address) => measure(std::mem::replace(&mut bus, address), address),
        None => 0,
    });
    (distances, bus)
}

/// The addresses in order, but this one leaves the bus as it is.
fn unheld(addresses: Addresses, bus: u16, field: usize) -> ([u16; 3], u16) {
    let mut held = addresses;
    held[field] = None;
    let (mut distances, after) = in_order(held, bus);
    distances[field] = in_order(addresses, bus).0[field];
    (distances, after)
}

/// The right step with the fault.
pub fn faulty_step(fault: Fault, line: &Line, point: Point, state: &mut [u8]) -> (Point, Row) {
    let before = state.to_vec();
    let (mut next, mut row) = step(line, point, state);
    match fault {
        Fault::Rule(rule) => {
            let addresses = operands(line).map(|operand| address(operand, &before));
            put(rule(addresses, point.bus), &mut next, &mut row);
        }
        Fault::Seen(seen) => {
            let addresses = operands(line).map(|operand| seen(line, operand, &before));
            put(in_order(addresses, point.bus), &mut next, &mut row);
        }
        Fault::After(after) => after(line, point, &mut next, &mut row),
    }
    (next, row)
}

/// Puts other distances into a row, and another address on the bus.
fn put((distances, bus): ([u16; 3], u16), next: &mut Point, row: &mut Row) {
    row[6..].copy_from_slice(&distances);
    next.bus = bus;
}

/// The operand's address, if this holds.
fn seen_if(holds: bool, operand: Option<Operand>, state: &[u8]) -> Option<u16> {
    address(operand, state).filter(|_| holds)
}

/// The operand's address, another one by what operand it is.
fn moved_by(operand: Option<Operand>, state: &[u8], change: fn(Operand, u16) -> u16) -> Option<u16> {
    address(operand, state).map(|address| change(operand.unwrap(), address))
}

const RULES: [(&str, Rule); 22] = [
    ("reset at each step", |addresses, _| in_order(addresses, 0)),
    ("the destination before the arguments", |addresses, bus| in_this_order(addresses, bus, [2, 0, 1])),
    ("the second argument before the first", |addresses, bus| in_this_order(addresses, bus, [1, 0, 2])),
    ("the destination between the arguments", |addresses, bus| in_this_order(addresses, bus, [0, 2, 1])),
    ("the last address first", |addresses, bus| in_this_order(addresses, bus, [2, 1, 0])),
    ("no address puts 0 there", |addresses, bus| {
        let (distances, after) = in_order(addresses.map(|address| address.or(Some(0))), bus);
        ([0, 1, 2].map(|field| addresses[field].map_or(0, |_| distances[field])), after)
    }),
    ("no address puts 0 there and has a distance", |addresses, bus| {
        in_order(addresses.map(|address| address.or(Some(0))), bus)
    }),
    ("a step without address puts 0 there", |addresses, bus| match addresses {
        [None, None, None] => ([0; 3], 0),
        _ => in_order(addresses, bus),
    }),
    ("address 0 leaves it", |addresses, bus| {
        in_order(addresses.map(|address| address.filter(|&address| address != 0)), bus)
    }),
    ("address 0 has distance 0", |addresses, bus| {
        measured(addresses, bus, |before, address| if address == 0 { 0 } else { distance(before, address) })
    }),
    ("an address after 0 has distance 0", |addresses, bus| {
        measured(addresses, bus, |before, address| if before == 0 { 0 } else { distance(before, address) })
    }),
    ("the difference of ones", |addresses, bus| {
        measured(addresses, bus, |before, address| before.count_ones().abs_diff(address.count_ones()) as u16)
    }),
    ("the ones in the difference", |addresses, bus| {
        measured(addresses, bus, |before, address| before.abs_diff(address).count_ones() as u16)
    }),
    ("the bits that became 1", |addresses, bus| {
        measured(addresses, bus, |before, address| (address & !before).count_ones() as u16)
    }),
    ("the bits that became 0", |addresses, bus| {
        measured(addresses, bus, |before, address| (before & !address).count_ones() as u16)
    }),
    ("eight lines only", |addresses, bus| {
        measured(addresses, bus, |before, address| distance(before % 256, address % 256))
    }),
    ("all distances from the address before the step", |addresses, bus| {
        let distances = addresses.map(|address| address.map_or(0, |address| distance(bus, address)));
        (distances, in_order(addresses, bus).1)
    }),
    ("the first argument leaves it", |addresses, bus| unheld(addresses, bus, 0)),
    ("the second argument leaves it", |addresses, bus| unheld(addresses, bus, 1)),
    ("the destination leaves it", |addresses, bus| unheld(addresses, bus, 2)),
    ("the same address twice in a step counts once", |[first, second, destination], bus| {
        let again = destination.is_some() && [first, second].contains(&destination);
        in_order([first, second, destination.filter(|_| !again)], bus)
    }),
    ("the first address of each step from 0, the others right", |addresses, bus| {
        let (mut distances, after) = in_order(addresses, bus);
        if let Some(field) = (0..3).find(|&field| addresses[field].is_some()) {
            distances[field] = addresses[field].unwrap().count_ones() as u16;
        }
        (distances, after)
    }),
];

const SEEN: [(&str, Seen); 19] = [
    ("cells named directly alone", |_, operand, state| {
        seen_if(matches!(operand, Some(Operand::Cell(_))), operand, state)
    }),
    ("no cells named directly", |_, operand, state| {
        seen_if(!matches!(operand, Some(Operand::Cell(_))), operand, state)
    }),
    ("nothing behind !", |_, operand, state| {
        seen_if(!matches!(operand, Some(Operand::Public { .. })), operand, state)
    }),
    ("nothing behind %", |_, operand, state| {
        seen_if(!matches!(operand, Some(Operand::Sensitive { .. })), operand, state)
    }),
    ("nothing behind ^", |_, operand, state| {
        seen_if(!matches!(operand, Some(Operand::Table { .. })), operand, state)
    }),
    ("a register's number for its address", |_, operand, state| match operand {
        Some(Operand::Register(number)) => Some(number as u16),
        _ => address(operand, state),
    }),
    ("a literal for its address", |_, operand, state| match operand {
        Some(Operand::Literal(number)) => Some(number as u16),
        _ => address(operand, state),
    }),
    ("the base's number for the address", |_, operand, state| {
        operand.and_then(base).map_or(address(operand, state), |base| Some(base as u16))
    }),
    ("the offset for the address", |_, operand, state| match operand {
        Some(
            Operand::Public { offset, .. }
            | Operand::Sensitive { offset, .. }
            | Operand::Table { offset, .. },
        ) => Some(offset as u16),
        _ => address(operand, state),
    }),
    ("cells behind ^ without 256", |_, operand, state| {
        moved_by(operand, state, |operand, address| match operand {
            Operand::Table { .. } => address - 256,
            _ => address,
        })
    }),
    ("cells behind % without 128", |_, operand, state| {
        moved_by(operand, state, |operand, address| match operand {
            Operand::Sensitive { .. } => address - 128,
            _ => address,
        })
    }),
    ("the table page without 256", |_, operand, state| moved_by(operand, state, |_, address| address % 256)),
    ("the place in the state", |_, operand, state| moved_by(operand, state, |_, address| 32 + address)),
    ("addresses of the state after the write", |line, operand, state| {
        let mut after = state.to_vec();
        step(line, Point::start(0), &mut after);
        address(operand, &after)
    }),
    ("no addresses of branches", |line, operand, state| seen_if(!is_branch(line), operand, state)),
    ("the first argument alone of branches", |line, operand, state| {
        seen_if(!is_branch(line) || operand == line.first, operand, state)
    }),
    ("no addresses in marked lines", |line, operand, state| seen_if(!line.marked, operand, state)),
    ("no addresses in unmarked lines", |line, operand, state| seen_if(line.marked, operand, state)),
    ("no destination where the value stays", |line, operand, state| {
        let stays = operand == line.destination && value(false, operand, state) == written_value(line, state);
        seen_if(!stays, operand, state)
    }),
];

/// Whether the step went on elsewhere than at the next line.
fn jumped(point: Point, next: &Point) -> bool {
    next.counter != point.counter + 1
}

const AFTER: [(&str, After); 12] = [
    ("cleared by jmp", |line, _, next, _| {
        if line.opcode == Opcode::Jmp {
            next.bus = 0;
        }
    }),
    ("cleared by nop", |line, _, next, _| {
        if line.opcode == Opcode::Nop {
            next.bus = 0;
        }
    }),
    ("cleared by a taken branch", |line, point, next, _| {
        if is_branch(line) && jumped(point, next) {
            next.bus = 0;
        }
    }),
    ("left by a taken branch", |line, point, next, row| {
        if is_branch(line) && jumped(point, next) {
            put(([0; 3], point.bus), next, row);
        }
    }),
    ("left by a branch not taken", |line, point, next, row| {
        if is_branch(line) && !jumped(point, next) {
            put(([0; 3], point.bus), next, row);
        }
    }),
    ("the target's number there after a jump", |_, point, next, _| {
        if jumped(point, next) {
            next.bus = next.counter;
        }
    }),
    ("the last two distances exchanged", |_, _, _, row| row.swap(7, 8)),
    ("the first two distances exchanged", |_, _, _, row| row.swap(6, 7)),
    ("the destination's distance first", |_, _, _, row| row[6..].rotate_right(1)),
    ("the distances before the ones", |_, _, _, row| row[3..].rotate_right(3)),
    ("the sum of the distances three times", |_, _, _, row| {
        let sum = row[6..].iter().sum();
        row[6..].fill(sum);
    }),
    ("rows with distances 0", |_, _, _, row| row[6..].fill(0)),
];

/// Every wrong step, with its name.
pub fn faults() -> Vec<(&'static str, Fault)> {
    let rules = RULES.map(|(fault, rule)| (fault, Fault::Rule(rule)));
    let seen = SEEN.map(|(fault, seen)| (fault, Fault::Seen(seen)));
    let after = AFTER.map(|(fault, after)| (fault, Fault::After(after)));
    [&rules[..], &seen, &after].concat()
}

/// Each of them in runs and, where it can change a verdict, in walks.
fn steps() -> Vec<(String, Variant)> {
    let mut variants = vec![];
    for (fault, step) in faults() {
        variants.push((format!("the bus: {fault}"), Variant { fault, step: Some(step), ..RIGHT }));
        if !IN_RUNS_ALONE.contains(&fault) {
            let variant = Variant { fault, step_of_walks: Some(step), ..RIGHT };
            variants.push((format!("the bus of a walk: {fault}"), variant));
        }
    }
    variants
}

/// Faults that change no verdict: the rows have the ones of each address too, so that all addresses which a walk
/// leaves on the bus have equally many, and those of one operand are alike in the bits above its range. Nor does
/// the order of a row's numbers matter there, and hardly ever their sum.
const IN_RUNS_ALONE: [&str; 13] = [
    "address 0 has distance 0",
    "an address after 0 has distance 0",
    "the bits that became 1",
    "the bits that became 0",
    "eight lines only",
    "cells behind ^ without 256",
    "cells behind % without 128",
    "the table page without 256",
    "the last two distances exchanged",
    "the first two distances exchanged",
    "the destination's distance first",
    "the distances before the ones",
    "the sum of the distances three times",
];

// ---------------------------------------------------------------- whole runs

/// Runs with something else on the bus at the start.
fn run_from(
    (program, start, budget): (&[u16], u16, u16),
    (state, trace): (&mut [u8], &mut [u16]),
    bus: u16,
) -> (Answer, u16) {
    let reached = std::cell::Cell::new(None);
    let answer = run_by((program, start, budget), state, trace, |line, mut point, state| {
        point.bus = reached.get().unwrap_or(bus);
        let (next, row) = step(line, point, state);
        reached.set(Some(next.bus));
        (next, row)
    });
    (answer, reached.get().unwrap_or(bus))
}

/// What the runs of a wrong implementation leave on the bus.
static LEFT: AtomicU16 = AtomicU16::new(0);

/// Runs with what the run before left there, if this holds.
fn run_on(handed: (&[u16], u16, u16), lent: (&mut [u8], &mut [u16]), goes_on: bool) -> Answer {
    let bus = if goes_on { LEFT.load(Ordering::Relaxed) } else { 0 };
    let (answer, left) = run_from(handed, lent, bus);
    LEFT.store(left, Ordering::Relaxed);
    answer
}

pub const RUNS: [(&str, Run); 6] = [
    ("not reset by a run", |program, start, budget, state, trace| {
        run_on((program, start, budget), (state, trace), true)
    }),
    ("not reset by a run that goes on from another line than 0", |program, start, budget, state, trace| {
        run_on((program, start, budget), (state, trace), start != 0)
    }),
    ("at 511 in the beginning", |program, start, budget, state, trace| {
        run_from((program, start, budget), (state, trace), 511).0
    }),
    ("at 256 in the beginning", |program, start, budget, state, trace| {
        run_from((program, start, budget), (state, trace), 256).0
    }),
    ("at the start counter in the beginning", |program, start, budget, state, trace| {
        run_from((program, start, budget), (state, trace), start).0
    }),
    ("at r0 in the beginning", |program, start, budget, state, trace| {
        let bus = state.first().map_or(0, |&value| value as u16);
        run_from((program, start, budget), (state, trace), bus).0
    }),
];

// ---------------------------------------------------------------- rows and room

/// Runs with a store that is large enough, and lends back what fits.
fn with_room(
    (program, start, budget): (&[u16], u16, u16),
    (state, trace): (&mut [u8], &mut [u16]),
    enough: bool,
) -> Answer {
    if !enough {
        let answer =
            Paper.run(program, start, budget, &mut state.to_vec(), &mut vec![0; ROW * budget as usize]);
        return match answer {
            Halted { .. } | Spent { .. } => refused(20),
            answer => answer,
        };
    }
    let mut whole = trace.to_vec();
    whole.resize(trace.len().max(ROW * budget as usize), 0);
    let answer = Paper.run(program, start, budget, state, &mut whole);
    let size = trace.len();
    trace.copy_from_slice(&whole[..size]);
    answer
}

pub const ROOMS: [(&str, Run); 7] = [
    ("20 by 6 x budget", |program, start, budget, state, trace| {
        let enough = trace.len() >= 6 * budget as usize;
        with_room((program, start, budget), (state, trace), enough)
    }),
    ("20 by 8 x budget", |program, start, budget, state, trace| {
        let enough = trace.len() >= 8 * budget as usize;
        with_room((program, start, budget), (state, trace), enough)
    }),
    ("20 for 9 x budget", |program, start, budget, state, trace| {
        let enough = budget == 0 || trace.len() > 9 * budget as usize;
        with_room((program, start, budget), (state, trace), enough)
    }),
    ("20 by 9 x budget less one", |program, start, budget, state, trace| {
        let enough = trace.len() + 1 >= 9 * budget as usize;
        with_room((program, start, budget), (state, trace), enough)
    }),
    ("20 by 10 x budget", |program, start, budget, state, trace| {
        let enough = trace.len() >= 10 * budget as usize;
        with_room((program, start, budget), (state, trace), enough)
    }),
    ("20 by 9 x budget in sixteen bits", |program, start, budget, state, trace| {
        let enough = trace.len() >= budget.wrapping_mul(9) as usize;
        with_room((program, start, budget), (state, trace), enough)
    }),
    ("rows of six numbers", |program, start, budget, state, trace| {
        let before = trace.to_vec();
        let answer = Paper.run(program, start, budget, state, trace);
        if let Halted { steps, .. } | Spent { steps, .. } = answer {
            let rows = trace.to_vec();
            trace.copy_from_slice(&before);
            for (six, row) in trace.chunks_exact_mut(6).zip(rows.chunks_exact(ROW)).take(steps as usize) {
                six.copy_from_slice(&row[..6]);
            }
        }
        answer
    }),
];

// ---------------------------------------------------------------- walks

/// Walks with other addresses on the bus at the start.
fn walk_from((program, sets, budget): (&[u16], &[u8], u16), bus: &[u16]) -> Answer {
    match (stored_program(program), walk::start(sets)) {
        (Ok(lines), Ok(sets)) => {
            let sets = Sets { bus: bus.iter().copied().collect(), ..sets };
            walk::walk(&lines, sets, budget, step_on_sets)
        }
        _ => Paper.judge(program, sets, budget),
    }
}

/// What the walks of a wrong implementation leave on the bus, the lowest of several.
static LEFT_BY_WALKS: AtomicU16 = AtomicU16::new(0);

/// Walks with what the walk before left there.
fn walk_on((program, sets, budget): (&[u16], &[u8], u16)) -> Answer {
    let (Ok(lines), Ok(mut start)) = (stored_program(program), walk::start(sets)) else {
        return Paper.judge(program, sets, budget);
    };
    start.bus = BTreeSet::from([LEFT_BY_WALKS.load(Ordering::Relaxed)]);
    walk::walk(&lines, start, budget, |line, counter, sets| {
        let next = step_on_sets(line, counter, sets);
        LEFT_BY_WALKS.store(*sets.bus.first().unwrap(), Ordering::Relaxed);
        next
    })
}

/// Every address that a step may have.
fn all_addresses(line: &Line, sets: &Sets) -> BTreeSet<usize> {
    let places = operands(line).into_iter().flatten().flat_map(|operand| reach(operand, &sets.places));
    places.filter(|&place| place >= 32).collect()
}

/// The right step; then one of the addresses alone stays on the bus.
fn keeping(
    line: &Line,
    counter: u16,
    sets: &mut Sets,
    kept: fn(&BTreeSet<u16>) -> Option<&u16>,
) -> Result<u16, Stop> {
    let next = step_on_sets(line, counter, sets)?;
    sets.bus = kept(&sets.bus).copied().into_iter().collect();
    Ok(next)
}

const WALKS: [(&str, Judge); 18] = [
    ("not looked at", |program, sets, budget| {
        changed_walk((program, sets, budget), |line, counter, sets| {
            step_on_sets_by(line, counter, sets, |line, point, state| {
                let (next, mut row) = step(line, point, state);
                row[6..].fill(0);
                (next, row)
            })
        })
    }),
    ("the destination's distance not looked at", |program, sets, budget| {
        changed_walk((program, sets, budget), |line, counter, sets| {
            step_on_sets_by(line, counter, sets, |line, point, state| {
                let (next, mut row) = step(line, point, state);
                row[8] = 0;
                (next, row)
            })
        })
    }),
    ("the second argument's distance not looked at", |program, sets, budget| {
        changed_walk((program, sets, budget), |line, counter, sets| {
            step_on_sets_by(line, counter, sets, |line, point, state| {
                let (next, mut row) = step(line, point, state);
                row[7] = 0;
                (next, row)
            })
        })
    }),
    ("the first address alone kept", |program, sets, budget| {
        changed_walk((program, sets, budget), |line, counter, sets| {
            keeping(line, counter, sets, BTreeSet::first)
        })
    }),
    ("the last address alone kept", |program, sets, budget| {
        changed_walk((program, sets, budget), |line, counter, sets| {
            keeping(line, counter, sets, BTreeSet::last)
        })
    }),
    ("the first and the last address alone kept", |program, sets, budget| {
        changed_walk((program, sets, budget), |line, counter, sets| {
            let next = step_on_sets(line, counter, sets)?;
            let ends = [sets.bus.first(), sets.bus.last()];
            sets.bus = ends.into_iter().flatten().copied().collect();
            Ok(next)
        })
    }),
    ("nothing kept of several addresses", |program, sets, budget| {
        changed_walk((program, sets, budget), |line, counter, sets| {
            let next = step_on_sets(line, counter, sets)?;
            if sets.bus.len() > 1 {
                sets.bus = BTreeSet::from([0]);
            }
            Ok(next)
        })
    }),
    ("reset at each step", |program, sets, budget| {
        changed_walk((program, sets, budget), |line, counter, sets| {
            sets.bus = BTreeSet::from([0]);
            step_on_sets(line, counter, sets)
        })
    }),
    ("the old addresses kept too", |program, sets, budget| {
        changed_walk((program, sets, budget), |line, counter, sets| {
            let old = sets.bus.clone();
            let next = step_on_sets(line, counter, sets)?;
            sets.bus.extend(old);
            Ok(next)
        })
    }),
    ("each address beside its own one", |program, sets, budget| {
        changed_walk((program, sets, budget), |line, counter, sets| {
            let buses: Vec<u16> = sets.bus.iter().copied().collect();
            let drawn = std::cell::Cell::new(0);
            step_on_sets_by(line, counter, sets, |line, point, state| {
                // The first choice has the first address, the next one the next.
                let at = drawn.replace(drawn.get() + 1) / buses.len();
                step(line, Point { bus: buses[at % buses.len()], ..point }, state)
            })
        })
    }),
    ("an address already there has distance 0", |program, sets, budget| {
        changed_walk((program, sets, budget), |line, counter, sets| {
            let buses = sets.bus.clone();
            step_on_sets_by(line, counter, sets, |line, mut point, state| {
                if let Some(again) = address(line.first, state).filter(|again| buses.contains(again)) {
                    point.bus = again;
                }
                step(line, point, state)
            })
        })
    }),
    ("not reset by a walk", |program, sets, budget| walk_on((program, sets, budget))),
    ("any address in the beginning", |program, sets, budget| {
        walk_from((program, sets, budget), &(0..512).collect::<Vec<u16>>())
    }),
    ("at 3 in the beginning of a walk", |program, sets, budget| walk_from((program, sets, budget), &[3])),
    ("21 where it has several addresses", |program, sets, budget| {
        changed_walk((program, sets, budget), |line, counter, sets| match sets.bus.len() {
            1 => step_on_sets(line, counter, sets),
            _ => Err(Stop::Refused(21)),
        })
    }),
    ("21 for a branch where it has several addresses", |program, sets, budget| {
        changed_walk((program, sets, budget), |line, counter, sets| {
            match is_branch(line) && sets.bus.len() > 1 {
                true => Err(Stop::Refused(21)),
                false => step_on_sets(line, counter, sets),
            }
        })
    }),
    ("22 from 16 addresses on", |program, sets, budget| {
        changed_walk((program, sets, budget), |line, counter, sets| {
            let next = step_on_sets(line, counter, sets)?;
            match sets.bus.len() {
                MOST_VALUES.. => Err(Stop::Refused(22)),
                _ => Ok(next),
            }
        })
    }),
    ("22 where a step has over 16 addresses", |program, sets, budget| {
        changed_walk((program, sets, budget), |line, counter, sets| {
            let many = all_addresses(line, sets).len() > MOST_VALUES;
            match step_on_sets(line, counter, sets) {
                Ok(_) | Err(Stop::Leak) if many => Err(Stop::Refused(22)),
                answer => answer,
            }
        })
    }),
];

// ---------------------------------------------------------------- expansions

/// Whether a line reads a table's first cell through r0.
fn reads_first_cell(new: &Line) -> bool {
    new.marked && matches!(new.first, Some(Operand::Table { base: 0, .. }))
}

/// The new one of the lines, which clears r2.
fn is_new(new: &Line) -> bool {
    reads_first_cell(new) && new.destination == Some(Operand::Register(2))
}

/// The changed one of the lines, which clears r3.
fn is_changed(new: &Line) -> bool {
    reads_first_cell(new) && new.destination == Some(Operand::Register(3))
}

/// The part of a line with other first arguments in lines of this kind, if this holds.
fn reading_else(
    layout: Layout,
    line: &Line,
    (kind, holds): (fn(&Line) -> bool, bool),
    argument: fn(Layout, u8) -> Operand,
) -> Vec<Line> {
    let mut lines = part(layout, line);
    for new in lines.iter_mut().filter(|new| line.marked && holds && kind(new)) {
        if let Some(Operand::Table { offset, .. }) = new.first {
            new.first = Some(argument(layout, offset));
        }
    }
    lines
}

/// `mov r3 r0` as before, if this holds.
fn kept(layout: Layout, line: &Line, holds: bool) -> Vec<Line> {
    reading_else(layout, line, (is_changed, holds), |_, _| Operand::Register(0))
}

/// Without the new line, if this holds.
fn without_new(layout: Layout, line: &Line, holds: bool) -> Vec<Line> {
    let mut lines = part(layout, line);
    lines.retain(|new| !(line.marked && holds && is_new(new)));
    lines
}

/// The new line so many lines later, or earlier.
fn new_line_moved(layout: Layout, line: &Line, by: isize) -> Vec<Line> {
    let mut lines = part(layout, line);
    if let Some(at) = lines.iter().position(is_new) {
        let new = lines.remove(at);
        lines.insert((at as isize + by) as usize, new);
    }
    lines
}

/// The new line with another destination.
fn new_line_into(layout: Layout, line: &Line, register: u8) -> Vec<Line> {
    let mut lines = part(layout, line);
    for new in lines.iter_mut().filter(|new| is_new(new)) {
        new.destination = Some(Operand::Register(register));
    }
    lines
}

/// The start of the table after this one, the first after the last.
fn next_table(layout: Layout, offset: u8) -> u8 {
    (offset + layout.table(1)) % layout.table(3)
}

/// What clears a register in another macro, by a cell of the page.
fn clearing_by_cell(layout: Layout, line: &Line, opcode: Opcode, table: u8) -> Vec<Line> {
    let mut lines = part(layout, line);
    if line.marked && line.opcode == opcode {
        lines[0].first = Some(Operand::Table { base: 0, offset: layout.table(table) });
    }
    lines
}

const PARTS: [(&str, Part); 40] = [
    ("mov r3 r0 kept", |layout, line| kept(layout, line, true)),
    ("mov r3 r0 kept in and", |layout, line| kept(layout, line, line.opcode == Opcode::And)),
    ("mov r3 r0 kept in orr", |layout, line| kept(layout, line, line.opcode == Opcode::Orr)),
    ("mov r3 r0 kept in xor", |layout, line| kept(layout, line, line.opcode == Opcode::Xor)),
    ("mov r3 r0 kept in neighbours", |layout, line| kept(layout, line, !layout.is_spaced())),
    ("mov r3 r0 kept when spaced", |layout, line| kept(layout, line, layout.is_spaced())),
    ("mov r3 r0 kept in neighbours at 0", |layout, line| kept(layout, line, layout == Layout::at(0, 0))),
    ("mov r3 r0 kept in neighbours at 1", |layout, line| kept(layout, line, layout == Layout::at(1, 0))),
    ("mov r3 r0 kept in neighbours at 2", |layout, line| kept(layout, line, layout == Layout::at(2, 0))),
    ("mov r3 r0 kept when spaced at 0", |layout, line| kept(layout, line, layout == Layout::at(0, 1))),
    ("mov r3 r0 kept when spaced at 1", |layout, line| kept(layout, line, layout == Layout::at(1, 1))),
    ("mov r3 r0 kept when spaced at 2", |layout, line| kept(layout, line, layout == Layout::at(2, 1))),
    ("mov r3 r0 kept with a public bit", |layout, line| kept(layout, line, has_public_bit(line))),
    ("no line after the lookup", |layout, line| without_new(layout, line, true)),
    ("no line after the lookup in and", |layout, line| without_new(layout, line, line.opcode == Opcode::And)),
    ("no line after the lookup in orr", |layout, line| without_new(layout, line, line.opcode == Opcode::Orr)),
    ("no line after the lookup in xor", |layout, line| without_new(layout, line, line.opcode == Opcode::Xor)),
    ("no line after the lookup when spaced", |layout, line| without_new(layout, line, layout.is_spaced())),
    ("no line after the lookup at position 2", |layout, line| {
        without_new(layout, line, layout.position == 2)
    }),
    ("no line after the lookup where d is a register", |layout, line| {
        without_new(layout, line, matches!(line.destination, Some(Operand::Register(_))))
    }),
    ("mov r3 r0 before mov r3 ^r0+t", |layout, line| {
        let mut lines = part(layout, line);
        if let Some(at) = lines.iter().position(is_changed) {
            lines.insert(at, Line { first: Some(Operand::Register(0)), ..lines[at] });
        }
        lines
    }),
    ("the line twice after the lookup", |layout, line| {
        let twice = |new: Line| vec![new; 1 + is_new(&new) as usize];
        part(layout, line).into_iter().flat_map(twice).collect()
    }),
    ("the new line before the lookup", |layout, line| new_line_moved(layout, line, -1)),
    ("the new line before mov r3 ^r0+t", |layout, line| new_line_moved(layout, line, -2)),
    ("the new line after mov d r0", |layout, line| new_line_moved(layout, line, 1)),
    ("the new line at the end", |layout, line| new_line_moved(layout, line, 2)),
    ("mov r1 for the new line", |layout, line| new_line_into(layout, line, 1)),
    ("mov r3 for the new line", |layout, line| new_line_into(layout, line, 3)),
    ("mov r2 r0 for the new line", |layout, line| {
        reading_else(layout, line, (is_new, true), |_, _| Operand::Register(0))
    }),
    ("another table's cell before the lookup", |layout, line| {
        reading_else(layout, line, (is_changed, true), |layout, offset| Operand::Table {
            base: 0,
            offset: next_table(layout, offset),
        })
    }),
    ("another table's cell after the lookup", |layout, line| {
        reading_else(layout, line, (is_new, true), |layout, offset| Operand::Table {
            base: 0,
            offset: next_table(layout, offset),
        })
    }),
    ("cell 256 for each table", |layout, line| {
        reading_else(layout, line, (reads_first_cell, true), |_, _| Operand::Table { base: 0, offset: 0 })
    }),
    ("the cells of position 0", |layout, line| {
        reading_else(layout, line, (reads_first_cell, true), |layout, offset| Operand::Table {
            base: 0,
            offset: offset / layout.power(),
        })
    }),
    ("the entry read twice", |layout, line| {
        reading_else(layout, line, (is_changed, true), |_, offset| Operand::Table { base: 1, offset })
    }),
    ("the table's first cell by its number", |layout, line| {
        reading_else(layout, line, (reads_first_cell, true), |_, offset| Operand::Cell(256 + offset as u16))
    }),
    ("a cell in the macro of mov too", |layout, line| clearing_by_cell(layout, line, Opcode::Mov, 0)),
    ("a cell in the macro of not too", |layout, line| clearing_by_cell(layout, line, Opcode::Not, 0)),
    ("a cell for mov r1 r0 in xor too", |layout, line| clearing_by_cell(layout, line, Opcode::Xor, 2)),
    ("a line after the lookup of a public bit too", |layout, line| {
        let mut lines = part(layout, line);
        for at in (0..lines.len()).rev().filter(|_| line.marked) {
            if decodes(&lines[at]) {
                lines.insert(
                    at + 1,
                    Line { first: Some(Operand::Table { base: 0, offset: 240 }), ..lines[at] },
                );
            }
        }
        lines
    }),
    ("the new line unmarked", |layout, line| {
        let mut lines = part(layout, line);
        lines.iter_mut().filter(|new| is_new(new)).for_each(|new| new.marked = false);
        lines
    }),
];

/// The macros of before this request.
fn before(layout: Layout, line: &Line) -> Vec<Line> {
    without_new(layout, line, true)
}

const OTHERS: [Variant; 2] = [
    Variant { fault: "targets as if the macro had 13 lines", targets: Some((before, looked_up)), ..RIGHT },
    Variant {
        fault: "17 by the lines of before",
        expand: |layout, program, out| {
            let answer = Paper.expand(layout, program, out);
            let Ok(lines) = stored_program(program) else { return answer };
            let count = starts_by(layout, &lines, before).pop().unwrap();
            match answer {
                // As many lines as fit.
                Refused { number: 17, .. } if count <= out.len() / SIX => {
                    jumps::write_what_fits(layout, program, out)
                }
                answer => answer,
            }
        },
        ..RIGHT
    },
];

// ---------------------------------------------------------------- none

/// What these are made with brings no fault of its own.
#[test]
fn no_fault_but_the_named_ones_of_the_bus() {
    let rights = [
        Fault::Rule(in_order),
        Fault::Rule(|addresses, bus| measured(addresses, bus, distance)),
        Fault::Seen(|_, operand, state| address(operand, state)),
        Fault::After(|_, _, _, _| ()),
    ];
    for step in rights {
        let right = Variant {
            step: Some(step),
            step_of_walks: Some(step),
            part: Some(|layout, line| new_line_moved(layout, line, 0)),
            ..RIGHT
        };
        compare(&right, 2, 1, 1_000).unwrap_or_else(|report| panic!("{report}"));
    }
    let right = Variant {
        run: |program, start, budget, state, trace| {
            let enough = trace.len() >= ROW * budget as usize;
            match state.len() {
                STATE if enough => run_from((program, start, budget), (state, trace), 0).0,
                _ => with_room((program, start, budget), (state, trace), enough),
            }
        },
        judge: |program, sets, budget| walk_from((program, sets, budget), &[0]),
        ..RIGHT
    };
    compare(&right, 2, 1, 1_000).unwrap_or_else(|report| panic!("{report}"));
}

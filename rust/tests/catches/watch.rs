//! Request 09: watches that are kept wrongly, watched runs that are others than without, and what is refused of them.

use super::*;
use dualrail::paper::watch::MOST_WATCHES;
use dualrail::paper::{base, place, written_place};

/// All of them, with their names.
pub fn variants() -> Vec<(String, Variant)> {
    let begins = BEGINS.into_iter().map(|(fault, begin)| (fault, Watching { begin, ..WATCHING }));
    let notes = NOTES.into_iter().map(|(fault, note)| (fault, Watching { note, ..WATCHING }));
    let ends = ENDS.into_iter().map(|(fault, end)| (fault, Watching { end, ..WATCHING }));
    let watching = begins.chain(notes).chain(ends).chain(VALUES);
    let rules = watching.map(|(fault, rules)| Variant { fault, watching: Some(rules), ..RIGHT });
    let lists = LISTS.into_iter().chain(REFUSED).chain(OTHER_RUNS);
    let whole = lists.map(|(fault, run_watched)| Variant { fault, run_watched, ..RIGHT });
    let runs = bus::RUNS.into_iter().chain(bus::ROOMS);
    let runs = runs.map(|(fault, run)| Variant { fault, watched_run: Some(run), ..RIGHT });
    let steps = bus::faults().into_iter();
    let steps = steps.map(|(fault, step)| Variant { fault, watched_step: Some(step), ..RIGHT });
    let variants = rules.chain(whole).chain(runs).chain(steps);
    variants.map(|variant| (format!("watches: {}", variant.fault), variant)).collect()
}

/// A watched run.
pub type RunWatched = fn(&[u16], u16, u16, &mut [u8], &mut [u16], &mut [Watch]) -> Answer;

// ---------------------------------------------------------------- watches kept by rules

/// A step that is done: its number, the first being 1, its line, the point before it and the counter after it, the place
/// that it wrote, and the states before and after.
pub struct Done<'a> {
    number: u16,
    line: Line,
    point: Point,
    counter: u16,
    written: Option<usize>,
    before: &'a [u8],
    after: &'a [u8],
}

impl Done<'_> {
    /// Whether it wrote the place of this watch.
    fn reached(&self, watch: &Watch) -> bool {
        self.written == Some(watch.place as usize)
    }

    /// Whether the place of this watch is an argument of it.
    fn reads(&self, argument: Option<Operand>, watch: &Watch) -> bool {
        argument.and_then(|argument| place(argument, self.before)) == Some(watch.place as usize)
    }

    /// The value that it wrote.
    fn value(&self) -> u8 {
        self.written.map_or(0, |place| self.after[place])
    }
}

type Begin = fn(&mut Watch, &[u8]);
type Note = fn(&Done, &mut Watch);
type End = fn(&mut Watch, &[u8], Answer);

/// How a watch is kept: what is done to it before the run, after each step, and after the run.
#[derive(Clone, Copy)]
pub struct Watching {
    begin: Begin,
    note: Note,
    end: End,
}

pub const WATCHING: Watching = Watching { begin: cleared, note: counted, end: last_value };

fn cleared(watch: &mut Watch, _: &[u8]) {
    (watch.writes, watch.step) = (0, 0);
}

fn counted(done: &Done, watch: &mut Watch) {
    count_if(done.reached(watch), done, watch);
}

fn last_value(watch: &mut Watch, state: &[u8], _: Answer) {
    watch.value = state[watch.place as usize];
}

/// Counts a step, if it is to be.
fn count_if(holds: bool, done: &Done, watch: &mut Watch) {
    if holds {
        watch.writes = watch.writes.wrapping_add(1);
        watch.step = done.number;
    }
}

/// The same of any place that the step would write.
fn count_at(place: Option<usize>, done: &Done, watch: &mut Watch) {
    count_if(place == Some(watch.place as usize), done, watch);
}

/// The watched run by these rules. What is refused is refused as is right.
pub fn watched_by(
    rules: Watching,
    (program, start, budget): (&[u16], u16, u16),
    (state, trace): (&mut [u8], &mut [u16]),
    watches: &mut [Watch],
) -> Answer {
    let judged = Paper.run_watched(
        program,
        start,
        budget,
        &mut state.to_vec(),
        &mut trace.to_vec(),
        &mut watches.to_vec(),
    );
    if let Refused { .. } = judged {
        return judged;
    }
    watches.iter_mut().for_each(|watch| (rules.begin)(watch, state));
    let mut number = 0;
    let answer = run_by((program, start, budget), state, trace, |line, point, state| {
        let before = state.to_vec();
        let written = written_place(line, state);
        let (next, row) = step(line, point, state);
        number += 1;
        let counter = next.counter;
        let done = Done { number, line: *line, point, counter, written, before: &before, after: state };
        watches.iter_mut().for_each(|watch| (rules.note)(&done, watch));
        (next, row)
    });
    watches.iter_mut().for_each(|watch| (rules.end)(watch, state, answer));
    answer
}

const BEGINS: [(&str, Begin); 6] = [
    ("old counts kept", |watch, _| watch.step = 0),
    ("old steps kept", |watch, _| watch.writes = 0),
    ("old counts and steps kept", |_, _| ()),
    ("counts begin at 1", |watch, _| (watch.writes, watch.step) = (1, 0)),
    ("places not written have step 65,535", |watch, _| (watch.writes, watch.step) = (0, 65_535)),
    ("the place is written over", |watch, state| {
        cleared(watch, state);
        watch.place = (watch.place + 1) % 544;
    }),
];

/// The cell that a destination would reach, were its base 0.
fn without_base(done: &Done) -> Option<usize> {
    match done.line.destination? {
        Operand::Public { offset, .. } => Some(32 + offset as usize),
        Operand::Sensitive { offset, .. } => Some(160 + offset as usize),
        Operand::Table { offset, .. } => Some(288 + offset as usize),
        _ => done.written,
    }
}

/// The cell that a destination would reach, were its sum taken modulo so many.
fn modulo(done: &Done, low: usize, high: usize) -> Option<usize> {
    let sum = |base: u8, offset: u8| done.before[base as usize] as usize + offset as usize;
    match done.line.destination? {
        Operand::Public { base, offset } => Some(32 + sum(base, offset) % low),
        Operand::Sensitive { base, offset } => Some(160 + sum(base, offset) % low),
        Operand::Table { base, offset } => Some(288 + sum(base, offset) % high),
        _ => done.written,
    }
}

/// Counts a write, unless it is one of these.
fn but(done: &Done, watch: &mut Watch, passed: bool) {
    count_if(done.reached(watch) && !passed, done, watch);
}

/// Not among them is a place worked out after the write: a base is a register and what stands behind one a cell, so that no
/// write moves its own place.
const NOTES: [(&str, Note); 49] = [
    ("nothing is counted", |_, _| ()),
    ("every step counted", |done, watch| count_if(true, done, watch)),
    ("every write counted, wherever it is", |done, watch| count_if(done.written.is_some(), done, watch)),
    ("counted where the first argument is read too", |done, watch| {
        count_if(done.reached(watch) || done.reads(done.line.first, watch), done, watch)
    }),
    ("counted where the second argument is read too", |done, watch| {
        count_if(done.reached(watch) || done.reads(done.line.second, watch), done, watch)
    }),
    ("counted at reads alone", |done, watch| {
        let reads = done.reads(done.line.first, watch) || done.reads(done.line.second, watch);
        count_if(reads, done, watch)
    }),
    ("counted where a base is read too", |done, watch| {
        let operands = [done.line.first, done.line.second, done.line.destination];
        let mut bases = operands.into_iter().flatten().filter_map(base);
        count_if(done.reached(watch) || bases.any(|base| base as u16 == watch.place), done, watch)
    }),
    ("counted once more where it is read and written", |done, watch| {
        counted(done, watch);
        count_if(done.reached(watch) && done.reads(done.line.first, watch), done, watch)
    }),
    ("not counted where it is read and written", |done, watch| {
        but(done, watch, done.reads(done.line.first, watch) || done.reads(done.line.second, watch))
    }),
    ("same-value writes not counted", |done, watch| but(done, watch, done.before == done.after)),
    ("same-value writes counted without their step", |done, watch| {
        let step = watch.step;
        counted(done, watch);
        if done.before == done.after {
            watch.step = step;
        }
    }),
    ("same-value writes noted without being counted", |done, watch| {
        let writes = watch.writes;
        counted(done, watch);
        if done.before == done.after {
            watch.writes = writes;
        }
    }),
    ("writes of 0 not counted", |done, watch| but(done, watch, done.value() == 0)),
    ("writes over 0 not counted", |done, watch| but(done, watch, done.before[watch.place as usize] == 0)),
    ("steps from 0", |done, watch| {
        counted(done, watch);
        if done.reached(watch) {
            watch.step -= 1;
        }
    }),
    ("steps from 2", |done, watch| {
        counted(done, watch);
        if done.reached(watch) {
            watch.step = watch.step.wrapping_add(1);
        }
    }),
    ("the first step noted", |done, watch| {
        let step = watch.step;
        counted(done, watch);
        if step != 0 {
            watch.step = step;
        }
    }),
    ("the line for the step", |done, watch| {
        counted(done, watch);
        if done.reached(watch) {
            watch.step = done.point.counter;
        }
    }),
    ("the line and one for the step", |done, watch| {
        counted(done, watch);
        if done.reached(watch) {
            watch.step = done.point.counter + 1;
        }
    }),
    ("the writes so far for the step", |done, watch| {
        counted(done, watch);
        watch.step = watch.writes;
    }),
    ("one write at most", |done, watch| {
        counted(done, watch);
        watch.writes = watch.writes.min(1);
    }),
    ("255 writes at most", |done, watch| {
        counted(done, watch);
        watch.writes = watch.writes.min(255);
    }),
    ("writes modulo 256", |done, watch| {
        counted(done, watch);
        watch.writes %= 256;
    }),
    ("steps modulo 256", |done, watch| {
        counted(done, watch);
        watch.step %= 256;
    }),
    ("32,767 writes at most", |done, watch| {
        counted(done, watch);
        watch.writes = watch.writes.min(32_767);
    }),
    ("steps modulo 32,768", |done, watch| {
        counted(done, watch);
        watch.step %= 32_768;
    }),
    ("65,533 writes at most", |done, watch| {
        counted(done, watch);
        watch.writes = watch.writes.min(65_533);
    }),
    ("step 65,535 not counted", |done, watch| but(done, watch, done.number == 65_535)),
    ("the first step not counted", |done, watch| but(done, watch, done.number == 1)),
    ("nop counted as a write of r0", |done, watch| {
        let place = if done.line.opcode == Opcode::Nop { Some(0) } else { done.written };
        count_at(place, done, watch)
    }),
    ("jmp counted as a write of r0", |done, watch| {
        let place = if done.line.opcode == Opcode::Jmp { Some(0) } else { done.written };
        count_at(place, done, watch)
    }),
    ("branches counted as writes of r0", |done, watch| {
        let place = if is_branch(&done.line) { Some(0) } else { done.written };
        count_at(place, done, watch)
    }),
    ("branches counted as writes of their first argument", |done, watch| {
        let first = is_branch(&done.line) && done.reads(done.line.first, watch);
        count_if(done.reached(watch) || first, done, watch)
    }),
    ("steps without a write counted everywhere", |done, watch| {
        count_if(done.reached(watch) || done.written.is_none(), done, watch)
    }),
    ("jumps counted everywhere", |done, watch| {
        count_if(done.reached(watch) || done.counter != done.point.counter + 1, done, watch)
    }),
    ("not in marked lines", |done, watch| but(done, watch, done.line.marked)),
    ("not in unmarked lines", |done, watch| but(done, watch, !done.line.marked)),
    ("not behind !", |done, watch| {
        but(done, watch, matches!(done.line.destination, Some(Operand::Public { .. })))
    }),
    ("not behind %", |done, watch| {
        but(done, watch, matches!(done.line.destination, Some(Operand::Sensitive { .. })))
    }),
    ("not behind ^", |done, watch| {
        but(done, watch, matches!(done.line.destination, Some(Operand::Table { .. })))
    }),
    ("not in registers", |done, watch| but(done, watch, watch.place < 32)),
    ("not in cells named directly", |done, watch| {
        but(done, watch, matches!(done.line.destination, Some(Operand::Cell(_))))
    }),
    ("the base for the place behind it", |done, watch| {
        let base = done.line.destination.and_then(base);
        count_at(base.map(usize::from).or(done.written), done, watch)
    }),
    ("the offset for the place behind a base", |done, watch| count_at(without_base(done), done, watch)),
    ("sums of bases modulo 256 everywhere", |done, watch| count_at(modulo(done, 256, 256), done, watch)),
    ("sums of bases modulo 128 everywhere", |done, watch| count_at(modulo(done, 128, 128), done, watch)),
    ("cells by their numbers", |done, watch| {
        let number = |place: usize| if place < 32 { place } else { place - 32 };
        count_at(done.written.map(number), done, watch)
    }),
    ("taken branches counted as writes of their second argument", |done, watch| {
        let taken = is_branch(&done.line) && done.counter != done.point.counter + 1;
        count_if(done.reached(watch) || taken && done.reads(done.line.second, watch), done, watch)
    }),
    ("mul not counted", |done, watch| but(done, watch, done.line.opcode == Opcode::Mul)),
];

const ENDS: [(&str, End); 10] = [
    ("the value is left as it was in the watch", |_, _, _| ()),
    ("the value 0", |watch, _, _| watch.value = 0),
    ("the value's lowest bit", |watch, state, _| watch.value = state[watch.place as usize] & 1),
    ("the value only set at a write", |watch, state, answer| {
        if watch.writes > 0 {
            last_value(watch, state, answer);
        }
    }),
    ("0 for the value where there is no write", |watch, state, answer| {
        last_value(watch, state, answer);
        if watch.writes == 0 {
            watch.value = 0;
        }
    }),
    ("the value beside it", |watch, state, _| watch.value = state[(watch.place as usize + 1) % 544]),
    ("the value of the cell of that number", |watch, state, _| {
        watch.value = state[(32 + watch.place as usize) % 544]
    }),
    ("nothing held of a run that is spent", |watch, state, answer| match answer {
        Spent { .. } => (watch.value, watch.writes, watch.step) = (0, 0, 0),
        _ => last_value(watch, state, answer),
    }),
    ("the last step not noted when the budget is spent", |watch, state, answer| {
        last_value(watch, state, answer);
        if matches!(answer, Spent { steps, .. } if steps == watch.step) && watch.writes > 0 {
            watch.writes -= 1;
            watch.step = 0;
        }
    }),
    ("the last step not noted when the run halts", |watch, state, answer| {
        last_value(watch, state, answer);
        if matches!(answer, Halted { steps, .. } if steps == watch.step) && watch.writes > 0 {
            watch.writes -= 1;
            watch.step = 0;
        }
    }),
];

/// The value of the state before the run.
fn first_value(watch: &mut Watch, state: &[u8]) {
    cleared(watch, state);
    watch.value = state[watch.place as usize];
}

/// Faults in when the value is taken.
const VALUES: [(&str, Watching); 5] = [
    ("the value before the run", Watching { begin: first_value, note: counted, end: |_, _, _| () }),
    (
        "the value before the last write",
        Watching {
            begin: first_value,
            note: |done, watch| {
                counted(done, watch);
                if done.reached(watch) {
                    watch.value = done.before[watch.place as usize];
                }
            },
            end: |_, _, _| (),
        },
    ),
    (
        "the value of the first write",
        Watching {
            begin: first_value,
            note: |done, watch| {
                counted(done, watch);
                if done.reached(watch) && watch.writes == 1 {
                    watch.value = done.value();
                }
            },
            end: |_, _, _| (),
        },
    ),
    (
        "the value set at a write, else left as it was in the watch",
        Watching {
            begin: cleared,
            note: |done, watch| {
                counted(done, watch);
                if done.reached(watch) {
                    watch.value = done.value();
                }
            },
            end: |_, _, _| (),
        },
    ),
    (
        "the value that the last step wrote, wherever it was",
        Watching {
            begin: first_value,
            note: |done, watch| {
                counted(done, watch);
                if done.written.is_some() {
                    watch.value = done.value();
                }
            },
            end: |_, _, _| (),
        },
    ),
];

// ---------------------------------------------------------------- lists

/// A watched run, and then something done to the list, by what it was before.
fn then(
    (program, start, budget): (&[u16], u16, u16),
    (state, trace): (&mut [u8], &mut [u16]),
    watches: &mut [Watch],
    change: impl Fn(&[Watch], &mut [Watch]),
) -> Answer {
    let before = watches.to_vec();
    let answer = Paper.run_watched(program, start, budget, state, trace, watches);
    if !matches!(answer, Refused { .. }) {
        change(&before, watches);
    }
    answer
}

/// A watch as it is where no write reached its place.
fn unwritten(watch: &mut Watch) {
    (watch.writes, watch.step) = (0, 0);
}

/// Watches of places that are worked out from another state than that before each step.
fn placed_by(
    (program, start, budget): (&[u16], u16, u16),
    (state, trace): (&mut [u8], &mut [u16]),
    watches: &mut [Watch],
    other: fn(&[u8], &[u8]) -> Vec<u8>,
) -> Answer {
    let first = state.to_vec();
    let answer = Paper.run_watched(program, start, budget, state, trace, watches);
    let (Halted { steps, .. } | Spent { steps, .. }) = answer else { return answer };
    let lines = stored_program(program).unwrap();
    let state = other(&first, state);
    watches.iter_mut().for_each(unwritten);
    for (number, row) in (1..=steps).zip(trace.chunks_exact(ROW)) {
        let place = written_place(&lines[row[0] as usize], &state);
        for watch in watches.iter_mut().filter(|watch| place == Some(watch.place as usize)) {
            watch.writes += 1;
            watch.step = number;
        }
    }
    answer
}

const LISTS: [(&str, RunWatched); 13] = [
    ("only the first watch of a place", |program, start, budget, state, trace, watches| {
        then((program, start, budget), (state, trace), watches, |before, watches| {
            for at in 0..watches.len() {
                if before[..at].iter().any(|other| other.place == before[at].place) {
                    unwritten(&mut watches[at]);
                }
            }
        })
    }),
    ("only the last watch of a place", |program, start, budget, state, trace, watches| {
        then((program, start, budget), (state, trace), watches, |before, watches| {
            for at in 0..watches.len() {
                if before[at + 1..].iter().any(|other| other.place == before[at].place) {
                    unwritten(&mut watches[at]);
                }
            }
        })
    }),
    ("the second watch of a place is left alone", |program, start, budget, state, trace, watches| {
        then((program, start, budget), (state, trace), watches, |before, watches| {
            for at in 0..watches.len() {
                if before[..at].iter().any(|other| other.place == before[at].place) {
                    watches[at] = before[at];
                }
            }
        })
    }),
    ("watches sorted by their places", |program, start, budget, state, trace, watches| {
        then((program, start, budget), (state, trace), watches, |_, watches| {
            watches.sort_by_key(|watch| watch.place)
        })
    }),
    ("the eighth watch is left alone", |program, start, budget, state, trace, watches| {
        then((program, start, budget), (state, trace), watches, |before, watches| {
            if let Some(last) = watches.get_mut(7) {
                *last = before[7];
            }
        })
    }),
    ("the eighth watch counts nothing", |program, start, budget, state, trace, watches| {
        then((program, start, budget), (state, trace), watches, |_, watches| {
            watches.iter_mut().skip(7).for_each(unwritten)
        })
    }),
    ("the first watch alone", |program, start, budget, state, trace, watches| {
        then((program, start, budget), (state, trace), watches, |_, watches| {
            watches.iter_mut().skip(1).for_each(unwritten)
        })
    }),
    ("the last watch alone", |program, start, budget, state, trace, watches| {
        then((program, start, budget), (state, trace), watches, |_, watches| {
            watches.iter_mut().rev().skip(1).for_each(unwritten)
        })
    }),
    ("places become 0", |program, start, budget, state, trace, watches| {
        then((program, start, budget), (state, trace), watches, |_, watches| {
            watches.iter_mut().for_each(|watch| watch.place = 0)
        })
    }),
    ("writes and steps exchanged", |program, start, budget, state, trace, watches| {
        then((program, start, budget), (state, trace), watches, |_, watches| {
            watches.iter_mut().for_each(|watch| (watch.writes, watch.step) = (watch.step, watch.writes))
        })
    }),
    ("places worked out before the run", |program, start, budget, state, trace, watches| {
        placed_by((program, start, budget), (state, trace), watches, |before, _| before.to_vec())
    }),
    ("places worked out after the run", |program, start, budget, state, trace, watches| {
        placed_by((program, start, budget), (state, trace), watches, |_, after| after.to_vec())
    }),
    ("watches of a run without a step are left alone", |program, start, budget, state, trace, watches| {
        let before = watches.to_vec();
        let answer = Paper.run_watched(program, start, budget, state, trace, watches);
        if let Halted { steps: 0, .. } | Spent { steps: 0, .. } = answer {
            watches.copy_from_slice(&before);
        }
        answer
    }),
];

// ---------------------------------------------------------------- refusals

/// Whether a list is to be refused.
fn is_wrong(watches: &[Watch]) -> bool {
    watches.len() > MOST_WATCHES || watches.iter().any(|watch| watch.place as usize >= STATE)
}

/// A watched run where 26 goes before these other refusals.
fn too_early(
    (program, start, budget): (&[u16], u16, u16),
    (state, trace): (&mut [u8], &mut [u16]),
    watches: &mut [Watch],
    others: RangeInclusive<u16>,
) -> Answer {
    match Paper.run_watched(program, start, budget, state, trace, watches) {
        Refused { number, .. } if others.contains(&number) && is_wrong(watches) => refused(26),
        answer => answer,
    }
}

/// A watched run where other lists are refused.
fn refusing(
    (program, start, budget): (&[u16], u16, u16),
    (state, trace): (&mut [u8], &mut [u16]),
    watches: &mut [Watch],
    wrong: impl Fn(&[Watch]) -> bool,
) -> Answer {
    if let Err(answer) = checked((program, start, budget), (state, trace)) {
        return answer;
    }
    if wrong(watches) {
        return refused(26);
    }
    // Those that pass are watched as far as they can be.
    let mut taken: Vec<Watch> = watches.iter().take(MOST_WATCHES).copied().collect();
    taken.iter_mut().for_each(|watch| watch.place %= STATE as u16);
    let answer = Paper.run_watched(program, start, budget, state, trace, &mut taken);
    for (watch, taken) in watches.iter_mut().zip(taken) {
        *watch = Watch { place: watch.place, ..taken };
    }
    answer
}

/// What is refused without watches.
fn checked(
    (program, start, budget): (&[u16], u16, u16),
    (state, trace): (&[u8], &[u16]),
) -> Result<(), Answer> {
    match Paper.run(program, start, budget, &mut state.to_vec(), &mut trace.to_vec()) {
        answer @ Refused { .. } => Err(answer),
        _ => Ok(()),
    }
}

/// A watched run with something done to what is lent where it is refused with one of these.
fn leaving(
    (program, start, budget): (&[u16], u16, u16),
    (state, trace): (&mut [u8], &mut [u16]),
    watches: &mut [Watch],
    numbers: RangeInclusive<u16>,
    change: impl Fn(&mut [u8], &mut [u16], &mut [Watch]),
) -> Answer {
    let answer = Paper.run_watched(program, start, budget, state, trace, watches);
    if matches!(answer, Refused { number, .. } if numbers.contains(&number)) {
        change(state, trace, watches);
    }
    answer
}

fn reset(watches: &mut [Watch]) {
    watches.iter_mut().for_each(|watch| (watch.value, watch.writes, watch.step) = (0, 0, 0));
}

/// The places of a list.
fn places(watches: &[Watch]) -> impl Iterator<Item = u16> + '_ {
    watches.iter().map(|watch| watch.place)
}

const REFUSED: [(&str, RunWatched); 32] = [
    ("26 before 7", |program, start, budget, state, trace, watches| {
        too_early((program, start, budget), (state, trace), watches, 7..=7)
    }),
    ("26 before 3 to 6", |program, start, budget, state, trace, watches| {
        too_early((program, start, budget), (state, trace), watches, 3..=6)
    }),
    ("26 before 18", |program, start, budget, state, trace, watches| {
        too_early((program, start, budget), (state, trace), watches, 18..=18)
    }),
    ("26 before 20", |program, start, budget, state, trace, watches| {
        too_early((program, start, budget), (state, trace), watches, 20..=20)
    }),
    ("26 before 18 for the count alone", |program, start, budget, state, trace, watches| {
        match watches.len() > MOST_WATCHES {
            true => too_early((program, start, budget), (state, trace), watches, 18..=18),
            false => Paper.run_watched(program, start, budget, state, trace, watches),
        }
    }),
    ("26 before 20 for a place alone", |program, start, budget, state, trace, watches| {
        match watches.len() > MOST_WATCHES {
            false => too_early((program, start, budget), (state, trace), watches, 20..=20),
            true => Paper.run_watched(program, start, budget, state, trace, watches),
        }
    }),
    ("20 before 18", |program, start, budget, state, trace, watches| {
        match Paper.run_watched(program, start, budget, state, trace, watches) {
            Refused { number: 18, .. } if trace.len() < ROW * budget as usize => refused(20),
            answer => answer,
        }
    }),
    ("26 at the line count", |program, start, budget, state, trace, watches| {
        match Paper.run_watched(program, start, budget, state, trace, watches) {
            Refused { number: 26, .. } => Refused { number: 26, line: (program.len() / SIX) as u32 },
            answer => answer,
        }
    }),
    ("26 at the watch", |program, start, budget, state, trace, watches| {
        match Paper.run_watched(program, start, budget, state, trace, watches) {
            Refused { number: 26, .. } => {
                let at = places(watches).position(|place| place as usize >= STATE);
                Refused { number: 26, line: at.unwrap_or(MOST_WATCHES) as u32 }
            }
            answer => answer,
        }
    }),
    ("26 at the start", |program, start, budget, state, trace, watches| {
        match Paper.run_watched(program, start, budget, state, trace, watches) {
            Refused { number: 26, .. } => Refused { number: 26, line: start as u32 },
            answer => answer,
        }
    }),
    ("20 for the watches", |program, start, budget, state, trace, watches| {
        match Paper.run_watched(program, start, budget, state, trace, watches) {
            Refused { number: 26, .. } => refused(20),
            answer => answer,
        }
    }),
    ("nine watches pass", |program, start, budget, state, trace, watches| {
        let wrong = |watches: &[Watch]| is_wrong(&watches[..watches.len().min(8)]) || watches.len() > 9;
        refusing((program, start, budget), (state, trace), watches, wrong)
    }),
    ("any count passes", |program, start, budget, state, trace, watches| {
        let wrong = |watches: &[Watch]| places(watches).any(|place| place > 543);
        refusing((program, start, budget), (state, trace), watches, wrong)
    }),
    ("the count modulo 256", |program, start, budget, state, trace, watches| {
        let wrong = |watches: &[Watch]| watches.len() % 256 > 8 || places(watches).any(|place| place > 543);
        refusing((program, start, budget), (state, trace), watches, wrong)
    }),
    ("the count modulo 65,536", |program, start, budget, state, trace, watches| {
        let wrong =
            |watches: &[Watch]| watches.len() % 65_536 > 8 || places(watches).any(|place| place > 543);
        refusing((program, start, budget), (state, trace), watches, wrong)
    }),
    ("eight watches refused", |program, start, budget, state, trace, watches| {
        let wrong = |watches: &[Watch]| watches.len() > 7 || places(watches).any(|place| place > 543);
        refusing((program, start, budget), (state, trace), watches, wrong)
    }),
    ("no watches refused", |program, start, budget, state, trace, watches| {
        let wrong = |watches: &[Watch]| watches.is_empty() || is_wrong(watches);
        refusing((program, start, budget), (state, trace), watches, wrong)
    }),
    ("a place twice refused", |program, start, budget, state, trace, watches| {
        let again =
            |watches: &[Watch], at: usize| places(&watches[..at]).any(|place| place == watches[at].place);
        let wrong = |watches: &[Watch]| is_wrong(watches) || (0..watches.len()).any(|at| again(watches, at));
        refusing((program, start, budget), (state, trace), watches, wrong)
    }),
    ("place 544 passes", |program, start, budget, state, trace, watches| {
        let wrong = |watches: &[Watch]| watches.len() > 8 || places(watches).any(|place| place > 544);
        refusing((program, start, budget), (state, trace), watches, wrong)
    }),
    ("place 543 refused", |program, start, budget, state, trace, watches| {
        let wrong = |watches: &[Watch]| watches.len() > 8 || places(watches).any(|place| place > 542);
        refusing((program, start, budget), (state, trace), watches, wrong)
    }),
    ("places above 511 refused", |program, start, budget, state, trace, watches| {
        let wrong = |watches: &[Watch]| watches.len() > 8 || places(watches).any(|place| place > 511);
        refusing((program, start, budget), (state, trace), watches, wrong)
    }),
    ("places to 575 pass", |program, start, budget, state, trace, watches| {
        let wrong = |watches: &[Watch]| watches.len() > 8 || places(watches).any(|place| place > 575);
        refusing((program, start, budget), (state, trace), watches, wrong)
    }),
    ("any place passes", |program, start, budget, state, trace, watches| {
        let wrong = |watches: &[Watch]| watches.len() > 8;
        refusing((program, start, budget), (state, trace), watches, wrong)
    }),
    ("places modulo 1,024", |program, start, budget, state, trace, watches| {
        let wrong = |watches: &[Watch]| watches.len() > 8 || places(watches).any(|place| place % 1_024 > 543);
        refusing((program, start, budget), (state, trace), watches, wrong)
    }),
    ("places with a sign", |program, start, budget, state, trace, watches| {
        let wrong = |watches: &[Watch]| watches.len() > 8 || places(watches).any(|place| place as i16 > 543);
        refusing((program, start, budget), (state, trace), watches, wrong)
    }),
    ("the first place alone looked at", |program, start, budget, state, trace, watches| {
        let wrong = |watches: &[Watch]| watches.len() > 8 || places(watches).take(1).any(|place| place > 543);
        refusing((program, start, budget), (state, trace), watches, wrong)
    }),
    ("the last place not looked at", |program, start, budget, state, trace, watches| {
        let wrong = |watches: &[Watch]| {
            let count = watches.len();
            count > 8 || places(&watches[..count.saturating_sub(1)]).any(|place| place > 543)
        };
        refusing((program, start, budget), (state, trace), watches, wrong)
    }),
    ("26 not where no step is done", |program, start, budget, state, trace, watches| {
        let idle = budget == 0 || start as usize >= program.len() / SIX;
        refusing((program, start, budget), (state, trace), watches, |watches| !idle && is_wrong(watches))
    }),
    ("26 resets the watches", |program, start, budget, state, trace, watches| {
        leaving((program, start, budget), (state, trace), watches, 26..=26, |_, _, watches| reset(watches))
    }),
    ("20 resets the watches", |program, start, budget, state, trace, watches| {
        leaving((program, start, budget), (state, trace), watches, 18..=20, |_, _, watches| reset(watches))
    }),
    ("refusals of the program reset the watches", |program, start, budget, state, trace, watches| {
        leaving((program, start, budget), (state, trace), watches, 3..=7, |_, _, watches| reset(watches))
    }),
    ("26 after the run", |program, start, budget, state, trace, watches| {
        match Paper.run_watched(program, start, budget, state, trace, watches) {
            Refused { number: 26, .. } => {
                Paper.run(program, start, budget, state, trace);
                refused(26)
            }
            answer => answer,
        }
    }),
];

// ---------------------------------------------------------------- other runs

/// A watched run and something done to what it leaves besides the watches.
fn besides(
    (program, start, budget): (&[u16], u16, u16),
    (state, trace): (&mut [u8], &mut [u16]),
    watches: &mut [Watch],
    change: impl Fn(Answer, &mut [u8], &mut [u16], &[Watch]) -> Answer,
) -> Answer {
    match Paper.run_watched(program, start, budget, state, trace, watches) {
        answer @ Refused { .. } => answer,
        answer => change(answer, state, trace, watches),
    }
}

/// A watched run with another run in it: the watches are right, but answer, state and trace are that run's.
pub fn watched_as(
    (program, start, budget): (&[u16], u16, u16),
    (state, trace): (&mut [u8], &mut [u16]),
    watches: &mut [Watch],
    run: impl Fn(&mut [u8], &mut [u16]) -> Answer,
) -> Answer {
    let (mut state_left, mut trace_left) = (state.to_vec(), trace.to_vec());
    let answer = run(&mut state_left, &mut trace_left);
    if let Refused { .. } = answer {
        return answer;
    }
    if is_wrong(watches) {
        return refused(26);
    }
    let mut enough = vec![0; ROW * budget as usize];
    Paper.run_watched(program, start, budget, state, &mut enough, watches);
    state.copy_from_slice(&state_left);
    trace.copy_from_slice(&trace_left);
    answer
}

const OTHER_RUNS: [(&str, RunWatched); 8] = [
    ("no rows", |program, start, budget, state, trace, watches| {
        Paper.run_watched(program, start, budget, state, &mut trace.to_vec(), watches)
    }),
    ("the state is left", |program, start, budget, state, trace, watches| {
        Paper.run_watched(program, start, budget, &mut state.to_vec(), trace, watches)
    }),
    ("watched places are left", |program, start, budget, state, trace, watches| {
        let before = state.to_vec();
        besides((program, start, budget), (state, trace), watches, |answer, state, _, watches| {
            for watch in watches {
                state[watch.place as usize] = before[watch.place as usize];
            }
            answer
        })
    }),
    ("the row before a watched write is cleared", |program, start, budget, state, trace, watches| {
        besides((program, start, budget), (state, trace), watches, |answer, _, trace, watches| {
            if let Some(watch) = watches.iter().find(|watch| watch.step > 1) {
                trace[ROW * (watch.step as usize - 2)..][..ROW].fill(0);
            }
            answer
        })
    }),
    ("the rest of the trace is cleared", |program, start, budget, state, trace, watches| {
        besides((program, start, budget), (state, trace), watches, |answer, _, trace, _| {
            let (Halted { steps, .. } | Spent { steps, .. }) = answer else { return answer };
            trace[ROW * steps as usize..].fill(0);
            answer
        })
    }),
    ("one step more is counted", |program, start, budget, state, trace, watches| {
        besides((program, start, budget), (state, trace), watches, |answer, _, _, _| match answer {
            Halted { counter, steps } => Halted { counter, steps: steps.wrapping_add(1) },
            answer => answer,
        })
    }),
    ("spent at the last step of the budget", |program, start, budget, state, trace, watches| {
        besides((program, start, budget), (state, trace), watches, |answer, _, _, _| match answer {
            Halted { counter, steps } if steps == budget => Spent { counter, steps },
            answer => answer,
        })
    }),
    ("the counter stops at the line count", |program, start, budget, state, trace, watches| {
        besides((program, start, budget), (state, trace), watches, |answer, _, _, _| match answer {
            Halted { steps, .. } => Halted { counter: (program.len() / SIX) as u16, steps },
            answer => answer,
        })
    }),
];

//! Request 07: runs that put addresses on the bus in every way, whole and cut in two, and walks that may leave
//! several there.

use super::{numbered, steps, Comparison};
use crate::answer::Answer;
use crate::generate as make;
use crate::paper::walk::{self, step_on_sets, step_on_sets_by, Sets, Stop, MOST_VALUES};
use crate::paper::{self, address, Line, Opcode, Operand, Point, ROW};
use std::collections::BTreeSet;

/// What has been tried.
#[derive(Clone, Default)]
pub struct Bus {
    /// Addresses of steps by field (first argument, second, destination) and form (`@`, `!`, `%`, `^`).
    pub addresses: [[u64; 4]; 3],
    /// Of them 0 after another address, by field; and fields without one that leave another than 0 on the bus:
    /// registers, literals, empty ones.
    pub zeros: [u64; 3],
    pub none: [u64; 3],
    /// Steps that write a cell which they read, and steps that write a base which they read through.
    pub twice: u64,
    pub bases: u64,
    /// Branches with an address: not taken, taken.
    pub branches: [u64; 2],
    /// Steps with an address after one without any that kept another than 0 on the bus: a nop, a jmp, others.
    pub kept: [u64; 3],
    /// Runs cut in two, and those of them where the distance of the first address shows it.
    pub cut: u64,
    pub shown: u64,
    /// Stores refused with 20, of 9 × budget numbers less one, of 8 × budget and of 6 × budget.
    pub short: [u64; 3],
    /// Lines with tables that expansions did, by layout and table.
    pub tables: [[u64; 3]; 6],
    /// Walks by the most addresses on the bus, and their steps from several that have an address and no leak.
    pub most: [u64; MOST_VALUES + 1],
    pub passed: u64,
    /// Leaks in distances alone; those of them that none of several addresses on the bus shows alone.
    pub leaks: u64,
    pub of_several: u64,
    /// Leaks in distances alone of a branch's step.
    pub at_branch: u64,
}

/// The operands of a line in the order of the bus.
fn operands(line: &Line) -> [Option<Operand>; 3] {
    [line.first, line.second, line.destination]
}

/// Which form an operand has, among those with an address (`@`, `!`, `%`, `^`) or among those without (a register,
/// a literal, an empty field).
fn form(operand: Option<Operand>) -> usize {
    match operand {
        Some(Operand::Cell(_)) | Some(Operand::Register(_)) => 0,
        Some(Operand::Public { .. }) | Some(Operand::Literal(_)) => 1,
        Some(Operand::Sensitive { .. }) | None => 2,
        Some(Operand::Table { .. }) => 3,
    }
}

fn is_branch(line: &Line) -> bool {
    matches!(line.opcode, Opcode::Beq | Opcode::Bne)
}

impl Bus {
    /// Counts the steps of a run from line 0.
    fn add_run(&mut self, lines: &[Line], steps: usize, state: &[u8]) {
        let mut state = state.to_vec();
        let mut point = Point::start(0);
        let mut before: Option<&Line> = None;
        for _ in 0..steps {
            let line = &lines[point.counter as usize];
            let addresses = operands(line).map(|operand| address(operand, &state));
            self.add_addresses(line, point.bus, addresses);
            if let (Some(before), true) = (before, point.bus != 0) {
                self.add_kept(before, addresses);
            }
            let (next, _) = paper::step(line, point, &mut state);
            let after = operands(line).map(|operand| address(operand, &state));
            self.bases += (after != addresses) as u64;
            if is_branch(line) && addresses != [None; 3] {
                self.branches[(Some(next.counter) == line.target) as usize] += 1;
            }
            before = (addresses == [None; 3]).then_some(line);
            point = next;
        }
    }

    /// Counts the addresses of a step, given what is on the bus before it.
    fn add_addresses(&mut self, line: &Line, mut bus: u16, addresses: [Option<u16>; 3]) {
        for (field, operand) in operands(line).into_iter().enumerate() {
            match addresses[field] {
                Some(address) => {
                    self.addresses[field][form(operand)] += 1;
                    self.zeros[field] += (address == 0 && bus != 0) as u64;
                    bus = address;
                }
                None => self.none[form(operand)] += (bus != 0) as u64,
            }
        }
        let [first, second, destination] = addresses;
        self.twice += (destination.is_some() && [first, second].contains(&destination)) as u64;
    }

    /// Counts a step with an address, after this line that had none and left another one on the bus.
    fn add_kept(&mut self, before: &Line, addresses: [Option<u16>; 3]) {
        let which = match before.opcode {
            Opcode::Nop => 0,
            Opcode::Jmp => 1,
            _ => 2,
        };
        self.kept[which] += (addresses != [None; 3]) as u64;
    }

    /// Counts a marked line with a table, in one of the six layouts.
    pub(super) fn add_table(&mut self, layout: usize, line: &Line) {
        let tables = [Opcode::And, Opcode::Orr, Opcode::Xor];
        if let Some(table) = tables.iter().position(|&opcode| line.marked && line.opcode == opcode) {
            self.tables[layout][table] += 1;
        }
    }

    /// Walks once more and counts what the bus does there.
    fn add_walk(&mut self, lines: &[Line], sets: Sets, budget: usize) {
        let mut most = 1;
        walk::walk(lines, sets, budget as u16, |line, counter, sets| {
            let from_several = sets.bus.len() > 1;
            let next = step_on_sets(line, counter, sets);
            match next {
                Ok(_) => self.passed += (from_several && has_address(line, sets)) as u64,
                Err(Stop::Leak) => self.add_leak(line, counter, sets),
                Err(Stop::Refused(_)) => (),
            }
            most = most.max(sets.bus.len());
            next
        });
        self.most[most] += 1;
    }

    /// Counts a leak, if it is in the distances alone.
    fn add_leak(&mut self, line: &Line, counter: u16, sets: &Sets) {
        let without_distances = |line: &Line, point, state: &mut [u8]| {
            let (next, mut row) = paper::step(line, point, state);
            row[6..].fill(0);
            (next, row)
        };
        if step_on_sets_by(line, counter, &mut sets.clone(), without_distances).is_err() {
            return;
        }
        let alone = |&bus: &u16| Sets { bus: BTreeSet::from([bus]), ..sets.clone() };
        let leaks_alone = |bus: &u16| step_on_sets(line, counter, &mut alone(bus)).is_err();
        self.leaks += 1;
        self.of_several += !sets.bus.iter().any(leaks_alone) as u64;
        self.at_branch += is_branch(line) as u64;
    }

    pub fn show(&self) -> String {
        let mut shown = format!(
            "\naddresses on the bus by field and form: {:?}, 0 after another: {:?}, none after another: {:?}",
            self.addresses, self.zeros, self.none
        );
        shown += &format!(
            "; cells read and written: {}, bases written: {}, branches not taken and taken: {:?}",
            self.twice, self.bases, self.branches
        );
        shown += &format!(
            "\nkept over nop, jmp, others: {:?}; runs cut in two: {}, shown by a distance: {}",
            self.kept, self.cut, self.shown
        );
        shown += &format!("; 20 for a number less, 8 and 6 x budget: {:?}", self.short);
        shown += &format!("\nlines with tables by layout: {:?}", self.tables);
        shown += &format!(
            "\nwalks by the most addresses on the bus: {}; steps from several: {}",
            numbered(&self.most),
            self.passed
        );
        shown
            + &format!(
                "; leaks in distances alone: {}, {} of several addresses together, {} at a branch",
                self.leaks, self.of_several, self.at_branch
            )
    }
}

/// Whether a line has an address, whatever the values are.
fn has_address(line: &Line, sets: &Sets) -> bool {
    let is_cell = |operand: Operand| walk::reach(operand, &sets.places).iter().any(|&place| place >= 32);
    operands(line).into_iter().flatten().any(is_cell)
}

impl Comparison<'_> {
    /// A run whole, cut in two, and with too little room for its trace; or a walk.
    pub(super) fn bus(&mut self) -> Result<(), String> {
        if !self.rng.one_in(4) {
            return self.bus_walk();
        }
        let lines = make::bus::program(&mut self.rng);
        let program = make::stored(&lines);
        let state = make::bus::state(&mut self.rng);
        let budget = self.rng.within(1, 40);
        let (answer, _, trace) = self.run(&program, (0, budget), &state, ROW * budget)?;
        self.counts.bus.add_run(&lines, steps(answer), &state);
        self.cut_in_two(&program, &state, &trace[..ROW * steps(answer)])?;
        let short = [ROW * budget - 1, 8 * budget, 6 * budget];
        for (which, room) in short.into_iter().enumerate() {
            let (answer, _, _) = self.run(&program, (0, budget), &state, room)?;
            self.counts.bus.short[which] += matches!(answer, Answer::Refused { number: 20, .. }) as u64;
        }
        Ok(())
    }

    /// A run that goes on where another one stopped has the rows of the whole one, but for the distance of its
    /// first address: the bus starts at 0, so that this is the count of the address's ones.
    fn cut_in_two(&mut self, program: &[u16], state: &[u8], whole: &[u16]) -> Result<(), String> {
        let done = whole.len() / ROW;
        let cut = self.rng.below(done + 1);
        let (stopped, state, front) = self.run(program, (0, cut), state, ROW * cut)?;
        let begin = (super::counter(stopped), done - cut);
        let (_, _, back) = self.run(program, begin, &state, ROW * (done - cut))?;
        let (wanted_front, wanted_back) = whole.split_at(ROW * cut);
        let other: Vec<usize> = (0..back.len()).filter(|&at| back[at] != wanted_back[at]).collect();
        let right = match other[..] {
            [] => true,
            // The ones of an address stand three numbers before its distance.
            [at] => at % ROW >= 6 && back[at] == back[at - 3],
            _ => false,
        };
        if !right || front != wanted_front {
            return Err(format!(
                "cut after {cut} steps the rows are others\n{}whole {whole:?}\nfront {front:?}\nback {back:?}\n",
                super::show_lines(program)
            ));
        }
        self.counts.bus.cut += 1;
        self.counts.bus.shown += !other.is_empty() as u64;
        Ok(())
    }

    /// A walk that mostly has several addresses on the bus; its verdict must hold of runs.
    fn bus_walk(&mut self) -> Result<(), String> {
        let (lines, sets) = make::bus::walk(&mut self.rng);
        let program = make::stored(&lines);
        let bytes = make::set_bytes(&mut self.rng, &sets);
        let budget = self.rng.below(100);
        let answer = self.judge(&program, &bytes, budget)?;
        if let Ok(start) = walk::start(&bytes) {
            self.counts.bus.add_walk(&lines, start, budget);
        }
        self.verdict_holds(&program, &sets, budget, answer)
    }
}

//! Request 09: runs with watches on places that they write, read or leave alone, whole and cut in two, and what is
//! refused of them.

use super::{
    counter, in_sixteen_bits, numbered, show_lines, size, steps, Comparison, Entry, Small, NONE, REFUSALS,
};
use crate::answer::{Answer, Dualrail, Watch};
use crate::generate as make;
use crate::generate::watch::{Step, Wrong};
use crate::paper::watch::MOST_WATCHES;
use crate::paper::{self, Line, Operand, Paper, MOST_LINES, ROW, STATE};

/// Places at the ends: of the registers, of the cells, of the table page.
const ENDS: [usize; 5] = [0, 31, 32, 288, 543];

/// What has been tried.
#[derive(Clone, Default)]
pub struct Watches {
    /// Runs that were not refused, by how many watches they have; those of them without a step, by budget 0 and by a
    /// start past the end.
    pub lists: [u64; MOST_WATCHES + 1],
    pub idle: [u64; 2],
    /// Their watches on places that no step touches, that are read alone, that are written once, and more often.
    pub touched: [u64; 4],
    /// Those that hold another value than 0 though no write reached them.
    pub unwritten: u64,
    /// Those on a place that another watch names too.
    pub twice: u64,
    /// Of the written ones: by the form of the destination that wrote last (`r`, `@`, `!`, `%`, `^`); those whose last
    /// write left the value as it was, and those that all writes left so.
    pub forms: [u64; 5],
    pub same: u64,
    pub always_same: u64,
    /// Those whose last write was of an argument of its own line, of a base of its own line, and by a destination that
    /// is another place when the run has ended.
    pub argument: u64,
    pub base: u64,
    pub elsewhere: u64,
    /// Those that were read after their last write.
    pub read_later: u64,
    /// Those written by the first step last; by the last step of a run that halted, that was spent.
    pub first: u64,
    pub last: [u64; 2],
    /// Those written at an end of the places.
    pub ends: [u64; ENDS.len()],
    /// Those with more than 255 writes, with more than 32,767, with a step above 255, above 32,767, and of 65,535; with
    /// as many writes as there can be.
    pub large: [u64; 5],
    pub most: u64,
    /// Runs compared with those without watches; watches compared with themselves alone, with the run cut at their step,
    /// and with a run cut in two, of which they are written in the front, in the back, in both.
    pub without: u64,
    pub alone: u64,
    pub cut: u64,
    pub halves: [u64; 3],
    /// Refusals by number: of right lists, of wrong ones.
    pub refusals: [[u64; REFUSALS]; 2],
    /// Refusals 26 for the count, for a place, for both; for 9 right watches, and for places of which the largest is 544.
    pub wrong: [u64; 3],
    pub nearest: [u64; 2],
    /// Refusals 26 of runs that would do no step; refusals 20 of stores that a count of sixteen bits would take.
    pub idle_26: u64,
    pub wide: u64,
}

/// Which form a destination has.
fn form(line: &Line) -> usize {
    match line.destination {
        Some(Operand::Cell(_)) => 1,
        Some(Operand::Public { .. }) => 2,
        Some(Operand::Sensitive { .. }) => 3,
        Some(Operand::Table { .. }) => 4,
        _ => 0,
    }
}

impl Watches {
    /// Counts a run that was not refused: its steps, and what it left.
    fn add(&mut self, run: &Run, steps: &[Step], left: &Left) {
        self.lists[left.watches.len()] += 1;
        if steps.is_empty() {
            self.idle[(run.budget > 0) as usize] += 1;
        }
        for (at, watch) in left.watches.iter().enumerate() {
            let others = left.watches.iter().enumerate().filter(|&(other, _)| other != at);
            self.twice += others.map(|(_, other)| other.place).any(|place| place == watch.place) as u64;
            self.add_watch(steps, left, *watch);
        }
    }

    fn add_watch(&mut self, steps: &[Step], left: &Left, watch: Watch) {
        let place = watch.place as usize;
        let reads = |step: &Step| step.arguments.contains(&place) || step.bases.contains(&place);
        let writes: Vec<usize> = (0..steps.len()).filter(|&at| steps[at].written == Some(place)).collect();
        let Some(&last) = writes.last() else {
            self.touched[steps.iter().any(reads) as usize] += 1;
            self.unwritten += (watch.value != 0) as u64;
            return;
        };
        self.touched[if writes.len() == 1 { 2 } else { 3 }] += 1;
        self.add_last(&steps[last], left, place);
        let same = |&at: &usize| steps[at].before == steps[at].after;
        self.always_same += writes.iter().all(same) as u64;
        self.read_later += steps[last + 1..].iter().any(reads) as u64;
        self.first += (last == 0) as u64;
        if last + 1 == steps.len() {
            self.last[matches!(left.answer, Answer::Spent { .. }) as usize] += 1;
        }
        let (writes, step) = (writes.len(), last + 1);
        let large = [writes > 255, writes > 32_767, step > 255, step > 32_767, step == 65_535];
        self.large.iter_mut().zip(large).for_each(|(count, holds)| *count += holds as u64);
        // There are at most 32,768 lines, so that one step of a full budget at least is a jump.
        self.most += (writes == 65_534) as u64;
    }

    /// Counts the step that wrote a place last.
    fn add_last(&mut self, step: &Step, left: &Left, place: usize) {
        self.forms[form(&step.line)] += 1;
        self.same += (step.before == step.after) as u64;
        self.argument += step.arguments.contains(&place) as u64;
        self.base += step.bases.contains(&place) as u64;
        self.elsewhere += (paper::written_place(&step.line, &left.state) != Some(place)) as u64;
        if let Some(end) = ENDS.iter().position(|&end| end == place) {
            self.ends[end] += 1;
        }
    }

    /// Counts a call that was refused so.
    fn add_refusal(&mut self, number: u16, wrong: Wrong, watches: &[Watch], idle: bool) {
        self.refusals[(wrong != Wrong::Nothing) as usize][number as usize] += 1;
        if number == 26 {
            self.wrong[wrong as usize - 1] += 1;
            let largest = watches.iter().map(|watch| watch.place as usize).max();
            self.nearest[0] += (wrong == Wrong::Count && watches.len() == MOST_WATCHES + 1) as u64;
            self.nearest[1] += (wrong == Wrong::Place && largest == Some(STATE)) as u64;
            self.idle_26 += idle as u64;
        }
    }

    pub fn show(&self) -> String {
        let mut shown = format!(
            "\nwatched runs by their watches: {:?}, without a step: {:?}; watches untouched, read, written once, more often: {:?}",
            self.lists, self.idle, self.touched
        );
        shown += &format!(
            ", unwritten and not 0: {}, on one place twice: {}; written last by r, @, !, %, ^: {:?}",
            self.unwritten, self.twice, self.forms
        );
        shown += &format!(
            "\nthe same value last {}, always {}; its own argument {}, its own base {}, elsewhere at the end {}, read later {}",
            self.same, self.always_same, self.argument, self.base, self.elsewhere, self.read_later
        );
        shown += &format!(
            "; last at step 1: {}, at the last step halted and spent: {:?}, at the ends: {:?}",
            self.first, self.last, self.ends
        );
        shown += &format!(
            "\nwrites above 255, 32,767, steps above 255, 32,767, of 65,535: {:?}, most writes: {}",
            self.large, self.most
        );
        shown += &format!(
            "; compared without watches: {}, alone: {}, cut at the step: {}, cut in two: {:?}",
            self.without, self.alone, self.cut, self.halves
        );
        shown += &format!(
            "\nwatched runs refused with right lists: {}; with wrong ones: {}",
            numbered(&self.refusals[0]),
            numbered(&self.refusals[1])
        );
        shown
            + &format!(
                "; 26 for the count, a place, both: {:?}, for nine, for 544: {:?}, without a step: {}; 20 past 16 bits: {}",
                self.wrong, self.nearest, self.idle_26, self.wide
            )
    }
}

/// A run to watch.
struct Run<'a> {
    lines: &'a [Line],
    program: &'a [u16],
    start: usize,
    budget: usize,
    state: &'a [u8],
}

impl<'a> Run<'a> {
    /// The same run with this budget.
    fn with(&self, budget: usize) -> Run<'a> {
        Run { budget, ..*self }
    }

    /// A report with the run unless this holds.
    fn must(&self, holds: bool, what: &str, watches: &[Watch]) -> Result<(), String> {
        if holds {
            return Ok(());
        }
        Err(format!(
            "{what}\nstart {}, budget {}, watches {watches:?}\n{}state {:?}\n",
            self.start,
            self.budget,
            show_lines(self.program),
            self.state
        ))
    }
}

/// What a run leaves: its rows are those of the steps done.
struct Left {
    answer: Answer,
    state: Vec<u8>,
    rows: Vec<u16>,
    watches: Vec<Watch>,
}

impl Comparison<'_> {
    /// A watched run and what must hold of it; every third one refused, or nearly so.
    pub(super) fn watches(&mut self) -> Result<(), String> {
        if self.rng.one_in(3) {
            for _ in 0..4 {
                self.watches_refused()?;
            }
            return Ok(());
        }
        let lines = match self.rng.below(4) {
            0 => make::bus::program(&mut self.rng),
            _ => make::watch::program(&mut self.rng),
        };
        let program = make::stored(&lines);
        let state = make::bus::state(&mut self.rng);
        let budget = self.budget();
        let start = if self.rng.one_in(2) { 0 } else { self.start(lines.len()) };
        self.watched(&Run { lines: &lines, program: &program, start, budget, state: &state })
    }

    /// Runs of as many steps as there can be, with as many writes of one place, in programs of any length; and programs
    /// of too many lines.
    pub(super) fn long_watched(&mut self) -> Result<(), String> {
        let count = match self.rng.below(4) {
            0 => MOST_LINES - 1,
            1 => self.rng.within(1, 4),
            _ => self.rng.within(4, 40),
        };
        let lines = make::watch::writing_loop(&mut self.rng, count);
        let program = make::stored(&lines);
        let state = make::bus::state(&mut self.rng);
        let budget = self.rng.pick(&[65_535, 65_535, 65_534, 33_000]);
        self.watched(&Run { lines: &lines, program: &program, start: 0, budget, state: &state })?;
        let count = MOST_LINES - 1 + self.rng.pick(&[0, 1, 2, 2, 2]);
        let program = make::stored(&make::long_program(&mut self.rng, count, false));
        self.refused_about(program)
    }

    /// A call of a watched run.
    fn run_watched(&mut self, run: &Run, room: usize, watches: &[Watch]) -> Result<Left, String> {
        let trace = self.some_numbers(room);
        let small = Small { start: run.start as u16, budget: run.budget as u16, ..NONE };
        let lent = (run.state, &trace[..]);
        let (answer, call) =
            self.call_with(Entry::RunWatched, small, (&[], run.program), lent, (watches, &[]))?;
        let rows = call.lent_numbers.part();
        Ok(Left {
            answer,
            state: call.lent_bytes.part().to_vec(),
            rows: rows[..rows.len().min(ROW * steps(answer))].to_vec(),
            watches: call.watches.part().to_vec(),
        })
    }

    /// A run with just enough room, on these watches with anything else in their other fields.
    fn watch_anew(&mut self, run: &Run, watches: &[Watch]) -> Result<Left, String> {
        let watches = make::watch::anew(&mut self.rng, watches);
        self.run_watched(run, ROW * run.budget, &watches)
    }

    /// A run that is not refused, and what must hold of it.
    fn watched(&mut self, run: &Run) -> Result<(), String> {
        let mut trace = vec![0; ROW * run.budget];
        let answer =
            Paper.run(run.program, run.start as u16, run.budget as u16, &mut run.state.to_vec(), &mut trace);
        let done = make::watch::steps(run.lines, run.start, steps(answer), &mut run.state.to_vec());
        let list = make::watch::list(&mut self.rng, &done);
        let room = ROW * run.budget + self.rng.pick(&[0, 0, 1, ROW]);
        let left = self.run_watched(run, room, &list)?;
        self.counts.watches.add(run, &done, &left);
        self.same_without(run, &left)?;
        // All watches where that is soon done.
        let chosen = match left.watches.len() {
            0 => return Ok(()),
            count if run.budget > 2_000 => vec![self.rng.below(count)],
            count => (0..count).collect(),
        };
        for at in chosen {
            self.same_alone(run, &left, left.watches[at])?;
            self.cut_at_step(run, left.watches[at])?;
        }
        self.watched_in_two(run, &left)
    }

    /// "Trace and state are those without the list", and so is the answer.
    fn same_without(&mut self, run: &Run, left: &Left) -> Result<(), String> {
        let (answer, state, trace) =
            self.run(run.program, (run.start, run.budget), run.state, ROW * run.budget)?;
        let same = answer == left.answer && state == left.state && trace.starts_with(&left.rows);
        run.must(same, "the run is another one without watches", &left.watches)?;
        self.counts.watches.without += 1;
        Ok(())
    }

    /// A watch holds the same alone as among others.
    fn same_alone(&mut self, run: &Run, left: &Left, watch: Watch) -> Result<(), String> {
        let alone = self.watch_anew(run, &[watch])?;
        run.must(alone.watches == [watch], "a watch holds something else alone", &left.watches)?;
        self.counts.watches.alone += 1;
        Ok(())
    }

    /// The run cut at a watch's step has the value there already, and the step before it one write less. Where there is
    /// no write, the value is that of before the run.
    fn cut_at_step(&mut self, run: &Run, watch: Watch) -> Result<(), String> {
        let (place, step) = (watch.place as usize, watch.step as usize);
        if step == 0 {
            let right = watch.writes == 0 && watch.value == run.state[place];
            return run.must(right, "a watch without a write", &[watch]);
        }
        let cut = self.watch_anew(&run.with(step), &[watch])?;
        let right = steps(cut.answer) == step && cut.state[place] == watch.value && cut.watches == [watch];
        run.must(right, "the run cut at the watch's step", &[watch])?;
        let before = self.watch_anew(&run.with(step - 1), &[watch])?.watches[0];
        let right = before.writes + 1 == watch.writes && before.step < watch.step;
        run.must(right, "the run cut before the watch's step", &[watch])?;
        self.counts.watches.cut += 1;
        Ok(())
    }

    /// Of a run cut in two the writes add up, and the last one is that of the back, if it has any.
    fn watched_in_two(&mut self, run: &Run, whole: &Left) -> Result<(), String> {
        let done = steps(whole.answer);
        let cut = self.rng.below(done + 1);
        let front = self.watch_anew(&run.with(cut), &whole.watches)?;
        let rest = Run { start: counter(front.answer), budget: done - cut, state: &front.state, ..*run };
        let back = self.watch_anew(&rest, &whole.watches)?;
        for (at, watch) in whole.watches.iter().enumerate() {
            let (front, back) = (front.watches[at], back.watches[at]);
            let step = if back.step > 0 { cut as u16 + back.step } else { front.step };
            let wanted = Watch { writes: front.writes + back.writes, step, ..back };
            run.must(*watch == wanted, &format!("cut after {cut} steps"), &[*watch, front, back])?;
            match (front.writes > 0, back.writes > 0) {
                (false, false) => (),
                (first, second) => self.counts.watches.halves[first as usize + 2 * second as usize - 1] += 1,
            }
        }
        Ok(())
    }

    /// A call that is refused for anything, or just not.
    fn watches_refused(&mut self) -> Result<(), String> {
        let mut program = make::stored(&make::program(&mut self.rng));
        if self.rng.one_in(2) {
            make::damage_numbers(&mut self.rng, &mut program);
        }
        self.refused_about(program)
    }

    /// The same with this program: state, trace and watches are right or wrong, each whatever the others are.
    fn refused_about(&mut self, program: Vec<u16>) -> Result<(), String> {
        let mut state = make::any_state(&mut self.rng);
        if self.rng.one_in(4) {
            let size = make::wrong_length(&mut self.rng);
            state.resize(size, 7);
        }
        let (budget, room) = self.budget_and_room();
        let start = self.start(program.len() / paper::SIX);
        let wrong = self.rng.pick(&Wrong::ALL);
        let watches = make::watch::wrong_list(&mut self.rng, wrong);
        let run = Run { lines: &[], program: &program, start, budget, state: &state };
        let left = self.run_watched(&run, room, &watches)?;
        if let Answer::Refused { number, .. } = left.answer {
            let idle = budget == 0 || start >= program.len() / paper::SIX;
            self.counts.watches.add_refusal(number, wrong, &watches, idle);
            self.counts.watches.wide += (number == 20 && room >= in_sixteen_bits(budget)) as u64;
        }
        Ok(())
    }

    /// A budget, and about the room that it needs; now and then as little as a count of sixteen bits would say.
    fn budget_and_room(&mut self) -> (usize, usize) {
        if self.rng.one_in(20) {
            let budget = self.rng.within(7_282, 65_535);
            return (budget, self.rng.pick(&[in_sixteen_bits(budget), ROW * budget - 1, ROW * budget]));
        }
        let most = self.rng.pick(&[1, 60]);
        let budget = self.rng.within(0, most);
        (budget, size(&mut self.rng, ROW * budget))
    }
}

//! The comparison: seeded random calls on an implementation and on the paper.
//! Answer, lent memory, the guard values around it and the inputs must be the
//! same afterwards. The rules about whole runs are tested on the answers too.

use crate::answer::{Answer, Dualrail, Layout, Watch};
use crate::generate as make;
use crate::lent::Lent;
use crate::paper::walk::SET;
use crate::paper::{self, Kind, Line, Paper, LONGEST, MOST_BYTES, MOST_CHECKED, MOST_LINES, ROW, SIX, STATE};
use crate::random::Random;
use std::collections::BTreeSet;
use std::panic::{catch_unwind, AssertUnwindSafe};

pub mod bus;
pub mod codewords;
pub mod jumps;
pub mod moves;
pub mod nibble;
pub mod published;
pub mod watch;
use bus::Bus;
use codewords::Codewords;
use jumps::Jumps;
use moves::Moves;
use nibble::Nibbles;
use published::Published;
use watch::Watches;

#[derive(Clone, Copy, Debug, PartialEq)]
pub enum Entry {
    Read,
    Write,
    Check,
    Expand,
    ToImage,
    FromImage,
    MoveImage,
    Run,
    RunWatched,
    Judge,
    TakeIn,
    SendOut,
    MapTable,
    Choose,
}

/// The entry points that take one layout.
pub const WITH_LAYOUT: [Entry; 3] = [Entry::Expand, Entry::ToImage, Entry::FromImage];

/// What is handed over besides memory; what an entry point does not have is 0.
#[derive(Clone, Copy, Debug, PartialEq)]
struct Small {
    layout: Layout,
    /// The layout that an image moves to; the other one is its old one.
    new: Layout,
    start: u16,
    budget: u16,
    /// The length of codewords, their ones, and how many are wanted.
    bits: u8,
    ones: u8,
    size: u8,
}

const NONE: Small =
    Small { layout: Layout::LOWEST, new: Layout::LOWEST, start: 0, budget: 0, bits: 0, ones: 0, size: 0 };

/// One call with all its memory; parts that an entry point does not have are empty.
#[derive(Clone, PartialEq)]
struct Call {
    entry: Entry,
    small: Small,
    bytes: Lent<u8>,
    numbers: Lent<u16>,
    lent_bytes: Lent<u8>,
    lent_numbers: Lent<u16>,
    watches: Lent<Watch>,
    weights: Lent<i16>,
}

impl Call {
    fn make(&mut self, on: &dyn Dualrail) -> Answer {
        let Small { layout, new, start, budget, bits, ones, size } = self.small;
        let (bytes, numbers) = (self.bytes.part(), self.numbers.part());
        let (lent_bytes, lent_numbers) = (self.lent_bytes.part_mut(), self.lent_numbers.part_mut());
        match self.entry {
            Entry::Read => on.read(bytes, lent_numbers),
            Entry::Write => on.write(numbers, lent_bytes),
            Entry::Check => on.check(numbers),
            Entry::Expand => on.expand(layout, numbers, lent_numbers),
            Entry::ToImage => on.to_image(layout, bytes, lent_bytes),
            Entry::FromImage => on.from_image(layout, bytes, lent_bytes),
            Entry::MoveImage => on.move_image(layout, new, bytes, lent_bytes),
            Entry::Run => on.run(numbers, start, budget, lent_bytes, lent_numbers),
            Entry::RunWatched => {
                on.run_watched(numbers, start, budget, lent_bytes, lent_numbers, self.watches.part_mut())
            }
            Entry::Judge => on.judge(numbers, bytes, budget),
            Entry::TakeIn => on.take_in(bytes, lent_bytes),
            Entry::SendOut => on.send_out(bytes, lent_bytes),
            Entry::MapTable => on.map_table(bytes, lent_bytes.try_into().expect("a table")),
            Entry::Choose => {
                on.choose(bits, ones, size, self.weights.part(), lent_bytes.try_into().expect("a set"))
            }
        }
    }

    /// What the paper answers to the same call in another layout.
    fn answer_in(&self, layout: Layout) -> Answer {
        Call { small: Small { layout, ..self.small }, ..self.clone() }.make(&Paper)
    }

    fn show(&self) -> String {
        let text = String::from_utf8_lossy(self.bytes.part()).into_owned();
        let mut shown = format!("{:?}, {:?}\n", self.entry, self.small);
        match self.entry {
            Entry::Read | Entry::TakeIn | Entry::SendOut => {
                shown += &(format!("text as string: {text:.20000?}\n") + &self.bytes.show("text"))
            }
            Entry::ToImage | Entry::FromImage | Entry::MoveImage => shown += &self.bytes.show("state"),
            Entry::MapTable => shown += &self.bytes.show("map"),
            Entry::Choose => shown += &self.weights.show("weights"),
            _ => shown += &(self.numbers.show("program") + &show_lines(self.numbers.part())),
        }
        match self.entry {
            Entry::Run => shown += &self.lent_bytes.show("state"),
            Entry::RunWatched => shown += &(self.lent_bytes.show("state") + &self.watches.show("watches")),
            Entry::Judge => shown += &show_sets(self.bytes.part()),
            _ => shown += &format!("lent bytes: {}\n", self.lent_bytes.part().len()),
        }
        shown + &format!("lent numbers: {}\n", self.lent_numbers.part().len())
    }
}

/// The first lines of a stored program as they are written, if it is one.
fn show_lines(program: &[u16]) -> String {
    let lines = paper::stored_program(program).unwrap_or_default();
    lines.iter().take(500).enumerate().map(|(at, line)| format!("{at:6}  {}\n", line.spelling())).collect()
}

/// Lent sets as a list: their length, then each place with its count and values.
fn show_sets(bytes: &[u8]) -> String {
    let mut shown = format!("sets ({} bytes), place: count, values", bytes.len());
    for (place, set) in bytes.chunks(SET).enumerate() {
        let count = (set[0] as usize).min(set.len() - 1);
        shown +=
            &format!("{}{place}: {} {:?}", if place % 8 == 0 { "\n" } else { "; " }, set[0], &set[1..=count]);
    }
    shown + "\n"
}

/// One more than the last number of a refusal.
pub const REFUSALS: usize = 30;

/// What has been tried.
#[derive(Clone, Default)]
pub struct Counts {
    pub calls: u64,
    pub entries: [u64; 14],
    pub refusals: [u64; REFUSALS],
    pub halted: u64,
    pub spent: u64,
    pub steps: u64,
    /// The walks' answers; those refused with 22 at a step once more by themselves.
    pub balanced: u64,
    pub spent_walks: u64,
    pub leaks: u64,
    pub refused_walks: [u64; REFUSALS],
    pub crowded: u64,
    pub steps_on_sets: u64,
    /// Runs from states drawn out of a walk's sets, and leaks that two such runs show.
    pub drawn_runs: u64,
    pub leaks_shown: u64,
    /// Verdicts on one step compared with all states: without leak, with one.
    pub exact: [u64; 2],
    /// Of each entry point with one layout: its successes in each of the six.
    pub in_layout: [[u64; 6]; 3],
    /// Its refusals 23: of a position outside, a spacing outside, both.
    pub outside: [[u64; 3]; 3],
    /// The same by what the call is refused with in neighbours at position 0, at 0 if it is not.
    pub before: [[u64; 24]; 3],
    /// Images refused in their layout that another one takes.
    pub other_images: u64,
    /// Accepted programs that went the whole way in each layout, and the sizes of what was compared there.
    pub whole_runs: [u64; 6],
    pub equal_rows: u64,
    pub followed_steps: u64,
    /// Those of them with a public bit in a marked line.
    pub public_bits: u64,
    /// Walks of their expansions on the images of each layout: balanced, spent.
    pub image_walks: [[u64; 2]; 6],
    /// Of programs full of jumps, of moves, of the bus, of published text, of watches, of the nibble engine, and of
    /// codewords.
    pub jumps: Jumps,
    pub moves: Moves,
    pub bus: Bus,
    pub published: Published,
    pub watches: Watches,
    pub nibbles: Nibbles,
    pub codewords: Codewords,
}

/// Which of the six a layout is.
fn which(layout: Layout) -> usize {
    Layout::ALL.iter().position(|&one| one == layout).expect("one of the six")
}

impl Counts {
    /// Counts a call that was answered so.
    fn add(&mut self, call: &Call, answer: Answer) {
        self.calls += 1;
        self.entries[call.entry as usize] += 1;
        let walk = call.entry == Entry::Judge;
        match answer {
            Answer::Counted(_) => (),
            Answer::Refused { number, .. } => {
                self.refusals[number as usize] += 1;
                self.refused_walks[number as usize] += walk as u64;
            }
            Answer::Halted { .. } => self.halted += 1,
            Answer::Spent { .. } if walk => self.spent_walks += 1,
            Answer::Spent { .. } => self.spent += 1,
            Answer::Balanced { .. } => self.balanced += 1,
            Answer::Leak { .. } => self.leaks += 1,
        }
        let tally = if walk { &mut self.steps_on_sets } else { &mut self.steps };
        *tally += steps(answer) as u64;
        if let Some(entry) = WITH_LAYOUT.iter().position(|&entry| entry == call.entry) {
            self.add_layout(entry, call, answer);
        }
    }

    /// Counts a call of one of the entry points with one layout.
    fn add_layout(&mut self, entry: usize, call: &Call, answer: Answer) {
        let Layout { position, spacing } = call.small.layout;
        match answer {
            Answer::Counted(_) => self.in_layout[entry][which(call.small.layout)] += 1,
            Answer::Refused { number: 23, .. } => {
                self.outside[entry][if position <= 2 { 1 } else { 2 * (spacing > 1) as usize }] += 1;
                let number = match call.answer_in(Layout::LOWEST) {
                    Answer::Refused { number, .. } => number,
                    _ => 0,
                };
                self.before[entry][number as usize] += 1;
            }
            Answer::Refused { number: 19, .. } if call.entry == Entry::FromImage => {
                let taken = |&layout: &Layout| matches!(call.answer_in(layout), Answer::Counted(_));
                self.other_images += Layout::ALL.iter().any(taken) as u64;
            }
            _ => (),
        }
    }

    pub fn show(&self) -> String {
        let mut shown = format!("{} calls:", self.calls);
        let entries = [
            Entry::Read,
            Entry::Write,
            Entry::Check,
            Entry::Expand,
            Entry::ToImage,
            Entry::FromImage,
            Entry::MoveImage,
            Entry::Run,
            Entry::RunWatched,
            Entry::Judge,
            Entry::TakeIn,
            Entry::SendOut,
            Entry::MapTable,
            Entry::Choose,
        ];
        for entry in entries {
            shown += &format!(" {entry:?} {}", self.entries[entry as usize]);
        }
        shown += &format!("\nrefusals: {}", numbered(&self.refusals));
        shown += &format!("\nruns: {} halted, {} spent, {} steps", self.halted, self.spent, self.steps);
        shown += &format!(
            "\nwalks: {} balanced, {} spent, {} leaks, {} steps",
            self.balanced, self.spent_walks, self.leaks, self.steps_on_sets
        );
        shown += &format!(
            ", {} ({} at a step); {} runs drawn, {} leaks shown by them; one step, all states: {:?} without and with leak",
            numbered(&self.refused_walks), self.crowded, self.drawn_runs, self.leaks_shown, self.exact
        );
        shown += &format!(
            "\naccepted programs run whole: {:?} by layout, rows of equal traces: {}, source steps followed: {} ({} with a public bit)",
            self.whole_runs, self.equal_rows, self.followed_steps, self.public_bits
        );
        shown + &self.show_layouts()
    }

    fn show_layouts(&self) -> String {
        let mut shown = format!("\nwalks on images, balanced and spent, by layout: {:?}", self.image_walks);
        for (at, entry) in WITH_LAYOUT.iter().enumerate() {
            shown += &format!(
                "\n{entry:?}: {:?} successes by layout; 23 for the position, the spacing, both: {:?}, before others: {}",
                self.in_layout[at], self.outside[at], numbered(&self.before[at])
            );
        }
        shown += &format!("\nimages refused that another layout takes: {}", self.other_images);
        shown += &(self.jumps.show() + &self.moves.show() + &self.bus.show());
        shown += &(self.published.show() + &self.watches.show() + &self.nibbles.show());
        shown + &self.codewords.show()
    }
}

/// Counts by their numbers, where there are any.
fn numbered(counts: &[u64]) -> String {
    let some: Vec<String> = counts
        .iter()
        .enumerate()
        .filter(|(_, &count)| count > 0)
        .map(|(number, count)| format!("{number}: {count}"))
        .collect();
    some.join(", ")
}

/// The state of a comparison; an error is the report of a difference.
struct Comparison<'a> {
    tested: &'a dyn Dualrail,
    rng: Random,
    counts: Counts,
}

/// Makes the cases `from` to `to` of a seed.
pub fn compare(tested: &dyn Dualrail, seed: u64, from: u64, to: u64) -> Result<Counts, String> {
    let say = std::env::var_os("DUALRAIL_SAY").is_some();
    let mut comparison = Comparison { tested, rng: Random::new(0), counts: Counts::default() };
    for case in from..to {
        if say {
            eprintln!("case {case}");
        }
        comparison.rng = Random::new(seed.wrapping_mul(0x1_0000_0001).wrapping_add(case));
        comparison.case(case).map_err(|report| {
            format!("DIFFERENCE in case {case} of seed {seed} (again with DUALRAIL_SEED={seed} DUALRAIL_CASE={case})\n{report}")
        })?;
    }
    Ok(comparison.counts)
}

/// A size for a lent store where `needed` is just enough.
fn size(rng: &mut Random, needed: usize) -> usize {
    match rng.below(10) {
        0 => 0,
        1 => rng.below(needed + 1),
        2 => needed.saturating_sub(1),
        3 => needed + 1,
        4 => needed + rng.below(20),
        _ => needed,
    }
}

/// The numbers of a trace, were they counted in sixteen bits.
fn in_sixteen_bits(budget: usize) -> usize {
    ROW * budget % 65_536
}

impl Comparison<'_> {
    // ------------------------------------------------------------ calls

    /// Makes one call on both and compares everything.
    fn call(
        &mut self,
        entry: Entry,
        small: Small,
        input: (&[u8], &[u16]),
        lent: (&[u8], &[u16]),
    ) -> Result<(Answer, Call), String> {
        self.call_with(entry, small, input, lent, (&[], &[]))
    }

    /// The same with watches lent too, or with weights.
    fn call_with(
        &mut self,
        entry: Entry,
        small: Small,
        (bytes, numbers): (&[u8], &[u16]),
        (lent_bytes, lent_numbers): (&[u8], &[u16]),
        (watches, weights): (&[Watch], &[i16]),
    ) -> Result<(Answer, Call), String> {
        let rng = &mut self.rng;
        let mut got = Call {
            entry,
            small,
            bytes: Lent::new(rng, bytes, Random::byte),
            numbers: Lent::new(rng, numbers, Random::number),
            lent_bytes: Lent::new(rng, lent_bytes, Random::byte),
            lent_numbers: Lent::new(rng, lent_numbers, Random::number),
            watches: Lent::new(rng, watches, make::watch::any),
            weights: Lent::new(rng, weights, make::codewords::any),
        };
        let before = got.clone();
        let mut wanted = got.clone();
        let wanted_answer = wanted.make(&Paper);
        let Ok(answer) = catch_unwind(AssertUnwindSafe(|| got.make(self.tested))) else {
            return Err(format!("panic, expected {wanted_answer:?}\n{}", before.show()));
        };
        if answer != wanted_answer || got != wanted {
            let mut report = format!("answer {answer:?}, expected {wanted_answer:?}\n");
            report += &got.bytes.differs(&wanted.bytes, "input bytes changed");
            report += &got.numbers.differs(&wanted.numbers, "input numbers changed");
            report += &got.lent_bytes.differs(&wanted.lent_bytes, "lent bytes");
            report += &got.lent_numbers.differs(&wanted.lent_numbers, "lent numbers");
            report += &got.watches.differs(&wanted.watches, "watches");
            report += &got.weights.differs(&wanted.weights, "weights changed");
            return Err(report + &before.show());
        }
        self.counts.add(&before, answer);
        Ok((answer, got))
    }

    fn some_bytes(&mut self, size: usize) -> Vec<u8> {
        (0..size).map(|_| self.rng.byte()).collect()
    }

    fn some_numbers(&mut self, size: usize) -> Vec<u16> {
        (0..size).map(|_| self.rng.number()).collect()
    }

    fn read(&mut self, text: &[u8], size: usize) -> Result<(Answer, Vec<u16>), String> {
        let store = self.some_numbers(size);
        let (answer, call) = self.call(Entry::Read, NONE, (text, &[]), (&[], &store))?;
        Ok((answer, call.lent_numbers.part().to_vec()))
    }

    fn write(&mut self, program: &[u16], size: usize) -> Result<(Answer, Vec<u8>), String> {
        let out = self.some_bytes(size);
        let (answer, call) = self.call(Entry::Write, NONE, (&[], program), (&out, &[]))?;
        Ok((answer, call.lent_bytes.part().to_vec()))
    }

    fn check(&mut self, program: &[u16]) -> Result<Answer, String> {
        Ok(self.call(Entry::Check, NONE, (&[], program), (&[], &[]))?.0)
    }

    fn expand(&mut self, layout: Layout, program: &[u16], size: usize) -> Result<(Answer, Vec<u16>), String> {
        let out = self.some_numbers(size);
        let small = Small { layout, ..NONE };
        let (answer, call) = self.call(Entry::Expand, small, (&[], program), (&[], &out))?;
        Ok((answer, call.lent_numbers.part().to_vec()))
    }

    fn image(
        &mut self,
        entry: Entry,
        layout: Layout,
        state: &[u8],
        size: usize,
    ) -> Result<(Answer, Vec<u8>), String> {
        self.state_to_state(entry, Small { layout, ..NONE }, state, size)
    }

    /// A call that makes a state out of another one, in a store of this size.
    fn state_to_state(
        &mut self,
        entry: Entry,
        small: Small,
        state: &[u8],
        size: usize,
    ) -> Result<(Answer, Vec<u8>), String> {
        let lent = self.some_bytes(size);
        let (answer, call) = self.call(entry, small, (state, &[]), (&lent, &[]))?;
        Ok((answer, call.lent_bytes.part().to_vec()))
    }

    fn run(
        &mut self,
        program: &[u16],
        (start, budget): (usize, usize),
        state: &[u8],
        size: usize,
    ) -> Result<(Answer, Vec<u8>, Vec<u16>), String> {
        let trace = self.some_numbers(size);
        let small = Small { start: start as u16, budget: budget as u16, ..NONE };
        let (answer, call) = self.call(Entry::Run, small, (&[], program), (state, &trace))?;
        Ok((answer, call.lent_bytes.part().to_vec(), call.lent_numbers.part().to_vec()))
    }

    fn judge(&mut self, program: &[u16], sets: &[u8], budget: usize) -> Result<Answer, String> {
        let small = Small { budget: budget as u16, ..NONE };
        Ok(self.call(Entry::Judge, small, (sets, program), (&[], &[]))?.0)
    }

    // ------------------------------------------------------------ cases

    fn case(&mut self, case: u64) -> Result<(), String> {
        if case % 25 == 0 {
            return self.long(case / 25);
        }
        match self.rng.below(25) {
            0..=3 => {
                let lines = make::accepted_program(&mut self.rng);
                self.whole_way(&lines)
            }
            4..=6 => self.texts(),
            7..=8 => self.states(),
            9..=10 => self.stored_programs(),
            11 => self.first_step(),
            12 => self.jumps(),
            13..=14 => self.moves(),
            15..=16 => self.bus(),
            17..=18 => self.published(),
            19..=20 => self.watches(),
            21 => self.nibbles(),
            22 => self.codewords(),
            _ => self.walks(),
        }
    }

    /// A text, right or damaged, into stores of several sizes, and back.
    fn texts(&mut self) -> Result<(), String> {
        let lines = make::program(&mut self.rng);
        let mut text = make::text(&lines);
        if self.rng.below(4) > 0 {
            make::damage_text(&mut self.rng, &mut text);
        }
        if self.rng.one_in(50) {
            let size = self.rng.below(100);
            text = self.some_bytes(size);
        }
        let room = size(&mut self.rng, SIX * lines.len());
        let (_, store) = self.read(&text, room)?;
        // What a refused reading left there is a stored program too, mostly of no lines.
        if self.rng.one_in(4) {
            self.write(&store, 40 * lines.len())?;
        }
        Ok(())
    }

    /// Stored programs, right or damaged, to all that take one.
    fn stored_programs(&mut self) -> Result<(), String> {
        let lines = make::program(&mut self.rng);
        let mut program = make::stored(&lines);
        if self.rng.one_in(3) {
            make::damage_numbers(&mut self.rng, &mut program);
        }
        if self.rng.one_in(3) {
            let more = self.rng.below(SIX);
            program.extend(self.some_numbers(more));
        }
        self.check(&program)?;
        let size_of_text = make::text(&lines).len();
        let room = size(&mut self.rng, size_of_text);
        self.write(&program, room)?;
        self.expand_about(&lines, &program)?;
        self.run_about(&program)
    }

    /// Expands a program, into about the room that these lines need; every other time outside the six layouts too.
    fn expand_about(&mut self, lines: &[Line], program: &[u16]) -> Result<(), String> {
        let layout = make::layout(&mut self.rng);
        let room = size(&mut self.rng, SIX * make::expansion_length(layout, lines));
        self.expand(layout, program, room)?;
        if self.rng.one_in(2) {
            let outside = make::layout_outside(&mut self.rng);
            self.expand(outside, program, room)?;
        }
        Ok(())
    }

    /// Runs a program from a state that mostly is one, with about the room that the budget needs.
    fn run_about(&mut self, program: &[u16]) -> Result<(), String> {
        let mut state = make::any_state(&mut self.rng);
        if self.rng.one_in(8) {
            let size = make::wrong_length(&mut self.rng);
            state.resize(size, 7);
        }
        let budget = self.budget();
        let start = self.start(program.len() / SIX);
        let room = match self.rng.below(8) {
            0 => self.rng.below(ROW * budget + 1),
            1 => (ROW * budget).saturating_sub(1),
            2 => ROW * budget + self.rng.below(20),
            // What the rows of before request 07 need, and those of one distance less.
            3 => self.rng.pick(&[6, 8]) * budget,
            _ => ROW * budget,
        };
        self.run(program, (start, budget), &state, room)?;
        Ok(())
    }

    fn budget(&mut self) -> usize {
        match self.rng.below(200) {
            0 => self.rng.pick(&[65_535, 65_534, 40_000]),
            1..=20 => self.rng.below(3),
            21..=40 => self.rng.below(2_000),
            _ => self.rng.below(100),
        }
    }

    fn start(&mut self, count: usize) -> usize {
        match self.rng.below(8) {
            0 => self.rng.pick(&[count, count + 1, MOST_LINES, 65_535]),
            1 => self.rng.below(65_536),
            2..=4 => 0,
            _ => self.rng.below(count + 1),
        }
    }

    /// States to images and back.
    fn states(&mut self) -> Result<(), String> {
        let layout = make::layout(&mut self.rng);
        let mut bits = make::bit_state(&mut self.rng);
        let mut image = make::image(&mut self.rng, layout);
        if self.rng.below(3) > 0 {
            make::damage_state(&mut self.rng, layout, &mut bits);
            make::damage_state(&mut self.rng, layout, &mut image);
        }
        let wrong = make::wrong_length(&mut self.rng);
        let size = self.rng.pick(&[STATE, STATE, STATE, STATE, wrong]);
        self.image(Entry::ToImage, layout, &bits, size)?;
        self.image(Entry::FromImage, layout, &image, size)?;
        // Each the other way too, where it mostly does not belong.
        if self.rng.one_in(4) {
            self.image(Entry::ToImage, layout, &image, size)?;
            self.image(Entry::FromImage, layout, &bits, size)?;
        }
        if self.rng.one_in(2) {
            let outside = make::layout_outside(&mut self.rng);
            self.image(Entry::ToImage, outside, &bits, size)?;
            self.image(Entry::FromImage, outside, &image, size)?;
        }
        Ok(())
    }

    /// Programs and sets to judge, right or damaged; a verdict must hold of runs.
    fn walks(&mut self) -> Result<(), String> {
        let (lines, sets) = make::walk(&mut self.rng);
        let mut program = make::stored(&lines);
        let mut bytes = make::set_bytes(&mut self.rng, &sets);
        let damaged = [self.rng.one_in(12), self.rng.one_in(8)];
        if damaged[0] {
            make::damage_numbers(&mut self.rng, &mut program);
        }
        if damaged[1] {
            make::damage_sets(&mut self.rng, &mut bytes);
        }
        if self.rng.one_in(3) {
            let more = self.rng.below(SIX);
            program.extend(self.some_numbers(more));
        }
        let budget = self.budget();
        let answer = self.judge(&program, &bytes, budget)?;
        if damaged == [false, false] {
            self.counts.crowded += matches!(answer, Answer::Refused { number: 22, .. }) as u64;
            self.verdict_holds(&program, &sets, budget, answer)?;
        }
        Ok(())
    }

    /// The verdict on one step, where the places are still independent and the bus is at 0, is exact:
    /// a leak just where two of all the states that the sets allow give different rows.
    fn first_step(&mut self) -> Result<(), String> {
        let (lines, sets) = make::small_walk(&mut self.rng);
        let program = make::stored(&lines);
        let bytes = make::set_bytes(&mut self.rng, &sets);
        let leak = match self.judge(&program, &bytes, 1)? {
            Answer::Leak { .. } => true,
            Answer::Balanced { .. } | Answer::Spent { .. } => false,
            _ => return Ok(()),
        };
        let rows: BTreeSet<[u16; ROW]> = make::all_states(&sets)
            .into_iter()
            .map(|mut state| {
                let mut row = [0; ROW];
                Paper.run(&program, 0, 1, &mut state, &mut row);
                row
            })
            .collect();
        if leak != (rows.len() > 1) {
            return Err(format!(
                "leak: {leak}, rows {rows:?}\n{}{}",
                show_lines(&program),
                show_sets(&bytes)
            ));
        }
        self.counts.exact[leak as usize] += 1;
        Ok(())
    }

    /// Runs from states drawn out of the sets end as the walk did, with equal traces; if
    /// it found a leak, as far as that, and mostly two of them differ there.
    fn verdict_holds(
        &mut self,
        program: &[u16],
        sets: &[Vec<u8>],
        budget: usize,
        verdict: Answer,
    ) -> Result<(), String> {
        let alike = ROW * steps(verdict);
        let (budget, end) = match verdict {
            Answer::Balanced { counter, steps } => (budget, Some(Answer::Halted { counter, steps })),
            Answer::Spent { .. } => (budget, Some(verdict)),
            // The step with the leak too, wherever it leads.
            Answer::Leak { steps, .. } => (steps as usize + 1, None),
            _ => return Ok(()),
        };
        let mut first = None;
        let mut shown = false;
        for _ in 0..3 {
            let state = make::drawn_state(&mut self.rng, sets);
            let (answer, _, trace) = self.run(program, (0, budget), &state, ROW * budget)?;
            let first = first.get_or_insert_with(|| trace.clone());
            let right = match verdict {
                Answer::Leak { line, .. } => steps(answer) == budget && trace[alike] == line,
                _ => Some(answer) == end,
            };
            if !right || trace[..alike] != first[..alike] {
                let report = format!("verdict {verdict:?}; a run gives {answer:?} or another trace\n");
                return Err(report + &show_lines(program) + &format!("budget {budget}\nsets {sets:?}\n"));
            }
            self.counts.drawn_runs += 1;
            shown |= end.is_none() && trace[alike..] != first[alike..];
        }
        self.counts.leaks_shown += shown as u64;
        Ok(())
    }

    // ------------------------------------------------------------ long ones

    /// The sizes where 7 and 9 begin, the longest texts and the longest runs.
    fn long(&mut self, which: u64) -> Result<(), String> {
        let near = self.rng.pick(&[0, 1, 2, 2, 2]);
        match which % 7 {
            0 => self.long_text(MOST_LINES - 1 + near),
            1 => self.long_stored(MOST_LINES - 1 + near),
            2 => self.long_accepted(MOST_CHECKED - 1 + near),
            3 => {
                let count = self.rng.pick(&[MOST_CHECKED, 700, 300]);
                let lines = make::long_program(&mut self.rng, count, true);
                self.whole_way(&lines)
            }
            4 => self.long_published(),
            5 => self.long_watched(),
            _ => self.long_run(),
        }
    }

    fn long_text(&mut self, count: usize) -> Result<(), String> {
        let lines = make::long_program(&mut self.rng, count, false);
        let mut text = make::text(&lines);
        if self.rng.one_in(4) {
            make::damage_text(&mut self.rng, &mut text);
        }
        let most = MOST_LINES;
        let room = SIX * self.rng.pick(&[most - 1, most, most, most, most + 1, most + 16]);
        self.read(&text, room)?;
        Ok(())
    }

    /// Any correct lines, to one of those that take a stored program, and outside the six layouts.
    fn long_stored(&mut self, count: usize) -> Result<(), String> {
        let mut program = make::stored(&make::long_program(&mut self.rng, count, false));
        if self.rng.one_in(4) {
            make::damage_numbers(&mut self.rng, &mut program);
        }
        let outside = make::layout_outside(&mut self.rng);
        self.expand(outside, &program, SIX * MOST_CHECKED)?;
        let layout = make::layout(&mut self.rng);
        let state = make::any_state(&mut self.rng);
        let start = self.start(count);
        match self.rng.below(6) {
            0 => drop(self.write(&program, MOST_BYTES)?),
            1 => drop(self.check(&program)?),
            2 => drop(self.expand(layout, &program, SIX * MOST_LINES)?),
            3 => drop(self.run(&program, (start, 300), &state, ROW * 300)?),
            _ => {
                let sets: Vec<Vec<u8>> = state.iter().map(|&value| vec![value]).collect();
                let mut bytes = make::set_bytes(&mut self.rng, &sets);
                if self.rng.one_in(4) {
                    make::damage_sets(&mut self.rng, &mut bytes);
                }
                self.judge(&program, &bytes, 300)?;
            }
        }
        Ok(())
    }

    /// Lines that the mark check takes, if they are not too many.
    fn long_accepted(&mut self, count: usize) -> Result<(), String> {
        let mut program = make::stored(&make::long_program(&mut self.rng, count, true));
        if self.rng.one_in(4) {
            make::damage_numbers(&mut self.rng, &mut program);
        }
        self.check(&program)?;
        let enough = LONGEST * MOST_CHECKED;
        let room = SIX * self.rng.pick(&[enough, enough, MOST_CHECKED, 6_000, MOST_LINES]);
        let layouts = [make::layout(&mut self.rng), make::layout_outside(&mut self.rng)];
        for layout in layouts {
            self.expand(layout, &program, room)?;
        }
        Ok(())
    }

    /// A run that mostly does not end, and the same with as little room as a count of sixteen bits would say.
    fn long_run(&mut self) -> Result<(), String> {
        let mut lines = make::accepted_program(&mut self.rng);
        lines.push(make::jump(0));
        let state = make::any_state(&mut self.rng);
        let budget = self.rng.pick(&[65_535, 65_535, 30_000]);
        for room in [ROW * budget, in_sixteen_bits(budget)] {
            self.run(&make::stored(&lines), (0, budget), &state, room)?;
        }
        Ok(())
    }

    // ------------------------------------------------------------ the whole way

    /// An accepted program the whole way in one of the layouts: text, lines, expansion, images, runs.
    fn whole_way(&mut self, lines: &[Line]) -> Result<(), String> {
        let layout = make::layout(&mut self.rng);
        let mut way = Way::new(layout, lines);
        way.program = self.there_and_back(&way)?;
        way.expansion = self.expanded(&way)?;
        let begin = self.equal_traces(&way)?;
        self.all_images(&way, &begin.image)?;
        self.follows(&way, &begin)?;
        self.counts.whole_runs[which(layout)] += 1;
        Ok(())
    }

    /// Text to lines to text; gives the lines.
    fn there_and_back(&mut self, way: &Way) -> Result<Vec<u16>, String> {
        let lines = way.lines;
        let text = make::text(lines);
        let (answer, program) = self.read(&text, SIX * lines.len())?;
        way.must(answer == Answer::Counted(lines.len() as u32), "a right text is not read")?;
        let (answer, again) = self.write(&program, text.len())?;
        let right = answer == Answer::Counted(text.len() as u32) && again == text;
        way.must(right, "the text does not come back")?;
        let (answer, _) = self.write(&program, text.len() - lines.len().min(1))?;
        way.must(lines.is_empty() || answer == Answer::Refused { number: 17, line: 0 }, "17 is missing")?;
        Ok(program)
    }

    /// The expansion: exact room and too little, now and then outside the six layouts too.
    fn expanded(&mut self, way: &Way) -> Result<Vec<u16>, String> {
        let count = Answer::Counted(way.lines.len() as u32);
        way.must(self.check(&way.program)? == count, "not accepted")?;
        let end = way.start(way.lines.len());
        let (answer, expansion) = self.expand(way.layout, &way.program, SIX * end)?;
        way.must(answer == Answer::Counted(end as u32), "not expanded")?;
        if end > 0 {
            self.expand(way.layout, &way.program, SIX * end - 1)?;
        }
        if self.rng.one_in(8) {
            let outside = make::layout_outside(&mut self.rng);
            let room = size(&mut self.rng, SIX * end);
            self.expand(outside, &way.program, room)?;
        }
        Ok(expansion)
    }

    /// Equal traces from the images of two bit states alike in public places, from one source line with
    /// one budget. Gives the line with the first of the bit states and its image.
    fn equal_traces(&mut self, way: &Way) -> Result<Stand, String> {
        let line = self.start(way.lines.len());
        let one = make::bit_state(&mut self.rng);
        let two = make::same_public(&mut self.rng, &one);
        let (_, image_one) = self.image(Entry::ToImage, way.layout, &one, STATE)?;
        let (_, image_two) = self.image(Entry::ToImage, way.layout, &two, STATE)?;
        let (_, back) = self.image(Entry::FromImage, way.layout, &image_one, STATE)?;
        way.must(back == one, "the bit state does not come back")?;
        self.counts.equal_rows += self.alike(way, line, [&image_one, &image_two])?;
        Ok(Stand { line, bits: one, image: image_one })
    }

    /// Runs from two images and one source line, with one budget, have equal traces and end alike. Gives
    /// how many rows they have.
    fn alike(&mut self, way: &Way, line: usize, [one, two]: [&[u8]; 2]) -> Result<u64, String> {
        let budget = match self.rng.below(50) {
            0 => 20_000,
            1..=4 => 0,
            _ => self.rng.below(600),
        };
        let begin = (way.start(line), budget);
        let (answer_one, _, trace_one) = self.run(&way.expansion, begin, one, ROW * budget)?;
        let (answer_two, _, trace_two) = self.run(&way.expansion, begin, two, ROW * budget)?;
        way.must(answer_one == answer_two, "the runs end differently")?;
        let steps = steps(answer_one);
        way.must(trace_one[..ROW * steps] == trace_two[..ROW * steps], "the traces differ")?;
        Ok(steps as u64)
    }

    /// The verdict on all images at once that have the public places of this one.
    fn all_images(&mut self, way: &Way, image: &[u8]) -> Result<(), String> {
        let sets = make::image_sets(&mut self.rng, way.layout, image);
        let bytes = make::set_bytes(&mut self.rng, &sets);
        let budget = self.rng.below(100);
        let answer = self.judge(&way.expansion, &bytes, budget)?;
        self.verdict_holds(&way.expansion, &sets, budget, answer)?;
        let balanced = matches!(answer, Answer::Balanced { .. });
        let spent = matches!(answer, Answer::Spent { .. });
        way.must(balanced || spent, "the expansion is neither balanced nor spent")?;
        self.counts.image_walks[which(way.layout)][spent as usize] += 1;
        Ok(())
    }

    /// The source does this many steps, or those to its end, and the expansion as many as the parts of the
    /// lines done have. Gives where both stand, and these lines.
    fn both_go(&mut self, way: &Way, from: &Stand, budget: usize) -> Result<(Stand, Vec<usize>), String> {
        let begin = (from.line, budget);
        let (answer, bits, trace) = self.run(&way.program, begin, &from.bits, ROW * budget)?;
        let (line, done) = (counter(answer), steps(answer));
        let lines: Vec<usize> = trace.chunks_exact(ROW).take(done).map(|row| row[0] as usize).collect();
        let length: usize = lines.iter().map(|&line| way.start(line + 1) - way.start(line)).sum();
        let right = done <= length && length <= LONGEST * done;
        way.must(right, "the expansion takes too few or too many steps")?;

        let begin = (way.start(from.line), length);
        let (answer, image, _) = self.run(&way.expansion, begin, &from.image, ROW * length)?;
        let right = steps(answer) == length && counter(answer) == way.start(line);
        way.must(right, "the expansion stands elsewhere")?;
        Ok((Stand { line, bits, image }, lines))
    }

    /// The expansion follows the source.
    fn follows(&mut self, way: &Way, begin: &Stand) -> Result<(), String> {
        let budget = self.rng.below(200);
        let (stand, done) = self.both_go(way, begin, budget)?;
        let source = &stand.bits;
        let (_, decoded) = self.image(Entry::FromImage, way.layout, &stand.image, STATE)?;
        way.must(decoded == *source, "the expansion's state does not decode to the source's")?;
        let (_, wanted) = self.image(Entry::ToImage, way.layout, source, STATE)?;
        let right = scratch_cleared(&stand.image) == wanted;
        way.must(right, "the expansion's state is not the image of the source's")?;

        let mut sensitive = (0..STATE).filter(|&place| paper::kind_of_place(place) == Kind::Sensitive);
        way.must(sensitive.all(|place| source[place] <= 1), "the source's state is no bit state")?;
        let public_bits = done.iter().filter(|&&line| make::has_public_bit(&way.lines[line])).count();
        for &line in &done {
            self.counts.bus.add_table(which(way.layout), &way.lines[line]);
        }
        self.counts.followed_steps += done.len() as u64;
        self.counts.public_bits += public_bits as u64;
        Ok(())
    }
}

/// Where source and expansion stand between two source lines: the line, the bit state, the image.
#[derive(Clone)]
struct Stand {
    line: usize,
    bits: Vec<u8>,
    image: Vec<u8>,
}

/// An image with 0 in r1 to r3, where a run leaves anything.
fn scratch_cleared(image: &[u8]) -> Vec<u8> {
    let mut image = image.to_vec();
    image[1..=3].fill(0);
    image
}

/// An accepted program on its whole way.
struct Way<'a> {
    layout: Layout,
    lines: &'a [Line],
    /// Where each line's part of the expansion starts, and where the last one ends.
    starts: Vec<usize>,
    program: Vec<u16>,
    expansion: Vec<u16>,
}

impl Way<'_> {
    /// The way of these lines, still without their expansion.
    fn new(layout: Layout, lines: &[Line]) -> Way<'_> {
        Way {
            layout,
            lines,
            starts: paper::starts(layout, lines),
            program: make::stored(lines),
            expansion: vec![],
        }
    }

    /// Where the expansion starts for a source line, at its end for one past the line count.
    fn start(&self, line: usize) -> usize {
        self.starts[line.min(self.lines.len())]
    }

    /// A report with the program unless this holds.
    fn must(&self, holds: bool, what: &str) -> Result<(), String> {
        if holds {
            return Ok(());
        }
        let text = String::from_utf8_lossy(&make::text(self.lines)).into_owned();
        Err(format!("{what}\n{:?}, program:\n{text:.20000}", self.layout))
    }
}

fn steps(answer: Answer) -> usize {
    match answer {
        Answer::Halted { steps, .. }
        | Answer::Spent { steps, .. }
        | Answer::Balanced { steps, .. }
        | Answer::Leak { steps, .. } => steps as usize,
        Answer::Counted(_) | Answer::Refused { .. } => 0,
    }
}

fn counter(answer: Answer) -> usize {
    match answer {
        Answer::Halted { counter, .. } | Answer::Spent { counter, .. } => counter as usize,
        _ => usize::MAX,
    }
}

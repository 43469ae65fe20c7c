//! The comparison must find every one of these wrong implementations: the paper's
//! with one fault each.

use dualrail::compare::compare;
use dualrail::generate::has_public_bit;
use dualrail::paper::walk::{
    self, reach, step_on_sets, step_on_sets_by, Sets, Stop, Values, MOST_VALUES, SET,
};
use dualrail::paper::{
    self, is_public, part, starts, step, stored_program, value, Line, Opcode, Operand, Paper, Point, Row,
    MOST_CHECKED, MOST_LINES, PAGE, ROW, SIX, STATE,
};
use dualrail::Answer::{self, *};
use dualrail::{Dualrail, Layout, MapTable, PairTable, Watch, WordSet};
use std::ops::RangeInclusive;

#[path = "catches/bus.rs"]
mod bus;
#[path = "catches/codewords.rs"]
mod codewords;
#[path = "catches/jumps.rs"]
mod jumps;
#[path = "catches/layouts.rs"]
mod layouts;
#[path = "catches/moves.rs"]
mod moves;
#[path = "catches/nibble.rs"]
mod nibble;
#[path = "catches/published.rs"]
mod published;
#[path = "catches/watch.rs"]
mod watch;

/// An entry point with a layout.
type InLayout<T> = fn(Layout, &[T], &mut [T]) -> Answer;
/// The entry point with two.
type Move = fn(Layout, Layout, &[u8], &mut [u8]) -> Answer;
/// What a line becomes in a layout.
type Part = fn(Layout, &Line) -> Vec<Line>;
/// A change of an image in a layout.
type Change = fn(Layout, &mut [u8]);
/// A change of a moved image, by the old layout and the new one, and by what it was before.
type Moved = fn(Layout, Layout, &[u8], &mut [u8]);
/// An entry point that turns one text into another.
type Convert = fn(&[u8], &mut [u8]) -> Answer;
/// What a target becomes, by the starts of the lines and of the end, the jump's line, and the target.
type Aim = fn(&[usize], usize, usize) -> usize;

struct Variant {
    fault: &'static str,
    read: fn(&[u8], &mut [u16]) -> Answer,
    write: fn(&[u16], &mut [u8]) -> Answer,
    check: fn(&[u16]) -> Answer,
    expand: InLayout<u16>,
    to_image: InLayout<u8>,
    from_image: InLayout<u8>,
    move_image: Move,
    run: fn(&[u16], u16, u16, &mut [u8], &mut [u16]) -> Answer,
    run_watched: watch::RunWatched,
    judge: fn(&[u16], &[u8], u16) -> Answer,
    take_in: Convert,
    send_out: Convert,
    encode: nibble::Byte,
    decode: nibble::Byte,
    xor: nibble::Pair,
    xor_table: nibble::WritePairs,
    map_table: nibble::WriteMap,
    look_up: nibble::LookUp,
    look_up_pair: nibble::LookUpPair,
    choose: codewords::Choose,
    /// What an entry of the exclusive-or table is, by the halves of its index, if it is not the right one.
    entry: Option<nibble::Pair>,
    /// The parts that an expansion is made of, if they are not the right ones.
    part: Option<Part>,
    /// The parts whose lengths the starts are added up of, and what targets then become, if not the right ones.
    targets: Option<(Part, Aim)>,
    /// What is done to an image after it is made, and before the way back from it.
    made: Change,
    given: Change,
    /// What is done to an image before it moves, in its old layout, and afterwards, in its new one or by both.
    handed: Change,
    arrived: Change,
    moved: Moved,
    /// What expand, to_image, from_image and, for the old and the new one, a move take for the layout handed over.
    taken: [fn(Layout) -> Layout; 5],
    /// The number that comes before 23 in the first three, 0 if none does.
    early: [u16; 3],
    /// What is wrong with the bus at each step of a run, and of a walk.
    step: Option<bus::Fault>,
    step_of_walks: Option<bus::Fault>,
    /// The rules by which published text is taken in and sent out, if they are not the right ones.
    taking: Option<published::Taking>,
    sending: Option<published::Sending>,
    /// How watches are kept, if not as is right; what is wrong with a run, whole or at each step, that is watched.
    watching: Option<watch::Watching>,
    watched_run: Option<bus::Run>,
    watched_step: Option<bus::Fault>,
    /// The rules by which codewords are chosen, if they are not the right ones.
    choosing: Option<codewords::Choosing>,
}

const RIGHT: Variant = Variant {
    fault: "none",
    read: |text, store| Paper.read(text, store),
    write: |program, out| Paper.write(program, out),
    check: |program| Paper.check(program),
    expand: |layout, program, out| Paper.expand(layout, program, out),
    to_image: |layout, bits, image| Paper.to_image(layout, bits, image),
    from_image: |layout, image, bits| Paper.from_image(layout, image, bits),
    move_image: |old, new, from, into| Paper.move_image(old, new, from, into),
    run: |program, start, budget, state, trace| Paper.run(program, start, budget, state, trace),
    run_watched: |program, start, budget, state, trace, watches| {
        Paper.run_watched(program, start, budget, state, trace, watches)
    },
    judge: |program, sets, budget| Paper.judge(program, sets, budget),
    take_in: |text, out| Paper.take_in(text, out),
    send_out: |text, out| Paper.send_out(text, out),
    encode: |nibble| Paper.encode(nibble),
    decode: |word| Paper.decode(word),
    xor: |first, second| Paper.xor(first, second),
    xor_table: |table| Paper.xor_table(table),
    map_table: |map, table| Paper.map_table(map, table),
    look_up: |table, word| Paper.look_up(table, word),
    look_up_pair: |table, first, second| Paper.look_up_pair(table, first, second),
    choose: |handed, set| handed.chosen(set),
    entry: None,
    part: None,
    targets: None,
    made: |_, _| (),
    given: |_, _| (),
    handed: |_, _| (),
    arrived: |_, _| (),
    moved: |_, _, _, _| (),
    taken: [|layout| layout; 5],
    early: [0; 3],
    step: None,
    step_of_walks: None,
    taking: None,
    sending: None,
    watching: None,
    watched_run: None,
    watched_step: None,
    choosing: None,
};

impl Variant {
    /// A call of entry point 0, 1 or 2 of those with one layout.
    fn in_layout<T: Clone>(
        &self,
        which: usize,
        entry: impl Fn(Layout, &[T], &mut [T]) -> Answer,
        layout: Layout,
        (input, lent): (&[T], &mut [T]),
    ) -> Answer {
        let taken = (self.taken[which])(layout);
        if self.early[which] != 0 && !taken.is_one_of_six() {
            let answer = entry(Layout::LOWEST, input, &mut lent.to_vec());
            if matches!(answer, Refused { number, .. } if number == self.early[which]) {
                return answer;
            }
        }
        entry(taken, input, lent)
    }
}

impl Dualrail for Variant {
    fn read(&self, text: &[u8], store: &mut [u16]) -> Answer {
        (self.read)(text, store)
    }
    fn write(&self, program: &[u16], out: &mut [u8]) -> Answer {
        (self.write)(program, out)
    }
    fn check(&self, program: &[u16]) -> Answer {
        (self.check)(program)
    }
    fn expand(&self, layout: Layout, program: &[u16], out: &mut [u16]) -> Answer {
        let entry = |layout, program: &[u16], out: &mut [u16]| {
            let answer = match self.part {
                Some(part) => expanded_by(layout, program, out, part),
                None => (self.expand)(layout, program, out),
            };
            if let (Counted(_), Some(targets)) = (answer, self.targets) {
                aim_anew(layout, program, out, targets);
            }
            answer
        };
        self.in_layout(0, entry, layout, (program, out))
    }
    fn to_image(&self, layout: Layout, bits: &[u8], image: &mut [u8]) -> Answer {
        let entry = |layout, bits: &[u8], image: &mut [u8]| {
            let answer = (self.to_image)(layout, bits, image);
            if let Counted(_) = answer {
                (self.made)(layout, image);
            }
            answer
        };
        self.in_layout(1, entry, layout, (bits, image))
    }
    fn from_image(&self, layout: Layout, image: &[u8], bits: &mut [u8]) -> Answer {
        let entry = |layout: Layout, image: &[u8], bits: &mut [u8]| {
            let mut image = image.to_vec();
            if layout.is_one_of_six() && image.len() == STATE {
                (self.given)(layout, &mut image);
            }
            (self.from_image)(layout, &image, bits)
        };
        self.in_layout(2, entry, layout, (image, bits))
    }
    fn move_image(&self, old: Layout, new: Layout, from: &[u8], into: &mut [u8]) -> Answer {
        let (old, new) = ((self.taken[3])(old), (self.taken[4])(new));
        let mut handed = from.to_vec();
        if old.is_one_of_six() && from.len() == STATE {
            (self.handed)(old, &mut handed);
        }
        let answer = (self.move_image)(old, new, &handed, into);
        if let Counted(_) = answer {
            (self.moved)(old, new, from, into);
            (self.arrived)(new, into);
        }
        answer
    }
    fn run(&self, program: &[u16], start: u16, budget: u16, state: &mut [u8], trace: &mut [u16]) -> Answer {
        match self.step {
            Some(fault) => run_by((program, start, budget), state, trace, |line, point, state| {
                bus::faulty_step(fault, line, point, state)
            }),
            None => (self.run)(program, start, budget, state, trace),
        }
    }
    fn run_watched(
        &self,
        program: &[u16],
        start: u16,
        budget: u16,
        state: &mut [u8],
        trace: &mut [u16],
        watches: &mut [Watch],
    ) -> Answer {
        let handed = (program, start, budget);
        if let Some(rules) = self.watching {
            return watch::watched_by(rules, handed, (state, trace), watches);
        }
        if let Some(run) = self.watched_run {
            return watch::watched_as(handed, (state, trace), watches, |state, trace| {
                run(program, start, budget, state, trace)
            });
        }
        if let Some(fault) = self.watched_step {
            return watch::watched_as(handed, (state, trace), watches, |state, trace| {
                run_by(handed, state, trace, |line, point, state| bus::faulty_step(fault, line, point, state))
            });
        }
        (self.run_watched)(program, start, budget, state, trace, watches)
    }
    fn judge(&self, program: &[u16], sets: &[u8], budget: u16) -> Answer {
        match self.step_of_walks {
            Some(fault) => changed_walk((program, sets, budget), |line, counter, sets| {
                step_on_sets_by(line, counter, sets, |line, point, state| {
                    bus::faulty_step(fault, line, point, state)
                })
            }),
            None => (self.judge)(program, sets, budget),
        }
    }
    fn take_in(&self, text: &[u8], out: &mut [u8]) -> Answer {
        match &self.taking {
            Some(rules) => published::taken_by(rules, text, out),
            None => (self.take_in)(text, out),
        }
    }
    fn send_out(&self, text: &[u8], out: &mut [u8]) -> Answer {
        match &self.sending {
            Some(rules) => published::sent_by(rules, text, out),
            None => (self.send_out)(text, out),
        }
    }
    fn encode(&self, nibble: u8) -> u8 {
        (self.encode)(nibble)
    }
    fn decode(&self, word: u8) -> u8 {
        (self.decode)(word)
    }
    fn xor(&self, first: u8, second: u8) -> u8 {
        (self.xor)(first, second)
    }
    fn xor_table(&self, table: &mut PairTable) {
        match self.entry {
            Some(entry) => {
                *table = std::array::from_fn(|index| entry((index / 64) as u8, (index % 64) as u8))
            }
            None => (self.xor_table)(table),
        }
    }
    fn map_table(&self, map: &[u8], table: &mut MapTable) -> Answer {
        (self.map_table)(map, table)
    }
    fn look_up(&self, table: &MapTable, word: u8) -> u8 {
        (self.look_up)(table, word)
    }
    fn look_up_pair(&self, table: &PairTable, first: u8, second: u8) -> u8 {
        (self.look_up_pair)(table, first, second)
    }
    fn choose(&self, bits: u8, ones: u8, size: u8, weights: &[i16], set: &mut WordSet) -> Answer {
        let handed = codewords::Handed { bits, ones, size, weights };
        match &self.choosing {
            Some(rules) => codewords::chosen_by(rules, handed, set),
            None => (self.choose)(handed, set),
        }
    }
}

fn refused(number: u16) -> Answer {
    Refused { number, line: 0 }
}

fn is_branch(line: &Line) -> bool {
    matches!(line.opcode, Opcode::Beq | Opcode::Bne)
}

/// The mark check with 16 for a target that is the line count.
fn end_refused(program: &[u16]) -> Answer {
    match Paper.check(program) {
        Counted(count) => match program.chunks_exact(SIX).position(|line| line[5] as u32 == count + 1) {
            Some(line) => Refused { number: 16, line: line as u32 },
            None => Counted(count),
        },
        answer => answer,
    }
}

/// The mark check with 9 for 1,024 lines too.
fn longest_refused(program: &[u16]) -> Answer {
    match Paper.check(program) {
        Counted(count) if count as usize == MOST_CHECKED => refused(9),
        answer => answer,
    }
}

/// The text with one piece put for another.
fn replaced(text: &[u8], from: &str, to: &str) -> Vec<u8> {
    let text: String = text.iter().map(|&byte| byte as char).collect();
    text.replace(from, to).chars().map(|character| character as u8).collect()
}

/// Expands, then changes each line of the expansion, given the source's line,
/// the place in its part and the part's length.
fn changed_expansion(
    layout: Layout,
    program: &[u16],
    out: &mut [u16],
    change: fn(&mut [u16], &Line, usize, usize),
) -> Answer {
    let answer = Paper.expand(layout, program, out);
    if let Counted(_) = answer {
        let lines = stored_program(program).unwrap();
        let starts = starts(layout, &lines);
        for (at, line) in lines.iter().enumerate() {
            let length = starts[at + 1] - starts[at];
            for place in 0..length {
                change(&mut out[SIX * (starts[at] + place)..][..SIX], line, place, length);
            }
        }
    }
    answer
}

/// The second of the lines that load a public place.
fn masks(new: &Line) -> bool {
    new.opcode == Opcode::And && new.second == Some(Operand::Literal(1))
}

/// The third of them.
fn decodes(new: &Line) -> bool {
    matches!(new.first, Some(Operand::Table { offset: 240, .. }))
}

/// Runs with a changed program.
fn changed_run(
    (program, start, budget): (&[u16], u16, u16),
    state: &mut [u8],
    trace: &mut [u16],
    change: fn(&mut Line),
) -> Answer {
    let Ok(mut lines) = stored_program(program) else {
        return Paper.run(program, start, budget, state, trace);
    };
    lines.iter_mut().for_each(change);
    let program: Vec<u16> = lines.iter().flat_map(Line::stored).collect();
    Paper.run(&program, start, budget, state, trace)
}

/// The starts, each line's part made by another rule.
fn starts_by(layout: Layout, lines: &[Line], part: Part) -> Vec<usize> {
    let mut starts = vec![0];
    for line in lines {
        starts.push(starts[starts.len() - 1] + part(layout, line).len());
    }
    starts
}

/// Puts other targets into a right expansion.
fn aim_anew(layout: Layout, program: &[u16], out: &mut [u16], (part, aim): (Part, Aim)) {
    let lines = stored_program(program).unwrap();
    let wrong = starts_by(layout, &lines, part);
    for ((at, line), start) in lines.iter().enumerate().zip(starts(layout, &lines)) {
        if let Some(target) = line.target {
            out[SIX * start + 5] = 1 + aim(&wrong, at, target as usize) as u16;
        }
    }
}

/// The start looked up as is right.
fn looked_up(starts: &[usize], _: usize, target: usize) -> usize {
    starts[target]
}

/// The part with public places loaded by one line.
fn loaded_by_one(layout: Layout, line: &Line) -> Vec<Line> {
    let mut lines = part(layout, line);
    lines.retain(|new| !new.marked || !(masks(new) || decodes(new)));
    lines
}

/// The part with r1 loaded by one line, from a public place too.
fn first_loaded_by_one(layout: Layout, line: &Line) -> Vec<Line> {
    let first = Some(Operand::Register(1));
    let mut lines = part(layout, line);
    lines.retain(|new| new.destination != first || !new.marked || !(masks(new) || decodes(new)));
    lines
}

/// Expands, each line's part made by another rule.
fn expanded_by(layout: Layout, program: &[u16], out: &mut [u16], part: Part) -> Answer {
    let (true, Counted(_), Ok(lines)) =
        (layout.is_one_of_six(), Paper.check(program), stored_program(program))
    else {
        return Paper.expand(layout, program, out);
    };
    let starts = starts_by(layout, &lines, part);
    let mut numbers = vec![];
    for mut line in lines.iter().flat_map(|line| part(layout, line)) {
        line.target = line.target.map(|target| starts[target as usize] as u16);
        numbers.extend(line.stored());
    }
    if out.len() / SIX * SIX < numbers.len() {
        return refused(17);
    }
    out[..numbers.len()].copy_from_slice(&numbers);
    Counted((numbers.len() / SIX) as u32)
}

/// Where a state has the codes of a public bit, and what it has there.
const PUBLIC_BITS: RangeInclusive<usize> = 32 + 496..=32 + 497;

fn public_bits(layout: Layout) -> [u8; 2] {
    [layout.code(0), layout.code(1)]
}

/// The right step with the line as a wrong machine takes it in the state.
fn step_taking(
    line: &Line,
    point: Point,
    state: &mut [u8],
    taken: impl Fn(&Line, &[u8]) -> Line,
) -> (Point, Row) {
    let (right, right_row) = step(line, point, &mut state.to_vec());
    let taken = taken(line, state);
    let (mut next, mut row) = step(&taken, point, state);
    // Where a literal is taken for a place, row and bus still have the address.
    let by_value = |taken: Option<Operand>, argument: Option<Operand>| {
        taken != argument && matches!(taken, Some(Operand::Literal(_)))
    };
    if by_value(taken.first, line.first) || by_value(taken.second, line.second) {
        row[3..].copy_from_slice(&right_row[3..]);
        next.bus = right.bus;
    }
    (next, row)
}

/// Runs with that step.
fn run_taking(
    (program, start, budget): (&[u16], u16, u16),
    state: &mut [u8],
    trace: &mut [u16],
    taken: impl Fn(&Line, &[u8]) -> Line,
) -> Answer {
    let step = |line: &Line, point, state: &mut [u8]| step_taking(line, point, state, &taken);
    run_by((program, start, budget), state, trace, step)
}

/// Runs with another step.
fn run_by(
    (program, start, budget): (&[u16], u16, u16),
    state: &mut [u8],
    trace: &mut [u16],
    step: impl FnMut(&Line, Point, &mut [u8]) -> (Point, Row),
) -> Answer {
    match stored_program(program) {
        Ok(lines) => paper::run(&lines, start, budget, state, trace, step),
        Err(answer) => answer,
    }
}

/// The value that a line with a destination writes.
fn written_value(line: &Line, state: &[u8]) -> u8 {
    let mut after = state.to_vec();
    step(&Line { destination: Some(Operand::Register(0)), ..*line }, Point::start(0), &mut after);
    after[0]
}

/// The line with first argument 0, and so result 0, if it is one of these shifts, by line and count.
fn with_zero(line: &Line, state: &[u8], zeros: fn(&Line, u8) -> bool) -> Line {
    let shift = matches!(line.opcode, Opcode::Lsl | Opcode::Lsr);
    if shift && zeros(line, value(line.marked, line.second, state)) {
        Line { first: Some(Operand::Literal(0)), ..*line }
    } else {
        *line
    }
}

/// How a wrong machine reads an argument's place: whole, its lowest bit, or as is right.
#[derive(Clone, Copy)]
enum Reads {
    Whole,
    LowestBit,
    Right,
}

/// The line with the values of its arguments in place of them, read as line and argument decide.
fn reading(line: &Line, state: &[u8], reads: fn(&Line, Operand) -> Reads) -> Line {
    let literal = |argument: Option<Operand>| {
        argument.map(|operand| {
            let whole = value(false, argument, state);
            Operand::Literal(match reads(line, operand) {
                Reads::Whole => whole,
                Reads::LowestBit => whole & 1,
                Reads::Right => value(line.marked, argument, state),
            })
        })
    };
    Line { first: literal(line.first), second: literal(line.second), ..*line }
}

/// Whole where this holds, else right.
fn whole_if(whole: bool) -> Reads {
    if whole {
        Reads::Whole
    } else {
        Reads::Right
    }
}

/// The lowest bit where this holds in a marked line, else right.
fn lowest_bit_if(line: &Line, lowest: bool) -> Reads {
    if line.marked && lowest {
        Reads::LowestBit
    } else {
        Reads::Right
    }
}

/// The line with the cells that it names if bases r4 to r15 are their lowest bits in a marked line.
fn with_lowest_bases(line: &Line, state: &[u8]) -> Line {
    let cell = |operand: Option<Operand>| {
        operand.map(|operand| {
            let sum = |base: u8, offset: u8| (state[base as usize] & 1) as u16 + offset as u16;
            match operand {
                Operand::Public { base: base @ 4..=15, offset } => Operand::Cell(sum(base, offset) % 128),
                Operand::Sensitive { base: base @ 4..=15, offset } => {
                    Operand::Cell(128 + sum(base, offset) % 128)
                }
                Operand::Table { base: base @ 4..=15, offset } => {
                    Operand::Cell(256 + sum(base, offset) % 256)
                }
                other => other,
            }
        })
    };
    match line.marked {
        true => Line {
            destination: cell(line.destination),
            first: cell(line.first),
            second: cell(line.second),
            ..*line
        },
        false => *line,
    }
}

/// Walks with another step.
fn changed_walk(
    (program, sets, budget): (&[u16], &[u8], u16),
    step: impl Fn(&Line, u16, &mut Sets) -> Result<u16, Stop>,
) -> Answer {
    match (stored_program(program), walk::start(sets)) {
        (Ok(lines), Ok(sets)) => walk::walk(&lines, sets, budget, step),
        _ => Paper.judge(program, sets, budget),
    }
}

/// Walks with changed sets.
fn changed_sets((program, sets, budget): (&[u16], &[u8], u16), change: fn(&mut [u8])) -> Answer {
    let mut sets = sets.to_vec();
    sets.chunks_exact_mut(SET).for_each(change);
    Paper.judge(program, &sets, budget)
}

/// The right step with one of the registers given values of its own for the moment.
fn with_values(
    (line, counter): (&Line, u16),
    sets: &mut Sets,
    register: u8,
    values: Values,
) -> Result<u16, Stop> {
    let kept = std::mem::replace(&mut sets.places[register as usize], values);
    let written = line.destination.map_or_else(Default::default, |operand| reach(operand, &sets.places));
    let next = step_on_sets(line, counter, sets);
    if !written.contains(&(register as usize)) {
        sets.places[register as usize] = kept;
    }
    next
}

/// Whether all values have the same lowest bit.
fn one_lowest_bit(values: &Values) -> bool {
    values.iter().all(|value| value & 1 == 0) || values.iter().all(|value| value & 1 == 1)
}

/// A register that the line does not name, read in it as this one is.
fn spare(line: &Line, register: u8) -> u8 {
    let spelling = line.spelling();
    let mut alike = if is_public(Operand::Register(register)) { 4..16 } else { 16..32 };
    alike.find(|register| !spelling.contains(&format!("r{register}"))).unwrap()
}

/// What a choice of a step gives: the row, the values of the places written, and the bus.
struct Outcome {
    row: Row,
    written: Values,
    bus: u16,
}

/// What the choices of a step give, in their order.
fn outcomes(line: &Line, counter: u16, sets: &Sets) -> Vec<Outcome> {
    let written = line.destination.map_or_else(Default::default, |operand| reach(operand, &sets.places));
    let mut outcomes = vec![];
    walk::choices(line, &sets.places, &mut |state| {
        for &bus in &sets.bus {
            let mut after = *state;
            let (next, row) = step(line, Point { counter, bus }, &mut after);
            let written = written.iter().map(|&place| after[place]).collect();
            outcomes.push(Outcome { row, written, bus: next.bus });
        }
    });
    outcomes
}

/// All values that a step may write.
fn results(line: &Line, counter: u16, sets: &Sets) -> Values {
    outcomes(line, counter, sets).into_iter().flat_map(|outcome| outcome.written).collect()
}

/// The right step, with its leak test made by another one.
fn changed_test(
    line: &Line,
    counter: u16,
    sets: &mut Sets,
    alike: fn(&[Outcome]) -> bool,
) -> Result<u16, Stop> {
    let outcomes = outcomes(line, counter, sets);
    let written = line.destination.map_or_else(Default::default, |operand| reach(operand, &sets.places));
    match step_on_sets(line, counter, sets) {
        Err(Stop::Leak) if alike(&outcomes) => {
            for place in written {
                sets.places[place] = outcomes.iter().flat_map(|outcome| outcome.written.clone()).collect();
            }
            sets.bus = outcomes.iter().map(|outcome| outcome.bus).collect();
            Ok(counter + 1)
        }
        answer => answer,
    }
}

fn variants() -> Vec<Variant> {
    vec![
        // Reading.
        Variant {
            fault: "the line of a refusal counts from 1",
            read: |text, store| match Paper.read(text, store) {
                Refused { number, line } => Refused { number, line: line + 1 },
                answer => answer,
            },
            ..RIGHT
        },
        Variant {
            fault: "a refused reading clears the rest of the store",
            read: |text, store| {
                let answer = Paper.read(text, store);
                if let Refused { line, .. } = answer {
                    store[SIX * line as usize..].fill(0);
                }
                answer
            },
            ..RIGHT
        },
        Variant {
            fault: "8 before 7",
            read: |text, store| match Paper.read(text, store) {
                Refused { number: 7, line } if store.len() / SIX == MOST_LINES => Refused { number: 8, line },
                answer => answer,
            },
            ..RIGHT
        },
        Variant {
            fault: "7 after 16,384 lines of text",
            read: |text, store| {
                let lines = text.split_inclusive(|&byte| byte == b'\n');
                let front: usize = lines.take(16_384).map(<[u8]>::len).sum();
                match Paper.read(&text[..front], store) {
                    Counted(_) if front < text.len() => Refused { number: 7, line: 16_384 },
                    answer => answer,
                }
            },
            ..RIGHT
        },
        Variant {
            fault: "a target of 16,385 is not read",
            read: |text, store| {
                let kept = store.to_vec();
                let answer = Paper.read(text, store);
                let (Counted(count) | Refused { line: count, .. }) = answer else { return answer };
                let read = &store[..SIX * count as usize];
                let Some(line) = read.chunks_exact(SIX).position(|six| six[5] > 1 + 16_384) else {
                    return answer;
                };
                store[SIX * line..].copy_from_slice(&kept[SIX * line..]);
                Refused { number: 6, line: line as u32 }
            },
            ..RIGHT
        },
        Variant {
            fault: "a target of 32,768 is not read",
            read: |text, store| Paper.read(&replaced(text, ",32768\n", ",32769\n"), store),
            ..RIGHT
        },
        Variant {
            fault: "a target of 32,769 is read",
            read: |text, store| Paper.read(&replaced(text, ",32769\n", ",32768\n"), store),
            ..RIGHT
        },
        Variant {
            fault: "carriage returns are skipped",
            read: |text, store| Paper.read(&replaced(text, "\r", ""), store),
            ..RIGHT
        },
        Variant {
            fault: "only 39 bytes before the newline",
            read: |text, store| {
                let cut: Vec<u8> = text
                    .split_inclusive(|&byte| byte == b'\n')
                    .flat_map(|line| if line.len() == 41 { [b"0", line].concat() } else { line.to_vec() })
                    .collect();
                Paper.read(&cut, store)
            },
            ..RIGHT
        },
        Variant {
            fault: "41 bytes before the newline",
            read: |text, store| {
                let cut: Vec<u8> = text
                    .split_inclusive(|&byte| byte == b'\n')
                    .flat_map(|line| if line.len() == 42 { &line[1..] } else { line }.to_vec())
                    .collect();
                Paper.read(&cut, store)
            },
            ..RIGHT
        },
        Variant {
            fault: "the last line needs no newline",
            read: |text, store| match text.last() {
                Some(&last) if last != b'\n' => Paper.read(&[text, b"\n"].concat(), store),
                _ => Paper.read(text, store),
            },
            ..RIGHT
        },
        Variant {
            fault: "leading zeros pass",
            read: |text, store| Paper.read(&replaced(&replaced(text, "#00", "#0"), "+00", "+0"), store),
            ..RIGHT
        },
        Variant {
            fault: "a number behind the store is changed",
            read: |text, store| {
                // The guard value, which the comparison lends nobody.
                unsafe { *store.as_mut_ptr().add(store.len()) ^= 1 };
                Paper.read(text, store)
            },
            ..RIGHT
        },
        // Writing.
        Variant {
            fault: "a zero byte after the text",
            write: |program, out| {
                let answer = Paper.write(program, out);
                if let Counted(count) = answer {
                    if let Some(byte) = out.get_mut(count as usize) {
                        *byte = 0;
                    }
                }
                answer
            },
            ..RIGHT
        },
        Variant {
            fault: "17 leaves what fits",
            write: |program, out| {
                let answer = Paper.write(program, out);
                if answer == refused(17) {
                    let mut whole = vec![0; 40 * program.len()];
                    Paper.write(program, &mut whole);
                    out.copy_from_slice(&whole[..out.len()]);
                }
                answer
            },
            ..RIGHT
        },
        Variant {
            fault: "17 unless there is a byte more",
            write: |program, out| match Paper.write(program, out) {
                Counted(count) if count as usize == out.len() && count > 0 => refused(17),
                answer => answer,
            },
            ..RIGHT
        },
        // Mark check.
        Variant {
            fault: "only the first line is checked",
            check: |program| match Paper.check(program) {
                Refused { number: 10.., line: 1.. } => Counted((program.len() / SIX) as u32),
                answer => answer,
            },
            ..RIGHT
        },
        Variant {
            fault: "13 for a public argument in a marked line",
            check: |program| match (Paper.check(program), stored_program(program)) {
                (Counted(count), Ok(lines)) => match lines.iter().position(has_public_bit) {
                    Some(line) => Refused { number: 13, line: line as u32 },
                    None => Counted(count),
                },
                (answer, _) => answer,
            },
            ..RIGHT
        },
        Variant {
            fault: "13 before 14 for a public argument in a marked line",
            check: |program| match (Paper.check(program), stored_program(program)) {
                (Refused { number: 14, line }, Ok(lines)) if has_public_bit(&lines[line as usize]) => {
                    Refused { number: 13, line }
                }
                (answer, _) => answer,
            },
            ..RIGHT
        },
        Variant {
            fault: "the numbers after 13 moved up",
            check: |program| match Paper.check(program) {
                Refused { number: number @ 14..=16, line } => Refused { number: number - 1, line },
                answer => answer,
            },
            ..RIGHT
        },
        Variant {
            fault: "a marked branch with public places passes",
            check: |program| match (Paper.check(program), stored_program(program)) {
                (Refused { number: 14, line }, Ok(lines))
                    if has_public_bit(&lines[line as usize]) && is_branch(&lines[line as usize]) =>
                {
                    Counted(lines.len() as u32)
                }
                (answer, _) => answer,
            },
            ..RIGHT
        },
        Variant { fault: "16 at the line count", check: end_refused, ..RIGHT },
        Variant { fault: "9 from 1,024 lines on", check: longest_refused, ..RIGHT },
        Variant {
            fault: "7 at line 0",
            check: |program| match Paper.check(program) {
                Refused { number: 7, .. } => refused(7),
                answer => answer,
            },
            ..RIGHT
        },
        Variant {
            fault: "7 for a stored program of more than 16,384 lines",
            check: |program| match program.len() / SIX {
                16_385.. => Refused { number: 7, line: 16_384 },
                _ => Paper.check(program),
            },
            ..RIGHT
        },
        Variant {
            fault: "6 for a stored target of 16,385",
            check: |program| match Paper.check(program) {
                Refused { number: 16, line } if program[SIX * line as usize + 5] > 1 + 16_384 => {
                    Refused { number: 6, line }
                }
                answer => answer,
            },
            ..RIGHT
        },
        Variant {
            fault: "a stored target of 32,769 is one",
            check: |program| {
                let changed = |&number: &u16| if number == 1 + 32_769 { 1 + 32_768 } else { number };
                Paper.check(&program.iter().map(changed).collect::<Vec<u16>>())
            },
            ..RIGHT
        },
        // Expansion.
        Variant {
            fault: "source targets kept",
            expand: |layout, program, out| {
                changed_expansion(layout, program, out, |six, line, _, _| six[5] = line.stored()[5])
            },
            ..RIGHT
        },
        Variant {
            fault: "the first line expanded, the others copied",
            expand: |layout, program, out| {
                let answer = Paper.expand(layout, program, out);
                match (answer, stored_program(program)) {
                    (Counted(_), Ok(lines)) if !lines.is_empty() => {
                        let first = starts(layout, &lines)[1];
                        let rest = &program[SIX..SIX * lines.len()];
                        out[SIX * first..][..rest.len()].copy_from_slice(rest);
                        Counted((first + lines.len() - 1) as u32)
                    }
                    _ => answer,
                }
            },
            ..RIGHT
        },
        Variant {
            fault: "the program copied whole",
            expand: |layout, program, out| match Paper.expand(layout, program, out) {
                Counted(_) => {
                    let size = program.len() / SIX * SIX;
                    out[..size].copy_from_slice(&program[..size]);
                    Counted((program.len() / SIX) as u32)
                }
                answer => answer,
            },
            ..RIGHT
        },
        Variant {
            fault: "the destination not cleared first",
            expand: |layout, program, out| {
                changed_expansion(layout, program, out, |six, line, place, length| {
                    if line.marked && place + 2 == length {
                        six[3] = if line.opcode == Opcode::Not { 258 } else { 260 };
                    }
                })
            },
            ..RIGHT
        },
        Variant {
            fault: "the destination cleared before the argument is loaded",
            expand: |layout, program, out| {
                changed_expansion(layout, program, out, |six, line, place, _| {
                    if line.marked && place == 0 {
                        six[2] = line.stored()[2];
                    }
                })
            },
            ..RIGHT
        },
        Variant {
            fault: "a public literal coded",
            expand: |layout, program, out| {
                changed_expansion(layout, program, out, |six, line, _, _| {
                    if !line.marked && six[4] == 1 {
                        six[4] = 3;
                    }
                })
            },
            ..RIGHT
        },
        Variant {
            fault: "new lines unmarked",
            expand: |layout, program, out| changed_expansion(layout, program, out, |six, _, _, _| six[0] = 0),
            ..RIGHT
        },
        Variant {
            fault: "all programs turned down",
            expand: |layout, program, out| match Paper.expand(layout, program, &mut out.to_vec()) {
                Counted(1..) => Refused { number: 10, line: 0 },
                answer => answer,
            },
            ..RIGHT
        },
        Variant { fault: "a public place loaded by one line", part: Some(loaded_by_one), ..RIGHT },
        Variant {
            fault: "a public place loaded without and #1",
            part: Some(|layout, line| {
                let mut lines = part(layout, line);
                lines.retain(|new| !new.marked || !masks(new));
                lines
            }),
            ..RIGHT
        },
        Variant {
            fault: "the second argument alone loaded by three lines",
            part: Some(first_loaded_by_one),
            ..RIGHT
        },
        Variant {
            fault: "no and #3 after a public place is loaded",
            part: Some(|layout, line| {
                let mut lines = part(layout, line);
                for at in (1..lines.len()).rev() {
                    if decodes(&lines[at - 1]) && lines[at].opcode == Opcode::And {
                        lines.remove(at);
                    }
                }
                lines
            }),
            ..RIGHT
        },
        Variant {
            fault: "a public place behind a base loaded by one line",
            part: Some(|layout, line| match line.first {
                Some(Operand::Public { base, offset }) if line.marked => {
                    // `%` is loaded by one, and then `!` stands for it.
                    let other = Some(Operand::Sensitive { base, offset });
                    let mut lines = part(layout, &Line { first: other, ..*line });
                    lines[1].first = line.first;
                    lines
                }
                _ => part(layout, line),
            }),
            ..RIGHT
        },
        // Images.
        Variant {
            fault: "one wrong entry of the xor table",
            made: |layout, image| {
                image[PAGE + layout.table(2) as usize] = layout.code(0);
            },
            ..RIGHT
        },
        Variant {
            fault: "cells 496 and 497 exchanged",
            made: |_, image| image.swap(32 + 496, 32 + 497),
            ..RIGHT
        },
        Variant {
            fault: "the image without cells 496 and 497",
            made: |_, image| image[PUBLIC_BITS].fill(0),
            ..RIGHT
        },
        Variant {
            fault: "scratch registers may be filled",
            to_image: |layout, bits, image| {
                let mut bits = bits.to_vec();
                if bits.len() > 3 {
                    bits[1..=3].fill(0);
                }
                Paper.to_image(layout, &bits, image)
            },
            ..RIGHT
        },
        Variant {
            fault: "19 before 18",
            to_image: |layout, bits, image| match Paper.to_image(layout, bits, image) {
                Refused { number: 18, .. } => {
                    let mut lent = [0; 544];
                    match Paper.to_image(layout, bits, &mut lent) {
                        Counted(_) => refused(18),
                        answer => answer,
                    }
                }
                answer => answer,
            },
            ..RIGHT
        },
        Variant {
            fault: "the way back keeps r1 to r3",
            from_image: |layout, image, bits| {
                let answer = Paper.from_image(layout, image, bits);
                if let Counted(_) = answer {
                    bits[1..=3].copy_from_slice(&image[1..=3]);
                }
                answer
            },
            ..RIGHT
        },
        Variant { fault: "the way back does not look at r0", given: |_, image| image[0] = 0, ..RIGHT },
        Variant {
            fault: "the way back does not look at cells 496 and 497",
            given: |layout, image| image[PUBLIC_BITS].copy_from_slice(&public_bits(layout)),
            ..RIGHT
        },
        Variant {
            fault: "the way back takes images without cells 496 and 497",
            given: |layout, image| {
                if image[PUBLIC_BITS] == [0, 0] {
                    image[PUBLIC_BITS].copy_from_slice(&public_bits(layout));
                }
            },
            ..RIGHT
        },
        Variant {
            fault: "the way back takes any two codes in cells 496 and 497",
            given: |layout, image| {
                if image[PUBLIC_BITS].iter().all(|&code| layout.decoded(code).is_some()) {
                    image[PUBLIC_BITS].copy_from_slice(&public_bits(layout));
                }
            },
            ..RIGHT
        },
        // Runs.
        Variant {
            fault: "spent at step zero",
            run: |program, start, budget, state, trace| match Paper.run(
                program,
                start,
                budget,
                &mut state.to_vec(),
                &mut trace.to_vec(),
            ) {
                Spent { .. } => Spent { counter: start, steps: 0 },
                _ => Paper.run(program, start, budget, state, trace),
            },
            ..RIGHT
        },
        Variant {
            fault: "halting with the last step of the budget is spent",
            run: |program, start, budget, state, trace| match Paper.run(program, start, budget, state, trace)
            {
                Halted { counter, steps } if steps == budget && steps > 0 => Spent { counter, steps },
                answer => answer,
            },
            ..RIGHT
        },
        Variant {
            fault: "the counter clipped to the line count",
            run: |program, start, budget, state, trace| match Paper.run(program, start, budget, state, trace)
            {
                Halted { counter, steps } => {
                    Halted { counter: counter.min((program.len() / SIX) as u16), steps }
                }
                answer => answer,
            },
            ..RIGHT
        },
        Variant {
            fault: "not flips all bits in a marked line",
            run: |program, start, budget, state, trace| {
                run_taking((program, start, budget), state, trace, |line, state| match line.opcode {
                    Opcode::Not => Line { marked: false, ..reading(line, state, |_, _| Reads::Right) },
                    _ => *line,
                })
            },
            ..RIGHT
        },
        Variant {
            fault: "a shift count of 8 or more gives 0",
            run: |program, start, budget, state, trace| {
                run_taking((program, start, budget), state, trace, |line, state| {
                    with_zero(line, state, |_, count| count >= 8)
                })
            },
            ..RIGHT
        },
        Variant {
            fault: "a shift count of 8 or more gives 0 to the left",
            run: |program, start, budget, state, trace| {
                run_taking((program, start, budget), state, trace, |line, state| {
                    with_zero(line, state, |line, count| count >= 8 && line.opcode == Opcode::Lsl)
                })
            },
            ..RIGHT
        },
        Variant {
            fault: "a shift count of 8 or more gives 0 to the right",
            run: |program, start, budget, state, trace| {
                run_taking((program, start, budget), state, trace, |line, state| {
                    with_zero(line, state, |line, count| count >= 8 && line.opcode == Opcode::Lsr)
                })
            },
            ..RIGHT
        },
        Variant {
            fault: "a shift count of 8 or more gives 0 in a marked line",
            run: |program, start, budget, state, trace| {
                run_taking((program, start, budget), state, trace, |line, state| {
                    with_zero(line, state, |line, count| count >= 8 && line.marked)
                })
            },
            ..RIGHT
        },
        Variant {
            fault: "a shift count of 8 or more gives 0 unless it is a literal",
            run: |program, start, budget, state, trace| {
                run_taking((program, start, budget), state, trace, |line, state| {
                    with_zero(line, state, |line, count| {
                        count >= 8 && !matches!(line.second, Some(Operand::Literal(_)))
                    })
                })
            },
            ..RIGHT
        },
        Variant {
            fault: "a shift count is taken modulo 16",
            run: |program, start, budget, state, trace| {
                run_taking((program, start, budget), state, trace, |line, state| {
                    with_zero(line, state, |_, count| count % 16 >= 8)
                })
            },
            ..RIGHT
        },
        Variant {
            fault: "a public byte whole in a marked line",
            run: |program, start, budget, state, trace| {
                run_taking((program, start, budget), state, trace, |line, state| {
                    reading(line, state, |_, place| whole_if(is_public(place)))
                })
            },
            ..RIGHT
        },
        Variant {
            fault: "a public cell whole in a marked line",
            run: |program, start, budget, state, trace| {
                run_taking((program, start, budget), state, trace, |line, state| {
                    reading(line, state, |_, place| whole_if(matches!(place, Operand::Cell(_))))
                })
            },
            ..RIGHT
        },
        Variant {
            fault: "a public cell behind a base whole in a marked line",
            run: |program, start, budget, state, trace| {
                run_taking((program, start, budget), state, trace, |line, state| {
                    reading(line, state, |_, place| whole_if(matches!(place, Operand::Public { .. })))
                })
            },
            ..RIGHT
        },
        Variant {
            fault: "a public register whole in a marked line",
            run: |program, start, budget, state, trace| {
                run_taking((program, start, budget), state, trace, |line, state| {
                    reading(line, state, |_, place| whole_if(matches!(place, Operand::Register(_))))
                })
            },
            ..RIGHT
        },
        Variant {
            fault: "a public byte whole in a marked shift",
            run: |program, start, budget, state, trace| {
                run_taking((program, start, budget), state, trace, |line, state| {
                    reading(line, state, |line, _| whole_if(matches!(line.opcode, Opcode::Lsl | Opcode::Lsr)))
                })
            },
            ..RIGHT
        },
        Variant {
            fault: "a public byte whole in a marked branch",
            run: |program, start, budget, state, trace| {
                run_taking((program, start, budget), state, trace, |line, state| {
                    reading(line, state, |line, _| whole_if(is_branch(line)))
                })
            },
            ..RIGHT
        },
        Variant {
            fault: "a public byte whole in a marked add or mul",
            run: |program, start, budget, state, trace| {
                run_taking((program, start, budget), state, trace, |line, state| {
                    reading(line, state, |line, _| whole_if(matches!(line.opcode, Opcode::Add | Opcode::Mul)))
                })
            },
            ..RIGHT
        },
        Variant {
            fault: "a public byte whole in a marked not",
            run: |program, start, budget, state, trace| {
                run_taking((program, start, budget), state, trace, |line, state| {
                    reading(line, state, |line, _| whole_if(line.opcode == Opcode::Not))
                })
            },
            ..RIGHT
        },
        Variant {
            fault: "the lowest bit of r0 to r3",
            run: |program, start, budget, state, trace| {
                run_taking((program, start, budget), state, trace, |line, state| {
                    reading(line, state, |line, place| {
                        lowest_bit_if(line, matches!(place, Operand::Register(0..=3)))
                    })
                })
            },
            ..RIGHT
        },
        Variant {
            fault: "the lowest bit of a literal",
            run: |program, start, budget, state, trace| {
                run_taking((program, start, budget), state, trace, |line, state| {
                    reading(line, state, |line, place| {
                        lowest_bit_if(line, matches!(place, Operand::Literal(_)))
                    })
                })
            },
            ..RIGHT
        },
        Variant {
            fault: "the lowest bit of a sensitive register",
            run: |program, start, budget, state, trace| {
                run_taking((program, start, budget), state, trace, |line, state| {
                    reading(line, state, |line, place| {
                        lowest_bit_if(line, matches!(place, Operand::Register(16..)))
                    })
                })
            },
            ..RIGHT
        },
        Variant {
            fault: "the lowest bit of a sensitive cell",
            run: |program, start, budget, state, trace| {
                run_taking((program, start, budget), state, trace, |line, state| {
                    reading(line, state, |line, place| {
                        lowest_bit_if(line, matches!(place, Operand::Cell(128..=255)))
                    })
                })
            },
            ..RIGHT
        },
        Variant {
            fault: "the lowest bit of a cell of the table page",
            run: |program, start, budget, state, trace| {
                run_taking((program, start, budget), state, trace, |line, state| {
                    reading(line, state, |line, place| {
                        lowest_bit_if(line, matches!(place, Operand::Cell(256..)))
                    })
                })
            },
            ..RIGHT
        },
        Variant {
            fault: "the lowest bit behind %",
            run: |program, start, budget, state, trace| {
                run_taking((program, start, budget), state, trace, |line, state| {
                    reading(line, state, |line, place| {
                        lowest_bit_if(line, matches!(place, Operand::Sensitive { .. }))
                    })
                })
            },
            ..RIGHT
        },
        Variant {
            fault: "the lowest bit behind ^",
            run: |program, start, budget, state, trace| {
                run_taking((program, start, budget), state, trace, |line, state| {
                    reading(line, state, |line, place| {
                        lowest_bit_if(line, matches!(place, Operand::Table { .. }))
                    })
                })
            },
            ..RIGHT
        },
        Variant {
            fault: "the second argument whole in a marked line",
            run: |program, start, budget, state, trace| {
                run_taking((program, start, budget), state, trace, |line, state| {
                    let whole = reading(line, state, |_, _| Reads::Whole);
                    Line { second: whole.second, ..*line }
                })
            },
            ..RIGHT
        },
        Variant {
            fault: "the lowest bit of a public place in an unmarked line",
            run: |program, start, budget, state, trace| {
                run_taking((program, start, budget), state, trace, |line, state| {
                    reading(line, state, |_, place| match is_public(place) {
                        true => Reads::LowestBit,
                        false => Reads::Right,
                    })
                })
            },
            ..RIGHT
        },
        Variant {
            fault: "the lowest bit of a base in a marked line",
            run: |program, start, budget, state, trace| {
                run_taking((program, start, budget), state, trace, with_lowest_bases)
            },
            ..RIGHT
        },
        Variant {
            fault: "the lowest bit of the old value in a marked line",
            run: |program, start, budget, state, trace| {
                run_by((program, start, budget), state, trace, |line, point, state| {
                    let old = value(true, line.destination, state);
                    let new = written_value(line, state);
                    let (next, mut row) = step(line, point, state);
                    if line.marked && line.destination.is_some_and(is_public) {
                        row[2] = (old ^ new).count_ones() as u16;
                    }
                    (next, row)
                })
            },
            ..RIGHT
        },
        Variant {
            fault: "offset 255 taken for 127",
            run: |program, start, budget, state, trace| {
                changed_run((program, start, budget), state, trace, |line| {
                    if let Some(Operand::Table { offset, .. }) = &mut line.second {
                        *offset &= 127;
                    }
                })
            },
            ..RIGHT
        },
        Variant {
            fault: "changed bits and ones exchanged in a row",
            run: |program, start, budget, state, trace| {
                let answer = Paper.run(program, start, budget, state, trace);
                if let Halted { steps: 1.., .. } | Spent { steps: 1.., .. } = answer {
                    trace.swap(1, 2);
                }
                answer
            },
            ..RIGHT
        },
        Variant {
            fault: "20 judged on the steps needed",
            run: |program, start, budget, state, trace| match Paper.run(program, start, budget, state, trace)
            {
                Refused { number: 20, .. } if start as usize >= program.len() / SIX => {
                    Halted { counter: start, steps: 0 }
                }
                answer => answer,
            },
            ..RIGHT
        },
        Variant {
            fault: "a row of zeros after the last",
            run: |program, start, budget, state, trace| {
                let answer = Paper.run(program, start, budget, state, trace);
                if let Halted { steps, .. } = answer {
                    trace[ROW * steps as usize..].iter_mut().take(ROW).for_each(|number| *number = 0);
                }
                answer
            },
            ..RIGHT
        },
        Variant {
            fault: "18 before the program's check",
            run: |program, start, budget, state, trace| {
                if state.len() != 544 {
                    return refused(18);
                }
                Paper.run(program, start, budget, state, trace)
            },
            ..RIGHT
        },
        Variant {
            fault: "r0 cannot be written",
            run: |program, start, budget, state, trace| {
                let old = state.first().copied();
                let answer = Paper.run(program, start, budget, state, trace);
                if let Halted { .. } | Spent { .. } = answer {
                    state[0] = old.unwrap();
                }
                answer
            },
            ..RIGHT
        },
        // Walks.
        Variant {
            fault: "a shift count of 8 or more gives 0 in a walk",
            judge: |program, sets, budget| {
                changed_walk((program, sets, budget), |line, counter, sets| {
                    step_on_sets_by(line, counter, sets, |line, point, state| {
                        step_taking(line, point, state, |line, state| {
                            with_zero(line, state, |_, count| count >= 8)
                        })
                    })
                })
            },
            ..RIGHT
        },
        Variant {
            fault: "a public byte whole in a marked line of a walk",
            judge: |program, sets, budget| {
                changed_walk((program, sets, budget), |line, counter, sets| {
                    step_on_sets_by(line, counter, sets, |line, point, state| {
                        step_taking(line, point, state, |line, state| {
                            reading(line, state, |_, _| Reads::Whole)
                        })
                    })
                })
            },
            ..RIGHT
        },
        Variant {
            fault: "21 looks at the place's values, not at the argument's",
            judge: |program, sets, budget| {
                changed_walk((program, sets, budget), |line, counter, sets| {
                    match walk::undecided(&Line { marked: false, ..*line }, &sets.places) {
                        true => Err(Stop::Refused(21)),
                        false => step_on_sets(line, counter, sets),
                    }
                })
            },
            ..RIGHT
        },
        Variant {
            fault: "21 looks at the lowest bits of any argument in a marked line",
            judge: |program, sets, budget| {
                changed_walk((program, sets, budget), |line, counter, sets| {
                    let alike = |argument: Option<Operand>| match argument {
                        Some(Operand::Register(register)) => one_lowest_bit(&sets.places[register as usize]),
                        _ => false,
                    };
                    let taken = line.marked && is_branch(line) && (alike(line.first) || alike(line.second));
                    match step_on_sets(line, counter, sets) {
                        Err(Stop::Refused(21)) if taken => Ok(counter + 1),
                        answer => answer,
                    }
                })
            },
            ..RIGHT
        },
        Variant {
            fault: "21 looks at a base's lowest bits in a marked line",
            judge: |program, sets, budget| {
                changed_walk((program, sets, budget), |line, counter, sets| match line.destination {
                    Some(
                        Operand::Public { base: base @ 4..=15, .. }
                        | Operand::Sensitive { base: base @ 4..=15, .. },
                    ) if line.marked && one_lowest_bit(&sets.places[base as usize]) => {
                        let first = sets.places[base as usize].first().copied();
                        with_values((line, counter), sets, base, first.into_iter().collect())
                    }
                    _ => step_on_sets(line, counter, sets),
                })
            },
            ..RIGHT
        },
        Variant {
            fault: "a place that is both arguments takes two values",
            judge: |program, sets, budget| {
                changed_walk((program, sets, budget), |line, counter, sets| {
                    let Some(Operand::Register(register)) = line.second.filter(|_| line.first == line.second)
                    else {
                        return step_on_sets(line, counter, sets);
                    };
                    let other = spare(line, register);
                    let line = Line { second: Some(Operand::Register(other)), ..*line };
                    with_values((&line, counter), sets, other, sets.places[register as usize].clone())
                })
            },
            ..RIGHT
        },
        Variant {
            fault: "the old value is drawn apart from the argument",
            judge: |program, sets, budget| {
                changed_walk((program, sets, budget), |line, counter, sets| {
                    let Some(Operand::Register(register)) =
                        line.first.filter(|_| line.first == line.destination)
                    else {
                        return step_on_sets(line, counter, sets);
                    };
                    let other = spare(line, register);
                    let line = Line { first: Some(Operand::Register(other)), ..*line };
                    with_values((&line, counter), sets, other, sets.places[register as usize].clone())
                })
            },
            ..RIGHT
        },
        Variant {
            fault: "a base of several values takes its first one",
            judge: |program, sets, budget| {
                changed_walk((program, sets, budget), |line, counter, sets| match line.first {
                    Some(Operand::Table { base, .. }) if line.opcode == Opcode::Mov => {
                        let first = sets.places[base as usize].first().copied();
                        with_values((line, counter), sets, base, first.into_iter().collect())
                    }
                    _ => step_on_sets(line, counter, sets),
                })
            },
            ..RIGHT
        },
        Variant {
            fault: "the written place keeps one result",
            judge: |program, sets, budget| {
                changed_walk((program, sets, budget), |line, counter, sets| {
                    let written =
                        line.destination.map_or_else(Default::default, |to| reach(to, &sets.places));
                    let next = step_on_sets(line, counter, sets)?;
                    for place in written {
                        sets.places[place] = sets.places[place].first().copied().into_iter().collect();
                    }
                    Ok(next)
                })
            },
            ..RIGHT
        },
        Variant {
            fault: "the written place keeps its old values too",
            judge: |program, sets, budget| {
                changed_walk((program, sets, budget), |line, counter, sets| {
                    let old = sets.places.clone();
                    let next = step_on_sets(line, counter, sets)?;
                    for (set, old) in sets.places.iter_mut().zip(old) {
                        set.extend(old);
                    }
                    Ok(next)
                })
            },
            ..RIGHT
        },
        Variant {
            fault: "the leak test looks at the first and the last choice",
            judge: |program, sets, budget| {
                changed_walk((program, sets, budget), |line, counter, sets| {
                    changed_test(line, counter, sets, |outcomes| {
                        outcomes[0].row == outcomes[outcomes.len() - 1].row
                    })
                })
            },
            ..RIGHT
        },
        Variant {
            fault: "the leak test does not look at addresses",
            judge: |program, sets, budget| {
                changed_walk((program, sets, budget), |line, counter, sets| {
                    changed_test(line, counter, sets, |outcomes| {
                        outcomes.iter().all(|outcome| outcome.row[..3] == outcomes[0].row[..3])
                    })
                })
            },
            ..RIGHT
        },
        Variant {
            fault: "the leak test does not look at changed bits",
            judge: |program, sets, budget| {
                changed_walk((program, sets, budget), |line, counter, sets| {
                    changed_test(line, counter, sets, |outcomes| {
                        let first = outcomes[0].row;
                        outcomes
                            .iter()
                            .all(|Outcome { row, .. }| row[1] == first[1] && row[3..] == first[3..])
                    })
                })
            },
            ..RIGHT
        },
        Variant {
            fault: "22 before 21",
            judge: |program, sets, budget| {
                changed_walk((program, sets, budget), |line, counter, sets| {
                    match step_on_sets(line, counter, sets) {
                        Err(Stop::Refused(21)) if results(line, counter, sets).len() > MOST_VALUES => {
                            Err(Stop::Refused(22))
                        }
                        answer => answer,
                    }
                })
            },
            ..RIGHT
        },
        Variant {
            fault: "the leak before 22",
            judge: |program, sets, budget| {
                changed_walk((program, sets, budget), |line, counter, sets| {
                    match step_on_sets(line, counter, sets) {
                        Err(Stop::Refused(22)) => Err(Stop::Leak),
                        answer => answer,
                    }
                })
            },
            ..RIGHT
        },
        Variant {
            fault: "the leak before 21",
            judge: |program, sets, budget| {
                changed_walk((program, sets, budget), |line, counter, sets| {
                    let outcomes = outcomes(line, counter, sets);
                    match step_on_sets(line, counter, sets) {
                        Err(Stop::Refused(21))
                            if outcomes.iter().any(|other| other.row != outcomes[0].row) =>
                        {
                            Err(Stop::Leak)
                        }
                        answer => answer,
                    }
                })
            },
            ..RIGHT
        },
        Variant {
            fault: "22 from 16 values on",
            judge: |program, sets, budget| {
                changed_walk((program, sets, budget), |line, counter, sets| {
                    let count = results(line, counter, sets).len();
                    match step_on_sets(line, counter, sets) {
                        Ok(_) | Err(Stop::Leak) if count == MOST_VALUES => Err(Stop::Refused(22)),
                        answer => answer,
                    }
                })
            },
            ..RIGHT
        },
        Variant {
            fault: "22 from 18 values on",
            judge: |program, sets, budget| {
                changed_walk((program, sets, budget), |line, counter, sets| {
                    let count = results(line, counter, sets).len();
                    match step_on_sets(line, counter, sets) {
                        Err(Stop::Refused(22)) if count == MOST_VALUES + 1 => Err(Stop::Leak),
                        answer => answer,
                    }
                })
            },
            ..RIGHT
        },
        Variant {
            fault: "21 looks at the cell reached, not at the base",
            judge: |program, sets, budget| {
                changed_walk((program, sets, budget), |line, counter, sets| match line.destination {
                    Some(operand @ (Operand::Public { base, .. } | Operand::Sensitive { base, .. }))
                        if reach(operand, &sets.places).len() == 1 =>
                    {
                        let first = sets.places[base as usize].first().copied();
                        with_values((line, counter), sets, base, first.into_iter().collect())
                    }
                    _ => step_on_sets(line, counter, sets),
                })
            },
            ..RIGHT
        },
        Variant {
            fault: "21 not where a branch compares a place with itself",
            judge: |program, sets, budget| {
                changed_walk((program, sets, budget), |line, counter, sets| {
                    let branch = matches!(line.opcode, Opcode::Beq | Opcode::Bne);
                    match step_on_sets(line, counter, sets) {
                        Err(Stop::Refused(21)) if branch && line.first == line.second => Ok(counter + 1),
                        answer => answer,
                    }
                })
            },
            ..RIGHT
        },
        Variant {
            fault: "a value listed twice is two",
            judge: |program, sets, budget| {
                let counted = |operand: Option<Operand>| match operand {
                    Some(Operand::Register(register)) => sets[SET * register as usize] > 1,
                    _ => false,
                };
                match (Paper.judge(program, sets, budget), stored_program(program)) {
                    (Balanced { steps: 1.., .. } | Spent { steps: 1.., .. }, Ok(lines))
                        if matches!(lines[0].opcode, Opcode::Beq | Opcode::Bne)
                            && (counted(lines[0].first) || counted(lines[0].second)) =>
                    {
                        refused(21)
                    }
                    (answer, _) => answer,
                }
            },
            ..RIGHT
        },
        Variant {
            fault: "a byte of the rest is a value too",
            judge: |program, sets, budget| {
                changed_sets((program, sets, budget), |set| {
                    if (1..MOST_VALUES as u8).contains(&set[0]) {
                        set[0] += 1;
                    }
                })
            },
            ..RIGHT
        },
        Variant {
            fault: "an empty set passes",
            judge: |program, sets, budget| {
                changed_sets((program, sets, budget), |set| set[0] = set[0].max(1))
            },
            ..RIGHT
        },
        Variant {
            fault: "a longer set is cut",
            judge: |program, sets, budget| {
                changed_sets((program, sets, budget), |set| set[0] = set[0].min(MOST_VALUES as u8))
            },
            ..RIGHT
        },
        Variant {
            fault: "22 of the start before 18",
            judge: |program, sets, budget| match Paper.judge(program, sets, budget) {
                Refused { number: 18, .. }
                    if sets.chunks_exact(SET).any(|set| !(1..=MOST_VALUES as u8).contains(&set[0])) =>
                {
                    refused(22)
                }
                answer => answer,
            },
            ..RIGHT
        },
        Variant {
            fault: "the start before the program's check",
            judge: |program, sets, budget| match walk::start(sets) {
                Ok(_) => Paper.judge(program, sets, budget),
                Err(answer) => answer,
            },
            ..RIGHT
        },
        Variant {
            fault: "a walk's last step of the budget leaves it spent",
            judge: |program, sets, budget| match Paper.judge(program, sets, budget) {
                Balanced { counter, steps } if steps == budget && steps > 0 => Spent { counter, steps },
                answer => answer,
            },
            ..RIGHT
        },
        Variant {
            fault: "the step of the leak is counted",
            judge: |program, sets, budget| match Paper.judge(program, sets, budget) {
                Leak { line, steps } => Leak { line, steps: steps + 1 },
                answer => answer,
            },
            ..RIGHT
        },
    ]
}

/// What the faults are made with brings none of its own.
#[test]
fn no_fault_but_the_named_ones() {
    let right = Variant {
        part: Some(part),
        targets: Some((part, looked_up)),
        made: layouts::right_entries,
        move_image: moves::composed,
        arrived: layouts::right_entries,
        taking: Some(published::TAKING),
        sending: Some(published::SENDING),
        watching: Some(watch::WATCHING),
        choosing: Some(codewords::CHOOSING),
        run: |program, start, budget, state, trace| {
            run_taking((program, start, budget), state, trace, |line, state| {
                reading(line, state, |_, _| Reads::Right)
            })
        },
        judge: |program, sets, budget| {
            changed_walk((program, sets, budget), |line, counter, sets| {
                step_on_sets_by(line, counter, sets, |line, point, state| {
                    step_taking(line, point, state, |line, state| reading(line, state, |_, _| Reads::Right))
                })
            })
        },
        ..RIGHT
    };
    compare(&right, 2, 1, 2_000).unwrap_or_else(|report| panic!("{report}"));
    let right = Variant { watched_run: Some(RIGHT.run), ..RIGHT };
    compare(&right, 2, 1, 2_000).unwrap_or_else(|report| panic!("{report}"));
}

#[test]
fn every_fault_is_found() {
    assert!(compare(&RIGHT, 2, 1, 200).is_ok());
    let named = |variant: Variant| (variant.fault.to_string(), variant);
    let whole = variants().into_iter().chain(jumps::variants()).map(named).chain(layouts::variants());
    let (mut found, mut missed) = (0, vec![]);
    let whole = whole.chain(moves::variants()).chain(bus::variants()).chain(published::variants());
    let whole = whole.chain(watch::variants()).chain(nibble::variants()).chain(codewords::variants());
    for (fault, variant) in whole {
        match compare(&variant, 2, 1, 12_000) {
            Ok(_) => missed.push(fault),
            Err(report) => {
                println!("{fault:60} {}", report.lines().next().unwrap());
                found += 1;
            }
        }
    }
    println!("{found} wrong implementations found");
    assert!(missed.is_empty(), "not found: {missed:#?}");
}

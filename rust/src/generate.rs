//! Random inputs: layouts, programs that are right or nearly so, texts, states, sets.

use crate::answer::Layout;
use crate::paper::walk::{MOST_VALUES, SET};
use crate::paper::{
    self, is_public, kind_of_place, table_page, Kind, Line, Opcode, Operand, Operand::*, MOST_CHECKED,
    MOST_LINES, OPCODES, PAGE, PUBLIC_BIT, SIX, STATE,
};
use crate::random::Random;

pub mod bus;
pub mod codewords;
pub mod moves;
pub mod nibble;
pub mod published;
pub mod watch;

// ---------------------------------------------------------------- layouts

/// One of the six layouts, each as often as the others.
pub fn layout(rng: &mut Random) -> Layout {
    rng.pick(&Layout::ALL)
}

/// One of the six, but not this one.
fn other_layout(rng: &mut Random, layout: Layout) -> Layout {
    let others: Vec<Layout> = Layout::ALL.into_iter().filter(|&other| other != layout).collect();
    rng.pick(&others)
}

/// A layout outside the six, by its position, its spacing, or both: the first number that is too
/// large, those that are right in their lowest bits, the largest, or any.
pub fn layout_outside(rng: &mut Random) -> Layout {
    let any = [rng.within(3, 255), rng.within(2, 255)].map(|number| number as u8);
    let position = rng.pick(&[3, 3, 4, 5, 8, 128, 255, any[0]]);
    let spacing = rng.pick(&[2, 2, 3, 4, 128, 255, any[1]]);
    let right = layout(rng);
    match rng.below(3) {
        0 => Layout { position, ..right },
        1 => Layout { spacing, ..right },
        _ => Layout { position, spacing },
    }
}

// ---------------------------------------------------------------- lines

/// The last target, the last one before request 03, and those beside them.
const NEAR_LAST: [u16; 6] = [16_383, 16_384, 16_385, 32_767, 32_768, 32_769];

/// Numbers near the ends of a range as well as inside it.
fn edgy(rng: &mut Random, low: usize, high: usize) -> usize {
    match rng.below(4) {
        0 => low,
        1 => high,
        _ => rng.within(low, high),
    }
}

fn few(rng: &mut Random, low: usize, high: usize) -> u8 {
    // Few different places, so that lines meet each other's results.
    let high = if rng.one_in(3) { high } else { high.min(low + 3) };
    rng.within(low, high) as u8
}

fn public_place(rng: &mut Random) -> Operand {
    match rng.below(4) {
        0 | 1 => Register(few(rng, 4, 15)),
        2 => Cell(edgy(rng, 0, 127) as u16),
        _ => Public { base: few(rng, 4, 15), offset: edgy(rng, 0, 127) as u8 },
    }
}

fn sensitive_place(rng: &mut Random) -> Operand {
    match rng.below(4) {
        0 | 1 => Register(few(rng, 16, 31)),
        2 => Cell(edgy(rng, 128, 255) as u16),
        _ => Sensitive { base: few(rng, 4, 15), offset: edgy(rng, 0, 127) as u8 },
    }
}

/// Any place, with the forms that a mark check refuses.
fn any_place(rng: &mut Random) -> Operand {
    let base = rng.below(32) as u8;
    match rng.below(8) {
        0 => Register(base % 4),
        1 => Register(base),
        2 => Cell(edgy(rng, 0, 511) as u16),
        3 => Public { base, offset: edgy(rng, 0, 127) as u8 },
        4 => Sensitive { base, offset: edgy(rng, 0, 127) as u8 },
        5 => Table { base, offset: edgy(rng, 0, 255) as u8 },
        6 => public_place(rng),
        _ => sensitive_place(rng),
    }
}

fn literal(rng: &mut Random) -> Operand {
    let any = rng.below(256);
    Literal(rng.pick(&[0, 1, 2, 3, 7, 8, 9, 128, 255, any]) as u8)
}

fn any_argument(rng: &mut Random) -> Operand {
    if rng.one_in(4) {
        literal(rng)
    } else {
        any_place(rng)
    }
}

fn line(
    rng: &mut Random,
    marked: bool,
    opcode: Opcode,
    place: fn(&mut Random) -> Operand,
    argument: fn(&mut Random) -> Operand,
    most: usize,
) -> Line {
    let fills = opcode.fills();
    Line {
        marked,
        opcode,
        destination: fills[0].then(|| place(rng)),
        first: fills[1].then(|| argument(rng)),
        second: fills[2].then(|| argument(rng)),
        target: fills[3].then(|| edgy(rng, 0, most) as u16),
    }
}

/// A line that the mark check takes in a program of `count` lines.
pub fn accepted_line(rng: &mut Random, count: usize) -> Line {
    if rng.one_in(2) {
        marked_line(rng)
    } else {
        let opcode = OPCODES[rng.below(OPCODES.len())].0;
        unmarked_line(rng, opcode, count)
    }
}

/// Such a line that is marked.
fn marked_line(rng: &mut Random) -> Line {
    let opcode = OPCODES[rng.within(2, 6)].0;
    let argument = |rng: &mut Random| match rng.below(6) {
        0 => Literal(rng.bit()),
        1 | 2 => public_place(rng),
        _ => sensitive_place(rng),
    };
    line(rng, true, opcode, sensitive_place, argument, 0)
}

/// Such a line that is not, with this opcode.
fn unmarked_line(rng: &mut Random, opcode: Opcode, count: usize) -> Line {
    let argument = |rng: &mut Random| match rng.below(3) {
        0 => literal(rng),
        _ => public_place(rng),
    };
    line(rng, false, opcode, public_place, argument, count)
}

/// Any correct line.
pub fn any_line(rng: &mut Random) -> Line {
    let marked = rng.one_in(2);
    let opcode = OPCODES[rng.below(OPCODES.len())].0;
    let mut line = line(rng, marked, opcode, any_place, any_argument, MOST_LINES);
    if rng.one_in(4) {
        line.target = line.target.map(|_| right_target(rng));
    }
    line
}

/// A target that is right, near the last.
fn right_target(rng: &mut Random) -> u16 {
    rng.pick(&NEAR_LAST).min(MOST_LINES as u16)
}

/// An unmarked jump.
pub fn jump(target: u16) -> Line {
    Line {
        marked: false,
        opcode: Opcode::Jmp,
        destination: None,
        first: None,
        second: None,
        target: Some(target),
    }
}

/// A line with a public place whose lowest bit alone is meant.
pub fn has_public_bit(line: &Line) -> bool {
    line.marked && [line.first, line.second].into_iter().flatten().any(is_public)
}

/// The length of a line's part of the expansion, were it accepted.
pub fn part_length(layout: Layout, line: &Line) -> usize {
    let public = [line.first, line.second].into_iter().flatten().filter(|&argument| is_public(argument));
    match line.opcode {
        _ if !line.marked => 1,
        Opcode::Not => 5 + 2 * public.count(),
        Opcode::Mov => 4 + 2 * public.count(),
        _ if layout.is_spaced() => 13 + 2 * public.count(),
        _ => 14 + 2 * public.count(),
    }
}

/// The length of the expansion, were all these lines accepted.
pub fn expansion_length(layout: Layout, lines: &[Line]) -> usize {
    lines.iter().map(|line| part_length(layout, line)).sum()
}

/// A correct line made so that one of the conditions 10 to 16 holds.
fn nearly_accepted_line(rng: &mut Random, count: usize) -> Line {
    let mut line = accepted_line(rng, count);
    let low = rng.below(4) as u8;
    let high = rng.within(16, 31) as u8;
    let offset = edgy(rng, 0, 127) as u8;
    match rng.below(8) {
        0 => {
            let names = [
                Register(low),
                Cell(edgy(rng, 256, 511) as u16),
                Table { base: few(rng, 4, 15), offset },
                Public { base: low, offset },
                Sensitive { base: low, offset },
            ];
            let operand = rng.pick(&names);
            put_operand(rng, &mut line, operand);
        }
        1 => line.marked = !line.marked,
        2 => {
            let names =
                [Public { base: high, offset }, Sensitive { base: high, offset }, sensitive_place(rng)];
            let operand = rng.pick(&names);
            put_operand(rng, &mut line, operand);
        }
        // With public arguments what was refused with 13 before request 03.
        3 | 4 => {
            let opcode = OPCODES[rng.pick(&[0, 1, 7, 8, 9, 10, 11, 12])].0;
            let argument = if rng.one_in(2) { public_place } else { sensitive_place };
            line = self::line(rng, true, opcode, sensitive_place, argument, count);
        }
        5 => {
            let opcode = OPCODES[rng.within(2, 6)].0;
            let argument = if rng.one_in(2) { public_place } else { sensitive_place };
            line = self::line(rng, true, opcode, sensitive_place, argument, count);
            line.first = Some(Literal(edgy(rng, 2, 255) as u8));
        }
        6 => {
            let opcode = OPCODES[rng.pick(&[1, 11, 12])].0;
            line = self::line(rng, false, opcode, public_place, public_place, count);
            line.target = Some(match rng.below(3) {
                0 => right_target(rng),
                _ => edgy(rng, count + 1, MOST_LINES.max(count + 1)) as u16,
            });
        }
        _ => line = any_line(rng),
    }
    line
}

/// Replaces an operand, where the line has it.
fn put_operand(rng: &mut Random, line: &mut Line, operand: Operand) {
    let field = match rng.below(3) {
        0 => &mut line.destination,
        1 => &mut line.first,
        _ => &mut line.second,
    };
    *field = field.map(|_| operand);
}

// ---------------------------------------------------------------- programs

/// Mostly short, now and then long.
fn length(rng: &mut Random) -> usize {
    match rng.below(100) {
        0..=3 => 0,
        4..=69 => rng.within(1, 8),
        70..=97 => rng.within(9, 40),
        _ => rng.within(41, 300),
    }
}

/// A program that the mark check takes.
pub fn accepted_program(rng: &mut Random) -> Vec<Line> {
    let count = length(rng);
    let mut lines: Vec<Line> = (0..count).map(|_| accepted_line(rng, count)).collect();
    if count > 0 && rng.one_in(3) {
        // A loop, so that runs are longer.
        lines[count - 1] = jump(rng.below(count) as u16);
    }
    lines
}

/// A program of correct lines, mostly with something for the mark check to find.
pub fn program(rng: &mut Random) -> Vec<Line> {
    match rng.below(5) {
        0 => accepted_program(rng),
        1 => (0..length(rng)).map(|_| any_line(rng)).collect(),
        // All opcodes under both marks, and branches that stay inside.
        2 => near_program(rng),
        _ => {
            let mut lines = accepted_program(rng);
            let count = lines.len();
            for _ in 0..rng.within(1, 2) {
                if count > 0 {
                    lines[rng.below(count)] = nearly_accepted_line(rng, count);
                }
            }
            lines
        }
    }
}

/// A program of this many correct lines, made quickly: a few lines over and over.
pub fn long_program(rng: &mut Random, count: usize, accepted: bool) -> Vec<Line> {
    let few: Vec<Line> =
        (0..16).map(|_| if accepted { accepted_line(rng, count) } else { any_line(rng) }).collect();
    (0..count).map(|_| rng.pick(&few)).collect()
}

pub fn stored(lines: &[Line]) -> Vec<u16> {
    lines.iter().flat_map(Line::stored).collect()
}

pub fn text(lines: &[Line]) -> Vec<u8> {
    lines.iter().flat_map(|line| (line.spelling() + "\n").into_bytes()).collect()
}

/// Changes some numbers of a stored program.
pub fn damage_numbers(rng: &mut Random, program: &mut [u16]) {
    // The last number of each form, those beside it, and the ends of everything.
    let edges = [
        0, 1, 2, 3, 12, 13, 256, 257, 288, 289, 800, 801, 4_896, 4_897, 8_992, 8_993, 17_184, 17_185, 32_767,
        65_535,
    ];
    if program.is_empty() {
        return;
    }
    let targets: Vec<usize> = (5..program.len()).step_by(SIX).filter(|&at| program[at] != 0).collect();
    for _ in 0..rng.within(1, 3) {
        let mut at = rng.below(program.len());
        if rng.one_in(4) && !targets.is_empty() {
            at = rng.pick(&targets);
        }
        program[at] = match rng.below(4) {
            0 => rng.next() as u16,
            1 => program[at].wrapping_add(rng.pick(&[1, 65_535, 128, 256])),
            // A target's number is one more than the line.
            2 if at % SIX == 5 && program[at] != 0 => 1 + rng.pick(&NEAR_LAST),
            _ => rng.pick(&edges),
        };
    }
}

/// Changes a text at some points.
pub fn damage_text(rng: &mut Random, text: &mut Vec<u8>) {
    const BYTES: &[u8] = b"su,,,,\n\n#r@!%^+0012345678969abdjlmnopqtvx \r\t-\"\0\xe4\xff";
    const FIELDS: &[&str] = &[
        "#256",
        "#00",
        "#1",
        "#",
        "r32",
        "r04",
        "r",
        "r31",
        "@512",
        "@511",
        "@0512",
        "!r4",
        "!r4+128",
        "%r4+128",
        "^r4+256",
        "^r31+255",
        "!r32+0",
        "%r4+00",
        "!4+1",
        "!r4+",
        "%r+1",
        "016",
        "32768",
        "65536",
        "4294967296",
        "99999999999999999999",
        "nop",
        "jmp",
        "not",
        "mov",
        "and",
        "xor",
        "add",
        "beq",
        "or",
        "s",
        "u",
        "U",
        "",
        "su",
    ];
    for _ in 0..rng.pick(&[1, 1, 1, 2, 3]) {
        let size = text.len();
        let at = rng.below(size + 1);
        match rng.below(12) {
            0 if at < size => {
                text.remove(at);
            }
            1 | 2 => text.insert(at, rng.pick(BYTES)),
            3 if at < size => text[at] = rng.pick(BYTES),
            4 if at < size => text[at] = rng.byte(),
            5 => text.truncate(at),
            6 => {
                // A line with about as many bytes as condition 1 allows.
                let newline = |byte: &u8| *byte == b'\n';
                let from = text[..at].iter().rposition(newline).map_or(0, |before| before + 1);
                let to = text[at..].iter().position(newline).map_or(size, |behind| at + behind);
                let more = rng.within(38, 43).saturating_sub(to - from);
                let byte = rng.pick(b"0,1r");
                text.splice(at..at, std::iter::repeat_n(byte, more));
            }
            7..=10 if at < size => {
                // Another field in place of one.
                let stop = |byte: &u8| *byte == b',' || *byte == b'\n';
                let from = text[..at].iter().rposition(stop).map_or(0, |comma| comma + 1);
                let to = text[at..].iter().position(stop).map_or(size, |comma| at + comma);
                if from <= to {
                    let target = from < to && text.get(to) == Some(&b'\n') && rng.one_in(2);
                    let field =
                        if target { rng.pick(&NEAR_LAST).to_string() } else { rng.pick(FIELDS).to_string() };
                    text.splice(from..to, field.bytes());
                }
            }
            _ => {
                // A piece of the text once more, somewhere.
                let from = rng.below(size + 1);
                let to = (from + rng.below(20)).min(size);
                let piece = text[from..to].to_vec();
                text.splice(at..at, piece);
            }
        }
    }
}

// ---------------------------------------------------------------- jumps

/// Request 05: a program that the mark check takes, nearly every line a jump, the others marked.
pub fn full_of_jumps(rng: &mut Random) -> Vec<Line> {
    let count = match rng.below(8) {
        0 => MOST_CHECKED,
        1 => rng.within(41, MOST_CHECKED),
        _ => length(rng),
    };
    // One line of so many is marked; of a million, none.
    let between = rng.pick(&[3, 6, 12, 100, 1_000_000]);
    let mut lines = vec![];
    for target in targets(rng, count) {
        lines.push(if rng.one_in(between) { marked_line(rng) } else { any_jump(rng, target) });
    }
    lines
}

/// A target for each of `count` lines: the same for all, one of its own for each, or any.
fn targets(rng: &mut Random, count: usize) -> Vec<usize> {
    let one = edgy(rng, 0, count);
    match rng.below(4) {
        0 => vec![one; count],
        // As many lines on, and after the end from line 0 again.
        1 => (0..count).map(|at| (at + one) % (count + 1)).collect(),
        2 => (0..count).map(|at| count - at).collect(),
        _ => (0..count).map(|_| edgy(rng, 0, count)).collect(),
    }
}

/// A jump that the mark check takes, always or by a condition.
fn any_jump(rng: &mut Random, target: usize) -> Line {
    let opcode = rng.pick(&[Opcode::Jmp, Opcode::Beq, Opcode::Bne]);
    Line { target: Some(target as u16), ..unmarked_line(rng, opcode, 0) }
}

/// Changes a program full of jumps so that it is mostly refused.
pub fn damage_jumps(rng: &mut Random, lines: &mut Vec<Line>) {
    let count = lines.len();
    match rng.below(8) {
        // One line too many, and targets that would be right or not.
        0 | 1 => {
            let target = MOST_CHECKED + rng.within(0, 2);
            lines.resize_with(MOST_CHECKED + 1, || any_jump(rng, target));
        }
        // Targets that were right lie past the end of fewer lines.
        2 => lines.truncate(rng.below(count + 1)),
        3 if count > 0 => lines[rng.below(count)] = nearly_accepted_line(rng, count),
        _ => {
            for _ in 0..rng.within(1, 2) {
                aim_past_end(rng, lines);
            }
        }
    }
}

/// Another target for a jump, mostly one past the end.
fn aim_past_end(rng: &mut Random, lines: &mut [Line]) {
    let past = lines.len() as u16 + 1;
    let mut jumps: Vec<&mut Line> = lines.iter_mut().filter(|line| line.target.is_some()).collect();
    if let Some(last) = jumps.len().checked_sub(1) {
        let far = rng.pick(&NEAR_LAST);
        jumps[edgy(rng, 0, last)].target = Some(rng.pick(&[past, past, past, past + 1, far]));
    }
}

// ---------------------------------------------------------------- states

/// Where a state has the codes of a public bit.
const PUBLIC_BITS: usize = PAGE + PUBLIC_BIT as usize;

/// A bit state.
pub fn bit_state(rng: &mut Random) -> Vec<u8> {
    let small = rng.one_in(2);
    let mut state = vec![0; STATE];
    for (place, value) in state.iter_mut().enumerate() {
        *value = match kind_of_place(place) {
            Kind::Public if small => rng.below(4) as u8,
            Kind::Public => rng.byte(),
            Kind::Sensitive => rng.bit(),
            Kind::Other => 0,
        };
    }
    state
}

/// A bit state with the same public places, its sensitive bits new.
pub fn same_public(rng: &mut Random, state: &[u8]) -> Vec<u8> {
    let mut other = state.to_vec();
    for (place, value) in other.iter_mut().enumerate() {
        if kind_of_place(place) == Kind::Sensitive {
            *value = rng.bit();
        }
    }
    other
}

/// The image of a bit state in a layout, r1 to r3 being free.
pub fn image(rng: &mut Random, layout: Layout) -> Vec<u8> {
    let mut state = bit_state(rng);
    for (place, value) in state.iter_mut().enumerate() {
        if kind_of_place(place) == Kind::Sensitive {
            *value = layout.code(*value);
        } else if (1..=3).contains(&place) {
            *value = rng.byte();
        }
    }
    state[PAGE..].copy_from_slice(&table_page(layout));
    state
}

/// Any state at all.
pub fn any_state(rng: &mut Random) -> Vec<u8> {
    match rng.below(3) {
        0 => bit_state(rng),
        1 => {
            let layout = layout(rng);
            image(rng, layout)
        }
        _ => (0..STATE).map(|_| rng.byte()).collect(),
    }
}

/// Changes one place or two of a bit state or an image, or the length, or mixes it with another layout's.
pub fn damage_state(rng: &mut Random, layout: Layout, state: &mut Vec<u8>) {
    match rng.below(24) {
        0..=6 => {
            let size = wrong_length(rng);
            state.resize(size, 0);
        }
        7..=9 => {
            // The codes of a public bit, as they were before request 03, exchanged, or alike.
            let [zero, one] = [0, 1].map(|bit| layout.code(bit));
            let both = rng.pick(&[[0, 0], [one, zero], [one, one], [zero, zero]]);
            state[PUBLIC_BITS..=PUBLIC_BITS + 1].copy_from_slice(&both);
        }
        10..=14 => mix_layouts(rng, layout, state),
        15..=16 => {
            // Neither bit of a pair, both, or a bit that is not the layout's besides the code.
            let besides = layout.code(rng.bit()) | 1 << rng.below(8);
            state[secret(rng)] = rng.pick(&[0, layout.mask(), besides]);
        }
        _ => {
            for _ in 0..rng.within(1, 2) {
                let place = telling_place(rng, layout);
                state[place] = match rng.below(3) {
                    0 => rng.byte(),
                    1 => rng.below(4) as u8,
                    _ => rng.pick(&[layout.code(0), layout.code(1), layout.mask(), 0]),
                };
            }
        }
    }
}

/// What stands in a state, or all of it, as another layout has it.
fn mix_layouts(rng: &mut Random, layout: Layout, state: &mut Vec<u8>) {
    let other = other_layout(rng, layout);
    let page = table_page(other);
    match rng.below(5) {
        0 | 1 => state[secret(rng)] = other.code(rng.bit()),
        2 => state[PAGE..].copy_from_slice(&page),
        3 => state[PUBLIC_BITS..=PUBLIC_BITS + 1].copy_from_slice(&page[PUBLIC_BITS - PAGE..][..2]),
        _ => *state = image(rng, other),
    }
}

/// A sensitive place of a state.
fn secret(rng: &mut Random) -> usize {
    let cell = rng.within(160, 287);
    rng.pick(&[16, 31, 160, 287, cell])
}

/// A place where a state is likely to be wrong: the ends of each kind of place and of each table, the
/// tables' entries, and the cells beside these.
fn telling_place(rng: &mut Random, layout: Layout) -> usize {
    let table = rng.within(0, 3) as u8;
    let start = PAGE + layout.table(table) as usize;
    let entry = PAGE + (layout.table(table % 3) + layout.index(rng.bit(), rng.bit())) as usize;
    let any = rng.below(STATE);
    match rng.below(4) {
        0 => rng.pick(&[start - 1, start, start + 1, entry - 1, entry, entry, entry + 1]),
        1 => rng.pick(&[PUBLIC_BITS - 1, PUBLIC_BITS, PUBLIC_BITS + 1, PUBLIC_BITS + 2, STATE - 1]),
        _ => rng.pick(&[0, 1, 2, 3, 4, 15, 16, 31, 32, 159, 160, 287, 288, any]),
    }
}

pub fn wrong_length(rng: &mut Random) -> usize {
    let any = rng.below(1_200);
    let size = rng.pick(&[0, 1, 32, 512, 543, 545, 1_088, any]);
    if size == STATE {
        STATE + 1
    } else {
        size
    }
}

// ---------------------------------------------------------------- walks

/// A program to judge, and the values that each place may have.
pub fn walk(rng: &mut Random) -> (Vec<Line>, Vec<Vec<u8>>) {
    match rng.below(8) {
        0 | 1 => {
            let layout = layout(rng);
            let mut lines = paper::expansion(layout, &accepted_program(rng));
            patch(rng, &mut lines);
            let mut image = image(rng, layout);
            image[1..=3].fill(0);
            (lines, image_sets(rng, layout, &image))
        }
        2 => crowded_walk(rng),
        3 => shifting_walk(rng),
        4 => public_walk(rng),
        _ => (near_program(rng), free_sets(rng)),
    }
}

/// Few lines whose results come near to too many values; some are refused for a base or a branch.
fn crowded_walk(rng: &mut Random) -> (Vec<Line>, Vec<Vec<u8>>) {
    let argument = |rng: &mut Random| match rng.below(8) {
        0 => literal(rng),
        1 => Table { base: rng.within(1, 9) as u8, offset: rng.byte() },
        2..=3 => Register(rng.within(5, 9) as u8),
        _ => Register(rng.within(1, 4) as u8),
    };
    let place = |rng: &mut Random| match rng.below(8) {
        0 => Table { base: rng.within(1, 9) as u8, offset: rng.byte() },
        _ => Register(rng.within(5, 9) as u8),
    };
    let count = rng.within(1, 3);
    let mut lines = vec![];
    while lines.len() < count {
        let opcode = match rng.below(2) {
            0 => Opcode::Add,
            _ => OPCODES[rng.within(3, 12)].0,
        };
        let mut line = line(rng, false, opcode, place, argument, count);
        if rng.one_in(4) {
            line.second = line.second.and(line.first);
        }
        lines.push(line);
    }
    let mut sets = free_sets(rng);
    for values in &mut sets[1..5] {
        *values = wide_set(rng);
    }
    for values in &mut sets[5..10] {
        *values = vec![rng.pick(&[0, 0, 1])];
    }
    (lines, sets)
}

/// Few shifts, mostly by 8 or more, some by counts that are alike modulo 8. In other programs such
/// counts are rare in marked lines and behind `%` and `^`. r16 to r19, which are shifted and written
/// most often, have one value, so that the count alone has several.
fn shifting_walk(rng: &mut Random) -> (Vec<Line>, Vec<Vec<u8>>) {
    let register = |rng: &mut Random| Register(few(rng, 16, 31));
    let mut lines = vec![];
    for _ in 0..rng.within(1, 4) {
        let opcode = rng.pick(&[Opcode::Lsl, Opcode::Lsr]);
        let marked = rng.one_in(2);
        let shift = line(rng, marked, opcode, register, register, 0);
        lines.push(Line { second: Some(any_argument(rng)), ..shift });
    }
    let mut sets = vec![];
    for place in 0..STATE {
        let (value, other) = (rng.byte(), rng.byte());
        let shifted = (16..20).contains(&place);
        sets.push(match rng.below(4) {
            0 if !shifted => vec![value, value % 8],
            1 if !shifted => vec![value, other],
            _ => vec![value],
        });
    }
    (lines, sets)
}

/// Lines, mostly marked, with public places of several values, which often are alike in their
/// lowest bits. r16 to r19, which are written most often, have one value.
fn public_walk(rng: &mut Random) -> (Vec<Line>, Vec<Vec<u8>>) {
    let argument = |rng: &mut Random| match rng.below(10) {
        0 => literal(rng),
        1 => any_place(rng),
        2 => Register(few(rng, 16, 31)),
        _ => public_place(rng),
    };
    let place = |rng: &mut Random| match rng.below(4) {
        0 => any_place(rng),
        _ => Register(few(rng, 16, 31)),
    };
    let count = rng.within(1, 6);
    let mut lines = vec![];
    while lines.len() < count {
        let opcode = match rng.below(3) {
            0 => rng.pick(&[Opcode::Beq, Opcode::Bne]),
            _ => OPCODES[rng.within(1, 10)].0,
        };
        let marked = !rng.one_in(8);
        lines.push(line(rng, marked, opcode, place, argument, count));
    }
    let mut sets = vec![];
    for place in 0..STATE {
        let (value, other) = (rng.byte(), rng.byte());
        let written = (16..20).contains(&place);
        sets.push(match rng.below(8) {
            0..=2 if !written => vec![value, value ^ other & 254],
            3 if !written => (0..16).map(|more| value ^ 16 * more).collect(),
            4 if !written => vec![value, other],
            _ => vec![value],
        });
    }
    (lines, sets)
}

/// Changes a program as one would by hand: lines removed, exchanged, repeated, or changed.
fn patch(rng: &mut Random, lines: &mut Vec<Line>) {
    for _ in 0..rng.within(1, 2) {
        let count = lines.len();
        if count == 0 {
            return;
        }
        let at = rng.below(count);
        match rng.below(6) {
            0 | 1 => drop(lines.remove(at)),
            2 => lines.swap(at, rng.below(count)),
            3 => lines.swap(at, (at + 1) % count),
            4 => lines.insert(at, lines[rng.below(count)]),
            _ => {
                let operand = near_place(rng);
                put_operand(rng, &mut lines[at], operand);
            }
        }
    }
}

/// One of few places, so that operands meet, some behind a base.
fn near_place(rng: &mut Random) -> Operand {
    let base = rng.below(6) as u8;
    let offset = rng.below(4) as u8;
    match rng.below(12) {
        0..=5 => Register(base),
        6 => Cell(rng.pick(&[0, 128, 256]) + offset as u16),
        7 | 8 => Table { base, offset },
        9 => Public { base, offset },
        10 => Sensitive { base, offset },
        _ => any_place(rng),
    }
}

fn near_argument(rng: &mut Random) -> Operand {
    if rng.one_in(6) {
        literal(rng)
    } else {
        near_place(rng)
    }
}

/// A program over few places. Mostly a destination is cleared before it is written, as
/// the macros do: otherwise hardly any step with several values is without leak.
fn near_program(rng: &mut Random) -> Vec<Line> {
    let count = length(rng).min(40);
    let mut lines = vec![];
    while lines.len() < count {
        let opcode = match rng.below(8) {
            0 => OPCODES[rng.below(OPCODES.len())].0,
            1 => rng.pick(&[Opcode::Beq, Opcode::Bne]),
            2..=4 => rng.pick(&[Opcode::Mov, Opcode::Xor]),
            _ => OPCODES[rng.within(2, 10)].0,
        };
        let marked = rng.one_in(2);
        let mut line = line(rng, marked, opcode, near_place, near_argument, count);
        match rng.below(6) {
            0 => line.second = line.second.and(line.first),
            1 => line.first = line.first.map(|first| line.destination.unwrap_or(first)),
            2 => line.second = line.second.map(|second| line.destination.unwrap_or(second)),
            _ => (),
        }
        if line.destination.is_some() && rng.below(3) > 0 {
            lines.push(Line { opcode: Opcode::Mov, first: Some(Register(0)), second: None, ..line });
        }
        lines.push(line);
    }
    lines
}

/// The sets of all images with the public places of this one, now and then of fewer.
pub fn image_sets(rng: &mut Random, layout: Layout, image: &[u8]) -> Vec<Vec<u8>> {
    let [zero, one] = [0, 1].map(|bit| layout.code(bit));
    let fewer = rng.one_in(4);
    let mut sets: Vec<Vec<u8>> = vec![];
    for (place, &value) in image.iter().enumerate() {
        let both = kind_of_place(place) == Kind::Sensitive && !(fewer && rng.one_in(2));
        sets.push(if both { rng.pick(&[[zero, one], [one, zero]]).to_vec() } else { vec![value] });
    }
    sets
}

/// Any sets, alike in how many places have several values, and in the ones of each value.
fn free_sets(rng: &mut Random) -> Vec<Vec<u8>> {
    let ones = rng.pick(&[None, Some(1), Some(1), Some(2)]);
    let single = rng.pick(&[1, 2, 8, 30]);
    let wide = rng.one_in(4);
    let mut sets: Vec<Vec<u8>> = vec![];
    for _ in 0..STATE {
        sets.push(match rng.below(single + 2) {
            0 if wide => wide_set(rng),
            0 | 1 => (0..rng.within(2, 4)).map(|_| some_value(rng, ones)).collect(),
            2 => vec![some_value(rng, ones)],
            _ => vec![rng.pick(&[0, 0, 1, 2, 3])],
        });
        if rng.one_in(50) {
            // As a base of `!` or `%`, both reach the same cell.
            let value = some_value(rng, ones);
            sets.push(vec![value, value ^ 128]);
        }
    }
    sets.truncate(STATE);
    if !rng.one_in(4) {
        sets[0] = vec![0];
    }
    sets
}

/// Many values: neighbours, so that sums of two such sets are often 16 or 17, or values
/// with four ones each.
fn wide_set(rng: &mut Random) -> Vec<u8> {
    let count = rng.pick(&[2, 5, 8, 9, 10, MOST_VALUES - 1, MOST_VALUES]);
    if rng.below(3) > 0 {
        let low = rng.below(256 - count);
        return (low..low + count).map(|value| value as u8).collect();
    }
    let mut values = vec![];
    while values.len() < count {
        let value = rng.byte();
        if value.count_ones() == 4 && !values.contains(&value) {
            values.push(value);
        }
    }
    values
}

/// Lines over few places, of which four at most have several values.
pub fn small_walk(rng: &mut Random) -> (Vec<Line>, Vec<Vec<u8>>) {
    let lines = near_program(rng);
    let ones = rng.pick(&[None, Some(1), Some(2)]);
    let mut sets: Vec<Vec<u8>> = (0..STATE).map(|_| vec![rng.pick(&[0, 0, 1, 2])]).collect();
    for _ in 0..rng.within(1, 4) {
        let near = rng.pick(&[0, 0, 0, 32, 32 + 128, 32 + 256]) + rng.below(6);
        sets[near] = (0..rng.within(2, 3)).map(|_| some_value(rng, ones)).collect();
    }
    (lines, sets)
}

/// All states that the sets allow.
pub fn all_states(sets: &[Vec<u8>]) -> Vec<Vec<u8>> {
    let mut states: Vec<Vec<u8>> = vec![sets.iter().map(|values| values[0]).collect()];
    for (place, values) in sets.iter().enumerate().filter(|(_, values)| values.len() > 1) {
        let mut more = vec![];
        for mut state in states {
            for &value in values {
                state[place] = value;
                more.push(state.clone());
            }
        }
        states = more;
    }
    states
}

/// A value, with this many ones or any; small ones reach the few cells of `near_place`.
fn some_value(rng: &mut Random, ones: Option<u32>) -> u8 {
    let small = rng.below(4) > 0;
    loop {
        let value = if small { rng.below(16) as u8 } else { rng.byte() };
        if ones.is_none_or(|ones| value.count_ones() == ones) {
            return value;
        }
    }
}

/// The sets as they are lent, with anything in the rest and values listed again.
pub fn set_bytes(rng: &mut Random, sets: &[Vec<u8>]) -> Vec<u8> {
    let junk = rng.one_in(2);
    let again = rng.one_in(4);
    let mut bytes = vec![];
    for values in sets {
        let mut listed = values.clone();
        while again && listed.len() < MOST_VALUES && rng.one_in(2) {
            listed.insert(rng.below(listed.len() + 1), rng.pick(values));
        }
        bytes.push(listed.len() as u8);
        bytes.extend_from_slice(&listed);
        bytes.extend((listed.len()..MOST_VALUES).map(|_| if junk { rng.byte() } else { 0 }));
    }
    bytes
}

/// Makes a set empty or too long, or the lent sets of another length, or both.
pub fn damage_sets(rng: &mut Random, bytes: &mut Vec<u8>) {
    let whole = SET * STATE;
    let which = rng.below(4);
    if which > 0 {
        let any = rng.below(STATE);
        let place = rng.pick(&[0, STATE - 1, any]);
        bytes[SET * place] = rng.pick(&[0, MOST_VALUES as u8 + 1, 255]);
    }
    if which < 2 {
        let any = rng.below(2 * whole);
        let size = rng.pick(&[0, 1, SET, STATE, whole - SET, whole - 1, whole + 1, whole + SET, any]);
        bytes.resize(if size == whole { whole + 1 } else { size }, 1);
    }
}

/// A state with one of its values in each place.
pub fn drawn_state(rng: &mut Random, sets: &[Vec<u8>]) -> Vec<u8> {
    sets.iter().map(|values| rng.pick(values)).collect()
}

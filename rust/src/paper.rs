//! Document 01 once more, written from the paper alone (and from
//! docs/STORED-LINES.md, which it asks for), for clarity and not for speed;
//! the requests of document 02 likewise. The test compares the library with this.

use crate::answer::{Answer, Dualrail, Layout, MapTable, PairTable, Watch, WordSet};

pub mod codewords;
pub mod layout;
pub mod moves;
pub mod nibble;
pub mod published;
pub mod walk;
pub mod watch;

/// Bytes of a state: the registers, then the cells.
pub const STATE: usize = 32 + 512;
/// Where the table page begins in a state.
pub const PAGE: usize = 32 + 256;
/// Numbers of a stored line, and of a trace row. Request 07: nine, where document 01 has six.
pub const SIX: usize = 6;
pub const ROW: usize = 9;
/// Most lines of any program, of one for the mark check, and of a line's part of an expansion.
/// Request 03: 32,768, where document 01 has 16,384; request 07: 18, where it has 13.
pub const MOST_LINES: usize = 32_768;
pub const MOST_CHECKED: usize = 1_024;
pub const LONGEST: usize = 18;
/// Most bytes of a program's text: the longest line has 33 and its newline.
pub const MOST_BYTES: usize = 34 * MOST_LINES;

// ---------------------------------------------------------------- lines

#[derive(Clone, Copy, Debug, PartialEq, Eq)]
pub enum Operand {
    /// `#n`
    Literal(u8),
    /// `rN`
    Register(u8),
    /// `@n`
    Cell(u16),
    /// `!rN+k`, cell (rN + k) mod 128
    Public { base: u8, offset: u8 },
    /// `%rN+k`, cell 128 + (rN + k) mod 128
    Sensitive { base: u8, offset: u8 },
    /// `^rN+k`, cell 256 + (rN + k) mod 256
    Table { base: u8, offset: u8 },
}
use Operand::*;

#[derive(Clone, Copy, Debug, PartialEq, Eq)]
pub enum Opcode {
    Nop,
    Jmp,
    Not,
    Mov,
    And,
    Orr,
    Xor,
    Lsl,
    Lsr,
    Add,
    Mul,
    Beq,
    Bne,
}
use Opcode::*;

/// The opcodes in the order of their stored numbers.
pub const OPCODES: [(Opcode, &str); 13] = [
    (Nop, "nop"),
    (Jmp, "jmp"),
    (Not, "not"),
    (Mov, "mov"),
    (And, "and"),
    (Orr, "orr"),
    (Xor, "xor"),
    (Lsl, "lsl"),
    (Lsr, "lsr"),
    (Add, "add"),
    (Mul, "mul"),
    (Beq, "beq"),
    (Bne, "bne"),
];

#[derive(Clone, Copy, Debug, PartialEq, Eq)]
pub struct Line {
    pub marked: bool,
    pub opcode: Opcode,
    pub destination: Option<Operand>,
    pub first: Option<Operand>,
    pub second: Option<Operand>,
    pub target: Option<u16>,
}

impl Opcode {
    /// Which of destination, first argument, second argument, target are filled.
    pub fn fills(self) -> [bool; 4] {
        match self {
            Nop => [false, false, false, false],
            Jmp => [false, false, false, true],
            Not | Mov => [true, true, false, false],
            And | Orr | Xor | Lsl | Lsr | Add | Mul => [true, true, true, false],
            Beq | Bne => [false, true, true, true],
        }
    }
}

impl Operand {
    /// The operand as it is written.
    pub fn spelling(self) -> String {
        match self {
            Literal(n) => format!("#{n}"),
            Register(n) => format!("r{n}"),
            Cell(n) => format!("@{n}"),
            Public { base, offset } => format!("!r{base}+{offset}"),
            Sensitive { base, offset } => format!("%r{base}+{offset}"),
            Table { base, offset } => format!("^r{base}+{offset}"),
        }
    }

    fn from_spelling(field: &str) -> Option<Operand> {
        let body = field.get(1..)?;
        let indirect = |most: u32| -> Option<(u8, u8)> {
            let (base, offset) = body.strip_prefix('r')?.split_once('+')?;
            Some((number(base, 31)? as u8, number(offset, most)? as u8))
        };
        Some(match field.as_bytes()[0] {
            b'#' => Literal(number(body, 255)? as u8),
            b'r' => Register(number(body, 31)? as u8),
            b'@' => Cell(number(body, 511)? as u16),
            b'!' => indirect(127).map(|(base, offset)| Public { base, offset })?,
            b'%' => indirect(127).map(|(base, offset)| Sensitive { base, offset })?,
            b'^' => indirect(255).map(|(base, offset)| Table { base, offset })?,
            _ => return None,
        })
    }

    /// The operand as it is stored, never 0.
    fn stored(self) -> u16 {
        match self {
            Literal(n) => 1 + n as u16,
            Register(n) => 257 + n as u16,
            Cell(n) => 289 + n,
            Public { base, offset } => 801 + 128 * base as u16 + offset as u16,
            Sensitive { base, offset } => 4_897 + 128 * base as u16 + offset as u16,
            Table { base, offset } => 8_993 + 256 * base as u16 + offset as u16,
        }
    }

    fn from_stored(number: u16) -> Option<Operand> {
        let split = |value: u16, size: u16| ((value / size) as u8, (value % size) as u8);
        Some(match number {
            1..=256 => Literal((number - 1) as u8),
            257..=288 => Register((number - 257) as u8),
            289..=800 => Cell(number - 289),
            801..=4_896 => {
                let (base, offset) = split(number - 801, 128);
                Public { base, offset }
            }
            4_897..=8_992 => {
                let (base, offset) = split(number - 4_897, 128);
                Sensitive { base, offset }
            }
            8_993..=17_184 => {
                let (base, offset) = split(number - 8_993, 256);
                Table { base, offset }
            }
            _ => return None,
        })
    }

    fn is_literal(self) -> bool {
        matches!(self, Literal(_))
    }
}

/// A decimal number without leading zeros, at most `most`.
fn number(digits: &str, most: u32) -> Option<u32> {
    let right = !digits.is_empty()
        && digits.len() <= 5
        && digits.bytes().all(|byte| byte.is_ascii_digit())
        && (digits.len() == 1 || !digits.starts_with('0'));
    if !right {
        return None;
    }
    digits.parse().ok().filter(|&value| value <= most)
}

/// An operand field whose filling is right already: an empty one is no operand,
/// and a filled one must be an operand, not a literal if it is a destination.
fn operand_field(filled: bool, value: Option<Operand>, destination: bool) -> Result<Option<Operand>, u16> {
    match value {
        _ if !filled => Ok(None),
        Some(operand) if !(destination && operand.is_literal()) => Ok(Some(operand)),
        _ => Err(6),
    }
}

impl Line {
    /// The line as it is written, without its newline.
    pub fn spelling(&self) -> String {
        let name = OPCODES[self.opcode as usize].1;
        let field = |operand: Option<Operand>| operand.map_or(String::new(), Operand::spelling);
        format!(
            "{},{},{},{},{},{}",
            if self.marked { "s" } else { "u" },
            name,
            field(self.destination),
            field(self.first),
            field(self.second),
            self.target.map_or(String::new(), |line| line.to_string()),
        )
    }

    /// Reads the bytes before a newline; else the number of the refusal.
    fn from_spelling(bytes: &[u8]) -> Result<Line, u16> {
        // Bytes above 127 become characters that no field has.
        let text: String = bytes.iter().map(|&byte| byte as char).collect();
        let fields: Vec<&str> = text.split(',').collect();
        let &[mark, opcode, destination, first, second, target] = &fields[..] else {
            return Err(2);
        };
        let marked = match mark {
            "s" => true,
            "u" => false,
            _ => return Err(3),
        };
        let Some(&(opcode, _)) = OPCODES.iter().find(|(_, name)| *name == opcode) else {
            return Err(4);
        };
        let filled = [destination, first, second, target].map(|field| !field.is_empty());
        if filled != opcode.fills() {
            return Err(5);
        }
        Ok(Line {
            marked,
            opcode,
            destination: operand_field(filled[0], operand_of(destination), true)?,
            first: operand_field(filled[1], operand_of(first), false)?,
            second: operand_field(filled[2], operand_of(second), false)?,
            target: if filled[3] {
                Some(number(target, MOST_LINES as u32).ok_or(6u16)? as u16)
            } else {
                None
            },
        })
    }

    /// The line as six numbers.
    pub fn stored(&self) -> [u16; SIX] {
        let field = |operand: Option<Operand>| operand.map_or(0, Operand::stored);
        [
            self.marked as u16,
            self.opcode as u16,
            field(self.destination),
            field(self.first),
            field(self.second),
            self.target.map_or(0, |line| 1 + line),
        ]
    }

    /// Takes six numbers as a line; else the number of the refusal.
    pub fn from_stored(numbers: &[u16]) -> Result<Line, u16> {
        let &[mark, opcode, destination, first, second, target] = numbers else {
            unreachable!("a line is six numbers");
        };
        if mark > 1 {
            return Err(3);
        }
        let Some(&(opcode, _)) = OPCODES.get(opcode as usize) else {
            return Err(4);
        };
        let filled = [destination, first, second, target].map(|number| number != 0);
        if filled != opcode.fills() {
            return Err(5);
        }
        if target as usize > MOST_LINES + 1 {
            return Err(6);
        }
        Ok(Line {
            marked: mark == 1,
            opcode,
            destination: operand_field(filled[0], Operand::from_stored(destination), true)?,
            first: operand_field(filled[1], Operand::from_stored(first), false)?,
            second: operand_field(filled[2], Operand::from_stored(second), false)?,
            target: target.checked_sub(1),
        })
    }
}

/// A field of text as operand; characters outside ASCII would make it none.
fn operand_of(field: &str) -> Option<Operand> {
    if field.is_ascii() {
        Operand::from_spelling(field)
    } else {
        None
    }
}

fn refused(number: u16, line: usize) -> Answer {
    Answer::Refused { number, line: line as u32 }
}

/// The check that comes first wherever a stored program is taken.
pub fn stored_program(numbers: &[u16]) -> Result<Vec<Line>, Answer> {
    let count = numbers.len() / SIX;
    if count > MOST_LINES {
        return Err(refused(7, MOST_LINES));
    }
    numbers
        .chunks_exact(SIX)
        .enumerate()
        .map(|(at, six)| Line::from_stored(six).map_err(|number| refused(number, at)))
        .collect()
}

fn read(text: &[u8], store: &mut [u16]) -> Answer {
    let room = store.len() / SIX;
    let mut rest = text;
    let mut count = 0;
    while !rest.is_empty() {
        if count == MOST_LINES {
            return refused(7, count);
        }
        if count == room {
            return refused(8, count);
        }
        let Some(end) = rest.iter().take(41).position(|&byte| byte == b'\n') else {
            return refused(1, count);
        };
        match Line::from_spelling(&rest[..end]) {
            Ok(line) => store[SIX * count..SIX * count + SIX].copy_from_slice(&line.stored()),
            Err(number) => return refused(number, count),
        }
        count += 1;
        rest = &rest[end + 1..];
    }
    Answer::Counted(count as u32)
}

fn write(lines: &[Line], out: &mut [u8]) -> Answer {
    let text: String = lines.iter().map(|line| line.spelling() + "\n").collect();
    if out.len() < text.len() {
        return refused(17, 0);
    }
    out[..text.len()].copy_from_slice(text.as_bytes());
    Answer::Counted(text.len() as u32)
}

// ---------------------------------------------------------------- mark check

#[derive(Clone, Copy, PartialEq, Eq)]
pub enum Kind {
    Public,
    Sensitive,
    /// r0 to r3 and the table page
    Other,
}

/// The kind of a place of the state.
pub fn kind_of_place(place: usize) -> Kind {
    match place {
        4..=15 => Kind::Public,
        16..=31 => Kind::Sensitive,
        32..=159 => Kind::Public,
        160..=287 => Kind::Sensitive,
        _ => Kind::Other,
    }
}

/// The kind of an operand, none for a literal.
fn kind(operand: Operand) -> Option<Kind> {
    match operand {
        Literal(_) => None,
        Register(n) => Some(kind_of_place(n as usize)),
        Cell(n) => Some(kind_of_place(32 + n as usize)),
        Public { .. } => Some(Kind::Public),
        Sensitive { .. } => Some(Kind::Sensitive),
        Table { .. } => Some(Kind::Other),
    }
}

pub fn is_public(operand: Operand) -> bool {
    kind(operand) == Some(Kind::Public)
}

/// The base register of an indirect operand.
pub fn base(operand: Operand) -> Option<u8> {
    match operand {
        Public { base, .. } | Sensitive { base, .. } | Table { base, .. } => Some(base),
        _ => None,
    }
}

/// The lowest of the conditions 10 to 16 that holds for a line. Request 03: 13 no longer
/// occurs, and the others keep their numbers.
fn mark_fault(line: &Line, line_count: usize) -> Option<u16> {
    let arguments: Vec<Operand> = [line.first, line.second].into_iter().flatten().collect();
    let operands: Vec<Operand> = line.destination.into_iter().chain(arguments.iter().copied()).collect();
    let sensitive_argument = arguments.iter().any(|&operand| kind(operand) == Some(Kind::Sensitive));
    let any_base = |low: u8, high: u8| {
        operands.iter().any(|&operand| base(operand).is_some_and(|base| low <= base && base <= high))
    };
    let wrong_destination = if line.marked { Kind::Public } else { Kind::Sensitive };

    let conditions = [
        (10, any_base(0, 3) || operands.iter().any(|&operand| kind(operand) == Some(Kind::Other))),
        (11, line.destination.is_some_and(|operand| kind(operand) == Some(wrong_destination))),
        (12, !line.marked && sensitive_argument || any_base(16, 31)),
        (14, line.marked && !matches!(line.opcode, Not | Mov | And | Orr | Xor)),
        (15, line.marked && operands.iter().any(|operand| matches!(operand, Literal(2..)))),
        (16, line.target.is_some_and(|target| target as usize > line_count)),
    ];
    conditions.iter().find(|(_, holds)| *holds).map(|(number, _)| *number)
}

fn mark_check(lines: &[Line]) -> Result<(), Answer> {
    if lines.len() > MOST_CHECKED {
        return Err(refused(9, 0));
    }
    for (at, line) in lines.iter().enumerate() {
        if let Some(number) = mark_fault(line, lines.len()) {
            return Err(refused(number, at));
        }
    }
    Ok(())
}

// ---------------------------------------------------------------- expansion

/// Where the table page has the codes of a public bit, request 03: cells 496 and 497.
pub const PUBLIC_BIT: u8 = 240;

const R0: Operand = Register(0);
const R1: Operand = Register(1);
const R2: Operand = Register(2);
const R3: Operand = Register(3);

/// A new line: it carries the mark of the old one, and has no target.
fn new_line(opcode: Opcode, destination: Operand, first: Operand, second: Option<Operand>) -> Line {
    Line { marked: true, opcode, destination: Some(destination), first: Some(first), second, target: None }
}

fn mov(destination: Operand, first: Operand) -> Line {
    new_line(Mov, destination, first, None)
}

/// A register with a second argument, into the same register.
fn with(opcode: Opcode, register: Operand, second: Operand) -> Line {
    new_line(opcode, register, register, Some(second))
}

/// An argument of a marked line, its literal coded.
fn coded(layout: Layout, argument: Option<Operand>) -> Operand {
    match argument.expect("an accepted marked line has it") {
        Literal(bit) => Literal(layout.code(bit)),
        place => place,
    }
}

/// The lines that load an argument into scratch register x. Request 03: a public place is no code;
/// its lowest bit has one in cell 496 or 497.
fn load(x: u8, argument: Operand) -> Vec<Line> {
    let mut lines = vec![mov(Register(x), argument)];
    if is_public(argument) {
        lines.push(with(And, Register(x), Literal(1)));
        lines.push(mov(Register(x), Table { base: x, offset: PUBLIC_BIT }));
    }
    lines
}

/// The macro of and, orr and xor, whose tables are numbers 0 to 2. Request 04: the mask and the table's
/// start are the layout's, and so is how often the first code is shifted. Request 07: the table's first
/// cell, which is 0, is read before the lookup and after it, so that no other address is beside the entry's.
fn table_macro(layout: Layout, table: u8, d: Operand, a: Operand, b: Operand) -> Vec<Line> {
    let mask = Literal(layout.mask());
    let in_table = |base: u8| Table { base, offset: layout.table(table) };
    [
        vec![mov(R1, R0)],
        load(1, a),
        vec![with(And, R1, mask)],
        vec![with(Lsl, R1, Literal(1)); layout.shifts()],
        vec![mov(R2, R0)],
        load(2, b),
        vec![
            with(And, R2, mask),
            with(Orr, R1, R2),
            mov(R3, in_table(0)),
            mov(R3, in_table(1)),
            mov(R2, in_table(0)),
            mov(d, R0),
            mov(d, R3),
        ],
    ]
    .concat()
}

/// The part of the expansion that one accepted line becomes, targets unchanged.
pub fn part(layout: Layout, line: &Line) -> Vec<Line> {
    if !line.marked {
        return vec![*line];
    }
    let d = line.destination.expect("an accepted marked line has it");
    let a = coded(layout, line.first);
    let table = |number: u8| table_macro(layout, number, d, a, coded(layout, line.second));
    match line.opcode {
        And => table(0),
        Orr => table(1),
        Xor => table(2),
        Not => {
            let flip = with(Xor, R1, Literal(layout.mask()));
            [vec![mov(R1, R0)], load(1, a), vec![flip, mov(d, R0), mov(d, R1)]].concat()
        }
        Mov => [vec![mov(R3, R0)], load(3, a), vec![mov(d, R0), mov(d, R3)]].concat(),
        _ => unreachable!("an accepted marked line"),
    }
}

/// The start of each line's part; the last entry is the expansion's line count.
pub fn starts(layout: Layout, lines: &[Line]) -> Vec<usize> {
    let mut starts = vec![0];
    for line in lines {
        starts.push(starts[starts.len() - 1] + part(layout, line).len());
    }
    starts
}

/// The expansion of an accepted program.
pub fn expansion(layout: Layout, lines: &[Line]) -> Vec<Line> {
    let starts = starts(layout, lines);
    let mut joined: Vec<Line> = lines.iter().flat_map(|line| part(layout, line)).collect();
    for line in &mut joined {
        line.target = line.target.map(|target| starts[target as usize] as u16);
    }
    joined
}

fn expand(layout: Layout, lines: &[Line], out: &mut [u16]) -> Answer {
    if let Err(answer) = mark_check(lines) {
        return answer;
    }
    let expansion = expansion(layout, lines);
    if out.len() / SIX < expansion.len() {
        return refused(17, 0);
    }
    for (line, six) in expansion.iter().zip(out.chunks_exact_mut(SIX)) {
        six.copy_from_slice(&line.stored());
    }
    Answer::Counted(expansion.len() as u32)
}

// ---------------------------------------------------------------- images

/// The table page of an image: the entries of three tables, and the codes of a public bit.
pub fn table_page(layout: Layout) -> [u8; 256] {
    let mut page = [0; 256];
    let operations: [fn(u8, u8) -> u8; 3] = [|a, b| a & b, |a, b| a | b, |a, b| a ^ b];
    for (table, operation) in (0..).zip(operations) {
        for (a, b) in [(0, 0), (0, 1), (1, 0), (1, 1)] {
            page[(layout.table(table) + layout.index(a, b)) as usize] = layout.code(operation(a, b));
        }
    }
    for bit in 0..2 {
        page[(PUBLIC_BIT + bit) as usize] = layout.code(bit);
    }
    page
}

fn to_image(layout: Layout, bits: &[u8], image: &mut [u8]) -> Answer {
    if bits.len() != STATE || image.len() != STATE {
        return refused(18, 0);
    }
    for place in 0..STATE {
        let most = match kind_of_place(place) {
            Kind::Public => 255,
            Kind::Sensitive => 1,
            Kind::Other => 0,
        };
        if bits[place] > most {
            return refused(19, 0);
        }
    }
    let page = table_page(layout);
    for place in 0..STATE {
        image[place] = match kind_of_place(place) {
            Kind::Public => bits[place],
            Kind::Sensitive => layout.code(bits[place]),
            Kind::Other if place >= PAGE => page[place - PAGE],
            Kind::Other => 0,
        };
    }
    Answer::Counted(STATE as u32)
}

/// Condition 19 on the way back, of a state of the right length; r1 to r3 and the public places are free.
fn is_no_image(layout: Layout, state: &[u8]) -> bool {
    let uncoded =
        |place: usize| kind_of_place(place) == Kind::Sensitive && layout.decoded(state[place]).is_none();
    (0..STATE).any(uncoded) || state[0] != 0 || state[PAGE..] != table_page(layout)
}

fn from_image(layout: Layout, image: &[u8], bits: &mut [u8]) -> Answer {
    if image.len() != STATE || bits.len() != STATE {
        return refused(18, 0);
    }
    if is_no_image(layout, image) {
        return refused(19, 0);
    }
    for place in 0..STATE {
        bits[place] = match kind_of_place(place) {
            Kind::Public => image[place],
            Kind::Sensitive => layout.decoded(image[place]).unwrap(),
            Kind::Other => 0,
        };
    }
    Answer::Counted(STATE as u32)
}

// ---------------------------------------------------------------- machine

/// The place of an operand in the state, none for a literal.
pub fn place(operand: Operand, state: &[u8]) -> Option<usize> {
    let sum = |base: u8, offset: u8| state[base as usize] as usize + offset as usize;
    match operand {
        Literal(_) => None,
        Register(n) => Some(n as usize),
        Cell(n) => Some(32 + n as usize),
        Public { base, offset } => Some(32 + sum(base, offset) % 128),
        Sensitive { base, offset } => Some(32 + 128 + sum(base, offset) % 128),
        Table { base, offset } => Some(32 + 256 + sum(base, offset) % 256),
    }
}

/// The place that a line writes in this state, none where there is no write.
pub fn written_place(line: &Line, state: &[u8]) -> Option<usize> {
    place(line.destination?, state)
}

/// An operand's address, a cell's number; a register, a literal and an empty field have none.
pub fn address(operand: Option<Operand>, state: &[u8]) -> Option<u16> {
    let cell = place(operand?, state)?.checked_sub(32)?;
    Some(cell as u16)
}

/// The ones in an address, 0 where there is none.
fn ones(address: Option<u16>) -> u16 {
    address.map_or(0, |address| address.count_ones() as u16)
}

/// Request 07: an address goes on the bus, which holds the one before it. Gives the bits in which they
/// differ; where there is no address, 0, and the bus is left as it is.
fn put_on(bus: &mut u16, address: Option<u16>) -> u16 {
    let before = *bus;
    *bus = address.unwrap_or(before);
    (before ^ *bus).count_ones() as u16
}

/// The value of an argument, 0 where the line has none. Request 03: a public place in a
/// marked line means its lowest bit. What is no argument, a base too, is read whole.
pub fn value(marked: bool, argument: Option<Operand>, state: &[u8]) -> u8 {
    match argument {
        None => 0,
        Some(Literal(n)) => n,
        Some(other) => {
            let whole = state[place(other, state).unwrap()];
            if marked && is_public(other) {
                whole & 1
            } else {
                whole
            }
        }
    }
}

/// Where a run stands between two steps, its state apart: the line, and the last address on the bus.
#[derive(Clone, Copy, Debug, PartialEq, Eq)]
pub struct Point {
    pub counter: u16,
    pub bus: u16,
}

impl Point {
    /// Request 07: the bus starts at 0 in every run.
    pub fn start(counter: u16) -> Point {
        Point { counter, bus: 0 }
    }
}

/// A row of a trace.
pub type Row = [u16; ROW];

/// One step: the next point and the trace row.
pub fn step(line: &Line, Point { counter, mut bus }: Point, state: &mut [u8]) -> (Point, Row) {
    let a = value(line.marked, line.first, state);
    let b = value(line.marked, line.second, state);
    let addresses = [line.first, line.second, line.destination].map(|operand| address(operand, state));
    let mut row = [counter, 0, 0, 0, 0, 0, 0, 0, 0];
    row[3..6].copy_from_slice(&addresses.map(ones));
    row[6..9].copy_from_slice(&addresses.map(|address| put_on(&mut bus, address)));
    let taken = match line.opcode {
        Jmp => true,
        Beq => a == b,
        Bne => a != b,
        _ => false,
    };
    let result = match line.opcode {
        Not if line.marked => a ^ 1,
        Not => 255 - a,
        Mov => a,
        And => a & b,
        Orr => a | b,
        Xor => a ^ b,
        // Request 02: the count modulo 8, where document 01 has 0 from 8 up.
        Lsl => a << (b % 8),
        Lsr => a >> (b % 8),
        Add => a.wrapping_add(b),
        Mul => a.wrapping_mul(b),
        Nop | Jmp | Beq | Bne => 0,
    };
    if let Some(place) = written_place(line, state) {
        row[1] = result.count_ones() as u16;
        row[2] = (state[place] ^ result).count_ones() as u16;
        state[place] = result;
    }
    let next = if taken { line.target.unwrap() } else { counter + 1 };
    (Point { counter: next, bus }, row)
}

/// What a run checks besides its program.
pub fn run_fault(budget: u16, state: &[u8], trace: &[u16]) -> Option<Answer> {
    if state.len() != STATE {
        return Some(refused(18, 0));
    }
    if trace.len() < ROW * budget as usize {
        return Some(refused(20, 0));
    }
    None
}

/// The run, with the step that it is made of.
pub fn run(
    lines: &[Line],
    start: u16,
    budget: u16,
    state: &mut [u8],
    trace: &mut [u16],
    mut one_step: impl FnMut(&Line, Point, &mut [u8]) -> (Point, Row),
) -> Answer {
    if let Some(refusal) = run_fault(budget, state, trace) {
        return refusal;
    }
    let mut point = Point::start(start);
    let mut steps = 0;
    while steps < budget && (point.counter as usize) < lines.len() {
        let (next, row) = one_step(&lines[point.counter as usize], point, state);
        trace[ROW * steps as usize..][..ROW].copy_from_slice(&row);
        point = next;
        steps += 1;
    }
    let counter = point.counter;
    if (counter as usize) < lines.len() {
        Answer::Spent { counter, steps }
    } else {
        Answer::Halted { counter, steps }
    }
}

// ---------------------------------------------------------------- entry points

/// Request 04: a layout outside the six is refused before all else.
fn in_layout(layout: Layout, answer: impl FnOnce() -> Answer) -> Answer {
    if layout.is_one_of_six() {
        answer()
    } else {
        refused(23, 0)
    }
}

/// The paper as one of the implementations.
pub struct Paper;

impl Dualrail for Paper {
    fn read(&self, text: &[u8], store: &mut [u16]) -> Answer {
        read(text, store)
    }
    fn write(&self, program: &[u16], out: &mut [u8]) -> Answer {
        stored_program(program).map_or_else(|answer| answer, |lines| write(&lines, out))
    }
    fn check(&self, program: &[u16]) -> Answer {
        stored_program(program)
            .and_then(|lines| mark_check(&lines).map(|()| Answer::Counted(lines.len() as u32)))
            .unwrap_or_else(|answer| answer)
    }
    fn expand(&self, layout: Layout, program: &[u16], out: &mut [u16]) -> Answer {
        in_layout(layout, || {
            stored_program(program).map_or_else(|answer| answer, |lines| expand(layout, &lines, out))
        })
    }
    fn to_image(&self, layout: Layout, bits: &[u8], image: &mut [u8]) -> Answer {
        in_layout(layout, || to_image(layout, bits, image))
    }
    fn from_image(&self, layout: Layout, image: &[u8], bits: &mut [u8]) -> Answer {
        in_layout(layout, || from_image(layout, image, bits))
    }
    fn move_image(&self, old: Layout, new: Layout, from: &[u8], into: &mut [u8]) -> Answer {
        in_layout(old, || in_layout(new, || moves::move_image(old, new, from, into)))
    }
    fn run(&self, program: &[u16], start: u16, budget: u16, state: &mut [u8], trace: &mut [u16]) -> Answer {
        stored_program(program)
            .map_or_else(|answer| answer, |lines| run(&lines, start, budget, state, trace, step))
    }
    fn run_watched(
        &self,
        program: &[u16],
        start: u16,
        budget: u16,
        state: &mut [u8],
        trace: &mut [u16],
        watches: &mut [Watch],
    ) -> Answer {
        stored_program(program).map_or_else(
            |answer| answer,
            |lines| watch::run_watched(&lines, start, budget, state, trace, watches),
        )
    }
    fn judge(&self, program: &[u16], sets: &[u8], budget: u16) -> Answer {
        stored_program(program).map_or_else(|answer| answer, |lines| walk::judge(&lines, sets, budget))
    }
    fn take_in(&self, text: &[u8], out: &mut [u8]) -> Answer {
        published::take_in(text, out)
    }
    fn send_out(&self, text: &[u8], out: &mut [u8]) -> Answer {
        published::send_out(text, out)
    }
    fn encode(&self, nibble: u8) -> u8 {
        nibble::encode(nibble)
    }
    fn decode(&self, word: u8) -> u8 {
        nibble::decode(word)
    }
    fn xor(&self, first: u8, second: u8) -> u8 {
        nibble::xor(first, second)
    }
    fn xor_table(&self, table: &mut PairTable) {
        *table = nibble::xor_table();
    }
    fn map_table(&self, map: &[u8], table: &mut MapTable) -> Answer {
        nibble::map_table(map, table)
    }
    fn look_up(&self, table: &MapTable, word: u8) -> u8 {
        nibble::look_up(table, word)
    }
    fn look_up_pair(&self, table: &PairTable, first: u8, second: u8) -> u8 {
        nibble::look_up_pair(table, first, second)
    }
    fn choose(&self, bits: u8, ones: u8, size: u8, weights: &[i16], set: &mut WordSet) -> Answer {
        codewords::choose(bits, ones, size, weights, set)
    }
}

//! Request 08 of document 02, the published spelling, from the paper alone like the
//! rest, in the order of its paragraph; words in quotes are its own.

use super::{
    base, kind, mark_check, mark_fault, number, operand_field, read, refused, stored_program, write, Kind,
    Line, Opcode, Operand, Operand::*, MOST_CHECKED, MOST_LINES, OPCODES, SIX,
};
use crate::answer::Answer;
use std::collections::{BTreeMap, BTreeSet};

/// "Labels have 1 to 16 letters or digits, at most 1,025 of them."
pub const LONGEST_NAME: usize = 16;
pub const MOST_LABELS: usize = 1_025;

// ---------------------------------------------------------------- their lines

/// "Blanks are spaces and tabs": nothing else is one, a carriage return neither.
fn is_blank(byte: u8) -> bool {
    byte == b' ' || byte == b'\t'
}

/// A line of their text. Lines count from 0, those without an instruction too.
pub struct TextLine<'a> {
    /// "a line ends with a newline": the last one may lack it.
    pub ended: bool,
    /// The label's name, whatever it is made of.
    pub label: Option<&'a [u8]>,
    /// The parts of the instruction, none where there is no instruction.
    pub parts: Vec<&'a [u8]>,
}

impl TextLine<'_> {
    /// Takes apart a line with its newline, if it has one.
    fn new(line: &[u8]) -> TextLine<'_> {
        let without = line.strip_suffix(b"\n");
        // "a `;` anywhere starts a comment"
        let said = without.unwrap_or(line).split(|&byte| byte == b';').next().unwrap_or_default();
        // "one or more between parts, any before and after, none inside"
        let mut parts: Vec<&[u8]> =
            said.split(|&byte| is_blank(byte)).filter(|part| !part.is_empty()).collect();
        // "a first part that ends with a colon is a label"
        let label = parts.first().and_then(|first| first.strip_suffix(b":"));
        if label.is_some() {
            parts.remove(0);
        }
        TextLine { ended: without.is_some(), label, parts }
    }

    /// "A line without an instruction is not counted".
    pub fn is_counted(&self) -> bool {
        !self.parts.is_empty()
    }
}

pub fn text_lines(text: &[u8]) -> Vec<TextLine<'_>> {
    text.split_inclusive(|&byte| byte == b'\n').map(TextLine::new).collect()
}

// ---------------------------------------------------------------- operands and marks

/// An operand in their form, if it is one. Numbers are spelled as ours are, and so is what is not indirect.
pub fn operand(part: &[u8]) -> Option<Operand> {
    let part = std::str::from_utf8(part).ok().filter(|part| part.is_ascii())?;
    let Some(inner) = part.strip_prefix('!') else {
        return Operand::from_spelling(part).filter(|&operand| base(operand).is_none());
    };
    // "a missing offset is 0"
    let (register, offset) = match inner.split_once(',') {
        Some((register, offset)) => (register, number(offset, 255)? as u8),
        None => (inner, 0),
    };
    // "an indirect base is a register"
    let Some(Register(base)) = Operand::from_spelling(register) else {
        return None;
    };
    // "offset 0 to 127 is our `!`, offset k from 128 to 255 is our `%` with k less 128"
    Some(match offset {
        0..=127 => Public { base, offset },
        _ => Sensitive { base, offset: offset - 128 },
    })
}

/// The same the other way: "offsets are written". Of an accepted line; `^` has no counterpart.
pub fn sent_operand(operand: Operand) -> String {
    match operand {
        Public { base, offset } => format!("!r{base},{offset}"),
        Sensitive { base, offset } => format!("!r{base},{}", offset as u16 + 128),
        same => same.spelling(),
    }
}

/// "The mark is s exactly where the destination is sensitive."
pub fn is_marked(destination: Option<Operand>) -> bool {
    destination.and_then(kind) == Some(Kind::Sensitive)
}

// ---------------------------------------------------------------- going out

/// A line as it is sent out: "parts stand one space apart".
fn sent_line(line: &Line) -> String {
    let mut parts = vec![OPCODES[line.opcode as usize].1.to_string()];
    parts.extend([line.destination, line.first, line.second].into_iter().flatten().map(sent_operand));
    parts.extend(line.target.map(|target| format!("L{target}")));
    parts.join(" ") + "\n"
}

/// Accepted lines as they are sent out: "each target used has its own line, as `L5:`, before line 5 or at the end".
fn sent(lines: &[Line]) -> String {
    let used: BTreeSet<usize> = lines.iter().filter_map(|line| line.target).map(usize::from).collect();
    let mut text = String::new();
    for at in 0..=lines.len() {
        if used.contains(&at) {
            text += &format!("L{at}:\n");
        }
        text += &lines.get(at).map_or(String::new(), sent_line);
    }
    text
}

/// "Going out, refusals 1 to 16 come first", those of reading before those of the mark check.
pub(super) fn send_out(text: &[u8], out: &mut [u8]) -> Answer {
    let mut store = vec![0; SIX * MOST_LINES];
    let count = match read(text, &mut store) {
        Answer::Counted(count) => count as usize,
        answer => return answer,
    };
    let checked =
        stored_program(&store[..SIX * count]).and_then(|lines| mark_check(&lines).map(|()| sent(&lines)));
    let sent = match checked {
        Ok(sent) => sent,
        Err(answer) => return answer,
    };
    // "then 17"
    if out.len() < sent.len() {
        return refused(17, 0);
    }
    out[..sent.len()].copy_from_slice(sent.as_bytes());
    Answer::Counted(sent.len() as u32)
}

// ---------------------------------------------------------------- labels

fn of_letters_and_digits(part: &[u8]) -> bool {
    part.iter().all(u8::is_ascii_alphanumeric)
}

/// The labels of a text.
pub struct Labels<'a> {
    /// Those that count, with the counted lines, from 0, that they name.
    pub named: BTreeMap<&'a [u8], usize>,
    /// The text lines of those that do not.
    pub wrong: BTreeSet<usize>,
}

/// "a label there names the next counted line or the end"; one before an instruction names its line. "A label within
/// the limits counts though its line is bad": the line is not looked at here. Of two with one name the later does not
/// count, nor does a 1,026th.
pub fn labels<'a>(lines: &[TextLine<'a>]) -> Labels<'a> {
    let mut labels = Labels { named: BTreeMap::new(), wrong: BTreeSet::new() };
    let mut counted = 0;
    for (at, line) in lines.iter().enumerate() {
        if let Some(name) = line.label {
            let in_limits = (1..=LONGEST_NAME).contains(&name.len())
                && of_letters_and_digits(name)
                && labels.named.len() < MOST_LABELS;
            if in_limits && !labels.named.contains_key(name) {
                labels.named.insert(name, counted);
            } else {
                labels.wrong.insert(at);
            }
        }
        counted += line.is_counted() as usize;
    }
    labels
}

// ---------------------------------------------------------------- coming in

/// The opcode of an instruction, if it is "a known opcode" with "its count of parts".
pub fn opcode(parts: &[&[u8]]) -> Option<Opcode> {
    let &(opcode, _) = OPCODES.iter().find(|(_, name)| parts.first() == Some(&name.as_bytes()))?;
    let filled = opcode.fills().into_iter().filter(|&filled| filled).count();
    (parts.len() == 1 + filled).then_some(opcode)
}

/// "24 a label missing": a target of letters and digits that no label has. A target counts "only with a known opcode
/// and its count of parts".
fn misses_label(parts: &[&[u8]], labels: &Labels) -> bool {
    let target = match opcode(parts) {
        Some(opcode) if opcode.fills()[3] => parts[parts.len() - 1],
        _ => return false,
    };
    of_letters_and_digits(target) && !labels.named.contains_key(target)
}

/// The line of ours that an instruction stands for, if there is one: its parts in the order of our fields.
fn counterpart(parts: &[&[u8]], labels: &Labels) -> Option<Line> {
    let opcode = opcode(parts)?;
    let mut rest = parts[1..].iter();
    let [destination, first, second, target] =
        opcode.fills().map(|filled| if filled { rest.next().copied() } else { None });
    let operand = |part: Option<&[u8]>, destination: bool| {
        operand_field(part.is_some(), part.and_then(operand), destination).ok()
    };
    let destination = operand(destination, true)?;
    let target = match target {
        // A line that does not fit is past the 1,024th, so that the text is refused anyway.
        Some(name) => Some(u16::try_from(*labels.named.get(name)?).unwrap_or(u16::MAX)),
        None => None,
    };
    Some(Line {
        marked: is_marked(destination),
        opcode,
        destination,
        first: operand(first, false)?,
        second: operand(second, false)?,
        target,
    })
}

/// A refusal at a text line, of which there may be more than the answer can say.
fn refused_at(number: u16, at: usize) -> Answer {
    Answer::Refused { number, line: u32::try_from(at).unwrap_or(u32::MAX) }
}

/// "The lowest text line goes first, 24 before 25; then 17."
pub(super) fn take_in(text: &[u8], out: &mut [u8]) -> Answer {
    let lines = text_lines(text);
    let labels = labels(&lines);
    let count = lines.iter().filter(|line| line.is_counted()).count();
    let mut ours = vec![];
    for (at, line) in lines.iter().enumerate() {
        // "24 a label missing, double (the later one) or beyond these limits"
        if labels.wrong.contains(&at) || misses_label(&line.parts, &labels) {
            return refused_at(24, at);
        }
        // "25 anything else without counterpart, as a target not of letters and digits, a failed mark check or a
        // 1,025th counted line": a line that does not end with a newline too.
        if !line.ended {
            return refused_at(25, at);
        }
        if line.is_counted() {
            match counterpart(&line.parts, &labels) {
                Some(line) if mark_fault(&line, count).is_none() && ours.len() < MOST_CHECKED => {
                    ours.push(line)
                }
                _ => return refused_at(25, at),
            }
        }
    }
    write(&ours, out)
}

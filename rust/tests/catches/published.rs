//! Request 08: published text taken in and sent out wrongly.

use super::*;
use dualrail::paper::published::{
    is_marked, opcode, operand, sent_operand, TextLine, LONGEST_NAME, MOST_LABELS,
};
use dualrail::paper::OPCODES;
use std::collections::{BTreeMap, BTreeSet};

/// All of them, with their names.
pub fn variants() -> Vec<(String, Variant)> {
    let faults = TEXTS.into_iter().chain(LABELS).chain(TARGETS).chain(OPERANDS).chain(MARKS).chain(ORDER);
    let taking = faults.map(|(fault, rules)| Variant { fault, taking: Some(rules), ..RIGHT });
    let taken = TAKEN_IN.into_iter().map(|(fault, take_in)| Variant { fault, take_in, ..RIGHT });
    let sending = SENT.into_iter().map(|(fault, rules)| Variant { fault, sending: Some(rules), ..RIGHT });
    let sent = SENT_OUT.into_iter().map(|(fault, send_out)| Variant { fault, send_out, ..RIGHT });
    let inward = taking.chain(taken).map(|variant| (format!("taking in: {}", variant.fault), variant));
    let outward = sending.chain(sent).map(|variant| (format!("sending out: {}", variant.fault), variant));
    inward.chain(outward).collect()
}

// ---------------------------------------------------------------- taking in by rules

/// How text is taken in, rule by rule.
#[derive(Clone, Copy)]
pub struct Taking {
    /// What is taken for the text.
    text: fn(&[u8]) -> Vec<u8>,
    blank: fn(u8) -> bool,
    /// Where the comment of a line starts.
    comment: fn(&[u8]) -> Option<usize>,
    /// Which of a line's words is its label.
    label: fn(&[&[u8]]) -> Option<usize>,
    counted: fn(&TextLine) -> bool,
    /// What is a name of a label, what two alike have in common, and how many there may be.
    name: fn(&[u8]) -> bool,
    alike: fn(&[u8]) -> Vec<u8>,
    most_labels: usize,
    /// Whether one that is wrong, or double, is one of so many.
    wrong_fills: fn(&[u8]) -> bool,
    /// Whether the label of a line counts; the counted line that it names, by its text line and those counted before.
    counts: fn(&TextLine) -> bool,
    names: fn(&[TextLine], usize, usize) -> usize,
    double: Double,
    /// Whether a label with a wrong name, or one too many, is named by targets.
    wrong_counts: bool,
    /// The opcode of an instruction with its count of parts, and an operand.
    opcode: fn(&[&[u8]]) -> Option<Opcode>,
    operand: fn(&[u8]) -> Option<Operand>,
    /// The target that is looked for among the labels, if it is one of these bytes.
    target: for<'a> fn(&[&'a [u8]]) -> Option<&'a [u8]>,
    spelled: fn(&[u8]) -> bool,
    /// What a target means that no label has.
    otherwise: fn(&[u8]) -> Option<usize>,
    mark: fn(&Line) -> bool,
    /// Whether a number of the mark check is a refusal.
    refuses: fn(u16) -> bool,
    most_counted: usize,
    ended: fn(&TextLine) -> bool,
    /// A line of ours as it is written.
    written: fn(&Line) -> String,
    /// Which of all refusals goes first, and at which line, by all lines and the one refused.
    first: fn(&[(usize, u16)]) -> Option<(usize, u16)>,
    said: fn(&[TextLine], usize) -> usize,
}

/// Which of two labels with one name is refused, the other being named.
#[derive(Clone, Copy, PartialEq)]
enum Double {
    Later,
    Earlier,
    Neither,
}

/// The right ones.
pub const TAKING: Taking = Taking {
    text: <[u8]>::to_vec,
    blank: |byte| byte == b' ' || byte == b'\t',
    comment: |line| line.iter().position(|&byte| byte == b';'),
    label: |words| words.first().filter(|word| word.ends_with(b":")).map(|_| 0),
    counted: |line| !line.parts.is_empty(),
    name: |name| (1..=LONGEST_NAME).contains(&name.len()) && is_letters(name),
    alike: <[u8]>::to_vec,
    most_labels: MOST_LABELS,
    wrong_fills: |_| false,
    counts: |_| true,
    names: |_, _, counted| counted,
    double: Double::Later,
    wrong_counts: false,
    opcode,
    operand,
    target: |parts| opcode(parts).filter(|opcode| opcode.fills()[3]).map(|_| parts[parts.len() - 1]),
    spelled: is_letters,
    otherwise: |_| None,
    mark: |line| is_marked(line.destination),
    refuses: |_| true,
    most_counted: MOST_CHECKED,
    ended: |line| line.ended,
    written: |line| line.spelling() + "\n",
    first: |faults| faults.first().copied(),
    said: |_, at| at,
};

fn is_letters(name: &[u8]) -> bool {
    name.iter().all(u8::is_ascii_alphanumeric)
}

/// Takes a line apart.
fn taken_apart<'a>(rules: &Taking, line: &'a [u8]) -> TextLine<'a> {
    let without = line.strip_suffix(b"\n");
    let line = without.unwrap_or(line);
    let said = &line[..(rules.comment)(line).unwrap_or(line.len())];
    let mut parts: Vec<&[u8]> =
        said.split(|&byte| (rules.blank)(byte)).filter(|part| !part.is_empty()).collect();
    let label = (rules.label)(&parts).map(|at| parts.remove(at)).map(|label| &label[..label.len() - 1]);
    TextLine { ended: without.is_some(), label, parts }
}

/// The lines that labels name, and the text lines where they are refused.
fn labels_by(rules: &Taking, lines: &[TextLine]) -> (BTreeMap<Vec<u8>, usize>, BTreeSet<usize>) {
    let mut named: BTreeMap<Vec<u8>, usize> = BTreeMap::new();
    let mut first: BTreeMap<Vec<u8>, usize> = BTreeMap::new();
    let (mut wrong, mut counted, mut filled) = (BTreeSet::new(), 0, 0);
    for (at, line) in lines.iter().enumerate() {
        let line_named = (rules.names)(lines, at, counted);
        counted += (rules.counted)(line) as usize;
        let Some(name) = line.label.filter(|_| (rules.counts)(line)) else { continue };
        let key = (rules.alike)(name);
        let taken = named.contains_key(&key);
        if !(rules.name)(name) || (!taken && first.len() + filled >= rules.most_labels) {
            wrong.insert(at);
            filled += (rules.wrong_fills)(name) as usize;
            if rules.wrong_counts {
                named.entry(key).or_insert(line_named);
            }
            continue;
        }
        match rules.double {
            Double::Later if taken => {
                wrong.insert(at);
                filled += (rules.wrong_fills)(name) as usize;
            }
            Double::Earlier if taken => wrong.extend(first.insert(key, at)),
            _ => {
                named.insert(key.clone(), line_named);
                first.insert(key, at);
            }
        }
    }
    (named, wrong)
}

/// The line of ours for an instruction, if there is one that the mark check takes.
fn line_by(rules: &Taking, parts: &[&[u8]], find: impl Fn(&[u8]) -> Option<usize>) -> Option<Line> {
    let opcode = (rules.opcode)(parts)?;
    let mut rest = parts[1..].iter();
    let [destination, first, second, target] =
        opcode.fills().map(|filled| if filled { rest.next().copied() } else { None });
    let operand = |part: Option<&[u8]>| match part {
        Some(part) => (rules.operand)(part).map(Some),
        None => Some(None),
    };
    let target = match target {
        Some(name) => Some(find(name)? as u16),
        None => None,
    };
    let mut line = Line {
        marked: false,
        opcode,
        destination: operand(destination)?,
        first: operand(first)?,
        second: operand(second)?,
        target,
    };
    line.marked = (rules.mark)(&line);
    // Alone, a line has a target of at most 1.
    let alone = Line { target: line.target.map(|_| 0), ..line };
    match Paper.check(&alone.stored()) {
        Refused { number, .. } if number < 9 || (rules.refuses)(number) => None,
        _ => Some(line),
    }
}

/// Takes text in by rules.
pub fn taken_by(rules: &Taking, text: &[u8], out: &mut [u8]) -> Answer {
    let text = (rules.text)(text);
    let split = text.split_inclusive(|&byte| byte == b'\n');
    let lines: Vec<TextLine> = split.map(|line| taken_apart(rules, line)).collect();
    let (named, wrong) = labels_by(rules, &lines);
    let find = |name: &[u8]| named.get(&(rules.alike)(name)).copied().or_else(|| (rules.otherwise)(name));
    let (mut faults, mut counted, mut ours) = (vec![], 0, String::new());
    for (at, line) in lines.iter().enumerate() {
        let target = (rules.target)(&line.parts);
        if wrong.contains(&at) || target.is_some_and(|name| (rules.spelled)(name) && find(name).is_none()) {
            faults.push((at, 24));
        }
        counted += (rules.counted)(line) as usize;
        let taken = match line.parts.is_empty() {
            true => Some(String::new()),
            false => line_by(rules, &line.parts, find).map(|line| (rules.written)(&line)),
        };
        match taken {
            Some(taken) if counted <= rules.most_counted && (rules.ended)(line) => ours += &taken,
            _ => faults.push((at, 25)),
        }
    }
    if let Some((at, number)) = (rules.first)(&faults) {
        return Refused { number, line: (rules.said)(&lines, at) as u32 };
    }
    into_store(ours.as_bytes(), out)
}

/// Writes, if there is room.
fn into_store(text: &[u8], out: &mut [u8]) -> Answer {
    if out.len() < text.len() {
        return refused(17);
    }
    out[..text.len()].copy_from_slice(text);
    Counted(text.len() as u32)
}

// ---------------------------------------------------------------- lines, blanks, comments

/// The text with each line changed, its newline apart.
fn by_line(text: &[u8], change: fn(&[u8]) -> Vec<u8>) -> Vec<u8> {
    let lines = text.split(|&byte| byte == b'\n').map(change);
    lines.collect::<Vec<_>>().join(&b'\n')
}

const TEXTS: [(&str, Taking); 22] = [
    ("a tab is no blank", Taking { blank: |byte| byte == b' ', ..TAKING }),
    ("a space is no blank", Taking { blank: |byte| byte == b'\t', ..TAKING }),
    ("a return is a blank", Taking { blank: |byte| b" \t\r".contains(&byte), ..TAKING }),
    ("a form feed is a blank", Taking { blank: |byte| b" \t\x0c".contains(&byte), ..TAKING }),
    ("a zero is a blank", Taking { blank: |byte| b" \t\0".contains(&byte), ..TAKING }),
    ("all up to the space is a blank", Taking { blank: |byte| byte <= b' ', ..TAKING }),
    ("a comma is a blank", Taking { blank: |byte| b" \t,".contains(&byte), ..TAKING }),
    ("a return before a newline is left out", Taking { text: |text| replaced(text, "\r\n", "\n"), ..TAKING }),
    (
        "a zero ends the text",
        Taking { text: |text| text.split(|&byte| byte == 0).next().unwrap_or_default().to_vec(), ..TAKING },
    ),
    (
        "a comment starts at a part's start alone",
        Taking {
            comment: |line| {
                let starts = |at: usize| at == 0 || line[at - 1] == b' ' || line[at - 1] == b'\t';
                (0..line.len()).find(|&at| line[at] == b';' && starts(at))
            },
            ..TAKING
        },
    ),
    (
        "a comment starts at a line's start alone",
        Taking { comment: |line| line.starts_with(b";").then_some(0), ..TAKING },
    ),
    (
        "a comment starts at the last `;`",
        Taking { comment: |line| line.iter().rposition(|&byte| byte == b';'), ..TAKING },
    ),
    (
        "a `#` without number starts a comment",
        Taking {
            comment: |line| {
                line.iter()
                    .position(|&byte| byte == b';')
                    .or_else(|| line.windows(2).position(|two| two[0] == b'#' && !two[1].is_ascii_digit()))
            },
            ..TAKING
        },
    ),
    (
        "blanks before the first part are none",
        Taking {
            text: |text| {
                by_line(text, |line| match line.first() {
                    Some(b' ' | b'\t') if line.iter().any(u8::is_ascii_alphanumeric) => [b"_", line].concat(),
                    _ => line.to_vec(),
                })
            },
            ..TAKING
        },
    ),
    ("a last line without newline is taken", Taking { ended: |_| true, ..TAKING }),
    (
        "a last line of blanks without newline is taken",
        Taking { ended: |line| line.ended || line.label.is_none() && line.parts.is_empty(), ..TAKING },
    ),
    (
        "a last line without instruction and newline is taken",
        Taking { ended: |line| line.ended || line.parts.is_empty(), ..TAKING },
    ),
    (
        "a last instruction without newline is taken",
        Taking { ended: |line| line.ended || !line.parts.is_empty(), ..TAKING },
    ),
    (
        "what has no newline is left out",
        Taking {
            text: |text| text[..text.iter().rposition(|&byte| byte == b'\n').map_or(0, |at| at + 1)].to_vec(),
            ..TAKING
        },
    ),
    ("a last label without newline does not count", Taking { counts: |line| line.ended, ..TAKING }),
    ("1,023 counted lines at most", Taking { most_counted: 1_023, ..TAKING }),
    ("1,025 counted lines at most", Taking { most_counted: 1_025, ..TAKING }),
];

// ---------------------------------------------------------------- labels

/// Whether an instruction is right, its target and the mark check apart.
fn is_bad(line: &TextLine) -> bool {
    let TextLine { parts, .. } = line;
    !parts.is_empty() && line_by(&Taking { refuses: |_| false, ..TAKING }, parts, |_| Some(0)).is_none()
}

const LABELS: [(&str, Taking); 42] = [
    (
        "a word in the middle is a label",
        Taking { label: |words| words.iter().position(|word| word.ends_with(b":")), ..TAKING },
    ),
    (
        "a second word is a label, if the first is none",
        Taking { label: |words| words.iter().take(2).position(|word| word.ends_with(b":")), ..TAKING },
    ),
    (
        "a label stands alone",
        Taking { label: |words| (words.len() == 1 && words[0].ends_with(b":")).then_some(0), ..TAKING },
    ),
    (
        "a label stands before an instruction",
        Taking { label: |words| (words.len() > 1 && words[0].ends_with(b":")).then_some(0), ..TAKING },
    ),
    (
        "a colon alone is no label",
        Taking {
            label: |words| words.first().filter(|word| word.len() > 1 && word.ends_with(b":")).map(|_| 0),
            ..TAKING
        },
    ),
    (
        "a colon parts",
        Taking {
            text: |text| {
                by_line(text, |line| match line.iter().position(|&byte| byte == b':' || byte == b';') {
                    Some(at) if line[at] == b':' => [&line[..=at], b" ", &line[at + 1..]].concat(),
                    _ => line.to_vec(),
                })
            },
            ..TAKING
        },
    ),
    ("a colon may stand apart", Taking { text: |text| replaced(text, " :", ":"), ..TAKING }),
    (
        "a name has 17 letters at most",
        Taking { name: |name| (1..=17).contains(&name.len()) && is_letters(name), ..TAKING },
    ),
    (
        "a name has 15 letters at most",
        Taking { name: |name| (1..=15).contains(&name.len()) && is_letters(name), ..TAKING },
    ),
    (
        "a name has any count of letters",
        Taking { name: |name| !name.is_empty() && is_letters(name), ..TAKING },
    ),
    (
        "a name has 2 letters at least",
        Taking { name: |name| (2..=16).contains(&name.len()) && is_letters(name), ..TAKING },
    ),
    ("a name may be empty", Taking { name: |name| name.len() <= 16 && is_letters(name), ..TAKING }),
    (
        "a name may have an underscore",
        Taking {
            name: |name| (TAKING.name)(name) || name == b"a_b",
            spelled: |name| name.iter().all(|byte| byte.is_ascii_alphanumeric() || *byte == b'_'),
            ..TAKING
        },
    ),
    (
        "a name may have a byte above 127",
        Taking {
            name: |name| {
                (1..=16).contains(&name.len()) && name.iter().all(|&b| b > 127 || b.is_ascii_alphanumeric())
            },
            ..TAKING
        },
    ),
    (
        "a name may have a colon",
        Taking {
            name: |name| {
                (1..=16).contains(&name.len()) && name.iter().all(|&b| b == b':' || b.is_ascii_alphanumeric())
            },
            ..TAKING
        },
    ),
    (
        "a name starts with a letter",
        Taking { name: |name| (TAKING.name)(name) && name[0].is_ascii_alphabetic(), ..TAKING },
    ),
    (
        "a name is no number",
        Taking { name: |name| (TAKING.name)(name) && !name.iter().all(u8::is_ascii_digit), ..TAKING },
    ),
    (
        "a name is no opcode",
        Taking {
            name: |name| (TAKING.name)(name) && !OPCODES.iter().any(|(_, opcode)| opcode.as_bytes() == name),
            ..TAKING
        },
    ),
    (
        "a name has no capitals",
        Taking { name: |name| (TAKING.name)(name) && !name.iter().any(u8::is_ascii_uppercase), ..TAKING },
    ),
    ("capitals are like small letters", Taking { alike: <[u8]>::to_ascii_lowercase, ..TAKING }),
    (
        "names are compared to the 15th letter",
        Taking { alike: |name| name[..name.len().min(15)].to_vec(), ..TAKING },
    ),
    (
        "names are compared by their last 15 letters",
        Taking { alike: |name| name[name.len().saturating_sub(15)..].to_vec(), ..TAKING },
    ),
    (
        "names are compared without zeros before",
        Taking { alike: |name| name.iter().copied().skip_while(|&byte| byte == b'0').collect(), ..TAKING },
    ),
    (
        "names are compared to the 16th letter",
        Taking { alike: |name| name[..name.len().min(16)].to_vec(), ..TAKING },
    ),
    ("1,024 labels at most", Taking { most_labels: 1_024, ..TAKING }),
    ("1,026 labels at most", Taking { most_labels: 1_026, ..TAKING }),
    ("a double label is one of 1,025", Taking { wrong_fills: TAKING.name, ..TAKING }),
    (
        "a label with a wrong name is one of 1,025",
        Taking { wrong_fills: |name| !(TAKING.name)(name), ..TAKING },
    ),
    ("a label beyond the limits is named", Taking { wrong_counts: true, ..TAKING }),
    ("the earlier of two labels is refused", Taking { double: Double::Earlier, ..TAKING }),
    ("the later of two labels counts", Taking { double: Double::Neither, ..TAKING }),
    ("a label names the text line", Taking { names: |_, at, _| at, ..TAKING }),
    ("a label names the next text line", Taking { names: |_, at, _| at + 1, ..TAKING }),
    (
        "a label names the counted line before",
        Taking { names: |_, _, counted| counted.saturating_sub(1), ..TAKING },
    ),
    (
        "a label alone names the line behind the next",
        Taking { names: |lines, at, counted| counted + lines[at].parts.is_empty() as usize, ..TAKING },
    ),
    (
        "a label before an instruction names the next",
        Taking { names: |lines, at, counted| counted + !lines[at].parts.is_empty() as usize, ..TAKING },
    ),
    (
        "a label at the end names the last line",
        Taking {
            names: |lines, _, counted| {
                let count = lines.iter().filter(|line| line.is_counted()).count();
                counted.min(count.saturating_sub(1))
            },
            ..TAKING
        },
    ),
    (
        "a label alone is counted",
        Taking { counted: |line| !line.parts.is_empty() || line.label.is_some(), ..TAKING },
    ),
    ("every line is counted", Taking { counted: |_| true, ..TAKING }),
    ("a label on a bad line does not count", Taking { counts: |line| !is_bad(line), ..TAKING }),
    (
        "a label on a line with an unknown opcode does not count",
        Taking {
            counts: |line| {
                line.parts.is_empty() || OPCODES.iter().any(|(_, name)| name.as_bytes() == line.parts[0])
            },
            ..TAKING
        },
    ),
    (
        "a label on a line with a wrong count of parts does not count",
        Taking { counts: |line| line.parts.is_empty() || opcode(&line.parts).is_some(), ..TAKING },
    ),
];

// ---------------------------------------------------------------- opcodes and targets

/// The opcode that is spelled so, with its count of parts.
fn opcode_like(parts: &[&[u8]], spelled: &[u8]) -> Option<Opcode> {
    let mut parts = parts.to_vec();
    *parts.first_mut()? = spelled;
    opcode(&parts)
}

/// The last part of an instruction that has others.
fn last<'a>(parts: &[&'a [u8]]) -> Option<&'a [u8]> {
    parts.last().copied().filter(|_| parts.len() > 1)
}

fn is_jump(part: &[u8]) -> bool {
    [&b"jmp"[..], b"beq", b"bne"].contains(&part)
}

const TARGETS: [(&str, Taking); 16] = [
    (
        "`or` is an opcode",
        Taking {
            opcode: |parts| {
                opcode(parts).or_else(|| (parts[0] == b"or").then(|| opcode_like(parts, b"orr"))?)
            },
            ..TAKING
        },
    ),
    (
        "capitals are right in opcodes",
        Taking { opcode: |parts| opcode_like(parts, &parts[0].to_ascii_lowercase()), ..TAKING },
    ),
    (
        "parts too many are left out",
        Taking {
            opcode: |parts| (1..=parts.len()).rev().find_map(|count| opcode(&parts[..count])),
            ..TAKING
        },
    ),
    (
        "a target counts without a known opcode",
        Taking {
            target: |parts| match opcode(parts) {
                None if !OPCODES.iter().any(|(_, name)| parts.first() == Some(&name.as_bytes())) => {
                    last(parts)
                }
                _ => (TAKING.target)(parts),
            },
            ..TAKING
        },
    ),
    (
        "a target counts with any count of parts",
        Taking {
            target: |parts| parts.first().filter(|part| is_jump(part)).and_then(|_| last(parts)),
            ..TAKING
        },
    ),
    (
        "a target counts only with right operands",
        Taking {
            target: |parts| {
                let right = line_by(&Taking { refuses: |_| false, ..TAKING }, parts, |_| Some(0));
                right.and_then(|_| (TAKING.target)(parts))
            },
            ..TAKING
        },
    ),
    (
        "a target counts only if the mark check takes the line",
        Taking {
            target: |parts| {
                let fails = [
                    line_by(&TAKING, parts, |_| Some(0)),
                    line_by(&Taking { refuses: |_| false, ..TAKING }, parts, |_| Some(0)),
                ];
                (TAKING.target)(parts).filter(|_| fails[0].is_some() || fails[1].is_none())
            },
            ..TAKING
        },
    ),
    (
        "a target of `jmp` alone counts",
        Taking { target: |parts| (TAKING.target)(parts).filter(|_| parts[0] == b"jmp"), ..TAKING },
    ),
    ("25 for a missing label", Taking { spelled: |_| false, ..TAKING }),
    ("24 for a target of other bytes", Taking { spelled: |_| true, ..TAKING }),
    (
        "24 for a target with a byte above 127",
        Taking {
            spelled: |name| name.iter().all(|&byte| byte > 127 || byte.is_ascii_alphanumeric()),
            ..TAKING
        },
    ),
    (
        "25 for a target of 17 letters",
        Taking { spelled: |name| name.len() <= 16 && is_letters(name), ..TAKING },
    ),
    (
        "a target of digits is a line",
        Taking {
            otherwise: |name| {
                std::str::from_utf8(name).ok().and_then(|digits| digits.parse::<u8>().ok()).map(usize::from)
            },
            ..TAKING
        },
    ),
    (
        "a target with `#` is a line",
        Taking {
            otherwise: |name| {
                name.strip_prefix(b"#").and_then(|digits| std::str::from_utf8(digits).ok()?.parse().ok())
            },
            ..TAKING
        },
    ),
    (
        "a target that no label has is line 0",
        Taking { otherwise: |name| is_letters(name).then_some(0), ..TAKING },
    ),
    ("a target may end with a colon", Taking { otherwise: |name| (name == b"a:").then_some(0), ..TAKING }),
];

// ---------------------------------------------------------------- operands

/// The operand that is spelled so.
fn like(spelled: String) -> Option<Operand> {
    operand(spelled.as_bytes())
}

fn in_letters(part: &[u8]) -> String {
    part.iter().map(|&byte| byte as char).collect()
}

/// The operand without zeros before its numbers.
fn without_zeros(part: &[u8]) -> Option<Operand> {
    let mut kept: Vec<u8> = vec![];
    for (at, &byte) in part.iter().enumerate() {
        let inside = kept.last().is_some_and(u8::is_ascii_digit);
        let before_digit = part.get(at + 1).is_some_and(u8::is_ascii_digit);
        if inside || byte != b'0' || !before_digit {
            kept.push(byte);
        }
    }
    operand(&kept)
}

/// The offset of an indirect operand, its number alone.
fn with_offset(part: &[u8], change: fn(u64) -> u64) -> Option<Operand> {
    let part = in_letters(part);
    match part.split_once(',') {
        Some((base, offset)) if base.starts_with('!') => match offset.parse() {
            Ok(offset) => like(format!("{base},{}", change(offset))),
            Err(_) => like(part),
        },
        _ => like(part),
    }
}

/// The line as it is written, with `%` offsets that this is added to.
fn written_with(line: &Line, more: u8) -> String {
    let change = |operand: Option<Operand>| match operand {
        Some(Operand::Sensitive { base, offset }) => Some(Operand::Sensitive { base, offset: offset + more }),
        other => other,
    };
    let changed = Line {
        destination: change(line.destination),
        first: change(line.first),
        second: change(line.second),
        ..*line
    };
    changed.spelling() + "\n"
}

const OPERANDS: [(&str, Taking); 22] = [
    (
        "offset 128 is our `!`",
        Taking { written: |line| (TAKING.written)(line).replace("%r4+0,", "!r4+128,"), ..TAKING },
    ),
    ("128 is not taken off", Taking { written: |line| written_with(line, 128), ..TAKING }),
    ("127 is taken off", Taking { written: |line| written_with(line, 1), ..TAKING }),
    (
        "offset 127 is our `%`",
        Taking {
            operand: |part| with_offset(part, |offset| if offset == 127 { 255 } else { offset }),
            ..TAKING
        },
    ),
    (
        "offsets from 128 are our `!`",
        Taking {
            operand: |part| with_offset(part, |offset| if offset < 256 { offset % 128 } else { offset }),
            ..TAKING
        },
    ),
    (
        "offset 255 is too large",
        Taking {
            operand: |part| with_offset(part, |offset| if offset == 255 { 256 } else { offset }),
            ..TAKING
        },
    ),
    ("offset 256 is 0", Taking { operand: |part| with_offset(part, |offset| offset % 256), ..TAKING }),
    (
        "offsets are taken modulo 2^32",
        Taking { operand: |part| with_offset(part, |offset| offset & 0xffff_ffff), ..TAKING },
    ),
    (
        "offsets have 16 bits",
        Taking { operand: |part| with_offset(part, |offset| offset & 0xffff), ..TAKING },
    ),
    (
        "a missing offset is refused",
        Taking {
            operand: |part| operand(part).filter(|_| !part.starts_with(b"!") || part.contains(&b',')),
            ..TAKING
        },
    ),
    (
        "a missing offset is 128",
        Taking {
            operand: |part| match part.starts_with(b"!") && !part.contains(&b',') {
                true => like(in_letters(part) + ",128"),
                false => operand(part),
            },
            ..TAKING
        },
    ),
    (
        "an empty offset is 0",
        Taking {
            operand: |part| {
                operand(part.strip_suffix(b",").filter(|part| part.starts_with(b"!")).unwrap_or(part))
            },
            ..TAKING
        },
    ),
    ("zeros before numbers are right", Taking { operand: without_zeros, ..TAKING }),
    (
        "zeros before offsets are right",
        Taking { operand: |part| operand(part).or_else(|| with_offset(part, |offset| offset)), ..TAKING },
    ),
    (
        "zeros before registers are right",
        Taking {
            operand: |part| {
                operand(part).or_else(|| {
                    without_zeros(part).filter(|&operand| matches!(operand, Operand::Register(_)))
                })
            },
            ..TAKING
        },
    ),
    (
        "`+` parts the offset too",
        Taking {
            operand: |part| like(in_letters(part).replacen('+', ",", part.starts_with(b"!") as usize)),
            ..TAKING
        },
    ),
    (
        "`%r4,3` is right",
        Taking {
            operand: |part| match part.strip_prefix(b"%") {
                Some(rest) => {
                    with_offset(
                        &[b"!", rest].concat(),
                        |offset| if offset < 128 { offset + 128 } else { 256 },
                    )
                }
                None => operand(part),
            },
            ..TAKING
        },
    ),
    (
        "`%` with `+` is right",
        Taking {
            operand: |part| match part.strip_prefix(b"%") {
                Some(_) => like(in_letters(part).replace('%', "!").replace('+', ",")),
                None => operand(part),
            },
            ..TAKING
        },
    ),
    (
        "`^` is right",
        Taking {
            operand: |part| match part.strip_prefix(b"^") {
                Some(_) => like(in_letters(part).replace('^', "!").replace('+', ",")),
                None => operand(part),
            },
            ..TAKING
        },
    ),
    (
        "a base may be a cell",
        Taking {
            operand: |part| match part.strip_prefix(b"!@") {
                Some(rest) => operand(&[b"!r", rest].concat()),
                None => operand(part),
            },
            ..TAKING
        },
    ),
    (
        "a base may be a literal",
        Taking {
            operand: |part| match part.strip_prefix(b"!#") {
                Some(rest) => operand(&[b"@", rest].concat()),
                None => operand(part),
            },
            ..TAKING
        },
    ),
    (
        "a base needs no `r`",
        Taking {
            operand: |part| match part {
                [b'!', digit, ..] if digit.is_ascii_digit() => operand(&[b"!r", &part[1..]].concat()),
                _ => operand(part),
            },
            ..TAKING
        },
    ),
];

// ---------------------------------------------------------------- marks

/// Whether an argument of the line would mark it, were it a destination.
fn sensitive_argument(line: &Line) -> bool {
    is_marked(line.first) || is_marked(line.second)
}

const MARKS: [(&str, Taking); 15] = [
    ("no line is marked", Taking { mark: |_| false, ..TAKING }),
    ("every line is marked", Taking { mark: |_| true, ..TAKING }),
    ("lines with a destination are marked", Taking { mark: |line| line.destination.is_some(), ..TAKING }),
    ("lines with a sensitive argument are marked", Taking { mark: sensitive_argument, ..TAKING }),
    (
        "lines with sensitive arguments alone are marked",
        Taking { mark: |line| is_marked(line.destination) && sensitive_argument(line), ..TAKING },
    ),
    (
        "lines with a public argument are not marked",
        Taking {
            mark: |line| {
                is_marked(line.destination) && ![line.first, line.second].into_iter().flatten().any(is_public)
            },
            ..TAKING
        },
    ),
    (
        "cells mark no line",
        Taking {
            mark: |line| is_marked(line.destination) && !matches!(line.destination, Some(Operand::Cell(_))),
            ..TAKING
        },
    ),
    (
        "indirect places mark no line",
        Taking {
            mark: |line| {
                is_marked(line.destination) && !matches!(line.destination, Some(Operand::Sensitive { .. }))
            },
            ..TAKING
        },
    ),
    (
        "r16 and cell 128 mark no line",
        Taking {
            mark: |line| {
                is_marked(line.destination)
                    && !matches!(line.destination, Some(Operand::Register(16) | Operand::Cell(128)))
            },
            ..TAKING
        },
    ),
    ("the mark check is not made", Taking { refuses: |_| false, ..TAKING }),
    ("10 is not looked for", Taking { refuses: |number| number != 10, ..TAKING }),
    ("12 is not looked for", Taking { refuses: |number| number != 12, ..TAKING }),
    ("14 is not looked for", Taking { refuses: |number| number != 14, ..TAKING }),
    ("15 is not looked for", Taking { refuses: |number| number != 15, ..TAKING }),
    (
        "13 comes again",
        Taking {
            mark: |line| {
                is_marked(line.destination)
                    && !(line.opcode == Opcode::Mov && line.first.is_some_and(is_public))
            },
            ..TAKING
        },
    ),
];

// ---------------------------------------------------------------- which refusal goes first

/// The first of the refusals with this number; else the first.
fn before(faults: &[(usize, u16)], number: u16) -> Option<(usize, u16)> {
    faults.iter().copied().find(|&(_, other)| other == number).or(faults.first().copied())
}

/// How many lines before one are of a kind.
fn lines_before(lines: &[TextLine], at: usize, is: fn(&TextLine) -> bool) -> usize {
    lines[..at].iter().filter(|line| is(line)).count()
}

const ORDER: [(&str, Taking); 12] = [
    (
        "25 before 24 on a line",
        Taking {
            first: |faults| {
                let &(line, _) = faults.first()?;
                faults.iter().copied().rfind(|&(at, _)| at == line)
            },
            ..TAKING
        },
    ),
    ("24 of any line first", Taking { first: |faults| before(faults, 24), ..TAKING }),
    ("25 of any line first", Taking { first: |faults| before(faults, 25), ..TAKING }),
    ("the last line goes first", Taking { first: |faults| faults.last().copied(), ..TAKING }),
    ("24 for every refusal", Taking { first: |faults| faults.first().map(|&(at, _)| (at, 24)), ..TAKING }),
    (
        "lines without anything are not said",
        Taking {
            said: |lines, at| lines_before(lines, at, |line| line.label.is_some() || line.is_counted()),
            ..TAKING
        },
    ),
    (
        "the counted line is said",
        Taking { said: |lines, at| lines_before(lines, at, |line| line.is_counted()), ..TAKING },
    ),
    ("lines are said from 1", Taking { said: |_, at| at + 1, ..TAKING }),
    ("the line said has 16 bits", Taking { said: |_, at| at & 0xffff, ..TAKING }),
    ("the line said is at most 65,535", Taking { said: |_, at| at.min(65_535), ..TAKING }),
    ("refusals are at line 0", Taking { said: |_, _| 0, ..TAKING }),
    (
        "a missing label is said where the text ends",
        Taking {
            first: |faults| {
                faults.first().copied().filter(|&(_, number)| number == 25).or(faults.last().copied())
            },
            ..TAKING
        },
    ),
];

// ---------------------------------------------------------------- stores

/// Does this to the store when a text is refused with the number.
fn leaving(
    entry: Convert,
    text: &[u8],
    out: &mut [u8],
    numbers: RangeInclusive<u16>,
    leave: fn(&mut [u8]),
) -> Answer {
    let answer = entry(text, out);
    if matches!(answer, Refused { number, .. } if numbers.contains(&number)) {
        leave(out);
    }
    answer
}

/// Changes the first byte, if there is one.
fn touch(out: &mut [u8]) {
    out.iter_mut().take(1).for_each(|byte| *byte ^= 1);
}

/// A right call, and this behind what it writes.
fn behind(entry: Convert, text: &[u8], out: &mut [u8], leave: fn(&mut [u8])) -> Answer {
    let answer = entry(text, out);
    if let Counted(count) = answer {
        leave(&mut out[count as usize..]);
    }
    answer
}

/// 17 before refusals of a text with these numbers, where the store has no more room than this.
fn too_early(entry: Convert, text: &[u8], out: &mut [u8], numbers: RangeInclusive<u16>) -> Answer {
    match entry(text, out) {
        Refused { number, .. } if numbers.contains(&number) && out.len() < 10 => refused(17),
        answer => answer,
    }
}

/// 17 where there is just enough room, and success of a byte less.
fn one_more(entry: Convert, text: &[u8], out: &mut [u8]) -> Answer {
    match entry(text, &mut out.to_vec()) {
        Counted(count) if count as usize == out.len() && count > 0 => refused(17),
        _ => entry(text, out),
    }
}

fn one_less(entry: Convert, text: &[u8], out: &mut [u8]) -> Answer {
    let mut larger = [&out[..], &[0]].concat();
    match (entry(text, out), entry(text, &mut larger)) {
        (Refused { number: 17, .. }, Counted(count)) => {
            out.copy_from_slice(&larger[..count as usize - 1]);
            Counted(count - 1)
        }
        (answer, _) => answer,
    }
}

/// What fits, where there is too little room.
fn cut_short(entry: Convert, text: &[u8], out: &mut [u8]) -> Answer {
    let answer = entry(text, out);
    if answer == refused(17) {
        let mut enough = vec![0; 1 << 16];
        entry(text, &mut enough);
        out.copy_from_slice(&enough[..out.len()]);
    }
    answer
}

const IN: Convert = |text, out| Paper.take_in(text, out);
const OUT: Convert = |text, out| Paper.send_out(text, out);

const TAKEN_IN: [(&str, Convert); 14] = [
    ("24 touches the store", |text, out| leaving(IN, text, out, 24..=24, touch)),
    ("25 touches the store", |text, out| leaving(IN, text, out, 25..=25, touch)),
    ("17 touches the store", |text, out| leaving(IN, text, out, 17..=17, touch)),
    ("17 leaves what fits", |text, out| cut_short(IN, text, out)),
    ("25 clears the store", |text, out| leaving(IN, text, out, 25..=25, |out| out.fill(0))),
    ("the rest is cleared", |text, out| behind(IN, text, out, |rest| rest.fill(0))),
    ("a zero stands behind", |text, out| {
        behind(IN, text, out, |rest| rest.iter_mut().take(1).for_each(|byte| *byte = 0))
    }),
    ("17 before 24", |text, out| too_early(IN, text, out, 24..=24)),
    ("17 before 25", |text, out| too_early(IN, text, out, 25..=25)),
    ("17 for just enough room", |text, out| one_more(IN, text, out)),
    ("a byte too little is enough", |text, out| one_less(IN, text, out)),
    ("17 at line 1", |text, out| match Paper.take_in(text, out) {
        Refused { number: 17, .. } => Refused { number: 17, line: 1 },
        answer => answer,
    }),
    ("lines are counted", |text, out| match Paper.take_in(text, out) {
        Counted(count) => Counted(out[..count as usize].iter().filter(|&&byte| byte == b'\n').count() as u32),
        answer => answer,
    }),
    ("our line form is taken too", |text, out| match Paper.take_in(text, out) {
        Refused { number: 25, line: 0 } if text.starts_with(b"u,") => into_store(text, out),
        answer => answer,
    }),
];

// ---------------------------------------------------------------- sending out by rules

/// How accepted lines are sent out, rule by rule.
#[derive(Clone, Copy)]
pub struct Sending {
    /// The line of a label, and whether there is one before a line or at the end.
    label: fn(usize) -> String,
    used: fn(&[Line], usize) -> bool,
    /// A line with its label, if there is one.
    place: fn(String, String) -> String,
    operand: fn(Operand) -> String,
    target: fn(u16) -> String,
    /// The parts of a line, by the line, its opcode, operands and target.
    line: fn(&Line, Vec<String>) -> String,
}

/// The right ones.
pub const SENDING: Sending = Sending {
    label: |at| format!("L{at}:\n"),
    used: |lines, at| lines.iter().any(|line| line.target == Some(at as u16)),
    place: |label, line| label + &line,
    operand: sent_operand,
    target: |target| format!("L{target}"),
    line: |_, parts| parts.join(" ") + "\n",
};

/// Sends out by rules what is accepted.
pub fn sent_by(rules: &Sending, text: &[u8], out: &mut [u8]) -> Answer {
    let mut store = vec![0; SIX * MOST_CHECKED];
    let (Counted(_), Counted(count)) =
        (Paper.send_out(text, &mut [0; 1 << 16]), Paper.read(text, &mut store))
    else {
        return Paper.send_out(text, out);
    };
    let lines = stored_program(&store[..SIX * count as usize]).unwrap();
    let mut sent = String::new();
    for at in 0..=lines.len() {
        let label = if (rules.used)(&lines, at) { (rules.label)(at) } else { String::new() };
        let line = lines.get(at).map_or(String::new(), |line| {
            let mut parts = vec![OPCODES[line.opcode as usize].1.to_string()];
            let operands = [line.destination, line.first, line.second].into_iter().flatten();
            parts.extend(operands.map(rules.operand));
            parts.extend(line.target.map(rules.target));
            (rules.line)(line, parts)
        });
        sent += &(rules.place)(label, line);
    }
    into_store(sent.as_bytes(), out)
}

const SENT: [(&str, Sending); 28] = [
    ("a label stands before its line's instruction", Sending { label: |at| format!("L{at}: "), ..SENDING }),
    ("a label stands behind its line", Sending { place: |label, line| line + &label, ..SENDING }),
    (
        "the label at the end is forgotten",
        Sending { used: |lines, at| at < lines.len() && (SENDING.used)(lines, at), ..SENDING },
    ),
    (
        "the label of line 0 is forgotten",
        Sending { used: |lines, at| at > 0 && (SENDING.used)(lines, at), ..SENDING },
    ),
    ("every line has a label", Sending { used: |_, _| true, ..SENDING }),
    ("every line but the end has a label", Sending { used: |lines, at| at < lines.len(), ..SENDING }),
    (
        "the end always has a label",
        Sending { used: |lines, at| at == lines.len() || (SENDING.used)(lines, at), ..SENDING },
    ),
    (
        "targets of `jmp` alone have labels",
        Sending {
            used: |lines, at| {
                lines.iter().any(|line| line.opcode == Opcode::Jmp && line.target == Some(at as u16))
            },
            ..SENDING
        },
    ),
    (
        "targets from before alone have labels",
        Sending {
            used: |lines, at| lines[..at].iter().any(|line| line.target == Some(at as u16)),
            ..SENDING
        },
    ),
    (
        "labels count from 1",
        Sending {
            label: |at| format!("L{}:\n", at + 1),
            target: |target| format!("L{}", target + 1),
            ..SENDING
        },
    ),
    ("labels stand before the wrong line", Sending { label: |at| format!("L{}:\n", at + 1), ..SENDING }),
    ("targets are lines", Sending { target: |target| target.to_string(), ..SENDING }),
    ("targets are lines with `#`", Sending { target: |target| format!("#{target}"), ..SENDING }),
    (
        "a small `l`",
        Sending { label: |at| format!("l{at}:\n"), target: |target| format!("l{target}"), ..SENDING },
    ),
    ("no colon", Sending { label: |at| format!("L{at}\n"), ..SENDING }),
    ("a blank behind the colon", Sending { label: |at| format!("L{at}: \n"), ..SENDING }),
    ("128 is not added", Sending { operand: |operand| sent_operand(public(operand)), ..SENDING }),
    (
        "127 is added",
        Sending {
            operand: |operand| match operand {
                Operand::Sensitive { base, offset } => format!("!r{base},{}", offset as u16 + 127),
                other => sent_operand(other),
            },
            ..SENDING
        },
    ),
    (
        "offset 0 is not written",
        Sending {
            operand: |operand| {
                let sent = sent_operand(operand);
                sent.strip_suffix(",0").map_or(sent.clone(), str::to_string)
            },
            ..SENDING
        },
    ),
    ("operands stay", Sending { operand: Operand::spelling, ..SENDING }),
    (
        "`%` stays",
        Sending {
            operand: |operand| match operand {
                Operand::Sensitive { base, offset } => format!("%r{base},{offset}"),
                other => sent_operand(other),
            },
            ..SENDING
        },
    ),
    ("two spaces between parts", Sending { line: |_, parts| parts.join("  ") + "\n", ..SENDING }),
    ("a tab between parts", Sending { line: |_, parts| parts.join("\t") + "\n", ..SENDING }),
    ("a space behind the last part", Sending { line: |_, parts| parts.join(" ") + " \n", ..SENDING }),
    (
        "the mark is written",
        Sending {
            line: |line, parts| format!("{} {}\n", if line.marked { "s" } else { "u" }, parts.join(" ")),
            ..SENDING
        },
    ),
    (
        "`nop` is left out",
        Sending {
            line: |line, parts| {
                if line.opcode == Opcode::Nop {
                    String::new()
                } else {
                    parts.join(" ") + "\n"
                }
            },
            ..SENDING
        },
    ),
    ("a return before the newline", Sending { line: |_, parts| parts.join(" ") + "\r\n", ..SENDING }),
    (
        "the target comes first",
        Sending {
            line: |line, mut parts| {
                if line.target.is_some() {
                    parts[1..].rotate_right(1);
                }
                parts.join(" ") + "\n"
            },
            ..SENDING
        },
    ),
];

/// The operand with `!` for `%`.
fn public(operand: Operand) -> Operand {
    match operand {
        Operand::Sensitive { base, offset } => Operand::Public { base, offset },
        other => other,
    }
}

/// Sends out, with another answer for some refusals, by number and line.
fn answering(text: &[u8], out: &mut [u8], other: fn(u16, u32) -> Option<Answer>) -> Answer {
    match Paper.send_out(text, out) {
        Refused { number, line } => other(number, line).unwrap_or(Refused { number, line }),
        answer => answer,
    }
}

/// The mark check's refusal of the lines before the one that is not read, if it has one.
fn checked_before(text: &[u8], out: &mut [u8], line: u32) -> Option<Answer> {
    let before = text.split_inclusive(|&byte| byte == b'\n').take(line as usize);
    match Paper.send_out(&before.collect::<Vec<_>>().concat(), &mut out.to_vec()) {
        Refused { number: 17, .. } | Counted(_) => None,
        // A target may lie past the lines read so far.
        Refused { number: 16, .. } => None,
        answer => Some(answer),
    }
}

const SENT_OUT: [(&str, Convert); 20] = [
    ("refusals of reading past line 1,023 are not seen", |text, out| {
        answering(text, out, |number, line| (number < 8 && line >= 1_024).then_some(refused(9)))
    }),
    ("refusals of reading past line 1,024 are not seen", |text, out| {
        answering(text, out, |number, line| (number < 8 && line > 1_024).then_some(refused(9)))
    }),
    ("9 before 7", |text, out| answering(text, out, |number, _| (number == 7).then_some(refused(9)))),
    ("8 for more than 1,024 lines", |text, out| {
        answering(text, out, |number, _| (number == 9).then_some(Refused { number: 8, line: 1_024 }))
    }),
    ("8 for 7", |text, out| {
        answering(text, out, |number, line| (number == 7).then_some(Refused { number: 8, line }))
    }),
    ("9 at line 1,024", |text, out| {
        answering(text, out, |number, _| (number == 9).then_some(Refused { number: 9, line: 1_024 }))
    }),
    ("25 for the mark check", |text, out| {
        answering(text, out, |number, line| (9..17).contains(&number).then_some(Refused { number: 25, line }))
    }),
    ("25 for reading", |text, out| {
        answering(text, out, |number, line| (number < 9).then_some(Refused { number: 25, line }))
    }),
    ("each line is checked when it is read", |text, out| match Paper.send_out(text, out) {
        Refused { number, line } if number < 7 => {
            checked_before(text, out, line).unwrap_or(Refused { number, line })
        }
        answer => answer,
    }),
    ("24 for a target above the line count", |text, out| {
        answering(text, out, |number, line| (number == 16).then_some(Refused { number: 24, line }))
    }),
    ("17 before reading's refusals", |text, out| too_early(OUT, text, out, 1..=7)),
    ("17 before the mark check's refusals", |text, out| too_early(OUT, text, out, 9..=16)),
    ("17 for just enough room", |text, out| one_more(OUT, text, out)),
    ("a byte too little is enough", |text, out| one_less(OUT, text, out)),
    ("17 leaves what fits", |text, out| cut_short(OUT, text, out)),
    ("the mark check touches the store", |text, out| leaving(OUT, text, out, 9..=16, touch)),
    ("reading touches the store", |text, out| leaving(OUT, text, out, 1..=7, touch)),
    ("17 touches the store", |text, out| leaving(OUT, text, out, 17..=17, touch)),
    ("the rest is cleared", |text, out| behind(OUT, text, out, |rest| rest.fill(0))),
    ("lines are counted", |text, out| match Paper.send_out(text, out) {
        Counted(_) => Counted(text.iter().filter(|&&byte| byte == b'\n').count() as u32),
        answer => answer,
    }),
];

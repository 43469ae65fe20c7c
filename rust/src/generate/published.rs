//! Request 08: published texts in a free layout, right ones or with a slip each, and texts in our line form
//! that are long or damaged far behind.

use super::{
    accepted_line, accepted_program, damage_text, edgy, full_of_jumps, jump, long_program, text as our_text,
};
use crate::paper::published::{sent_operand, LONGEST_NAME, MOST_LABELS};
use crate::paper::{Line, Operand, MOST_CHECKED, MOST_LINES, OPCODES};
use crate::random::Random;
use std::collections::BTreeSet;

/// What is wrong with a published text, if anything is.
#[derive(Clone, Copy, Debug, PartialEq, Eq, PartialOrd, Ord)]
pub enum Slip {
    // No harm.
    Nothing,
    Lines1024,
    Labels1025,
    // Always refused with 24.
    Missing,
    NearlyMissing,
    Double,
    DoubleOnBad,
    LongName,
    LongNameUsed,
    BadName,
    LongTarget,
    MissingOnBad,
    MissingOnMark,
    MissingAtEnd,
    MissingOn1025th,
    Label1026th,
    Label1026thUsed,
    /// The last of 1,025 labels is used, and one before it is wrong: that one does not make it a 1,026th.
    Label1025thUsed,
    // Always refused with 25.
    BadOpcode,
    FewParts,
    ManyParts,
    BadOperand,
    Zeros,
    OurForm,
    LiteralDestination,
    BadTarget,
    Mark,
    BadByte,
    BlankInside,
    NoNewline,
    LabelPlace,
    MissingUnknown,
    MissingParts,
    UsedOnBad,
    UsedAtEnd,
    OurLines,
    Lines1025,
    // Refused where it shows, or not at all.
    Two,
    Bytes,
}
use Slip::*;

impl Slip {
    pub const HARMLESS: [Slip; 3] = [Nothing, Lines1024, Labels1025];
    pub const REFUSED_24: [Slip; 15] = [
        Missing,
        NearlyMissing,
        Double,
        DoubleOnBad,
        LongName,
        LongNameUsed,
        BadName,
        LongTarget,
        MissingOnBad,
        MissingOnMark,
        MissingAtEnd,
        MissingOn1025th,
        Label1026th,
        Label1026thUsed,
        Label1025thUsed,
    ];
    pub const REFUSED_25: [Slip; 19] = [
        BadOpcode,
        FewParts,
        ManyParts,
        BadOperand,
        Zeros,
        OurForm,
        LiteralDestination,
        BadTarget,
        Mark,
        BadByte,
        BlankInside,
        NoNewline,
        LabelPlace,
        MissingUnknown,
        MissingParts,
        UsedOnBad,
        UsedAtEnd,
        OurLines,
        Lines1025,
    ];
    pub const FREE: [Slip; 2] = [Two, Bytes];
    /// Those with texts of more than 1,000 lines.
    const LONG: [Slip; 7] =
        [Lines1024, Labels1025, MissingOn1025th, Label1026th, Label1026thUsed, Label1025thUsed, Lines1025];

    /// All of them, in their order.
    pub fn all() -> Vec<Slip> {
        [&Slip::HARMLESS[..], &Slip::REFUSED_24, &Slip::REFUSED_25, &Slip::FREE].concat()
    }
}

/// One of the slips; long texts now and then.
pub fn slip(rng: &mut Random) -> Slip {
    match rng.below(16) {
        0 => rng.pick(&Slip::LONG),
        1..=3 => Nothing,
        4 => Two,
        5 => Bytes,
        // There are many of these.
        6 | 7 => rng.pick(&[BadOperand, BadOperand, Mark]),
        _ => short_slip(rng),
    }
}

/// One of those that show in any text.
pub fn short_slip(rng: &mut Random) -> Slip {
    loop {
        let slip = rng.pick(&Slip::all());
        if !Slip::LONG.contains(&slip) && !Slip::FREE.contains(&slip) {
            return slip;
        }
    }
}

// ---------------------------------------------------------------- drafts

/// A line before it is laid out: its label with the colon, and the parts of its instruction.
#[derive(Clone, Default)]
struct Draft {
    label: Option<Vec<u8>>,
    parts: Vec<Vec<u8>>,
}

/// A draft that is spelled so, its parts parted by spaces; a first one that ends with a colon is the label.
fn draft(spelled: &[u8]) -> Draft {
    let mut parts: Vec<Vec<u8>> = spelled.split(|&byte| byte == b' ').map(<[u8]>::to_vec).collect();
    let label = parts[0].ends_with(b":").then(|| parts.remove(0));
    Draft { label, parts }
}

fn letters(rng: &mut Random, count: usize) -> Vec<u8> {
    const ALL: &[u8] = b"abcdefghijklmnopqrstuvwxyzABCDEFGHIJKLMNOPQRSTUVWXYZ0123456789";
    (0..count).map(|_| rng.pick(ALL)).collect()
}

/// A label's name: like an opcode, like what else stands in texts, of digits, short, long, alike in all but the
/// last letter, or any.
fn name(rng: &mut Random) -> Vec<u8> {
    let any = rng.within(1, LONGEST_NAME);
    match rng.below(10) {
        0 => OPCODES[rng.below(OPCODES.len())].1.as_bytes().to_vec(),
        1 => rng.pick(&["L0", "L5", "l5", "r4", "r16", "s", "u", "a", "A", "z", "Z", "9"]).into(),
        2 => (0..any).map(|_| rng.pick(b"0123456789")).collect(),
        3 => format!("{:0>3}", rng.below(20)).into(),
        4 => letters(rng, 1),
        5 => letters(rng, LONGEST_NAME),
        6 => [b"sameFifteenBut1".to_vec(), letters(rng, 1)].concat(),
        _ => letters(rng, any),
    }
}

/// A name that is not taken yet.
fn new_name(rng: &mut Random, taken: &mut BTreeSet<Vec<u8>>) -> Vec<u8> {
    loop {
        let name = name(rng);
        if taken.insert(name.clone()) {
            return name;
        }
    }
}

fn with_colon(name: &[u8]) -> Vec<u8> {
    [name, b":"].concat()
}

/// The names of each line and of the end: one at least where they are a target, never more than 1,025.
fn names(rng: &mut Random, lines: &[Line]) -> Vec<Vec<Vec<u8>>> {
    let used: BTreeSet<usize> = lines.iter().filter_map(|line| line.target).map(usize::from).collect();
    let unused = rng.pick(&[2, 8, 1_000]);
    let most = if lines.len() > MOST_LABELS / 4 { 1 } else { 3 };
    let mut taken = BTreeSet::new();
    let mut names = vec![];
    for at in 0..=lines.len() {
        let count = if used.contains(&at) { rng.pick(&[1, 1, 2, 3]) } else { rng.one_in(unused) as usize };
        names.push((0..count.min(most)).map(|_| new_name(rng, &mut taken)).collect());
    }
    names
}

/// The parts of an instruction; an offset of 0 is often missing.
fn parts(rng: &mut Random, line: &Line, names: &[Vec<Vec<u8>>]) -> Vec<Vec<u8>> {
    let mut parts = vec![OPCODES[line.opcode as usize].1.as_bytes().to_vec()];
    for operand in [line.destination, line.first, line.second].into_iter().flatten() {
        let spelled = sent_operand(operand);
        let short = matches!(operand, Operand::Public { offset: 0, .. }) && rng.one_in(2);
        parts.push(if short { spelled.replace(",0", "") } else { spelled }.into_bytes());
    }
    if let Some(target) = line.target {
        let names = &names[target as usize];
        parts.push(names[rng.below(names.len())].clone());
    }
    parts
}

/// Accepted lines as drafts, with lines that are not counted in between.
fn drafts(rng: &mut Random, lines: &[Line]) -> Vec<Draft> {
    let between = rng.pick(&[2, 6, 1_000]);
    let names = names(rng, lines);
    let mut drafts = vec![];
    for at in 0..=lines.len() {
        for name in &names[at] {
            drafts.push(Draft { label: Some(with_colon(name)), parts: vec![] });
            if rng.one_in(between) {
                drafts.push(Draft::default());
            }
        }
        let Some(line) = lines.get(at) else { break };
        let parts = parts(rng, line, &names);
        // The last label may stand before the instruction itself.
        match drafts.last_mut() {
            Some(last) if last.label.is_some() && last.parts.is_empty() && rng.one_in(2) => {
                last.parts = parts
            }
            _ => drafts.push(Draft { label: None, parts }),
        }
        if rng.one_in(between) {
            drafts.push(Draft::default());
        }
    }
    drafts
}

// ---------------------------------------------------------------- layout

fn blanks(rng: &mut Random, least: usize) -> Vec<u8> {
    (0..least + rng.pick(&[0, 0, 0, 1, 3])).map(|_| rng.pick(b"  \t")).collect()
}

/// A comment, with anything in it but a newline.
fn comment(rng: &mut Random) -> Vec<u8> {
    let some: &[&[u8]] =
        &[b"", b" nop", b" a:", b"a: jmp b", b";;", b"\r", b"\0\xff\x80\x0b", b" L5", b"!r4,3"];
    [&b";"[..], rng.pick(some)].concat()
}

/// The bytes of drafts, tidy or with blanks and comments all over.
fn laid_out(rng: &mut Random, drafts: &[Draft]) -> Vec<u8> {
    let tidy = rng.one_in(4);
    let mut text = vec![];
    for Draft { label, parts } in drafts {
        if tidy {
            let words: Vec<&[u8]> = label.iter().chain(parts).map(Vec::as_slice).collect();
            text.extend(words.join(&b' '));
        } else {
            text.extend(blanks(rng, 0));
            for (at, word) in label.iter().chain(parts).enumerate() {
                text.extend(blanks(rng, (at > 0) as usize));
                text.extend(word);
            }
            text.extend(blanks(rng, 0));
            if rng.one_in(4) {
                text.extend(comment(rng));
            }
        }
        text.push(b'\n');
    }
    text
}

// ---------------------------------------------------------------- slips

/// Puts a line that is spelled so somewhere.
fn put(rng: &mut Random, drafts: &mut Vec<Draft>, spelled: &[u8]) {
    let at = edgy(rng, 0, drafts.len());
    drafts.insert(at, draft(spelled));
}

fn put_one_of(rng: &mut Random, drafts: &mut Vec<Draft>, some: &[&str]) {
    let spelled = rng.pick(some);
    put(rng, drafts, spelled.as_bytes());
}

/// The names of the labels.
fn label_names(drafts: &[Draft]) -> Vec<Vec<u8>> {
    let labels = drafts.iter().filter_map(|draft| draft.label.as_deref());
    labels.map(|label| label[..label.len() - 1].to_vec()).collect()
}

/// A name that no label has.
fn no_name(rng: &mut Random, drafts: &[Draft]) -> Vec<u8> {
    new_name(rng, &mut label_names(drafts).into_iter().collect())
}

/// A name that a label has; if there is none, it is put somewhere.
fn some_name(rng: &mut Random, drafts: &mut Vec<Draft>) -> Vec<u8> {
    let names = label_names(drafts);
    if let Some(last) = names.len().checked_sub(1) {
        return names[edgy(rng, 0, last)].clone();
    }
    let name = name(rng);
    put(rng, drafts, &with_colon(&name));
    name
}

/// Puts an instruction with this for an operand, right in all else, or with this name for its target.
fn put_operand(rng: &mut Random, drafts: &mut Vec<Draft>, operand: &str) {
    let name = String::from_utf8_lossy(&some_name(rng, drafts)).into_owned();
    let lines = [
        format!("mov {operand} r4"),
        format!("not r5 {operand}"),
        format!("add r5 {operand} #9"),
        format!("xor r16 r17 {operand}"),
        format!("beq {operand} r4 {name}"),
        format!("bne @5 {operand} {name}"),
    ];
    let line = &lines[rng.below(lines.len())];
    put(rng, drafts, line.as_bytes());
}

/// Puts a jump to this name, always or by a condition.
fn put_jump(rng: &mut Random, drafts: &mut Vec<Draft>, name: &[u8]) {
    let jump = rng.pick(&["jmp ", "beq r4 #1 ", "bne !r4 @127 "]);
    put(rng, drafts, &[jump.as_bytes(), name].concat());
}

/// A name like one that a label has, though none has it: another case, a letter less or more, or another first or
/// last one.
fn near_name(rng: &mut Random, drafts: &mut Vec<Draft>) -> Vec<u8> {
    let mut name = some_name(rng, drafts);
    let last = name.len() - 1;
    match rng.below(5) {
        0 => name.iter_mut().for_each(|byte| *byte ^= if byte.is_ascii_alphabetic() { 32 } else { 0 }),
        1 if last > 0 => drop(name.pop()),
        2 if last + 1 < LONGEST_NAME => name.push(b'0'),
        3 => name[0] = if name[0] == b'q' { b'Q' } else { b'q' },
        _ => name[last] = if name[last] == b'q' { b'Q' } else { b'q' },
    }
    match label_names(drafts).contains(&name) {
        true => no_name(rng, drafts),
        false => name,
    }
}

const BAD_NAMES: &[&[u8]] = &[
    b":", b"a_b:", b"a:b:", b"::", b"a-:", b"\xe4:", b"a\r:", b"\0:", b"a,b:", b"#5:", b"!r4:", b"@:", b"[:",
    b"`:", b"{:", b"/:",
];

const BAD_OPCODES: &[&str] = &[
    "or r4 r4 r5",
    "NOP",
    "Mov r4 r5",
    "nopp",
    "no",
    "ldr r4 @5",
    "n",
    "u,nop,,,,",
    "s",
    "nop,",
    "mov,r4 r5",
    "5",
    "xnop",
    "bge r4 r5 r6",
    "nop:x",
];

const BAD_OPERANDS: &[&str] = &[
    "#256",
    "#",
    "#-1",
    "#1000",
    "#99999999999",
    "#0x1",
    "r32",
    "r",
    "r-1",
    "R4",
    "r4,3",
    "@512",
    "@",
    "@1000",
    "@r4",
    "!r4,256",
    "!r4,",
    "!r32,0",
    "!r,1",
    "!4,1",
    "!#5",
    "!@5",
    "!@5,3",
    "!#5,3",
    "!r4,1,2",
    "!!r4",
    "!",
    "!,3",
    "!r4,r5",
    "!r4,#3",
    "!r4.3",
    "4",
    "x",
    "r4:",
    "##1",
    "!r4,4294967299",
    "!r4,65539",
    "#4294967297",
    "!R4",
];

const ZEROS: &[&str] = &[
    "#01", "#00", "r04", "r00", "@00", "@01", "!r04,1", "!r4,03", "!r4,00", "!r04", "!r4,0127", "#000",
    "!r4,0255",
];

const OURS: &[&str] =
    &["%r4+3", "%r4,3", "%r4", "^r4+0", "^r4,0", "^r4", "!r4+3", "!r4+0", "!r4+128", "!r4+", "%r4+128"];

const BAD_TARGETS: &[&[u8]] = &[
    b"#5", b"#0", b"a_b", b"L5,", b"a:", b":", b"-", b"\xe4", b"L5+1", b"a\0", b"a\r", b"@", b"[", b"`",
    b"{", b"/",
];

/// Lines that the mark check refuses, 10 to 15 of it; 16 has no counterpart.
const MARKS: &[&str] = &[
    "mov r3 r4",
    "mov r4 r0",
    "not @256 r16",
    "add r4 @511 r5",
    "mov !r3 r4",
    "mov r4 !r0,5",
    "mov !r1,200 r16",
    "mov r4 r16",
    "add r4 r5 @128",
    "not @0 !r4,128",
    "orr r5 r5 !r15,255",
    "mov r4 !r16",
    "mov r16 !r31,128",
    "xor !r16,3 r4 r5",
    "add r16 r16 r4",
    "lsl @255 r16 #1",
    "mul !r4,128 r17 r18",
    "lsr r31 r31 r31",
    "mov r16 #2",
    "xor r16 r17 #255",
    "and @128 #1 #2",
    "mov r15 r31",
    "mov @127 @255",
    "mov r4 !r15,128",
];

const APART: &[&str] = &[
    "a : nop",
    "Label1OfTwo:nop",
    "Label1OfTwo: Label2OfTwo:",
    "Label1OfTwo: Label2OfTwo: nop",
    "a :",
    "nop a:",
    "Label1OfTwo: :",
];

/// Lines with a byte that is no blank where one may stand, or inside a part.
fn bad_byte(rng: &mut Random) -> Vec<u8> {
    let byte = rng.pick(b"\r\r\r\r\0\0\x0b\x0c\xa0\x80\xff\x1f\x7f\"\\&");
    let mut line = rng.pick(&["nop", "mov r4 #5", "xor r16 !r4,130 r4", "add !r4 r5 r6"]).as_bytes().to_vec();
    match rng.below(4) {
        0 => line.push(byte),
        1 => line.extend([b' ', byte]),
        2 => line.splice(0..0, [byte, b' ']).for_each(drop),
        _ => line.insert(rng.below(line.len() + 1), byte),
    }
    line
}

const SPLIT: &[&str] = &[
    "mov r4 # 5",
    "mov r4 ! r4",
    "mov r4 !r4, 3",
    "mov r4 !r4 ,3",
    "no p",
    "mov r 4 r5",
    "not @ 5 r4",
    "jm p a",
    "mov r4 ! r4,3",
];

const FEW: &[&str] =
    &["jmp", "mov", "mov r4", "not r4", "and r4 r5", "add r4", "mul", "beq r4 r5", "bne r4", "beq"];

const MANY: &[&str] = &[
    "nop r4",
    "nop nop",
    "mov r4 r5 r6",
    "not r4 r5 #1",
    "and r4 r5 r6 r7",
    "add r4 r5 r6 r7 r8",
    "jmp a a",
    "jmp r4 r5 a",
    "nop a a a a a a",
    "nop # nothing",
    "nop // nothing",
];

const MISSING_UNKNOWN: &[&str] =
    &["jump NoLabelAtAll", "JMP NoLabelAtAll", "bgt r4 r5 NoLabelAtAll", "jmp, NoLabelAtAll"];

const MISSING_PARTS: &[&str] = &[
    "jmp NoLabelAtAll NoLabelAtAll",
    "beq r4 NoLabelAtAll",
    "bne r4 r5 r6 NoLabelAtAll",
    "jmp r4 NoLabelAtAll",
    "beq NoLabelAtAll",
];

/// Makes a slip in drafts; those at the end of the text are made when it is laid out.
fn make_slip(rng: &mut Random, slip: Slip, drafts: &mut Vec<Draft>) {
    let [long, more] = [LONGEST_NAME + 1, LONGEST_NAME + 24];
    let size = edgy(rng, long, more);
    match slip {
        Double | DoubleOnBad => {
            let name = some_name(rng, drafts);
            let behind: &[&str] =
                if slip == Double { &["", " nop"] } else { &[" nopp", " mov r4 #256", " mov r4 r16"] };
            let line = [&with_colon(&name)[..], rng.pick(behind).as_bytes()].concat();
            put_all_in_order(rng, drafts, &[line]);
        }
        LongName => {
            let label = with_colon(&letters(rng, size));
            put(rng, drafts, &label);
        }
        LongNameUsed => {
            let name = letters(rng, size);
            put_all_in_order(rng, drafts, &[[b"jmp ", &name[..]].concat(), with_colon(&name)]);
        }
        BadName => {
            let line = [rng.pick(BAD_NAMES), rng.pick(&[&b""[..], b" nop"])].concat();
            put(rng, drafts, &line);
        }
        UsedOnBad => {
            let name = no_name(rng, drafts);
            let bad = rng.pick(&["nopp", "mov r4 #256", "mov r4 r16", "jmp", "jmp a_b", "zz: nop"]);
            put_all_in_order(
                rng,
                drafts,
                &[[b"jmp ", &name[..]].concat(), [&with_colon(&name)[..], b" ", bad.as_bytes()].concat()],
            );
        }
        BadByte => {
            let line = bad_byte(rng);
            put(rng, drafts, &line);
        }
        _ => make_slip_of_targets(rng, slip, drafts, size),
    }
}

/// Puts lines somewhere, each behind the one before. A label that is double must come behind the first of its name.
fn put_all_in_order(rng: &mut Random, drafts: &mut Vec<Draft>, lines: &[Vec<u8>]) {
    let mut from = 0;
    for line in lines {
        let new = draft(line);
        let same = |draft: &Draft| draft.label.is_some() && draft.label == new.label;
        from = drafts.iter().rposition(same).map_or(from, |at| from.max(at + 1));
        from = edgy(rng, from, drafts.len());
        drafts.insert(from, new);
        from += 1;
    }
}

/// Such slips in targets.
fn make_slip_of_targets(rng: &mut Random, slip: Slip, drafts: &mut Vec<Draft>, size: usize) {
    let missing = no_name(rng, drafts);
    match slip {
        Missing => put_jump(rng, drafts, &missing),
        NearlyMissing => {
            let name = near_name(rng, drafts);
            put_jump(rng, drafts, &name);
        }
        LongTarget => {
            // Often with the front of a label that is as long as may be.
            let name = letters(rng, size);
            put_jump(rng, drafts, &name);
            if rng.one_in(2) {
                put(rng, drafts, &with_colon(&name[..LONGEST_NAME]));
            }
        }
        MissingOnBad | MissingOnMark => {
            let some: &[&str] = match slip {
                MissingOnBad => &["beq #256 r4 ", "bne r04 !r4+3 ", "beq r4 x "],
                _ => &["beq r16 r4 ", "bne r4 @128 ", "beq !r16 r4 ", "bne r0 r4 "],
            };
            let line = [rng.pick(some).as_bytes(), &missing].concat();
            put(rng, drafts, &line);
        }
        BadTarget => {
            let target = rng.pick(BAD_TARGETS);
            put_jump(rng, drafts, target);
        }
        _ => make_slip_of_lists(rng, slip, drafts),
    }
}

/// Such slips out of a list.
fn make_slip_of_lists(rng: &mut Random, slip: Slip, drafts: &mut Vec<Draft>) {
    match slip {
        BadOpcode => put_one_of(rng, drafts, BAD_OPCODES),
        FewParts => put_one_of(rng, drafts, FEW),
        ManyParts => put_one_of(rng, drafts, MANY),
        BadOperand => {
            let operand = rng.pick(BAD_OPERANDS);
            put_operand(rng, drafts, operand);
        }
        Zeros => {
            let operand = rng.pick(ZEROS);
            put_operand(rng, drafts, operand);
        }
        OurForm => {
            let operand = rng.pick(OURS);
            put_operand(rng, drafts, operand);
        }
        LiteralDestination => {
            put_one_of(rng, drafts, &["mov #1 r4", "not #0 #1", "xor #255 r4 r5", "add #5 #5 #5"])
        }
        Mark => put_one_of(rng, drafts, MARKS),
        BlankInside => put_one_of(rng, drafts, SPLIT),
        LabelPlace => put_one_of(rng, drafts, APART),
        MissingUnknown => put_one_of(rng, drafts, MISSING_UNKNOWN),
        MissingParts => put_one_of(rng, drafts, MISSING_PARTS),
        _ => (),
    }
}

// ---------------------------------------------------------------- texts

/// A published text with the slip, and the lines that it stands for without.
pub fn text(rng: &mut Random, slip: Slip) -> (Vec<Line>, Vec<u8>) {
    if Slip::LONG.contains(&slip) {
        return long_text(rng, slip);
    }
    let lines = if rng.one_in(8) { full_of_jumps(rng) } else { accepted_program(rng) };
    // With as many lines as there may be, one more would show first.
    let lines = if slip == Nothing || lines.len() < MOST_CHECKED - 8 { lines } else { vec![jump(0)] };
    let mut drafts = drafts(rng, &lines);
    match slip {
        Two => {
            for _ in 0..2 {
                let one = rng.pick(&Slip::all());
                make_slip(rng, one, &mut drafts);
            }
        }
        _ => make_slip(rng, slip, &mut drafts),
    }
    let mut text = end_slip(rng, slip, drafts);
    match slip {
        Bytes => damage(rng, &mut text),
        // A text in our line form, for which there must be a line.
        OurLines => text = our_text(&[vec![accepted_line(rng, 0)], lines.clone()].concat()),
        _ => (),
    }
    (lines, text)
}

/// Lays drafts out, with the slips of the last line, which mostly has no newline then.
fn end_slip(rng: &mut Random, slip: Slip, mut drafts: Vec<Draft>) -> Vec<u8> {
    let name = no_name(rng, &drafts);
    let last: Vec<u8> = match slip {
        MissingAtEnd => [b"jmp ", &name[..]].concat(),
        OurLines => our_text(&[accepted_line(rng, 0)]),
        UsedAtEnd => {
            put_jump(rng, &mut drafts, &name);
            [&with_colon(&name)[..], rng.pick(&[&b""[..], b" nop", b" ;"])].concat()
        }
        NoNewline => {
            let label = with_colon(&name);
            rng.pick(&[&b" "[..], b";", b"\t;a", b"nop", b"mov r4 r5 ", b"nop;", &label]).to_vec()
        }
        _ => vec![],
    };
    [laid_out(rng, &drafts), last].concat()
}

/// Changes some bytes of a published text.
fn damage(rng: &mut Random, text: &mut Vec<u8>) {
    const BYTES: &[u8] = b" \t;:,,\n\n#r@!!%^+0012345678969abdjlmnopqtvxL\r\0\xe4\xff";
    for _ in 0..rng.pick(&[1, 1, 1, 2, 3]) {
        let size = text.len();
        let at = rng.below(size + 1);
        match rng.below(6) {
            0 if at < size => drop(text.remove(at)),
            1 | 2 => text.insert(at, rng.pick(BYTES)),
            3 if at < size => text[at] = rng.pick(BYTES),
            4 if rng.one_in(4) => text.truncate(at),
            _ => {
                // A piece of the text once more, somewhere.
                let from = rng.below(size + 1);
                let piece = text[from..(from + rng.below(20)).min(size)].to_vec();
                text.splice(at..at, piece);
            }
        }
    }
}

/// Texts at the limits: 1,024 counted lines or 1,025 labels, or one more.
fn long_text(rng: &mut Random, slip: Slip) -> (Vec<Line>, Vec<u8>) {
    let of_labels = !matches!(slip, Lines1024 | Lines1025 | MissingOn1025th);
    let most = if slip == Label1025thUsed { 1_000 } else { MOST_CHECKED };
    let count = if of_labels { rng.pick(&[0, 3, 700, most]) } else { MOST_CHECKED };
    let lines = if rng.one_in(2) { long_program(rng, count, true) } else { jumps_back(rng, count) };
    let mut drafts = drafts(rng, &lines);
    if of_labels {
        fill_labels(rng, &mut drafts, slip);
    }
    match slip {
        Lines1025 => drafts.push(draft(rng.pick(&[&b"nop"[..], b"nopp", b"mov r4 r16"]))),
        MissingOn1025th => drafts.push(draft(rng.pick(&[&b"jmp NoLabelAtAll"[..], b"a_b: nop"]))),
        _ => (),
    }
    // Lines behind it, which do not show.
    if matches!(slip, Lines1025 | MissingOn1025th) && rng.one_in(2) {
        drafts.push(draft(rng.pick(&[&b"nop"[..], b"jmp NoLabelAtAll", b"nopp"])));
    }
    (lines, laid_out(rng, &drafts))
}

/// So many jumps, each to another line.
fn jumps_back(rng: &mut Random, count: usize) -> Vec<Line> {
    let least = rng.below(2);
    (0..count).map(|at| jump((count - at - least) as u16)).collect()
}

/// Labels that make up 1,025, somewhere, or one less; then one more, if that is the slip, and a jump there from before.
fn fill_labels(rng: &mut Random, drafts: &mut Vec<Draft>, slip: Slip) {
    let most = if slip == Label1025thUsed { MOST_LABELS - 1 } else { MOST_LABELS };
    let mut taken: BTreeSet<Vec<u8>> = label_names(drafts).into_iter().collect();
    let at = edgy(rng, 0, drafts.len());
    let mut new = vec![];
    while taken.len() < most {
        new.push(Draft { label: Some(with_colon(&new_name(rng, &mut taken))), parts: vec![] });
    }
    drafts.splice(at..at, new);
    if slip == Labels1025 {
        return;
    }
    let name = new_name(rng, &mut taken);
    if slip != Label1026th {
        // In place of an instruction, so that there are not too many of them.
        let jump = draft(&[b"jmp ", &name[..]].concat());
        match drafts.iter().position(|draft| !draft.parts.is_empty()) {
            Some(at) => drafts[at].parts = jump.parts,
            None => drafts.push(jump),
        }
    }
    if slip == Label1025thUsed {
        let double = with_colon(&some_name(rng, drafts));
        drafts.push(draft(rng.pick(&[&double[..], b"a_b:", b":", b"ANameOf17Letters1:"])));
    }
    drafts.push(draft(&with_colon(&name)));
}

/// A text with the slip whose lines go past 65,536, nearly all of them without anything and in one place.
pub fn far_text(rng: &mut Random, slip: Slip) -> Vec<u8> {
    let lines: Vec<Line> = (0..rng.within(1, 9)).map(|_| accepted_line(rng, 0)).collect();
    let mut drafts = drafts(rng, &lines);
    make_slip(rng, slip, &mut drafts);
    let at = if rng.one_in(2) { 0 } else { rng.below(drafts.len() + 1) };
    let before = laid_out(rng, &drafts[..at]);
    let filler = rng.pick(&[&b"\n"[..], b";\n", b" \t;x\n"]).repeat(65_530 + rng.below(9));
    let behind = end_slip(rng, slip, drafts.split_off(at));
    [before, filler, behind].concat()
}

// ---------------------------------------------------------------- our texts

/// A text in our line form of more lines than the mark check takes, or just as many, damaged behind them or not at
/// all.
pub fn our_long_text(rng: &mut Random) -> Vec<u8> {
    let near = rng.below(4);
    let count = match rng.below(4) {
        0 => MOST_LINES - 1 + near,
        1 => MOST_CHECKED,
        _ => MOST_CHECKED - 1 + rng.pick(&[near, near + 1, 100]),
    };
    let accepted = rng.one_in(2);
    let lines = long_program(rng, count, accepted);
    let checked = count.min(MOST_CHECKED);
    let mut behind = our_text(&lines[checked..]);
    // Most of the longest texts are for 7 to find.
    let often = if count < MOST_LINES { 2 } else { 1 };
    if rng.below(3) < often {
        damage_text(rng, &mut behind);
    }
    [our_text(&lines[..checked]), behind].concat()
}

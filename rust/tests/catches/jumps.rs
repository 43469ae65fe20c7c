//! Request 05: starts added up or looked up wrongly, and what is refused of programs full of jumps.

use super::*;
use dualrail::paper::LONGEST;

/// All of them.
pub fn variants() -> impl Iterator<Item = Variant> {
    let added_up = ADDED_UP.into_iter().map(|(fault, part)| (fault, (part, looked_up as Aim)));
    let aimed = AIMED.into_iter().map(|(fault, aim)| (fault, (part as Part, aim)));
    let targets = added_up.chain(aimed);
    targets.map(|(fault, targets)| Variant { fault, targets: Some(targets), ..RIGHT }).chain(OTHERS)
}

// ---------------------------------------------------------------- starts

/// The parts whose lengths are added up, where the expansion has the right ones.
const ADDED_UP: [(&str, Part); 5] = [
    ("targets as if the macro for neighbours had 13 lines", |_, line| part(Layout::at(0, 1), line)),
    ("starts without the two lines more of a public place", loaded_by_one),
    ("starts without the two lines more that load r1", first_loaded_by_one),
    ("starts with 14 lines for each marked one", |_, line| vec![*line; if line.marked { 14 } else { 1 }]),
    ("starts of the marked lines alone", |layout, line| match line.marked {
        true => part(layout, line),
        false => vec![],
    }),
];

/// The start of a line, none for the end.
fn of_line(starts: &[usize], target: usize) -> Option<usize> {
    starts[..starts.len() - 1].get(target).copied()
}

/// The start of a line up to the jump's own, none for one after it.
fn so_far(starts: &[usize], at: usize, target: usize) -> Option<usize> {
    starts[..=at].get(target).copied()
}

const AIMED: [(&str, Aim); 15] = [
    ("starts added up to one line too early", |starts, _, target| starts[target.saturating_sub(1)]),
    ("starts added up to one line too late", |starts, _, target| starts[(target + 1).min(starts.len() - 1)]),
    ("starts added up from line 1 on", |starts, _, target| starts[target].saturating_sub(starts[1])),
    ("a target looked up one past", |starts, _, target| starts.get(target + 1).copied().unwrap_or(0)),
    ("the end's start 0", |starts, _, target| of_line(starts, target).unwrap_or(0)),
    ("the end's start that of the last line", |starts, _, target| starts[target.min(starts.len() - 2)]),
    ("the end's start the line count", |starts, _, target| of_line(starts, target).unwrap_or(target)),
    ("1,024 starts, and none of line 1,024", |starts, _, target| match target {
        MOST_CHECKED => 0,
        _ => starts[target],
    }),
    ("the start of line 1,023 that of line 1,022", |starts, _, target| match target {
        1_023 => starts[1_022],
        _ => starts[target],
    }),
    ("starts modulo 256", |starts, _, target| starts[target] % 256),
    ("starts modulo 1,024", |starts, _, target| starts[target] % 1_024),
    ("a target after the jump left as it is", |starts, at, target| {
        so_far(starts, at, target).unwrap_or(target)
    }),
    ("a line after the jump taken for one line", |starts, at, target| {
        so_far(starts, at, target).unwrap_or_else(|| starts[at] + target - at)
    }),
    ("a target after the jump added up from there", |starts, at, target| {
        so_far(starts, at, target).unwrap_or_else(|| starts[target] - starts[at])
    }),
    ("a target before the jump left as it is", |starts, at, target| match target < at {
        true => target,
        false => starts[target],
    }),
];

// ---------------------------------------------------------------- opcodes and refusals

/// Expands what this check takes too.
fn checked_by(check: fn(&[u16]) -> Answer, layout: Layout, program: &[u16], out: &mut [u16]) -> Answer {
    match check(program) {
        answer @ Refused { .. } if layout.is_one_of_six() => answer,
        _ => Paper.expand(layout, program, out),
    }
}

/// Writes what fits of an expansion that was refused for its room; gives its line count.
pub fn write_what_fits(layout: Layout, program: &[u16], out: &mut [u16]) -> Answer {
    let mut whole = vec![0; SIX * LONGEST * MOST_CHECKED];
    let answer = Paper.expand(layout, program, &mut whole);
    out.copy_from_slice(&whole[..out.len()]);
    answer
}

const OTHERS: [Variant; 8] = [
    Variant {
        fault: "targets of beq and bne left as they are",
        expand: |layout, program, out| {
            changed_expansion(layout, program, out, |six, line, _, _| {
                if is_branch(line) {
                    six[5] = line.stored()[5];
                }
            })
        },
        ..RIGHT
    },
    Variant {
        fault: "targets of jmp left as they are",
        expand: |layout, program, out| {
            changed_expansion(layout, program, out, |six, line, _, _| {
                if line.opcode == Opcode::Jmp {
                    six[5] = line.stored()[5];
                }
            })
        },
        ..RIGHT
    },
    Variant {
        fault: "16 of an expansion at the line count",
        expand: |layout, program, out| checked_by(end_refused, layout, program, out),
        ..RIGHT
    },
    Variant {
        fault: "9 of an expansion from 1,024 lines on",
        expand: |layout, program, out| checked_by(longest_refused, layout, program, out),
        ..RIGHT
    },
    Variant {
        fault: "a target just past the end taken for the end",
        expand: |layout, program, out| {
            let end = 1 + (program.len() / SIX) as u16;
            let mut program = program.to_vec();
            for six in program.chunks_exact_mut(SIX).filter(|six| six[5] == end + 1) {
                six[5] = end;
            }
            Paper.expand(layout, &program, out)
        },
        ..RIGHT
    },
    Variant {
        fault: "17 of an expansion unless there is a line more",
        expand: |layout, program, out| match Paper.expand(layout, program, &mut out.to_vec()) {
            Counted(count @ 1..) if count as usize == out.len() / SIX => refused(17),
            _ => Paper.expand(layout, program, out),
        },
        ..RIGHT
    },
    Variant {
        fault: "17 of an expansion leaves what fits",
        expand: |layout, program, out| {
            let answer = Paper.expand(layout, program, out);
            if answer == refused(17) {
                write_what_fits(layout, program, out);
            }
            answer
        },
        ..RIGHT
    },
    Variant {
        fault: "no 17 where the last line has no room",
        expand: |layout, program, out| match Paper.expand(layout, program, out) {
            Refused { number: 17, .. } => match write_what_fits(layout, program, &mut out.to_vec()) {
                Counted(count) if count as usize == out.len() / SIX + 1 => {
                    write_what_fits(layout, program, out)
                }
                _ => refused(17),
            },
            answer => answer,
        },
        ..RIGHT
    },
];

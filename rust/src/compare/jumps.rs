//! Request 05: programs full of jumps, right or damaged, in each of the six layouts.

use super::{numbered, size, which, Comparison};
use crate::answer::{Answer, Layout};
use crate::generate as make;
use crate::paper::{self, Line, Opcode, LONGEST, MOST_CHECKED, SIX};
use std::collections::BTreeSet;

/// What has been tried.
#[derive(Clone, Default)]
pub struct Jumps {
    /// Programs expanded in each layout; those of 1,024 lines, and those whose jumps all have their own target.
    pub programs: [u64; 6],
    pub longest: [u64; 6],
    pub own_targets: [u64; 6],
    /// Their jumps to line 0 and to the end, and those back and on across marked lines.
    pub to_first: [u64; 6],
    pub to_end: [u64; 6],
    pub back: [u64; 6],
    pub on: [u64; 6],
    /// Their jumps by opcode, and their other lines by the length of the part.
    pub opcodes: [u64; 13],
    pub parts: [u64; LONGEST + 1],
    /// What was refused; of it targets just past the end, and stores one line too small.
    pub refusals: [u64; 24],
    pub past_end: u64,
    pub line_short: u64,
}

impl Jumps {
    /// Counts an expansion into this room that was answered so.
    fn add(&mut self, layout: Layout, lines: &[Line], room: usize, answer: Answer) {
        let Answer::Refused { number, line } = answer else {
            return self.add_expanded(layout, lines);
        };
        self.refusals[number as usize] += 1;
        match number {
            16 => {
                let past = Some(lines.len() as u16 + 1);
                self.past_end += (lines[line as usize].target == past) as u64;
            }
            17 => self.line_short += (room / SIX + 1 == make::expansion_length(layout, lines)) as u64,
            _ => (),
        }
    }

    fn add_expanded(&mut self, layout: Layout, lines: &[Line]) {
        let layout_at = which(layout);
        let starts = paper::starts(layout, lines);
        let (mut jumps, mut targets) = (0, BTreeSet::new());
        for (at, line) in lines.iter().enumerate() {
            match line.target {
                Some(target) => {
                    jumps += 1;
                    targets.insert(target);
                    self.opcodes[line.opcode as usize] += 1;
                    self.add_jump(layout_at, &starts, at, target as usize);
                }
                None => self.parts[starts[at + 1] - starts[at]] += 1,
            }
        }
        self.programs[layout_at] += 1;
        self.longest[layout_at] += (lines.len() == MOST_CHECKED) as u64;
        self.own_targets[layout_at] += (jumps > 1 && jumps == targets.len()) as u64;
    }

    /// Counts a jump. It crosses a marked line where the parts are longer than the lines.
    fn add_jump(&mut self, layout: usize, starts: &[usize], at: usize, target: usize) {
        let (low, high) = (at.min(target), at.max(target));
        let across = starts[high] - starts[low] > high - low;
        self.to_first[layout] += (target == 0) as u64;
        self.to_end[layout] += (target == starts.len() - 1) as u64;
        self.back[layout] += (across && target < at) as u64;
        self.on[layout] += (across && target > at) as u64;
    }

    pub fn show(&self) -> String {
        let mut shown = format!(
            "\nprograms full of jumps: {:?} by layout, of 1,024 lines: {:?}, each target its own: {:?}",
            self.programs, self.longest, self.own_targets
        );
        shown += &format!(
            "\ntheir jumps to line 0: {:?}, to the end: {:?}, back across marked lines: {:?}, on: {:?}",
            self.to_first, self.to_end, self.back, self.on
        );
        let opcodes = [Opcode::Jmp, Opcode::Beq, Opcode::Bne].map(|opcode| self.opcodes[opcode as usize]);
        shown += &format!("; jmp, beq, bne: {opcodes:?}; other lines by length: {}", numbered(&self.parts));
        shown += &format!("\nrefused of them: {}", numbered(&self.refusals));
        shown + &format!(" ({} just past the end, {} a line too small)", self.past_end, self.line_short)
    }
}

impl Comparison<'_> {
    /// A program full of jumps: the whole way if it is right, and expanded in each layout and outside the six.
    pub(super) fn jumps(&mut self) -> Result<(), String> {
        let mut lines = make::full_of_jumps(&mut self.rng);
        if self.rng.one_in(3) {
            make::damage_jumps(&mut self.rng, &mut lines);
            self.check(&make::stored(&lines))?;
        } else {
            self.whole_way(&lines)?;
        }
        let outside = make::layout_outside(&mut self.rng);
        for layout in Layout::ALL.into_iter().chain([outside]) {
            self.expand_jumps(layout, &lines)?;
        }
        Ok(())
    }

    /// Expands into just enough room, a line less, or about as much.
    fn expand_jumps(&mut self, layout: Layout, lines: &[Line]) -> Result<(), String> {
        let needed = SIX * make::expansion_length(layout, lines);
        let about = size(&mut self.rng, needed);
        let room = self.rng.pick(&[needed, needed, needed.saturating_sub(SIX), about]);
        let (answer, _) = self.expand(layout, &make::stored(lines), room)?;
        self.counts.jumps.add(layout, lines, room, answer);
        Ok(())
    }
}

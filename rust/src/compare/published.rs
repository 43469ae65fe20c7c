//! Request 08: published text taken in and our line form sent out, right or wrong, into stores of several sizes,
//! and both ways one after the other.

use super::{numbered, size, Comparison, Entry, NONE, REFUSALS};
use crate::answer::{Answer, Dualrail};
use crate::generate as make;
use crate::generate::published::Slip;
use crate::paper::published::{text_lines, TextLine, LONGEST_NAME, MOST_LABELS};
use crate::paper::{Line, Paper, MOST_CHECKED, OPCODES, SIX};
use std::collections::BTreeMap;

/// The most bytes that a text in our line form can be taken in as, and sent out as.
const MOST_IN: usize = 34 * MOST_CHECKED;
const MOST_OUT: usize = 38 * MOST_CHECKED + 7;

/// What a line of a published text may be, with its label, its parts, and its bytes.
type Form = (&'static str, fn(&TextLine, &[u8]) -> bool);

/// Forms of lines that must be met in texts that are taken in.
pub const FORMS: [Form; 20] = [
    ("a label alone", |line, _| line.label.is_some() && line.parts.is_empty()),
    ("a label before an instruction", |line, _| line.label.is_some() && !line.parts.is_empty()),
    ("a label like an opcode", |line, _| {
        has_name(line, |name| OPCODES.iter().any(|(_, like)| like.as_bytes() == name))
    }),
    ("a label of digits", |line, _| has_name(line, |name| name.iter().all(u8::is_ascii_digit))),
    ("a label of 1", |line, _| has_name(line, |name| name.len() == 1)),
    ("a label of 16", |line, _| has_name(line, |name| name.len() == LONGEST_NAME)),
    ("nothing at all", |_, bytes| bytes == b"\n"),
    ("blanks alone", |_, bytes| bytes.len() > 1 && bytes.iter().all(u8::is_ascii_whitespace)),
    ("a comment alone", |line, bytes| line.label.is_none() && line.parts.is_empty() && bytes.contains(&b';')),
    ("a comment behind a part", |line, bytes| !line.parts.is_empty() && bytes.contains(&b';')),
    ("a return in a comment", |_, bytes| bytes.contains(&b'\r')),
    ("bytes 0 and 255 in a comment", |_, bytes| bytes.contains(&0) && bytes.contains(&255)),
    ("a tab", |line, bytes| !line.parts.is_empty() && bytes.contains(&b'\t')),
    ("blanks before", |line, bytes| !line.parts.is_empty() && bytes.starts_with(b" ")),
    ("blanks behind", |line, bytes| !line.parts.is_empty() && bytes.ends_with(b" \n")),
    ("a missing offset", |line, _| has_part(line, |part| part.starts_with(b"!") && !part.contains(&b','))),
    ("offset 0", |line, _| has_part(line, |part| part.starts_with(b"!") && part.ends_with(b",0"))),
    ("offset 127", |line, _| has_part(line, |part| part.starts_with(b"!") && part.ends_with(b",127"))),
    ("offset 128", |line, _| has_part(line, |part| part.starts_with(b"!") && part.ends_with(b",128"))),
    ("offset 255", |line, _| has_part(line, |part| part.starts_with(b"!") && part.ends_with(b",255"))),
];

fn has_name(line: &TextLine, is: fn(&[u8]) -> bool) -> bool {
    line.label.is_some_and(is)
}

fn has_part(line: &TextLine, is: fn(&[u8]) -> bool) -> bool {
    line.parts.iter().any(|part| is(part))
}

/// What has been tried.
#[derive(Clone, Default)]
pub struct Published {
    /// Answers of taking in and of sending out by the number of the refusal, at 0 if it is none.
    pub answers: [[u64; REFUSALS]; 2],
    /// Their stores, where nothing else is refused: just enough, a byte too small, smaller, larger.
    pub rooms: [[u64; 4]; 2],
    /// Texts taken in with each slip: into room enough, refused with 24, with 25.
    pub slips: BTreeMap<Slip, [u64; 3]>,
    /// Lines of texts that are taken in by their forms; texts of 1,024 counted lines, and of 1,025 labels.
    pub forms: [u64; FORMS.len()],
    pub longest: u64,
    pub most_labels: u64,
    /// Refusals 24 and 25 at a text line past 65,535.
    pub far: [u64; 2],
    /// Labels sent out: before line 0, before another line, at the end; lines that are no target.
    pub labels: [u64; 3],
    pub unlabelled: u64,
    /// Refusals of reading in lines past the 1,024th, by number.
    pub behind: [u64; REFUSALS],
    /// Accepted texts that came home, and taken in ones that were sent out and came home.
    pub home: [u64; 2],
}

impl Published {
    /// Counts a call with this room that was answered so, and needs this much if it is not refused for anything else.
    fn add(&mut self, side: usize, needed: Option<usize>, room: usize, answer: Answer) {
        let (number, line) = match answer {
            Answer::Refused { number, line } => (number as usize, line),
            _ => (0, 0),
        };
        self.answers[side][number] += 1;
        if let Some(needed) = needed {
            let which = match room {
                _ if room == needed => 0,
                _ if room + 1 == needed => 1,
                _ if room < needed => 2,
                _ => 3,
            };
            self.rooms[side][which] += 1;
        }
        if side == 0 && line > 65_535 {
            self.far[number - 24] += 1;
        }
        if side == 1 && number < 7 && line as usize >= MOST_CHECKED {
            self.behind[number] += 1;
        }
    }

    /// Counts what stands in a text that is taken in.
    fn add_forms(&mut self, text: &[u8]) {
        let lines = text_lines(text);
        for (line, bytes) in lines.iter().zip(text.split_inclusive(|&byte| byte == b'\n')) {
            for (count, (_, is)) in self.forms.iter_mut().zip(FORMS) {
                *count += is(line, bytes) as u64;
            }
        }
        let counted = lines.iter().filter(|line| line.is_counted()).count();
        let labels = lines.iter().filter(|line| line.label.is_some()).count();
        self.longest += (counted == MOST_CHECKED) as u64;
        self.most_labels += (labels == MOST_LABELS) as u64;
    }

    /// Counts the labels of accepted lines that are sent out.
    fn add_sent(&mut self, lines: &[Line]) {
        for at in 0..=lines.len() {
            let used = lines.iter().any(|line| line.target == Some(at as u16));
            let which = if at == lines.len() { 2 } else { (at > 0) as usize };
            self.labels[which] += used as u64;
            self.unlabelled += !used as u64;
        }
    }

    pub fn show(&self) -> String {
        let mut shown = String::new();
        for (side, name) in ["taken in", "sent out"].iter().enumerate() {
            shown += &format!(
                "\n{name}, and refused: {}; stores just enough, a byte less, smaller, larger: {:?}",
                numbered(&self.answers[side]),
                self.rooms[side]
            );
        }
        shown += "\npublished texts taken, refused with 24, with 25:";
        for (slip, answers) in &self.slips {
            shown += &format!(" {slip:?} {answers:?}");
        }
        shown += "\nlines of those taken:";
        for ((name, _), count) in FORMS.iter().zip(self.forms) {
            shown += &format!(" {name} {count},");
        }
        shown += &format!(" of 1,024 lines {}, of 1,025 labels {}", self.longest, self.most_labels);
        shown += &format!("\n24 and 25 past line 65,535: {:?}", self.far);
        shown += &format!("; labels sent out for line 0, others, the end: {:?}", self.labels);
        shown += &format!(
            ", none for {} lines; refused past line 1,023: {}",
            self.unlabelled,
            numbered(&self.behind)
        );
        shown + &format!("; accepted texts that came home, taken in ones: {:?}", self.home)
    }
}

/// A report with the text unless this holds of it.
fn must(holds: bool, what: &str, text: &[u8]) -> Result<(), String> {
    match holds {
        true => Ok(()),
        false => Err(format!("{what}\ntext: {:.20000?}\n", String::from_utf8_lossy(text))),
    }
}

impl Comparison<'_> {
    /// Texts to take in and to send out.
    pub(super) fn published(&mut self) -> Result<(), String> {
        match self.rng.below(8) {
            0..=4 => {
                for _ in 0..6 {
                    self.published_text()?;
                }
                Ok(())
            }
            5 => self.our_text(),
            _ => self.there_and_home(),
        }
    }

    /// The same with more lines than a number of 16 bits has, than the mark check takes, or than reading does.
    pub(super) fn long_published(&mut self) -> Result<(), String> {
        if self.rng.one_in(2) {
            let slip = make::published::short_slip(&mut self.rng);
            let text = make::published::far_text(&mut self.rng, slip);
            self.taken_in(&text, slip)?;
            return Ok(());
        }
        for _ in 0..8 {
            let text = make::published::our_long_text(&mut self.rng);
            self.sent_out(&text)?;
        }
        Ok(())
    }

    /// One call on both: taking in or sending out, into a store of this size.
    fn convert(&mut self, entry: Entry, text: &[u8], room: usize) -> Result<(Answer, Vec<u8>), String> {
        let out = self.some_bytes(room);
        let (answer, call) = self.call(entry, NONE, (text, &[]), (&out, &[]))?;
        let mut written = call.lent_bytes.part().to_vec();
        if let Answer::Counted(count) = answer {
            written.truncate(count as usize);
        }
        Ok((answer, written))
    }

    /// A call into about the room that is needed; another one into just enough, if that was not. Gives what it writes
    /// there, if it is not refused.
    fn convert_about(&mut self, entry: Entry, text: &[u8]) -> Result<Option<Vec<u8>>, String> {
        let side = (entry == Entry::SendOut) as usize;
        let needed = match side {
            0 => Paper.take_in(text, &mut vec![0; MOST_IN]),
            _ => Paper.send_out(text, &mut vec![0; MOST_OUT]),
        };
        let needed = match needed {
            Answer::Counted(count) => Some(count as usize),
            _ => None,
        };
        let room = size(&mut self.rng, needed.unwrap_or(40));
        let (answer, written) = self.convert(entry, text, room)?;
        self.counts.published.add(side, needed, room, answer);
        match needed {
            Some(needed) if room < needed => {
                let (answer, written) = self.convert(entry, text, needed)?;
                self.counts.published.add(side, Some(needed), needed, answer);
                Ok(Some(written))
            }
            Some(_) => Ok(Some(written)),
            None => Ok(None),
        }
    }

    /// A published text with a slip or none; one without stands for known lines.
    fn published_text(&mut self) -> Result<(), String> {
        let slip = make::published::slip(&mut self.rng);
        let (lines, text) = make::published::text(&mut self.rng, slip);
        let taken = self.taken_in(&text, slip)?;
        if Slip::HARMLESS.contains(&slip) {
            must(
                taken.as_deref() == Some(&make::text(&lines)),
                "the text is not taken in for these lines",
                &text,
            )?;
        }
        if let Some(taken) = taken.filter(|_| self.rng.one_in(2)) {
            self.is_accepted(&taken)?;
            self.comes_home(&taken)?;
            self.counts.published.home[1] += 1;
        }
        Ok(())
    }

    /// Takes in a text with this slip.
    fn taken_in(&mut self, text: &[u8], slip: Slip) -> Result<Option<Vec<u8>>, String> {
        let taken = self.convert_about(Entry::TakeIn, text)?;
        let answer = match &taken {
            Some(_) => 0,
            None => match Paper.take_in(text, &mut []) {
                Answer::Refused { number: 24, .. } => 1,
                _ => 2,
            },
        };
        self.counts.published.slips.entry(slip).or_default()[answer] += 1;
        if taken.is_some() {
            self.counts.published.add_forms(text);
        }
        Ok(taken)
    }

    /// What is taken in is text that reading and the mark check take.
    fn is_accepted(&mut self, text: &[u8]) -> Result<(), String> {
        let count = text.iter().filter(|&&byte| byte == b'\n').count();
        let (answer, program) = self.read(text, SIX * count)?;
        let read = answer == Answer::Counted(count as u32);
        must(read && self.check(&program)? == answer, "what was taken in is not accepted", text)
    }

    /// "Accepted text sent out and taken in comes home with the same bytes."
    fn comes_home(&mut self, text: &[u8]) -> Result<(), String> {
        let Some(sent) = self.convert_about(Entry::SendOut, text)? else {
            return must(false, "accepted text is not sent out", text);
        };
        let home = self.convert_about(Entry::TakeIn, &sent)?;
        must(home.as_deref() == Some(text), "accepted text does not come home", text)
    }

    /// An accepted text in our line form, out and home.
    fn there_and_home(&mut self) -> Result<(), String> {
        let lines = match self.rng.below(4) {
            0 => make::full_of_jumps(&mut self.rng),
            _ => make::accepted_program(&mut self.rng),
        };
        self.comes_home(&make::text(&lines))?;
        self.counts.published.home[0] += 1;
        if lines.len() < 100 {
            self.counts.published.add_sent(&lines);
        }
        Ok(())
    }

    /// A text in our line form, mostly with something for reading or for the mark check to find.
    fn our_text(&mut self) -> Result<(), String> {
        for _ in 0..6 {
            let lines = make::program(&mut self.rng);
            let mut text = make::text(&lines);
            if self.rng.one_in(2) {
                make::damage_text(&mut self.rng, &mut text);
            }
            self.sent_out(&text)?;
        }
        Ok(())
    }

    fn sent_out(&mut self, text: &[u8]) -> Result<(), String> {
        self.convert_about(Entry::SendOut, text)?;
        Ok(())
    }
}

//! What the entry points answer, and the form that all implementations share.

/// The answer of an entry point.
#[derive(Clone, Copy, Debug, PartialEq, Eq)]
pub enum Answer {
    /// Lines read, checked or expanded, bytes written, a table's entries, or a set's words.
    Counted(u32),
    /// A run that reached the end.
    Halted { counter: u16, steps: u16 },
    /// A run or walk that used up its budget below the line count.
    Spent { counter: u16, steps: u16 },
    /// A walk that reached the end, all its choices alike.
    Balanced { counter: u16, steps: u16 },
    /// A walk with two choices unlike: the line, and the steps done before.
    Leak { line: u16, steps: u16 },
    /// A refusal: its number in the paper's table, and the line, of a map the index.
    Refused { number: u16, line: u32 },
}

impl Answer {
    /// Takes apart the packed answer of every exported function but the run's and the walk's.
    pub fn from_count(packed: u64) -> Answer {
        let value = packed as u32;
        match packed >> 32 {
            0 => Answer::Counted(value),
            number => Answer::Refused { number: small(number), line: value },
        }
    }

    /// Takes apart the answer of the exported run, watched or not.
    pub fn from_run(packed: u64) -> Answer {
        let (ending, counter, steps) = match ending(packed) {
            Ok(parts) => parts,
            Err(refused) => return refused,
        };
        match ending {
            0 => Answer::Halted { counter, steps },
            1 => Answer::Spent { counter, steps },
            _ => panic!("no such ending: {ending}"),
        }
    }

    /// Takes apart the answer of the exported walk.
    pub fn from_judge(packed: u64) -> Answer {
        let (ending, counter, steps) = match ending(packed) {
            Ok(parts) => parts,
            Err(refused) => return refused,
        };
        match ending {
            0 => Answer::Balanced { counter, steps },
            1 => Answer::Spent { counter, steps },
            2 => Answer::Leak { line: counter, steps },
            _ => panic!("no such ending: {ending}"),
        }
    }
}

/// Ending, counter and steps of a packed answer; else the refusal that it is.
fn ending(packed: u64) -> Result<(u16, u16, u16), Answer> {
    match packed >> 48 {
        0 => Ok(((packed >> 32) as u16, (packed >> 16) as u16, packed as u16)),
        number => {
            let line = packed & 0xffff_ffff_ffff;
            assert!(line < 1 << 32, "no such line: {line}");
            Err(Answer::Refused { number: small(number), line: line as u32 })
        }
    }
}

fn small(number: u64) -> u16 {
    assert!(number <= 0xffff, "no such refusal: {number}");
    number as u16
}

/// A layout of the bit pairs as it is handed over (request 04): the position, then 0 for neighbouring bits
/// or 1 for spaced ones. Any two numbers can be handed over; six pairs of them are a layout.
#[derive(Clone, Copy, Debug, PartialEq, Eq)]
pub struct Layout {
    pub position: u8,
    pub spacing: u8,
}

impl Layout {
    /// Neighbours at position 0, as the two programs print.
    pub const LOWEST: Layout = Layout::at(0, 0);

    /// The six.
    pub const ALL: [Layout; 6] = [
        Layout::LOWEST,
        Layout::at(1, 0),
        Layout::at(2, 0),
        Layout::at(0, 1),
        Layout::at(1, 1),
        Layout::at(2, 1),
    ];

    pub const fn at(position: u8, spacing: u8) -> Layout {
        Layout { position, spacing }
    }
}

/// A watch that is lent to a run (request 09): the place that it names, and what it holds of it after the run. It lies in
/// memory as the library and C have it.
#[repr(C)]
#[derive(Clone, Copy, Debug, PartialEq, Eq)]
pub struct Watch {
    /// The place in the state: 0 to 31 the registers, 32 + n cell n. Any number can be handed over; 544 of them are a place.
    pub place: u16,
    /// The place's last value.
    pub value: u8,
    /// How many writes reached it, and the step of the last one, 0 for none.
    pub writes: u16,
    pub step: u16,
}

/// The tables of request 10: of a map of nibbles, an entry for each operand; of two operands, 64 for each first one.
pub type MapTable = [u8; 64];
pub type PairTable = [u8; 4_096];

/// The set of request 11: as many words as its size says, the rest 0.
pub type WordSet = [u8; 16];

/// The twenty entry points.
pub trait Dualrail {
    /// Reads a text into stored lines.
    fn read(&self, text: &[u8], store: &mut [u16]) -> Answer;
    /// Writes a stored program as text.
    fn write(&self, program: &[u16], out: &mut [u8]) -> Answer;
    /// The mark check of a stored program.
    fn check(&self, program: &[u16]) -> Answer;
    /// Expands a stored program for images of the layout, mark check included.
    fn expand(&self, layout: Layout, program: &[u16], out: &mut [u16]) -> Answer;
    /// Makes the image of a bit state in the layout.
    fn to_image(&self, layout: Layout, bits: &[u8], image: &mut [u8]) -> Answer;
    /// Makes the bit state of an image in the layout.
    fn from_image(&self, layout: Layout, image: &[u8], bits: &mut [u8]) -> Answer;
    /// Moves an image from its old layout to a new one.
    fn move_image(&self, old: Layout, new: Layout, from: &[u8], into: &mut [u8]) -> Answer;
    /// Runs a stored program, a trace row for each step.
    fn run(&self, program: &[u16], start: u16, budget: u16, state: &mut [u8], trace: &mut [u16]) -> Answer;
    /// The same with watches lent to the run.
    fn run_watched(
        &self,
        program: &[u16],
        start: u16,
        budget: u16,
        state: &mut [u8],
        trace: &mut [u16],
        watches: &mut [Watch],
    ) -> Answer;
    /// Judges a stored program, with 17 bytes for each place: how many values it may have, and these.
    fn judge(&self, program: &[u16], sets: &[u8], budget: u16) -> Answer;
    /// Turns published text into our line form.
    fn take_in(&self, text: &[u8], out: &mut [u8]) -> Answer;
    /// Turns text in our line form into published text.
    fn send_out(&self, text: &[u8], out: &mut [u8]) -> Answer;
    /// The codeword of a nibble, 0 above 15.
    fn encode(&self, nibble: u8) -> u8;
    /// The nibble of a codeword, 255 outside the code.
    fn decode(&self, word: u8) -> u8;
    /// What the exclusive-or table gives for two operands.
    fn xor(&self, first: u8, second: u8) -> u8;
    /// Writes the exclusive-or table.
    fn xor_table(&self, table: &mut PairTable);
    /// Writes the table of a map of nibbles.
    fn map_table(&self, map: &[u8], table: &mut MapTable) -> Answer;
    /// What any table gives for an operand, and for two.
    fn look_up(&self, table: &MapTable, word: u8) -> u8;
    fn look_up_pair(&self, table: &PairTable, first: u8, second: u8) -> u8;
    /// Chooses codewords of this length, with this many ones, by the measured weights of the bits, lowest bit first.
    fn choose(&self, bits: u8, ones: u8, size: u8, weights: &[i16], set: &mut WordSet) -> Answer;
}

#[cfg(test)]
mod tests {
    use super::Answer::{self, *};
    use super::Watch;
    use std::mem::{offset_of, size_of};

    /// Eight bytes, the fields where C puts them; the byte behind the value is nobody's.
    #[test]
    fn watches_in_memory() {
        assert_eq!(size_of::<Watch>(), 8);
        let offsets = [
            offset_of!(Watch, place),
            offset_of!(Watch, value),
            offset_of!(Watch, writes),
            offset_of!(Watch, step),
        ];
        assert_eq!(offsets, [0, 2, 4, 6]);
    }

    #[test]
    fn packing() {
        assert_eq!(Answer::from_count(1_114_112), Counted(1_114_112));
        assert_eq!(Answer::from_count(7 << 32 | 32_768), Refused { number: 7, line: 32_768 });
        assert_eq!(Answer::from_count(25 << 32 | 0xffff_ffff), Refused { number: 25, line: 4_294_967_295 });
        assert_eq!(Answer::from_count(27 << 32 | 15), Refused { number: 27, line: 15 });
        assert_eq!(Answer::from_count(16), Counted(16));
        assert_eq!(Answer::from_count(28 << 32), Refused { number: 28, line: 0 });
        assert_eq!(Answer::from_count(29 << 32), Refused { number: 29, line: 0 });
        assert_eq!(Answer::from_run(3 << 16 | 2), Halted { counter: 3, steps: 2 });
        assert_eq!(Answer::from_run(1 << 32 | 65_535), Spent { counter: 0, steps: 65_535 });
        assert_eq!(Answer::from_run(20 << 48), Refused { number: 20, line: 0 });
        assert_eq!(Answer::from_run(7 << 48 | 32_768), Refused { number: 7, line: 32_768 });
        assert_eq!(Answer::from_judge(3 << 16 | 2), Balanced { counter: 3, steps: 2 });
        assert_eq!(Answer::from_judge(1 << 32 | 65_535), Spent { counter: 0, steps: 65_535 });
        assert_eq!(Answer::from_judge(2 << 32 | 9 << 16 | 4), Leak { line: 9, steps: 4 });
        assert_eq!(Answer::from_judge(22 << 48 | 7), Refused { number: 22, line: 7 });
    }
}

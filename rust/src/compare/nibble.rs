//! Request 10: the nibble engine on all operands, tables of maps that are right or refused, and look-ups in tables of
//! anything.

use super::{Comparison, Entry, NONE};
use crate::answer::{Answer, Dualrail, MapTable, PairTable};
use crate::generate::nibble as make;
use crate::generate::nibble::{Kind, Wrong};
use crate::lent::Lent;
use crate::paper::nibble::C;
use crate::paper::Paper;
use crate::random::Random;
use std::collections::{BTreeMap, BTreeSet};
use std::panic::{catch_unwind, AssertUnwindSafe};

/// The entry points of the request.
#[derive(Clone, Copy, Debug, PartialEq)]
pub enum Engine {
    Encode,
    Decode,
    Xor,
    XorTable,
    MapTable,
    LookUp,
    LookUpPair,
}

impl Engine {
    pub const ALL: [Engine; 7] = [
        Engine::Encode,
        Engine::Decode,
        Engine::Xor,
        Engine::XorTable,
        Engine::MapTable,
        Engine::LookUp,
        Engine::LookUpPair,
    ];
}

/// What a table that is looked up in is: of a map, of a refused one, of anything.
#[derive(Clone, Copy)]
enum Of {
    Map,
    Refused,
    Anything,
}

/// What has been tried.
#[derive(Clone, Default)]
pub struct Nibbles {
    /// Calls, by entry point; how often all operands came.
    pub calls: [u64; Engine::ALL.len()],
    pub whole: u64,
    /// Pairs by what the first operand is and the second: a codeword, another number to 63, one above; of the exclusive-or
    /// table, of tables of anything.
    pub pairs: [[[u64; 3]; 3]; 2],
    /// So the operands of maps' tables, of those after a refusal, of tables of anything.
    pub words: [[u64; 3]; 3],
    /// Tables made, by the kind of the map; maps followed by another; those compared with a row of the exclusive or.
    pub kinds: [u64; Kind::ALL.len()],
    pub followed: u64,
    pub rows: u64,
    /// Refusals by what is wrong; for a value, by its index; for the length, by that.
    pub wrong: [u64; Wrong::ALL.len()],
    pub at: [u64; 16],
    pub lengths: BTreeMap<usize, u64>,
    /// Refusals for a value that a larger wrong one follows, a smaller one; for the last value alone; for 16, for 255.
    pub several: [u64; 2],
    pub last_alone: u64,
    pub nearest: [u64; 2],
    /// Refusals at index 0 of maps that are too long or short, and whose first wrong value is at another index.
    pub elsewhere: u64,
}

/// What an operand is: 0 a codeword, 1 another number to 63, 2 one above.
fn sort(word: u8) -> usize {
    match word {
        _ if C.contains(&word) => 0,
        0..=63 => 1,
        _ => 2,
    }
}

impl Nibbles {
    /// Counts a map that was refused.
    fn add_refusal(&mut self, map: &[u8], wrong: Wrong) {
        self.wrong[wrong as usize] += 1;
        let values: Vec<usize> = (0..map.len()).filter(|&at| map[at] > 15).collect();
        match (wrong, values.first()) {
            (Wrong::Value, Some(&first)) => self.add_value(map, first),
            (_, Some(&first)) => self.elsewhere += (first > 0) as u64,
            _ => *self.lengths.entry(map.len()).or_default() += 1,
        }
    }

    /// Counts one of 16 values, the first wrong one at this index.
    fn add_value(&mut self, map: &[u8], first: usize) {
        let (value, later) = (map[first], &map[first + 1..]);
        self.at[first] += 1;
        self.several[0] += later.iter().any(|&other| other > value) as u64;
        self.several[1] += later.iter().any(|&other| other > 15 && other < value) as u64;
        self.last_alone += (first == 15) as u64;
        self.nearest[0] += (value == 16) as u64;
        self.nearest[1] += (value == 255) as u64;
    }

    pub fn show(&self) -> String {
        let mut shown = "\nnibble engine:".to_string();
        for entry in Engine::ALL {
            shown += &format!(" {entry:?} {}", self.calls[entry as usize]);
        }
        shown += &format!(
            "; all operands: {} times; pairs by codewords, others to 63, above: {:?}, in tables of anything: {:?}",
            self.whole, self.pairs[0], self.pairs[1]
        );
        shown += &format!(
            "\nso the operands of maps' tables, refused ones, tables of anything: {:?}; maps by kind: {:?}, followed: {}, rows: {}",
            self.words, self.kinds, self.followed, self.rows
        );
        shown += &format!(
            "\n27 for the length, a value, both: {:?}; by index: {:?}; by length: {:?}",
            self.wrong, self.at, self.lengths
        );
        shown
            + &format!(
                "; before a larger value, a smaller one: {:?}, for the last alone: {}, for 16, for 255: {:?}, at 0 with a value elsewhere: {}",
                self.several, self.last_alone, self.nearest, self.elsewhere
            )
    }
}

/// A report unless this holds.
fn must(holds: bool, what: impl FnOnce() -> String) -> Result<(), String> {
    if holds {
        return Ok(());
    }
    Err(what() + "\n")
}

/// The lent memory as a table of its type.
fn table<const N: usize>(lent: &Lent<u8>) -> &[u8; N] {
    lent.part().try_into().expect("a table")
}

impl Comparison<'_> {
    /// A map and its table, maps that are refused, tables of anything; now and then all operands.
    pub(super) fn nibbles(&mut self) -> Result<(), String> {
        self.right_map()?;
        for wrong in Wrong::ALL {
            self.wrong_map(wrong)?;
        }
        self.tables_of_anything()?;
        if self.rng.one_in(8) {
            self.all_operands()?;
        }
        Ok(())
    }

    // ------------------------------------------------------------ calls

    /// A call that gives a byte, on both.
    fn byte(
        &mut self,
        entry: Engine,
        operands: &[u8],
        call: impl Fn(&dyn Dualrail) -> u8,
    ) -> Result<u8, String> {
        let wanted = call(&Paper);
        let got = catch_unwind(AssertUnwindSafe(|| call(self.tested)));
        self.counts.nibbles.calls[entry as usize] += 1;
        match got {
            Ok(got) if got == wanted => Ok(got),
            Ok(got) => Err(format!("{entry:?} of {operands:?}: {got} instead of {wanted}\n")),
            Err(_) => Err(format!("{entry:?} of {operands:?}: panic instead of {wanted}\n")),
        }
    }

    fn xor(&mut self, first: u8, second: u8) -> Result<u8, String> {
        self.byte(Engine::Xor, &[first, second], |on| on.xor(first, second))
    }

    fn xor_table(&mut self) -> Result<PairTable, String> {
        let before = self.some_bytes(size_of::<PairTable>());
        let mut got = Lent::new(&mut self.rng, &before, Random::byte);
        let mut wanted = got.clone();
        let write = |on: &dyn Dualrail, lent: &mut Lent<u8>| {
            on.xor_table(lent.part_mut().try_into().expect("a table"));
        };
        write(&Paper, &mut wanted);
        let done = catch_unwind(AssertUnwindSafe(|| write(self.tested, &mut got)));
        self.counts.nibbles.calls[Engine::XorTable as usize] += 1;
        must(done.is_ok(), || "XorTable: panic".to_string())?;
        must(got == wanted, || got.differs(&wanted, "exclusive-or table"))?;
        Ok(*table(&got))
    }

    /// The table of a map, written over anything.
    fn map_table(&mut self, map: &[u8]) -> Result<(Answer, MapTable), String> {
        let lent = self.some_bytes(size_of::<MapTable>());
        let (answer, call) = self.call(Entry::MapTable, NONE, (map, &[]), (&lent, &[]))?;
        self.counts.nibbles.calls[Engine::MapTable as usize] += 1;
        Ok((answer, *table(&call.lent_bytes)))
    }

    /// What a table gives for each operand. It stays as it is.
    fn look_ups(&mut self, entries: &MapTable, of: Of) -> Result<Vec<u8>, String> {
        let lent = Lent::new(&mut self.rng, entries, Random::byte);
        let before = lent.clone();
        let mut results = vec![];
        for word in 0..=255 {
            let result = self.byte(Engine::LookUp, &[word], |on| on.look_up(table(&lent), word));
            results.push(result.map_err(|report| report + &before.show("table"))?);
            self.counts.nibbles.words[of as usize][sort(word)] += 1;
        }
        must(lent == before, || lent.differs(&before, "table changed"))?;
        Ok(results)
    }

    /// What a table gives for these operands, one pair after the other. It stays as it is.
    fn look_up_pairs(
        &mut self,
        entries: &PairTable,
        pairs: impl Iterator<Item = (u8, u8)>,
    ) -> Result<Vec<u8>, String> {
        let lent = Lent::new(&mut self.rng, entries, Random::byte);
        let before = lent.clone();
        let mut results = vec![];
        for (first, second) in pairs {
            let call = |on: &dyn Dualrail| on.look_up_pair(table(&lent), first, second);
            let result = self.byte(Engine::LookUpPair, &[first, second], call);
            results.push(result.map_err(|report| report + &before.show("table"))?);
        }
        must(lent == before, || lent.differs(&before, "table changed"))?;
        Ok(results)
    }

    // ------------------------------------------------------------ all operands

    /// Every byte and every pair of bytes, of the exclusive or and of its table alike.
    fn all_operands(&mut self) -> Result<(), String> {
        for number in 0..=255 {
            self.coding(number)?;
        }
        let table = self.xor_table()?;
        let pairs = (0..=255).flat_map(|first| (0..=255).map(move |second| (first, second)));
        let results = self.look_up_pairs(&table, pairs.clone())?;
        for ((first, second), result) in pairs.zip(results) {
            let direct = self.xor(first, second)?;
            must(result == direct, || format!("{first}, {second}: {result} by the table, {direct} without"))?;
            must(self.is_sum(first, second, result), || format!("{first}, {second} give {result}"))?;
            self.counts.nibbles.pairs[0][sort(first)][sort(second)] += 1;
        }
        self.equal_weights(&table)?;
        self.counts.nibbles.whole += 1;
        Ok(())
    }

    /// Coding and decoding of a number: each undoes the other where it can.
    fn coding(&mut self, number: u8) -> Result<(), String> {
        let word = self.byte(Engine::Encode, &[number], |on| on.encode(number))?;
        let nibble = self.byte(Engine::Decode, &[number], |on| on.decode(number))?;
        let (encoded, decoded) = (self.tested.encode(nibble), self.tested.decode(word));
        let right = match number {
            0..=15 => word.count_ones() == 3 && decoded == number,
            _ => word == 0 && decoded == 255,
        };
        must(right, || format!("{number} is encoded as {word}, which is decoded as {decoded}"))?;
        let right = match nibble {
            0..=15 => encoded == number,
            _ => nibble == 255 && encoded == 0,
        };
        must(right, || format!("{number} is decoded as {nibble}, which is encoded as {encoded}"))
    }

    /// "0 exactly for an operand outside the code", else three ones, the codeword of the sum.
    fn is_sum(&self, first: u8, second: u8, result: u8) -> bool {
        match (self.tested.decode(first), self.tested.decode(second)) {
            (255, _) | (_, 255) => result == 0,
            (a, b) => result.count_ones() == 3 && self.tested.decode(result) == a ^ b,
        }
    }

    /// The Hamming weight of the index, and that of the result, is the same for all pairs of nibbles.
    fn equal_weights(&mut self, table: &PairTable) -> Result<(), String> {
        let words: Vec<usize> = (0..16).map(|nibble| self.tested.encode(nibble) as usize).collect();
        let indices = words.iter().flat_map(|first| words.iter().map(move |second| 64 * first + second));
        let weights: BTreeSet<(u32, u32)> =
            indices.map(|index| (index.count_ones(), table[index].count_ones())).collect();
        must(weights == BTreeSet::from([(6, 3)]), || format!("Hamming weights {weights:?}"))
    }

    // ------------------------------------------------------------ maps

    /// A right map: its table, and what that gives.
    fn right_map(&mut self) -> Result<(), String> {
        let kind = self.rng.pick(&Kind::ALL);
        let map = make::map(&mut self.rng, kind);
        let (answer, table) = self.map_table(&map)?;
        must(answer == Answer::Counted(64), || format!("{answer:?} for {map:?}"))?;
        let results = self.look_ups(&table, Of::Map)?;
        for (word, &result) in (0..=255).zip(&results) {
            must(self.is_mapped(&map, word, result), || format!("{map:?} gives {result} for {word}"))?;
        }
        self.counts.nibbles.kinds[kind as usize] += 1;
        self.followed(&map, &results)?;
        if kind == Kind::Sum {
            self.row_of_xor(map[0], &results)?;
        }
        Ok(())
    }

    /// "0 exactly for an operand outside the code", else three ones, the codeword of the map's value.
    fn is_mapped(&self, map: &[u8], word: u8, result: u8) -> bool {
        match self.tested.decode(word) {
            255 => result == 0,
            a => result.count_ones() == 3 && map.get(a as usize) == Some(&self.tested.decode(result)),
        }
    }

    /// The tables of two maps, one after the other, are the table of both.
    fn followed(&mut self, map: &[u8], results: &[u8]) -> Result<(), String> {
        let next = make::map(&mut self.rng, Kind::Any);
        let both: Vec<u8> = map.iter().map(|&value| next[value as usize]).collect();
        let [next_table, both_table] = [self.map_table(&next)?.1, self.map_table(&both)?.1];
        let [next_results, both_results] =
            [self.look_ups(&next_table, Of::Map)?, self.look_ups(&both_table, Of::Map)?];
        let after: Vec<u8> = results.iter().map(|&result| next_results[result as usize]).collect();
        must(after == both_results, || format!("{map:?}, then {next:?}: {after:?}"))?;
        self.counts.nibbles.followed += 1;
        Ok(())
    }

    /// The exclusive or with one nibble is a map, whichever half the nibble is.
    fn row_of_xor(&mut self, nibble: u8, results: &[u8]) -> Result<(), String> {
        let codeword = self.tested.encode(nibble);
        for (word, &result) in (0..=255).zip(results) {
            let same = self.xor(codeword, word)? == result && self.xor(word, codeword)? == result;
            must(same, || format!("exclusive or of {word} with {nibble}: {result} as a map"))?;
        }
        self.counts.nibbles.rows += 1;
        Ok(())
    }

    /// A map that is refused leaves a table that gives 0 for everything.
    fn wrong_map(&mut self, wrong: Wrong) -> Result<(), String> {
        let map = make::wrong_map(&mut self.rng, wrong);
        let (answer, table) = self.map_table(&map)?;
        let refused = matches!(answer, Answer::Refused { number: 27, .. });
        must(refused && table == [0; 64], || format!("{answer:?} for {map:?}, {table:?}"))?;
        let results = self.look_ups(&table, Of::Refused)?;
        must(results == [0; 256], || format!("{results:?} after a refusal"))?;
        self.counts.nibbles.add_refusal(&map, wrong);
        Ok(())
    }

    // ------------------------------------------------------------ tables of anything

    /// Look-ups in tables that are nobody's, at all operands, and at some pairs of them.
    fn tables_of_anything(&mut self) -> Result<(), String> {
        let mut entries: MapTable = [0; 64];
        entries.fill_with(|| self.rng.byte());
        self.look_ups(&entries, Of::Anything)?;
        let mut entries: PairTable = [0; 4_096];
        entries.fill_with(|| self.rng.byte());
        let mut pairs = vec![(0, 0), (63, 63), (63, 64), (64, 0), (0, 64), (255, 255)];
        pairs.extend((0..60).map(|_| (make::operand(&mut self.rng), make::operand(&mut self.rng))));
        for &(first, second) in &pairs {
            self.counts.nibbles.pairs[1][sort(first)][sort(second)] += 1;
        }
        self.look_up_pairs(&entries, pairs.into_iter())?;
        Ok(())
    }
}

//! Request 10 of document 02, the nibble engine, from the paper alone like the rest, in
//! the order of its paragraph; words in quotes are its own. A table is made entry by
//! entry, each from its own index, so that cleared memory filled at the codewords, which
//! must give the same, is another way.

use super::refused;
use crate::answer::{Answer, MapTable, PairTable};
use std::array::from_fn;

/// "C of 0 to 15 is".
pub const C: [u8; 16] = [7, 11, 13, 14, 19, 21, 22, 25, 26, 28, 35, 37, 38, 41, 42, 44];

/// Which nibble has this codeword; none has what is "outside the code".
fn nibble(word: u8) -> Option<usize> {
    C.iter().position(|&codeword| codeword == word)
}

/// "C(a xor b), or 0 with a wrong half"; a half is wrong that is no codeword, "any above 63 included".
pub(super) fn xor(first: u8, second: u8) -> u8 {
    match (nibble(first), nibble(second)) {
        (Some(a), Some(b)) => C[a ^ b],
        _ => 0,
    }
}

/// "The exclusive-or table has 4,096 entries at 64 × C(a) + C(b)".
pub(super) fn xor_table() -> PairTable {
    from_fn(|index| xor((index / 64) as u8, (index % 64) as u8))
}

/// "coding (0 above 15)".
pub(super) fn encode(nibble: u8) -> u8 {
    C.get(nibble as usize).copied().unwrap_or(0)
}

/// "decoding (255 outside the code)".
pub(super) fn decode(word: u8) -> u8 {
    nibble(word).map_or(255, |nibble| nibble as u8)
}

/// Where a map is refused: "not of 16 values, at index 0, else the first value above 15, at its index".
fn wrong_at(map: &[u8]) -> Option<usize> {
    if map.len() != 16 {
        return Some(0);
    }
    map.iter().position(|&value| value > 15)
}

/// "a 64-entry table, handed back by value, C(m(a)) at C(a), for any map m of nibbles".
pub(super) fn map_table(map: &[u8], table: &mut MapTable) -> Answer {
    if let Some(index) = wrong_at(map) {
        // "0 .. after a refusal in all"
        *table = [0; 64];
        return refused(27, index);
    }
    // "0 in unused entries"
    *table = from_fn(|index| nibble(index as u8).map_or(0, |a| C[map[a] as usize]));
    Answer::Counted(64)
}

/// "a table's result is 0 .. for an operand .. above 63"; for any other it is the entry.
pub(super) fn look_up(table: &MapTable, word: u8) -> u8 {
    table.get(word as usize).copied().unwrap_or(0)
}

/// The same of two operands; a first one has 64 entries, the second one says which.
pub(super) fn look_up_pair(table: &PairTable, first: u8, second: u8) -> u8 {
    let entries = table.chunks(64).nth(first as usize).unwrap_or(&[]);
    entries.get(second as usize).copied().unwrap_or(0)
}

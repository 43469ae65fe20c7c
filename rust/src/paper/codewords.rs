//! Request 11 of document 02, codewords from measured bits, from the paper alone like the
//! rest, in the order of its paragraph; words in quotes are its own. All words are ranked
//! and every run of them is gone over, so that a set found any other way is another way.

use super::refused;
use crate::answer::{Answer, WordSet};

/// "a length of 4 to 8, 0 to 8 ones, a size of 2, 4, 8 or 16 and a weight per bit from -1000 to 1000".
fn within(bits: u8, ones: u8, size: u8, weights: &[i16]) -> bool {
    (4..=8).contains(&bits)
        && (0..=8).contains(&ones)
        && [2, 4, 8, 16].contains(&size)
        && weights.len() == bits as usize
        && weights.iter().all(|weight| (-1000..=1000).contains(weight))
}

/// "a word's signal is the sum of the weights of its one bits", a weight per bit, "lowest bit first".
pub fn signal(word: u8, weights: &[i16]) -> i32 {
    let is_one = |bit: usize| word >> bit & 1 == 1;
    (0..weights.len()).filter(|&bit| is_one(bit)).map(|bit| weights[bit] as i32).sum()
}

/// "all words with that many ones", of this length.
pub fn words(bits: u8, ones: u8) -> Vec<u8> {
    let length = 1u16 << bits;
    let words = (0..length).map(|word| word as u8);
    words.filter(|word| word.count_ones() == ones as u32).collect()
}

/// "Words are ranked by signal, then value".
pub fn ranked(bits: u8, ones: u8, weights: &[i16]) -> Vec<u8> {
    let mut words = words(bits, ones);
    words.sort_by_key(|&word| (signal(word, weights), word));
    words
}

/// "largest less smallest signal".
pub fn spread(set: &[u8], weights: &[i16]) -> i32 {
    let signals = || set.iter().map(|&word| signal(word, weights));
    signals().max().unwrap_or(0) - signals().min().unwrap_or(0)
}

/// "the set is a run in that ranking; the lowest run wins a tie": of several that are least, the first is given.
fn least_run<'a>(ranked: &'a [u8], size: u8, weights: &[i16]) -> Option<&'a [u8]> {
    ranked.windows(size as usize).min_by_key(|run| spread(run, weights))
}

/// "a set of that size .. whose largest less smallest signal is least among all such sets", "handed back by value in
/// ranked order".
pub(super) fn choose(bits: u8, ones: u8, size: u8, weights: &[i16], set: &mut WordSet) -> Answer {
    // Request 10: "0 in unused entries, after a refusal in all"
    *set = [0; 16];
    // "28 inputs outside these ranges or another count of weights", "at 0"
    if !within(bits, ones, size, weights) {
        return refused(28, 0);
    }
    // "29 fewer words than the size, after 28", "at 0"; then there is no run.
    let ranked = ranked(bits, ones, weights);
    let Some(run) = least_run(&ranked, size, weights) else {
        return refused(29, 0);
    };
    set[..run.len()].copy_from_slice(run);
    Answer::Counted(size as u32)
}

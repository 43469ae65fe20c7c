//! Request 11: sets chosen by another rule or handed back otherwise, and inputs refused wrongly.

use super::*;
use dualrail::paper::codewords::{ranked, signal, spread, words};
use dualrail::WordSet;

pub type Choose = fn(Handed, &mut WordSet) -> Answer;

/// What is handed over.
#[derive(Clone, Copy)]
pub struct Handed<'a> {
    pub bits: u8,
    pub ones: u8,
    pub size: u8,
    pub weights: &'a [i16],
}

impl Handed<'_> {
    /// As the paper chooses.
    pub fn chosen(self, set: &mut WordSet) -> Answer {
        Paper.choose(self.bits, self.ones, self.size, self.weights, set)
    }
}

type Within = fn(Handed) -> bool;
type Words = fn(u8, u8) -> Vec<u8>;
type Signal = fn(u8, &[i16]) -> i64;
type Key = fn(i64, u8) -> (i64, i64);
type Starts = fn(usize, usize) -> Vec<usize>;
/// By all signals in ranked order, the run's start and its size.
type Measure = fn(&[i64], usize, usize) -> i64;
type Better = fn(i64, i64) -> bool;
type Order = fn(&mut [u8]);
type TooFew = fn(usize, usize) -> bool;

/// The rules by which a set is chosen.
#[derive(Clone, Copy)]
pub struct Choosing {
    /// What is not refused with 28.
    within: Within,
    /// The words of a length with so many ones.
    words: Words,
    signal: Signal,
    /// What words are ranked by: their signal and value.
    key: Key,
    /// Whether so many words are too few for a size.
    too_few: TooFew,
    /// Where runs start, by how many words there are and the size.
    starts: Starts,
    /// What is to be least, and whether it is better than the best so far.
    measure: Measure,
    better: Better,
    /// How a chosen run is handed back.
    order: Order,
}

/// The right ones.
pub const CHOOSING: Choosing = Choosing {
    within: |handed| in_ranges(handed, 4..=8, 0..=8, &[2, 4, 8, 16]) && right_weights(handed),
    words,
    signal: |word, weights| signal(word, weights) as i64,
    key: |signal, word| (signal, word as i64),
    too_few: |count, size| count < size,
    starts: |count, size| (0..=count - size).collect(),
    measure: |signals, start, size| signals[start + size - 1] - signals[start],
    better: |new, best| new < best,
    order: |_| (),
};

fn in_ranges(handed: Handed, bits: RangeInclusive<u8>, ones: RangeInclusive<u8>, sizes: &[u8]) -> bool {
    bits.contains(&handed.bits) && ones.contains(&handed.ones) && sizes.contains(&handed.size)
}

fn right_weights(handed: Handed) -> bool {
    handed.weights.len() == handed.bits as usize && all_weights(handed, |weight| right_weight(*weight))
}

fn right_weight(weight: i16) -> bool {
    (-1000..=1000).contains(&weight)
}

fn all_weights(handed: Handed, right: fn(&i16) -> bool) -> bool {
    handed.weights.iter().all(right)
}

/// Chooses by these rules. Where they let more pass, what there is of words is taken, and what there is room for.
pub fn chosen_by(rules: &Choosing, handed: Handed, set: &mut WordSet) -> Answer {
    set.fill(0);
    if !(rules.within)(handed) {
        return refused(28);
    }
    let mut words = (rules.words)(handed.bits, handed.ones);
    if (rules.too_few)(words.len(), handed.size as usize) {
        return refused(29);
    }
    let signal = |word| (rules.signal)(word, handed.weights);
    words.sort_by_key(|&word| (rules.key)(signal(word), word));
    let signals: Vec<i64> = words.iter().map(|&word| signal(word)).collect();
    let size = (handed.size as usize).min(words.len()).min(16);
    if size > 0 {
        let start = best_start(rules, &signals, size);
        set[..size].copy_from_slice(&words[start..start + size]);
        (rules.order)(&mut set[..size]);
    }
    Counted(handed.size as u32)
}

/// The start of the best run, 0 if none is looked at.
fn best_start(rules: &Choosing, signals: &[i64], size: usize) -> usize {
    let mut best = None;
    for start in (rules.starts)(signals.len(), size) {
        let new = (rules.measure)(signals, start, size);
        if best.is_none_or(|(measure, _)| (rules.better)(new, measure)) {
            best = Some((new, start));
        }
    }
    best.map_or(0, |(_, start)| start)
}

/// All of them, with their names.
pub fn variants() -> Vec<(String, Variant)> {
    let by = |of: &str, fault: &'static str, choosing: Choosing| {
        (format!("{of}: {fault}"), Variant { fault, choosing: Some(choosing), ..RIGHT })
    };
    let ranges = RANGES.map(|(fault, within)| by("ranges", fault, Choosing { within, ..CHOOSING }));
    let words = WORDS.map(|(fault, words)| by("words", fault, Choosing { words, ..CHOOSING }));
    let signals = SIGNALS.map(|(fault, signal)| by("signals", fault, Choosing { signal, ..CHOOSING }));
    let keys = KEYS.map(|(fault, key)| by("ranking", fault, Choosing { key, ..CHOOSING }));
    let too_few =
        TOO_FEW.map(|(fault, too_few)| by("too few words", fault, Choosing { too_few, ..CHOOSING }));
    let starts = STARTS.map(|(fault, starts)| by("runs", fault, Choosing { starts, ..CHOOSING }));
    let measures = MEASURES.map(|(fault, measure)| by("spread", fault, Choosing { measure, ..CHOOSING }));
    let better = BETTER.map(|(fault, better)| by("ties", fault, Choosing { better, ..CHOOSING }));
    let orders = ORDERS.map(|(fault, order)| by("order", fault, Choosing { order, ..CHOOSING }));
    let whole = OTHERWISE.into_iter().chain(REFUSED).chain(LEFT).chain(COUNTED);
    let whole =
        whole.map(|(fault, choose)| (format!("codewords: {fault}"), Variant { fault, choose, ..RIGHT }));
    let lists = ranges.into_iter().chain(words).chain(signals).chain(keys).chain(too_few).chain(starts);
    lists.chain(measures).chain(better).chain(orders).chain(whole).collect()
}

// ---------------------------------------------------------------- ranges

const FOUR: &[u8] = &[2, 4, 8, 16];

/// Sizes by another rule.
fn by_size(handed: Handed, right: fn(u8) -> bool) -> bool {
    in_ranges(Handed { size: 2, ..handed }, 4..=8, 0..=8, FOUR) && right(handed.size) && right_weights(handed)
}

/// Each weight by another rule.
fn by_weight(handed: Handed, right: fn(&i16) -> bool) -> bool {
    let counted = handed.weights.len() == handed.bits as usize;
    in_ranges(handed, 4..=8, 0..=8, FOUR) && counted && all_weights(handed, right)
}

/// Another rule for which weights are looked at; there are at least four.
fn by_weights(handed: Handed, looked_at: fn(&[i16]) -> &[i16]) -> bool {
    let counted = handed.weights.len() == handed.bits as usize;
    let in_ranges = in_ranges(handed, 4..=8, 0..=8, FOUR);
    in_ranges && counted && looked_at(handed.weights).iter().all(|&weight| right_weight(weight))
}

/// The count of weights by another rule, by the length and their count; those that there are must be right.
fn by_count(handed: Handed, right: fn(usize, usize) -> bool) -> bool {
    let counted = right(handed.bits as usize, handed.weights.len());
    in_ranges(handed, 4..=8, 0..=8, FOUR) && counted && all_weights(handed, |weight| right_weight(*weight))
}

/// What is right too, though it is outside.
fn or(handed: Handed, also: bool) -> bool {
    also || (CHOOSING.within)(handed)
}

/// What is outside too, though it is right.
fn and(handed: Handed, also: bool) -> bool {
    also && (CHOOSING.within)(handed)
}

const RANGES: [(&str, Within); 64] = [
    ("3 bits pass", |handed| in_ranges(handed, 3..=8, 0..=8, FOUR) && right_weights(handed)),
    ("4 bits refused", |handed| in_ranges(handed, 5..=8, 0..=8, FOUR) && right_weights(handed)),
    ("9 bits pass", |handed| in_ranges(handed, 4..=9, 0..=8, FOUR) && right_weights(handed)),
    ("8 bits refused", |handed| in_ranges(handed, 4..=7, 0..=8, FOUR) && right_weights(handed)),
    ("fewer bits pass", |handed| in_ranges(handed, 0..=8, 0..=8, FOUR) && right_weights(handed)),
    ("no bits pass", |handed| or(handed, handed.bits == 0 && CHOOSING_ONES.contains(&handed.ones))),
    ("255 bits pass", |handed| or(handed, handed.bits == 255 && CHOOSING_ONES.contains(&handed.ones))),
    ("odd lengths refused", |handed| and(handed, handed.bits % 2 == 0)),
    ("6 bits refused", |handed| and(handed, handed.bits != 6)),
    ("bits cut to four bits", |handed| {
        in_ranges(Handed { bits: handed.bits % 16, ..handed }, 4..=8, 0..=8, FOUR) && right_weights(handed)
    }),
    ("bits without the highest one", |handed| {
        in_ranges(Handed { bits: handed.bits % 128, ..handed }, 4..=8, 0..=8, FOUR) && right_weights(handed)
    }),
    ("any length passes", |handed| in_ranges(handed, 0..=255, 0..=8, FOUR) && right_weights(handed)),
    ("9 ones pass", |handed| in_ranges(handed, 4..=8, 0..=9, FOUR) && right_weights(handed)),
    ("8 ones refused", |handed| in_ranges(handed, 4..=8, 0..=7, FOUR) && right_weights(handed)),
    ("no ones refused", |handed| in_ranges(handed, 4..=8, 1..=8, FOUR) && right_weights(handed)),
    ("any ones pass", |handed| in_ranges(handed, 4..=8, 0..=255, FOUR) && right_weights(handed)),
    ("ones cut to four bits", |handed| and_ones(handed, handed.ones % 16)),
    ("ones without the highest bit", |handed| and_ones(handed, handed.ones % 128)),
    ("ones with a sign", |handed| and_ones(handed, (handed.ones as i8).max(0) as u8)),
    ("255 ones pass", |handed| and_ones(handed, if handed.ones == 255 { 0 } else { handed.ones })),
    ("as many ones as bits refused", |handed| and(handed, handed.ones != handed.bits)),
    ("more ones than bits refused", |handed| and(handed, handed.ones <= handed.bits)),
    ("one more one than bits refused", |handed| and(handed, handed.ones != handed.bits + 1)),
    ("a size of 0 passes", |handed| by_size(handed, |size| size == 0 || FOUR.contains(&size))),
    ("a size of 1 passes", |handed| by_size(handed, |size| size == 1 || FOUR.contains(&size))),
    ("a size of 3 passes", |handed| by_size(handed, |size| size == 3 || FOUR.contains(&size))),
    ("a size of 15 passes", |handed| by_size(handed, |size| size == 15 || FOUR.contains(&size))),
    ("a size of 17 passes", |handed| by_size(handed, |size| size == 17 || FOUR.contains(&size))),
    ("a size of 32 passes", |handed| by_size(handed, |size| size == 32 || FOUR.contains(&size))),
    ("a size of 255 passes", |handed| by_size(handed, |size| size == 255 || FOUR.contains(&size))),
    ("a size of 2 refused", |handed| by_size(handed, |size| [4, 8, 16].contains(&size))),
    ("a size of 4 refused", |handed| by_size(handed, |size| [2, 8, 16].contains(&size))),
    ("a size of 8 refused", |handed| by_size(handed, |size| [2, 4, 16].contains(&size))),
    ("a size of 16 refused", |handed| by_size(handed, |size| [2, 4, 8].contains(&size))),
    ("any size to 16 passes", |handed| by_size(handed, |size| (2..=16).contains(&size))),
    ("any even size passes", |handed| by_size(handed, |size| size % 2 == 0 && (2..=16).contains(&size))),
    ("any multiple of four passes", |handed| {
        by_size(handed, |size| size == 2 || size % 4 == 0 && (4..=16).contains(&size))
    }),
    ("any power of two passes", |handed| by_size(handed, |size| size > 1 && size.is_power_of_two())),
    ("sizes without the highest bit", |handed| by_size(handed, |size| FOUR.contains(&(size % 128)))),
    ("any size passes", |handed| by_size(handed, |_| true)),
    ("1001 passes", |handed| by_weight(handed, |weight| (-1000..=1001).contains(weight))),
    ("-1001 passes", |handed| by_weight(handed, |weight| (-1001..=1000).contains(weight))),
    ("1000 refused", |handed| by_weight(handed, |weight| (-1000..=999).contains(weight))),
    ("-1000 refused", |handed| by_weight(handed, |weight| (-999..=1000).contains(weight))),
    ("0 refused", |handed| by_weight(handed, |weight| *weight != 0 && right_weight(*weight))),
    ("1023 passes", |handed| by_weight(handed, |weight| (-1024..=1023).contains(weight))),
    ("negative weights refused", |handed| by_weight(handed, |weight| (0..=1000).contains(weight))),
    ("any negative weight passes", |handed| by_weight(handed, |weight| *weight <= 1000)),
    ("any positive weight passes", |handed| by_weight(handed, |weight| *weight >= -1000)),
    ("the smallest weight passes", |handed| by_weight(handed, |weight| weight.wrapping_abs() <= 1000)),
    ("the largest weight passes", |handed| {
        by_weight(handed, |weight| right_weight(*weight) || *weight == i16::MAX)
    }),
    ("any weight passes", |handed| by_weight(handed, |_| true)),
    ("the first weight not looked at", |handed| by_weights(handed, |weights| &weights[1..])),
    ("the last weight not looked at", |handed| by_weights(handed, |weights| &weights[..weights.len() - 1])),
    ("the first weight alone looked at", |handed| by_weights(handed, |weights| &weights[..1])),
    ("four weights looked at", |handed| by_weights(handed, |weights| &weights[..4])),
    ("seven weights looked at", |handed| by_weights(handed, |weights| &weights[..weights.len().min(7)])),
    ("more weights pass", |handed| by_count(handed, |bits, count| count >= bits)),
    ("fewer weights pass", |handed| by_count(handed, |bits, count| count <= bits)),
    ("one weight more passes", |handed| by_count(handed, |bits, count| count == bits || count == bits + 1)),
    ("one weight less passes", |handed| by_count(handed, |bits, count| count == bits || count == bits - 1)),
    ("no weights pass", |handed| by_count(handed, |bits, count| count == bits || count == 0)),
    ("counts modulo 256", |handed| by_count(handed, |bits, count| count % 256 == bits)),
    ("counts modulo 65,536", |handed| by_count(handed, |bits, count| count % 65_536 == bits)),
];

/// The ones that are in their range.
const CHOOSING_ONES: RangeInclusive<u8> = 0..=8;

/// The ones taken for others.
fn and_ones(handed: Handed, ones: u8) -> bool {
    (CHOOSING.within)(Handed { ones, ..handed })
}

// ---------------------------------------------------------------- words and signals

/// The words of a length that pass.
fn words_that(bits: u8, pass: impl Fn(u8) -> bool) -> Vec<u8> {
    (0..=255u8).filter(|&word| (word as u32) < 1u32 << bits.min(8) && pass(word)).collect()
}

const WORDS: [(&str, Words); 16] = [
    ("at least so many ones", |bits, ones| words_that(bits, |word| word.count_ones() >= ones as u32)),
    ("at most so many ones", |bits, ones| words_that(bits, |word| word.count_ones() <= ones as u32)),
    ("so many zeros", |bits, ones| words_that(bits, |word| word.count_ones() + ones as u32 == bits as u32)),
    ("one more one", |bits, ones| words(bits, ones + 1)),
    ("one one less", |bits, ones| words(bits, ones.saturating_sub(1))),
    ("the ones of seven bits", |bits, ones| {
        words_that(bits, |word| (word & 127).count_ones() == ones as u32)
    }),
    ("any words", |bits, _| words_that(bits, |_| true)),
    ("words of eight bits always", |_, ones| words(8, ones)),
    ("words of one bit less", |bits, ones| words(bits - 1, ones)),
    ("words of one bit more", |bits, ones| words_that(bits + 1, |word| word.count_ones() == ones as u32)),
    ("the lowest word left out", |bits, ones| words(bits, ones).into_iter().skip(1).collect()),
    ("the highest word left out", |bits, ones| {
        let mut words = words(bits, ones);
        words.pop();
        words
    }),
    ("64 words at most", |bits, ones| words(bits, ones).into_iter().take(64).collect()),
    ("32 words at most", |bits, ones| words(bits, ones).into_iter().take(32).collect()),
    ("a word twice", |bits, ones| {
        let words = words(bits, ones);
        let first = words.first().copied();
        words.into_iter().chain(first).collect()
    }),
    ("one of a word and its complement", |bits, ones| {
        words_that(bits, |word| word.count_ones() == ones as u32 && (word & 1 == 0 || 2 * ones != bits))
    }),
];

/// A signal made of other weights, by the bit and the weights.
fn signal_of(word: u8, weights: &[i16], weight: impl Fn(usize) -> i64) -> i64 {
    (0..weights.len().min(8)).filter(|bit| word >> bit & 1 == 1).map(weight).sum()
}

/// The right signal.
fn right_signal(word: u8, weights: &[i16]) -> i64 {
    signal(word, weights) as i64
}

/// A number as a sign and so many bits hold it.
fn cut(number: i64, bits: u32) -> i64 {
    number << (64 - bits) >> (64 - bits)
}

/// Not among them are signals all raised or multiplied alike, and so neither one bits less zero bits: the set stays.
const SIGNALS: [(&str, Signal); 27] = [
    ("weights highest bit first", |word, weights| {
        signal_of(word, weights, |bit| weights[weights.len() - 1 - bit] as i64)
    }),
    ("weights highest of eight bits first", |word, weights| {
        signal_of(word, weights, |bit| weights.get(7 - bit).copied().unwrap_or(0) as i64)
    }),
    ("weights one bit further", |word, weights| {
        signal_of(word, weights, |bit| weights[(bit + 1) % weights.len()] as i64)
    }),
    ("absolute weights", |word, weights| signal_of(word, weights, |bit| weights[bit].unsigned_abs() as i64)),
    ("absolute signals", |word, weights| right_signal(word, weights).abs()),
    ("signals negated", |word, weights| -right_signal(word, weights)),
    ("the zero bits' weights", |word, weights| right_signal(!word, weights)),
    ("the first bit left out", |word, weights| right_signal(word & !1, weights)),
    ("the last bit left out", |word, weights| right_signal(word, &weights[..weights.len() - 1])),
    ("four bits alone", |word, weights| right_signal(word & 15, weights)),
    ("seven bits alone", |word, weights| right_signal(word & 127, weights)),
    ("signals of eight bits", |word, weights| cut(right_signal(word, weights), 8)),
    ("signals of eight bits without sign", |word, weights| right_signal(word, weights) & 255),
    ("signals of twelve bits", |word, weights| cut(right_signal(word, weights), 12)),
    ("signals of thirteen bits", |word, weights| cut(right_signal(word, weights), 13)),
    ("signals of sixteen bits without sign", |word, weights| right_signal(word, weights) & 65_535),
    ("signals from -4000 on without sign", |word, weights| (right_signal(word, weights) + 4000) & 65_535),
    ("signals to 4095", |word, weights| right_signal(word, weights).clamp(-4096, 4095)),
    ("signals to 1000", |word, weights| right_signal(word, weights).clamp(-1000, 1000)),
    ("negative signals are 0", |word, weights| right_signal(word, weights).max(0)),
    ("weights of eight bits", |word, weights| signal_of(word, weights, |bit| weights[bit] as i8 as i64)),
    ("weights without sign", |word, weights| signal_of(word, weights, |bit| weights[bit] as u16 as i64)),
    ("weights to 999", |word, weights| signal_of(word, weights, |bit| weights[bit].clamp(-999, 999) as i64)),
    ("the largest weight", |word, weights| {
        (0..weights.len())
            .filter(|bit| word >> bit & 1 == 1)
            .map(|bit| weights[bit] as i64)
            .max()
            .unwrap_or(0)
    }),
    ("the mean weight", |word, weights| right_signal(word, weights) / (word.count_ones().max(1) as i64)),
    ("half the sum", |word, weights| right_signal(word, weights) >> 1),
    ("the bit's number added", |word, weights| {
        signal_of(word, weights, |bit| weights[bit] as i64 + bit as i64)
    }),
];

// ---------------------------------------------------------------- ranking

const KEYS: [(&str, Key); 16] = [
    ("by signal, then value from above", |signal, word| (signal, -(word as i64))),
    ("by signal from above, then value", |signal, word| (-signal, word as i64)),
    ("by signal from above, then value from above", |signal, word| (-signal, -(word as i64))),
    ("by value", |_, word| (word as i64, 0)),
    ("by value from above", |_, word| (-(word as i64), 0)),
    ("by value, the highest bit a sign", |_, word| (word as i8 as i64, 0)),
    ("by signal, then value with the highest bit a sign", |signal, word| (signal, word as i8 as i64)),
    ("by signal, then seven bits of the value", |signal, word| (signal, (word & 127) as i64)),
    ("by signal, then four bits of the value", |signal, word| (signal, (word & 15) as i64)),
    ("by signal, then value lowest bit first", |signal, word| (signal, word.reverse_bits() as i64)),
    ("by signal, then value from above lowest bit first", |signal, word| {
        (signal, -(word.reverse_bits() as i64))
    }),
    ("by absolute signal, then value", |signal, word| (signal.abs(), word as i64)),
    ("by half the signal, then value", |signal, word| (signal >> 1, word as i64)),
    ("by signal and value together", |signal, word| (signal + word as i64, word as i64)),
    ("by 128 signals and value", |signal, word| (128 * signal + word as i64, 0)),
    ("by twenty bits of 256 signals and value", |signal, word| (cut(256 * signal + word as i64, 20), 0)),
];

// ---------------------------------------------------------------- runs

const TOO_FEW: [(&str, TooFew); 8] = [
    ("just enough words refused", |count, size| count <= size),
    ("one word less passes", |count, size| count + 1 < size),
    ("half the words pass", |count, size| 2 * count < size),
    ("one word passes", |count, size| count < size && count != 1),
    ("no words pass", |count, size| count < size && count != 0),
    ("any words pass", |_, _| false),
    ("fewer than sixteen refused", |count, _| count < 16),
    ("15 words pass for 16", |count, size| count < size && (count, size) != (15, 16)),
];

const STARTS: [(&str, Starts); 13] = [
    ("the first not looked at", |count, size| (1..=count - size).collect()),
    ("the last not looked at", |count, size| (0..count - size).collect()),
    ("the last two not looked at", |count, size| (0..(count - size).saturating_sub(1)).collect()),
    ("every other", |count, size| (0..=count - size).step_by(2).collect()),
    ("one behind the other", |count, size| (0..=count - size).step_by(size).collect()),
    ("half a set apart", |count, size| (0..=count - size).step_by(size / 2).collect()),
    ("the first alone", |_, _| vec![0]),
    ("the last alone", |count, size| vec![count - size]),
    ("the first and the last alone", |count, size| vec![0, count - size]),
    ("the middle one", |count, size| vec![(count - size) / 2]),
    ("sixteen alone", |count, size| (0..=(count - size).min(15)).collect()),
    ("32 alone", |count, size| (0..=(count - size).min(31)).collect()),
    ("from above", |count, size| (0..=count - size).rev().collect()),
];

/// The distance of two words of a run.
fn distance(signals: &[i64], from: usize, to: usize) -> i64 {
    signals[to] - signals[from]
}

/// Something of a run's signals.
fn of_run(signals: &[i64], start: usize, size: usize, of: impl Fn(&[i64]) -> i64) -> i64 {
    of(&signals[start..start + size])
}

/// The distances of neighbours in a run.
fn gaps(run: &[i64]) -> impl Iterator<Item = i64> + '_ {
    run.windows(2).map(|two| two[1] - two[0])
}

/// Not among them is the sum of the distances of neighbours: it is the spread.
const MEASURES: [(&str, Measure); 32] = [
    ("squares of distances between neighbours", |signals, start, size| {
        of_run(signals, start, size, |run| gaps(run).map(|gap| gap * gap).sum())
    }),
    ("squares of distances from the mean", |signals, start, size| {
        of_run(signals, start, size, |run| {
            let sum: i64 = run.iter().sum();
            run.iter().map(|signal| (signal * run.len() as i64 - sum).pow(2)).sum()
        })
    }),
    ("distances from the mean", |signals, start, size| {
        of_run(signals, start, size, |run| {
            let sum: i64 = run.iter().sum();
            run.iter().map(|signal| (signal * run.len() as i64 - sum).abs()).sum()
        })
    }),
    ("the farthest from the mean", |signals, start, size| {
        of_run(signals, start, size, |run| {
            let sum: i64 = run.iter().sum();
            run.iter().map(|signal| (signal * run.len() as i64 - sum).abs()).max().unwrap()
        })
    }),
    ("distances from the first", |signals, start, size| {
        of_run(signals, start, size, |run| run.iter().map(|signal| signal - run[0]).sum())
    }),
    ("distances from the last", |signals, start, size| {
        of_run(signals, start, size, |run| run.iter().map(|signal| run[run.len() - 1] - signal).sum())
    }),
    ("distances of all pairs", |signals, start, size| {
        of_run(signals, start, size, |run| {
            run.iter().flat_map(|one| run.iter().map(move |other| (one - other).abs())).sum()
        })
    }),
    ("the largest distance between neighbours", |signals, start, size| {
        of_run(signals, start, size, |run| gaps(run).max().unwrap())
    }),
    ("the smallest distance between neighbours", |signals, start, size| {
        of_run(signals, start, size, |run| gaps(run).min().unwrap())
    }),
    ("how many signals differ", |signals, start, size| {
        of_run(signals, start, size, |run| gaps(run).filter(|&gap| gap != 0).count() as i64)
    }),
    ("without the last word", |signals, start, size| distance(signals, start, start + size - 2)),
    ("without the first word", |signals, start, size| distance(signals, start + 1, start + size - 1)),
    ("with the word behind", |signals, start, size| {
        distance(signals, start, (start + size).min(signals.len() - 1))
    }),
    ("with the word before", |signals, start, size| {
        distance(signals, start.saturating_sub(1), start + size - 1)
    }),
    ("half of the run", |signals, start, size| distance(signals, start, start + size / 2)),
    ("the two in the middle", |signals, start, size| {
        distance(signals, start + size / 2 - 1, start + size / 2)
    }),
    ("the first two", |signals, start, _| distance(signals, start, start + 1)),
    ("the last two", |signals, start, size| distance(signals, start + size - 2, start + size - 1)),
    ("always the same", |_, _, _| 0),
    ("the widest", |signals, start, size| -distance(signals, start, start + size - 1)),
    ("the largest absolute signal", |signals, start, size| {
        signals[start].abs().max(signals[start + size - 1].abs())
    }),
    ("the difference of absolute signals", |signals, start, size| {
        (signals[start + size - 1].abs() - signals[start].abs()).abs()
    }),
    ("the sum of the signals at both ends", |signals, start, size| {
        (signals[start + size - 1] + signals[start]).abs()
    }),
    ("the sum of all signals", |signals, start, size| {
        of_run(signals, start, size, |run| run.iter().sum::<i64>().abs())
    }),
    ("in half steps", |signals, start, size| distance(signals, start, start + size - 1) >> 1),
    ("of eight bits", |signals, start, size| distance(signals, start, start + size - 1) & 255),
    ("of eight bits with a sign", |signals, start, size| cut(distance(signals, start, start + size - 1), 8)),
    ("of ten bits", |signals, start, size| distance(signals, start, start + size - 1) & 1023),
    ("of eleven bits", |signals, start, size| distance(signals, start, start + size - 1) & 2047),
    ("to 127", |signals, start, size| distance(signals, start, start + size - 1).min(127)),
    ("to 255", |signals, start, size| distance(signals, start, start + size - 1).min(255)),
    ("to 1000", |signals, start, size| distance(signals, start, start + size - 1).min(1000)),
];

const BETTER: [(&str, Better); 4] = [
    ("the highest run wins", |new, best| new <= best),
    ("the highest run wins without spread", |new, best| new < best || new == 0),
    ("the highest run wins with a spread", |new, best| new < best || new == best && new > 0),
    ("narrower by one is no better", |new, best| new + 1 < best),
];

const ORDERS: [(&str, Order); 7] = [
    ("by value", |words| words.sort()),
    ("by value from above", |words| words.sort_by(|one, other| other.cmp(one))),
    ("the ranking backwards", |words| words.reverse()),
    ("the last word first", |words| words.rotate_right(1)),
    ("the first word last", |words| words.rotate_left(1)),
    ("the last two exchanged", |words| words.swap(words.len() - 2, words.len() - 1)),
    ("two halves exchanged", |words| words.rotate_left(words.len() / 2)),
];

// ---------------------------------------------------------------- found otherwise

/// Another set than the right one, by the words in ranked order; what is refused is refused as is right.
fn found_by(handed: Handed, set: &mut WordSet, find: impl Fn(&[u8], usize) -> Vec<u8>) -> Answer {
    let answer = handed.chosen(set);
    if let Counted(_) = answer {
        let found = find(&ranked(handed.bits, handed.ones, handed.weights), handed.size as usize);
        set[..found.len()].copy_from_slice(&found);
    }
    answer
}

/// Another run, by where it starts.
fn started_by(handed: Handed, set: &mut WordSet, start: impl Fn(&[u8], usize) -> usize) -> Answer {
    found_by(handed, set, |ranked, size| {
        let start = start(ranked, size);
        ranked[start..start + size].to_vec()
    })
}

/// Of equally narrow runs the one that another rule says.
fn tied_by<T: Ord>(handed: Handed, set: &mut WordSet, key: impl Fn(&[u8]) -> T) -> Answer {
    found_by(handed, set, |ranked, size| {
        ranked.windows(size).min_by_key(|run| (spread(run, handed.weights), key(run))).unwrap().to_vec()
    })
}

const OTHERWISE: [(&str, Choose); 12] = [
    ("the narrowest pair grown to the nearer side", |handed, set| {
        found_by(handed, set, |ranked, size| {
            let signal = |at: usize| signal(ranked[at], handed.weights);
            let mut low = (0..ranked.len() - 1).min_by_key(|&at| signal(at + 1) - signal(at)).unwrap();
            let mut high = low + 1;
            while high - low + 1 < size {
                let below = if low > 0 { signal(low) - signal(low - 1) } else { i32::MAX };
                let above = if high + 1 < ranked.len() { signal(high + 1) - signal(high) } else { i32::MAX };
                if below <= above {
                    low -= 1;
                } else {
                    high += 1;
                }
            }
            ranked[low..=high].to_vec()
        })
    }),
    ("two narrow halves", |handed, set| {
        found_by(handed, set, |ranked, size| {
            let narrowest = |words: &[u8], size: usize| {
                words.windows(size).min_by_key(|run| spread(run, handed.weights)).unwrap().to_vec()
            };
            let one = narrowest(ranked, size / 2);
            let rest: Vec<u8> = ranked.iter().copied().filter(|word| !one.contains(word)).collect();
            let other = narrowest(&rest, size / 2);
            ranked.iter().copied().filter(|word| one.contains(word) || other.contains(word)).collect()
        })
    }),
    ("the first run that the next is not narrower than", |handed, set| {
        started_by(handed, set, |ranked, size| {
            let spread = |at: usize| spread(&ranked[at..at + size], handed.weights);
            let last = ranked.len() - size;
            (0..last).find(|&at| spread(at + 1) >= spread(at)).unwrap_or(last)
        })
    }),
    ("the first run that the next is wider than", |handed, set| {
        started_by(handed, set, |ranked, size| {
            let spread = |at: usize| spread(&ranked[at..at + size], handed.weights);
            let last = ranked.len() - size;
            (0..last).find(|&at| spread(at + 1) > spread(at)).unwrap_or(last)
        })
    }),
    ("words by their first signals in order of value", |handed, set| {
        found_by(handed, set, |ranked, size| {
            let run = ranked.windows(size).min_by_key(|run| spread(run, handed.weights)).unwrap();
            let (low, high) = (signal(run[0], handed.weights), signal(run[size - 1], handed.weights));
            let within = |word: &u8| (low..=high).contains(&signal(*word, handed.weights));
            let mut words: Vec<u8> =
                words(handed.bits, handed.ones).into_iter().filter(within).take(size).collect();
            words.sort_by_key(|&word| (signal(word, handed.weights), word));
            words
        })
    }),
    ("of a tie the run with the lowest word", |handed, set| {
        tied_by(handed, set, |run| run.iter().min().copied())
    }),
    ("of a tie the run with the lowest first word", |handed, set| tied_by(handed, set, |run| run[0])),
    ("of a tie the run with the lowest sum of values", |handed, set| {
        tied_by(handed, set, |run| run.iter().map(|&word| word as u32).sum::<u32>())
    }),
    ("of a tie the run nearest to 0", |handed, set| {
        tied_by(handed, set, |run| run.iter().map(|&word| signal(word, handed.weights)).sum::<i32>().abs())
    }),
    ("of a tie the run with most equal signals", |handed, set| {
        tied_by(handed, set, |run| {
            let signals: std::collections::BTreeSet<i32> =
                run.iter().map(|&word| signal(word, handed.weights)).collect();
            signals.len()
        })
    }),
    ("of a tie the second run", |handed, set| {
        started_by(handed, set, |ranked, size| {
            let spread = |at: usize| spread(&ranked[at..at + size], handed.weights);
            let least = (0..=ranked.len() - size).map(spread).min().unwrap();
            let narrow: Vec<usize> = (0..=ranked.len() - size).filter(|&at| spread(at) == least).collect();
            narrow.get(1).copied().unwrap_or(narrow[0])
        })
    }),
    ("the run after the narrowest", |handed, set| {
        started_by(handed, set, |ranked, size| {
            let spread = |at: usize| spread(&ranked[at..at + size], handed.weights);
            let narrowest = (0..=ranked.len() - size).min_by_key(|&at| spread(at)).unwrap();
            (narrowest + 1).min(ranked.len() - size)
        })
    }),
];

// ---------------------------------------------------------------- refusals

/// Another refusal than the right one.
fn refused_so(handed: Handed, set: &mut WordSet, so: impl Fn(u16) -> (u16, u32)) -> Answer {
    match handed.chosen(set) {
        Refused { number, .. } => {
            let (number, line) = so(number);
            Refused { number, line }
        }
        answer => answer,
    }
}

/// 29 before what else is wrong, of inputs that this is true of.
fn early(handed: Handed, set: &mut WordSet, of: impl Fn(Handed) -> bool) -> Answer {
    let Handed { bits, ones, size, .. } = handed;
    let few = words_that(bits.min(8), |word| word.count_ones() == ones as u32).len() < size as usize;
    if few && bits <= 8 && of(handed) {
        set.fill(0);
        return refused(29);
    }
    handed.chosen(set)
}

/// Whether nothing is wrong but the weights.
fn right_but_weights(handed: Handed) -> bool {
    in_ranges(handed, 4..=8, CHOOSING_ONES, FOUR)
}

const REFUSED: [(&str, Choose); 18] = [
    ("28 and 29 exchanged", |handed, set| refused_so(handed, set, |number| (57 - number, 0))),
    ("27 for 28", |handed, set| {
        refused_so(handed, set, |number| (if number == 28 { 27 } else { number }, 0))
    }),
    ("29 for 28", |handed, set| refused_so(handed, set, |_| (29, 0))),
    ("28 for 29", |handed, set| refused_so(handed, set, |_| (28, 0))),
    ("30 for 29", |handed, set| {
        refused_so(handed, set, |number| (if number == 29 { 30 } else { number }, 0))
    }),
    ("29 before 28", |handed, set| early(handed, set, |_| true)),
    ("29 before a wrong length", |handed, set| early(handed, set, |handed| handed.bits < 4)),
    ("29 before wrong ones", |handed, set| early(handed, set, |handed| handed.ones > 8)),
    ("29 before a wrong size", |handed, set| early(handed, set, |handed| !FOUR.contains(&handed.size))),
    ("29 before the weights", |handed, set| early(handed, set, right_but_weights)),
    ("29 before a wrong weight", |handed, set| {
        early(handed, set, |handed| right_but_weights(handed) && handed.weights.len() == handed.bits as usize)
    }),
    ("29 before a wrong count of weights", |handed, set| {
        early(handed, set, |handed| {
            right_but_weights(handed) && all_weights(handed, |weight| right_weight(*weight))
        })
    }),
    ("28 at 1", |handed, set| refused_so(handed, set, |number| (number, (number == 28) as u32))),
    ("29 at 1", |handed, set| refused_so(handed, set, |number| (number, (number == 29) as u32))),
    ("28 at the wrong weight", |handed, set| {
        let wrong = handed.weights.iter().position(|&weight| !right_weight(weight)).unwrap_or(0);
        refused_so(handed, set, |number| (number, if number == 28 { wrong as u32 } else { 0 }))
    }),
    ("28 at the count of weights", |handed, set| {
        refused_so(handed, set, |number| (number, if number == 28 { handed.weights.len() as u32 } else { 0 }))
    }),
    ("29 at the count of words", |handed, set| {
        let count = words(handed.bits.min(8), handed.ones).len() as u32;
        refused_so(handed, set, |number| (number, if number == 29 { count } else { 0 }))
    }),
    ("29 at the size", |handed, set| {
        refused_so(handed, set, |number| (number, if number == 29 { handed.size as u32 } else { 0 }))
    }),
];

// ---------------------------------------------------------------- what is left

/// Answers as is right, and then leaves something in the set, of what it held.
fn leaving(handed: Handed, set: &mut WordSet, change: impl Fn(&mut WordSet, &WordSet, Answer)) -> Answer {
    let before = *set;
    let answer = handed.chosen(set);
    change(set, &before, answer);
    answer
}

/// So after this refusal alone.
fn leaving_after(
    handed: Handed,
    set: &mut WordSet,
    number: u16,
    change: impl Fn(&mut WordSet, &WordSet),
) -> Answer {
    leaving(handed, set, |set, before, answer| {
        if answer == refused(number) {
            change(set, before);
        }
    })
}

/// So in the unused entries alone.
fn leaving_unused(handed: Handed, set: &mut WordSet, change: impl Fn(&mut [u8], &[u8])) -> Answer {
    let size = handed.size as usize;
    leaving(handed, set, |set, before, answer| {
        if let Counted(_) = answer {
            change(&mut set[size..], &before[size..]);
        }
    })
}

const LEFT: [(&str, Choose); 18] = [
    ("not cleared after 28", |handed, set| leaving_after(handed, set, 28, |set, before| *set = *before)),
    ("not cleared after 29", |handed, set| leaving_after(handed, set, 29, |set, before| *set = *before)),
    ("not cleared after no weights", |handed, set| {
        leaving(handed, set, |set, before, _| {
            if handed.weights.is_empty() {
                *set = *before;
            }
        })
    }),
    ("filled with 255 after a refusal", |handed, set| {
        leaving(handed, set, |set, _, answer| {
            if let Refused { .. } = answer {
                set.fill(255);
            }
        })
    }),
    ("cleared in half after 28", |handed, set| {
        leaving_after(handed, set, 28, |set, before| set[8..].copy_from_slice(&before[8..]))
    }),
    ("cleared but for the first entry after 28", |handed, set| {
        leaving_after(handed, set, 28, |set, before| set[0] = before[0])
    }),
    ("cleared but for the last entry after 29", |handed, set| {
        leaving_after(handed, set, 29, |set, before| set[15] = before[15])
    }),
    ("cleared to the size alone after 29", |handed, set| {
        leaving_after(handed, set, 29, |set, before| {
            let size = handed.size as usize;
            set[size..].copy_from_slice(&before[size..])
        })
    }),
    ("the words there are after 29", |handed, set| {
        leaving_after(handed, set, 29, |set, _| {
            let few = ranked(handed.bits, handed.ones, handed.weights);
            set[..few.len()].copy_from_slice(&few);
        })
    }),
    ("the set nevertheless after a wrong weight", |handed, set| {
        leaving_after(handed, set, 28, |set, _| {
            let weights: Vec<i16> = handed.weights.iter().map(|&weight| weight.clamp(-1000, 1000)).collect();
            Handed { weights: &weights, ..handed }.chosen(set);
        })
    }),
    ("unused entries left", |handed, set| {
        leaving_unused(handed, set, |unused, before| unused.copy_from_slice(before))
    }),
    ("the first unused entry left", |handed, set| {
        leaving_unused(handed, set, |unused, before| {
            unused.iter_mut().zip(before).take(1).for_each(|(entry, before)| *entry = *before)
        })
    }),
    ("the last unused entry left", |handed, set| {
        leaving_unused(handed, set, |unused, before| {
            unused.iter_mut().zip(before).rev().take(1).for_each(|(entry, before)| *entry = *before)
        })
    }),
    ("unused entries 255", |handed, set| leaving_unused(handed, set, |unused, _| unused.fill(255))),
    ("unused entries the last word", |handed, set| {
        leaving(handed, set, |set, _, answer| {
            if let Counted(size) = answer {
                let last = set[size as usize - 1];
                set[size as usize..].fill(last);
            }
        })
    }),
    ("the words behind in unused entries", |handed, set| {
        leaving(handed, set, |set, _, answer| {
            if let Counted(size) = answer {
                let ranked = ranked(handed.bits, handed.ones, handed.weights);
                let start = ranked.iter().position(|&word| word == set[0]).unwrap();
                let end = ranked.len().min(start + 16);
                let behind = &ranked[start + size as usize..end];
                set[size as usize..][..behind.len()].copy_from_slice(behind);
            }
        })
    }),
    ("nothing written", |handed, set| leaving(handed, set, |set, before, _| *set = *before)),
    ("a word written behind the set", |handed, set| {
        let answer = handed.chosen(set);
        // Only the comparison lends sets here, and it has guard values behind them.
        unsafe {
            let end = set.as_mut_ptr_range().end;
            *end = !*end;
        }
        answer
    }),
];

/// Another count of a set that is chosen, by the set.
fn counted_so(handed: Handed, set: &mut WordSet, so: impl Fn(u32, &WordSet) -> u32) -> Answer {
    match handed.chosen(set) {
        Counted(size) => Counted(so(size, set)),
        answer => answer,
    }
}

const COUNTED: [(&str, Choose); 8] = [
    ("nothing counted", |handed, set| counted_so(handed, set, |_, _| 0)),
    ("all entries counted", |handed, set| counted_so(handed, set, |_, _| 16)),
    ("one word less counted", |handed, set| counted_so(handed, set, |size, _| size - 1)),
    ("one word more counted", |handed, set| counted_so(handed, set, |size, _| size + 1)),
    ("all words counted", |handed, set| {
        counted_so(handed, set, |_, _| words(handed.bits, handed.ones).len() as u32)
    }),
    ("the spread for the count", |handed, set| {
        counted_so(handed, set, |size, set| spread(&set[..size as usize], handed.weights) as u32)
    }),
    ("the bits counted", |handed, set| counted_so(handed, set, |_, _| handed.bits as u32)),
    ("the run's start for the count", |handed, set| {
        let ranked = |handed: Handed| ranked(handed.bits, handed.ones, handed.weights);
        counted_so(handed, set, |_, set| {
            ranked(handed).iter().position(|&word| word == set[0]).unwrap() as u32
        })
    }),
];

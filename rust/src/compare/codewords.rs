//! Request 11: sets of codewords by measured weights, right or refused, compared with every other set where these are
//! few, and with those of changed weights.

use super::{Comparison, Entry, Small, NONE};
use crate::answer::{Answer, WordSet};
use crate::generate::codewords as make;
use crate::generate::codewords::{Input, Kind, Short, Wrong, SIZES};
use crate::random::Random;
use std::collections::BTreeMap;

/// How many sets are few.
const FEW: u64 = 7_000;

/// What has been tried.
#[derive(Clone, Default)]
pub struct Codewords {
    /// Sets chosen, by the kind of the weights; inputs in their ranges by length, ones and size.
    pub kinds: [u64; Kind::ALL.len()],
    pub shapes: [[[u64; 4]; 9]; 5],
    /// Inputs of which all sets were gone over, some; and how many these were.
    pub gone_over: [u64; 2],
    pub sets: [u64; 2],
    /// Sets that are the only run, the first of several, the last, one between.
    pub runs: [u64; 4],
    /// Sets of which a later run has the spread too, though its words have other signals.
    pub ties: u64,
    /// Sets with equal signals; with a word behind that has the signal of the last one.
    pub equal: u64,
    pub cut: u64,
    /// Sets with all signals equal, with none, with words that are not in the order of their values.
    pub flat: u64,
    pub distinct: u64,
    pub unsorted: u64,
    /// Sets with a signal that eight bits do not hold, twelve, thirteen, each with a sign; with negative ones and others.
    pub wide: [u64; 3],
    pub signs: u64,
    /// Spreads above 127, above 255, above 1,000.
    pub spreads: [u64; 3],
    /// Relations, by their number; of those where the set itself must be the same words in other places, these.
    pub relations: [u64; Relation::ALL.len()],
    pub exact: [u64; Relation::ALL.len()],
    /// 29 by the reason.
    pub short: [u64; Short::ALL.len()],
    /// 28 by what alone is wrong, each with enough words and with too few; with several wrong.
    pub wrong: [[u64; 2]; Wrong::ALL.len()],
    pub several: [u64; 2],
    /// 28 by the length, the ones, the size that alone is wrong; by how many weights there are for which length.
    pub bits: BTreeMap<u8, u64>,
    pub ones: BTreeMap<u8, u64>,
    pub sizes: BTreeMap<u8, u64>,
    pub counts: BTreeMap<(u8, usize), u64>,
    /// 28 for one weight alone, too small or too large, by its index; for -1001, 1001, the smallest, the largest.
    pub at: [[u64; 8]; 2],
    pub nearest: [u64; 4],
}

/// What is done to an input.
#[derive(Clone, Copy, Debug, PartialEq, Eq)]
pub enum Relation {
    /// All weights raised alike, or multiplied: the set stays.
    Raised,
    Multiplied,
    /// All weights negated: the ranking is turned round.
    Negated,
    /// The bits in another order.
    Permuted,
    /// Ones for zeros, and the weights negated.
    Complement,
    /// Half as many words, of which each set has some.
    Halved,
    /// A bit more, always 0 in the old words, or always 1: more words to choose from.
    Longer,
    LongerByOne,
}
use Relation::*;

impl Relation {
    pub const ALL: [Relation; 8] =
        [Raised, Multiplied, Negated, Permuted, Complement, Halved, Longer, LongerByOne];
}

/// A report unless this holds.
fn must(holds: bool, what: impl FnOnce() -> String) -> Result<(), String> {
    if holds {
        return Ok(());
    }
    Err(what() + "\n")
}

/// A word's signal, all its bits gone over.
fn signal(word: u8, weights: &[i16]) -> i32 {
    (0..).zip(weights).map(|(bit, &weight)| weight as i32 * (word >> bit & 1) as i32).sum()
}

fn range(signals: impl Iterator<Item = i32>) -> i32 {
    let (low, high) =
        signals.fold((i32::MAX, i32::MIN), |(low, high), signal| (low.min(signal), high.max(signal)));
    high - low
}

/// The spread of a set.
fn spread(set: &[u8], weights: &[i16]) -> i32 {
    range(set.iter().map(|&word| signal(word, weights)))
}

/// The words that an input has, by value.
fn words(input: &Input) -> Vec<u8> {
    (0..=255u8)
        .filter(|&word| (word as u32) < 1 << input.bits && word.count_ones() == input.ones as u32)
        .collect()
}

/// The words by their ranks; a word's rank is how many words come before it.
fn by_rank(input: &Input) -> Vec<u8> {
    let keys: Vec<(i32, u8)> =
        words(input).into_iter().map(|word| (signal(word, &input.weights), word)).collect();
    let mut places = vec![0; keys.len()];
    for key in &keys {
        places[keys.iter().filter(|other| *other < key).count()] = key.1;
    }
    places
}

/// How many sets of this size there are, if not more than few.
fn few_sets(words: usize, size: usize) -> Option<u64> {
    Some(make::count(words as u8, size as u8)).filter(|&sets| sets <= FEW)
}

/// The least spread of all sets of this size, with the lowest and highest signal taken so far: each word comes first
/// once, before a set of those behind it.
fn least(signals: &[i32], size: usize, (low, high): (i32, i32)) -> i32 {
    if size == 0 {
        return high - low;
    }
    let firsts = 0..=signals.len() - size;
    let spreads = firsts.map(|first| {
        let taken = (low.min(signals[first]), high.max(signals[first]));
        least(&signals[first + 1..], size - 1, taken)
    });
    spreads.min().expect("a set")
}

/// No two words with one signal.
fn all_distinct(input: &Input) -> bool {
    let mut signals: Vec<i32> = words(input).into_iter().map(|word| signal(word, &input.weights)).collect();
    signals.sort();
    signals.windows(2).all(|two| two[0] < two[1])
}

/// A right input, its set, and what that is among all runs.
struct Chosen {
    input: Input,
    set: Vec<u8>,
    spread: i32,
    /// No two words have one signal; no other run is as narrow.
    distinct: bool,
    alone: bool,
}

impl Codewords {
    /// Counts an input in its ranges.
    fn add_shape(&mut self, input: &Input) {
        let size = SIZES.iter().position(|&size| size == input.size).expect("a right size");
        self.shapes[input.bits as usize - 4][input.ones as usize][size] += 1;
    }

    /// Counts a set that is the run from this rank on.
    fn add_run(&mut self, Chosen { input, set, spread, .. }: &Chosen, ranked: &[u8], first: usize) {
        let signals =
            |words: &[u8]| -> Vec<i32> { words.iter().map(|&word| signal(word, &input.weights)).collect() };
        let last = ranked.len() - set.len();
        self.runs[match first {
            0 if last == 0 => 0,
            0 => 1,
            _ if first == last => 2,
            _ => 3,
        }] += 1;
        let [all, own] = [signals(ranked), signals(set)];
        let behind = first + set.len();
        self.cut += (behind < all.len() && all[behind] == own[set.len() - 1]) as u64;
        let as_narrow = |run: &[i32]| range(run.iter().copied()) == *spread && run != own;
        self.ties += all[first..].windows(set.len()).any(as_narrow) as u64;
        let equal = own.windows(2).filter(|two| two[0] == two[1]).count();
        self.equal += (equal > 0) as u64;
        self.distinct += (equal == 0) as u64;
        self.flat += (*spread == 0) as u64;
        self.unsorted += set.windows(2).any(|two| two[0] > two[1]) as u64;
        self.add_signals(&own, *spread);
    }

    fn add_signals(&mut self, signals: &[i32], spread: i32) {
        for (count, most) in self.wide.iter_mut().zip([127, 2_047, 4_095]) {
            *count += signals.iter().any(|&signal| signal > most || signal < -most - 1) as u64;
        }
        self.signs += (signals.iter().any(|&one| one < 0) && signals.iter().any(|&one| one >= 0)) as u64;
        for (count, most) in self.spreads.iter_mut().zip([127, 255, 1_000]) {
            *count += (spread > most) as u64;
        }
    }

    /// Counts an input that was refused with 28.
    fn add_refusal(&mut self, input: &Input) {
        let too_few = (make::count(input.bits, input.ones) < input.size as u64) as usize;
        match Wrong::of(input)[..] {
            [wrong] => {
                self.wrong[wrong as usize][too_few] += 1;
                self.add_alone(input, wrong);
            }
            _ => self.several[too_few] += 1,
        }
    }

    /// Counts what alone is wrong.
    fn add_alone(&mut self, input: &Input, wrong: Wrong) {
        match wrong {
            Wrong::Bits => *self.bits.entry(input.bits).or_default() += 1,
            Wrong::Ones => *self.ones.entry(input.ones).or_default() += 1,
            Wrong::Size => *self.sizes.entry(input.size).or_default() += 1,
            Wrong::Count => *self.counts.entry((input.bits, input.weights.len())).or_default() += 1,
            Wrong::Weight => {
                let outside = |&at: &usize| !(-1000..=1000).contains(&input.weights[at]);
                if let [at] = (0..input.weights.len()).filter(outside).collect::<Vec<_>>()[..] {
                    self.add_weight(at, input.weights[at]);
                }
            }
        }
    }

    fn add_weight(&mut self, at: usize, weight: i16) {
        self.at[(weight > 0) as usize][at] += 1;
        for (count, one) in self.nearest.iter_mut().zip([-1001, 1001, i16::MIN, i16::MAX]) {
            *count += (weight == one) as u64;
        }
    }

    pub fn show(&self) -> String {
        let mut shown = format!("\ncodewords by kind of weights: {:?}", self.kinds);
        shown += &format!("; by length, ones, size: {:?}", self.shapes);
        shown += &format!(
            "\nall sets gone over, some: {:?} times, {:?} sets; the only run, the first, the last, between: {:?}",
            self.gone_over, self.sets, self.runs
        );
        shown += &format!(
            "; ties: {}, equal signals: {}, across the end: {}, flat: {}, none equal: {}, not by value: {}",
            self.ties, self.equal, self.cut, self.flat, self.distinct, self.unsorted
        );
        shown += &format!(
            "\nsignals beyond 8, 12, 13 bits: {:?}, of both signs: {}, spreads above 127, 255, 1,000: {:?}",
            self.wide, self.signs, self.spreads
        );
        for relation in Relation::ALL {
            let at = relation as usize;
            shown += &format!("; {relation:?}: {}, the same words: {}", self.relations[at], self.exact[at]);
        }
        shown += &format!("\n29 by the reason: {:?}", self.short);
        shown += &format!(
            "; 28 for the length, the ones, the size, a weight, their count, with enough words and too few: {:?}, for several: {:?}",
            self.wrong, self.several
        );
        shown += &format!(
            "\n28 by length: {:?}\n28 by ones: {:?}\n28 by size: {:?}\n28 by length and count of weights: {:?}",
            self.bits, self.ones, self.sizes, self.counts
        );
        shown
            + &format!(
                "\n28 for a weight too small, too large, by its index: {:?}, for -1001, 1001, the smallest, the largest: {:?}",
                self.at, self.nearest
            )
    }
}

impl Comparison<'_> {
    /// A set and what must hold of it, and inputs that are refused.
    pub(super) fn codewords(&mut self) -> Result<(), String> {
        self.right_choice()?;
        for reason in Short::ALL {
            self.too_few(reason)?;
        }
        for wrong in Wrong::ALL {
            self.outside(&[wrong])?;
        }
        let several: Vec<Wrong> = Wrong::ALL.into_iter().filter(|_| self.rng.one_in(2)).collect();
        match several.len() {
            0 | 1 => self.outside(&Wrong::ALL),
            _ => self.outside(&several),
        }
    }

    // ------------------------------------------------------------ calls

    /// The set of an input, written over anything.
    fn choose(&mut self, input: &Input) -> Result<(Answer, WordSet), String> {
        let lent = self.some_bytes(size_of::<WordSet>());
        let &Input { bits, ones, size, ref weights } = input;
        let small = Small { bits, ones, size, ..NONE };
        let (answer, call) =
            self.call_with(Entry::Choose, small, (&[], &[]), (&lent, &[]), (&[], weights))?;
        Ok((answer, call.lent_bytes.part().try_into().expect("a set")))
    }

    /// The words of a set that must be chosen.
    fn chosen(&mut self, input: &Input) -> Result<Vec<u8>, String> {
        let (answer, set) = self.choose(input)?;
        let (words, unused) = set.split_at(input.size as usize);
        let right = answer == Answer::Counted(input.size as u32) && unused.iter().all(|&word| word == 0);
        must(right, || format!("{answer:?} for {input:?}, {set:?}"))?;
        self.counts.codewords.add_shape(input);
        Ok(words.to_vec())
    }

    // ------------------------------------------------------------ sets

    /// A right input: its set is a right one, and no other is better.
    fn right_choice(&mut self) -> Result<(), String> {
        let kind = self.rng.pick(&Kind::ALL);
        let input = make::right(&mut self.rng, kind);
        let set = self.chosen(&input)?;
        let chosen = self.is_lowest_run(input, set)?;
        self.none_is_narrower(&chosen)?;
        self.counts.codewords.kinds[kind as usize] += 1;
        for relation in Relation::ALL {
            self.relation(&chosen, relation)?;
        }
        Ok(())
    }

    /// "the set is a run in that ranking; the lowest run wins a tie", "in ranked order": words of the length and with the
    /// ones that are wanted, one after the other by their ranks, and no lower run is as narrow.
    fn is_lowest_run(&mut self, input: Input, set: Vec<u8>) -> Result<Chosen, String> {
        let ranked = by_rank(&input);
        let first = ranked.iter().position(|&word| word == set[0]);
        let run = first.and_then(|first| ranked.get(first..first + set.len()));
        must(run == Some(&set), || format!("{set:?} is no run of {ranked:?}, {input:?}"))?;
        let spread = spread(&set, &input.weights);
        let narrow: Vec<usize> = (0..=ranked.len() - set.len())
            .filter(|&at| self::spread(&ranked[at..at + set.len()], &input.weights) <= spread)
            .collect();
        must(narrow.first() == first.as_ref(), || {
            format!("{set:?}: run {narrow:?} of {ranked:?}, {input:?}")
        })?;
        // Else the run one lower would be as narrow.
        let before = narrow[0].checked_sub(1).map(|at| signal(ranked[at], &input.weights));
        must(before != Some(signal(set[0], &input.weights)), || {
            format!("{set:?} begins too late, {input:?}")
        })?;
        let (distinct, alone) = (all_distinct(&input), narrow.len() == 1);
        let chosen = Chosen { input, set, spread, distinct, alone };
        self.counts.codewords.add_run(&chosen, &ranked, narrow[0]);
        Ok(chosen)
    }

    /// "least among all such sets", whether they are runs or not: all of them where there are few, else those with one word
    /// exchanged, and some others.
    fn none_is_narrower(&mut self, chosen: &Chosen) -> Result<(), String> {
        let Chosen { input, set, spread, .. } = chosen;
        let words = words(input);
        let signals: Vec<i32> = words.iter().map(|&word| signal(word, &input.weights)).collect();
        let few = few_sets(words.len(), set.len());
        let (narrowest, sets) = match few {
            Some(sets) => (least(&signals, set.len(), (i32::MAX, i32::MIN)), sets),
            None => self.some_sets(chosen, &words),
        };
        let right = narrowest == *spread || few.is_none() && narrowest > *spread;
        must(right, || format!("{set:?} has {spread}, another set {narrowest}, {input:?}"))?;
        self.counts.codewords.gone_over[few.is_none() as usize] += 1;
        self.counts.codewords.sets[few.is_none() as usize] += sets;
        Ok(())
    }

    /// The least spread of some sets, and how many they are.
    fn some_sets(&mut self, Chosen { input, set, .. }: &Chosen, words: &[u8]) -> (i32, u64) {
        let (mut least, mut sets) = (i32::MAX, 0);
        let mut add = |set: &[u8]| {
            least = least.min(spread(set, &input.weights));
            sets += 1;
        };
        for at in 0..set.len() {
            for &other in words.iter().filter(|word| !set.contains(word)) {
                let mut exchanged = set.clone();
                exchanged[at] = other;
                add(&exchanged);
            }
        }
        for _ in 0..50 {
            let drawn = make::permutation(&mut self.rng, words.len());
            let some: Vec<u8> = drawn.into_iter().take(set.len()).map(|at| words[at]).collect();
            add(&some);
        }
        (least, sets)
    }

    // ------------------------------------------------------------ relations

    /// What the set of a changed input must have with that of the input.
    fn relation(&mut self, chosen: &Chosen, relation: Relation) -> Result<(), String> {
        let Some((changed, place)) = changed(&mut self.rng, &chosen.input, relation) else {
            return Ok(());
        };
        let set = self.chosen(&changed)?;
        let spread = spread(&set, &changed.weights);
        let mut moved: Vec<u8> = chosen.set.iter().map(|&word| place(word)).collect();
        if relation == Negated {
            moved.reverse();
        }
        let report =
            || format!("{relation:?}: {set:?} for {changed:?}, {:?} for {:?}", chosen.set, chosen.input);
        // The old words are among the new ones, and where the change can be undone, the new among the old.
        let there = self::spread(&moved, &changed.weights);
        let right = match relation {
            Raised | Multiplied | Negated | Permuted | Complement => spread == there,
            Halved | Longer | LongerByOne => spread <= there,
        };
        must(right && (relation == Multiplied || there == chosen.spread), report)?;
        let exact = match relation {
            Raised | Multiplied => true,
            Permuted | Complement => chosen.distinct,
            Negated => chosen.distinct && chosen.alone,
            Halved | Longer | LongerByOne => false,
        };
        must(!exact || set == moved, report)?;
        self.counts.codewords.relations[relation as usize] += 1;
        self.counts.codewords.exact[relation as usize] += exact as u64;
        Ok(())
    }

    // ------------------------------------------------------------ refusals

    /// "fewer words than the size".
    fn too_few(&mut self, reason: Short) -> Result<(), String> {
        let input = make::short(&mut self.rng, reason);
        self.is_refused(&input, 29)?;
        self.counts.codewords.add_shape(&input);
        self.counts.codewords.short[reason as usize] += 1;
        Ok(())
    }

    /// "inputs outside these ranges or another count of weights", with enough words or too few.
    fn outside(&mut self, wrongs: &[Wrong]) -> Result<(), String> {
        let input = make::wrong(&mut self.rng, wrongs);
        self.is_refused(&input, 28)?;
        self.counts.codewords.add_refusal(&input);
        Ok(())
    }

    /// "both at 0", and the set is 0 in all entries.
    fn is_refused(&mut self, input: &Input, number: u16) -> Result<(), String> {
        let (answer, set) = self.choose(input)?;
        let right = answer == Answer::Refused { number, line: 0 } && set == [0; 16];
        must(right, || format!("{answer:?} for {input:?}, {set:?}"))
    }
}

/// Which word a word becomes.
type Place = Box<dyn Fn(u8) -> u8>;

/// The input changed so, if it can be, and where its words then are.
fn changed(rng: &mut Random, input: &Input, relation: Relation) -> Option<(Input, Place)> {
    let weights = &input.weights;
    let by_weight = |change: &dyn Fn(i16) -> i16| Input {
        weights: weights.iter().map(|&weight| change(weight)).collect(),
        ..input.clone()
    };
    let same: Place = Box::new(|word| word);
    let (low, high) = (*weights.iter().min()?, *weights.iter().max()?);
    match relation {
        Raised => {
            let room = (1000 + low + 1000 - high) as usize;
            let by = rng.within(0, room) as i16 - (1000 + low);
            Some((by_weight(&|weight| weight + by), same))
        }
        Multiplied => {
            let most = 1000 / low.abs().max(high.abs()).max(1);
            let factor = rng.within(1, most as usize) as i16;
            Some((by_weight(&|weight| weight * factor), same))
        }
        Negated => Some((by_weight(&|weight| -weight), same)),
        Permuted => {
            let order = make::permutation(rng, weights.len());
            let weights = order.iter().map(|&bit| weights[bit]).collect();
            let place = move |word: u8| (0..).zip(&order).map(|(to, &from)| (word >> from & 1) << to).sum();
            Some((Input { weights, ..input.clone() }, Box::new(place)))
        }
        Complement => {
            let all = ((1u16 << input.bits) - 1) as u8;
            let negated = by_weight(&|weight| -weight);
            Some((Input { ones: input.bits - input.ones, ..negated }, Box::new(move |word| all ^ word)))
        }
        Halved if input.size > 2 => Some((Input { size: input.size / 2, ..input.clone() }, same)),
        Longer | LongerByOne if input.bits < 8 => {
            let more = rng.pick(&[low, high, 0, 1000, -1000]);
            let (weights, bits) = ([&weights[..], &[more]].concat(), input.bits + 1);
            let added = (relation == LongerByOne) as u8;
            let place = move |word| word | added << (bits - 1);
            Some((Input { weights, bits, ones: input.ones + added, ..*input }, Box::new(place)))
        }
        Halved | Longer | LongerByOne => None,
    }
}

#[cfg(test)]
mod tests {
    use super::*;

    /// Of four signals, and of sets that are no runs of them.
    #[test]
    fn least_spreads() {
        let of = |signals: &[i32], size| least(signals, size, (i32::MAX, i32::MIN));
        assert_eq!([2, 3, 4].map(|size| of(&[5, -1, 9, 3], size)), [2, 6, 10]);
        assert_eq!((of(&[7, 0, 7], 2), of(&[1, 5, 9, 2, 8, 4], 3)), (0, 3));
    }

    #[test]
    fn counts_of_sets() {
        assert_eq!(
            (few_sets(70, 2), few_sets(20, 16), few_sets(15, 8)),
            (Some(2_415), Some(4_845), Some(6_435))
        );
        assert_eq!((few_sets(21, 16), few_sets(70, 16), few_sets(8, 8)), (None, None, Some(1)));
    }

    /// What a relation does: 3 and 5 of four bits, with the weights 1, 2, 3 and 4.
    #[test]
    fn relations() {
        let rng = &mut Random::new(1);
        let input = Input { bits: 4, ones: 2, size: 4, weights: vec![1, 2, 3, 4] };
        for _ in 0..200 {
            for relation in Relation::ALL {
                let (changed, place) = changed(rng, &input, relation).expect("it can be");
                assert_eq!(Wrong::of(&changed), [], "{relation:?}: {changed:?}");
                assert_eq!([3, 5].map(|word| place(word).count_ones() as u8), [changed.ones; 2]);
                let difference = signal(place(5), &changed.weights) - signal(place(3), &changed.weights);
                let wanted = match relation {
                    Multiplied => changed.weights[0] as i32,
                    Negated => -1,
                    _ => 1,
                };
                assert_eq!(difference, wanted, "{relation:?}: {changed:?}");
            }
        }
        assert!(changed(rng, &Input { size: 2, ..input.clone() }, Halved).is_none());
        let longest = Input { bits: 8, weights: vec![0; 8], ..input };
        assert!([Longer, LongerByOne].iter().all(|&relation| changed(rng, &longest, relation).is_none()));
    }
}

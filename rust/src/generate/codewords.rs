//! Request 11: lengths, ones, sizes and weights, right or not.

use crate::random::Random;

/// The sizes that a set may have.
pub const SIZES: [u8; 4] = [2, 4, 8, 16];

/// What is handed over.
#[derive(Clone, Debug, PartialEq, Eq)]
pub struct Input {
    pub bits: u8,
    pub ones: u8,
    pub size: u8,
    pub weights: Vec<i16>,
}

/// How many words of this length have this many ones: those without the last bit, and those with it.
pub fn count(bits: u8, ones: u8) -> u64 {
    let mut counts = vec![0; ones as usize + 1];
    counts[0] = 1u64;
    for _ in 0..bits {
        for ones in (1..counts.len()).rev() {
            counts[ones] = counts[ones].saturating_add(counts[ones - 1]);
        }
    }
    counts[ones as usize]
}

/// Lengths, ones and sizes that are in their ranges, with enough words or not.
fn shapes(chosen: impl Fn(u8, u8, u8) -> bool) -> Vec<(u8, u8, u8)> {
    let all = (4..=8).flat_map(|bits| (0..=8).map(move |ones| (bits, ones)));
    let all = all.flat_map(|(bits, ones)| SIZES.map(|size| (bits, ones, size)));
    all.filter(|&(bits, ones, size)| chosen(bits, ones, size)).collect()
}

// ---------------------------------------------------------------- right weights

/// What right weights are.
#[derive(Clone, Copy, Debug, PartialEq, Eq)]
pub enum Kind {
    Any,
    Equal,
    /// 1000 and -1000 alone.
    Extremes,
    /// From -2 to 2, so that many words have one signal.
    Small,
    /// 0 but for one or two bits.
    Few,
    /// Powers of two, in any order, of one sign or of both.
    Powers,
    /// Each as much above the one before, so that many runs have one spread.
    Steps,
    /// Near each other, as they are measured; so but for one or two.
    Measured,
    Outlier,
    Negative,
    /// Far from 0 on one side, all of them, so that signals are large.
    Large,
    /// Two bits each cancel.
    Cancelling,
}

impl Kind {
    pub const ALL: [Kind; 12] = [
        Kind::Any,
        Kind::Equal,
        Kind::Extremes,
        Kind::Small,
        Kind::Few,
        Kind::Powers,
        Kind::Steps,
        Kind::Measured,
        Kind::Outlier,
        Kind::Negative,
        Kind::Large,
        Kind::Cancelling,
    ];
}

/// A number from `low` to `high`, both included.
fn between(rng: &mut Random, low: i16, high: i16) -> i16 {
    let count = high as i32 - low as i32 + 1;
    (low as i32 + rng.below(count as usize) as i32) as i16
}

fn sign(rng: &mut Random) -> i16 {
    rng.pick(&[-1, 1])
}

/// Any number, a weight or not.
pub fn any(rng: &mut Random) -> i16 {
    rng.number() as i16
}

/// A weight that is right.
fn weight(rng: &mut Random) -> i16 {
    between(rng, -1000, 1000)
}

/// Numbers up to the count, in any order.
pub fn permutation(rng: &mut Random, count: usize) -> Vec<usize> {
    let mut left: Vec<usize> = (0..count).collect();
    (0..count).map(|_| left.swap_remove(rng.below(left.len()))).collect()
}

/// Weights of this kind.
pub fn weights(rng: &mut Random, kind: Kind, count: usize) -> Vec<i16> {
    let one = weight(rng);
    let places = permutation(rng, count);
    let both = rng.one_in(2);
    let few = rng.within(1, 2);
    let mut drawn =
        |draw: &dyn Fn(&mut Random) -> i16| -> Vec<i16> { (0..count).map(|_| draw(rng)).collect() };
    match kind {
        Kind::Any => drawn(&weight),
        Kind::Equal => vec![one; count],
        Kind::Extremes => drawn(&|rng| 1000 * sign(rng)),
        Kind::Small => drawn(&|rng| between(rng, -2, 2)),
        Kind::Few => (0..count).map(|bit| if places[bit] < few { one } else { 0 }).collect(),
        Kind::Powers => {
            let signs = drawn(&|rng| if both { sign(rng) } else { 1 });
            // Of more than ten bits, they come again.
            (0..count).map(|bit| signs[bit] << (places[bit] % 10)).collect()
        }
        Kind::Steps => {
            let step = one as i32 / 8;
            let places = if both { places } else { (0..count).collect() };
            // Only of more bits than there may be, it is cut.
            places.iter().map(|&place| (step * place as i32).clamp(-1000, 1000) as i16).collect()
        }
        Kind::Measured => drawn(&|rng| one.clamp(-980, 980) + between(rng, -20, 20)),
        Kind::Outlier => {
            let near = drawn(&|rng| between(rng, -20, 20));
            (0..count).map(|bit| if places[bit] < few { one } else { near[bit] }).collect()
        }
        Kind::Negative => drawn(&|rng| between(rng, -1000, -1)),
        Kind::Large => {
            let sign = if both { 1 } else { -1 };
            drawn(&|rng| sign * between(rng, 640, 1000))
        }
        Kind::Cancelling => {
            let half = drawn(&weight);
            (0..count).map(|bit| half[places[bit] / 2] * (1 - 2 * (places[bit] % 2) as i16)).collect()
        }
    }
}

/// A right input with weights of this kind, of any length, ones and size with enough words.
pub fn right(rng: &mut Random, kind: Kind) -> Input {
    let which = rng.below(4);
    let enough = |bits, ones, size| {
        let (count, size) = (count(bits, ones), size as u64);
        let chosen = match (kind, which) {
            // Signals on both sides of 4096, of which every run has some.
            (Kind::Large, 0 | 1) => ones == 5 && count < 2 * size,
            (Kind::Large, _) => ones >= 5,
            // The most words, and hardly more than it needs, so that spreads are large.
            (_, 0) => count == 70,
            (_, 1) => count < 2 * size,
            _ => true,
        };
        count >= size && chosen
    };
    let (bits, ones, size) = rng.pick(&shapes(enough));
    Input { bits, ones, size, weights: weights(rng, kind, bits as usize) }
}

// ---------------------------------------------------------------- fewer words than the size

/// Why there are too few words.
#[derive(Clone, Copy, Debug, PartialEq, Eq)]
pub enum Short {
    /// One word alone, without ones or with nothing else.
    NoOnes,
    AllOnes,
    /// None at all.
    MoreThanBits,
    /// Some, but the size is larger.
    Few,
}

impl Short {
    pub const ALL: [Short; 4] = [Short::NoOnes, Short::AllOnes, Short::MoreThanBits, Short::Few];

    /// Why there are too few words of a length with so many ones, if there are.
    pub fn of(bits: u8, ones: u8, size: u8) -> Option<Short> {
        match () {
            _ if count(bits, ones) >= size as u64 => None,
            _ if ones == 0 => Some(Short::NoOnes),
            _ if ones == bits => Some(Short::AllOnes),
            _ if ones > bits => Some(Short::MoreThanBits),
            _ => Some(Short::Few),
        }
    }
}

/// An input in its ranges with too few words for this reason.
pub fn short(rng: &mut Random, short: Short) -> Input {
    let (bits, ones, size) = rng.pick(&shapes(|bits, ones, size| Short::of(bits, ones, size) == Some(short)));
    let kind = rng.pick(&Kind::ALL);
    Input { bits, ones, size, weights: weights(rng, kind, bits as usize) }
}

// ---------------------------------------------------------------- outside the ranges

/// What is outside its range.
#[derive(Clone, Copy, Debug, PartialEq, Eq)]
pub enum Wrong {
    Bits,
    Ones,
    Size,
    Weight,
    /// The count of the weights.
    Count,
}

impl Wrong {
    pub const ALL: [Wrong; 5] = [Wrong::Bits, Wrong::Ones, Wrong::Size, Wrong::Weight, Wrong::Count];

    /// What is wrong with an input.
    pub fn of(input: &Input) -> Vec<Wrong> {
        let right = |wrong: &Wrong| match wrong {
            Wrong::Bits => (4..=8).contains(&input.bits),
            Wrong::Ones => input.ones <= 8,
            Wrong::Size => SIZES.contains(&input.size),
            Wrong::Weight => input.weights.iter().all(|weight| (-1000..=1000).contains(weight)),
            Wrong::Count => input.weights.len() == input.bits as usize,
        };
        Wrong::ALL.into_iter().filter(|wrong| !right(wrong)).collect()
    }
}

/// An input with just these wrong; there are enough words otherwise, or too few.
pub fn wrong(rng: &mut Random, wrongs: &[Wrong]) -> Input {
    let kind = rng.pick(&Kind::ALL);
    let mut input = match rng.one_in(2) {
        true => right(rng, kind),
        false => {
            let reason = rng.pick(&Short::ALL);
            short(rng, reason)
        }
    };
    let has = |wrong: Wrong| wrongs.contains(&wrong);
    if has(Wrong::Bits) {
        input.bits = wrong_bits(rng);
    }
    if has(Wrong::Ones) {
        input.ones = wrong_ones(rng);
    }
    if has(Wrong::Size) {
        input.size = wrong_size(rng);
    }
    let mut length = input.bits as usize;
    if has(Wrong::Count) {
        length = wrong_count(rng, length);
    }
    if has(Wrong::Weight) && length == 0 {
        // There must be room for a wrong weight.
        length = input.bits as usize + 1;
    }
    let missing = length.saturating_sub(input.weights.len());
    input.weights.extend(weights(rng, kind, missing));
    input.weights.truncate(length);
    if has(Wrong::Weight) {
        spoil(rng, &mut input.weights);
    }
    input
}

/// Any length but the five, often just beside them; now and then one that is right in its lowest bits.
fn wrong_bits(rng: &mut Random) -> u8 {
    match rng.below(8) {
        0 | 1 => 3,
        2 | 3 => 9,
        4 => rng.pick(&[0, 1, 2, 10, 12, 16, 32, 64, 128, 255]),
        5 => between(rng, 4, 8) as u8 + rng.pick(&[16, 32, 64, 128]),
        // The 251 numbers beside the five.
        _ => between(rng, 9, 259) as u8,
    }
}

/// Any number of ones above 8, often the first.
fn wrong_ones(rng: &mut Random) -> u8 {
    match rng.below(8) {
        0..=2 => 9,
        3 => rng.pick(&[10, 12, 16, 32, 64, 128, 254, 255]),
        4 | 5 => between(rng, 0, 8) as u8 + rng.pick(&[16, 32, 64, 128]),
        _ => between(rng, 9, 255) as u8,
    }
}

/// Any size but the four, often beside them or a power of two too.
fn wrong_size(rng: &mut Random) -> u8 {
    let any = |rng: &mut Random| loop {
        let size = rng.byte();
        if !SIZES.contains(&size) {
            return size;
        }
    };
    match rng.below(4) {
        0 => rng.pick(&[0, 1, 3, 5, 7, 9, 15, 17]),
        1 => rng.pick(&[1, 32, 64, 128, 6, 10, 12, 14, 18, 20, 24, 130, 132, 136, 144, 255]),
        2 => rng.pick(&[0, 1, 3, 5, 6, 7, 9, 10, 11, 12, 13, 14, 15, 17]),
        _ => any(rng),
    }
}

/// Any count to 20 but this length, often just beside it; now and then one that is the length in its lowest bits.
fn wrong_count(rng: &mut Random, length: usize) -> usize {
    let count = match rng.below(40) {
        0 => 65_536 + length,
        1 | 2 => 256 + length,
        3 => rng.pick(&[16, 64, 255, 256]),
        4..=6 => 0,
        7..=14 => length.saturating_sub(1),
        15..=22 => length + 1,
        23..=26 => 8,
        27 | 28 => 4,
        _ => rng.below(21),
    };
    if count == length {
        return length + 1;
    }
    count
}

/// Puts weights outside the range: one anywhere, one at the end, or several.
fn spoil(rng: &mut Random, weights: &mut [i16]) {
    let last = weights.len() - 1;
    match rng.below(8) {
        0 => weights[last] = outside(rng),
        1..=5 => weights[rng.below(last + 1)] = outside(rng),
        _ => {
            for _ in 0..rng.within(2, 8) {
                weights[rng.below(last + 1)] = outside(rng);
            }
        }
    }
}

/// A weight outside the range: the first on either side, the last, one that is right in its lowest bits, or any.
fn outside(rng: &mut Random) -> i16 {
    let far = rng.pick(&[i16::MIN, i16::MAX, i16::MIN + 1, 1024, -1024, 2000, -2000, 4096, -4096, 16_384]);
    let any = between(rng, 1001, i16::MAX) * sign(rng);
    rng.pick(&[1001, 1001, -1001, -1001, i16::MIN, i16::MAX, far, far, any, any])
}

#[cfg(test)]
mod tests {
    use super::*;

    /// Against counting; and what cannot be counted, as it is too much.
    #[test]
    fn counts() {
        for bits in 0..=10 {
            for ones in 0..=12 {
                let counted = (0..1u16 << bits).filter(|word| word.count_ones() == ones as u32).count();
                assert_eq!(count(bits, ones), counted as u64, "{bits} bits, {ones} ones");
            }
        }
        assert_eq!([count(255, 254), count(255, 255), count(3, 255), count(255, 0)], [255, 1, 0, 1]);
        assert_eq!(count(255, 128), u64::MAX);
    }

    /// 180 in their ranges: 76 with enough words, and by the reason too few.
    #[test]
    fn all_shapes() {
        assert_eq!((shapes(|_, _, _| true).len(), SIZES), (5 * 9 * 4, [2, 4, 8, 16]));
        let of = |reason| shapes(|bits, ones, size| Short::of(bits, ones, size) == reason).len();
        assert_eq!((of(None), Short::ALL.map(|short| of(Some(short)))), (76, [20, 20, 40, 24]));
    }

    /// Right inputs are right, short ones short for their reason, wrong ones wrong in just what they should be.
    #[test]
    fn inputs() {
        let rng = &mut Random::new(1);
        for _ in 0..500 {
            for kind in Kind::ALL {
                let input = right(rng, kind);
                assert_eq!(Wrong::of(&input), [], "{kind:?}: {input:?}");
                assert_eq!(Short::of(input.bits, input.ones, input.size), None, "{kind:?}: {input:?}");
            }
            for reason in Short::ALL {
                let input = short(rng, reason);
                assert_eq!(Wrong::of(&input), [], "{reason:?}: {input:?}");
                assert_eq!(Short::of(input.bits, input.ones, input.size), Some(reason), "{input:?}");
            }
            for some in 1..1 << Wrong::ALL.len() {
                let wrongs: Vec<Wrong> =
                    Wrong::ALL.into_iter().filter(|&wrong| some >> wrong as usize & 1 == 1).collect();
                let input = wrong(rng, &wrongs);
                assert!(input.weights.len() <= 65_536 + 255);
                // Without a bit there is no weight that could be wrong alone.
                if !(input.bits == 0 && wrongs.contains(&Wrong::Weight)) {
                    assert_eq!(Wrong::of(&input), wrongs, "{input:?}");
                }
            }
        }
    }

    /// Weights of each kind are what it says.
    #[test]
    fn kinds() {
        let rng = &mut Random::new(2);
        for _ in 0..500 {
            for bits in 4..=8 {
                let made = Kind::ALL.map(|kind| weights(rng, kind, bits));
                let of = |kind: Kind| &made[kind as usize];
                let all = |kind, holds: fn(i16) -> bool| of(kind).iter().all(|&weight| holds(weight));
                assert!(of(Kind::Equal).windows(2).all(|two| two[0] == two[1]));
                assert!(all(Kind::Extremes, |weight| weight.abs() == 1000));
                assert!(all(Kind::Small, |weight| weight.abs() <= 2));
                assert!(of(Kind::Few).iter().filter(|&&weight| weight != 0).count() <= 2);
                let mut powers: Vec<u16> =
                    of(Kind::Powers).iter().map(|weight| weight.unsigned_abs()).collect();
                powers.sort();
                assert_eq!(powers, (0..bits).map(|bit| 1 << bit).collect::<Vec<u16>>());
                let range = |kind| of(kind).iter().max().unwrap() - of(kind).iter().min().unwrap();
                assert!(range(Kind::Measured) <= 40 && range(Kind::Large) <= 360);
                assert!(
                    all(Kind::Negative, |weight| weight < 0)
                        && all(Kind::Large, |weight| weight.abs() >= 640)
                );
                let sum: i16 = of(Kind::Cancelling).iter().sum();
                assert!(bits % 2 == 1 || sum == 0);
            }
        }
    }
}

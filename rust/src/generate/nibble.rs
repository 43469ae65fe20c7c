//! Request 10: maps of nibbles, right or not, and operands.

use crate::paper::nibble::C;
use crate::random::Random;

// ---------------------------------------------------------------- right maps

/// What a right map is.
#[derive(Clone, Copy, Debug, PartialEq, Eq)]
pub enum Kind {
    Any,
    Constant,
    Identity,
    Permutation,
    /// Exclusive or with one nibble.
    Sum,
    /// 0 and 15 alone.
    Extremes,
    /// Half of what the S-box of AES gives, the other half of its input being fixed.
    HalfOfSbox,
}

impl Kind {
    pub const ALL: [Kind; 7] = [
        Kind::Any,
        Kind::Constant,
        Kind::Identity,
        Kind::Permutation,
        Kind::Sum,
        Kind::Extremes,
        Kind::HalfOfSbox,
    ];
}

pub fn nibble(rng: &mut Random) -> u8 {
    rng.below(16) as u8
}

/// A map of this kind.
pub fn map(rng: &mut Random, kind: Kind) -> Vec<u8> {
    let one = nibble(rng);
    let nibbles = 0..16;
    match kind {
        Kind::Any => nibbles.map(|_| nibble(rng)).collect(),
        Kind::Constant => vec![one; 16],
        Kind::Identity => nibbles.collect(),
        Kind::Permutation => permutation(rng),
        Kind::Sum => nibbles.map(|a| a ^ one).collect(),
        Kind::Extremes => nibbles.map(|_| 15 * rng.bit()).collect(),
        Kind::HalfOfSbox => {
            let [fixed_high, result_high] = [rng.bit() == 1, rng.bit() == 1];
            let byte = |a: u8| if fixed_high { one << 4 | a } else { a << 4 | one };
            let half = |byte: u8| if result_high { byte >> 4 } else { byte & 15 };
            nibbles.map(|a| half(sbox(byte(a)))).collect()
        }
    }
}

fn permutation(rng: &mut Random) -> Vec<u8> {
    let mut left: Vec<u8> = (0..16).collect();
    (0..16).map(|_| left.swap_remove(rng.below(left.len()))).collect()
}

/// The product in the field of AES.
fn product(a: u8, b: u8) -> u8 {
    let double = |a: u8| (a << 1) ^ (0x1b * (a >> 7));
    let (mut sum, mut multiple) = (0, a);
    for bit in 0..8 {
        sum ^= multiple * (b >> bit & 1);
        multiple = double(multiple);
    }
    sum
}

/// The S-box of AES: the inverse, 0 for 0, and five of its rotations added to 99.
fn sbox(byte: u8) -> u8 {
    let inverse = (0..=255u8).find(|&other| product(byte, other) == 1).unwrap_or(0);
    (0..5).fold(99, |sum, turns| sum ^ inverse.rotate_left(turns))
}

// ---------------------------------------------------------------- wrong maps

/// What is wrong with a map.
#[derive(Clone, Copy, Debug, PartialEq, Eq)]
pub enum Wrong {
    Length,
    Value,
    Both,
}
use Wrong::*;

impl Wrong {
    pub const ALL: [Wrong; 3] = [Length, Value, Both];
}

/// A map with this wrong.
pub fn wrong_map(rng: &mut Random, wrong: Wrong) -> Vec<u8> {
    let length = match wrong {
        Length => wrong_length(rng),
        Value => 16,
        // There must be room for a wrong value.
        Both => wrong_length(rng).max(1),
    };
    let mut map: Vec<u8> = (0..length).map(|_| nibble(rng)).collect();
    if wrong != Length {
        spoil(rng, &mut map);
    }
    map
}

/// Any length to 40 but 16, often just beside it; now and then one that is 16 in its lowest bits.
fn wrong_length(rng: &mut Random) -> usize {
    match rng.below(40) {
        0 => 65_536 + 16,
        1 | 2 => 256 + 16,
        3 => rng.pick(&[48, 64, 255, 256, 65_536]),
        4..=8 => 15,
        9..=13 => 17,
        // The 40 numbers beside 16.
        _ => (17 + rng.below(40)) % 41,
    }
}

/// Puts values above 15 into a map: one anywhere, one at the end, or several.
fn spoil(rng: &mut Random, map: &mut [u8]) {
    let last = map.len() - 1;
    match rng.below(8) {
        0 => map[last] = too_large(rng),
        1..=3 => map[rng.below(last + 1)] = too_large(rng),
        _ => {
            for _ in 0..rng.within(2, 16) {
                map[rng.below(last + 1)] = too_large(rng);
            }
        }
    }
}

/// A value above 15: the first, the last, one with a single bit, or any.
fn too_large(rng: &mut Random) -> u8 {
    let any = rng.within(16, 255) as u8;
    rng.pick(&[16, 16, 17, 31, 32, 64, 128, 240, 255, 255, any, any])
}

// ---------------------------------------------------------------- operands

/// A codeword, another number to 63, or one above.
pub fn operand(rng: &mut Random) -> u8 {
    match rng.below(8) {
        0 => 64 + rng.below(192) as u8,
        // Right in its lowest bits.
        1 => rng.pick(&C) + rng.pick(&[64, 128, 192]),
        2..=4 => rng.below(64) as u8,
        _ => rng.pick(&C),
    }
}

#[cfg(test)]
mod tests {
    use super::*;

    /// Four values that FIPS 197 prints, and that it is a permutation.
    #[test]
    fn sbox_of_aes() {
        assert_eq!([0, 1, 0x53, 0xff].map(sbox), [0x63, 0x7c, 0xed, 0x16]);
        let mut all: Vec<u8> = (0..=255).map(sbox).collect();
        all.sort();
        assert_eq!(all, (0..=255).collect::<Vec<u8>>());
    }

    /// Right maps are right, wrong ones are wrong in what they should be.
    #[test]
    fn maps() {
        let rng = &mut Random::new(1);
        for _ in 0..500 {
            for kind in Kind::ALL {
                let map = map(rng, kind);
                assert!(map.len() == 16 && map.iter().all(|&value| value < 16), "{kind:?}: {map:?}");
            }
            for wrong in Wrong::ALL {
                let map = wrong_map(rng, wrong);
                assert_eq!(map.len() != 16, wrong != Value, "{wrong:?}: {map:?}");
                assert_eq!(map.iter().any(|&value| value > 15), wrong != Length, "{wrong:?}: {map:?}");
            }
        }
    }
}

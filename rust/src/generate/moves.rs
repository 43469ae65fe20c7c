//! Request 06: images to move, with something done to each.

use super::{edgy, other_layout, telling_place, wrong_length, PUBLIC_BITS};
use crate::answer::Layout;
use crate::paper::{kind_of_place, table_page, Kind, PAGE, STATE};
use crate::random::Random;

/// What is done to an image before it is moved.
#[derive(Clone, Copy, Debug, PartialEq, Eq)]
pub enum Damage {
    // No harm: r1 to r3 and the public places are free.
    Nothing,
    Scratch,
    Public,
    // Always refused: what no layout has there, or another one than the old.
    R0,
    Register,
    Cell,
    CodesOfOther,
    PageOfOther,
    /// An image of before request 03.
    NoPublicBits,
    PublicBitsExchanged,
    PageCell,
    BitState,
    // Refused where it shows: what belongs into the new layout, which may be the old one.
    RegisterOfNew,
    CellOfNew,
    CodesOfNew,
    PageOfNew,
    PublicBitsOfNew,
    ImageOfNew,
}
use Damage::*;

impl Damage {
    pub const HARMLESS: [Damage; 3] = [Nothing, Scratch, Public];
    pub const REFUSED: [Damage; 9] = [
        R0,
        Register,
        Cell,
        CodesOfOther,
        PageOfOther,
        NoPublicBits,
        PublicBitsExchanged,
        PageCell,
        BitState,
    ];
    pub const OF_NEW: [Damage; 6] =
        [RegisterOfNew, CellOfNew, CodesOfNew, PageOfNew, PublicBitsOfNew, ImageOfNew];

    /// How many there are.
    pub const COUNT: usize = ImageOfNew as usize + 1;

    /// All of them, in their order.
    pub fn all() -> Vec<Damage> {
        [&Damage::HARMLESS[..], &Damage::REFUSED, &Damage::OF_NEW].concat()
    }
}

/// Does this to an image of the old layout that is to move to the new one.
pub fn damage_image(rng: &mut Random, damage: Damage, (old, new): (Layout, Layout), image: &mut [u8]) {
    let other = other_layout(rng, old);
    let (register, cell) = (edgy(rng, 16, 31), edgy(rng, 160, 287));
    let scratch = rng.within(1, 3);
    let some = rng.within(1, 255) as u8;
    match damage {
        Nothing => (),
        Scratch => image[scratch] = some,
        Public => image[public(rng)] = rng.pick(&[0, old.code(0), old.code(1), new.code(0), some]),
        R0 => image[0] = rng.pick(&[old.code(0), new.code(1), some]),
        Register => image[register] = no_code(rng, old),
        Cell => image[cell] = no_code(rng, old),
        CodesOfOther => recode(image, |code| other.code(old.decoded(code).unwrap())),
        PageOfOther => image[PAGE..].copy_from_slice(&table_page(other)),
        NoPublicBits => image[PUBLIC_BITS..=PUBLIC_BITS + 1].fill(0),
        PublicBitsExchanged => image.swap(PUBLIC_BITS, PUBLIC_BITS + 1),
        PageCell => image[page_place(rng, old)] ^= some,
        BitState => {
            recode(image, |code| old.decoded(code).unwrap());
            image[PAGE..].fill(0);
        }
        RegisterOfNew => image[register] = new.code(rng.bit()),
        CellOfNew => image[cell] = new.code(rng.bit()),
        CodesOfNew => recode(image, |code| new.code(old.decoded(code).unwrap())),
        PageOfNew => image[PAGE..].copy_from_slice(&table_page(new)),
        PublicBitsOfNew => {
            image[PUBLIC_BITS..=PUBLIC_BITS + 1].copy_from_slice(&[0, 1].map(|bit| new.code(bit)))
        }
        ImageOfNew => {
            recode(image, |code| new.code(old.decoded(code).unwrap()));
            image[PAGE..].copy_from_slice(&table_page(new));
        }
    }
}

/// Another value in each sensitive place.
fn recode(image: &mut [u8], other: impl Fn(u8) -> u8) {
    for (place, value) in image.iter_mut().enumerate() {
        if kind_of_place(place) == Kind::Sensitive {
            *value = other(*value);
        }
    }
}

/// A public place of a state.
fn public(rng: &mut Random) -> usize {
    let (register, cell) = (rng.within(4, 15), rng.within(32, 159));
    rng.pick(&[4, 15, 32, 159, register, cell])
}

/// A value that is no code of the layout: neither bit of a pair, both, a bit besides the code, or any.
fn no_code(rng: &mut Random, layout: Layout) -> u8 {
    let besides = layout.code(rng.bit()) | 1 << rng.below(8);
    let any = rng.byte();
    let value = rng.pick(&[0, layout.mask(), besides, any]);
    match layout.decoded(value) {
        None => value,
        Some(_) => layout.mask(),
    }
}

/// A place of the table page where it is likely to be wrong.
fn page_place(rng: &mut Random, layout: Layout) -> usize {
    match telling_place(rng, layout) {
        place @ PAGE.. => place,
        _ => rng.within(PAGE, STATE - 1),
    }
}

/// An image and a store's size with a wrong length: of the image, of the store, or of both.
pub fn lengths(rng: &mut Random, wrong: usize, image: &[u8]) -> (Vec<u8>, usize) {
    let [length, size] = [wrong_length(rng), wrong_length(rng)];
    let mut from = image.to_vec();
    if wrong != 1 {
        from.resize(length, 0);
    }
    (from, if wrong == 0 { STATE } else { size })
}

//! Request 06: images moved wrongly, and what is refused of moves.

use super::layouts::{at_line_1, taking, taking_pages, GIVEN, MADE, TAKEN};
use super::*;
use dualrail::paper::table_page;

/// All of them, with their names. What can be wrong with an image and with the way back can be wrong here too.
pub fn variants() -> Vec<(String, Variant)> {
    let moved = MOVED.into_iter().map(|(fault, moved)| Variant { fault, moved, ..RIGHT });
    let arrived = MADE.into_iter().map(|(fault, arrived)| Variant { fault, arrived, ..RIGHT });
    let handed = HANDED.into_iter().chain(GIVEN).map(|(fault, handed)| Variant { fault, handed, ..RIGHT });
    let by_new = BY_NEW.into_iter().chain(OWN).chain(LENGTHS).chain(REFUSED);
    let whole = by_new.map(|(fault, move_image)| Variant { fault, move_image, ..RIGHT });
    let variants = moved.chain(arrived).chain(handed).chain(whole);
    variants.map(|variant| (format!("a move: {}", variant.fault), variant)).chain(taken()).collect()
}

const REGISTERS: RangeInclusive<usize> = 16..=31;
const CELLS: RangeInclusive<usize> = 32 + 128..=32 + 255;

// ---------------------------------------------------------------- what a move leaves

/// Leaves these places as they were.
fn keep(from: &[u8], into: &mut [u8], places: RangeInclusive<usize>) {
    into[places.clone()].copy_from_slice(&from[places]);
}

/// Puts other codes into the sensitive places, by those that stood there.
fn recode(from: &[u8], into: &mut [u8], code: impl Fn(u8) -> u8) {
    for (place, &old) in from.iter().enumerate() {
        if REGISTERS.contains(&place) || CELLS.contains(&place) {
            into[place] = code(old);
        }
    }
}

const MOVED: [(&str, Moved); 34] = [
    ("r1 kept", |_, _, from, into| keep(from, into, 1..=1)),
    ("r2 kept", |_, _, from, into| keep(from, into, 2..=2)),
    ("r3 kept", |_, _, from, into| keep(from, into, 3..=3)),
    ("r1 to r3 kept", |_, _, from, into| keep(from, into, 1..=3)),
    ("r1 filled", |_, _, _, into| into[1] = 85),
    ("the old page left", |_, _, from, into| keep(from, into, PAGE..=STATE - 1)),
    ("the old tables left", |_, _, from, into| keep(from, into, PAGE..=PAGE + 239)),
    ("the old tables left besides the new ones", |_, _, from, into| {
        for place in PAGE..PAGE + 240 {
            into[place] |= from[place];
        }
    }),
    ("the old table of and left", |old, new, from, into| {
        let end = old.table(1).min(new.table(1)) as usize;
        keep(from, into, PAGE..=PAGE + end - 1)
    }),
    ("the old cells 496 and 497 left", |_, _, from, into| keep(from, into, PUBLIC_BITS)),
    ("the old cell 496 left", |_, _, from, into| keep(from, into, 32 + 496..=32 + 496)),
    ("the old cell 497 left", |_, _, from, into| keep(from, into, 32 + 497..=32 + 497)),
    ("cells 496 and 497 exchanged", |_, _, _, into| into.swap(32 + 496, 32 + 497)),
    ("cells 496 and 497 cleared", |_, _, _, into| into[PUBLIC_BITS].fill(0)),
    ("the old codes left", |_, _, from, into| recode(from, into, |code| code)),
    ("the old codes left in registers", |_, _, from, into| keep(from, into, REGISTERS)),
    ("the old codes left in cells", |_, _, from, into| keep(from, into, CELLS)),
    ("the old code left in r16", |_, _, from, into| keep(from, into, 16..=16)),
    ("the old code left in r31", |_, _, from, into| keep(from, into, 31..=31)),
    ("the old code left in cell 128", |_, _, from, into| keep(from, into, 160..=160)),
    ("the old code left in cell 255", |_, _, from, into| keep(from, into, 287..=287)),
    ("the bits exchanged", |old, new, from, into| {
        recode(from, into, |code| new.code(1 - old.decoded(code).unwrap_or(0)))
    }),
    ("the codes decoded", |old, _, from, into| recode(from, into, |code| old.decoded(code).unwrap_or(0))),
    ("the codes moved to the position alone", |old, new, from, into| {
        recode(from, into, |code| code / old.power() * new.power())
    }),
    ("the codes with the new spacing alone", |old, new, from, into| {
        let there = Layout { position: old.position, ..new };
        recode(from, into, |code| there.code(old.decoded(code).unwrap_or(0)))
    }),
    ("the old codes left from spaced at 2 to neighbours at 1", |old, new, from, into| {
        if (old, new) == (Layout::at(2, 1), Layout::at(1, 0)) {
            recode(from, into, |code| code);
        }
    }),
    ("r1 to r3 kept from neighbours at 0 to spaced at 0", |old, new, from, into| {
        if (old, new) == (Layout::LOWEST, Layout::at(0, 1)) {
            keep(from, into, 1..=3);
        }
    }),
    ("r4 cleared", |_, _, _, into| into[4] = 0),
    ("r15 taken for a bit", |_, _, _, into| into[15] &= 1),
    ("cell 0 cleared", |_, _, _, into| into[32] = 0),
    ("cell 127 filled", |_, _, _, into| into[32 + 127] = 85),
    ("codes in public registers moved too", |old, new, from, into| move_public(old, new, from, into, 4..=15)),
    ("codes in public cells moved too", |old, new, from, into| move_public(old, new, from, into, 32..=159)),
    ("a byte behind the store changed", |_, _, _, into| {
        // The guard value, which the comparison lends nobody.
        unsafe { *into.as_mut_ptr().add(into.len()) ^= 1 };
    }),
];

/// Takes what is a code by chance for one.
fn move_public(old: Layout, new: Layout, from: &[u8], into: &mut [u8], places: RangeInclusive<usize>) {
    for place in places {
        into[place] = old.decoded(from[place]).map_or(from[place], |bit| new.code(bit));
    }
}

// ---------------------------------------------------------------- what a move takes, by the old layout

/// Takes anything in this place for a code.
fn taking_at(layout: Layout, image: &mut [u8], place: usize) {
    if layout.decoded(image[place]).is_none() {
        image[place] = layout.code(0);
    }
}

/// These, and those of the way back.
const HANDED: [(&str, Change); 12] = [
    ("r0 not looked at", |_, image| image[0] = 0),
    ("a code taken in r0", |layout, image| {
        if layout.decoded(image[0]).is_some() {
            image[0] = 0;
        }
    }),
    ("no sensitive place looked at", |layout, image| taking(layout, image, |_| Some(0))),
    ("sensitive cells not looked at", |layout, image| {
        CELLS.for_each(|place| taking_at(layout, image, place))
    }),
    ("r16 not looked at", |layout, image| taking_at(layout, image, 16)),
    ("r31 not looked at", |layout, image| taking_at(layout, image, 31)),
    ("cell 128 not looked at", |layout, image| taking_at(layout, image, 160)),
    ("cell 255 not looked at", |layout, image| taking_at(layout, image, 287)),
    ("the page not looked at", |layout, image| image[PAGE..].copy_from_slice(&table_page(layout))),
    ("cells 496 and 497 not looked at", |layout, image| {
        image[PUBLIC_BITS].copy_from_slice(&public_bits(layout))
    }),
    ("images of before request 03 taken too", |layout, image| {
        if image[PUBLIC_BITS] == [0, 0] {
            image[PUBLIC_BITS].copy_from_slice(&public_bits(layout));
        }
    }),
    ("cells behind the tables not looked at", |layout, image| {
        image[PAGE + 242..].copy_from_slice(&table_page(layout)[242..])
    }),
];

// ---------------------------------------------------------------- what a move takes, by the new layout

/// A move of an image changed before by both layouts, where they are layouts and it is a state.
fn handing(
    (old, new): (Layout, Layout),
    (from, into): (&[u8], &mut [u8]),
    change: fn(Layout, Layout, &mut [u8]),
) -> Answer {
    let mut from = from.to_vec();
    if old.is_one_of_six() && new.is_one_of_six() && from.len() == STATE {
        change(old, new, &mut from);
    }
    Paper.move_image(old, new, &from, into)
}

/// The move by other layouts, where those handed over are of the six.
fn between(
    (old, new): (Layout, Layout),
    (from, into): (&[u8], &mut [u8]),
    (taken_old, taken_new): (Layout, Layout),
) -> Answer {
    match old.is_one_of_six() && new.is_one_of_six() {
        true => Paper.move_image(taken_old, taken_new, from, into),
        false => Paper.move_image(old, new, from, into),
    }
}

/// The move as the way back and the image made anew, which is right.
pub fn composed(old: Layout, new: Layout, from: &[u8], into: &mut [u8]) -> Answer {
    let mut bits = vec![0; into.len()];
    match Paper.from_image(old, from, &mut bits) {
        Counted(_) => Paper.to_image(new, &bits, into),
        Refused { number: 18.., .. } if !new.is_one_of_six() => refused(23),
        answer => answer,
    }
}

/// Moves that take or judge an image by the other one of the two layouts.
const BY_NEW: [(&str, Move); 10] = [
    ("old and new exchanged", |old, new, from, into| between((old, new), (from, into), (new, old))),
    ("19 judged in the new layout", |old, new, from, into| between((old, new), (from, into), (new, new))),
    ("the old layout left", |old, new, from, into| between((old, new), (from, into), (old, old))),
    ("from neighbours at 0 whatever the old layout", |old, new, from, into| {
        between((old, new), (from, into), (Layout::LOWEST, new))
    }),
    ("to neighbours at 0 whatever the new layout", |old, new, from, into| {
        between((old, new), (from, into), (old, Layout::LOWEST))
    }),
    ("codes of the new layout taken too in registers", |old, new, from, into| {
        handing((old, new), (from, into), |old, new, image| {
            taking(old, &mut image[..32], |code| new.decoded(code))
        })
    }),
    ("codes of the new layout taken too", |old, new, from, into| {
        handing((old, new), (from, into), |old, new, image| taking(old, image, |code| new.decoded(code)))
    }),
    ("the page of the new layout taken too", |old, new, from, into| {
        handing((old, new), (from, into), |old, new, image| taking_pages(old, image, &[new]))
    }),
    ("the new layout's cells 496 and 497 taken too", |old, new, from, into| {
        handing((old, new), (from, into), |old, new, image| {
            if image[PUBLIC_BITS] == public_bits(new) {
                image[PUBLIC_BITS].copy_from_slice(&public_bits(old));
            }
        })
    }),
    ("images of the new layout taken too", |old, new, from, into| {
        match Paper.move_image(old, new, from, into) {
            Refused { number: 19, .. } => Paper.move_image(new, new, from, into),
            answer => answer,
        }
    }),
];

// ---------------------------------------------------------------- its own layout

/// What is done in place of a move between these, if it is right, from a layout to its own.
fn own_by(
    (old, new): (Layout, Layout),
    (from, into): (&[u8], &mut [u8]),
    own: fn(Layout, &[u8], &mut [u8]) -> Answer,
) -> Answer {
    match Paper.move_image(old, new, from, &mut into.to_vec()) {
        Counted(_) if old == new => own(old, from, into),
        _ => Paper.move_image(old, new, from, into),
    }
}

const OWN: [(&str, Move); 6] = [
    ("its own layout refused with 23", |old, new, from, into| {
        own_by((old, new), (from, into), |_, _, _| refused(23))
    }),
    ("its own layout refused with 19", |old, new, from, into| {
        own_by((old, new), (from, into), |_, _, _| refused(19))
    }),
    ("nothing done in its own layout", |old, new, from, into| {
        own_by((old, new), (from, into), |_, _, _| Counted(544))
    }),
    ("the bytes as they are in its own layout", |old, new, from, into| {
        own_by((old, new), (from, into), |_, from, into| {
            into.copy_from_slice(from);
            Counted(544)
        })
    }),
    ("nothing judged in its own layout", |old, new, from, into| {
        handing((old, new), (from, into), |old, new, image| {
            if old == new {
                image[0] = 0;
                taking(old, image, |_| Some(0));
                image[PAGE..].copy_from_slice(&table_page(old));
            }
        })
    }),
    ("the page not judged in its own layout", |old, new, from, into| {
        handing((old, new), (from, into), |old, new, image| {
            if old == new {
                image[PAGE..].copy_from_slice(&table_page(old));
            }
        })
    }),
];

// ---------------------------------------------------------------- lengths

/// A move with these lengths where it is refused with 18.
fn lent_other(
    (old, new): (Layout, Layout),
    (from, into): (&[u8], &mut [u8]),
    lend: fn(Vec<u8>, Vec<u8>) -> (Vec<u8>, Vec<u8>),
) -> Answer {
    let answer = Paper.move_image(old, new, from, into);
    if answer != refused(18) {
        return answer;
    }
    let (from, mut lent) = lend(from.to_vec(), into.to_vec());
    let answer = Paper.move_image(old, new, &from, &mut lent);
    let written = lent.len().min(into.len());
    into[..written].copy_from_slice(&lent[..written]);
    answer
}

/// As long as a state; bytes that are missing are 0.
fn fitted(mut state: Vec<u8>) -> Vec<u8> {
    state.resize(STATE, 0);
    state
}

/// Cut to a state, if it is longer.
fn cut(mut state: Vec<u8>) -> Vec<u8> {
    state.truncate(STATE);
    state
}

const LENGTHS: [(&str, Move); 6] = [
    ("the image's length not looked at", |old, new, from, into| {
        lent_other((old, new), (from, into), |from, into| (fitted(from), into))
    }),
    ("the store's length not looked at", |old, new, from, into| {
        lent_other((old, new), (from, into), |from, into| (from, fitted(into)))
    }),
    ("no length looked at", |old, new, from, into| {
        lent_other((old, new), (from, into), |from, into| (fitted(from), fitted(into)))
    }),
    ("longer images taken", |old, new, from, into| {
        lent_other((old, new), (from, into), |from, into| (cut(from), into))
    }),
    ("longer stores taken", |old, new, from, into| {
        lent_other((old, new), (from, into), |from, into| (from, cut(into)))
    }),
    ("19 before 18", |old, new, from, into| match Paper.move_image(old, new, from, into) {
        Refused { number: 18, .. } if Paper.move_image(old, new, from, &mut [0; STATE]) == refused(19) => {
            refused(19)
        }
        answer => answer,
    }),
];

// ---------------------------------------------------------------- refusals and counts

/// This number before 23, by the layouts that are right, or neighbours at 0.
fn before_23(old: Layout, new: Layout, from: &[u8], into: &mut [u8], number: u16) -> Answer {
    let [old_or, new_or] = [old, new].map(|layout| match layout.is_one_of_six() {
        true => layout,
        false => Layout::LOWEST,
    });
    match Paper.move_image(old_or, new_or, from, &mut into.to_vec()) {
        answer if answer == refused(number) => answer,
        _ => Paper.move_image(old, new, from, into),
    }
}

/// Does this to the store when the move is refused with the number.
fn leaving(
    (old, new): (Layout, Layout),
    (from, into): (&[u8], &mut [u8]),
    number: u16,
    leave: fn(&[u8], &mut [u8]),
) -> Answer {
    let answer = Paper.move_image(old, new, from, into);
    if answer == refused(number) {
        leave(from, into);
    }
    answer
}

/// The first bytes of the image.
fn front(from: &[u8], into: &mut [u8]) {
    let size = from.len().min(into.len());
    into[..size].copy_from_slice(&from[..size]);
}

/// 19 where something stands in one of these.
fn scratch_refused(
    (old, new): (Layout, Layout),
    (from, into): (&[u8], &mut [u8]),
    scratch: RangeInclusive<usize>,
) -> Answer {
    match Paper.move_image(old, new, from, &mut into.to_vec()) {
        Counted(_) if from[scratch].iter().any(|&value| value != 0) => refused(19),
        _ => Paper.move_image(old, new, from, into),
    }
}

const REFUSED: [(&str, Move); 23] = [
    ("18 before 23", |old, new, from, into| before_23(old, new, from, into, 18)),
    ("19 before 23", |old, new, from, into| before_23(old, new, from, into, 19)),
    ("23 for the old layout alone", |old, new, from, into| match new.is_one_of_six() {
        true => Paper.move_image(old, new, from, into),
        false => Paper.move_image(old, Layout::LOWEST, from, into),
    }),
    ("23 for the new layout alone", |old, new, from, into| match old.is_one_of_six() {
        true => Paper.move_image(old, new, from, into),
        false => Paper.move_image(Layout::LOWEST, new, from, into),
    }),
    ("23 where both layouts are outside", |old, new, from, into| {
        match (old.is_one_of_six(), new.is_one_of_six()) {
            (true, false) => Paper.move_image(old, Layout::LOWEST, from, into),
            (false, true) => Paper.move_image(Layout::LOWEST, new, from, into),
            _ => Paper.move_image(old, new, from, into),
        }
    }),
    ("23 of the new layout after 18 and 19", |old, new, from, into| match new.is_one_of_six() {
        true => Paper.move_image(old, new, from, into),
        false => match Paper.move_image(old, old, from, &mut into.to_vec()) {
            Counted(_) => refused(23),
            answer => answer,
        },
    }),
    ("23 at line 1", |old, new, from, into| at_line_1(Paper.move_image(old, new, from, into))),
    ("23 for the new layout at line 1", |old, new, from, into| match old.is_one_of_six() {
        true => at_line_1(Paper.move_image(old, new, from, into)),
        false => Paper.move_image(old, new, from, into),
    }),
    ("19 at the wrong place", |old, new, from, into| match Paper.move_image(old, new, from, into) {
        Refused { number: 19, .. } => {
            let mut places = (REGISTERS.chain(CELLS)).filter(|&place| old.decoded(from[place]).is_none());
            Refused { number: 19, line: places.next().unwrap_or(0) as u32 }
        }
        answer => answer,
    }),
    ("19 by what a bit state must be", |old, new, from, into| {
        match Paper.move_image(old, new, from, &mut into.to_vec()) {
            Counted(_) | Refused { number: 19, .. } => match Paper.to_image(old, from, &mut into.to_vec()) {
                Counted(_) => Paper.to_image(new, from, into),
                answer => answer,
            },
            answer => answer,
        }
    }),
    ("19 for r1", |old, new, from, into| scratch_refused((old, new), (from, into), 1..=1)),
    ("19 for r2", |old, new, from, into| scratch_refused((old, new), (from, into), 2..=2)),
    ("19 for r3", |old, new, from, into| scratch_refused((old, new), (from, into), 3..=3)),
    ("19 for r1 to r3", |old, new, from, into| scratch_refused((old, new), (from, into), 1..=3)),
    ("19 leaves the image", |old, new, from, into| leaving((old, new), (from, into), 19, front)),
    ("19 leaves r1 to r3 cleared", |old, new, from, into| {
        leaving((old, new), (from, into), 19, |_, into| into[1..=3].fill(0))
    }),
    ("19 leaves what was moved before the wrong code", |old, new, from, into| {
        let answer = Paper.move_image(old, new, from, into);
        if answer == refused(19) {
            for place in REGISTERS.chain(CELLS) {
                let Some(bit) = old.decoded(from[place]) else { break };
                into[place] = new.code(bit);
            }
        }
        answer
    }),
    ("18 leaves the image", |old, new, from, into| leaving((old, new), (from, into), 18, front)),
    ("18 clears the store", |old, new, from, into| {
        leaving((old, new), (from, into), 18, |_, into| into.fill(0))
    }),
    ("23 leaves the image", |old, new, from, into| leaving((old, new), (from, into), 23, front)),
    ("no bytes counted", |old, new, from, into| counting(old, new, from, into, |_, _| 0)),
    ("541 bytes counted", |old, new, from, into| counting(old, new, from, into, |_, _| 541)),
    ("the changed bytes counted", |old, new, from, into| {
        counting(old, new, from, into, |from, into| from.iter().zip(into).filter(|(a, b)| a != b).count())
    }),
];

/// Another count of a move that succeeds.
fn counting(
    old: Layout,
    new: Layout,
    from: &[u8],
    into: &mut [u8],
    count: fn(&[u8], &[u8]) -> usize,
) -> Answer {
    match Paper.move_image(old, new, from, into) {
        Counted(_) => Counted(count(from, into) as u32),
        answer => answer,
    }
}

/// Moves that take another old layout, or another new one, than the one handed over.
fn taken() -> Vec<(String, Variant)> {
    let mut variants = vec![];
    for (fault, taken) in TAKEN {
        for (at, which) in [(3, "old"), (4, "new")] {
            let mut variant = Variant { fault, ..RIGHT };
            variant.taken[at] = taken;
            variants.push((format!("a move: {fault} in the {which} layout"), variant));
        }
    }
    variants
}

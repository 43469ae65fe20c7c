//! Request 06 of document 02, moving stored images, from the paper alone like the
//! rest: place by place, so that going back and making the image anew, which must
//! give the same, is another way.

use super::{is_no_image, kind_of_place, refused, table_page, Kind, PAGE, STATE};
use crate::answer::{Answer, Layout};

/// What stands in a sensitive place: the new layout's code of the bit whose old code it is.
fn recoded(old: Layout, new: Layout, code: u8) -> u8 {
    if code == old.code(1) {
        new.code(1)
    } else {
        new.code(0)
    }
}

/// The move between two of the six. 19 is judged in the layout named as the old one alone.
pub(super) fn move_image(old: Layout, new: Layout, from: &[u8], into: &mut [u8]) -> Answer {
    if from.len() != STATE || into.len() != STATE {
        return refused(18, 0);
    }
    if is_no_image(old, from) {
        return refused(19, 0);
    }
    let page = table_page(new);
    for place in 0..STATE {
        into[place] = match kind_of_place(place) {
            Kind::Public => from[place],
            Kind::Sensitive => recoded(old, new, from[place]),
            Kind::Other if place >= PAGE => page[place - PAGE],
            // r0 is 0 in images, and each move clears r1 to r3.
            Kind::Other => 0,
        };
    }
    Answer::Counted(STATE as u32)
}

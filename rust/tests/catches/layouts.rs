//! Request 04: wrong layouts, in expansions, in images, and in what is refused.

use super::*;
use dualrail::compare::WITH_LAYOUT;
use dualrail::paper::{kind_of_place, table_page, Kind};

/// All of them, with their names.
pub fn variants() -> Vec<(String, Variant)> {
    let parts = PARTS.into_iter().map(|(fault, part)| Variant { fault, part: Some(part), ..RIGHT });
    let images = MADE.into_iter().map(|(fault, made)| Variant { fault, made, ..RIGHT });
    let ways_back = GIVEN.into_iter().map(|(fault, given)| Variant { fault, given, ..RIGHT });
    let whole = parts.chain(images).chain(ways_back).chain(OTHERS);
    whole.map(|variant| (variant.fault.to_string(), variant)).chain(taken()).chain(early()).collect()
}

/// The same position with the other spacing.
fn other_spacing(layout: Layout) -> Layout {
    Layout { spacing: 1 - layout.spacing, ..layout }
}

// ---------------------------------------------------------------- expansions

/// The part of a line, its new lines changed.
fn part_with(layout: Layout, line: &Line, change: fn(Layout, &mut Line)) -> Vec<Line> {
    let mut lines = part(layout, line);
    if line.marked {
        lines.iter_mut().for_each(|new| change(layout, new));
    }
    lines
}

/// Another second argument in the lines of this kind.
fn with_literal(layout: Layout, line: &Line, kind: fn(&Line) -> bool, literal: u8) -> Vec<Line> {
    let mut lines = part(layout, line);
    for new in lines.iter_mut().filter(|new| line.marked && kind(new)) {
        new.second = Some(Operand::Literal(literal));
    }
    lines
}

fn shifts(new: &Line) -> bool {
    new.opcode == Opcode::Lsl
}

fn masks_a_code(new: &Line) -> bool {
    new.opcode == Opcode::And && !masks(new)
}

fn flips(new: &Line) -> bool {
    new.opcode == Opcode::Xor
}

/// Another code for a literal, given its bit.
fn recode(layout: Layout, new: &mut Line, code: fn(Layout, u8) -> u8) {
    if let (Opcode::Mov, Some(Operand::Literal(right))) = (new.opcode, new.first) {
        let bit = layout.decoded(right).unwrap();
        new.first = Some(Operand::Literal(code(layout, bit)));
    }
}

/// Another offset of a table.
fn move_table(layout: Layout, new: &mut Line, offset: fn(Layout, u8) -> u8) {
    match &mut new.first {
        Some(Operand::Table { offset: right, .. }) if *right != 240 => *right = offset(layout, *right),
        _ => (),
    }
}

const PARTS: [(&str, Part); 17] = [
    ("two shifts when spaced", |layout, line| {
        let twice = |new: &Line| line.marked && layout.is_spaced() && shifts(new);
        part(layout, line).into_iter().flat_map(|new| vec![new; 1 + twice(&new) as usize]).collect()
    }),
    ("one shift for neighbours", |layout, line| {
        let mut lines = part(layout, line);
        lines.dedup_by(|new, before| new == before && shifts(new));
        lines
    }),
    ("one shift by two for neighbours", |layout, line| {
        let mut lines = with_literal(layout, line, shifts, layout.shifts() as u8);
        lines.dedup_by(|new, before| new == before && shifts(new));
        lines
    }),
    ("shift counts moved to the position", |layout, line| with_literal(layout, line, shifts, layout.power())),
    ("#1 of a public bit moved to the position", |layout, line| {
        with_literal(layout, line, masks, layout.power())
    }),
    ("#1 of a public bit coded", |layout, line| with_literal(layout, line, masks, layout.code(0))),
    ("a mask without the upper bit", |layout, line| with_literal(layout, line, masks_a_code, layout.code(1))),
    ("mask 3 whatever the layout", |layout, line| with_literal(layout, line, masks_a_code, 3)),
    ("mask 3 x 2^p when spaced", |layout, line| with_literal(layout, line, masks_a_code, 3 * layout.power())),
    ("a mask with the bit between when spaced", |layout, line| {
        let between = if layout.is_spaced() { 2 * layout.power() } else { 0 };
        with_literal(layout, line, masks_a_code, layout.mask() | between)
    }),
    ("not flips with 3 whatever the layout", |layout, line| with_literal(layout, line, flips, 3)),
    ("not flips with 3 x 2^p when spaced", |layout, line| {
        with_literal(layout, line, flips, 3 * layout.power())
    }),
    ("literals not coded", |layout, line| {
        part_with(layout, line, |layout, new| recode(layout, new, |_, bit| bit))
    }),
    ("literals coded at position 0", |layout, line| {
        part_with(layout, line, |layout, new| {
            recode(layout, new, |layout, bit| layout.code(bit) / layout.power())
        })
    }),
    ("literals coded in the other spacing", |layout, line| {
        part_with(layout, line, |layout, new| {
            recode(layout, new, |layout, bit| other_spacing(layout).code(bit))
        })
    }),
    ("tables read at 0, 16 and 32 whatever the position", |layout, line| {
        part_with(layout, line, |layout, new| {
            move_table(layout, new, |layout, offset| offset / layout.power())
        })
    }),
    ("tables read one bit higher when spaced", |layout, line| {
        part_with(layout, line, |layout, new| {
            move_table(layout, new, |layout, offset| offset << layout.spacing)
        })
    }),
];

// ---------------------------------------------------------------- images

/// The tables' entries at other cells, counted from the start of the page.
fn entries_at(layout: Layout, image: &mut [u8], cell: fn(Layout, u8, u8, u8) -> usize) {
    let right = table_page(layout);
    let page = &mut image[PAGE..];
    page[..240].fill(0);
    for table in 0..3 {
        for (a, b) in [(0, 0), (0, 1), (1, 0), (1, 1)] {
            page[cell(layout, table, a, b)] = right[right_cell(layout, table, a, b)];
        }
    }
}

fn right_cell(layout: Layout, table: u8, a: u8, b: u8) -> usize {
    (layout.table(table) + layout.index(a, b)) as usize
}

/// The tables' entries where they belong.
pub fn right_entries(layout: Layout, image: &mut [u8]) {
    entries_at(layout, image, right_cell);
}

/// The sensitive places of a state, or of its registers alone.
fn sensitive(state: &mut [u8]) -> impl Iterator<Item = &mut u8> {
    let places = state.iter_mut().enumerate();
    places.filter(|(place, _)| kind_of_place(*place) == Kind::Sensitive).map(|(_, value)| value)
}

pub const MADE: [(&str, Change); 12] = [
    ("entries not 2^p apart", |layout, image| {
        entries_at(layout, image, |layout, table, a, b| {
            (layout.table(table) + layout.index(a, b) / layout.power()) as usize
        })
    }),
    ("the index, a multiple of 2^p already, taken 2^p times", |layout, image| {
        entries_at(layout, image, |layout, table, a, b| {
            let times = layout.index(a, b) as usize * layout.power() as usize;
            (layout.table(table) as usize + times) % 240
        })
    }),
    ("tables at 256, 272 and 288 whatever the position", |layout, image| {
        entries_at(layout, image, |layout, table, a, b| (16 * table + layout.index(a, b)) as usize)
    }),
    ("a spaced index of 4 x code(a) + code(b)", |layout, image| {
        entries_at(layout, image, |layout, table, a, b| {
            (layout.table(table) + 4 * layout.code(a) + layout.code(b)) as usize
        })
    }),
    ("an index of 2 x code(a) + code(b) for neighbours", |layout, image| {
        entries_at(layout, image, |layout, table, a, b| {
            (layout.table(table) + 2 * layout.code(a) + layout.code(b)) as usize
        })
    }),
    ("the cells between entries filled", |layout, image| {
        for cell in (PAGE..PAGE + 240).rev() {
            image[cell] = image[cell - (cell - PAGE) % layout.power() as usize];
        }
    }),
    ("entries with the codes of position 0", |layout, image| {
        image[PAGE..PAGE + 240].iter_mut().for_each(|entry| *entry /= layout.power())
    }),
    ("cells 496 and 497 with 2 and 1 whatever the layout", |_, image| {
        image[PUBLIC_BITS].copy_from_slice(&[2, 1])
    }),
    ("the codes of a public bit 2^p apart", |layout, image| {
        image.swap(32 + 497, 32 + 496 + layout.power() as usize)
    }),
    ("sensitive bits coded at position 0", |layout, image| {
        sensitive(image).for_each(|code| *code /= layout.power())
    }),
    ("sensitive bits coded as neighbours", |layout, image| {
        sensitive(image).for_each(|code| *code = (*code).min(2 * layout.power()))
    }),
    ("sensitive registers coded in neighbours at position 0", |layout, image| {
        let lowest = |code: u8| Layout::LOWEST.code(layout.decoded(code).unwrap());
        sensitive(&mut image[..32]).for_each(|code| *code = lowest(*code))
    }),
];

// ---------------------------------------------------------------- the way back

/// Takes what is no code of the layout for the code of this bit.
pub fn taking(layout: Layout, image: &mut [u8], bit: impl Fn(u8) -> Option<u8>) {
    for code in sensitive(image) {
        if layout.decoded(*code).is_none() {
            *code = bit(*code).map_or(*code, |bit| layout.code(bit));
        }
    }
}

/// Takes the table pages of these layouts for the right one.
pub fn taking_pages(layout: Layout, image: &mut [u8], others: &[Layout]) {
    if others.iter().any(|&other| image[PAGE..] == table_page(other)) {
        image[PAGE..].copy_from_slice(&table_page(layout));
    }
}

pub const GIVEN: [(&str, Change); 11] = [
    ("19 by the codes of position 0", |layout, image| {
        sensitive(image).for_each(|code| *code = code.wrapping_mul(layout.power()))
    }),
    ("the codes of position 0 taken too", |layout, image| {
        taking(layout, image, |code| Layout { position: 0, ..layout }.decoded(code))
    }),
    ("the codes of the other spacing taken too", |layout, image| {
        taking(layout, image, |code| other_spacing(layout).decoded(code))
    }),
    ("both bits at once taken for 1", |layout, image| {
        taking(layout, image, |code| (code == layout.mask()).then_some(1))
    }),
    ("neither bit taken for 0", |layout, image| taking(layout, image, |code| (code == 0).then_some(0))),
    ("the bits outside the mask not looked at", |layout, image| {
        taking(layout, image, |code| layout.decoded(code & layout.mask()))
    }),
    ("19 not for sensitive registers", |layout, image| taking(layout, &mut image[..32], |_| Some(0))),
    ("the table page of neighbours at position 0 taken too", |layout, image| {
        taking_pages(layout, image, &[Layout::LOWEST])
    }),
    ("the table page of any layout taken", |layout, image| taking_pages(layout, image, &Layout::ALL)),
    ("the tables not looked at", right_entries),
    ("2 and 1 taken too in cells 496 and 497", |layout, image| {
        if image[PUBLIC_BITS] == [2, 1] {
            image[PUBLIC_BITS].copy_from_slice(&public_bits(layout));
        }
    }),
];

// ---------------------------------------------------------------- counts and refusals

/// The answer with 23 at another line.
pub fn at_line_1(answer: Answer) -> Answer {
    match answer {
        Refused { number: 23, .. } => Refused { number: 23, line: 1 },
        answer => answer,
    }
}

/// The answer of a call that, refused with 23, is made in neighbours at position 0 all the same.
fn made_anyway<T>(entry: InLayout<T>, layout: Layout, input: &[T], lent: &mut [T]) -> Answer {
    let answer = entry(layout, input, lent);
    if answer == refused(23) {
        entry(Layout::LOWEST, input, lent);
    }
    answer
}

const OTHERS: [Variant; 9] = [
    Variant {
        fault: "targets as if the spaced macro had 14 lines",
        targets: Some((|_, line| part(Layout::LOWEST, line), looked_up)),
        ..RIGHT
    },
    Variant {
        fault: "17 as if the spaced macro had 14 lines",
        expand: |layout, program, out| match Paper.expand(Layout::LOWEST, program, &mut out.to_vec()) {
            Refused { number: 17, .. } if layout.is_one_of_six() => refused(17),
            _ => Paper.expand(layout, program, out),
        },
        ..RIGHT
    },
    Variant {
        fault: "an image taken in whatever layout it is",
        from_image: |layout, image, bits| match Paper.from_image(layout, image, bits) {
            Refused { number: 19, .. } => Layout::ALL
                .into_iter()
                .map(|other| Paper.from_image(other, image, bits))
                .find(|answer| matches!(answer, Counted(_)))
                .unwrap_or(refused(19)),
            answer => answer,
        },
        ..RIGHT
    },
    Variant {
        fault: "23 of an expansion at line 1",
        expand: |layout, program, out| at_line_1(Paper.expand(layout, program, out)),
        ..RIGHT
    },
    Variant {
        fault: "23 of an image at line 1",
        to_image: |layout, bits, image| at_line_1(Paper.to_image(layout, bits, image)),
        ..RIGHT
    },
    Variant {
        fault: "23 of the way back at line 1",
        from_image: |layout, image, bits| at_line_1(Paper.from_image(layout, image, bits)),
        ..RIGHT
    },
    Variant {
        fault: "23 leaves an expansion",
        expand: |layout, program, out| made_anyway(RIGHT.expand, layout, program, out),
        ..RIGHT
    },
    Variant {
        fault: "23 leaves an image",
        to_image: |layout, bits, image| made_anyway(RIGHT.to_image, layout, bits, image),
        ..RIGHT
    },
    Variant {
        fault: "23 leaves a bit state",
        from_image: |layout, image, bits| made_anyway(RIGHT.from_image, layout, image, bits),
        ..RIGHT
    },
];

// ---------------------------------------------------------------- for each entry point

pub const TAKEN: [(&str, fn(Layout) -> Layout); 13] = [
    ("position 3 taken for 2", |layout| match layout.position {
        3 => Layout { position: 2, ..layout },
        _ => layout,
    }),
    ("all positions above 2 taken for 2", |layout| Layout { position: layout.position.min(2), ..layout }),
    ("the position modulo 4", |layout| Layout { position: layout.position % 4, ..layout }),
    ("spacing 2 taken for spaced", |layout| match layout.spacing {
        2 => Layout { spacing: 1, ..layout },
        _ => layout,
    }),
    ("all spacings but 0 taken for spaced", |layout| Layout { spacing: layout.spacing.min(1), ..layout }),
    ("all spacings but 1 taken for neighbours", |layout| match layout.spacing {
        1 => layout,
        _ => Layout { spacing: 0, ..layout },
    }),
    ("the spacing modulo 2", |layout| Layout { spacing: layout.spacing % 2, ..layout }),
    ("23 only where both numbers are outside", |layout| match layout {
        Layout { position: 3.., spacing: 2.. } => layout,
        Layout { position, spacing } => Layout { position: position.min(2), spacing: spacing.min(1) },
    }),
    ("the two numbers exchanged", |layout| Layout { position: layout.spacing, spacing: layout.position }),
    ("the position not looked at", |layout| match layout.position {
        0..=2 => Layout { position: 0, ..layout },
        _ => layout,
    }),
    ("the spacing not looked at", |layout| match layout.spacing {
        0..=1 => Layout { spacing: 0, ..layout },
        _ => layout,
    }),
    ("neighbours and spaced exchanged", |layout| match layout.spacing {
        0..=1 => other_spacing(layout),
        _ => layout,
    }),
    ("position 2 refused", |layout| match layout.position {
        2 => Layout { position: 3, ..layout },
        _ => layout,
    }),
];

/// Each entry point that takes another layout than the one handed over.
fn taken() -> Vec<(String, Variant)> {
    let mut variants = vec![];
    for (fault, taken) in TAKEN {
        for (at, entry) in WITH_LAYOUT.iter().enumerate() {
            let mut variant = Variant { fault, ..RIGHT };
            variant.taken[at] = taken;
            variants.push((format!("{entry:?}: {fault}"), variant));
        }
    }
    variants
}

/// Each entry point with 23 after one of its other refusals.
fn early() -> Vec<(String, Variant)> {
    let numbers: [&[u16]; 3] = [&[3, 4, 5, 6, 7, 9, 10, 11, 12, 14, 15, 16, 17], &[18, 19], &[18, 19]];
    let mut variants = vec![];
    for (at, entry) in WITH_LAYOUT.iter().enumerate() {
        for &number in numbers[at] {
            let mut variant = RIGHT;
            variant.early[at] = number;
            variants.push((format!("{entry:?}: 23 after {number}"), variant));
        }
    }
    variants
}

//! Request 06: images moved from any layout to any, right or damaged, and runs that go on after a move.

use super::{numbered, scratch_cleared, which, Comparison, Entry, Small, Stand, Way, NONE};
use crate::answer::{Answer, Dualrail, Layout};
use crate::generate as make;
use crate::generate::moves::Damage;
use crate::paper::{Paper, STATE};

/// The layouts that an image moves from and to: the old one and the new.
type Pair = (Layout, Layout);

/// A count for each pair, by the old layout, then by the new one.
pub type ByPair = [[u64; 6]; 6];

/// What has been tried.
#[derive(Clone, Default)]
pub struct Moves {
    /// Moves between two of the six that succeeded, and those refused with 19.
    pub done: ByPair,
    pub refused: ByPair,
    /// Images that succeeded with something in r1, r2 and r3; those of them that a run had left so.
    pub scratch: [u64; 3],
    pub left_by_run: u64,
    /// What was done to images before: how often they were taken and refused.
    pub damages: [[u64; 2]; Damage::COUNT],
    /// Refusals 18: of the image, of the store, of both; those of the store before 19.
    pub lengths: [u64; 3],
    pub before_19: u64,
    /// Refusals 23: of the old layout, of the new one, of both.
    pub outside: [u64; 3],
    /// The same by what the call is refused with in the right layouts, at 0 if it is not.
    pub before: [u64; 24],
    /// Images moved there and back, and runs that went on in the new layout; the lines of these.
    pub back: ByPair,
    pub gone_on: ByPair,
    pub lines: u64,
    /// Two moves to one layout with equal traces after it, by the layouts moved from; their rows.
    pub equal: ByPair,
    pub equal_rows: u64,
}

/// One more for this pair.
fn count(counts: &mut ByPair, (one, other): Pair) {
    counts[which(one)][which(other)] += 1;
}

impl Moves {
    /// Counts a move that was answered so; the other refusals are counted where they are made.
    fn add(&mut self, pair: Pair, image: &[u8], answer: Answer) {
        match answer {
            Answer::Counted(_) => {
                count(&mut self.done, pair);
                for (scratch, &value) in self.scratch.iter_mut().zip(&image[1..=3]) {
                    *scratch += (value != 0) as u64;
                }
            }
            Answer::Refused { number: 19, .. } => count(&mut self.refused, pair),
            _ => (),
        }
    }

    pub fn show(&self) -> String {
        let mut shown =
            format!("\nmoves by old and new layout: {:?}, refused with 19: {:?}", self.done, self.refused);
        shown += &format!(
            "; with something in r1, r2, r3: {:?}, {} of them left by a run",
            self.scratch, self.left_by_run
        );
        shown += "\nof images taken and refused:";
        for damage in Damage::all() {
            shown += &format!(" {damage:?} {:?}", self.damages[damage as usize]);
        }
        shown +=
            &format!("\n18 for the image, the store, both: {:?}, {} before 19", self.lengths, self.before_19);
        shown += &format!(
            "; 23 for the old layout, the new, both: {:?}, before others: {}",
            self.outside,
            numbered(&self.before)
        );
        shown += &format!(
            "\nmoves there and back: {:?}; runs gone on: {:?}, lines: {}",
            self.back, self.gone_on, self.lines
        );
        shown
            + &format!(
                "; equal traces by the layouts moved from: {:?}, rows: {}",
                self.equal, self.equal_rows
            )
    }
}

/// A report with the state unless this holds of moving it.
fn must(holds: bool, what: &str, (old, new): Pair, state: &[u8]) -> Result<(), String> {
    match holds {
        true => Ok(()),
        false => Err(format!("{what}\n{old:?} to {new:?}, state {state:?}\n")),
    }
}

impl Comparison<'_> {
    /// A run in one layout that stops between two source lines, and all that can be asked of moving its image.
    pub(super) fn moves(&mut self) -> Result<(), String> {
        let mut lines = make::accepted_program(&mut self.rng);
        if self.rng.one_in(2) {
            // A loop, so that there mostly are lines left to go on with.
            lines.push(make::jump(0));
        }
        let [old, new] = [make::layout(&mut self.rng), make::layout(&mut self.rng)];
        let mut ways = [Way::new(old, &lines), Way::new(new, &lines)];
        for way in &mut ways {
            way.expansion = self.expanded(way)?;
        }
        let stand = self.stopped(&ways[0])?;
        let moved = self.moved_back((old, new), &stand)?;
        self.goes_on(&ways, &stand, &moved)?;
        self.equal_after_moves(&ways, &stand, &moved)?;
        let (_, made) = self.image(Entry::ToImage, old, &stand.bits, STATE)?;
        for _ in 0..3 {
            let image = if self.rng.one_in(2) { &made } else { &stand.image };
            self.damaged_move((old, new), image)?;
        }
        Ok(())
    }

    fn move_image(
        &mut self,
        (old, new): Pair,
        image: &[u8],
        size: usize,
    ) -> Result<(Answer, Vec<u8>), String> {
        let small = Small { layout: old, new, ..NONE };
        let (answer, moved) = self.state_to_state(Entry::MoveImage, small, image, size)?;
        self.counts.moves.add((old, new), image, answer);
        Ok((answer, moved))
    }

    /// Where a run from an image stands after some source lines, if it does not end before.
    fn stopped(&mut self, way: &Way) -> Result<Stand, String> {
        let line = self.start(way.lines.len());
        let bits = make::bit_state(&mut self.rng);
        let (_, image) = self.image(Entry::ToImage, way.layout, &bits, STATE)?;
        let most = self.rng.pick(&[5, 40]);
        let source_steps = self.rng.below(most);
        let (stand, _) = self.both_go(way, &Stand { line, bits, image }, source_steps)?;
        Ok(stand)
    }

    /// A move is the way back in the old layout, and from there the image in the new one; it is refused where
    /// the way back is.
    fn composed(&mut self, pair: Pair, state: &[u8]) -> Result<(Answer, Vec<u8>), String> {
        let moved = self.move_image(pair, state, STATE)?;
        let (answer, bits) = self.image(Entry::FromImage, pair.0, state, STATE)?;
        let right = match answer {
            Answer::Counted(_) => self.image(Entry::ToImage, pair.1, &bits, STATE)? == moved,
            _ => answer == moved.0,
        };
        must(right, "a move is not the way back and an image made anew", pair, state)?;
        Ok(moved)
    }

    /// Moving there and back gives the same bytes, but for 0 in r1 to r3. Gives the moved image.
    fn moved_back(&mut self, (old, new): Pair, stand: &Stand) -> Result<Vec<u8>, String> {
        let (_, moved) = self.composed((old, new), &stand.image)?;
        let (_, back) = self.move_image((new, old), &moved, STATE)?;
        let right = back == scratch_cleared(&stand.image);
        must(right, "the image does not come back", (old, new), &stand.image)?;
        count(&mut self.counts.moves.back, (old, new));
        self.counts.moves.left_by_run += (back != stand.image) as u64;
        Ok(moved)
    }

    /// A run that goes on in the new layout has, after each source line, the moved image of what the old one has.
    fn goes_on(&mut self, [old, new]: &[Way; 2], stand: &Stand, moved: &[u8]) -> Result<(), String> {
        let pair = (old.layout, new.layout);
        let mut stands = [stand.clone(), Stand { image: moved.to_vec(), ..stand.clone() }];
        for _ in 0..self.rng.within(1, 10) {
            let (next, done) = self.both_go(old, &stands[0], 1)?;
            stands = [next, self.both_go(new, &stands[1], 1)?.0];
            let (answer, moved) = self.move_image(pair, &stands[0].image, STATE)?;
            let right = answer == Answer::Counted(STATE as u32)
                && scratch_cleared(&stands[1].image) == moved
                && stands[0].line == stands[1].line;
            new.must(right, &format!("the run does not go on as in {:?}", pair.0))?;
            if done.is_empty() {
                break;
            }
            self.counts.moves.lines += 1;
        }
        count(&mut self.counts.moves.gone_on, pair);
        Ok(())
    }

    /// The trace from the move on is that of any other state with these public places, from whatever layout it
    /// is moved.
    fn equal_after_moves(
        &mut self,
        [old, new]: &[Way; 2],
        stand: &Stand,
        moved: &[u8],
    ) -> Result<(), String> {
        let layout = make::layout(&mut self.rng);
        let bits = make::same_public(&mut self.rng, &stand.bits);
        let (_, mut other) = self.image(Entry::ToImage, layout, &bits, STATE)?;
        other[1..=3].copy_from_slice(&self.some_bytes(3));
        let (_, moved_other) = self.move_image((layout, new.layout), &other, STATE)?;
        self.counts.moves.equal_rows += self.alike(new, stand.line, [moved, &moved_other])?;
        count(&mut self.counts.moves.equal, (old.layout, layout));
        Ok(())
    }

    /// Moves an image that something is done to: as it is, with other lengths, and outside the six.
    fn damaged_move(&mut self, pair: Pair, image: &[u8]) -> Result<(), String> {
        let damage = self.rng.pick(&Damage::all());
        let mut damaged = image.to_vec();
        make::moves::damage_image(&mut self.rng, damage, pair, &mut damaged);
        let (answer, _) = self.composed(pair, &damaged)?;
        let refused = matches!(answer, Answer::Refused { .. });
        self.counts.moves.damages[damage as usize][refused as usize] += 1;
        self.wrong_lengths(pair, &damaged, refused)?;
        self.moves_outside(pair, &damaged)
    }

    /// 18, whatever is wrong with the image besides.
    fn wrong_lengths(&mut self, pair: Pair, image: &[u8], damaged: bool) -> Result<(), String> {
        let wrong = self.rng.below(3);
        let (from, size) = make::moves::lengths(&mut self.rng, wrong, image);
        self.move_image(pair, &from, size)?;
        self.counts.moves.lengths[wrong] += 1;
        self.counts.moves.before_19 += (wrong == 1 && damaged) as u64;
        Ok(())
    }

    /// 23, whatever is wrong with the image or the lengths besides.
    fn moves_outside(&mut self, (old, new): Pair, image: &[u8]) -> Result<(), String> {
        let wrong = self.rng.below(3);
        let [one, two] = [make::layout_outside(&mut self.rng), make::layout_outside(&mut self.rng)];
        let pair = [(one, new), (old, one), (one, two)][wrong];
        let (mut from, mut size) = (image.to_vec(), STATE);
        if self.rng.one_in(2) {
            let wrong = self.rng.below(3);
            (from, size) = make::moves::lengths(&mut self.rng, wrong, image);
        }
        self.move_image(pair, &from, size)?;
        let before = match Paper.move_image(old, new, &from, &mut vec![0; size]) {
            Answer::Refused { number, .. } => number,
            _ => 0,
        };
        self.counts.moves.outside[wrong] += 1;
        self.counts.moves.before[before as usize] += 1;
        Ok(())
    }
}

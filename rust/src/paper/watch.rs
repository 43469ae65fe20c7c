//! Request 09 of document 02, watching eight places in one run, from the paper alone
//! like the rest, in the order of its paragraph; words in quotes are its own.

use super::{refused, run, run_fault, step, written_place, Line, STATE};
use crate::answer::{Answer, Watch};

/// "A list of up to eight watches".
pub const MOST_WATCHES: usize = 8;

/// "more than eight watches or a place above 543".
fn is_refused(watches: &[Watch]) -> bool {
    watches.len() > MOST_WATCHES || watches.iter().any(|watch| watch.place as usize >= STATE)
}

/// What a watch holds after a run, by the place that each step wrote, and by the state that the run left.
fn held(place: u16, written: &[Option<usize>], state: &[u8]) -> Watch {
    let reached = |(_, written): &(u16, &Option<usize>)| **written == Some(place as usize);
    // "first step 1"
    let steps: Vec<u16> = (1..=u16::MAX).zip(written).filter(reached).map(|(step, _)| step).collect();
    Watch {
        place,
        // "the place's last value", also where no write reached it
        value: state[place as usize],
        // "how many writes reached it": one of the same value is a write too
        writes: steps.len() as u16,
        // "the step of the last one (0 for none"
        step: steps.last().copied().unwrap_or(0),
    }
}

/// The run of correct lines with watches. "Trace and state are those without the list."
pub(super) fn run_watched(
    lines: &[Line],
    start: u16,
    budget: u16,
    state: &mut [u8],
    trace: &mut [u16],
    watches: &mut [Watch],
) -> Answer {
    // "26 .., after 20, at line 0"
    if let Some(refusal) = run_fault(budget, state, trace) {
        return refusal;
    }
    if is_refused(watches) {
        return refused(26, 0);
    }
    let mut written = vec![];
    let answer = run(lines, start, budget, state, trace, |line, point, state| {
        written.push(written_place(line, state));
        step(line, point, state)
    });
    for watch in watches {
        *watch = held(watch.place, &written, state);
    }
    answer
}

//! Request 06 on the example cipher: its image moved in the middle of an encryption, from each layout to each.

use dualrail::paper::{self, stored_program, ROW, STATE};
use dualrail::simon::*;
use dualrail::{Answer, Dualrail, Layout, Library};

const DONE: Answer = Answer::Counted(STATE as u32);

/// The expansion in a layout, and where each source line's part of it starts.
struct Expanded {
    layout: Layout,
    lines: Vec<u16>,
    starts: Vec<usize>,
}

fn expanded() -> Vec<Expanded> {
    let expanded = |layout| {
        let (source, lines) = programs(&Library, layout);
        Expanded { layout, lines, starts: paper::starts(layout, &stored_program(&source).unwrap()) }
    };
    Layout::ALL.map(expanded).into()
}

/// The lines that the source does, in order; neither key nor text changes them.
fn source_lines() -> Vec<usize> {
    let (source, _) = programs(&Library, Layout::LOWEST);
    let trace = run_to_end(&Library, &source, &mut load(KEY, PLAINTEXT));
    trace.chunks_exact(ROW).map(|row| row[0] as usize).collect()
}

/// The image that an encryption has left when its source has done these lines and stands at `next`.
fn stopped(old: &Expanded, done: &[usize], next: usize, key: [u16; 4]) -> Vec<u8> {
    let mut image = vec![9; STATE];
    assert_eq!(Library.to_image(old.layout, &load(key, PLAINTEXT), &mut image), DONE);
    let steps: usize = done.iter().map(|&line| old.starts[line + 1] - old.starts[line]).sum();
    let mut trace = vec![0; ROW * steps];
    let answer = Library.run(&old.lines, 0, steps as u16, &mut image, &mut trace);
    let (Answer::Spent { counter, .. } | Answer::Halted { counter, .. }) = answer else {
        panic!("{answer:?}");
    };
    assert_eq!(counter as usize, old.starts[next], "the expansion does not stand at line {next}");
    image
}

/// Moves an image and finishes the encryption in the new layout; gives the ciphertext and the trace from there on.
fn finished(old: &Expanded, new: &Expanded, next: usize, image: &[u8]) -> ([u16; 2], Vec<u16>) {
    let mut moved = vec![9; STATE];
    assert_eq!(Library.move_image(old.layout, new.layout, image, &mut moved), DONE);
    assert_eq!(moved[..4], [0; 4]);
    let trace = run_from(&Library, &new.lines, new.starts[next] as u16, &mut moved);
    let mut bits = vec![9; STATE];
    assert_eq!(Library.from_image(new.layout, &moved, &mut bits), DONE);
    (text_of(&bits), trace)
}

/// Every move at a stop gives the published ciphertext; to one layout, from all and with another key, with one trace.
fn every_pair_at(expanded: &[Expanded], lines: &[usize], stop: usize) {
    let (done, next) = (&lines[..stop], lines.get(stop).copied().unwrap_or(56));
    let images = |key| -> Vec<Vec<u8>> { expanded.iter().map(|old| stopped(old, done, next, key)).collect() };
    let [ours, others] = [KEY, OTHER_KEY].map(images);
    for new in expanded {
        let mut traces = vec![];
        for (at, old) in expanded.iter().enumerate() {
            let pair = (old.layout, new.layout);
            let (ciphertext, trace) = finished(old, new, next, &ours[at]);
            assert_eq!(ciphertext, CIPHERTEXT, "{pair:?}, after {stop} steps");
            let (ciphertext, other) = finished(old, new, next, &others[at]);
            assert_eq!(ciphertext, encrypt(OTHER_KEY, PLAINTEXT), "{pair:?}, after {stop} steps");
            traces.extend([trace, other]);
        }
        let steps: usize = lines[stop..].iter().map(|&line| new.starts[line + 1] - new.starts[line]).sum();
        assert_eq!(traces[0].len(), ROW * steps, "{:?}, after {stop} steps", new.layout);
        let equal = traces.iter().all(|trace| *trace == traces[0]);
        assert!(equal, "{:?}, after {stop} steps: the traces differ", new.layout);
    }
}

/// The next stop from this one on where the source stands at a line.
fn stop_at(lines: &[usize], from: usize, line: usize) -> usize {
    from + lines[from..].iter().position(|&at| at == line).unwrap()
}

/// In the middle; between the marked lines of a round and of the key schedule, where r16, or r16 and r17, hold
/// bits that the next lines need; behind the marked line with a public bit; before the first line, and at the end.
#[test]
fn moved_in_the_middle() {
    let (expanded, lines) = (expanded(), source_lines());
    assert_eq!(lines.len(), 14_683);
    let middle = lines.len() / 2;
    let odd = [23, 45, 52].map(|line| stop_at(&lines, middle, line));
    for stop in [middle, odd[0], odd[1], odd[2], 0, lines.len()] {
        every_pair_at(&expanded, &lines, stop);
    }
}

/// What a run leaves in r1 to r3 between two lines may tell the key; after a move nothing does there.
#[test]
fn no_key_in_scratch() {
    let (expanded, lines) = (expanded(), source_lines());
    let middle = lines.len() / 2;
    let stops = (middle..lines.len()).filter(|&stop| lines[stop] == 23).take(16);
    let mut telling = 0;
    for (stop, old) in stops.flat_map(|stop| expanded.iter().map(move |old| (stop, old))) {
        let images = [KEY, OTHER_KEY].map(|key| stopped(old, &lines[..stop], 23, key));
        telling += (images[0][1..=3] != images[1][1..=3]) as u32;
        for new in &expanded {
            let moved = images.each_ref().map(|image| {
                let mut moved = [9; STATE];
                assert_eq!(Library.move_image(old.layout, new.layout, image, &mut moved), DONE);
                moved
            });
            // r4 to r15 are public, and the same with each key.
            assert_eq!(moved[0][..16], moved[1][..16], "{:?} to {:?}", old.layout, new.layout);
        }
    }
    assert!(telling >= 6, "r1 to r3 told the keys apart {telling} times only");
}

//! The example cipher: the published ciphertext, and equal traces.

use dualrail::paper::{Paper, ROW, SIX, STATE};
use dualrail::random::Random;
use dualrail::simon::*;
use dualrail::{Answer, Dualrail, Layout, Library};

/// Runs the source from the bit state and the expansion from its image; gives the
/// ciphertext, the source's trace and the expansion's.
fn both(
    on: &dyn Dualrail,
    layout: Layout,
    (source, expansion): &(Vec<u16>, Vec<u16>),
    key: [u16; 4],
    plaintext: [u16; 2],
) -> ([u16; 2], Vec<u16>, Vec<u16>) {
    let mut bits = load(key, plaintext);
    let mut image = vec![0; STATE];
    assert_eq!(on.to_image(layout, &bits, &mut image), Answer::Counted(STATE as u32));
    let source_trace = run_to_end(on, source, &mut bits);
    let trace = run_to_end(on, expansion, &mut image);
    let mut decoded = vec![0; STATE];
    assert_eq!(on.from_image(layout, &image, &mut decoded), Answer::Counted(STATE as u32));
    assert_eq!(decoded, bits, "the expansion ends elsewhere, key {key:x?}, plaintext {plaintext:x?}");
    (text_of(&bits), source_trace, trace)
}

#[test]
fn the_cipher_on_words() {
    assert_eq!(encrypt(KEY, PLAINTEXT), CIPHERTEXT);
}

#[test]
fn published_ciphertext() {
    assert!(TEXT.len() < 4_096);
    for on in [&Library as &dyn Dualrail, &Paper] {
        let programs = programs(on, Layout::LOWEST);
        let (ciphertext, source_trace, trace) = both(on, Layout::LOWEST, &programs, KEY, PLAINTEXT);
        assert_eq!(ciphertext, CIPHERTEXT);
        // As examples/README.md says.
        assert_eq!((TEXT.len(), programs.0.len() / SIX, source_trace.len() / ROW), (1_013, 56, 14_683));
        assert_eq!((programs.1.len() / SIX, trace.len() / ROW), (187, 61_579));
    }
}

/// Request 04: in every layout, with traces that are equal for two keys.
#[test]
fn every_layout() {
    for layout in Layout::ALL {
        let programs = programs(&Library, layout);
        let (ciphertext, _, trace) = both(&Library, layout, &programs, KEY, PLAINTEXT);
        assert_eq!(ciphertext, CIPHERTEXT, "{layout:?}");
        let (_, _, other) = both(&Library, layout, &programs, OTHER_KEY, PLAINTEXT);
        assert!(trace == other, "{layout:?}: the traces differ");
    }
}

#[test]
fn a_thousand_equal_traces() {
    let on = &Library;
    let layout = Layout::LOWEST;
    let programs = programs(on, layout);
    let (_, first_source, first) = both(on, layout, &programs, KEY, PLAINTEXT);
    let mut rng = Random::new(6);
    let mut source_differs = 0;
    for _ in 0..1_000 {
        let key = [(); 4].map(|()| rng.next() as u16);
        let plaintext = [(); 2].map(|()| rng.next() as u16);
        let (ciphertext, source, trace) = both(on, layout, &programs, key, plaintext);
        assert_eq!(ciphertext, encrypt(key, plaintext), "key {key:x?}, plaintext {plaintext:x?}");
        assert!(trace == first, "the trace differs, key {key:x?}, plaintext {plaintext:x?}");
        source_differs += (source != first_source) as u32;
    }
    // The source alone does not hide them.
    assert_eq!(source_differs, 1_000);
}

//! Prints the data of docs/traces.svg, for two keys: the bits changed by the write at each step of the example
//! cipher, run as it is and expanded; and the bits changed on the address lines by the expansion, as it is and
//! without what request 07 put in for them.

use dualrail::paper::{stored_program, Line, Operand, ROW, STATE};
use dualrail::simon::{load, programs, run_to_end, KEY, OTHER_KEY, PLAINTEXT};
use dualrail::{Dualrail, Layout, Library};

/// The steps drawn. The first ones handle the plaintext, which both runs share, more than the key.
const FROM: usize = 1_200;
const ROWS: usize = 240;

/// What is drawn of a row: the bits changed in the written place, its third number; or those changed on the bus,
/// its last three.
type Of = fn(&[u16]) -> u16;
const WRITE: Of = |row| row[2];
const BUS: Of = |row| row[6..].iter().sum();

/// That of each step of a run, for either key.
fn curves(of: Of, program: &[u16], state: fn(Vec<u8>) -> Vec<u8>) -> [Vec<u16>; 2] {
    [KEY, OTHER_KEY].map(|key| {
        let trace = run_to_end(&Library, program, &mut state(load(key, PLAINTEXT)));
        trace.chunks_exact(ROW).map(of).collect()
    })
}

fn image(bits: Vec<u8>) -> Vec<u8> {
    let mut image = vec![0; STATE];
    Library.to_image(Layout::LOWEST, &bits, &mut image);
    image
}

/// The expansion with r0 wherever it reads a table's start by r0, before a lookup and after it: the same values, as
/// both hold 0, but the bus stays where the lookup took it.
fn unmended(expansion: &[u16]) -> Vec<u16> {
    let mut lines = stored_program(expansion).unwrap();
    for line in &mut lines {
        if let Some(Operand::Table { base: 0, .. }) = line.first {
            line.first = Some(Operand::Register(0));
        }
    }
    lines.iter().flat_map(Line::stored).collect()
}

fn main() {
    let (source, expansion) = programs(&Library, Layout::LOWEST);
    let runs = [
        ("source", curves(WRITE, &source, |bits| bits)),
        ("expansion", curves(WRITE, &expansion, image)),
        ("unmended", curves(BUS, &unmended(&expansion), image)),
        ("bus", curves(BUS, &expansion, image)),
    ];
    for (number, [k3, k2, k1, k0]) in [KEY, OTHER_KEY].into_iter().enumerate() {
        println!("key,{number},{k3:04x} {k2:04x} {k1:04x} {k0:04x}");
    }
    // A line for each pair of curves: the steps, and how many of them differ; then rows.
    for (name, [one, two]) in &runs {
        let differ = one.iter().zip(two).filter(|(one, two)| one != two).count();
        println!("whole,{name},{},{differ}", one.len());
        for (row, (one, two)) in one.iter().zip(two).enumerate().skip(FROM).take(ROWS) {
            println!("row,{name},{row},{one},{two}");
        }
    }
}

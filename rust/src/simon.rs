//! The example cipher, SIMON32/64: where its bits stand in a bit state, and the
//! cipher on 16-bit words to compare with.

use crate::answer::{Answer, Dualrail, Layout};
use crate::paper::{LONGEST, ROW, SIX, STATE};

/// The program, bitsliced by hand.
pub const TEXT: &[u8] = include_bytes!("../../examples/simon32.asm");

/// The published example: key words k3 k2 k1 k0, plaintext x y, ciphertext x y.
pub const KEY: [u16; 4] = [0x1918, 0x1110, 0x0908, 0x0100];
pub const PLAINTEXT: [u16; 2] = [0x6565, 0x6877];
pub const CIPHERTEXT: [u16; 2] = [0xc69b, 0xe9bb];

/// Another key, to compare traces with.
pub const OTHER_KEY: [u16; 4] = [0x3b62, 0xd4e7, 0x52a9, 0x8c1d];

/// The first sensitive cell's place in a state.
const CELLS: usize = 32 + 128;

/// Words in the order of their cells: x, y, then from the 64th cell k0 to k3.
fn place(word: usize, bit: usize) -> usize {
    CELLS + 16 * (if word < 2 { word } else { word + 2 }) + bit
}

/// The bit state with key and plaintext in place.
pub fn load(key: [u16; 4], plaintext: [u16; 2]) -> Vec<u8> {
    let [k3, k2, k1, k0] = key;
    let mut state = vec![0; STATE];
    for (word, value) in [plaintext[0], plaintext[1], k0, k1, k2, k3].into_iter().enumerate() {
        for bit in 0..16 {
            state[place(word, bit)] = (value >> bit & 1) as u8;
        }
    }
    state
}

/// The words x and y of a bit state.
pub fn text_of(state: &[u8]) -> [u16; 2] {
    [0, 1].map(|word| (0..16).map(|bit| (state[place(word, bit)] as u16) << bit).sum())
}

/// The cipher on words.
pub fn encrypt(key: [u16; 4], plaintext: [u16; 2]) -> [u16; 2] {
    const Z0: &[u8] = b"11111010001001010110000111001101111101000100101011000011100110";
    let mut k: Vec<u16> = key.into_iter().rev().collect();
    for i in 4..32 {
        let mut t = k[i - 1].rotate_right(3) ^ k[i - 3];
        t ^= t.rotate_right(1);
        k.push(!k[i - 4] ^ t ^ (Z0[i - 4] - b'0') as u16 ^ 3);
    }
    let [mut x, mut y] = plaintext;
    for key in k {
        (x, y) = (y ^ x.rotate_left(1) & x.rotate_left(8) ^ x.rotate_left(2) ^ key, x);
    }
    [x, y]
}

/// Source and expansion of the example as stored programs.
pub fn programs(on: &dyn Dualrail, layout: Layout) -> (Vec<u16>, Vec<u16>) {
    let mut source = vec![0; SIX * 409];
    let Answer::Counted(count) = on.read(TEXT, &mut source) else { panic!("the example is not read") };
    source.truncate(SIX * count as usize);
    let mut expansion = vec![0; SIX * LONGEST * count as usize];
    let answer = on.expand(layout, &source, &mut expansion);
    let Answer::Counted(count) = answer else { panic!("it is not accepted: {answer:?}") };
    expansion.truncate(SIX * count as usize);
    (source, expansion)
}

/// As many steps as a run can have. The example must need no more: a run that goes on from another one has
/// its address bus at 0 again, so that two traces joined are not the trace of one run.
const BUDGET: u16 = 65_535;

/// Runs from line 0 to the end; gives the trace.
pub fn run_to_end(on: &dyn Dualrail, program: &[u16], state: &mut [u8]) -> Vec<u16> {
    run_from(on, program, 0, state)
}

/// Runs from a line to the end; gives the trace.
pub fn run_from(on: &dyn Dualrail, program: &[u16], start: u16, state: &mut [u8]) -> Vec<u16> {
    let mut trace = vec![0; ROW * BUDGET as usize];
    let answer = on.run(program, start, BUDGET, state, &mut trace);
    let Answer::Halted { steps, .. } = answer else { panic!("the run does not reach the end: {answer:?}") };
    trace.truncate(ROW * steps as usize);
    trace
}

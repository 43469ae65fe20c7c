//! The static library: its exported functions, and safe functions over them.

use crate::answer::{Answer, Dualrail, Layout, MapTable, PairTable, Watch, WordSet};

extern "C" {
    fn dualrail_read(text: *const u8, text_length: usize, store: *mut u16, store_length: usize) -> u64;
    fn dualrail_write(program: *const u16, program_length: usize, out: *mut u8, out_length: usize) -> u64;
    fn dualrail_check(program: *const u16, program_length: usize) -> u64;
    fn dualrail_expand(
        position: u8,
        spacing: u8,
        program: *const u16,
        program_length: usize,
        out: *mut u16,
        out_length: usize,
    ) -> u64;
    fn dualrail_to_image(
        position: u8,
        spacing: u8,
        bits: *const u8,
        bits_length: usize,
        image: *mut u8,
        image_length: usize,
    ) -> u64;
    fn dualrail_from_image(
        position: u8,
        spacing: u8,
        image: *const u8,
        image_length: usize,
        bits: *mut u8,
        bits_length: usize,
    ) -> u64;
    fn dualrail_move_image(
        old_position: u8,
        old_spacing: u8,
        new_position: u8,
        new_spacing: u8,
        from: *const u8,
        from_length: usize,
        into: *mut u8,
        into_length: usize,
    ) -> u64;
    fn dualrail_run(
        program: *const u16,
        program_length: usize,
        start: u16,
        budget: u16,
        state: *mut u8,
        state_length: usize,
        trace: *mut u16,
        trace_length: usize,
    ) -> u64;
    fn dualrail_run_watched(
        program: *const u16,
        program_length: usize,
        start: u16,
        budget: u16,
        state: *mut u8,
        state_length: usize,
        trace: *mut u16,
        trace_length: usize,
        watches: *mut Watch,
        watches_length: usize,
    ) -> u64;
    fn dualrail_judge(
        program: *const u16,
        program_length: usize,
        sets: *const u8,
        sets_length: usize,
        budget: u16,
    ) -> u64;
    fn dualrail_take_in(text: *const u8, text_length: usize, out: *mut u8, out_length: usize) -> u64;
    fn dualrail_send_out(text: *const u8, text_length: usize, out: *mut u8, out_length: usize) -> u64;
    fn dualrail_encode(nibble: u8) -> u8;
    fn dualrail_decode(word: u8) -> u8;
    fn dualrail_xor(first: u8, second: u8) -> u8;
    fn dualrail_xor_table(table: *mut u8);
    fn dualrail_map_table(map: *const u8, map_length: usize, table: *mut u8) -> u64;
    fn dualrail_look_up(table: *const u8, word: u8) -> u8;
    fn dualrail_look_up_pair(table: *const u8, first: u8, second: u8) -> u8;
    fn dualrail_choose(
        bits: u8,
        ones: u8,
        size: u8,
        weights: *const i16,
        weights_length: usize,
        set: *mut u8,
    ) -> u64;
}

// Safe, all of them: a pointer and its length come from one slice, and two
// slices of one call never overlap, as one of them at least is lent for writing;
// `judge` only reads both of its slices.
// A table has its length by its type, and goes over as a pointer alone; so has the set of codewords.

pub fn read(text: &[u8], store: &mut [u16]) -> Answer {
    Answer::from_count(unsafe { dualrail_read(text.as_ptr(), text.len(), store.as_mut_ptr(), store.len()) })
}

pub fn write(program: &[u16], out: &mut [u8]) -> Answer {
    Answer::from_count(unsafe {
        dualrail_write(program.as_ptr(), program.len(), out.as_mut_ptr(), out.len())
    })
}

pub fn check(program: &[u16]) -> Answer {
    Answer::from_count(unsafe { dualrail_check(program.as_ptr(), program.len()) })
}

pub fn expand(Layout { position, spacing }: Layout, program: &[u16], out: &mut [u16]) -> Answer {
    Answer::from_count(unsafe {
        dualrail_expand(position, spacing, program.as_ptr(), program.len(), out.as_mut_ptr(), out.len())
    })
}

pub fn to_image(Layout { position, spacing }: Layout, bits: &[u8], image: &mut [u8]) -> Answer {
    Answer::from_count(unsafe {
        dualrail_to_image(position, spacing, bits.as_ptr(), bits.len(), image.as_mut_ptr(), image.len())
    })
}

pub fn from_image(Layout { position, spacing }: Layout, image: &[u8], bits: &mut [u8]) -> Answer {
    Answer::from_count(unsafe {
        dualrail_from_image(position, spacing, image.as_ptr(), image.len(), bits.as_mut_ptr(), bits.len())
    })
}

pub fn move_image(old: Layout, new: Layout, from: &[u8], into: &mut [u8]) -> Answer {
    Answer::from_count(unsafe {
        dualrail_move_image(
            old.position,
            old.spacing,
            new.position,
            new.spacing,
            from.as_ptr(),
            from.len(),
            into.as_mut_ptr(),
            into.len(),
        )
    })
}

pub fn run(program: &[u16], start: u16, budget: u16, state: &mut [u8], trace: &mut [u16]) -> Answer {
    Answer::from_run(unsafe {
        dualrail_run(
            program.as_ptr(),
            program.len(),
            start,
            budget,
            state.as_mut_ptr(),
            state.len(),
            trace.as_mut_ptr(),
            trace.len(),
        )
    })
}

pub fn run_watched(
    program: &[u16],
    start: u16,
    budget: u16,
    state: &mut [u8],
    trace: &mut [u16],
    watches: &mut [Watch],
) -> Answer {
    Answer::from_run(unsafe {
        dualrail_run_watched(
            program.as_ptr(),
            program.len(),
            start,
            budget,
            state.as_mut_ptr(),
            state.len(),
            trace.as_mut_ptr(),
            trace.len(),
            watches.as_mut_ptr(),
            watches.len(),
        )
    })
}

pub fn judge(program: &[u16], sets: &[u8], budget: u16) -> Answer {
    Answer::from_judge(unsafe {
        dualrail_judge(program.as_ptr(), program.len(), sets.as_ptr(), sets.len(), budget)
    })
}

pub fn take_in(text: &[u8], out: &mut [u8]) -> Answer {
    Answer::from_count(unsafe { dualrail_take_in(text.as_ptr(), text.len(), out.as_mut_ptr(), out.len()) })
}

pub fn send_out(text: &[u8], out: &mut [u8]) -> Answer {
    Answer::from_count(unsafe { dualrail_send_out(text.as_ptr(), text.len(), out.as_mut_ptr(), out.len()) })
}

// Inlined, as the way to these would take as long as they do themselves.

#[inline]
pub fn encode(nibble: u8) -> u8 {
    unsafe { dualrail_encode(nibble) }
}

#[inline]
pub fn decode(word: u8) -> u8 {
    unsafe { dualrail_decode(word) }
}

#[inline]
pub fn xor(first: u8, second: u8) -> u8 {
    unsafe { dualrail_xor(first, second) }
}

#[inline]
pub fn xor_table(table: &mut PairTable) {
    unsafe { dualrail_xor_table(table.as_mut_ptr()) }
}

#[inline]
pub fn map_table(map: &[u8], table: &mut MapTable) -> Answer {
    Answer::from_count(unsafe { dualrail_map_table(map.as_ptr(), map.len(), table.as_mut_ptr()) })
}

#[inline]
pub fn look_up(table: &MapTable, word: u8) -> u8 {
    unsafe { dualrail_look_up(table.as_ptr(), word) }
}

#[inline]
pub fn look_up_pair(table: &PairTable, first: u8, second: u8) -> u8 {
    unsafe { dualrail_look_up_pair(table.as_ptr(), first, second) }
}

pub fn choose(bits: u8, ones: u8, size: u8, weights: &[i16], set: &mut WordSet) -> Answer {
    Answer::from_count(unsafe {
        dualrail_choose(bits, ones, size, weights.as_ptr(), weights.len(), set.as_mut_ptr())
    })
}

/// The static library as one of the implementations.
pub struct Library;

impl Dualrail for Library {
    fn read(&self, text: &[u8], store: &mut [u16]) -> Answer {
        read(text, store)
    }
    fn write(&self, program: &[u16], out: &mut [u8]) -> Answer {
        write(program, out)
    }
    fn check(&self, program: &[u16]) -> Answer {
        check(program)
    }
    fn expand(&self, layout: Layout, program: &[u16], out: &mut [u16]) -> Answer {
        expand(layout, program, out)
    }
    fn to_image(&self, layout: Layout, bits: &[u8], image: &mut [u8]) -> Answer {
        to_image(layout, bits, image)
    }
    fn from_image(&self, layout: Layout, image: &[u8], bits: &mut [u8]) -> Answer {
        from_image(layout, image, bits)
    }
    fn move_image(&self, old: Layout, new: Layout, from: &[u8], into: &mut [u8]) -> Answer {
        move_image(old, new, from, into)
    }
    fn run(&self, program: &[u16], start: u16, budget: u16, state: &mut [u8], trace: &mut [u16]) -> Answer {
        run(program, start, budget, state, trace)
    }
    fn run_watched(
        &self,
        program: &[u16],
        start: u16,
        budget: u16,
        state: &mut [u8],
        trace: &mut [u16],
        watches: &mut [Watch],
    ) -> Answer {
        run_watched(program, start, budget, state, trace, watches)
    }
    fn judge(&self, program: &[u16], sets: &[u8], budget: u16) -> Answer {
        judge(program, sets, budget)
    }
    fn take_in(&self, text: &[u8], out: &mut [u8]) -> Answer {
        take_in(text, out)
    }
    fn send_out(&self, text: &[u8], out: &mut [u8]) -> Answer {
        send_out(text, out)
    }
    #[inline]
    fn encode(&self, nibble: u8) -> u8 {
        encode(nibble)
    }
    #[inline]
    fn decode(&self, word: u8) -> u8 {
        decode(word)
    }
    #[inline]
    fn xor(&self, first: u8, second: u8) -> u8 {
        xor(first, second)
    }
    #[inline]
    fn xor_table(&self, table: &mut PairTable) {
        xor_table(table)
    }
    #[inline]
    fn map_table(&self, map: &[u8], table: &mut MapTable) -> Answer {
        map_table(map, table)
    }
    #[inline]
    fn look_up(&self, table: &MapTable, word: u8) -> u8 {
        look_up(table, word)
    }
    #[inline]
    fn look_up_pair(&self, table: &PairTable, first: u8, second: u8) -> u8 {
        look_up_pair(table, first, second)
    }
    fn choose(&self, bits: u8, ones: u8, size: u8, weights: &[i16], set: &mut WordSet) -> Answer {
        choose(bits, ones, size, weights, set)
    }
}

#[cfg(test)]
mod tests {
    use super::*;
    use std::ptr::{null, null_mut};

    /// An empty slice may have any pointer, none too.
    #[test]
    fn empty_slices() {
        let refused = |number: u64| number << 32;
        let odd = 1 as *mut u16;
        let mut image = [0u8; 544];
        unsafe {
            assert_eq!(dualrail_read(null(), 0, null_mut(), 0), 0);
            assert_eq!(dualrail_read(b"\n".as_ptr(), 1, odd, 0), refused(8));
            assert_eq!(dualrail_write(null(), 0, null_mut(), 0), 0);
            assert_eq!(dualrail_check(odd, 0), 0);
            assert_eq!(dualrail_expand(2, 1, null(), 0, odd, 0), 0);
            assert_eq!(dualrail_expand(3, 1, odd, 0, null_mut(), 0), refused(23));
            assert_eq!(dualrail_to_image(0, 0, null(), 0, null_mut(), 0), refused(18));
            assert_eq!(dualrail_to_image(0, 1, null(), 0, image.as_mut_ptr(), 544), refused(18));
            assert_eq!(dualrail_to_image(0, 2, null(), 0, null_mut(), 0), refused(23));
            assert_eq!(dualrail_from_image(1, 0, null(), 0, null_mut(), 0), refused(18));
            assert_eq!(dualrail_from_image(255, 255, null(), 0, null_mut(), 0), refused(23));
            assert_eq!(dualrail_move_image(0, 0, 2, 1, null(), 0, null_mut(), 0), refused(18));
            assert_eq!(dualrail_move_image(0, 0, 0, 0, null(), 0, image.as_mut_ptr(), 544), refused(18));
            assert_eq!(dualrail_move_image(0, 0, 0, 0, image.as_ptr(), 544, null_mut(), 0), refused(18));
            assert_eq!(dualrail_move_image(0, 0, 3, 0, null(), 0, null_mut(), 0), refused(23));
            assert_eq!(dualrail_move_image(0, 2, 0, 0, odd.cast(), 0, odd.cast(), 0), refused(23));
            assert_eq!(dualrail_run(null(), 0, 5, 0, image.as_mut_ptr(), 544, odd, 0), 5 << 16);
            assert_eq!(dualrail_run(odd, 0, 0, 1, image.as_mut_ptr(), 544, null_mut(), 0), 20 << 48);
            assert_eq!(dualrail_run(null(), 0, 0, 0, null_mut(), 0, null_mut(), 0), 18 << 48);
            let watched = |start, state: *mut u8, size, watches: *mut Watch| {
                dualrail_run_watched(null(), 0, start, 0, state, size, null_mut(), 0, watches, 0)
            };
            assert_eq!(watched(5, image.as_mut_ptr(), 544, null_mut()), 5 << 16);
            assert_eq!(watched(0, image.as_mut_ptr(), 544, odd.cast()), 0);
            assert_eq!(watched(0, null_mut(), 0, null_mut()), 18 << 48);
            let mut watch = Watch { place: 543, value: 1, writes: 2, step: 3 };
            assert_eq!(
                dualrail_run_watched(odd, 0, 7, 0, image.as_mut_ptr(), 544, odd, 0, &mut watch, 1),
                7 << 16
            );
            assert_eq!(watch, Watch { place: 543, value: 0, writes: 0, step: 0 });
            let sets = [[1u8; 17]; 544].concat();
            assert_eq!(dualrail_judge(null(), 0, sets.as_ptr(), sets.len(), 5), 0);
            assert_eq!(dualrail_judge(odd, 0, sets.as_ptr(), sets.len(), 0), 0);
            assert_eq!(dualrail_judge(null(), 0, null(), 0, 1), 18 << 48);
            assert_eq!(dualrail_judge(odd, 0, odd.cast(), 0, 1), 18 << 48);
            assert_eq!(dualrail_take_in(null(), 0, null_mut(), 0), 0);
            assert_eq!(dualrail_take_in(odd.cast(), 0, image.as_mut_ptr(), 544), 0);
            assert_eq!(dualrail_take_in(b"nop\n".as_ptr(), 4, null_mut(), 0), refused(17));
            assert_eq!(dualrail_take_in(b";\n".as_ptr(), 2, odd.cast(), 0), 0);
            assert_eq!(dualrail_send_out(null(), 0, null_mut(), 0), 0);
            assert_eq!(dualrail_send_out(odd.cast(), 0, image.as_mut_ptr(), 544), 0);
            assert_eq!(dualrail_send_out(b"u,nop,,,,\n".as_ptr(), 10, null_mut(), 0), refused(17));
            assert_eq!(dualrail_send_out(b"\n".as_ptr(), 1, odd.cast(), 0), refused(2));
            for nowhere in [null(), odd.cast_const().cast()] {
                let mut table = [7u8; 64];
                assert_eq!(dualrail_map_table(nowhere, 0, table.as_mut_ptr()), refused(27));
                assert_eq!(table, [0; 64]);
            }
            // 28 before 29, for which one word is too few.
            for (nowhere, ones) in [(null(), 2), (odd.cast_const().cast(), 2), (null(), 0)] {
                let mut set = [7u8; 16];
                assert_eq!(dualrail_choose(4, ones, 2, nowhere, 0, set.as_mut_ptr()), refused(28));
                assert_eq!(set, [0; 16]);
            }
        }
        assert_eq!(image, [0; 544]);
    }
}

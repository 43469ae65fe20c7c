//! The plain C that the benchmark measures against (bench/plain.c).

use crate::answer::{Answer, Dualrail, Layout, MapTable, PairTable, Watch, WordSet};

extern "C" {
    fn plain_read(text: *const u8, text_length: usize, store: *mut u16, store_length: usize) -> u64;
    fn plain_write(program: *const u16, program_length: usize, out: *mut u8, out_length: usize) -> u64;
    fn plain_check(program: *const u16, program_length: usize) -> u64;
    fn plain_expand(
        position: u8,
        spacing: u8,
        program: *const u16,
        program_length: usize,
        out: *mut u16,
        out_length: usize,
    ) -> u64;
    fn plain_to_image(
        position: u8,
        spacing: u8,
        bits: *const u8,
        bits_length: usize,
        image: *mut u8,
        image_length: usize,
    ) -> u64;
    fn plain_from_image(
        position: u8,
        spacing: u8,
        image: *const u8,
        image_length: usize,
        bits: *mut u8,
        bits_length: usize,
    ) -> u64;
    fn plain_move_image(
        old_position: u8,
        old_spacing: u8,
        new_position: u8,
        new_spacing: u8,
        from: *const u8,
        from_length: usize,
        into: *mut u8,
        into_length: usize,
    ) -> u64;
    fn plain_run(
        program: *const u16,
        program_length: usize,
        start: u16,
        budget: u16,
        state: *mut u8,
        state_length: usize,
        trace: *mut u16,
        trace_length: usize,
    ) -> u64;
    fn plain_run_watched(
        program: *const u16,
        program_length: usize,
        start: u16,
        budget: u16,
        state: *mut u8,
        state_length: usize,
        trace: *mut u16,
        trace_length: usize,
        watches: *mut Watch,
        watches_length: usize,
    ) -> u64;
    fn plain_judge(
        program: *const u16,
        program_length: usize,
        sets: *const u8,
        sets_length: usize,
        budget: u16,
    ) -> u64;
    fn plain_take_in(text: *const u8, text_length: usize, out: *mut u8, out_length: usize) -> u64;
    fn plain_send_out(text: *const u8, text_length: usize, out: *mut u8, out_length: usize) -> u64;
    fn plain_encode(nibble: u8) -> u8;
    fn plain_decode(word: u8) -> u8;
    fn plain_xor(first: u8, second: u8) -> u8;
    fn plain_xor_table(table: *mut u8);
    fn plain_map_table(map: *const u8, map_length: usize, table: *mut u8) -> u64;
    fn plain_look_up(table: *const u8, word: u8) -> u8;
    fn plain_look_up_pair(table: *const u8, first: u8, second: u8) -> u8;
    fn plain_choose(bits: u8, ones: u8, size: u8, weights: *const i16, count: usize, set: *mut u8) -> u64;
}

/// Plain C as one of the implementations; it packs its answers as the library does.
pub struct Plain;

#[rustfmt::skip]
impl Dualrail for Plain {
    fn read(&self, text: &[u8], store: &mut [u16]) -> Answer {
        Answer::from_count(unsafe { plain_read(text.as_ptr(), text.len(), store.as_mut_ptr(), store.len()) })
    }
    fn write(&self, program: &[u16], out: &mut [u8]) -> Answer {
        Answer::from_count(unsafe { plain_write(program.as_ptr(), program.len(), out.as_mut_ptr(), out.len()) })
    }
    fn check(&self, program: &[u16]) -> Answer {
        Answer::from_count(unsafe { plain_check(program.as_ptr(), program.len()) })
    }
    fn expand(&self, Layout { position, spacing }: Layout, program: &[u16], out: &mut [u16]) -> Answer {
        Answer::from_count(unsafe {
            plain_expand(position, spacing, program.as_ptr(), program.len(), out.as_mut_ptr(), out.len())
        })
    }
    fn to_image(&self, Layout { position, spacing }: Layout, bits: &[u8], image: &mut [u8]) -> Answer {
        Answer::from_count(unsafe {
            plain_to_image(position, spacing, bits.as_ptr(), bits.len(), image.as_mut_ptr(), image.len())
        })
    }
    fn from_image(&self, Layout { position, spacing }: Layout, image: &[u8], bits: &mut [u8]) -> Answer {
        Answer::from_count(unsafe {
            plain_from_image(position, spacing, image.as_ptr(), image.len(), bits.as_mut_ptr(), bits.len())
        })
    }
    fn move_image(&self, old: Layout, new: Layout, from: &[u8], into: &mut [u8]) -> Answer {
        Answer::from_count(unsafe {
            plain_move_image(old.position, old.spacing, new.position, new.spacing,
                from.as_ptr(), from.len(), into.as_mut_ptr(), into.len())
        })
    }
    fn run(&self, program: &[u16], start: u16, budget: u16, state: &mut [u8], trace: &mut [u16]) -> Answer {
        Answer::from_run(unsafe {
            plain_run(program.as_ptr(), program.len(), start, budget,
                state.as_mut_ptr(), state.len(), trace.as_mut_ptr(), trace.len())
        })
    }
    fn run_watched(&self, program: &[u16], start: u16, budget: u16, state: &mut [u8], trace: &mut [u16],
        watches: &mut [Watch]) -> Answer {
        Answer::from_run(unsafe {
            plain_run_watched(program.as_ptr(), program.len(), start, budget, state.as_mut_ptr(), state.len(),
                trace.as_mut_ptr(), trace.len(), watches.as_mut_ptr(), watches.len())
        })
    }
    fn judge(&self, program: &[u16], sets: &[u8], budget: u16) -> Answer {
        Answer::from_judge(unsafe {
            plain_judge(program.as_ptr(), program.len(), sets.as_ptr(), sets.len(), budget)
        })
    }
    fn take_in(&self, text: &[u8], out: &mut [u8]) -> Answer {
        Answer::from_count(unsafe { plain_take_in(text.as_ptr(), text.len(), out.as_mut_ptr(), out.len()) })
    }
    fn send_out(&self, text: &[u8], out: &mut [u8]) -> Answer {
        Answer::from_count(unsafe { plain_send_out(text.as_ptr(), text.len(), out.as_mut_ptr(), out.len()) })
    }
    #[inline]
    fn encode(&self, nibble: u8) -> u8 {
        unsafe { plain_encode(nibble) }
    }
    #[inline]
    fn decode(&self, word: u8) -> u8 {
        unsafe { plain_decode(word) }
    }
    #[inline]
    fn xor(&self, first: u8, second: u8) -> u8 {
        unsafe { plain_xor(first, second) }
    }
    #[inline]
    fn xor_table(&self, table: &mut PairTable) {
        unsafe { plain_xor_table(table.as_mut_ptr()) }
    }
    #[inline]
    fn map_table(&self, map: &[u8], table: &mut MapTable) -> Answer {
        Answer::from_count(unsafe { plain_map_table(map.as_ptr(), map.len(), table.as_mut_ptr()) })
    }
    #[inline]
    fn look_up(&self, table: &MapTable, word: u8) -> u8 {
        unsafe { plain_look_up(table.as_ptr(), word) }
    }
    #[inline]
    fn look_up_pair(&self, table: &PairTable, first: u8, second: u8) -> u8 {
        unsafe { plain_look_up_pair(table.as_ptr(), first, second) }
    }
    fn choose(&self, bits: u8, ones: u8, size: u8, weights: &[i16], set: &mut WordSet) -> Answer {
        Answer::from_count(unsafe {
            plain_choose(bits, ones, size, weights.as_ptr(), weights.len(), set.as_mut_ptr())
        })
    }
}

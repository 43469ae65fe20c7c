/* Dual-rail expander and trace machine: the proved library, for C.
 *
 * Build crates/dualrail/out/libdualrail.a with `rt lib` in crates/dualrail and link it. Nothing allocates and nothing outside the lent memory is
 * touched; an empty slice may have any pointer. The slices of one call must not overlap. Lengths count elements. docs/STORED-LINES.md
 * lays down the numbers of a stored line, docs/LANGUAGE.md lists the refusals.
 *
 * Room that is always enough: 18 lines of expansion for each line, 34 bytes of text for each line, 61 bytes of published text for each line
 * and 8 more, 9 numbers of trace for each step of the budget. A state has 544 bytes. Sets of values have 17 bytes for each place, in the
 * order of the state: a count, 1 to 16, the values, the rest ignored.
 *
 * A layout says which two bits a code has. It is two numbers: a position of 0, 1 or 2, then a spacing, 0 for neighbouring bits or 1 for bits
 * with one between. An expansion runs on images of its own layout; nothing in the 544 bytes names it but the codes. Other numbers are
 * refused with 23 at line 0, before all else.
 *
 * An answer is one number of 64 bits. Of dualrail_run, dualrail_run_watched and dualrail_judge: ending * 2^32 + counter * 2^16 + steps, ending 0
 * halted or balanced, 1 spent and 2 a leak, with its line for the counter, or, refused, number * 2^48 + line. Of all others: number * 2^32 +
 * value, where number 0 is success and value its count, and any other number is a refusal and value its line; a line beyond 2^32 - 1, which a
 * published text may have, is given as 2^32 - 1. A refusal leaves all lent memory as it was, except that a refused reading leaves the lines
 * before the bad one in the store, and that the table of a refused map and the set of a refused choice are 0.
 */
#ifndef DUALRAIL_H
#define DUALRAIL_H

#include <stddef.h>
#include <stdint.h>

#ifdef __cplusplus
extern "C" {
#endif

/* Reads line text into a store of lines, six numbers to a line; counts the lines. Refusals 7, 8, 1 to 6. */
uint64_t dualrail_read(const uint8_t *text, size_t text_length, uint16_t *store, size_t store_length);

/* Writes the text of a stored program; counts the bytes. Refusals 7, 3 to 6, 17. */
uint64_t dualrail_write(const uint16_t *program, size_t program_length, uint8_t *out, size_t out_length);

/* Checks the marks of a stored program; counts its lines. Refusals 7, 3 to 6, 9 to 16; 13 no longer occurs. */
uint64_t dualrail_check(const uint16_t *program, size_t program_length);

/* Writes the dual-rail expansion of an accepted program in a layout; counts its lines. Refusals 23, the mark check's, then 17. */
uint64_t dualrail_expand(uint8_t position, uint8_t spacing, const uint16_t *program, size_t program_length, uint16_t *out,
                         size_t out_length);

/* Makes the image of a bit state in a layout; counts 544 bytes. Refusals 23, 18, 19. */
uint64_t dualrail_to_image(uint8_t position, uint8_t spacing, const uint8_t *bits, size_t bits_length, uint8_t *image,
                           size_t image_length);

/* Goes the way back from an image in a layout to its bit state; counts 544 bytes. Refusals 23, 18, 19. */
uint64_t dualrail_from_image(uint8_t position, uint8_t spacing, const uint8_t *image, size_t image_length, uint8_t *bits,
                             size_t bits_length);

/* Moves an image from its old layout to a new one, its own too, at a point between two source lines: public places stay, sensitive codes
 * and tables become the new layout's, r1 to r3 become 0; counts 544 bytes. A run goes on in the new layout's expansion, at the start that the
 * source line has there (docs/LANGUAGE.md). Refusals 23 (of either layout), 18, 19 (by the old one). */
uint64_t dualrail_move_image(uint8_t old_position, uint8_t old_spacing, uint8_t new_position, uint8_t new_spacing,
                             const uint8_t *from, size_t from_length, uint8_t *into, size_t into_length);

/* Takes a published text of any length in: writes it in line text; counts the bytes. Refusals 24, 25 at the lowest text line, then 17. */
uint64_t dualrail_take_in(const uint8_t *text, size_t text_length, uint8_t *out, size_t out_length);

/* Sends line text out: writes it in the published spelling; counts the bytes. Refusals 7, 1 to 6, 9 to 16, then 17. */
uint64_t dualrail_send_out(const uint8_t *text, size_t text_length, uint8_t *out, size_t out_length);

/* Runs a stored program from a start counter with a budget of steps, changes the state and writes a row of nine numbers for each step.
 * Refusals 7, 3 to 6, 18, 20. */
uint64_t dualrail_run(const uint16_t *program, size_t program_length, uint16_t start, uint16_t budget, uint8_t *state,
                      size_t state_length, uint16_t *trace, size_t trace_length);

/* A watch names a place of the state: register N, or 32 + n for cell n. After a run it holds the place's value, also where no write reached it,
 * how many writes reached it, one of the same value too, and the step of the last: 0 for none, the first step is 1. */
typedef struct {
    uint16_t place;
    uint8_t value;
    uint16_t writes;
    uint16_t step;
} dualrail_watch;

/* A run with up to eight watches, none too: answer, state and trace are those of dualrail_run. Two watches may name one place; what they held
 * before, their place aside, does not matter. Refusals 7, 3 to 6, 18, 20, then 26 at line 0: more than eight watches or a place above 543.
 *
 * Which step last wrote the ciphertext's first cell, cell 128, and which the round counter r4? (examples/watch.c is the whole program)
 *
 *     dualrail_watch watches[2] = {{.place = 32 + 128}, {.place = 4}};
 *     uint64_t answer = dualrail_run_watched(program, length, 0, 65535, state, 544, trace, 9 * 65535, watches, 2);
 *     if (answer >> 48 == 0) printf("%u %u\n", watches[0].step, watches[1].step);      // 14420 14682
 */
uint64_t dualrail_run_watched(const uint16_t *program, size_t program_length, uint16_t start, uint16_t budget, uint8_t *state,
                              size_t state_length, uint16_t *trace, size_t trace_length, dualrail_watch *watches,
                              size_t watches_length);

/* Walks a stored program from line 0 on sets of values: balanced or spent says that all runs from values of the sets have equal traces
 * with that budget and end so, a leak gives the first line where two choices show different rows. The sets are only read. Refusals 7,
 * 3 to 6, 18, 22 at line 0; then at a step 21, 22. */
uint64_t dualrail_judge(const uint16_t *program, size_t program_length, const uint8_t *sets, size_t sets_length, uint16_t budget);

/* The nibble engine: C of 0 to 15 is 7, 11, 13, 14, 19, 21, 22, 25, 26, 28, 35, 37, 38, 41, 42, 44, six bits each with three ones.
 *
 * One AES column with the round key added, eight nibbles on codewords (examples/addroundkey.c is the whole program):
 *
 *     static uint8_t table[4096];
 *     dualrail_xor_table(table);
 *     for (int i = 0; i < 8; i++) state[i] = dualrail_look_up_pair(table, state[i], key[i]);
 */

/* Codes a nibble: C(n), 0 above 15. */
uint8_t dualrail_encode(uint8_t n);

/* Decodes a codeword: its nibble, 255 outside the code. */
uint8_t dualrail_decode(uint8_t c);

/* The exclusive-or table's result for two operands: C(a xor b) for C(a) and C(b), 0 where either is outside the code, so for any above 63. The
 * table is made for each call; whoever looks up often has it written once and looks up there. */
uint8_t dualrail_xor(uint8_t a, uint8_t b);

/* Writes the exclusive-or table, C(a xor b) at 64 * C(a) + C(b), 0 with a wrong half, into memory for 4,096 entries. */
void dualrail_xor_table(uint8_t table[4096]);

/* Makes the table of a map of nibbles, given by its 16 values: C(m(a)) at C(a), 0 in all other entries; counts 64 entries. Refusal 27: another
 * count of values, at 0, else the first value above 15, at its index; the table is then all 0. */
uint64_t dualrail_map_table(const uint8_t *map, size_t map_length, uint8_t table[64]);

/* The result of a map's table for an operand: 0 exactly where it is outside the code, so for any above 63. */
uint8_t dualrail_look_up(const uint8_t table[64], uint8_t c);

/* The result of a table of 4,096 entries for two operands, 0 where either is above 63. */
uint8_t dualrail_look_up_pair(const uint8_t table[4096], uint8_t a, uint8_t b);

/* Chooses the code of least spread from measured bits: of all words of `bits` bits with so many ones, ranked by signal, then value, the run of
 * `size` words whose largest less smallest signal is least, the lowest of several; no other set of such words has a smaller. A word's signal is
 * the sum of the weights of its one bits, lowest bit first. Writes the words in ranked order, 0 in unused entries; counts them. Refusals, both
 * at 0: 28 for a length outside 4 to 8, ones above 8, a size other than 2, 4, 8 and 16, a weight outside -1000 to 1000 or another count of
 * weights; then 29 for fewer words than the size; the set is then all 0. examples/codewords.c calls it. */
uint64_t dualrail_choose(uint8_t bits, uint8_t ones, uint8_t size, const int16_t *weights, size_t weights_length,
                         uint8_t set[16]);

#ifdef __cplusplus
}
#endif

#endif

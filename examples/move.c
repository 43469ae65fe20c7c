/* Moves a stored image in the middle of an encryption: `move POSITION SPACING < simon32.asm` encrypts the published example in neighbours at
 * position 0 up to the middle of round 16, moves the image to the layout named, goes on there, and prints the ciphertext. What is turned
 * down prints `refused,number,line`. */
#include "dualrail.h"

#include <stdio.h>
#include <stdlib.h>
#include <string.h>

enum { LINES = 409, WIDTH = 6, TARGET = 5, LONGEST = 18, STATE = 544, ROW = 9, BUDGET = 65535 };

/* The source line of the move, between the marked lines of a round and those of its key; and places: r4 counts rounds, the text begins at
 * cell 128, the key at cell 192. */
enum { LINE = 27, R4 = 4, TEXT = 32 + 128, KEY = 32 + 192 };

static uint8_t text[4096], bits[STATE], image[STATE], moved[STATE];
static uint16_t program[WIDTH * LINES], front[WIDTH * LINES], expansion[LONGEST * WIDTH * LINES], trace[ROW * BUDGET];

static void fail(const char *why) {
    puts(why);
    exit(1);
}

static size_t count_of(uint64_t answer) {
    if (answer >> 32) {
        printf("refused,%u,%u\n", (unsigned)(answer >> 32), (unsigned)answer);
        exit(1);
    }
    return answer;
}

/* A number that is too large for a byte names no layout either. */
static uint8_t number_of(const char *word) {
    int number = atoi(word);
    return number < 0 || number > 255 ? 255 : number;
}

static void put_word(size_t place, unsigned word) {
    for (size_t bit = 0; bit < 16; bit++) bits[place + bit] = word >> bit & 1;
}

static unsigned word_at(size_t place) {
    unsigned word = 0;
    for (size_t bit = 0; bit < 16; bit++) word |= (unsigned)bits[place + bit] << bit;
    return word;
}

/* Where the line of the move starts in a layout's expansion: as many lines as the lines before it become. Their targets do not count; as some
 * lie behind, all are set to line 0. */
static uint16_t start_in(uint8_t position, uint8_t spacing) {
    memcpy(front, program, sizeof front);
    for (size_t i = TARGET; i < WIDTH * LINE; i += WIDTH) front[i] = front[i] != 0;
    return count_of(dualrail_expand(position, spacing, front, WIDTH * LINE, expansion, LONGEST * WIDTH * LINES));
}

/* Step by step in neighbours at position 0, so that it stops between two source lines. */
static void run_to_the_move(size_t lines) {
    uint16_t stop = start_in(0, 0), line = 0;
    size_t size = WIDTH * count_of(dualrail_expand(0, 0, program, lines, expansion, LONGEST * WIDTH * LINES));
    for (unsigned steps = 0; line != stop || image[R4] != 16; steps++) {
        if (steps == BUDGET) fail("no round 16");
        line = dualrail_run(expansion, size, line, 1, image, STATE, trace, ROW * BUDGET) >> 16;
    }
}

static void finish(uint8_t position, uint8_t spacing, size_t lines) {
    uint16_t start = start_in(position, spacing);
    size_t size = WIDTH * count_of(dualrail_expand(position, spacing, program, lines, expansion, LONGEST * WIDTH * LINES));
    if (dualrail_run(expansion, size, start, BUDGET, moved, STATE, trace, ROW * BUDGET) >> 32) fail("no end");
}

int main(int count, char **words) {
    uint8_t position = count > 1 ? number_of(words[1]) : 0, spacing = count > 2 ? number_of(words[2]) : 0;
    size_t lines = WIDTH * count_of(dualrail_read(text, fread(text, 1, sizeof text, stdin), program, WIDTH * LINES));

    put_word(TEXT, 0x6565);
    put_word(TEXT + 16, 0x6877);
    for (unsigned i = 0; i < 4; i++) put_word(KEY + 16 * i, 0x0100 + 0x0808 * i);
    count_of(dualrail_to_image(0, 0, bits, STATE, image, STATE));
    run_to_the_move(lines);
    count_of(dualrail_move_image(0, 0, position, spacing, image, STATE, moved, STATE));
    finish(position, spacing, lines);
    count_of(dualrail_from_image(position, spacing, moved, STATE, bits, STATE));
    printf("%04x %04x\n", word_at(TEXT), word_at(TEXT + 16));
}

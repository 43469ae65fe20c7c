/* Watches places in one run: `watch PLACE.. < simon32.asm` encrypts the published example, all in one run, and prints of each place, up to
 * eight, its last value, how many writes reached it, and the step of the last one. Places are those of the state: 0 to 31 the registers, 32 + n
 * cell n. What is turned down prints `refused,number,line`. */
#include "dualrail.h"

#include <stdio.h>
#include <stdlib.h>

enum { LINES = 409, WIDTH = 6, STATE = 544, ROW = 9, BUDGET = 65535 };

/* The text begins at cell 128, the key at cell 192. */
enum { TEXT = 32 + 128, KEY = 32 + 192 };

static uint8_t text[4096], state[STATE];
static uint16_t program[WIDTH * LINES], trace[ROW * BUDGET];

/* The most places that a run watches is eight; one more shows how it is turned down. */
static dualrail_watch watches[9];

static void refuse(unsigned number, unsigned line) {
    printf("refused,%u,%u\n", number, line);
    exit(1);
}

static void put_word(size_t place, unsigned word) {
    for (size_t bit = 0; bit < 16; bit++) state[place + bit] = word >> bit & 1;
}

/* A word that is no number, or one too large for 16 bits, names no place. */
static uint16_t place_of(const char *word) {
    char *end;
    long number = strtol(word, &end, 10);
    return end == word || *end || number < 0 || number > 65535 ? 65535 : number;
}

int main(int count, char **words) {
    size_t places = count - 1 < 9 ? count - 1 : 9;
    for (size_t i = 0; i < places; i++) watches[i].place = place_of(words[1 + i]);

    uint64_t lines = dualrail_read(text, fread(text, 1, sizeof text, stdin), program, WIDTH * LINES);
    if (lines >> 32) refuse(lines >> 32, lines);

    put_word(TEXT, 0x6565);
    put_word(TEXT + 16, 0x6877);
    for (unsigned i = 0; i < 4; i++) put_word(KEY + 16 * i, 0x0100 + 0x0808 * i);

    uint64_t answer = dualrail_run_watched(program, WIDTH * lines, 0, BUDGET, state, STATE, trace, ROW * BUDGET, watches, places);
    if (answer >> 48) refuse(answer >> 48, answer);
    for (size_t i = 0; i < places; i++)
        printf("place %u: value %u, %u writes, the last at step %u\n", watches[i].place, watches[i].value, watches[i].writes, watches[i].step);
    printf("%u steps\n", (unsigned)(uint16_t)answer);
}

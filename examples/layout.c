/* Expands the listing on standard input in a layout: `layout POSITION SPACING < listing`, with position 0, 1 or 2 and spacing 0 for
 * neighbouring bits or 1 for spaced ones. What is turned down prints `refused,number,line`, as the programs do. */
#include "dualrail.h"

#include <stdio.h>
#include <stdlib.h>

/* One line more than an accepted program has, so that a longer one is told by 9. */
enum { LINES = 1025, WIDTH = 6, LONGEST = 18 };

static uint8_t text[LONGEST * LINES * 34];
static uint16_t program[WIDTH * LINES], expansion[LONGEST * WIDTH * LINES];

static size_t count_of(uint64_t answer) {
    if (answer >> 32) {
        printf("refused,%u,%u\n", (unsigned)(answer >> 32), (unsigned)answer);
        exit(1);
    }
    return answer;
}

/* A number that is too large for a byte names no layout either. */
static uint8_t number_of(const char *word) {
    int number = atoi(word);
    return number < 0 || number > 255 ? 255 : number;
}

int main(int count, char **words) {
    uint8_t position = count > 1 ? number_of(words[1]) : 0, spacing = count > 2 ? number_of(words[2]) : 0;
    size_t bytes = fread(text, 1, sizeof text, stdin);
    size_t lines = count_of(dualrail_read(text, bytes, program, WIDTH * LINES));
    size_t more = count_of(dualrail_expand(position, spacing, program, WIDTH * lines, expansion, LONGEST * WIDTH * LINES));
    fwrite(text, 1, count_of(dualrail_write(expansion, WIDTH * more, text, sizeof text)), stdout);
}

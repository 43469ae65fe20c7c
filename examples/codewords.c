/* The code of least spread for measured bits: `codewords BITS ONES SIZE WEIGHT..` takes a length, the ones of each word, the size of the code
 * and a weight per bit, lowest bit first, and prints the words in ranked order, in hex, then their signals' range. Without numbers it takes the
 * eight weights that source 002 measured on a microcontroller, times 400,000 so that they fill the range, and 16 words with three ones. What is
 * turned down prints `refused,number,0`, or what is wanted. */
#include "dualrail.h"

#include <stdio.h>
#include <stdlib.h>

enum { NUMBERS = 3, MOST = 16 };

/* -0.0024576, -0.0013003, -0.0013588, -0.0012280, -0.0013157, -0.0021347, -0.0020975, -0.0022129 */
static const char *const example[NUMBERS + 8] = {"8",    "3",    "16",   "-983", "-520", "-544",
                                                 "-491", "-526", "-854", "-839", "-885"};

static long number(const char *word, long low, long high) {
    char *end;
    long value = strtol(word, &end, 10);
    if (end == word || *end || value < low || value > high) {
        printf("a number from %ld to %ld is wanted, not %s\n", low, high, word);
        exit(1);
    }
    return value;
}

static int signal_of(uint8_t word, const int16_t *weights, size_t count) {
    int sum = 0;
    for (size_t bit = 0; bit < count; bit++)
        if (word >> bit & 1) sum += weights[bit];
    return sum;
}

int main(int count, char **words) {
    const char *const *given = (const char *const *)words + 1;
    size_t numbers = count - 1;
    if (count == 1) given = example, numbers = NUMBERS + 8;
    if (numbers < NUMBERS || numbers > NUMBERS + MOST) {
        puts("length, ones, size and a weight per bit are wanted, or nothing");
        return 1;
    }
    uint8_t bits = number(given[0], 0, 255), ones = number(given[1], 0, 255), size = number(given[2], 0, 255), set[16];
    int16_t weights[MOST];
    size_t bit = 0;
    for (; NUMBERS + bit < numbers; bit++) weights[bit] = number(given[NUMBERS + bit], INT16_MIN, INT16_MAX);

    uint64_t answer = dualrail_choose(bits, ones, size, weights, bit, set);
    if (answer >> 32) {
        printf("refused,%u,%u\n", (unsigned)(answer >> 32), (unsigned)answer);
        return 1;
    }
    for (size_t i = 0; i < answer; i++) printf("%02x%c", set[i], i + 1 < answer ? ' ' : '\n');
    int lowest = signal_of(set[0], weights, bit), highest = signal_of(set[answer - 1], weights, bit);
    printf("signals from %d to %d, spread %d\n", lowest, highest, highest - lowest);
}

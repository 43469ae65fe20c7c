/* AddRoundKey of one AES column on codewords: `addroundkey BYTE..` takes four bytes of the state and four of the round key, in hex, adds them
 * nibble by nibble through the exclusive-or table, and prints the sum; then, through the table of a map, the inverse of each of its nibbles.
 * Without bytes it takes the first column of the example in FIPS 197, appendix B: 32 43 f6 a8 and 2b 7e 15 16. What is turned down prints
 * `refused,number,index`, or what is wanted. */
#include "dualrail.h"

#include <stdio.h>
#include <stdlib.h>
#include <string.h>

enum { BYTES = 4, NIBBLES = 2 * BYTES };

static const char *const example[2 * BYTES] = {"32", "43", "f6", "a8", "2b", "7e", "15", "16"};

/* The inverses in the field of sixteen elements, by x^4 + x + 1, and 0 for 0: an S-box that is worked out in nibbles takes them. */
static const uint8_t inverse[16] = {0, 1, 9, 14, 13, 11, 7, 6, 15, 2, 12, 5, 10, 4, 3, 8};

static uint8_t sums[4096], inverses[64];

static uint8_t byte_of(const char *word) {
    size_t length = strlen(word);
    if (length < 1 || length > 2 || strspn(word, "0123456789abcdefABCDEF") != length) {
        puts("a byte is one or two hex digits");
        exit(1);
    }
    return strtoul(word, NULL, 16);
}

/* Four bytes as eight codewords, the high half of a byte first. */
static void encode(const char *const *words, uint8_t *column) {
    for (size_t i = 0; i < BYTES; i++) {
        uint8_t byte = byte_of(words[i]);
        column[2 * i] = dualrail_encode(byte >> 4);
        column[2 * i + 1] = dualrail_encode(byte & 15);
    }
}

static void print(const char *name, const uint8_t *column) {
    printf("%-9s", name);
    for (size_t i = 0; i < NIBBLES; i += 2) printf(" %x%x", dualrail_decode(column[i]), dualrail_decode(column[i + 1]));
    printf("   codewords");
    for (size_t i = 0; i < NIBBLES; i++) printf(" %2u", column[i]);
    puts("");
}

int main(int count, char **words) {
    uint8_t state[NIBBLES], key[NIBBLES];
    if (count != 1 && count != 1 + 2 * BYTES) {
        puts("four bytes of the state and four of the round key are wanted, or none");
        return 1;
    }
    const char *const *bytes = count == 1 ? example : (const char *const *)words + 1;
    encode(bytes, state);
    encode(bytes + BYTES, key);
    print("state", state);
    print("round key", key);

    dualrail_xor_table(sums);
    uint64_t answer = dualrail_map_table(inverse, 16, inverses);
    if (answer >> 32) {
        printf("refused,%u,%u\n", (unsigned)(answer >> 32), (unsigned)answer);
        return 1;
    }

    /* All that is loaded here has three ones, and all that is loaded from the first table has six in its index, whatever the nibbles are. */
    for (size_t i = 0; i < NIBBLES; i++) state[i] = dualrail_look_up_pair(sums, state[i], key[i]);
    print("sum", state);
    for (size_t i = 0; i < NIBBLES; i++) state[i] = dualrail_look_up(inverses, state[i]);
    print("inverses", state);
}

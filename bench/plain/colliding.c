/* Names of eight letters which all fall into one group of a table of 16,384 groups where the kit's `indexmap` hashes
   them by its own fixed seed (FoldHasher), for bench/texts.py: COUNT writes so many, a line each. */
#include <stdint.h>
#include <stdio.h>
#include <stdlib.h>

#define MULTIPLIER UINT64_C(0x9e3779b97f4a7c15)
#define SEED UINT64_C(0x243f6a8885a308d3)
#define GROUPS 16384
#define LETTERS 8

static long wanted;
static char name[LETTERS + 1];

static uint64_t folded(uint64_t a, uint64_t b) {
    unsigned __int128 product = (unsigned __int128)a * b;
    return (uint64_t)product ^ (uint64_t)(product >> 64);
}

/* A name is hashed as its length, and then byte by byte. */
static uint64_t with_length(uint64_t length) { return folded(SEED ^ length, MULTIPLIER ^ 16); }

static uint64_t with_letter(uint64_t state, char letter) {
    return folded(state ^ UINT64_C(0x010101) * (unsigned char)letter, MULTIPLIER ^ 2);
}

static void write_names(uint64_t state, int at) {
    if (at == LETTERS) {
        uint32_t hash = (uint32_t)(state ^ state >> 32);
        if (hash % GROUPS == 0) {
            puts(name);
            wanted--;
        }
        return;
    }
    for (char letter = 'a'; letter <= 'z' && wanted > 0; letter++) {
        name[at] = letter;
        write_names(with_letter(state, letter), at + 1);
    }
}

int main(int argc, char **argv) {
    if (argc != 2) return 2;
    wanted = atol(argv[1]);
    write_names(with_length(LETTERS), 0);
    return 0;
}

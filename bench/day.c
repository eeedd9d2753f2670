// A day for the frame program: 2,000 frames of 512 keys at shape (14, 12) with 16 tasks, 12,288 distinct keys.
// `even`: their homes are spread evenly; `random`: they are any keys. `day WAY FRAMES`.
#include <stdint.h>
#include <stdio.h>
#include <stdlib.h>
#include <string.h>

enum { KEYS = 12288, HOMES = 16384, LINE = 512 };

static uint64_t state = 20261115;

// xorshift64*, so that every machine writes the same day
static uint32_t next(uint32_t below) {
    state ^= state >> 12;
    state ^= state << 25;
    state ^= state >> 27;
    return (uint32_t)((state * 2685821657736338717u) >> 33) % below;
}

int main(int argc, char **argv) {
    static uint32_t keys[KEYS];
    if (argc != 3) {
        fprintf(stderr, "day even|random FRAMES\n");
        return 2;
    }
    int even = strcmp(argv[1], "even") == 0;
    for (uint32_t i = 0; i < KEYS; i++)
        keys[i] = even ? (uint32_t)((uint64_t)i * HOMES / KEYS) * 4096 + next(4096) : next(1u << 26);
    printf("0E0C10\n");
    for (int frame = 0; frame < atoi(argv[2]); frame++) {
        for (int i = 0; i < LINE; i++)
            printf("%08X", (unsigned)keys[next(KEYS)]);
        printf("\n");
    }
    return 0;
}

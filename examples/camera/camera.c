/* A camera that writes each tile once, and remembers which ones in a Woollydusk table: an example to start from.
 * Plain C99, no dynamic memory. Link it with libfirmware.a, which `rt lib` makes in crates/firmware. */
#include "woollydusk.h"

/* The camera's console. A camera with <stdio.h> includes that in its place. */
int printf(const char *format, ...);

/* The shape: 2^4 = 16 tiles at most, with numbers below 2^(4 + 8) = 4096. */
enum { HOME_BITS = 4, REMAINDER_BITS = 8 };

/* The fill figure, in thousandths, from which the camera asks for a new card. */
enum { NEARLY_FULL = 700 };

/* The table: 36 bytes, all zero when no tile is stored. Keep it wherever the camera keeps its state. */
static uint8_t stored[WD_TABLE_BYTES(HOME_BITS)];

static const char *name_of(unsigned refusal)
{
    switch (refusal) {
    case WD_ACCEPTED:
        return "accepted";
    case WD_BAD_SHAPE:
        return "the shape or the length is wrong";
    case WD_BAD_KEY:
        return "no such tile number";
    case WD_UNSOUND:
        return "the table is damaged";
    case WD_LOCKED:
        return "the table is locked";
    case WD_FULL:
        return "the table is full";
    default:
        return "not a refusal of this call";
    }
}

static void write_tile(uint32_t tile)
{
    printf("tile %03X: written to the card\n", (unsigned)tile);
}

/* Stores a tile unless it is stored already. Returns 0 if the camera must not go on with this table, else 1.
 * The table is asked first: only the put that inserts the number may write the tile. */
static int store_tile(uint32_t tile)
{
    uint64_t result = wd_put(HOME_BITS, REMAINDER_BITS, stored, sizeof stored, tile);
    switch (WD_REFUSAL(result)) {
    case WD_ACCEPTED:
        if (WD_VALUE(result) == WD_INSERTED)
            write_tile(tile);
        else
            printf("tile %03X: stored before, nothing written\n", (unsigned)tile);
        return 1;
    case WD_BAD_KEY:
    case WD_FULL:
        /* Nothing has changed, and the table is good: pass over this tile. */
        printf("tile %03X: refused, %s\n", (unsigned)tile, name_of(WD_REFUSAL(result)));
        return 1;
    default:
        /* Damaged, locked by nobody we know, or a mistake of ours: what it says of any tile is worth nothing. */
        printf("tile %03X: refused, %s: the camera stops\n", (unsigned)tile, name_of(WD_REFUSAL(result)));
        return 0;
    }
}

static void warn_when_nearly_full(void)
{
    uint64_t result = wd_fill(HOME_BITS, REMAINDER_BITS, stored, sizeof stored);
    if (WD_REFUSAL(result) == WD_ACCEPTED && WD_VALUE(result) >= NEARLY_FULL)
        printf("warning: the table is %u thousandths full, insert a new card\n", (unsigned)WD_VALUE(result));
}

/* Stores the tiles of one picture in turn. Returns how many were handled before the camera had to stop. */
static size_t store_picture(const uint32_t *tiles, size_t count)
{
    size_t done;
    for (done = 0; done < count; done++)
        if (!store_tile(tiles[done]))
            return done;
    warn_when_nearly_full();
    return done;
}

static void ask(uint32_t tile)
{
    uint64_t result = wd_find(HOME_BITS, REMAINDER_BITS, stored, sizeof stored, tile);
    if (WD_REFUSAL(result) != WD_ACCEPTED)
        printf("tile %03X: no answer, %s\n", (unsigned)tile, name_of(WD_REFUSAL(result)));
    else
        printf("tile %03X: %s\n", (unsigned)tile, WD_VALUE(result) == WD_PRESENT ? "stored" : "not stored");
}

#define COUNT(array) (sizeof(array) / sizeof(array)[0])

int main(void)
{
    /* A first picture, with tile 135 twice and a number that no tile has. */
    static const uint32_t first[] = {0x135, 0x131, 0x138, 0x135, 0x24C, 0x1000};
    /* A second one, which fills the table and goes one beyond. */
    static const uint32_t second[] = {0x131, 0x500, 0x501, 0x502, 0x503, 0x504, 0x505,
                                      0x506, 0x507, 0xFFF, 0xFFE, 0x000, 0x001, 0x800};
    static const uint32_t third[] = {0x135, 0x900};

    printf("first picture\n");
    store_picture(first, COUNT(first));
    ask(0x138);
    ask(0x139);
    printf("second picture\n");
    store_picture(second, COUNT(second));

    printf("third picture, after a bit of the table has flipped\n");
    stored[2 * 2 + 1] ^= 0x40;
    ask(0x131);
    if (store_picture(third, COUNT(third)) < COUNT(third))
        printf("stopped: restore the table from a copy, or start a new card\n");
    return 0;
}

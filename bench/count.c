/* One operation of ours, of the twin, or of calls that do nothing, in an x86-64 program for an emulator that counts
 * instructions: count ours|twin|none. The keys come on standard input, as `bench keys` writes them; what is written is
 * how many calls were made, and how many keys to divide by. Ours less none is what the calls alone take. */
#include "../include/woollydusk.h"
#include "twin.h"

typedef struct file FILE;
extern FILE *stdin;
size_t fread(void *to, size_t size, size_t count, FILE *from);
int printf(const char *form, ...);

enum { MOST_HOMES = 1 << 14 };
enum { FIND_PRESENT, FIND_ABSENT, PUT, BUILD, LIST };

static struct {
    uint32_t m, r, operation, keys, looked;
} c;
static uint32_t keys[MOST_HOMES], looked[MOST_HOMES], slots[MOST_HOMES];
static uint8_t table[WD_TABLE_BYTES(14)];

/* Two instructions each: a zero, and the return. */
static uint64_t no_find(uint32_t m, uint32_t r, const uint8_t *t, size_t length, uint32_t key)
{
    return (void)m, (void)r, (void)t, (void)length, (void)key, (uint64_t)0;
}

static uint64_t no_put(uint32_t m, uint32_t r, uint8_t *t, size_t length, uint32_t key)
{
    return (void)m, (void)r, (void)t, (void)length, (void)key, (uint64_t)0;
}

static uint64_t no_build(uint32_t m, uint32_t r, uint8_t *t, size_t length, const uint32_t *from, size_t count)
{
    return (void)m, (void)r, (void)t, (void)length, (void)from, (void)count, (uint64_t)0;
}

static uint64_t no_list(uint32_t m, uint32_t r, const uint8_t *t, size_t length, uint32_t *to, size_t count)
{
    return (void)m, (void)r, (void)t, (void)length, (void)to, (void)count, (uint64_t)0;
}

static const struct calls {
    char name;
    uint64_t (*find)(uint32_t, uint32_t, const uint8_t *, size_t, uint32_t);
    uint64_t (*put)(uint32_t, uint32_t, uint8_t *, size_t, uint32_t);
    uint64_t (*build)(uint32_t, uint32_t, uint8_t *, size_t, const uint32_t *, size_t);
    uint64_t (*list)(uint32_t, uint32_t, const uint8_t *, size_t, uint32_t *, size_t);
} sets[] = {
    {'o', wd_find, wd_put, wd_build, wd_list},
    {'t', tw_find, tw_put, tw_build, tw_list},
    {'n', no_find, no_put, no_build, no_list},
};

/* The sum of the answers. */
static uint64_t run(const struct calls *set, size_t length)
{
    uint64_t sum = 0;
    size_t i;
    switch (c.operation) {
    case FIND_PRESENT:
    case FIND_ABSENT:
        for (i = 0; i < c.looked; i++)
            sum += set->find(c.m, c.r, table, length, looked[i]);
        return sum;
    case PUT:
        for (i = 0; i < c.keys; i++)
            sum += set->put(c.m, c.r, table, length, keys[i]);
        return sum;
    case BUILD:
        return set->build(c.m, c.r, table, length, keys, c.keys);
    default:
        return set->list(c.m, c.r, table, length, slots, c.keys);
    }
}

static uint64_t expected(void)
{
    switch (c.operation) {
    case FIND_PRESENT:
        return c.looked;
    case PUT:
        return (uint64_t)WD_INSERTED * c.keys;
    case LIST:
        return c.keys;
    default:
        return 0;
    }
}

int main(int argc, char **argv)
{
    const struct calls *set = sets;
    size_t length;
    int find, one;
    if (argc != 2 || fread(&c, sizeof c, 1, stdin) != 1 || c.m > 14 || c.keys > MOST_HOMES || c.looked > MOST_HOMES)
        return 2;
    if (fread(keys, sizeof keys[0], c.keys, stdin) != c.keys ||
        fread(looked, sizeof looked[0], c.looked, stdin) != c.looked)
        return 3;
    while (set < sets + 2 && set->name != argv[1][0])
        set++;
    length = WD_TABLE_BYTES(c.m);
    find = c.operation <= FIND_ABSENT, one = c.operation >= BUILD;
    /* The twin makes the table for all, so that all have the same to begin with. */
    if (find || c.operation == LIST)
        tw_build(c.m, c.r, table, length, keys, c.keys);
    if (run(set, length) != expected() && set->name != 'n')
        return 4;
    printf("%u %u\n", one ? 1 : find ? c.looked : c.keys, find ? c.looked : c.keys);
    return 0;
}

/* Woollydusk for C: a compact hash table in bytes that the caller lends.
 * wd_find, wd_put and wd_fill are in libfirmware.a; wd_build and wd_list are in libhostcalls.a.
 *
 * A shape is two numbers, passed in every call and never remembered: m home bits, 1 to 20, and r remainder bits,
 * 1 to 12. Keys are below 2^(m + r). The table is WD_TABLE_BYTES(m) bytes, of any alignment, and all zero when it is
 * empty. No call keeps a pointer, allocates, or has state of its own.
 *
 * Every call may be made with any numbers and any lengths: what does not fit is refused. Where a call has a pointer
 * and a count, the pointer must have that many elements behind it, and what a call writes must not overlap what else
 * it is lent. A null pointer with the count 0 is empty: such a table is refused with WD_BAD_SHAPE.
 *
 * The result holds a value and a refusal: value + 2^56 * refusal. Take it apart with WD_VALUE and WD_REFUSAL. With a
 * refusal the value is 0, and nothing lent has changed, except that a wd_build refused with WD_FULL leaves the table
 * all zero. Where several refusals apply, the one with the lowest number is given.
 */
#ifndef WOOLLYDUSK_H
#define WOOLLYDUSK_H

#include <stddef.h>
#include <stdint.h>

#ifdef __cplusplus
extern "C" {
#endif

/* The bytes of a table with m home bits, 1 to 20: 2^m + 2 words of two bytes, low byte first. */
#define WD_TABLE_BYTES(m) ((size_t)2 * (((size_t)1 << (m)) + 2))

/* The parts of a result. */
#define WD_VALUE(result) ((uint64_t)(result) & UINT64_C(0xFFFFFFFFFFFFFF))
#define WD_REFUSAL(result) ((unsigned)((uint64_t)(result) >> 56))

/* Refusals. 3, 4 and 5 are those of calls on tasks, which C does not have. */
enum {
    WD_ACCEPTED = 0,
    WD_BAD_SHAPE = 1,    /* m or r out of range, or the table's length is not that of the shape */
    WD_BAD_KEY = 2,      /* a key is 2^(m + r) or more */
    WD_UNSOUND = 6,      /* the part of the table that the call looks at is damaged */
    WD_LOCKED = 7,       /* that part is sound, and a word of it is locked */
    WD_FULL = 8,         /* put: the key is absent and there is no room; build: more than 2^m distinct keys */
    WD_TOO_FEW_SLOTS = 9 /* list: fewer slots than keys */
};

/* Values of wd_find. */
enum { WD_ABSENT = 0, WD_PRESENT = 1 };

/* Values of wd_put. */
enum { WD_FOUND = 1, WD_INSERTED = 2 };

/* Whether the key is in the table: WD_ABSENT or WD_PRESENT. Looks at both ends of the table and at the key's
 * surroundings only. Refusals: WD_BAD_SHAPE, WD_BAD_KEY, WD_UNSOUND, WD_LOCKED. */
uint64_t wd_find(uint32_t m, uint32_t r, const uint8_t *table, size_t length, uint32_t key);

/* Puts the key into the table unless it is there: WD_INSERTED or WD_FOUND. Looks where wd_find looks.
 * Refusals: WD_BAD_SHAPE, WD_BAD_KEY, WD_UNSOUND, WD_LOCKED, WD_FULL. */
uint64_t wd_put(uint32_t m, uint32_t r, uint8_t *table, size_t length, uint32_t key);

/* The fill figure: occupied words * 1000 / number of words, rounded down. Refusal: WD_BAD_SHAPE. */
uint64_t wd_fill(uint32_t m, uint32_t r, const uint8_t *table, size_t length);

/* Makes the table that putting the keys into an empty one makes; what it held is ignored. The keys may come in any
 * order and repeat. The value is 0. Refusals: WD_BAD_SHAPE, WD_BAD_KEY, WD_FULL. */
uint64_t wd_build(uint32_t m, uint32_t r, uint8_t *table, size_t length, const uint32_t *keys, size_t key_count);

/* Writes the table's keys, ascending, to the front of the slots, and leaves the remaining slots. The value is the
 * number of keys. Refusals: WD_BAD_SHAPE, WD_UNSOUND, WD_LOCKED, WD_TOO_FEW_SLOTS. */
uint64_t wd_list(uint32_t m, uint32_t r, const uint8_t *table, size_t length, uint32_t *slots, size_t slot_count);

#ifdef __cplusplus
}
#endif

#endif

/* The C twin: find, put, build and list of document 01 in plain C, written for speed.
 * Same checks in the same order as ours; how they are made is free, and is chosen by measuring. */
#include "twin.h"

enum { REMAINDER = 0x0fff, OCCUPIED = 0x1000, VIRGIN = 0x2000, CHANGE = 0x4000, LOCK = 0x8000, FIELDS = 0x7fff };

static inline uint32_t word(const uint8_t *t, size_t i) {
    uint16_t w;
    __builtin_memcpy(&w, t + 2 * i, 2);
    return w;
}

static inline void set_word(uint8_t *t, size_t i, uint32_t w) {
    uint16_t v = (uint16_t)w;
    __builtin_memcpy(t + 2 * i, &v, 2);
}

static inline uint64_t refuse(uint64_t number) { return number << 56; }

static inline int good_table(uint32_t m, uint32_t r, size_t length) {
    return m - 1 < 20 && r - 1 < 12 && length == 2 * (((size_t)1 << m) + 2);
}

/* The homes less the groups' ends at one word. */
static inline int32_t step_of(uint32_t w) { return (int32_t)(w >> 13 & 1) - (int32_t)(w >> 14 & 1); }

/* The ends of the home's cluster, and by how many groups the homes left of it lead. */
struct ends {
    size_t left, right;
    int32_t lead;
};

/* Guards are unoccupied, so no bound is needed. */
static inline struct ends ends_of(const uint8_t *t, size_t home) {
    struct ends e = {home - 1, home + 1, 0};
    uint32_t w;
    while ((w = word(t, e.left)) & OCCUPIED) {
        e.lead += step_of(w);
        e.left--;
    }
    while (word(t, e.right) & OCCUPIED)
        e.right++;
    return e;
}

/* 6, 7 or 0 for a cluster and its two ends. No branch in the loop: it is made for vector units. */
static inline uint64_t check(const uint8_t *t, struct ends e, uint32_t r) {
    uint32_t ends = word(t, e.left) | word(t, e.right);
    uint16_t high = (uint16_t)(REMAINDER & ~0u << r), all = 0, rises = LOCK, v = CHANGE;
    int32_t lead = 0;
    for (size_t i = e.left + 1; i < e.right; i++) {
        uint16_t w = (uint16_t)word(t, i);
        /* Bit 15: v ends its group, or v's remainder less w's is negative. */
        rises &= (uint16_t)(v << 1) | (uint16_t)((v & REMAINDER) - (w & REMAINDER));
        all |= w;
        lead += step_of(w);
        v = w;
    }
    if (ends & FIELDS || all & high || !(rises & LOCK) || lead || !(v & CHANGE)) return 6;
    return (ends | all) & LOCK ? 7 : 0;
}

/* Where the group of the home's number begins or would: after as many changes as there are homes left of it. */
static inline size_t group_at(const uint8_t *t, struct ends e, size_t home) {
    size_t i = home;
    int32_t lead = e.lead;
    if (lead > 0) {
        while (lead) lead -= (int32_t)(word(t, i++) >> 14 & 1);
        return i;
    }
    while (i - 1 > e.left) {
        if (word(t, i - 1) & CHANGE && lead++ == 0) break;
        i--;
    }
    return i;
}

/* Where the key stands or would stand among the cluster's keys as they are now, and its mark; 3: it is there. */
struct spot {
    size_t at;
    uint32_t mark;
};

static inline struct spot spot_of(const uint8_t *t, struct ends e, size_t home, uint32_t x) {
    struct spot s = {group_at(t, e, home), 2};
    if (!(word(t, home) & VIRGIN)) return s;
    for (;;) {
        uint32_t w = word(t, s.at), y = w & REMAINDER;
        if (y >= x) {
            s.mark = y == x ? 3 : 0;
            return s;
        }
        s.at++;
        if (w & CHANGE) {
            s.mark = 1;
            return s;
        }
    }
}

/* The word w with the payload, remainder and change bit, of v. */
static inline uint32_t with_payload(uint32_t v, uint32_t w) {
    return (v & (REMAINDER | CHANGE)) | (w & ~(uint32_t)(REMAINDER | CHANGE));
}

/* The key is absent: 2 inserted, or 8. The payloads between hand and goal move by one place. */
static inline uint64_t add(uint8_t *t, struct ends e, size_t guard, size_t home, uint32_t x, struct spot s) {
    size_t goal;
    if (e.left != 0) {
        goal = s.at - 1;
        set_word(t, e.left, OCCUPIED);
        for (size_t i = e.left; i < goal; i++) set_word(t, i, with_payload(word(t, i + 1), word(t, i)));
    } else if (e.right != guard) {
        goal = s.at;
        set_word(t, e.right, OCCUPIED);
        for (size_t i = e.right; i > goal; i--) set_word(t, i, with_payload(word(t, i - 1), word(t, i)));
    } else {
        return refuse(8);
    }
    set_word(t, goal, with_payload(x | (s.mark ? CHANGE : 0), word(t, goal)));
    if (s.mark == 1) set_word(t, goal - 1, word(t, goal - 1) & ~(uint32_t)CHANGE);
    if (s.mark == 2) set_word(t, home, word(t, home) | VIRGIN);
    return 2;
}

uint64_t tw_find(uint32_t m, uint32_t r, const uint8_t *t, size_t length, uint32_t key) {
    if (!good_table(m, r, length)) return refuse(1);
    if ((uint64_t)key >> (m + r)) return refuse(2);
    if ((word(t, 0) | word(t, ((size_t)1 << m) + 1)) & FIELDS) return refuse(6);
    size_t home = (key >> r) + 1;
    uint32_t w = word(t, home);
    if (!(w & OCCUPIED)) return w == 0 ? 0 : refuse(w == LOCK ? 7 : 6);
    struct ends e = ends_of(t, home);
    uint64_t no = check(t, e, r);
    if (no) return refuse(no);
    return spot_of(t, e, home, key & ~(~0u << r)).mark == 3;
}

uint64_t tw_put(uint32_t m, uint32_t r, uint8_t *t, size_t length, uint32_t key) {
    if (!good_table(m, r, length)) return refuse(1);
    if ((uint64_t)key >> (m + r)) return refuse(2);
    size_t guard = ((size_t)1 << m) + 1, home = (key >> r) + 1;
    uint32_t w = word(t, home), x = key & ~(~0u << r);
    if ((word(t, 0) | word(t, guard)) & FIELDS) return refuse(6);
    if (!(w & OCCUPIED)) {
        if (w) return refuse(w == LOCK ? 7 : 6);
        set_word(t, home, OCCUPIED | VIRGIN | CHANGE | x);
        return 2;
    }
    struct ends e = ends_of(t, home);
    uint64_t no = check(t, e, r);
    if (no) return refuse(no);
    struct spot s = spot_of(t, e, home, x);
    return s.mark == 3 ? 1 : add(t, e, guard, home, x, s);
}

/* A put into a table that is known to be sound and unlocked. */
static inline uint64_t put_sound(uint8_t *t, size_t guard, size_t home, uint32_t x) {
    if (!(word(t, home) & OCCUPIED)) {
        set_word(t, home, OCCUPIED | VIRGIN | CHANGE | x);
        return 2;
    }
    struct ends e = ends_of(t, home);
    struct spot s = spot_of(t, e, home, x);
    return s.mark == 3 ? 1 : add(t, e, guard, home, x, s);
}

uint64_t tw_build(uint32_t m, uint32_t r, uint8_t *t, size_t length, const uint32_t *keys, size_t count) {
    if (!good_table(m, r, length)) return refuse(1);
    uint32_t all = 0;
    for (size_t i = 0; i < count; i++) all |= keys[i];
    if ((uint64_t)all >> (m + r)) return refuse(2);
    __builtin_memset(t, 0, length);
    for (size_t i = 0; i < count; i++)
        if (put_sound(t, ((size_t)1 << m) + 1, (keys[i] >> r) + 1, keys[i] & ~(~0u << r)) == refuse(8)) {
            __builtin_memset(t, 0, length);
            return refuse(8);
        }
    return 0;
}

/* The whole table in one pass: 6 or 7 as the refusal, else the number of keys. */
static inline uint64_t check_all(const uint8_t *t, size_t guard, uint32_t r) {
    uint32_t ends = word(t, 0) | word(t, guard), high = REMAINDER & ~0u << r, v = CHANGE, all = ends, bad = ends & FIELDS;
    int32_t lead = 0;
    uint64_t count = 0;
    for (size_t i = 1; i <= guard; i++) {
        uint32_t w = word(t, i);
        all |= w;
        if (w & OCCUPIED) {
            bad |= (w & high) | (~(v << 1 | ((v & REMAINDER) - (w & REMAINDER))) & LOCK);
            lead += step_of(w);
            count++;
            v = w;
        } else {
            bad |= (w & FIELDS) | (uint32_t)lead | (~v & CHANGE);
            v = CHANGE;
        }
    }
    return bad ? refuse(6) : all & LOCK ? refuse(7) : count;
}

uint64_t tw_list(uint32_t m, uint32_t r, const uint8_t *t, size_t length, uint32_t *slots, size_t slot_count) {
    if (!good_table(m, r, length)) return refuse(1);
    uint64_t count = check_all(t, ((size_t)1 << m) + 1, r);
    if (count >> 56) return count;
    if (count > slot_count) return refuse(9);
    size_t home = 0, i = 0;
    uint32_t w = CHANGE;
    for (size_t k = 0; k < count; k++) {
        if (w & CHANGE)
            while (!(word(t, ++home) & VIRGIN)) {}
        while (!((w = word(t, ++i)) & OCCUPIED)) {}
        slots[k] = (uint32_t)(home - 1) << r | (w & REMAINDER);
    }
    return count;
}

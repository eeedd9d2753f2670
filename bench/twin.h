/* The C twin of the calls for C: the same layout, answers and refusals as include/woollydusk.h, names tw_ for wd_.
 * The benchmark holds our calls against it; nothing else uses it. */
#ifndef TWIN_H
#define TWIN_H

/* A bare compiler has no headers, but always these names. */
#if __has_include(<stddef.h>) && __has_include(<stdint.h>)
#include <stddef.h>
#include <stdint.h>
#else
typedef __SIZE_TYPE__ size_t;
typedef __UINT8_TYPE__ uint8_t;
typedef __UINT16_TYPE__ uint16_t;
typedef __INT32_TYPE__ int32_t;
typedef __UINT32_TYPE__ uint32_t;
typedef __UINT64_TYPE__ uint64_t;
#endif

#ifdef __cplusplus
extern "C" {
#endif

uint64_t tw_find(uint32_t m, uint32_t r, const uint8_t *table, size_t length, uint32_t key);
uint64_t tw_put(uint32_t m, uint32_t r, uint8_t *table, size_t length, uint32_t key);
uint64_t tw_build(uint32_t m, uint32_t r, uint8_t *table, size_t length, const uint32_t *keys, size_t key_count);
uint64_t tw_list(uint32_t m, uint32_t r, const uint8_t *table, size_t length, uint32_t *slots, size_t slot_count);

#ifdef __cplusplus
}
#endif

#endif

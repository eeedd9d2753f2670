/* What woollydusk.h needs of <stdint.h>, for the kit's compiler, which has no headers. x86-64 Linux only.
 * A real C compiler has its own and never sees this one. */
#ifndef TESTS_STDINT_H
#define TESTS_STDINT_H

typedef __UINT8_TYPE__ uint8_t;
typedef __UINT16_TYPE__ uint16_t;
typedef __UINT32_TYPE__ uint32_t;
typedef __UINT64_TYPE__ uint64_t;
#define UINT64_C(number) number##UL

#endif

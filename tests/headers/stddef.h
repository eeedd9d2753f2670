/* What woollydusk.h needs of <stddef.h>, for the kit's compiler, which has no headers. x86-64 Linux only.
 * A real C compiler has its own and never sees this one. */
#ifndef TESTS_STDDEF_H
#define TESTS_STDDEF_H

typedef __SIZE_TYPE__ size_t;
#define NULL ((void *)0)

#endif

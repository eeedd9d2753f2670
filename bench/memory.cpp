// Counts the bytes that a program holds: malloc and its kin, each block with its size before it.
// Linked only into the program that measures bytes, so that no time is measured with it.
#include <cerrno>
#include <cstddef>
#include <cstdint>
#include <cstring>

extern "C" {
void *__libc_malloc(size_t);
void __libc_free(void *);

struct Head {
    void *raw;
    size_t bytes;
};

static size_t held;

size_t held_bytes() { return held; }

static void *take(size_t align, size_t bytes) {
    if (align < 16) align = 16;
    char *raw = static_cast<char *>(__libc_malloc(bytes + align + sizeof(Head)));
    if (!raw) return nullptr;
    uintptr_t at = (reinterpret_cast<uintptr_t>(raw) + sizeof(Head) + align - 1) / align * align;
    Head *head = reinterpret_cast<Head *>(at) - 1;
    head->raw = raw, head->bytes = bytes;
    held += bytes;
    return head + 1;
}

void *malloc(size_t bytes) { return take(16, bytes); }
void *aligned_alloc(size_t align, size_t bytes) { return take(align, bytes); }
void *memalign(size_t align, size_t bytes) { return take(align, bytes); }

void free(void *block) {
    if (!block) return;
    Head *head = static_cast<Head *>(block) - 1;
    held -= head->bytes;
    __libc_free(head->raw);
}

void *calloc(size_t n, size_t size) {
    size_t bytes;
    if (__builtin_mul_overflow(n, size, &bytes)) return nullptr;
    void *block = take(16, bytes);
    return block ? memset(block, 0, bytes) : nullptr;
}

void *realloc(void *block, size_t bytes) {
    void *next = take(16, bytes);
    if (!next || !block) return next;
    size_t had = (static_cast<Head *>(block) - 1)->bytes;
    memcpy(next, block, had < bytes ? had : bytes);
    free(block);
    return next;
}

int posix_memalign(void **block, size_t align, size_t bytes) {
    *block = take(align, bytes);
    return *block ? 0 : ENOMEM;
}
}

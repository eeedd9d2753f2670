/* Makes the calls that it reads on standard input and writes what came of them: the C side of the independent test.
 * It knows no rule of the table. Everything is binary, low byte first, as x86-64 has it. */
#include "woollydusk.h"

typedef struct file FILE;
extern FILE *stdin, *stdout;
size_t fread(void *to, size_t size, size_t count, FILE *from);
size_t fwrite(const void *from, size_t size, size_t count, FILE *to);

enum { BYTES = 1 << 23, CELLS = 1 << 21 };
enum { FIND = 1, PUT, FILL, BUILD, LIST };

/* One call. The table is the part of the bytes from table_at on, so that what stands around it is seen too; the keys
 * or slots are a part of the cells in the same way. Where a null flag is set the pointer is null. */
struct call {
    uint32_t call, m, r, key;
    uint32_t bytes, table_at, table_length, null_table;
    uint32_t cells, cells_at, cells_count, null_cells;
};

static uint8_t bytes[BYTES];
static uint32_t cells[CELLS];

static uint64_t result_of(const struct call *c)
{
    uint8_t *table = c->null_table ? NULL : bytes + c->table_at;
    uint32_t *part = c->null_cells ? NULL : cells + c->cells_at;
    switch (c->call) {
    case FIND:
        return wd_find(c->m, c->r, table, c->table_length, c->key);
    case PUT:
        return wd_put(c->m, c->r, table, c->table_length, c->key);
    case FILL:
        return wd_fill(c->m, c->r, table, c->table_length);
    case BUILD:
        return wd_build(c->m, c->r, table, c->table_length, part, c->cells_count);
    default:
        return wd_list(c->m, c->r, table, c->table_length, part, c->cells_count);
    }
}

int main(void)
{
    struct call c;
    while (fread(&c, sizeof c, 1, stdin) == 1) {
        uint64_t result;
        if (c.bytes > BYTES || c.cells > CELLS || c.call < FIND || c.call > LIST)
            return 2;
        if (fread(bytes, 1, c.bytes, stdin) != c.bytes || fread(cells, sizeof cells[0], c.cells, stdin) != c.cells)
            return 3;
        result = result_of(&c);
        if (fwrite(&result, sizeof result, 1, stdout) != 1 || fwrite(bytes, 1, c.bytes, stdout) != c.bytes ||
            fwrite(cells, sizeof cells[0], c.cells, stdout) != c.cells)
            return 4;
    }
    return 0;
}

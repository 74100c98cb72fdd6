/* Which column is this row in, and what else is there? column TABLE MESSAGE ROW
 *
 *     tools/library
 *     gcc -Iinclude -o column examples/column.c build/libargo.a
 *     ./column samples/night.table samples/night.message 16
 *
 * A row has the node that it stands under, and that is its column: the tree is not walked from the top.
 */
#include <inttypes.h>
#include <stdio.h>
#include <stdlib.h>

#include "argo.h"

typedef struct {
    uint8_t *bytes;
    size_t len;
} file;

static file contents(const char *name)
{
    enum { MOST = 65537 }; /* one byte more than a message has at most */
    file f = {malloc(MOST), 0};
    FILE *in = fopen(name, "rb");
    if (!in || !f.bytes) {
        perror(name);
        exit(2);
    }
    f.len = fread(f.bytes, 1, MOST, in);
    fclose(in);
    return f;
}

static void print_cell(const uint64_t *rows, size_t words, file m, size_t row)
{
    argo_seen seen = argo_look(rows, words, m.bytes, m.len, row);
    argo_place part = argo_part(rows, words, m.bytes, m.len, row);
    printf("%6zu  ", row);
    switch (seen.kind) {
    case ARGO_NULL: printf("null"); break;
    case ARGO_ABSENT: printf("absent"); break;
    case ARGO_FALSE: printf("false"); break;
    case ARGO_TRUE: printf("true"); break;
    case ARGO_INTEGER: printf("%" PRId64, (int64_t)seen.a); break;
    case ARGO_FLOAT: printf("%.17g", seen.value); break;
    case ARGO_STRING: printf("\"%.*s\"", (int)part.len, (const char *)m.bytes + part.start); break;
    case ARGO_RECORD: printf("record of %" PRIu64, seen.a); break;
    case ARGO_ARRAY: printf("array of %" PRIu64, seen.a); break;
    default: printf("%" PRIu64 " bytes", part.len); break;
    }
    putchar('\n');
}

int main(int argc, char **argv)
{
    static uint64_t rows[ARGO_ROW_WORDS * ARGO_ROWS];
    static uint32_t work[ARGO_WORK];
    if (argc != 4) {
        fprintf(stderr, "usage: column TABLE MESSAGE ROW\n");
        return 2;
    }
    file t = contents(argv[1]), m = contents(argv[2]);
    argo_answer read = argo_read(t.bytes, t.len, m.bytes, m.len, rows, sizeof rows / sizeof *rows, work, ARGO_WORK);
    if (read.number != 0) {
        fprintf(stderr, "refused: %" PRIu64 " %" PRIu64 "\n", read.number, read.second);
        return 1;
    }
    size_t words = ARGO_ROW_WORDS * read.second;
    argo_seen clicked = argo_look(rows, words, m.bytes, m.len, strtoull(argv[3], NULL, 10));
    if (clicked.number != 0) {
        fprintf(stderr, "refused: %" PRIu64 "\n", clicked.number);
        return 1;
    }
    printf("row %s is in column %" PRIu64 ":\n", argv[3], clicked.node);
    for (size_t row = 0; row < read.second; row++)
        if (rows[ARGO_ROW_WORDS * row + ARGO_ROW_NODE] == clicked.node)
            print_cell(rows, words, m, row);
    return 0;
}

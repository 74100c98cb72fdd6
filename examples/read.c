/* Prints the tree of a message: read TABLE MESSAGE
 *
 *     tools/library
 *     gcc -Iinclude -o read examples/read.c build/libargo.a
 *     ./read samples/night.table samples/night.message
 */
#include <inttypes.h>
#include <stdio.h>
#include <stdlib.h>

#include "argo.h"

typedef struct {
    uint8_t *bytes;
    size_t len;
} file;

static file contents(const char *name)
{
    /* One byte more than a message has at most, so that one that is too long is refused and not cut. */
    enum { MOST = 65537 };
    file f = {malloc(MOST), 0};
    FILE *in = fopen(name, "rb");
    if (!in || !f.bytes) {
        perror(name);
        exit(2);
    }
    f.len = fread(f.bytes, 1, MOST, in);
    fclose(in);
    return f;
}

static void print_text(const uint8_t *bytes, size_t len)
{
    putchar('"');
    for (size_t i = 0; i < len; i++) {
        if (bytes[i] < 0x20 || bytes[i] == '"' || bytes[i] == '\\')
            printf("\\u%04x", bytes[i]);
        else
            putchar(bytes[i]);
    }
    putchar('"');
}

static void print_bytes(const uint8_t *bytes, size_t len)
{
    for (size_t i = 0; i < len; i++)
        printf("%02x", bytes[i]);
}

/* One row and all below it, indented by its depth. Answers the row after them. */
static size_t print_row(const uint64_t *rows, size_t words, file m, size_t index, int depth)
{
    argo_seen row = argo_look(rows, words, m.bytes, m.len, index);
    argo_place part = argo_part(rows, words, m.bytes, m.len, index);
    printf("%*s", 2 * depth, "");
    switch (row.kind) {
    case ARGO_NULL: printf("null"); break;
    case ARGO_ABSENT: printf("absent"); break;
    case ARGO_FALSE: printf("false"); break;
    case ARGO_TRUE: printf("true"); break;
    case ARGO_INTEGER: printf("%" PRId64, (int64_t)row.a); break;
    case ARGO_FLOAT: printf("%.17g", row.value); break;
    case ARGO_STRING: print_text(m.bytes + part.start, part.len); break;
    case ARGO_RECORD: printf("record"); break;
    case ARGO_ARRAY: printf("array"); break;
    default: print_bytes(m.bytes + part.start, part.len); break;
    }
    putchar('\n');
    index++;
    if (row.kind == ARGO_RECORD || row.kind == ARGO_ARRAY)
        for (uint64_t i = 0; i < row.a; i++)
            index = print_row(rows, words, m, index, depth + 1);
    return index;
}

int main(int argc, char **argv)
{
    static uint64_t rows[ARGO_ROW_WORDS * ARGO_ROWS];
    static uint32_t work[ARGO_WORK];
    if (argc != 3) {
        fprintf(stderr, "usage: read TABLE MESSAGE\n");
        return 2;
    }
    file t = contents(argv[1]), m = contents(argv[2]);
    argo_answer read = argo_read(t.bytes, t.len, m.bytes, m.len, rows, sizeof rows / sizeof *rows, work,
                                 sizeof work / sizeof *work);
    if (read.number != 0) {
        fprintf(stderr, "refused: %" PRIu64 " %" PRIu64 "\n", read.number, read.second);
        return 1;
    }
    print_row(rows, ARGO_ROW_WORDS * read.second, m, 0, 0);
    return 0;
}

/* Texts used in place as C strings: strings TABLE MESSAGE
 *
 *     tools/library
 *     gcc -Iinclude -o strings examples/strings.c build/libargo.a
 *     ./strings samples/night.table samples/night.message
 *
 * In a message of mode 4, NullTerminatedStrings, a 00 stands right behind each text, so that it need not be copied. This
 * reads a message, writes its tree again in that mode, reads it, and hands each text to puts where it stands.
 */
#include <inttypes.h>
#include <stdio.h>
#include <stdlib.h>
#include <string.h>

#include "argo.h"

typedef struct {
    uint8_t *bytes;
    size_t len;
} file;

static file contents(const char *name)
{
    enum { MOST = 65537 }; /* one byte more than a message has at most */
    file f = {malloc(MOST), 0};
    FILE *in = fopen(name, "rb");
    if (!in || !f.bytes) {
        perror(name);
        exit(2);
    }
    f.len = fread(f.bytes, 1, MOST, in);
    fclose(in);
    return f;
}

static uint64_t rows[ARGO_ROW_WORDS * ARGO_ROWS];
static uint32_t work[ARGO_WORK];

static size_t done(argo_answer answer)
{
    if (answer.number != 0) {
        fprintf(stderr, "refused: %" PRIu64 " %" PRIu64 "\n", answer.number, answer.second);
        exit(1);
    }
    return answer.second;
}

static size_t read_rows(file t, file m)
{
    return done(argo_read(t.bytes, t.len, m.bytes, m.len, rows, sizeof rows / sizeof *rows, work, ARGO_WORK));
}

/* The text of a STRING row as a C string, in its place; none if a zero byte of its own would end it early. */
static const char *string_at(file m, size_t words, size_t row)
{
    argo_place part = argo_part(rows, words, m.bytes, m.len, row);
    const char *text = (const char *)m.bytes + part.start;
    return strlen(text) == part.len ? text : NULL;
}

int main(int argc, char **argv)
{
    static uint8_t out[65536];
    if (argc != 3) {
        fprintf(stderr, "usage: strings TABLE MESSAGE\n");
        return 2;
    }
    file t = contents(argv[1]), m = contents(argv[2]);
    size_t words = ARGO_ROW_WORDS * read_rows(t, m);
    size_t len = done(argo_write(t.bytes, t.len, ARGO_NULL_TERMINATED, rows, words, m.bytes, m.len, out, sizeof out,
                                 work, ARGO_WORK));
    file ended = {out, len};
    size_t count = read_rows(t, ended);
    words = ARGO_ROW_WORDS * count;
    for (size_t row = 0; row < count; row++)
        if (argo_look(rows, words, ended.bytes, ended.len, row).kind == ARGO_STRING) {
            const char *text = string_at(ended, words, row);
            puts(text ? text : "(a text with a zero byte inside)");
        }
    return 0;
}

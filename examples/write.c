/* Writes a small night of jobs as a message: write TABLE >MESSAGE. It is the sample's:
 *
 *     tools/library
 *     gcc -Iinclude -o write examples/write.c build/libargo.a
 *     ./write samples/night.table | cmp - samples/night.message
 */
#include <inttypes.h>
#include <stdio.h>
#include <string.h>

#include "argo.h"

typedef struct {
    const char *name, *status, *note; /* the note may be NULL: none was taken */
    int64_t seconds;                  /* UNKNOWN: the field is left out */
    uint8_t digest[8];
} job;

enum { UNKNOWN = -1 };

static const job night[] = {
    {"parser", "PASSED", "", 41, {0x1f, 0x8b, 0x5e, 0x02, 0xa7, 0x44, 0x90, 0x3c}},
    {"linker", "KILLED", "out of memory", UNKNOWN, {0}},
    {"manual", "PASSED", NULL, 7, {0xd4, 0x01, 0x77, 0xee, 0x20, 0x6b, 0x5a, 0x98}},
    {"parser", "PASSED", "", 43, {0x1f, 0x8b, 0x5e, 0x02, 0xa7, 0x44, 0x90, 0x3c}},
};

enum { JOBS = sizeof night / sizeof *night };

/* The columns of the table: each row is given the number of the node that it stands under. That of a field is its top
 * node, whether it is there, null or absent. */
enum { NIGHT = 0, JOB = 1, NAME = 2, STATUS = 4, NOTE = 6, SECONDS = 9, DIGEST = 11 };

/* The tree: rows, parents first, and the pool that the places of texts and digests are counted in. */
static uint64_t rows[ARGO_ROW_WORDS * (1 + 6 * JOBS)];
static size_t words;
static uint8_t pool[1024];
static size_t pooled;

static void row(uint64_t node, uint64_t kind, uint64_t a, uint64_t b)
{
    rows[words++] = kind;
    rows[words++] = a;
    rows[words++] = b;
    rows[words++] = node;
}

static void place(uint64_t node, uint64_t kind, const void *bytes, size_t len)
{
    row(node, kind, pooled, len);
    memcpy(pool + pooled, bytes, len);
    pooled += len;
}

static void job_rows(const job *j)
{
    row(JOB, ARGO_RECORD, 5, 0);
    place(NAME, ARGO_STRING, j->name, strlen(j->name));
    place(STATUS, ARGO_STRING, j->status, strlen(j->status));
    if (j->note)
        place(NOTE, ARGO_STRING, j->note, strlen(j->note));
    else
        row(NOTE, ARGO_NULL, 0, 0);
    if (j->seconds != UNKNOWN)
        row(SECONDS, ARGO_INTEGER, (uint64_t)j->seconds, 0);
    else
        row(SECONDS, ARGO_ABSENT, 0, 0);
    place(DIGEST, ARGO_FIXED, j->digest, sizeof j->digest);
}

int main(int argc, char **argv)
{
    static uint8_t table[7 + 4 * 1024 + 1]; /* one byte more than a table has at most */
    static uint8_t message[1024];
    static uint32_t work[ARGO_WORK];
    FILE *in = argc == 2 ? fopen(argv[1], "rb") : NULL;
    if (!in) {
        fprintf(stderr, "usage: write TABLE >MESSAGE\n");
        return 2;
    }
    size_t table_len = fread(table, 1, sizeof table, in);
    fclose(in);
    row(NIGHT, ARGO_ARRAY, JOBS, 0);
    for (size_t i = 0; i < JOBS; i++)
        job_rows(&night[i]);
    argo_answer written = argo_write(table, table_len, 0, rows, words, pool, pooled, message, sizeof message, work,
                                     ARGO_WORK);
    if (written.number != 0) {
        fprintf(stderr, "refused: %" PRIu64 " %" PRIu64 "\n", written.number, written.second);
        return 1;
    }
    return fwrite(message, 1, written.second, stdout) == written.second ? 0 : 1;
}

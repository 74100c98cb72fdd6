/* The header says that the pointer of an empty buffer may be NULL. The proofs are about slices, where there is no such
 * pointer, so this is tried out here: each buffer of each call in turn.
 *
 *     gcc -std=c11 -Iinclude -o empty bindings/c/empty.c build/libargo.a
 */
#include <inttypes.h>
#include <stdio.h>

#include "argo.h"

/* An array of records without fields, and two of them. */
static const uint8_t table[] = {'A', 'W', 'T', 1, 0, 2, 0, 8, 0, 0, 0, 7, 0, 0, 0};
static const uint8_t message[] = {0, 2, 4};
static const uint64_t two[] = {ARGO_ARRAY, 2, 0, 0, ARGO_RECORD, 0, 0, 1, ARGO_RECORD, 0, 0, 1};
static const uint64_t text[] = {ARGO_STRING, 0, 0, 0};

enum { WORDS = sizeof two / sizeof *two };

static uint64_t rows[WORDS];
static uint8_t out[sizeof message];
static uint32_t work[ARGO_WORK];
static int failed;

static void expect(const char *call, uint64_t got, uint64_t want)
{
    if (got == want)
        return;
    fprintf(stderr, "%s: %" PRIu64 ", and not %" PRIu64 "\n", call, got, want);
    failed = 1;
}

static void try_check(const uint8_t *t, uint32_t *w, uint64_t want)
{
    expect("argo_check", argo_check(t, t ? sizeof table : 0, w, w ? ARGO_WORK : 0).number, want);
}

static void try_read(const uint8_t *t, const uint8_t *m, uint64_t *r, uint32_t *w, uint64_t want)
{
    argo_answer got = argo_read(t, t ? sizeof table : 0, m, m ? sizeof message : 0, r, r ? WORDS : 0, w,
                                w ? ARGO_WORK : 0);
    expect("argo_read", got.number, want);
}

/* These rows have no places, so the pool is always empty. */
static void try_write(const uint8_t *t, const uint64_t *r, uint8_t *o, uint32_t *w, uint64_t want)
{
    argo_answer got = argo_write(t, t ? sizeof table : 0, 0, r, r ? WORDS : 0, NULL, 0, o, o ? sizeof out : 0, w,
                                 w ? ARGO_WORK : 0);
    expect("argo_write", got.number, want);
}

int main(void)
{
    try_check(table, work, 0);
    try_check(NULL, work, ARGO_TABLE_MARK);
    try_check(table, NULL, ARGO_WORK_SHORT);

    try_read(table, message, rows, work, 0);
    try_read(NULL, message, rows, work, ARGO_TABLE_MARK);
    try_read(table, NULL, rows, work, ARGO_MESSAGE_SIZE);
    try_read(table, message, NULL, work, ARGO_MANY_ROWS);
    try_read(table, message, rows, NULL, ARGO_WORK_SHORT);
    try_read(NULL, NULL, NULL, NULL, ARGO_WORK_SHORT);

    try_write(table, two, out, work, 0);
    try_write(NULL, two, out, work, ARGO_TABLE_MARK);
    try_write(table, NULL, out, work, ARGO_UNFIT);
    try_write(table, two, NULL, work, ARGO_NO_ROOM);
    try_write(table, two, out, NULL, ARGO_WORK_SHORT);
    try_write(NULL, NULL, NULL, NULL, ARGO_WORK_SHORT);

    expect("argo_look", argo_look(two, WORDS, NULL, 0, 1).kind, ARGO_RECORD);
    expect("argo_look", argo_look(two, WORDS, NULL, 0, 2).node, 1);
    expect("argo_look", argo_look(text, ARGO_ROW_WORDS, NULL, 0, 0).kind, ARGO_STRING);
    expect("argo_look", argo_look(NULL, 0, NULL, 0, 0).number, ARGO_NO_ROW);
    expect("argo_part", argo_part(text, ARGO_ROW_WORDS, NULL, 0, 0).len, 0);
    expect("argo_part", argo_part(NULL, 0, NULL, 0, 0).len, 0);
    return failed;
}

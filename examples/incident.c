/* The night on which a killed job had a green row (docs/INCIDENT.md). The jobs are written as a message and read back
 * with this library; beside each stands what the old reader showed of the same bytes, which gave an empty text no number.
 *
 *     tools/library
 *     gcc -Iinclude -o incident examples/incident.c build/libargo.a
 *     ./incident
 */
#include <inttypes.h>
#include <stdio.h>
#include <stdlib.h>
#include <string.h>

#include "argo.h"

typedef struct {
    const char *name, *status, *note; /* the note may be empty; NULL: none was taken */
} job;

static const job night[] = {
    {"parser", "QUEUED", ""},   {"linker", "KILLED", NULL}, {"manual", "PASSED", NULL},
    {"kernel", "KILLED", NULL}, {"shell", "QUEUED", ""},
};

enum { JOBS = sizeof night / sizeof *night, ROWS = 1 + 4 * JOBS };

/* An array of records of three texts. Argo numbers the literals of each key by themselves, and by default a key is a
 * type of GraphQL: the name is an ID, key 0; status and note are both String, key 1. Keys 0 and 1 deduplicate. */
static const uint8_t table[] = {
    'A', 'W', 'T', 1, 0, 9, 0,           /* the mark, version 1, 9 nodes */
    8, 0, 0, 0,  7, 0, 3, 0,             /* ARRAY, RECORD of 3 */
    9, 2, 0, 0,  1, 0, 0, 0,             /* name: BLOCK of key 0, STRING */
    9, 2, 1, 0,  1, 0, 0, 0,             /* status: BLOCK of key 1, STRING */
    10, 0, 0, 0, 9, 2, 1, 0, 1, 0, 0, 0, /* note: NULLABLE, BLOCK of key 1, STRING */
};

static uint64_t rows[ARGO_ROW_WORDS * ROWS];
static uint8_t message[256];
static size_t message_len;
static uint32_t work[ARGO_WORK];

/* The count, or the end of the program. */
static size_t ok(const char *what, argo_answer answer)
{
    if (answer.number != 0) {
        fprintf(stderr, "%s: refused, %" PRIu64 " %" PRIu64 "\n", what, answer.number, answer.second);
        exit(1);
    }
    return answer.second;
}

static void write_night(void)
{
    static const uint64_t columns[] = {2, 4, 6}; /* the top node of each field, see the table */
    static uint64_t given[ARGO_ROW_WORDS * ROWS] = {ARGO_ARRAY, JOBS};
    static uint8_t pool[256];
    size_t pooled = 0, words = ARGO_ROW_WORDS;
    for (int i = 0; i < JOBS; i++) {
        const char *texts[] = {night[i].name, night[i].status, night[i].note};
        given[words] = ARGO_RECORD;
        given[words + 1] = 3;
        given[words + ARGO_ROW_NODE] = 1;
        words += ARGO_ROW_WORDS;
        for (int f = 0; f < 3; f++, words += ARGO_ROW_WORDS) {
            given[words + ARGO_ROW_NODE] = columns[f];
            if (!texts[f])
                continue; /* zeros before the node are a null */
            given[words] = ARGO_STRING;
            given[words + 1] = pooled;
            given[words + 2] = strlen(texts[f]);
            memcpy(pool + pooled, texts[f], strlen(texts[f]));
            pooled += strlen(texts[f]);
        }
    }
    message_len = ok("write", argo_write(table, sizeof table, 0, given, words, pool, pooled, message, sizeof message,
                                         work, ARGO_WORK));
}

/* A text of the message to be shown, or that there is none. */
typedef struct {
    int is_there;
    argo_place at;
} text;

static text text_of(size_t row)
{
    argo_seen seen = argo_look(rows, sizeof rows / sizeof *rows, message, message_len, row);
    return (text){seen.kind == ARGO_STRING, argo_part(rows, sizeof rows / sizeof *rows, message, message_len, row)};
}

/* What the old reader made of it, from the label that stands for it in the core: a length 0 or more is a literal, whose
 * bytes are next in the block; -1 is null; -4 and lower is the number of an earlier literal. Its one mistake is marked. */
static text old_text(int label, text literal)
{
    static text numbered[2 * JOBS];
    static int count;
    if (label >= 0) {
        if (label != 0) /* the mistake: a literal takes a number, «be it empty or a repeat» */
            numbered[count++] = literal;
        return literal;
    }
    return label <= -4 && -4 - label < count ? numbered[-4 - label] : (text){0, {0, 0}};
}

/* A label of one byte, as all are here: zig-zag. */
static int label_at(size_t at)
{
    return message[at] % 2 ? -(message[at] + 1) / 2 : message[at] / 2;
}

static void show(text t, int width)
{
    if (!t.is_there)
        printf("%-*s", width, "-");
    else if (t.at.len == 0)
        printf("%-*s", width, "\"\"");
    else
        printf("%-*.*s", width, (int)t.at.len, (const char *)message + t.at.start);
}

int main(void)
{
    write_night();
    printf("%zu bytes:", message_len);
    for (size_t i = 0; i < message_len; i++)
        printf(" %02x", message[i]);
    size_t count = ok("read", argo_read(table, sizeof table, message, message_len, rows, sizeof rows / sizeof *rows, work,
                                        ARGO_WORK));
    printf("\n%zu rows\n\n%-10s%-10s%-10s%s\n", count, "job", "status", "note", "the old reader");
    size_t core = message_len - 3 * JOBS; /* the labels of the jobs: the message ends with the core */
    for (size_t i = 0; i < JOBS; i++) {
        text status = text_of(4 * i + 3), note = text_of(4 * i + 4);
        show(text_of(4 * i + 2), 10);
        show(status, 10);
        show(note, 10);
        show(old_text(label_at(core + 3 * i + 1), status), 10);
        show(old_text(label_at(core + 3 * i + 2), note), 0);
        putchar('\n');
    }
    return 0;
}

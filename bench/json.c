/* Times reading a night as an Argo message beside parsing the same night as JSON text, and prints a table.
 *
 *     json FOLDER JOBS...      FOLDER has night-JOBS.table, .message and .json, as the second program makes them
 *
 * jansson builds a tree of the whole text; yajl calls back for each value and keeps nothing. */
#include <malloc.h>
#include <stdio.h>
#include <stdlib.h>
#include <time.h>

#include "argo.h"

#ifdef WITH_JANSSON
#include <jansson.h>
#endif
#ifdef WITH_YAJL
#include <yajl/yajl_parse.h>
#endif

enum { ROUNDS = 60, LONGEST = 1 << 20 };

/* In a round, a call is repeated until that takes so many seconds. */
static const double ROUND = 0.001;

typedef struct {
    unsigned char *bytes;
    size_t len;
} content;

typedef struct {
    content table, message, json;
} night;

static uint64_t rows[ARGO_ROWS * ARGO_ROW_WORDS];
static uint32_t work[ARGO_WORK];

static void fail(const char *what) {
    fprintf(stderr, "json: %s\n", what);
    exit(1);
}

static content load(const char *folder, const char *jobs, const char *ending) {
    char path[4096];
    snprintf(path, sizeof path, "%s/night-%s.%s", folder, jobs, ending);
    FILE *file = fopen(path, "rb");
    content content = {malloc(LONGEST), 0};
    if (file == NULL || content.bytes == NULL) fail(path);
    content.len = fread(content.bytes, 1, LONGEST, file);
    fclose(file);
    return content;
}

static void read_argo(const night *night) {
    argo_answer answer = argo_read(night->table.bytes, night->table.len, night->message.bytes, night->message.len, rows,
                                   sizeof rows / sizeof *rows, work, ARGO_WORK);
    if (answer.number != 0) fail("the message is refused");
}

#ifdef WITH_JANSSON
static void parse_jansson(const night *night) {
    json_t *tree = json_loadb((const char *)night->json.bytes, night->json.len, 0, NULL);
    if (tree == NULL) fail("jansson refuses the text");
    json_decref(tree);
}
#endif

#ifdef WITH_YAJL
static size_t values;

static int on_null(void *context) {
    (void)context;
    values++;
    return 1;
}

static int on_integer(void *context, long long number) {
    (void)context, (void)number;
    values++;
    return 1;
}

static int on_text(void *context, const unsigned char *text, size_t len) {
    (void)context, (void)text, (void)len;
    values++;
    return 1;
}

static void parse_yajl(const night *night) {
    static yajl_callbacks callbacks = {
        .yajl_null = on_null, .yajl_integer = on_integer, .yajl_string = on_text, .yajl_map_key = on_text};
    yajl_handle parser = yajl_alloc(&callbacks, NULL, NULL);
    if (parser == NULL || yajl_parse(parser, night->json.bytes, night->json.len) != yajl_status_ok ||
        yajl_complete_parse(parser) != yajl_status_ok)
        fail("yajl refuses the text");
    yajl_free(parser);
}
#endif

/* The processor's time: what other programs take of a shared machine does not count. */
static double now(void) {
    struct timespec time;
    clock_gettime(CLOCK_THREAD_CPUTIME_ID, &time);
    return (double)time.tv_sec + (double)time.tv_nsec / 1e9;
}

static double one_round(void (*call)(const night *), const night *night) {
    for (size_t calls = 1;; calls *= 2) {
        double start = now();
        for (size_t i = 0; i < calls; i++) call(night);
        double time = now() - start;
        if (time >= ROUND) return time / (double)calls;
    }
}

static const struct {
    const char *name;
    void (*call)(const night *);
} ways[] = {
    {"Argo: the library, into rows", read_argo},
#ifdef WITH_YAJL
    {"JSON: yajl, a call for each value", parse_yajl},
#endif
#ifdef WITH_JANSSON
    {"JSON: jansson, a tree", parse_jansson},
#endif
};

enum { WAYS = sizeof ways / sizeof *ways };

/* A number with its thousands apart. */
static void print_count(size_t n) {
    if (n < 1000)
        printf(" %7zu |", n);
    else
        printf(" %3zu,%03zu |", n / 1000, n % 1000);
}

static void compare(const char *folder, const char *jobs) {
    night night = {load(folder, jobs, "table"), load(folder, jobs, "message"), load(folder, jobs, "json")};
    double best[WAYS];
    for (int round = 0; round < ROUNDS; round++)
        for (int way = 0; way < WAYS; way++) {
            double time = one_round(ways[way].call, &night);
            if (round == 0 || time < best[way]) best[way] = time;
        }
    for (int way = 0; way < WAYS; way++) {
        size_t len = way == 0 ? night.message.len : night.json.len;
        printf("| %-33s |", ways[way].name);
        print_count(strtoul(jobs, NULL, 10));
        print_count(len);
        printf(" %7.2f | %7.1f | %7.2f |\n", (double)len / (double)night.message.len, best[way] * 1e6,
               best[way] / best[0]);
    }
    free(night.table.bytes);
    free(night.message.bytes);
    free(night.json.bytes);
}

int main(int count, char **words) {
    if (count < 3) fail("json FOLDER JOBS...");
    /* Memory that a parser gives back stays here, as in a program that parses often. */
    mallopt(M_TRIM_THRESHOLD, 64 << 20);
    puts("| a night read                      |    jobs |   bytes | to Argo |      µs | to Argo |");
    puts("|-----------------------------------|--------:|--------:|--------:|--------:|--------:|");
    for (int i = 2; i < count; i++) compare(words[1], words[i]);
    return 0;
}

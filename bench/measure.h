/* What our two programs of the benchmark share: files, their lines, and how a row is measured. A row is work that can be
 * repeated: `work(times)` does what is fixed once and the row's operation so many times. What is printed is the difference
 * of two numbers of times, which takes the fixed part away. */
#include <stdint.h>
#include <stdio.h>
#include <stdlib.h>
#include <string.h>
#include <time.h>

#if __has_include(<valgrind/callgrind.h>)
#include <valgrind/callgrind.h>
#else
#define CALLGRIND_ZERO_STATS (void)0
#define CALLGRIND_DUMP_STATS_AT(label) (void)(label)
#endif

enum { ROOM = 1 << 17, LINES = 4096 };
typedef struct { uint8_t bytes[ROOM]; size_t len; } file;
typedef struct { const uint8_t *at; size_t len; } text;
typedef void work(uint32_t times);

static file aliases, likely, parents;
static uint8_t out[1 << 14];
static volatile uint64_t sink;

/* A table or an identifier as two arguments. */
#define FILE_OF(f) (f).bytes, (f).len
#define TEXT_OF(t) (t).at, (t).len

static void need(const char *what, int holds) {
    if (!holds) { fprintf(stderr, "%s\n", what); exit(1); }
}

static void load(const char *name, file *f) {
    FILE *opened = fopen(name, "rb");
    if (!opened) { perror(name); exit(1); }
    f->len = fread(f->bytes, 1, ROOM, opened);
    fclose(opened);
}

static void load_tables(void) {
    load("tables/aliases.tsv", &aliases);
    load("tables/likely.tsv", &likely);
    load("tables/parents.tsv", &parents);
}

/* The lines of a file, without their 0A. */
static size_t lines_of(const file *f, text *lines) {
    size_t count = 0;
    const uint8_t *at = f->bytes, *end = f->bytes + f->len, *stop;
    while (count < LINES && (stop = memchr(at, '\n', end - at))) {
        lines[count++] = (text){at, stop - at};
        at = stop + 1;
    }
    return count;
}

static text text_of(const char *s) { return (text){(const uint8_t *)s, strlen(s)}; }

/* ---- a row: its time, or its instructions ---- */

/* A measure takes this many nanoseconds at least, and this many times what is fixed: what is subtracted is 5 % at most. */
static const double shortest = 2e8, share = 20;

static int counting, failed;

static double now(void) {
    struct timespec t;
    clock_gettime(CLOCK_PROCESS_CPUTIME_ID, &t);
    return t.tv_sec * 1e9 + t.tv_nsec;
}

static double taken(work *run, uint32_t times) {
    double start = now();
    run(times);
    return now() - start;
}

/* Nanoseconds of one time, from so many times at first and twice as many until that is enough. */
static double nanoseconds(work *run, uint32_t times) {
    double fixed = taken(run, 0), whole;
    while ((whole = taken(run, times)) < shortest || whole < share * fixed) times *= 2;
    return (whole - fixed) / times;
}

/* Leaves a file with the instructions of so many times, under callgrind; counts.py reads them. */
static void count(const char *label, work *run, uint32_t times, size_t operations) {
    char counted[160];
    snprintf(counted, sizeof counted, "%u\t%zu\t%s", times, operations, label);
    CALLGRIND_ZERO_STATS;
    run(times);
    CALLGRIND_DUMP_STATS_AT(counted);
}

/* A row, or one kind of a row of which the greatest counts (its label has the row's name, a tab and the kind): `run` has
 * so many operations each time. Instructions do not vary: the second time takes what each further one does. */
static void say(const char *label, work *run, size_t operations, uint32_t times) {
    if (counting) {
        count(label, run, 1, operations);
        count(label, run, 2, operations);
        return;
    }
    double figure = nanoseconds(run, times) / operations;
    if (!(figure > 0)) {
        fprintf(stderr, "%s: measured %.1f nanoseconds, which cannot be\n", label, figure);
        failed = 1;
        return;
    }
    printf("%s\t%.1f\n", label, figure);
    fflush(stdout);
}

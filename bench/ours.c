/* Our side of the benchmark, over tested tables: lookup, check, reading and the four operations, called from C.
 * Prints lines of a row's name, a tab and nanoseconds; with --count, under callgrind, it leaves counts instead. Run in
 * the repository's folder; the last argument is the file of identifiers. */
#include "measure.h"

uint64_t probe_lookup(const uint8_t *t, size_t t_len, const uint8_t *key, size_t key_len);
uint64_t probe_sorted(const uint8_t *t, size_t t_len, const uint8_t *key, size_t key_len);
uint64_t probe_check(const uint8_t *a, size_t a_len, const uint8_t *l, size_t l_len, const uint8_t *p, size_t p_len);
/* Reads once, and so many times more. */
uint64_t probe_read(const uint8_t *id, size_t id_len, uint32_t times);
/* Tests the tables, then does the operation once, and so many times more. */
uint64_t probe_repeat(uint8_t operation, const uint8_t *id, size_t id_len, const uint8_t *a, size_t a_len,
                      const uint8_t *other, size_t other_len, uint8_t *out, size_t out_len, uint32_t times);
/* The same with hints beside the tables, made once. */
uint64_t probe_repeat_hinted(uint8_t operation, const uint8_t *id, size_t id_len, const uint8_t *a, size_t a_len,
                             const uint8_t *other, size_t other_len, uint8_t *out, size_t out_len, uint32_t times);

static uint64_t (*repeat)(uint8_t, const uint8_t *, size_t, const uint8_t *, size_t, const uint8_t *, size_t, uint8_t *,
                          size_t, uint32_t) = probe_repeat;

enum { CANONICALISE, MAXIMISE, MINIMISE, CHAIN };

/* When counting, one in so many identifiers is enough. */
enum { ONE_IN = 10 };

static file identifiers, longest;
static text keys[LINES], ids[LINES], long_ids[LINES], asked;
static size_t key_count, id_count, long_count;

/* ---- lookup and check ---- */

static void by_halves(uint32_t times) {
    while (times--) {
        for (size_t k = 0; k < key_count; k++) sink += probe_sorted(FILE_OF(likely), TEXT_OF(keys[k]));
    }
}

static void by_lines(uint32_t times) {
    while (times--) {
        for (size_t k = 0; k < key_count; k++) sink += probe_lookup(FILE_OF(likely), TEXT_OF(keys[k]));
    }
}

static void check(uint32_t times) {
    while (times--) sink += probe_check(FILE_OF(aliases), FILE_OF(likely), FILE_OF(parents));
}

static file grown[3];
static void check_grown(uint32_t times) {
    while (times--) sink += probe_check(FILE_OF(grown[0]), FILE_OF(grown[1]), FILE_OF(grown[2]));
}

/* Three good tables with so many rows each; 2,000 is near what a table may have. */
static void grow(int rows) {
    grown[0].len = grown[1].len = grown[2].len = 0;
    for (int n = 0; n < rows; n++) {
        char a = 'a' + n / 676, b = 'a' + n / 26 % 26, c = 'a' + n % 26;
        const char *shapes[3] = {"language\t%c%c%c\tzz\n", "%c%c%c\tzz-Latn-US\n", "%c%c%c-US\tzz\n"};
        for (int t = 0; t < 3; t++) {
            grown[t].len += sprintf((char *)grown[t].bytes + grown[t].len, shapes[t], a, b, c);
        }
    }
    need("the grown tables do not pass", probe_check(FILE_OF(grown[0]), FILE_OF(grown[1]), FILE_OF(grown[2])) == 0);
}

/* ---- reading and the operations ---- */

/* One call a reading: no compiler can take these out of the loop. */
static void read_asked(uint32_t times) {
    while (times--) sink += probe_read(TEXT_OF(asked), 0);
}

static uint8_t operation;

/* What is fixed is the test of the tables and the first time. */
static void operate(text id, uint32_t times) {
    const file *other = operation == CHAIN ? &parents : &likely;
    sink += repeat(operation, TEXT_OF(id), FILE_OF(aliases), FILE_OF(*other), out, sizeof out, times);
}

static void operate_asked(uint32_t times) { operate(asked, times); }

static void operate_all(uint32_t times) {
    for (size_t k = 0; k < id_count; k++) operate(ids[k], times);
}

/* ---- rows ---- */

static void say_read(const char *label, text id, uint32_t times) {
    asked = id;
    say(label, read_asked, 1, times);
}

static void say_one(const char *label, uint8_t of, text id, uint32_t times) {
    operation = of;
    asked = id;
    say(label, operate_asked, 1, times);
}

static void say_canonicalise(const char *label, text id, uint32_t times) { say_one(label, CANONICALISE, id, times); }

static void say_all(const char *label, uint8_t of, uint32_t times) {
    operation = of;
    say(label, operate_all, id_count, times);
}

/* A row with a kind for each of the long identifiers. */
static void say_worst(const char *row, void (*say_kind)(const char *, text, uint32_t), uint32_t times) {
    for (size_t k = 0; k < long_count; k++) {
        const uint8_t *tab = memchr(long_ids[k].at, '\t', long_ids[k].len);
        char label[128];
        snprintf(label, sizeof label, "%s\t%.*s", row, (int)(tab - long_ids[k].at), long_ids[k].at);
        say_kind(label, (text){tab + 1, long_ids[k].at + long_ids[k].len - tab - 1}, times);
    }
}

static void thin_identifiers(void) {
    size_t kept = 0;
    for (size_t k = 0; k < id_count; k += ONE_IN) ids[kept++] = ids[k];
    id_count = kept;
}

static void load_all(const char *path) {
    load_tables();
    load(path, &identifiers);
    load("bench/long.txt", &longest);
    id_count = lines_of(&identifiers, ids);
    long_count = lines_of(&longest, long_ids);
    key_count = lines_of(&likely, keys);
    for (size_t k = 0; k < key_count; k++) keys[k].len = (const uint8_t *)memchr(keys[k].at, '\t', keys[k].len) - keys[k].at;
    if (counting) thin_identifiers();
    need("no identifiers", id_count && long_count && key_count);
    need("the tables do not pass", probe_check(FILE_OF(aliases), FILE_OF(likely), FILE_OF(parents)) == 0);
}

/* The last number of each row is how often to repeat at first: about what is enough. */
int main(int argc, char **argv) {
    counting = argc == 3 && !strcmp(argv[1], "--count");
    need("usage: ours [--count] FILE", argc == 2 || counting);
    load_all(argv[argc - 1]);

    say("lookup", by_halves, key_count, 1 << 10);
    say("lookup by lines", by_lines, key_count, 1 << 5);
    say("check", check, 1, 1 << 11);
    for (int rows = 250; rows <= 2000; rows *= 2) {
        char name[32];
        snprintf(name, sizeof name, "check, %d rows each", rows);
        grow(rows);
        say(name, check_grown, 1, 1 << 11);
    }
    say_read("read en-Latn-US", text_of("en-Latn-US"), 1 << 22);
    say_worst("read, worst", say_read, 1 << 18);
    say_one("canonicalise iw_IL", CANONICALISE, text_of("iw_IL"), 1 << 20);
    say_one("canonicalise en-US-u-KN-true-ca-gregory", CANONICALISE, text_of("en-US-u-KN-true-ca-gregory"), 1 << 19);
    say_worst("canonicalise, worst", say_canonicalise, 1 << 15);
    say_one("maximise en-AU", MAXIMISE, text_of("en-AU"), 1 << 19);
    say_one("minimise en-AU", MINIMISE, text_of("en-AU"), 1 << 18);
    say_one("chain en-AU", CHAIN, text_of("en-AU"), 1 << 19);
    say_all("canonicalise", CANONICALISE, 1 << 11);
    say_all("maximise", MAXIMISE, 1 << 12);
    say_all("minimise", MINIMISE, 3000);
    say_all("chain", CHAIN, 1 << 11);
    repeat = probe_repeat_hinted;
    say_all("canonicalise, by hints", CANONICALISE, 1 << 13);
    say_all("maximise, by hints", MAXIMISE, 14000);
    say_all("minimise, by hints", MINIMISE, 10000);
    return failed;
}

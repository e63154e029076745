/* A host program: document 01's examples through the four exported functions. Each call is made twice: every lent buffer
 * is a block of its own, first with guard bytes around it, then of just its length, so that valgrind sees a byte read
 * outside it. A refusal must write nothing, a result only its own bytes, and nothing else may change. Then what the header
 * promises beside: the room for a chain, null pointers with length 0, the meaning of each number, the version.
 * Prints 'N passed, M failed'. */
#include "altazhbey.h"
#include <stdio.h>
#include <stdlib.h>
#include <string.h>

enum { GUARD = 64, OUT = 512 };

static const char ALIASES[] = "language\tiw\the\nlanguage\tsh\tsr-Latn\nregion\tBU\tMM\nvariant\theploc\talalc97\n";
static const char LIKELY[] =
    "de\tde-Latn-DE\nen\ten-Latn-US\nhe\the-Hebr-IL\nsr\tsr-Cyrl-RS\nsr-ME\tsr-Latn-ME\nund\ten-Latn-US\n"
    "und-Hant\tzh-Hant-TW\nund-US\ten-Latn-US\nzh\tzh-Hans-CN\nzh-Hant\tzh-Hant-TW\nzh-TW\tzh-Hant-TW\n";
static const char PARENTS[] = "en-AU\ten-001\nzh-Hant\tund\n";

static int passed, failed;

/* Bytes lent for a call, with so many guard bytes before and behind; `was` holds the block as it was. */
typedef struct { uint8_t *block, *was; size_t len, guard; } lent;

static lent lend(const void *bytes, size_t len, size_t guard) {
    lent l = {malloc(len + 2 * guard), malloc(len + 2 * guard), len, guard};
    if ((!l.block || !l.was) && len + guard) exit(2);
    memset(l.block, 0xA5, len + 2 * guard);
    if (bytes) memcpy(l.block + guard, bytes, len);
    else for (size_t i = 0; i < len; i++) l.block[guard + i] = (uint8_t)(i * 7 + 3);
    memcpy(l.was, l.block, len + 2 * guard);
    return l;
}

/* Whether all but the first n lent bytes are as they were. */
static int kept(const lent *l, size_t n) {
    return !memcmp(l->block, l->was, l->guard) && !memcmp(l->block + l->guard + n, l->was + l->guard + n, l->len - n + l->guard);
}

static void give_back(lent *l) {
    free(l->block);
    free(l->was);
}

typedef enum { CANONICALISE, MAXIMISE, MINIMISE, CHAIN } operation;

static uint64_t call(operation o, const lent *id, const lent *a, const lent *l, const lent *p, const lent *out) {
#define LENT(x) (x)->block + (x)->guard, (x)->len
    switch (o) {
    case CANONICALISE: return altazhbey_canonicalise(LENT(id), LENT(a), LENT(out));
    case MAXIMISE: return altazhbey_maximise(LENT(id), LENT(a), LENT(l), LENT(out));
    case MINIMISE: return altazhbey_minimise(LENT(id), LENT(a), LENT(l), LENT(out));
    default: return altazhbey_chain(LENT(id), LENT(a), LENT(p), LENT(out));
    }
#undef LENT
}

typedef struct { const void *bytes; size_t len; } part;
typedef struct { part aliases, likely, parents; } tables;
static const tables EXAMPLES = {{ALIASES, sizeof ALIASES - 1}, {LIKELY, sizeof LIKELY - 1}, {PARENTS, sizeof PARENTS - 1}};

/* One call: the whole answer and all of the lent bytes, held against what is expected. */
static void expect_with(size_t guard, operation o, part id, tables t, size_t room, unsigned number, unsigned table, size_t place, const char *result, unsigned steps) {
    lent i = lend(id.bytes, id.len, guard), a = lend(t.aliases.bytes, t.aliases.len, guard);
    lent l = lend(t.likely.bytes, t.likely.len, guard), p = lend(t.parents.bytes, t.parents.len, guard), out = lend(NULL, room, guard);
    uint64_t r = call(o, &i, &a, &l, &p, &out);
    size_t len = number == 0 ? strlen(result) : 0;
    int good = altazhbey_number(r) == number && altazhbey_table(r) == table && altazhbey_place(r) == place &&
               altazhbey_length(r) == len && altazhbey_steps(r) == steps && len <= room &&
               !memcmp(out.block + guard, result, len) && kept(&out, len) && kept(&i, 0) && kept(&a, 0) && kept(&l, 0) && kept(&p, 0);
    if (good) passed++;
    else {
        failed++;
        printf("operation %d of '%.*s': number %u table %u place %zu length %zu steps %u\n", (int)o, (int)(id.len < 60 ? id.len : 60),
               (const char *)id.bytes, altazhbey_number(r), altazhbey_table(r), altazhbey_place(r), altazhbey_length(r), altazhbey_steps(r));
    }
    give_back(&i), give_back(&a), give_back(&l), give_back(&p), give_back(&out);
}

static void expect(operation o, part id, tables t, size_t room, unsigned number, unsigned table, size_t place, const char *result, unsigned steps) {
    expect_with(GUARD, o, id, t, room, number, table, place, result, steps);
    expect_with(0, o, id, t, room, number, table, place, result, steps);
}

static part text(const char *s) { return (part){s, strlen(s)}; }

/* A result at every length of output: 10 below its length, 0 from there on, with the bytes behind it untouched. */
static void writes(operation o, const char *id, const char *result, unsigned steps) {
    for (size_t room = 0; room < strlen(result); room++) expect(o, text(id), EXAMPLES, room, 10, 0, 0, "", 0);
    expect(o, text(id), EXAMPLES, strlen(result), 0, 0, 0, result, steps);
    expect(o, text(id), EXAMPLES, OUT, 0, 0, 0, result, steps);
}

static void refuses(operation o, const char *id, unsigned number, size_t place) {
    expect(o, text(id), EXAMPLES, 0, number, 0, place, "", 0);
    expect(o, text(id), EXAMPLES, OUT, number, 0, place, "", 0);
}

/* FRONT, 27 times `aaaaaaaa-`, then so many letters. */
static const char *longer(const char *front, int letters) {
    static char s[512];
    strcpy(s, front);
    for (int k = 0; k < 27; k++) strcat(s, "aaaaaaaa-");
    for (int k = 0; k < letters; k++) strcat(s, "a");
    return s;
}

static void examples(void) {
    writes(CANONICALISE, "IW_il", "he-IL", 0);
    writes(CANONICALISE, "sh-Arab-AQ", "sr-Arab-AQ", 0);
    writes(CANONICALISE, "sh", "sr-Latn", 0);
    writes(CANONICALISE, "en-US-u-KN-true-ca-gregory", "en-US-u-ca-gregory-kn", 0);
    writes(CANONICALISE, "latn_us", "und-Latn-US", 0);
    writes(CANONICALISE, "root", "und", 0);
    writes(CANONICALISE, "ja-Latn-heploc-alalc97", "ja-Latn-alalc97", 0);
    for (int o = CANONICALISE; o <= CHAIN; o++) {
        refuses((operation)o, "en-US-Latn", ALTAZHBEY_MISPLACED_LATER, 6);
        refuses((operation)o, "en-1994-1994", 6, 8);
        refuses((operation)o, "en-u", 7, 3);
        refuses((operation)o, "root-US", ALTAZHBEY_MISPLACED_LATER, 5);
        refuses((operation)o, "u-ca-abc", ALTAZHBEY_MISPLACED_FIRST, 0);
        refuses((operation)o, "en-t-en-us-latn", ALTAZHBEY_MISPLACED_EXTENSION, 11);
        refuses((operation)o, "en-t-k0-ab", 16, 8);
        refuses((operation)o, "en-u-ca-12", 16, 8);
        refuses((operation)o, "", 1, 0);
        refuses((operation)o, "en US", 3, 2);
        refuses((operation)o, "en--US", 4, 3);
        refuses((operation)o, "en-", 4, 3);
        refuses((operation)o, longer("en-x-", 8), 2, 0);
        refuses((operation)o, longer("Latn-x-", 5), 9, 0);
    }
    writes(MAXIMISE, "zh-TW", "zh-Hant-TW", 0);
    writes(MAXIMISE, "und-Hant-US", "zh-Hant-US", 0);
    writes(MAXIMISE, "en-Zzzz-GB", "en-Latn-GB", 0);
    refuses(MAXIMISE, "fr", 8, 0);
    refuses(MINIMISE, "fr", 8, 0);
    writes(MAXIMISE, "fr-Latn-FR", "fr-Latn-FR", 0);
    writes(MINIMISE, "zh-Hant-TW", "zh-TW", 0);
    writes(MINIMISE, "sr-Latn-ME", "sr-ME", 0);
    writes(MINIMISE, "und", "en", 0);
    writes(MINIMISE, "iw_IL", "he", 0);
    writes(CHAIN, "en-AU-u-ca-gregory", "en-AU\nen-001\nen\nund\n", 3);
    writes(CHAIN, "zh-Hant-TW", "zh-Hant-TW\nzh-Hant\nund\n", 2);
    writes(CHAIN, "und", "und\n", 0);
    const char *whole = longer("en-x-", 7);
    expect(CANONICALISE, text(whole), EXAMPLES, OUT, 0, 0, 0, whole, 0);
    expect(CHAIN, text(whole), EXAMPLES, OUT, 0, 0, 0, "en\nund\n", 1);
    refuses(MAXIMISE, whole, 9, 0); /* en-Latn-US with the same private use is 263 bytes */
    refuses(MINIMISE, whole, 9, 0);
}

/* 11 to 14, each of the table that the operation uses, before anything is said of the identifier. */
static void bad_tables(void) {
    static char big[32769];
    memset(big, 'a', sizeof big);
    tables t = EXAMPLES;
    t.aliases = (part){big, sizeof big};
    for (int o = CANONICALISE; o <= CHAIN; o++) expect((operation)o, text("en-u"), t, OUT, 11, 1, 0, "", 0);
    t.aliases = text("language\tiw\the\nlanguage\ten\n");
    for (int o = CANONICALISE; o <= CHAIN; o++) expect((operation)o, text(""), t, OUT, 12, 1, 15, "", 0);
    t.aliases = text("region\tBU\tMM\nlanguage\tiw\the\n");
    for (int o = CANONICALISE; o <= CHAIN; o++) expect((operation)o, text("iw"), t, OUT, 13, 1, 13, "", 0);
    t.aliases = text("language\the\tiw\nlanguage\tiw\tsr\n");
    for (int o = CANONICALISE; o <= CHAIN; o++) expect((operation)o, text("iw"), t, 0, 14, 1, 0, "", 0);
    t = EXAMPLES;
    t.likely = text("en\ten-Latn-US\nde\tde-Latn-DE\n");
    t.parents = text("en-AU\ten-001");
    expect(CANONICALISE, text("iw"), t, OUT, 0, 0, 0, "he", 0);
    expect(MAXIMISE, text("iw"), t, OUT, 13, 2, 14, "", 0);
    expect(MINIMISE, text("iw"), t, OUT, 13, 2, 14, "", 0);
    expect(CHAIN, text("iw"), t, OUT, 12, 3, 0, "", 0);
    t.likely = text("de\tiw-Latn-DE\n");
    t.parents = text("de\ten\nen\tde\n");
    expect(MAXIMISE, text("iw"), t, OUT, 14, 2, 0, "", 0);
    expect(CHAIN, text("iw"), t, OUT, 14, 3, 0, "", 0);
    t = (tables){text(""), text(""), text("")};
    expect(CANONICALISE, text("iw_IL"), t, OUT, 0, 0, 0, "iw-IL", 0);
    expect(MAXIMISE, text("en"), t, OUT, 8, 0, 0, "", 0);
    expect(CHAIN, text("en-AU"), t, OUT, 0, 0, 0, "en-AU\nen\nund\n", 2);
}

static void expect_true(const char *what, int good) {
    if (good) passed++;
    else {
        failed++;
        printf("not so: %s\n", what);
    }
}

/* The longest chain: 49 variants of 4 bytes behind en-Latn-US, the longest three that 255 bytes leave room for; then the
 * three are dropped to en, and from there 8 rows of the longest values lead to und. */
static void longest_chain(void) {
    static char id[256], rows[512], out[ALTAZHBEY_CHAIN_ROOM];
    size_t n = (size_t)sprintf(id, "en-Latn-US"), m = 0;
    for (int k = 0; k < 49; k++) n += (size_t)sprintf(id + n, "-1a%02d", k);
    for (int k = 1; k < 7; k++) m += (size_t)sprintf(rows + m, "aaaaaaaa-Latn-00%d\taaaaaaaa-Latn-00%d\n", k, k + 1);
    m += (size_t)sprintf(rows + m, "aaaaaaaa-Latn-007\tund\nen\taaaaaaaa-Latn-001\n");
    uint64_t r = altazhbey_chain((const uint8_t *)id, n, NULL, 0, (const uint8_t *)rows, m, (uint8_t *)out, sizeof out);
    expect_true("an identifier of 255 bytes", n == 255);
    expect_true("the longest chain has 6,816 bytes and 59 steps", altazhbey_number(r) == 0 && altazhbey_length(r) == 6816 && altazhbey_steps(r) == 59);
    expect_true("it ends in und", !memcmp(out + 6816 - 5, "\nund\n", 5));
    r = altazhbey_chain((const uint8_t *)id, n, NULL, 0, (const uint8_t *)rows, m, (uint8_t *)out, 6815);
    expect_true("a byte less is too short", r == ALTAZHBEY_SHORT_OUT);
}

/* Each choice of parameters null with length 0, the others as they are: the answer is that of an empty buffer of its own. */
static void null_pointers(void) {
    for (int o = CANONICALISE; o <= CHAIN; o++)
        for (int nulls = 0; nulls < 32; nulls++) {
            lent given[5] = {lend("en-AU", nulls & 1 ? 0 : 5, 0), lend(ALIASES, nulls & 2 ? 0 : sizeof ALIASES - 1, 0),
                             lend(LIKELY, nulls & 4 ? 0 : sizeof LIKELY - 1, 0), lend(PARENTS, nulls & 8 ? 0 : sizeof PARENTS - 1, 0),
                             lend(NULL, nulls & 16 ? 0 : OUT, 0)};
            lent null[5];
            uint64_t r = call((operation)o, given, given + 1, given + 2, given + 3, given + 4);
            for (int k = 0; k < 5; k++) null[k] = nulls >> k & 1 ? (lent){NULL, NULL, 0, 0} : given[k];
            expect_true("null with length 0 is an empty buffer", call((operation)o, null, null + 1, null + 2, null + 3, null + 4) == r);
            for (int k = 0; k < 5; k++) give_back(given + k);
        }
}

static void meanings(void) {
    static const char *const WORDS[] = {
        "done", "no bytes", "over 255 bytes", "a byte that is no letter, digit, - or _", "a subtag of 0 or over 8 bytes",
        "a first subtag that is no language, script or root", "a repeated singleton, variant or t key",
        "a singleton or t key with nothing behind it",
        "no row of the likely table fits it", "its canonical or maximised form is over 255 bytes", "the output is too short",
        "a table over 32,768 bytes", "a row of wrong shape", "a row not above the one before", "a row that clashes with another",
        "a subtag that can't stand there, before any extension", "a subtag that can't stand there, in an extension",
        "over 512 keys", "over 1,000,000 lines", "no such number"};
    for (unsigned n = 0; n < sizeof WORDS / sizeof *WORDS; n++) expect_true(WORDS[n], !strcmp(altazhbey_meaning(n), WORDS[n]));
    for (unsigned n = 20; n < 256; n++) expect_true("no such number", !strcmp(altazhbey_meaning(n), "no such number"));
    expect_true("no such number", !strcmp(altazhbey_meaning(~0u), "no such number"));
}

static void version(void) {
    char text[32];
    sprintf(text, "%d.%d.%d", ALTAZHBEY_VERSION_MAJOR, ALTAZHBEY_VERSION_MINOR, ALTAZHBEY_VERSION_PATCH);
    expect_true("the version's text is its numbers", !strcmp(text, ALTAZHBEY_VERSION));
}

int main(void) {
    examples();
    bad_tables();
    longest_chain();
    null_pointers();
    meanings();
    version();
    printf("%d passed, %d failed\n", passed, failed);
    return failed != 0;
}

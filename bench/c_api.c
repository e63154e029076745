/* The exported functions as a host calls them, testing their tables on every call: with CLDR's tables, and with the
 * first 20 rows of each. Prints lines of a row's name, a tab and nanoseconds; with --count, under callgrind, it leaves
 * counts instead. Run in the repository's folder. */
#include "altazhbey.h"
#include "measure.h"

static text asked;
static uint64_t last;

static void canonicalise(uint32_t times) {
    while (times--) sink += last = altazhbey_canonicalise(TEXT_OF(asked), FILE_OF(aliases), out, sizeof out);
}

static void maximise(uint32_t times) {
    while (times--) sink += last = altazhbey_maximise(TEXT_OF(asked), FILE_OF(aliases), FILE_OF(likely), out, sizeof out);
}

static void minimise(uint32_t times) {
    while (times--) sink += last = altazhbey_minimise(TEXT_OF(asked), FILE_OF(aliases), FILE_OF(likely), out, sizeof out);
}

static void chain(uint32_t times) {
    while (times--) sink += last = altazhbey_chain(TEXT_OF(asked), FILE_OF(aliases), FILE_OF(parents), out, sizeof out);
}

static void say_all(const char *tables, uint32_t times) {
    const struct { const char *name; work *run; } calls[] = {
        {"canonicalise", canonicalise}, {"maximise", maximise}, {"minimise", minimise}, {"chain", chain}};
    for (int k = 0; k < 4; k++) {
        char name[64];
        snprintf(name, sizeof name, "exported %s, %s", calls[k].name, tables);
        say(name, calls[k].run, 1, times);
        need("refused", altazhbey_number(last) == 0);
    }
}

static void cut(file *f) {
    text rows[LINES];
    need("fewer than 20 rows", lines_of(f, rows) >= 20);
    f->len = rows[19].at + rows[19].len + 1 - f->bytes;
}

int main(int argc, char **argv) {
    counting = argc > 1 && !strcmp(argv[1], "--count");
    load_tables();
    asked = text_of("af-NA");
    say_all("CLDR", 1 << 12);
    cut(&aliases);
    cut(&likely);
    cut(&parents);
    say_all("20 rows", 1 << 17);
    return failed;
}

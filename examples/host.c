/* A host program: prints the minimised form of each argument and its chain of parents, over the tables of tables/.
 * From the repository's root: make -s -C examples && target/example iw_IL en-AU en-US-Latn */
#include <altazhbey.h>
#include <stdio.h>
#include <stdlib.h>
#include <string.h>

/* One byte more than a table may have, so that a longer file is refused and not cut. */
typedef struct { uint8_t bytes[32769]; size_t len; } table;

static void load(const char *path, table *t) {
    FILE *f = fopen(path, "rb");
    if (f) t->len = fread(t->bytes, 1, sizeof t->bytes, f);
    if (!f || ferror(f)) {
        perror(path);
        exit(1);
    }
    fclose(f);
}

/* What was written, the lines of a chain with a space between them; or why nothing was. */
static void show(const char *what, uint64_t answer, const uint8_t *out) {
    unsigned number = altazhbey_number(answer);
    if (number != ALTAZHBEY_DONE) {
        printf("%s: refused with %u at %zu: %s\n", what, number, altazhbey_place(answer), altazhbey_meaning(number));
        return;
    }
    printf("%s: ", what);
    size_t len = altazhbey_length(answer);
    for (size_t i = 0; i < len; i++)
        if (out[i] != '\n') putchar(out[i]);
        else if (i + 1 < len) putchar(' ');
    putchar('\n');
}

int main(int argc, char **argv) {
    static table aliases, likely, parents;
    uint8_t out[ALTAZHBEY_CHAIN_ROOM];
    load("tables/aliases.tsv", &aliases);
    load("tables/likely.tsv", &likely);
    load("tables/parents.tsv", &parents);
    for (int i = 1; i < argc; i++) {
        const uint8_t *id = (const uint8_t *)argv[i];
        size_t n = strlen(argv[i]);
        show(argv[i], altazhbey_minimise(id, n, aliases.bytes, aliases.len, likely.bytes, likely.len, out, sizeof out), out);
        show("  chain", altazhbey_chain(id, n, aliases.bytes, aliases.len, parents.bytes, parents.len, out, sizeof out), out);
    }
    return fflush(stdout) || ferror(stdout);
}

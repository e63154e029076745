/* How much stack a call takes: each of the four runs on a stack of its own that is filled with a mark, on long and odd
 * identifiers over the tables of a folder, and what is no longer marked afterwards was used. The header promises less than
 * 72 KiB. Usage: stack TABLES IDENTIFIERS. Prints the greatest, then 'N passed, M failed'. */
#include <altazhbey.h>
#include <stdio.h>
#include <stdlib.h>
#include <string.h>
#include <ucontext.h>

enum { STACK = 1 << 20, PROMISED = 72 * 1024, MARK = 0x5A };

typedef struct { uint8_t bytes[32769]; size_t len; } table;
static table aliases, likely, parents;
static ucontext_t here, there;
static uint8_t stack[STACK], out[ALTAZHBEY_CHAIN_ROOM];
static const uint8_t *id;
static size_t id_len;
static int operation;

static void load(const char *folder, const char *name, table *t) {
    char path[4096];
    snprintf(path, sizeof path, "%s/%s", folder, name);
    FILE *f = fopen(path, "rb");
    if (!f) {
        perror(path);
        exit(2);
    }
    t->len = fread(t->bytes, 1, sizeof t->bytes, f);
    fclose(f);
}

static void call(void) {
    const uint8_t *a = aliases.bytes, *l = likely.bytes, *p = parents.bytes;
    switch (operation) {
    case 0: altazhbey_canonicalise(id, id_len, a, aliases.len, out, sizeof out); break;
    case 1: altazhbey_maximise(id, id_len, a, aliases.len, l, likely.len, out, sizeof out); break;
    case 2: altazhbey_minimise(id, id_len, a, aliases.len, l, likely.len, out, sizeof out); break;
    default: altazhbey_chain(id, id_len, a, aliases.len, p, parents.len, out, sizeof out);
    }
}

/* How many bytes of the stack the call used. */
static size_t used(void) {
    size_t free = 0;
    memset(stack, MARK, sizeof stack);
    getcontext(&there);
    there.uc_stack.ss_sp = stack, there.uc_stack.ss_size = sizeof stack, there.uc_link = &here;
    makecontext(&there, call, 0);
    swapcontext(&here, &there);
    while (free < sizeof stack && stack[free] == MARK) free++;
    return sizeof stack - free;
}

int main(int argc, char **argv) {
    static char line[512];
    size_t most = 0, passed = 0, failed = 0;
    FILE *f = argc == 3 ? fopen(argv[2], "r") : NULL;
    if (!f) return 2;
    load(argv[1], "aliases.tsv", &aliases), load(argv[1], "likely.tsv", &likely), load(argv[1], "parents.tsv", &parents);
    while (fgets(line, sizeof line, f))
        for (operation = 0; operation < 4; operation++) {
            id = (const uint8_t *)line, id_len = strcspn(line, "\n");
            size_t bytes = used();
            if (bytes > most) most = bytes;
            if (bytes < PROMISED) passed++;
            else failed++;
        }
    fclose(f);
    printf("%zu bytes of stack\n%zu passed, %zu failed\n", most, passed, failed);
    return failed != 0 || passed == 0;
}

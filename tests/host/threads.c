/* Eight threads call the four functions at once, each on identifiers of its own over shared tables, and every answer with
 * all of its output is held against the one that a single thread got before. Each thread has 96 KiB of stack, as the header
 * advises. Usage: threads TABLES IDENTIFIERS COUNT ROUNDS: the first COUNT lines, so many times. Prints 'N passed, M failed'. */
#include <altazhbey.h>
#include <pthread.h>
#include <stdio.h>
#include <stdlib.h>
#include <string.h>

enum { THREADS = 8, STACK = 96 * 1024, LINE = 512 };

typedef struct { uint8_t bytes[32769]; size_t len; } table;
typedef struct { uint64_t answer; uint8_t *written; } result;
static table aliases, likely, parents;
static char (*ids)[LINE];
static result (*alone)[4];
static size_t count, rounds;

static void stop(const char *what) {
    perror(what);
    exit(2);
}

static void load(const char *folder, const char *name, table *t) {
    char path[4096];
    snprintf(path, sizeof path, "%s/%s", folder, name);
    FILE *f = fopen(path, "rb");
    if (!f) stop(path);
    t->len = fread(t->bytes, 1, sizeof t->bytes, f);
    fclose(f);
}

static uint64_t call(int operation, const char *line, uint8_t *out, size_t room) {
    const uint8_t *id = (const uint8_t *)line, *a = aliases.bytes, *l = likely.bytes, *p = parents.bytes;
    size_t n = strcspn(line, "\n");
    switch (operation) {
    case 0: return altazhbey_canonicalise(id, n, a, aliases.len, out, room);
    case 1: return altazhbey_maximise(id, n, a, aliases.len, l, likely.len, out, room);
    case 2: return altazhbey_minimise(id, n, a, aliases.len, l, likely.len, out, room);
    default: return altazhbey_chain(id, n, a, aliases.len, p, parents.len, out, room);
    }
}

typedef struct { size_t first, right, wrong; uint8_t out[ALTAZHBEY_CHAIN_ROOM]; } worker;

/* Every eighth identifier from the worker's first on, by all four. */
static void *work(void *given) {
    worker *w = given;
    for (size_t round = 0; round < rounds; round++)
        for (size_t i = w->first; i < count; i += THREADS)
            for (int o = 0; o < 4; o++) {
                const result *r = &alone[i][o];
                memset(w->out, 0xA5, sizeof w->out);
                uint64_t answer = call(o, ids[i], w->out, sizeof w->out);
                if (answer == r->answer && !memcmp(w->out, r->written, altazhbey_length(answer)) && w->out[altazhbey_length(answer)] == 0xA5) w->right++;
                else w->wrong++;
            }
    return NULL;
}

static void work_alone(void) {
    static uint8_t out[ALTAZHBEY_CHAIN_ROOM];
    for (size_t i = 0; i < count; i++)
        for (int o = 0; o < 4; o++) {
            uint64_t answer = call(o, ids[i], out, sizeof out);
            alone[i][o] = (result){answer, malloc(altazhbey_length(answer) + 1)};
            if (!alone[i][o].written) stop("memory");
            memcpy(alone[i][o].written, out, altazhbey_length(answer));
        }
}

int main(int argc, char **argv) {
    if (argc != 5) return 2;
    load(argv[1], "aliases.tsv", &aliases), load(argv[1], "likely.tsv", &likely), load(argv[1], "parents.tsv", &parents);
    count = strtoul(argv[3], NULL, 10), rounds = strtoul(argv[4], NULL, 10);
    ids = calloc(count, sizeof *ids), alone = calloc(count, sizeof *alone);
    FILE *f = fopen(argv[2], "r");
    if (!f || !ids || !alone) stop(argv[2]);
    for (size_t i = 0; i < count; i++)
        if (!fgets(ids[i], LINE, f)) count = i;
    fclose(f);
    work_alone();

    static worker workers[THREADS];
    pthread_t threads[THREADS];
    pthread_attr_t attributes;
    size_t right = 0, wrong = 0;
    if (pthread_attr_init(&attributes) || pthread_attr_setstacksize(&attributes, STACK)) stop("96 KiB of stack");
    for (size_t t = 0; t < THREADS; t++) {
        workers[t].first = t;
        if (pthread_create(&threads[t], &attributes, work, &workers[t])) stop("a thread");
    }
    for (size_t t = 0; t < THREADS; t++) pthread_join(threads[t], NULL), right += workers[t].right, wrong += workers[t].wrong;
    printf("%zu passed, %zu failed\n", right, wrong);
    return wrong != 0 || right == 0;
}

/* Prints number, tab and words for every number of one byte: by the header's function (header), or by the proved one
 * (proved). The proved one must write nothing but its words. */
#include <altazhbey.h>
#include <stdio.h>
#include <string.h>

enum { ROOM = 80, MORE = 40 };

uint64_t probe_meaning(uint8_t number, uint8_t *out, size_t out_len);

static int proved(unsigned number) {
    uint8_t out[ROOM + MORE];
    memset(out, '\n', sizeof out);
    uint64_t len = probe_meaning((uint8_t)number, out, ROOM);
    for (size_t i = ROOM; i < sizeof out; i++)
        if (out[i] != '\n' || len > ROOM) return 0;
    printf("%u\t%.*s\n", number, (int)len, (const char *)out);
    return 1;
}

int main(int argc, char **argv) {
    if (argc != 2) return 2;
    for (unsigned number = 0; number < 256; number++)
        if (!strcmp(argv[1], "header")) printf("%u\t%s\n", number, altazhbey_meaning(number));
        else if (!proved(number)) return 1;
    return 0;
}

/* Altazhbey: Unicode locale identifiers over lent bytes. Link libaltazhbey (`make`, `make install`).
 *
 * Each function answers for every input: it reads id and the tables, which are lent for the call, and writes only the
 * front of out, and only with number 0. out must not overlap the others.
 *
 * Null pointers: where a length is 0 the pointer is not read, and may be null.
 * Threads: there is no state. Any number of threads may call at once, each with an out of its own; identifiers and
 * tables may be shared, as long as nobody writes to them.
 * Memory: nothing is kept and nothing allocated; of the C library memcpy and memset alone are called.
 * Stack: a call takes less than 72 KiB, whatever it is lent; this is measured, not proved. A thread has data of its own
 * there, too: give it 96 KiB.
 *
 * An answer is one number of 64 bits: 0 to 7 the number, 8 to 15 the table, 16 to 31 the place, 32 to 55 the length of
 * what was written, 56 to 63 the steps of a chain. */
#ifndef ALTAZHBEY_H
#define ALTAZHBEY_H

#include <stddef.h>
#include <stdint.h>

#ifdef __cplusplus
extern "C" {
#endif

#define ALTAZHBEY_VERSION "0.2.0"
#define ALTAZHBEY_VERSION_MAJOR 0
#define ALTAZHBEY_VERSION_MINOR 2
#define ALTAZHBEY_VERSION_PATCH 0

/* The numbers: the meaning, as altazhbey_meaning says it, then what else holds. Place is 0 where none is named. */
enum altazhbey_numbers {
    ALTAZHBEY_DONE = 0,                 /* done; the result stands at the front of out */
    ALTAZHBEY_EMPTY = 1,                /* no bytes */
    ALTAZHBEY_LONG = 2,                 /* over 255 bytes */
    ALTAZHBEY_BYTE = 3,                 /* a byte that is no letter, digit, - or _; place: the first such byte */
    ALTAZHBEY_SIZE = 4,                 /* a subtag of 0 or over 8 bytes; place: its first byte, id_len if it is at
                                           the end */
    ALTAZHBEY_MISPLACED_FIRST = 5,      /* a first subtag that is no language, script or root; place: 0 */
    ALTAZHBEY_REPEATED = 6,             /* a repeated singleton, variant or t key; place: the repeat */
    ALTAZHBEY_UNFINISHED = 7,           /* a singleton or t key with nothing behind it; what follows is the end, a
                                           one-byte subtag (not after x) or, after a t key, a t key; place: that
                                           singleton or key */
    ALTAZHBEY_NO_ROW = 8,               /* no row of the likely table fits it */
    ALTAZHBEY_OVERLONG = 9,             /* its canonical or maximised form is over 255 bytes */
    ALTAZHBEY_SHORT_OUT = 10,           /* the output is too short */
    ALTAZHBEY_TABLE_SIZE = 11,          /* a table over 32,768 bytes; table: which */
    ALTAZHBEY_ROW_SHAPE = 12,           /* a row of wrong shape; table, place: the row's first byte */
    ALTAZHBEY_ROW_ORDER = 13,           /* a row not above the one before; table, place: the row's first byte */
    ALTAZHBEY_ROW_CLASH = 14,           /* a row that clashes with another; table, place: the row's first byte */
    ALTAZHBEY_MISPLACED_LATER = 15,     /* a subtag that can't stand there, before any extension; it is not the first
                                           one; place: its first byte */
    ALTAZHBEY_MISPLACED_EXTENSION = 16, /* a subtag that can't stand there, in an extension; a singleton stands before
                                           it; place: its first byte */
    ALTAZHBEY_OVER_KEYS = 17,           /* over 512 keys; given by the program bill alone */
    ALTAZHBEY_OVER_LINES = 18           /* over 1,000,000 lines; given by the program bill alone */
};

/* The table that answers 11 to 14 name; 0 in all other answers. */
enum altazhbey_tables { ALTAZHBEY_NO_TABLE = 0, ALTAZHBEY_ALIASES = 1, ALTAZHBEY_LIKELY = 2, ALTAZHBEY_PARENTS = 3 };

/* Outputs of these lengths are never too short: for a form, and for a chain. A chain's first line has at most 255 bytes
 * and 50 variants, each of at least 4 bytes and a separator, which go one a line: the lines with variants have at most
 * 256 + 251 + .. + 11 = 6,675 bytes. Behind them stand at most 11 lines of at most 18 bytes, the last one und. */
enum { ALTAZHBEY_FORM_ROOM = 255, ALTAZHBEY_CHAIN_ROOM = 8192 };

/* The canonical form. */
uint64_t altazhbey_canonicalise(const uint8_t *id, size_t id_len,
                                const uint8_t *aliases, size_t aliases_len,
                                uint8_t *out, size_t out_len);

/* The maximised form. */
uint64_t altazhbey_maximise(const uint8_t *id, size_t id_len,
                            const uint8_t *aliases, size_t aliases_len,
                            const uint8_t *likely, size_t likely_len,
                            uint8_t *out, size_t out_len);

/* The minimised form. */
uint64_t altazhbey_minimise(const uint8_t *id, size_t id_len,
                            const uint8_t *aliases, size_t aliases_len,
                            const uint8_t *likely, size_t likely_len,
                            uint8_t *out, size_t out_len);

/* The chain of parents: one identifier a line, each ended by 0A, from the canonical one without extensions to und. */
uint64_t altazhbey_chain(const uint8_t *id, size_t id_len,
                         const uint8_t *aliases, size_t aliases_len,
                         const uint8_t *parents, size_t parents_len,
                         uint8_t *out, size_t out_len);

/* The parts of an answer. */
static inline unsigned altazhbey_number(uint64_t answer) { return (unsigned)(answer & 0xFF); }
static inline unsigned altazhbey_table(uint64_t answer) { return (unsigned)(answer >> 8 & 0xFF); }
static inline size_t altazhbey_place(uint64_t answer) { return (size_t)(answer >> 16 & 0xFFFF); }
static inline size_t altazhbey_length(uint64_t answer) { return (size_t)(answer >> 32 & 0xFFFFFF); }
static inline unsigned altazhbey_steps(uint64_t answer) { return (unsigned)(answer >> 56); }

/* What a number means, in words. */
static inline const char *altazhbey_meaning(unsigned number) {
    switch (number) {
    case ALTAZHBEY_DONE: return "done";
    case ALTAZHBEY_EMPTY: return "no bytes";
    case ALTAZHBEY_LONG: return "over 255 bytes";
    case ALTAZHBEY_BYTE: return "a byte that is no letter, digit, - or _";
    case ALTAZHBEY_SIZE: return "a subtag of 0 or over 8 bytes";
    case ALTAZHBEY_MISPLACED_FIRST: return "a first subtag that is no language, script or root";
    case ALTAZHBEY_REPEATED: return "a repeated singleton, variant or t key";
    case ALTAZHBEY_UNFINISHED: return "a singleton or t key with nothing behind it";
    case ALTAZHBEY_NO_ROW: return "no row of the likely table fits it";
    case ALTAZHBEY_OVERLONG: return "its canonical or maximised form is over 255 bytes";
    case ALTAZHBEY_SHORT_OUT: return "the output is too short";
    case ALTAZHBEY_TABLE_SIZE: return "a table over 32,768 bytes";
    case ALTAZHBEY_ROW_SHAPE: return "a row of wrong shape";
    case ALTAZHBEY_ROW_ORDER: return "a row not above the one before";
    case ALTAZHBEY_ROW_CLASH: return "a row that clashes with another";
    case ALTAZHBEY_MISPLACED_LATER: return "a subtag that can't stand there, before any extension";
    case ALTAZHBEY_MISPLACED_EXTENSION: return "a subtag that can't stand there, in an extension";
    case ALTAZHBEY_OVER_KEYS: return "over 512 keys";
    case ALTAZHBEY_OVER_LINES: return "over 1,000,000 lines";
    default: return "no such number";
    }
}

#ifdef __cplusplus
}
#endif

#endif

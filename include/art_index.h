/* art_index: an ordered index of typed rows in memory, which many threads read and change at once.
 *
 * A table has rows: a tuple of one to eight columns, and a number for each. art_index_open gives all passes of a new table. A
 * pass is the right to call its table, one call at a time; calls of different passes may run at once. The table ends with its
 * last pass. docs/EMBEDDING.md says how to build and link, how large the pools should be, and what is proved.
 *
 * What a program owes:
 *
 * 1. One call at a time for each pass. A second call into a pass that is in a call is mostly answered ART_INDEX_NO_PASS, and is
 *    undefined: no promise is made of it.
 * 2. A pass may be used by any thread, and goes from one to another by a lock, by starting or joining a thread, or by a
 *    sequentially consistent atomic.
 * 3. An art_index_pass holds zeros, or what the library last wrote there. It is not copied while it is in use: of two copies
 *    only one may go on, and only one may be closed.
 * 4. Each pointer leads to as many elements as the count beside it says (a count of 0 may have any pointer, null too), which
 *    nobody else writes during the call. What a call writes overlaps nothing else that it is given.
 * 5. No call is made from a signal handler, nor in the child of a fork of a program with threads, nor left by longjmp.
 * 6. malloc, realloc and free are one allocator's, and aligned for any type. Only art_index_open and art_index_close call them.
 *
 * Everything else is looked at, and has a status: counts, kinds, lengths, texts that are no UTF-8, a schema that is none, sizes
 * out of their ranges, a range that ends before it begins, a pass that is not open. A status of 3 and above says that the rows
 * are as they were.
 */
#ifndef ART_INDEX_H
#define ART_INDEX_H

#include <stddef.h>
#include <stdint.h>

#ifdef __cplusplus
extern "C" {
#endif

/* What a call answers. From 4 on it is the number of the refusal, the same as in the protocol of lines (docs/USAGE.md). */
enum art_index_status {
    ART_INDEX_DONE = 0,             /* opened, inserted, removed, found; or the scan listed all rows of its range */
    ART_INDEX_STANDS = 1,           /* insert: a row with the tuple stands, and stays; scan: as many rows as there is room for */
    ART_INDEX_ABSENT = 2,           /* remove, get: no row has the tuple */
    ART_INDEX_NO_PASS = 3,          /* the pass is not open, or is in another call */
    ART_INDEX_WRONG_COLUMNS = 4,    /* the tuple has not one value for each column */
    ART_INDEX_WRONG_TYPE = 5,       /* a value of another kind than its column, of no kind, or a text that is no UTF-8 */
    ART_INDEX_OUT_OF_RANGE = 6,     /* a number that does not fit its column */
    ART_INDEX_TEXT_TOO_LONG = 7,    /* a text that is longer than its column allows, or than 24 bytes */
    ART_INDEX_BAD_RANGE = 8,        /* the range of a scan ends before it begins */
    ART_INDEX_BAD_LIMIT = 9,        /* a scan with room for no row, or for more than 100 */
    ART_INDEX_BUSY = 10,            /* the turns of the call were used: other passes were in the way. Try again after a yield */
    ART_INDEX_FULL = 11,            /* a pool that the change needs has no free number */
    ART_INDEX_CROWDED = 12,         /* numbers that another pass may still read fill the pass's list. Try again after a yield */
    ART_INDEX_EXHAUSTED = 13,       /* the counter of a cell that the change locks is at its end */
    ART_INDEX_NO_MEMORY = 14,       /* open: there was no memory */
    ART_INDEX_NO_COLUMNS = 20,      /* open: the schema names no column */
    ART_INDEX_TOO_MANY_COLUMNS = 21, /* open: the schema names more than eight */
    ART_INDEX_KEY_TOO_WIDE = 22,    /* open: a tuple could take more than 64 bytes */
    ART_INDEX_BAD_COLUMN = 23,      /* open: a column of no known kind */
    ART_INDEX_BAD_CONFIG = 24       /* open: a size out of its range, or not 1 to 32 passes */
};

/* What a column of a tuple holds. */
enum art_index_kind {
    ART_INDEX_BOOL = 0,             /* false where number is 0 */
    ART_INDEX_UNSIGNED = 1,         /* number */
    ART_INDEX_SIGNED = 2,           /* number, in two's complement */
    ART_INDEX_TEXT = 3              /* the first length bytes of text, at most 24, of UTF-8 */
};

/* A pass, or none where it is zero: `art_index_pass pass = {NULL};` */
typedef struct {
    void *at;
} art_index_pass;

/* One value of a tuple, in place. A listed whole number is ART_INDEX_SIGNED where it is below 0, and else ART_INDEX_UNSIGNED. */
typedef struct {
    uint32_t kind;
    uint32_t length;
    uint64_t number;
    uint8_t text[24];
} art_index_column;

/* A row that a scan lists: the first count columns are those of its tuple. */
typedef struct {
    art_index_column columns[8];
    uint32_t count;
    uint64_t value;
} art_index_row;

/* How many leaves and nodes of each kind a table has room for, and where the counter of its anchor begins (0). At most 1048576
 * leaves, and 262144, 65536, 16384 and 4096 nodes; each at least 1. */
typedef struct {
    uint32_t leaves;
    uint32_t n4;
    uint32_t n16;
    uint32_t n48;
    uint32_t n256;
    uint64_t counter_start;
} art_index_sizes;

#ifdef __cplusplus
#define ART_INDEX_LAYOUT(type, bytes) static_assert(sizeof(type) == (bytes), "the layout of " #type)
#elif defined(__STDC_VERSION__) && __STDC_VERSION__ >= 201112L
#define ART_INDEX_LAYOUT(type, bytes) _Static_assert(sizeof(type) == (bytes), "the layout of " #type)
#else
#define ART_INDEX_LAYOUT(type, bytes) typedef char type##_layout[sizeof(type) == (bytes) ? 1 : -1]
#endif
ART_INDEX_LAYOUT(art_index_pass, 8);
ART_INDEX_LAYOUT(art_index_column, 40);
ART_INDEX_LAYOUT(art_index_row, 336);
ART_INDEX_LAYOUT(art_index_sizes, 32);

/* Opens a table with no row, and as many passes as count. The schema is a text of names, as "u64,text8"; docs/USAGE.md has them
 * all. Where the status is not ART_INDEX_DONE, no pass is open. */
uint32_t art_index_open(const uint8_t *schema, size_t length, const art_index_sizes *sizes, art_index_pass *passes, size_t count);

/* Adds a row. ART_INDEX_STANDS: a row with the tuple stands, keeps its value, and the value is written to *stands. */
uint32_t art_index_insert(art_index_pass *pass, const art_index_column *tuple, size_t count, uint64_t value, uint64_t *stands);

/* Takes the row with the tuple out, and writes its value to *gone. */
uint32_t art_index_remove(art_index_pass *pass, const art_index_column *tuple, size_t count, uint64_t *gone);

/* Writes the value of the row with the tuple to *found. */
uint32_t art_index_get(art_index_pass *pass, const art_index_column *tuple, size_t count, uint64_t *found);

/* Lists rows from one tuple to another, both included, in order: at most as many as there is room for, 1 to 100. *listed is how
 * many. ART_INDEX_STANDS: as many as there is room for, so there may be more. */
uint32_t art_index_scan(art_index_pass *pass, const art_index_column *lo, size_t lo_count, const art_index_column *hi,
                        size_t hi_count, art_index_row *rows, size_t room, size_t *listed);

/* Ends the pass, if it is open. */
void art_index_close(art_index_pass *pass);

#ifdef __cplusplus
}
#endif
#endif

/* Each refusal that one thread can meet, once; and each allocation of an opening refused in turn.
 *
 * malloc and realloc are wrapped (-Wl,--wrap=malloc -Wl,--wrap=realloc -Wl,--wrap=free), so that the n-th can fail, and what was not
 * given back is seen.
 */
#include "columns.h"

static int refuse_at, asked;
static long held;

void *__real_malloc(size_t size);
void *__real_realloc(void *at, size_t size);
void __real_free(void *at);

static int refuses(void)
{
    return ++asked == refuse_at;
}

void *__wrap_malloc(size_t size)
{
    void *at = refuses() ? NULL : __real_malloc(size);
    held += at != NULL;
    return at;
}

void *__wrap_realloc(void *at, size_t size)
{
    void *moved = refuses() ? NULL : __real_realloc(at, size);
    held += at == NULL && moved != NULL;
    return moved;
}

void __wrap_free(void *at)
{
    held -= at != NULL;
    __real_free(at);
}

static uint32_t open_with(const char *schema, art_index_sizes sizes, art_index_pass *passes, size_t count)
{
    return art_index_open((const uint8_t *)schema, strlen(schema), &sizes, passes, count);
}

static const art_index_sizes SMALL = {4, 4, 4, 4, 4, 0};

static void openings(void)
{
    art_index_pass passes[33] = {{NULL}};
    art_index_sizes none = SMALL;
    none.n48 = 0;
    want(open_with("", SMALL, passes, 1) == ART_INDEX_NO_COLUMNS, "no columns");
    want(open_with("u8,u8,u8,u8,u8,u8,u8,u8,u8", SMALL, passes, 1) == ART_INDEX_TOO_MANY_COLUMNS, "nine columns");
    want(open_with("text24,text7", SMALL, passes, 1) == ART_INDEX_KEY_TOO_WIDE, "a wide key");
    want(open_with("u64,u24", SMALL, passes, 1) == ART_INDEX_BAD_COLUMN, "a bad column");
    want(open_with("u8", none, passes, 1) == ART_INDEX_BAD_CONFIG, "a size of none");
    want(open_with("u8", SMALL, passes, 0) == ART_INDEX_BAD_CONFIG, "no pass");
    want(open_with("u8", SMALL, passes, 33) == ART_INDEX_BAD_CONFIG, "too many passes");
    want(passes[0].at == NULL, "no pass is open after a refusal");
}

static void tuples(art_index_pass *pass)
{
    uint64_t told = 99;
    art_index_column right[2] = {number(1), text("a")};
    art_index_column turned[2] = {text("a"), number(1)};
    art_index_column longer[2] = {number(1), text("nine byte")};
    art_index_column below[2] = {signed_number(-1), text("a")};
    art_index_column broken[2] = {number(1), text("\xff")};
    art_index_column past[2] = {number(1), {ART_INDEX_TEXT, 25, 0, {0}}};
    art_index_column odd[2] = {{9, 0, 1, {0}}, text("a")};
    want(art_index_insert(pass, right, 1, 5, &told) == ART_INDEX_WRONG_COLUMNS, "one column of two");
    want(art_index_insert(pass, NULL, 0, 5, &told) == ART_INDEX_WRONG_COLUMNS, "no column");
    want(art_index_insert(pass, turned, 2, 5, &told) == ART_INDEX_WRONG_TYPE, "columns in the other order");
    want(art_index_insert(pass, broken, 2, 5, &told) == ART_INDEX_WRONG_TYPE, "no UTF-8");
    want(art_index_insert(pass, odd, 2, 5, &told) == ART_INDEX_WRONG_TYPE, "no kind");
    want(art_index_insert(pass, below, 2, 5, &told) == ART_INDEX_OUT_OF_RANGE, "a number below 0");
    want(art_index_insert(pass, longer, 2, 5, &told) == ART_INDEX_TEXT_TOO_LONG, "a long text");
    want(art_index_insert(pass, past, 2, 5, &told) == ART_INDEX_TEXT_TOO_LONG, "a length past the text");
    want(told == 99, "nothing is written where a call is refused");
}

static void rows(art_index_pass *pass)
{
    art_index_row listed[101];
    uint64_t told = 99;
    size_t count = 0;
    art_index_column tuples[6][2];
    for (uint64_t at = 0; at < 6; at++) {
        tuples[at][0] = number(at);
        tuples[at][1] = text("a");
    }
    want(art_index_get(pass, tuples[0], 2, &told) == ART_INDEX_ABSENT && told == 99, "a row that is absent");
    for (uint64_t at = 0; at < 4; at++)
        want(art_index_insert(pass, tuples[at], 2, at, &told) == ART_INDEX_DONE, "a row that is new");
    want(art_index_insert(pass, tuples[2], 2, 7, &told) == ART_INDEX_STANDS && told == 2, "a row that stands");
    want(art_index_insert(pass, tuples[4], 2, 4, &told) == ART_INDEX_FULL, "no free leaf");
    want(art_index_scan(pass, tuples[1], 2, tuples[5], 2, listed, 100, &count) == ART_INDEX_DONE && count == 3, "all rows");
    want(art_index_scan(pass, tuples[1], 2, tuples[5], 2, listed, 3, &count) == ART_INDEX_STANDS && count == 3, "a page");
    want(art_index_scan(pass, tuples[5], 2, tuples[1], 2, listed, 3, &count) == ART_INDEX_BAD_RANGE, "a range that ends first");
    want(art_index_scan(pass, tuples[1], 2, tuples[5], 2, listed, 0, &count) == ART_INDEX_BAD_LIMIT, "no room");
    want(art_index_scan(pass, tuples[1], 2, tuples[5], 2, listed, 101, &count) == ART_INDEX_BAD_LIMIT, "too much room");
    want(art_index_remove(pass, tuples[2], 2, &told) == ART_INDEX_DONE && told == 2, "a row that goes");
    want(art_index_remove(pass, tuples[2], 2, &told) == ART_INDEX_ABSENT, "a row that has gone");
}

/* A counter that is at its end: the first insert locks the anchor. */
static void worn(void)
{
    art_index_pass pass = {NULL};
    art_index_sizes sizes = SMALL;
    art_index_column tuple[1] = {number(1)};
    uint64_t told = 0;
    sizes.counter_start = 4611686018427387896u;
    want(open_with("u8", sizes, &pass, 1) == ART_INDEX_DONE, "a worn table");
    want(art_index_insert(&pass, tuple, 1, 1, &told) == ART_INDEX_EXHAUSTED, "a counter at its end");
    art_index_close(&pass);
}

/* A closed pass, and one that never was open. */
static void closed(void)
{
    art_index_pass pass = {NULL};
    uint64_t told = 99;
    size_t count = 9;
    art_index_column tuple[1] = {number(1)};
    want(art_index_insert(&pass, tuple, 1, 1, &told) == ART_INDEX_NO_PASS, "an insert of no pass");
    want(art_index_remove(&pass, tuple, 1, &told) == ART_INDEX_NO_PASS, "a removal of no pass");
    want(art_index_get(&pass, NULL, 0, &told) == ART_INDEX_NO_PASS, "a get of no pass");
    want(art_index_scan(&pass, tuple, 1, tuple, 1, NULL, 0, &count) == ART_INDEX_NO_PASS, "a scan of no pass");
    want(told == 99, "nothing is written where there is no pass");
    art_index_close(&pass);
    want(pass.at == NULL, "closing no pass");
}

/* How many allocations an opening makes, each refused in turn. */
static int refused_in_turn(void)
{
    for (int at = 1;; at++) {
        art_index_pass passes[3] = {{NULL}};
        long before = held;
        refuse_at = at;
        asked = 0;
        uint32_t status = open_with("u64,text8", SMALL, passes, 3);
        refuse_at = 0;
        if (status == ART_INDEX_DONE) {
            for (int pass = 0; pass < 3; pass++)
                art_index_close(&passes[pass]);
            want(held == before, "all memory of a table is given back");
            return at - 1;
        }
        want(status == ART_INDEX_NO_MEMORY, "no memory");
        want(passes[0].at == NULL && passes[1].at == NULL && passes[2].at == NULL, "no pass is open without memory");
        want(held == before, "all memory of an opening is given back");
    }
}

int main(void)
{
    art_index_pass pass = {NULL};
    openings();
    closed();
    worn();
    want(open_with("u64,text8", SMALL, &pass, 1) == ART_INDEX_DONE, "open");
    tuples(&pass);
    rows(&pass);
    art_index_close(&pass);
    printf("refusals: each once; %d allocations of an opening refused in turn, and nothing leaked\n", refused_in_turn());
    return 0;
}

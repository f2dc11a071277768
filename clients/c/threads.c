/* Four threads over one table. Each inserts, gets and removes rows that all share, and tries again where it is told to. What stands
 * at the end, listed by pages, must be what was inserted less what was removed.
 */
#include "columns.h"

#include <pthread.h>
#include <sched.h>

enum { THREADS = 4, KEYS = 97, PAGE = 7 };

struct worker {
    art_index_pass pass;
    uint64_t first;
    int rounds;
    uint64_t inserted, removed, tried_again;
};

/* Whether the call is to be made again: other threads were in the way. */
static int again(struct worker *worker, uint32_t status)
{
    if (status != ART_INDEX_CROWDED && status != ART_INDEX_BUSY)
        return 0;
    worker->tried_again++;
    sched_yield();
    return 1;
}

static void remove_row(struct worker *worker, const art_index_column *tuple, uint64_t value)
{
    uint64_t gone = 0;
    uint32_t status;
    do
        status = art_index_remove(&worker->pass, tuple, 2, &gone);
    while (again(worker, status));
    want(status == ART_INDEX_DONE || status == ART_INDEX_ABSENT, "remove");
    want(status == ART_INDEX_ABSENT || gone == value, "the value of the row that went");
    worker->removed += status == ART_INDEX_DONE;
}

static void insert_row(struct worker *worker, const art_index_column *tuple, uint64_t value)
{
    uint64_t stands = 0;
    uint32_t status;
    do
        status = art_index_insert(&worker->pass, tuple, 2, value, &stands);
    while (again(worker, status));
    want(status == ART_INDEX_DONE || status == ART_INDEX_STANDS, "insert");
    want(status == ART_INDEX_DONE || stands == value, "the value of the row that stands");
    worker->inserted += status == ART_INDEX_DONE;
}

static void get_row(struct worker *worker, const art_index_column *tuple, uint64_t value)
{
    uint64_t found = 0;
    uint32_t status;
    do
        status = art_index_get(&worker->pass, tuple, 2, &found);
    while (again(worker, status));
    want(status == ART_INDEX_DONE || status == ART_INDEX_ABSENT, "get");
    want(status == ART_INDEX_ABSENT || found == value, "the value of the row that was found");
}

static void *work(void *at)
{
    struct worker *worker = at;
    for (int round = 0; round < worker->rounds; round++) {
        uint64_t key = ((uint64_t)round * 7 + worker->first) % KEYS;
        art_index_column tuple[2] = {number(key), text(round % 2 ? "odd" : "even")};
        if (round % 3 == 0)
            remove_row(worker, tuple, key * 10);
        else if (round % 3 == 1)
            insert_row(worker, tuple, key * 10);
        else
            get_row(worker, tuple, key * 10);
    }
    return NULL;
}

/* How many rows there are, page by page. Each page begins just above the last row of the one before. */
static uint64_t list(art_index_pass *pass)
{
    art_index_row rows[PAGE];
    art_index_column lo[2] = {number(0), text("")}, hi[2] = {number(UINT64_MAX), text("zzzzzzzz")};
    uint64_t all = 0, last = 0;
    size_t listed = PAGE;
    while (listed == PAGE) {
        uint32_t status = art_index_scan(pass, lo, 2, hi, 2, rows, PAGE, &listed);
        want(status == (listed == PAGE ? ART_INDEX_STANDS : ART_INDEX_DONE), "scan");
        for (size_t at = 0; at < listed; at++) {
            want(rows[at].count == 2 && rows[at].columns[0].kind == ART_INDEX_UNSIGNED, "the kinds of a row");
            want(rows[at].columns[0].number >= last && rows[at].value == rows[at].columns[0].number * 10, "a row");
            last = rows[at].columns[0].number;
        }
        all += listed;
        memcpy(lo, rows[PAGE - 1].columns, sizeof lo);
        lo[1].text[lo[1].length++] = 1;
    }
    return all;
}

int main(int count, char **words)
{
    static struct worker workers[THREADS];
    art_index_pass passes[THREADS] = {{NULL}};
    art_index_sizes sizes = {4096, 4096, 1024, 512, 128, 0};
    pthread_t threads[THREADS];
    uint64_t stand = 0, tried_again = 0;
    want(art_index_open((const uint8_t *)"u64,text8", 9, &sizes, passes, THREADS) == ART_INDEX_DONE, "open");
    for (int at = 0; at < THREADS; at++) {
        workers[at].pass = passes[at];
        workers[at].first = (uint64_t)at;
        workers[at].rounds = count > 1 ? atoi(words[1]) : 20000;
        want(pthread_create(&threads[at], NULL, work, &workers[at]) == 0, "a thread");
    }
    for (int at = 0; at < THREADS; at++) {
        want(pthread_join(threads[at], NULL) == 0, "a thread's end");
        stand += workers[at].inserted - workers[at].removed;
        tried_again += workers[at].tried_again;
    }
    want(list(&workers[0].pass) == stand, "the rows that stand");
    printf("threads: %llu rows stand, %llu calls tried again\n", (unsigned long long)stand, (unsigned long long)tried_again);
    for (int at = 0; at < THREADS; at++)
        art_index_close(&workers[at].pass);
    want(workers[0].pass.at == NULL, "a pass that was closed");
    return 0;
}

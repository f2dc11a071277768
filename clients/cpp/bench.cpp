// Gets, inserts and removals a second through the C interface, by 1, 2 and 4 threads, beside std::map and a B-tree (absl::btree_map,
// where the machine has it) under one std::shared_mutex. All in one run, so that the columns compare.
//
// Usage: bench [KEYS] [MILLISECONDS]     (1000000 keys, 500 ms a cell)
//
// Half of the keys stand at the beginning. A get looks up a key that is drawn from all. A writer inserts a drawn key and removes another,
// so that half of the keys stand on. Calls that are Busy or Crowded are made again after a yield, and count once.
#include "columns.h"

#include <atomic>
#include <chrono>
#include <map>
#include <mutex>
#include <random>
#include <shared_mutex>
#include <thread>
#include <vector>

#if __has_include(<absl/container/btree_map.h>)
#include <absl/container/btree_map.h>
#define HAS_BTREE 1
#endif

namespace {

// The proved index: each thread has a pass.
class Index {
    struct alignas(128) Slot {
        art_index_pass pass{nullptr};
        uint64_t tried_again = 0;
    };
    std::vector<Slot> slots;

    template <class Call> uint32_t tried(int thread, Call call)
    {
        for (;;) {
            uint32_t status = call(&slots[thread].pass);
            if (status != ART_INDEX_CROWDED && status != ART_INDEX_BUSY)
                return status;
            slots[thread].tried_again++;
            std::this_thread::yield();
        }
    }

public:
    static constexpr const char *name = "art_index";

    explicit Index(int threads) : slots(threads)
    {
        art_index_sizes sizes{1u << 20, 1u << 18, 1u << 16, 1u << 14, 1u << 12, 0};
        std::vector<art_index_pass> passes(threads, art_index_pass{nullptr});
        want(art_index_open(reinterpret_cast<const uint8_t *>("u64"), 3, &sizes, passes.data(), passes.size()) == ART_INDEX_DONE, "open");
        for (int at = 0; at < threads; at++)
            slots[at].pass = passes[at];
    }

    ~Index()
    {
        for (auto &slot : slots)
            art_index_close(&slot.pass);
    }

    bool get(int thread, uint64_t key)
    {
        art_index_column tuple = number(key);
        uint64_t found = 0;
        uint32_t status = tried(thread, [&](art_index_pass *pass) { return art_index_get(pass, &tuple, 1, &found); });
        want(status == ART_INDEX_DONE ? found == key : status == ART_INDEX_ABSENT, "get");
        return status == ART_INDEX_DONE;
    }

    bool insert(int thread, uint64_t key)
    {
        art_index_column tuple = number(key);
        uint64_t stands = 0;
        uint32_t status = tried(thread, [&](art_index_pass *pass) { return art_index_insert(pass, &tuple, 1, key, &stands); });
        want(status == ART_INDEX_DONE || status == ART_INDEX_STANDS, "insert");
        return status == ART_INDEX_DONE;
    }

    bool remove(int thread, uint64_t key)
    {
        art_index_column tuple = number(key);
        uint64_t gone = 0;
        uint32_t status = tried(thread, [&](art_index_pass *pass) { return art_index_remove(pass, &tuple, 1, &gone); });
        want(status == ART_INDEX_DONE || status == ART_INDEX_ABSENT, "remove");
        return status == ART_INDEX_DONE;
    }

    uint64_t tried_again() const
    {
        uint64_t sum = 0;
        for (auto &slot : slots)
            sum += slot.tried_again;
        return sum;
    }
};

// A map of one thread, under one lock that readers share.
template <class Map> class Locked {
    Map map;
    std::shared_mutex lock;

public:
    explicit Locked(int) {}

    bool get(int, uint64_t key)
    {
        std::shared_lock held(lock);
        auto found = map.find(key);
        return found != map.end() && found->second == key;
    }

    bool insert(int, uint64_t key)
    {
        std::unique_lock held(lock);
        return map.emplace(key, key).second;
    }

    bool remove(int, uint64_t key)
    {
        std::unique_lock held(lock);
        return map.erase(key) == 1;
    }

    uint64_t tried_again() const { return 0; }
};

struct StdMap : Locked<std::map<uint64_t, uint64_t>> {
    using Locked::Locked;
    static constexpr const char *name = "std::map, shared_mutex";
};

#ifdef HAS_BTREE
struct BTree : Locked<absl::btree_map<uint64_t, uint64_t>> {
    using Locked::Locked;
    static constexpr const char *name = "absl::btree_map, shared_mutex";
};
#endif

struct Cell {
    double a_second;
    double tried_again;
};

// Keeps an answer that nobody else looks at, so that the call is made.
inline void keep(bool answer)
{
    asm volatile("" : : "r"(answer));
}

// Calls a second of so many threads, each by `call(map, thread, key)` over drawn keys.
template <class Map, class Call> Cell measure(int threads, uint64_t keys, int milliseconds, Call call)
{
    Map map(threads);
    for (uint64_t key = 0; key < keys; key += 2)
        map.insert(0, key);
    std::atomic<int> ready{0};
    std::atomic<bool> begun{false}, ended{false};
    std::vector<uint64_t> calls(threads);
    std::vector<std::thread> workers;
    for (int thread = 0; thread < threads; thread++)
        workers.emplace_back([&, thread] {
            std::mt19937_64 draw(thread + 1);
            uint64_t made = 0;
            ready++;
            while (!begun)
                std::this_thread::yield();
            while (!ended) {
                for (int at = 0; at < 64; at++)
                    made += call(map, thread, draw() % keys, draw() % keys);
            }
            calls[thread] = made;
        });
    while (ready < threads)
        std::this_thread::yield();
    auto from = std::chrono::steady_clock::now();
    begun = true;
    std::this_thread::sleep_for(std::chrono::milliseconds(milliseconds));
    ended = true;
    for (auto &worker : workers)
        worker.join();
    double took = std::chrono::duration<double>(std::chrono::steady_clock::now() - from).count();
    uint64_t sum = 0;
    for (uint64_t made : calls)
        sum += made;
    return {sum / took, 100.0 * map.tried_again() / sum};
}

template <class Map> void rows(uint64_t keys, int milliseconds)
{
    double first_gets = 0, first_writes = 0;
    for (int threads : {1, 2, 4}) {
        Cell gets = measure<Map>(threads, keys, milliseconds, [](Map &map, int thread, uint64_t key, uint64_t) {
            keep(map.get(thread, key));
            return 1;
        });
        Cell writes = measure<Map>(threads, keys, milliseconds, [](Map &map, int thread, uint64_t key, uint64_t other) {
            keep(map.insert(thread, key));
            keep(map.remove(thread, other));
            return 2;
        });
        first_gets = first_gets ? first_gets : gets.a_second;
        first_writes = first_writes ? first_writes : writes.a_second;
        printf("%-30s %d   %12.0f %5.2f   %12.0f %5.2f   %6.2f\n", Map::name, threads, gets.a_second, gets.a_second / first_gets,
               writes.a_second, writes.a_second / first_writes, writes.tried_again);
        fflush(stdout);
    }
}

} // namespace

int main(int count, char **words)
{
    uint64_t keys = count > 1 ? strtoull(words[1], nullptr, 10) : 1000000;
    int milliseconds = count > 2 ? atoi(words[2]) : 500;
    printf("%-29s threads   gets a second, to one   writes a second, to one   tried again of 100\n", "");
    rows<Index>(keys, milliseconds);
    rows<StdMap>(keys, milliseconds);
#ifdef HAS_BTREE
    rows<BTree>(keys, milliseconds);
#endif
    return 0;
}

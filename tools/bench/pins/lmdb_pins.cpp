// Counts and times renewals and resets of LMDB's read transactions, which pin and release its
// newest snapshot, next to one thread that commits.
//   lmdb_pins FOLDER READERS SECONDS
// For SECONDS seconds each reader counts them, and for as many it times each. A line for each
// reader: its renewals per second, and the 50th, 99th and 99.99th percentile in nanoseconds. A
// commit is made every 50 microseconds.
#include <lmdb.h>

#include <algorithm>
#include <atomic>
#include <chrono>
#include <cstdint>
#include <cstdio>
#include <cstdlib>
#include <cstring>
#include <thread>
#include <vector>

namespace {

using Clock = std::chrono::steady_clock;

void check(int status) {
    if (status != MDB_SUCCESS) {
        std::fprintf(stderr, "lmdb_pins: %s\n", mdb_strerror(status));
        std::exit(1);
    }
}

std::atomic<bool> running{true};
std::atomic<bool> counting{true};

// Commits a value of eight bytes again and again.
void publish(MDB_env *env, MDB_dbi table) {
    for (std::uint64_t count = 0; running.load(std::memory_order_relaxed); ++count) {
        const auto next = Clock::now() + std::chrono::microseconds(50);
        MDB_txn *write = nullptr;
        check(mdb_txn_begin(env, nullptr, 0, &write));
        char name[] = "newest";
        MDB_val key{sizeof name, name};
        MDB_val value{sizeof count, &count};
        check(mdb_put(write, table, &key, &value, 0));
        check(mdb_txn_commit(write));
        while (Clock::now() < next) {
        }
    }
}

// What one reader does, whose transaction was made before.
struct Reader {
    std::uint64_t pins = 0;
    std::vector<std::uint32_t> nanos;

    void run(MDB_env *env) {
        MDB_txn *read = nullptr;
        check(mdb_txn_begin(env, nullptr, MDB_RDONLY, &read));
        mdb_txn_reset(read);
        for (; counting.load(std::memory_order_relaxed); ++pins) {
            check(mdb_txn_renew(read));
            mdb_txn_reset(read);
        }
        while (running.load(std::memory_order_relaxed) && nanos.size() < nanos.capacity()) {
            const auto start = Clock::now();
            check(mdb_txn_renew(read));
            mdb_txn_reset(read);
            const auto passed = std::chrono::duration_cast<std::chrono::nanoseconds>(Clock::now() - start).count();
            nanos.push_back(static_cast<std::uint32_t>(std::min<std::int64_t>(passed, UINT32_MAX)));
        }
        mdb_txn_abort(read);
    }
};

std::uint32_t at(const std::vector<std::uint32_t> &sorted, double part) {
    return sorted.empty() ? 0 : sorted[std::min(sorted.size() - 1, static_cast<std::size_t>(part * static_cast<double>(sorted.size())))];
}

}  // namespace

int main(int count, char **words) {
    if (count != 4) {
        std::fprintf(stderr, "lmdb_pins FOLDER READERS SECONDS\n");
        return 2;
    }
    const int readers = std::atoi(words[2]);
    const int seconds = std::atoi(words[3]);
    MDB_env *env = nullptr;
    check(mdb_env_create(&env));
    check(mdb_env_set_mapsize(env, 1u << 30));
    check(mdb_env_open(env, words[1], MDB_NOSYNC | MDB_NOTLS | MDB_WRITEMAP, 0600));
    MDB_txn *write = nullptr;
    MDB_dbi table = 0;
    check(mdb_txn_begin(env, nullptr, 0, &write));
    check(mdb_dbi_open(write, nullptr, 0, &table));
    check(mdb_txn_commit(write));
    std::vector<Reader> each(readers);
    for (auto &reader : each) {
        reader.nanos.reserve(40'000'000 / each.size());
    }
    std::vector<std::thread> threads;
    threads.emplace_back(publish, env, table);
    for (auto &reader : each) {
        threads.emplace_back([&reader, env] { reader.run(env); });
    }
    std::this_thread::sleep_for(std::chrono::seconds(seconds));
    counting = false;
    std::this_thread::sleep_for(std::chrono::seconds(seconds));
    running = false;
    for (auto &thread : threads) {
        thread.join();
    }
    for (auto &reader : each) {
        auto &nanos = reader.nanos;
        std::sort(nanos.begin(), nanos.end());
        std::printf("%.0f %u %u %u\n", static_cast<double>(reader.pins) / seconds, at(nanos, 0.5), at(nanos, 0.99), at(nanos, 0.9999));
    }
    mdb_env_close(env);
}

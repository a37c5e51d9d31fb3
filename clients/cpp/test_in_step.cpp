// Tests that an answer of clearmap.hpp belongs to its question, whatever comes between the two:
// calls of many threads, exceptions, signals, threads that are cancelled, fork(), servers that
// are lost, busy or serve another map.
//
//     test_in_step PORT BUSY [long]
//
// PORT is a server of a map of 64 by 48 cells whose only obstacle is column 5 of row 7, with a
// short log. BUSY serves it by one worker. With `long` 10,000 calls are interrupted, 10,000 are
// made under signals, and eight threads make 100,000.
#include "model.hpp"

#include <sys/time.h>
#include <sys/wait.h>

// ---- allocations that fail

static thread_local long allowed = -1;  // allocations until they fail; -1: none fails

[[gnu::noinline]] void* operator new(std::size_t size) {
    if (allowed == 0) throw std::bad_alloc();
    if (allowed > 0) --allowed;
    if (void* found = std::malloc(size)) return found;
    throw std::bad_alloc();
}
[[gnu::noinline]] void operator delete(void* data) noexcept { std::free(data); }
[[gnu::noinline]] void operator delete(void* data, std::size_t) noexcept { std::free(data); }

/// Whether a call runs out of memory if its allocations fail after this many.
template <class Call>
static bool starved(long allocations, Call call) {
    allowed = allocations;
    try {
        call();
    } catch (const std::bad_alloc&) {
        allowed = -1;
        return true;
    }
    allowed = -1;
    return false;
}

/// For the clients that draw: the server's log is full again and again.
static const Options painting = {size, std::chrono::seconds(10), FullLog::checkpointed, false};

// ---- many threads

/// Threads ask one pin and draw by its client. Each draws a row of its own, so it knows how many
/// cells change.
static void side_by_side(std::uint16_t port, int threads, int calls) {
    Client client(port, painting);
    Pinned map = client.pin();
    std::mutex mutex;
    std::vector<std::uint32_t> places;
    auto run = [&](int row) {
        Asker asker(static_cast<unsigned>(row));
        bool painted = false;
        for (int call = 0; call < calls; ++call) {
            if (call % 8 != 0) {
                asker.ask(map);
                continue;
            }
            CHECK(client.size() == size);
            Change done = painted ? client.clear(10, row, 11 + row, row + 1)
                                  : client.paint(10, row, 11 + row, row + 1);
            painted = !painted;
            CHECK(done.changed == static_cast<std::uint32_t>(row + 1));
            std::lock_guard<std::mutex> lock(mutex);
            places.push_back(done.place);
        }
    };
    std::vector<std::thread> all;
    for (int row = 0; row < threads; ++row) all.emplace_back(run, row);
    for (std::thread& one : all) one.join();
    std::size_t count = places.size();
    CHECK(std::set<std::uint32_t>(places.begin(), places.end()).size() == count);
    CHECK(client.revert() > *std::max_element(places.begin(), places.end()));
}

// ---- calls that are interrupted

/// A client and its pin, rebuilt where their connection was closed.
struct Planner {
    std::uint16_t port;
    std::optional<Client> client;
    std::optional<Pinned> map;
    void connect() {
        map.reset();
        client.emplace(port, painting);
        map.emplace(client->pin());
    }
};

/// The calls that are interrupted; their answers are checked where they come.
static void interrupted_call(Planner& planner, int kind, int turn) {
    Cell c{turn % size.width, turn % size.height};
    Metric m = static_cast<Metric>(turn % 3);
    Queries queries;
    switch (kind) {
        case 0: return Asker::at(*planner.map, c, m);
        case 1:
            for (int i = 0; i < 70; ++i) queries.at({i % size.width, i % size.height}, m);
            planner.map->ask(queries);
            return;
        case 2: CHECK(planner.map->dump() == dumped()); return;
        case 3: CHECK(planner.map->renew() == 0); return;
        case 4: planner.client->paint(c.x, c.y, c.x + 1, c.y + 1); return;
        case 5: planner.client->size(); return;
        case 6:
            planner.map.reset();
            planner.map.emplace(planner.client->pin());
            return;
        default: CHECK(Client(planner.port, {size}).size() == size);
    }
}

/// Allocations fail at each place of each call. The next question to the same client has its own
/// answer, or the connection is closed.
static void without_memory(std::uint16_t port, int wanted) {
    int interrupted = 0, closed = 0, passed = 0;
    Planner planner{port, {}, {}};
    planner.connect();
    for (int turn = 0; interrupted < wanted || passed < 8; ++turn) {
        int kind = passed % 8;
        long allocations = 0;
        while (starved(allocations++, [&] { interrupted_call(planner, kind, turn); })) {
            ++interrupted;
            try {
                if (!planner.map) planner.map.emplace(planner.client->pin());
                Asker::at(*planner.map, {(turn + 3) % size.width, (2 * turn + 1) % size.height},
                          Metric::euclid2);
                planner.client->revert();
            } catch (const ConnectionLost&) {
                ++closed;
                planner.connect();
            }
        }
        ++passed;
    }
    std::printf("  interrupted when out of memory: %d, the connection closed: %d\n", interrupted,
                closed);
    CHECK(closed > 0 && closed < interrupted);
}

#if defined(__SANITIZE_ADDRESS__) || defined(__SANITIZE_THREAD__)
static void cancelled() {}  // the sanitizers take a cancelled thread's way out for a fault
#else
/// A thread is cancelled while it waits for its reply.
static void cancelled() {
    Telling server;
    for (int turn = 0; turn < 5; ++turn) {
        Client client(server.port);
        Pinned map = client.pin();
        server.pause = 20000;
        std::thread asking([&] { map.at({1, 2}); });
        std::this_thread::sleep_for(std::chrono::milliseconds(3 + 8 * turn));
        ::pthread_cancel(asking.native_handle());
        asking.join();
        server.pause = 0;
        try {
            CHECK(map.at({3, 4})->distance == 4096 * 3 + 4);
        } catch (const ConnectionLost&) {
            ++tried;
        }
    }
}
#endif

/// A timer whose signals interrupt the calls of this thread.
class Alarms {
public:
    explicit Alarms(int microseconds) {
        struct sigaction action {};
        action.sa_handler = [](int) {};
        ::sigaction(SIGALRM, &action, nullptr);
        set(microseconds);
    }
    ~Alarms() { set(0); }

private:
    static void set(int microseconds) {
        itimerval timer{{0, microseconds}, {0, microseconds}};
        ::setitimer(ITIMER_REAL, &timer, nullptr);
    }
};

static void signals(std::uint16_t port, int calls) {
    Alarms alarms(700);
    Telling server;
    server.pause = 150;
    Client slow(server.port, {size});
    Pinned told = slow.pin();
    for (int i = 0; i < calls / 10; ++i) {
        Cell c{i % size.width, i % size.height};
        CHECK(told.at(c)->distance == static_cast<std::uint32_t>(4096 * c.x + c.y) &&
              told.at(c)->obstacle == c);
        CHECK(slow.paint(i, 0, i + 1, 1).changed == static_cast<std::uint32_t>(i));
    }
    Client client(port, {size});
    Pinned map = client.pin();
    Asker asker(1);
    for (int i = 0; i < calls; ++i) asker.ask(map);
}

/// Signals that come faster than the time-out don't make a wait endless.
static void signals_and_silence() {
    Fake silent({"OK 0\n"}, false);
    Client client(silent.port, std::chrono::milliseconds(1500));
    Pinned map = client.pin();
    Alarms alarms(20000);
    CHECK(throws<TimedOut>([&] { map.at({0, 0}); }, "no reply within 1500 ms"));
}

// ---- lost and busy servers

static void unasked() {
    Telling server;
    server.adds = true;
    Client client(server.port);
    try {
        CHECK(client.paint(3, 0, 4, 1).changed == 3);
        await([&] { return server.added.load(); });
        let_arrive();
        CHECK(
            throws<ConnectionLost>([&] { client.paint(4, 0, 5, 1); }, "what nobody asked: OK 7 7"));
    } catch (const WrongAnswer&) {  // both replies came at once
    }
    CHECK(closed(client) && server.drawn().size() == 1);
}

static void lost() {
    Telling server;
    Client once(server.port, {size}),
        again(server.port, {size, std::chrono::seconds(10), FullLog::thrown, true});
    Pinned kept = again.pin();
    CHECK(kept.at({1, 2})->distance == 4098);
    server.loses = true;
    CHECK(throws<ConnectionLost>([&] { once.paint(1, 0, 2, 1); }) &&
          throws<ConnectionLost>([&] { again.paint(2, 0, 3, 1); }));
    server.loses = false;
    CHECK((server.drawn() == std::vector<std::string>{
                                 "PAINT 1 0 2 1", "PAINT 2 0 3 1"}));  // no command is sent twice
    CHECK(throws<ConnectionLost>([&] { once.paint(3, 0, 4, 1); }) && server.connections == 2);
    CHECK(again.paint(4, 0, 5, 1).changed == 4 && server.connections == 3);
    CHECK(throws<ConnectionLost>([&] { kept.at({1, 2}); }, "and the pin with it"));
    Pinned anew = again.pin();
    CHECK(throws<ConnectionLost>([&] { kept.renew(); }) &&
          throws<ConnectionLost>([&] { kept.unpin(); }));
    CHECK(anew.at({2, 1})->distance == 8193);
    server.cut();  // between two calls: the next one reconnects, and is sent once
    let_arrive();
    CHECK(again.paint(5, 0, 6, 1).changed == 5 && server.connections == 4 &&
          server.drawn().size() == 4);
    again.close();
    CHECK(throws<ConnectionLost>([&] { again.paint(6, 0, 7, 1); }) && server.connections == 4);
}

static void busy(std::uint16_t port) {
    const char* text =
        "connected, but no worker has answered within 200 ms: are all workers of the server taken?";
    Options soon{size, std::chrono::milliseconds(200)};
    Client first(port, {size});
    CHECK(throws<TimedOut>([&] { Client second(port, soon); }, text));
    Client third(port, std::chrono::milliseconds(200));
    CHECK(throws<TimedOut>([&] { third.pin(); }, text) && closed(third));
    CHECK(throws<TimedOut>(
        [&] {
            Client(port, std::chrono::milliseconds(200)).stamp({0, 0}, std::string(17000000, ' '));
        },
        text));
    first.close();
    CHECK(Client(port, {size}).size() == size);
    Listener full;  // nobody accepts
    Client waiting(full.port, std::chrono::milliseconds(200));
    CHECK(throws<TimedOut>([&] { waiting.revert(); }, text));
    CHECK(throws<std::invalid_argument>([&] { Client(full.port, std::chrono::milliseconds(-1)); }));
    Fake once({"OK 7\n"}, false);
    Client slow(once.port, std::chrono::seconds(2));
    CHECK(slow.revert() == 7);
    CHECK(throws<TimedOut>([&] { slow.revert(); }, "no reply within 2 s") && closed(slow));
}

// ---- another map

static void sizes(std::uint16_t port) {
    CHECK(Client(port, {size}).size() == size && Client(port).size() == size);
    for (Size other : {Size{48, 64}, Size{63, 48}, Size{65, 48}, Size{64, 47}, Size{64, 49},
                       Size{1, 1}, Size{4096, 4096}, Size{64, 4096}}) {
        try {
            Client client(port, {other});
            CHECK(!"another map is refused");
        } catch (const WrongMap& wrong) {
            CHECK(wrong.served == size && wrong.expected == other);
        }
    }
    CHECK(throws<WrongMap>(
        [&] {
            Client(port, {Frame{64, 47, 1, 0, 0}.size()});
        },
        "has 64 by 48 cells, where 64 by 47 are expected"));
    for (Size none : {Size{0, 1}, Size{1, 4097}, Size{-1, 1}})
        CHECK(throws<std::invalid_argument>([&] { Client(port, {none}); }));
    Client client(port);
    Pinned map = client.pin();
    CHECK(client.size() == size && map.at({0, 7})->distance == 25);  // by the pin that is held
    for (Size one : {Size{1, 1}, Size{4096, 4096}, Size{64, 1}, Size{63, 65}, Size{4095, 128},
                     Size{2, 4032}, Size{4033, 64}}) {
        Telling server(one);
        CHECK(Client(server.port).size() == one && Client(server.port, {one}).size() == one);
        CHECK(throws<WrongMap>([&] {
            Client(server.port, {Size{one.width == 1 ? 2 : one.width - 1, one.height}});
        }));
    }
}

/// Where the server that is connected to anew serves another map, nothing is asked of it.
static void another_map_later() {
    Telling server;
    for (std::optional<Size> expected : {std::optional<Size>(size), std::optional<Size>()}) {
        std::size_t drawn = server.drawn().size();
        Client client(server.port, {expected, std::chrono::seconds(10), FullLog::thrown, true});
        CHECK(client.paint(1, 0, 2, 1).changed == 1);
        server.width = 6;
        server.cut();
        let_arrive();
        CHECK(throws<WrongMap>([&] { client.paint(2, 0, 3, 1); }, "has 6 by 48 cells") &&
              throws<WrongMap>([&] { client.pin(); }));
        server.width = 64;
        CHECK(server.drawn().size() == drawn + 1 && client.paint(3, 0, 4, 1).changed == 3);
    }
}

// ---- clients that are moved, and children

static Client made(std::uint16_t port) {
    Client client(port);
    CHECK(client.size() == size);
    return client;
}

static void moved() {
    Telling server;
    Client first = made(server.port);
    Pinned map = first.pin();
    Client second = std::move(first);
    CHECK(second.paint(7, 0, 8, 1).changed == 7 && map.at({1, 1})->distance == 4097);
    CHECK(throws<ConnectionLost>([&] { first.paint(0, 0, 1, 1); }, "moved"));
    first.close();
    std::vector<Client> all;
    for (int i = 0; i < 3; ++i) all.push_back(made(server.port));
    all[0] = std::move(second);
    CHECK(all[0].paint(8, 0, 9, 1).changed == 8);
    all.clear();  // the pin keeps its connection
    CHECK(map.at({2, 2})->distance == 8194);
    Pinned taken = std::move(map);
    CHECK(taken.at({2, 3})->distance == 8195 && taken.version() == 0);
    CHECK(throws<ConnectionLost>([&] { map.at({0, 0}); }, "moved"));
    Pinned other = Client(server.port).pin();
    other = std::move(taken);
    CHECK(other.at({3, 3})->distance == 12291);
    other.unpin();
    CHECK(throws<ConnectionLost>([&] { other.at({0, 0}); }, "the pin was left"));
}

/// A child neither uses its parent's connection nor ends it.
static void forked(std::uint16_t port) {
    auto client = std::make_unique<Client>(port, painting);
    auto map = std::make_unique<Pinned>(client->pin());
    std::fflush(stdout);
    pid_t child = ::fork();
    if (child == 0) {
        bool good = throws<ConnectionLost>(
                        [&] {
                            map->at({0, 0});
                        },
                        "parent") &&
                    throws<ConnectionLost>([&] { client->revert(); }, "parent");
        client->close();
        map.reset();
        client.reset();
        ::_exit(good ? 0 : 1);
    }
    int status = -1;
    CHECK(::waitpid(child, &status, 0) == child && status == 0);
    Asker::at(*map, {9, 9}, Metric::city);
    CHECK(client->revert() > 0);
}

// ---- stamps

static void stamps(std::uint16_t port) {
    const std::string plain = "P1\n3 1\n111", raw("P4\n3 1\n\xe0", 8);
    Client client(port, painting);
    auto stamped = [&](const auto& image) {
        client.revert();
        return client.stamp({20, 20}, image).changed == 3;
    };
    CHECK(stamped(plain) && stamped(raw) && stamped("P1\n3 1\n111") && stamped("P4\n3 1\n\xe0"));
    CHECK(stamped(std::vector<unsigned char>(raw.begin(), raw.end())) &&
          stamped(std::vector<signed char>(plain.begin(), plain.end())));
    std::array<std::byte, 8> bytes;
    std::transform(raw.begin(), raw.end(), bytes.begin(),
                   [](char c) { return static_cast<std::byte>(c); });
    CHECK(stamped(bytes));
    client.revert();
    CHECK(client.stamp({20, 20}, raw.data(), raw.size()).changed == 3);
    CHECK(refused(BadImage, "BadImage", {}, [&] {
        client.stamp({20, 20}, raw.data(), raw.size() - 1);
    }));
    CHECK(throws<std::invalid_argument>([&] {
        client.stamp({20, 20}, std::string(17100001, ' '));
    }));
    CHECK(throws<std::invalid_argument>([&] { client.stamp({-1, 20}, plain); }));
    CHECK(throws<std::invalid_argument>([&] { client.pin().at({0, 0}, static_cast<Metric>(3)); }));
    Telling server;
    Client told(server.port);
    CHECK(told.stamp({0, 0}, "PAINT 0 0 1 1\nPAINT 0 0 1 1\n").changed == 28 &&
          server.drawn().size() == 1);  // bytes aren't lines
    client.revert();
}

int main(int count, char** words) {
    if (count != 3 && !(count == 4 && std::string(words[3]) == "long")) return 2;
    auto port = static_cast<std::uint16_t>(std::atoi(words[1])),
         one = static_cast<std::uint16_t>(std::atoi(words[2]));
    bool is_long = count == 4;
    side_by_side(port, 2, 200);
    side_by_side(port, 8, is_long ? 12500 : 250);
    without_memory(port, is_long ? 10000 : 200);
    cancelled();
    signals(port, is_long ? 10000 : 300);
    signals_and_silence();
    unasked();
    lost();
    busy(one);
    sizes(port);
    another_map_later();
    moved();
    forked(port);
    stamps(port);
    std::printf("tests of clearmap.hpp in step: %d, all good\n", tried.load());
    return 0;
}

// Tests of what a client of clearmap.hpp believes of the draft, of pins that nobody has, and of how
// long a call waits: servers that are lost, hang or trickle are threads of this program.
//
//     test_drafts [long]
//
// With `long` the storm of lost servers has 20,000 turns.
#include "testing.hpp"

#include <random>

static const Size size = {64, 48};
static const Options anew{size, std::chrono::seconds(10), FullLog::thrown, true};
static const std::string again = "paint again, and publish";

/// A client that has painted, and what ends its connection and its server's draft.
struct Painter {
    Telling server;
    Client client{server.port, anew};

    void paint(int x) { client.paint(x, 0, x + 1, 1); }
    void cut() {
        server.cut();
        let_arrive();
    }
    bool is_told() {
        return throws<ConnectionLost>([&] { client.publish(); }, again) &&
               server.published().empty();
    }
};

template <class Call>
void swallow(Call call) {
    try {
        call();
    } catch (const Error&) {
    }
}

struct Own : std::exception {};

// ---- the ways by which a caller swallows that the connection was lost

static void by_the_end_of_a_pin(Painter& one) {
    Pinned pinned = one.client.pin();
    one.paint(1);
    one.cut();
}

static void by_a_reset(Painter& one) {
    std::optional<Pinned> pinned = one.client.pin();
    one.paint(1);
    one.cut();
    pinned.reset();
}

static void by_an_assignment(Painter& one) {
    Telling other;
    Pinned pinned = one.client.pin();
    one.paint(1);
    one.cut();
    pinned = Client(other.port).pin();
}

static void by_an_own_exception(Painter& one) {
    try {
        Pinned pinned = one.client.pin();
        one.paint(1);
        one.cut();
        throw Own();
    } catch (const Own&) {
    }
}

static void by_a_query(Painter& one) {
    Pinned pinned = one.client.pin();
    one.paint(1);
    one.cut();
    swallow([&] { pinned.at({0, 0}); });
}

static void by_another_thread(Painter& one) {
    Pinned pinned = one.client.pin();
    std::thread([&] { one.paint(1); }).join();
    one.cut();
    swallow([&] { pinned.at({0, 0}); });
}

/// Threads whose identifier is that of one that has ended.
static void by_threads_of_one_identifier(Painter& one) {
    Pinned pinned = one.client.pin();
    std::thread([&] { one.paint(1); }).join();
    one.cut();
    for (int turn = 0; turn < 4; ++turn)
        std::thread([&] { swallow([&] { pinned.at({0, 0}); }); }).join();
}

/// A painter that repeats what wasn't accepted, and nothing else.
static void by_a_paint(Painter& one) {
    one.paint(1);
    one.server.loses = true;
    swallow([&] { one.paint(2); });
    one.server.loses = false;
    one.cut();
    one.paint(2);
}

/// In silence: the call finds the new connection.
static void by_a_collect(Painter& one) {
    one.paint(1);
    one.cut();
    one.client.collect();
}

/// What the caller is told of is the connection of a pin, by a pin.
static void by_a_pin(Painter& one) {
    one.paint(1);
    one.cut();
    swallow([&] { (void)one.client.pin(); });
    one.paint(2);
}

static void ways() {
    for (auto way : {by_the_end_of_a_pin, by_a_reset, by_an_assignment, by_an_own_exception,
                     by_a_query, by_another_thread, by_threads_of_one_identifier, by_a_paint,
                     by_a_collect, by_a_pin}) {
        Painter one;
        way(one);
        CHECK(one.is_told());
        one.client.revert();
        one.paint(1);
        CHECK(one.client.publish() == 5);
        CHECK(one.server.published() == std::vector<std::string>{"PAINT 1 0 2 1"});
    }
}

// ---- when it is told, and when not

static void told_once() {
    Painter one;
    one.paint(1);
    one.cut();
    one.paint(2);
    CHECK(one.is_told() && one.client.publish() == 5);  // with what was painted since
    CHECK(one.server.published() == std::vector<std::string>{"PAINT 2 0 3 1"});
    one.cut();
    CHECK(one.client.publish() == 5);
}

/// What was painted over the new connection, before the publish that was told, is lost with it.
static void lost_again() {
    Painter one;
    one.client.stamp({1, 0}, "P1\n1 1\n1\n");
    one.cut();
    one.paint(2);
    CHECK(one.is_told());
    one.cut();
    CHECK(one.is_told() && one.client.publish() == 5);
}

static void not_lost() {
    Painter one;
    one.paint(1);
    CHECK(one.client.publish() == 5);
    one.cut();
    CHECK(one.client.publish() == 5);
    one.paint(1);
    one.client.revert();
    one.cut();
    CHECK(one.client.publish() == 5);
    one.paint(1);
    one.cut();
    one.client.revert();  // nothing is left to lose
    CHECK(one.client.publish() == 5);
}

// ---- a storm

/// Calls at random, of which errors are swallowed, while servers are lost and another thread asks.
class Storm {
public:
    explicit Storm(unsigned seed) : random_(seed) {}

    void run(int turns) {
        std::atomic<bool> ended{false};
        std::thread asking([&] {
            while (!ended) swallow([&] { one_.client.pin().at({0, 0}); });
        });
        for (int turn = 0; turn < turns; ++turn) swallow([&] { this->turn(); });
        ended = true;
        asking.join();
        std::printf("  versions in a storm: %d, told of lost changes: %d\n", published_, told_);
        CHECK(published_ > turns / 100 && told_ > turns / 100);
    }

private:
    int below(int count) { return std::uniform_int_distribution<int>(0, count - 1)(random_); }

    void turn() {
        switch (below(9)) {
            case 0: return one_.server.cut();
            case 1: return publish();
            case 2: accepted_.clear(), one_.client.revert(); return;
            case 3: {
                Pinned pinned = one_.client.pin();
                draw();
                if (below(2) == 0) one_.server.cut();
                throw Error("left");
            }
            case 4: std::thread([&] { swallow([&] { draw(); }); }).join(); return;
            case 5: one_.server.loses = below(8) == 0; return;
            default: draw();
        }
    }

    void draw() {
        const int x = below(60);
        one_.paint(x);
        accepted_.push_back("PAINT" + detail::points({{x, 0}, {x + 1, 1}}));
    }

    /// Each change that was accepted since the last publish is in the version.
    void publish() {
        try {
            one_.client.publish(OldVersions::collected);
        } catch (const ConnectionLost& lost) {
            if (std::string(lost.what()).find(again) != std::string::npos) {
                ++told_;
                accepted_.clear();
            }
            throw;
        }
        ++published_;
        const std::vector<std::string> found = one_.server.published();
        for (const std::string& line : accepted_)
            CHECK(std::find(found.begin(), found.end(), line) != found.end());
        accepted_.clear();
    }

    std::mt19937 random_;
    Painter one_;
    std::vector<std::string> accepted_;
    int published_ = 0, told_ = 0;
};

// ---- what is published

static void old_versions() {
    Telling server;
    Client client(server.port);
    const Published kept = client.publish(), collected = client.publish(OldVersions::collected);
    CHECK(kept.place == 9 && kept == 5 && !kept.floor && collected.floor == 5u);
    Fake full({"OK 9 5\n", "ERR 4 LogFull\n"}, false);
    const Published done = Client(full.port).publish(OldVersions::collected);
    CHECK(done.version == 5 && !done.floor);
    Fake lost({"OK 9 5\n"}, true);
    CHECK(throws<ConnectionLost>([&] { Client(lost.port).publish(OldVersions::collected); }));
}

/// What a refusal says that its own words don't.
static void cures() {
    const std::pair<const char*, const char*> rows[] = {
        {"ERR 1 OutOfRange", "Client::size has the map's columns and rows"},
        {"ERR 3 VersionsFull", "collect frees the versions that no pin holds, and publish(OldVersions::collected)"},
        {"ERR 7 AlreadyPinned", "unpin the other pin"},
        {"ERR 8 BadPath", "a path has 1 to 1000 points"},
        {"ERR 9 Crooked 2", "the point 2 is in neither the row nor the column of the one before"},
        {"ERR 15 BadImage TooLarge", "an image has at most 4096 columns and 4096 rows"},
        {"ERR 15 BadImage Truncated", "its bytes end before its last pixel"},
        {"ERR 15 BadImage BadPixel", "each pixel of a plain image is 0 or 1"},
    };
    for (auto [reply, cure] : rows) {
        Fake fake({std::string(reply) + '\n'}, false);
        Client client(fake.port);
        CHECK(throws<Refused>([&] { client.publish(); }, std::string(reply) + ": " + cure));
    }
    Telling server;
    Client client(server.port, {size});
    Pinned pinned = client.pin();
    CHECK(throws<Refused>([&] { pinned.at({64, 0}); }, ": the map has columns 0 to 63 and rows 0 to 47"));
}

// ---- how long a call waits

/// What another thread's call throws, and what this thread does meanwhile.
template <class Call, class Meanwhile>
std::string thrown(Call call, Meanwhile meanwhile) {
    std::string said;
    std::atomic<bool> begun{false};
    std::thread calling([&] {
        begun = true;
        try {
            call();
        } catch (const ConnectionLost& lost) {
            said = lost.what();
        }
    });
    await([&] { return begun.load(); });
    let_arrive();
    meanwhile();
    calling.join();
    return said;
}

static void aborts() {
    const std::string aborted = "the connection was aborted";
    const Options endless{std::nullopt, std::chrono::milliseconds(0)};
    Fake silent({"OK 0\n"}, false);
    Client client(silent.port, endless);
    Pinned pinned = client.pin();
    CHECK(thrown([&] { pinned.at({0, 0}); }, [&] { client.abort(); }) == aborted);
    CHECK(closed(client));
    client.abort();
    client.close();
    Listener full;  // nobody takes its bytes
    Client sending(full.port, endless);
    const std::string image(17000000, ' ');
    CHECK(thrown([&] { sending.stamp({0, 0}, image); }, [&] { sending.abort(); }) == aborted);
    Painter one;  // between two calls, and no call reconnects
    one.client.abort();
    CHECK(throws<ConnectionLost>([&] { one.client.publish(); }, "the connection is closed"));
    CHECK(one.server.connections == 1);
    one.client.abort();
    Client moved = std::move(one.client);
    one.client.abort();
}

/// While the client connects anew and its map is checked.
static void aborts_of_what_reconnects() {
    for (int turn = 0; turn < 10; ++turn) {
        Painter one;
        one.server.cut();
        let_arrive();
        one.server.pause = 600 * turn;
        std::thread calling([&] { swallow([&] { one.client.pin(); }); });
        std::this_thread::sleep_for(std::chrono::microseconds(200 * turn));
        one.client.abort();
        calling.join();
        let_arrive();  // at a server that accepts late
        const int connections = one.server.connections;
        CHECK(throws<ConnectionLost>([&] { one.client.pin(); }, "closed"));
        CHECK(one.server.connections == connections);
    }
}

static void call_timeouts() {
    using std::chrono::milliseconds;
    Options brief = anew;
    brief.expected.reset(), brief.reconnect = false, brief.call_timeout = milliseconds(1500);
    for (milliseconds wait : {milliseconds(0), milliseconds(10000)}) {
        brief.timeout = wait;
        Telling slow;
        slow.pause = 60000;
        Client client(slow.port, brief);
        Pinned pinned = client.pin();
        const auto begun = std::chrono::steady_clock::now();
        CHECK(throws<TimedOut>([&] { pinned.clearances(std::vector<Cell>(100)); },
                               "no reply within the call's 1500 ms"));
        CHECK(std::chrono::steady_clock::now() - begun < std::chrono::seconds(6));
        CHECK(throws<ConnectionLost>([&] { client.pin(); }, "the connection is closed"));
    }
    Telling good;
    Client client(good.port, brief);
    for (int turn = 0; turn < 2; ++turn) {  // each call has its own time
        CHECK(client.pin().at({1, 1})->distance == 4097);
        std::this_thread::sleep_for(milliseconds(1000));
    }
    brief.call_timeout = milliseconds(-1);
    CHECK(throws<std::invalid_argument>([&] { Client(good.port, brief); }));
}

int main(int count, char** words) {
    const bool is_long = count == 2 && std::string(words[1]) == "long";
    ways();
    told_once();
    lost_again();
    not_lost();
    Storm(1).run(is_long ? 20000 : 1500);
    old_versions();
    cures();
    aborts();
    aborts_of_what_reconnects();
    call_timeouts();
    std::printf("tests of clearmap.hpp's drafts and waits: %d, all good\n", tried.load());
    return 0;
}

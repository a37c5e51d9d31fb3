// Tests of clearmap.hpp: test_clearmap POST SMALL WALLED, the ports of three servers of the map
// with one obstacle at column 2 of row 1 of 6 by 4; the second has two blocks, two versions and a
// log of three, and the border of the third is a wall. Servers that answer wrongly, late or not at
// all are threads of this program.
#include "testing.hpp"

static const Path corner = {{0, 0}, {5, 0}, {5, 3}};

static void queries(std::uint16_t port) {
    Client client(port);
    Pinned map = client.pin();
    CHECK(map.version() == 0);
    CHECK(map.at({0, 0})->distance == 5 && map.at({0, 0})->obstacle == (Cell{2, 1}));
    auto least = map.rect(0, 2, 6, 4);
    CHECK(least->distance == 1 && least->cell == (Cell{2, 2}) && least->obstacle == (Cell{2, 1}));
    CHECK(map.path(corner, Metric::city)->cell == (Cell{2, 0}));
    CHECK(map.clear_of(2, corner, Metric::city)->distance == 1);
    CHECK(!map.clear_of(1, corner, Metric::chess));
    CHECK(map.is_clear(1, corner, Metric::chess) && !map.is_clear(2L, corner, Metric::city));
    for (long long wrong : {-1LL, 1LL << 32}) {  // no 32 bits have it: it isn't cut
        CHECK(throws<std::invalid_argument>([&] { (void)map.is_clear(wrong, corner); }, "and not"));
        CHECK(throws<std::invalid_argument>([&] { Queries().clear_of(wrong, corner); }, "and not"));
    }
    CHECK(map.clearance({{5, 1}, {5, 3}}) == 3.0);
    Path back_and_forth;
    for (int i = 0; i < 2500; ++i) back_and_forth.push_back({5, i % 2 == 0 ? 0 : 1});
    CHECK(map.clearance(back_and_forth) == 3.0);
    for (Cell last : {Cell{5, 0}, Cell{2, 0}}) back_and_forth.push_back(last);  // in the last piece
    CHECK(map.clearance(back_and_forth) == 1.0);
    Path joint;  // the tightest cell lies between the pieces
    for (int i = 0; i < 1000; ++i) joint.push_back({5, (i + 1) % 2});
    for (int y : {0, 1}) joint.push_back({0, y});
    CHECK(map.clearance(joint) == 1.0);
    CHECK(refused(BadPath, "BadPath", {}, [&] { map.clearance({}); }));
    CHECK(map.dump() == "P1\n6 4\n000000\n001000\n000000\n000000\n");
    double cells = -1;
    CHECK(map.is_valid(5, 1, cells) && cells == 3.0);
    for (Cell c : {Cell{2, 1}, Cell{6, 1}, Cell{-1, 1}}) {
        cells = -1;
        CHECK(!map.is_valid(c.x, c.y, cells) && cells == 0.0);
    }
    CHECK((map.clearances({{5, 1}, {2, 1}, {6, 1}, {-1, 1}, {0, 1}}) == std::vector<double>{3, 0, 0, 0, 2}));
    CHECK(map.clearances({}).empty());
    CHECK(map.clearances(std::vector<Cell>(1000, {5, 1})) == std::vector<double>(1000, 3.0));
    Queries many;
    for (int turn = 0; turn < 300; ++turn) many.at({turn % 6, 1}, Metric::chess).clear_of(1, {{0, 0}, {5, 0}}).at({6, 0});
    auto answers = map.ask(many.rect(0, 0, 1, 1).path({{0, 0}, {1, 1}}));
    CHECK(answers.size() == 902);
    for (int turn = 0; turn < 300; ++turn) {
        CHECK(answers[3 * turn].found->distance == static_cast<std::uint32_t>(std::abs(turn % 6 - 2)));
        CHECK(!answers[3 * turn + 1].found && !answers[3 * turn + 1].refused);
        CHECK(answers[3 * turn + 2].refused->number == OutOfRange);
    }
    CHECK(answers[900].found->distance == 5);
    CHECK(answers[901].refused->numbers == std::vector<std::uint32_t>{1});
    map.unpin();
    CHECK(throws<ConnectionLost>([&] { map.at({0, 0}); }));
}

/// The cells around the map are obstacles too: the frame.
static void walls(std::uint16_t port) {
    Client client(port);
    Pinned map = client.pin();
    CHECK(map.at(0, 1)->distance == 1 && map.at(0, 1)->obstacle == (Cell{-1, 1}));
    CHECK(map.at({3, 0})->distance == 1 && map.at({3, 0})->obstacle == (Cell{3, -1}));
    CHECK(map.at({5, 2})->obstacle == (Cell{6, 2}));
    CHECK(map.at(4, 3, Metric::euclid2)->obstacle == (Cell{4, 4}));
    CHECK(map.at({2, 2})->obstacle == (Cell{2, 1}));
    auto least = map.rect(4, 1, 5, 2);
    CHECK(least->distance == 4 && least->cell == (Cell{4, 1}) && least->obstacle == (Cell{2, 1}));
    auto first = map.clear_of(2, {{4, 2}, {5, 2}});
    CHECK(first->distance == 1 && first->cell == (Cell{5, 2}) && first->obstacle == (Cell{6, 2}));
    CHECK(map.dump() == "P1\n6 4\n000000\n001000\n000000\n000000\n");
}

static void commands(std::uint16_t port) {
    Client painter(port), planner(port);
    Pinned before = planner.pin();
    CHECK(painter.paint(4, 3, 6, 4).changed == 2);
    Change stamped = painter.stamp({0, 2}, "P1\n3 2\n111\n101");
    CHECK(stamped.place == 2 && stamped.changed == 5);
    CHECK(painter.clear(0, 2, 1, 3).changed == 1);
    const Published published = painter.publish();
    CHECK(published == 1 && published.version == 1 && published.place == 4);
    const std::uint32_t number = published;  // converts to its version
    CHECK(number == 1 && std::to_string(published) == "1");
    CHECK(painter.paint(0, 0, 6, 4).changed == 17);
    CHECK(painter.revert() == 6);
    CHECK(before.at({5, 3}, Metric::city)->distance == 5);
    before.unpin();
    Collected collected = painter.collect();
    CHECK(collected.place == 7 && collected.floor == 1 && collected.freed == 1);
    CHECK(planner.pin().at({5, 3}, Metric::city)->distance == 0);
    Pinned renewed = planner.pin();  // the pin before was left at its end
    CHECK(renewed.version() == 1 && renewed.renew() == 1);
    painter.paint(0, 0, 1, 1);
    CHECK(painter.publish() == 2 && renewed.at({0, 0})->distance > 0);
    CHECK(renewed.renew() == 2 && renewed.version() == 2 && renewed.at({0, 0})->distance == 0);
    renewed.unpin();
    CHECK(throws<ConnectionLost>([&] { renewed.renew(); }));
    Pinned other = planner.pin();  // a pin that was left isn't answered from another one's version
    CHECK(throws<ConnectionLost>([&] { renewed.at({0, 0}); }) && throws<ConnectionLost>([&] { renewed.dump(); }));
    CHECK(throws<ConnectionLost>([&] { renewed.unpin(); }) && other.at({0, 0})->distance == 0);
}

static void refusals(std::uint16_t port) {
    Client client(port);
    CHECK(refused(BadArguments, "BadArguments", {}, [&] { client.paint(3, 0, 3, 1); }));
    CHECK(refused(BadArguments, "BadArguments", {}, [&] { client.paint(-1, 0, 3, 1); }));
    CHECK(refused(OutOfRange, "OutOfRange", {}, [&] { client.stamp({5, 0}, "P1\n2 1\n11"); }));
    CHECK(refused(BadImage, "BadImage", {}, [&] { client.stamp({0, 0}, "P1\n2 1\n1"); }));
    Pinned map = client.pin();
    CHECK(refused(AlreadyPinned, "AlreadyPinned", {}, [&] { client.pin(); }));
    CHECK(refused(BadPath, "BadPath", {}, [&] { map.path({}); }));
    CHECK(refused(BadPath, "BadPath", {}, [&] { map.path(Path(1001, Cell{0, 0})); }));
    CHECK(throws<std::invalid_argument>([&] { map.path(Path(9000, Cell{0, 0})); }));
    CHECK(refused(Crooked, "Crooked", {2}, [&] { map.path({{0, 0}, {1, 0}, {2, 1}}); }));
    client.paint(0, 0, 1, 1);
    client.publish();
    CHECK(refused(BlocksFull, "BlocksFull", {1, 0}, [&] { client.paint(1, 0, 2, 1); }));
    CHECK(refused(VersionsFull, "VersionsFull", {}, [&] { client.publish(); }));
    client.revert();
    CHECK(refused(LogFull, "LogFull", {}, [&] { client.revert(); }));
    CHECK(map.at({0, 0})->distance == 5);
    try {
        client.stamp({0, 0}, "P1\n2 1\n1");
    } catch (const Refused& refusal) {
        CHECK(refusal.fault == "Truncated");
    }
}

/// The second server's log of three is full here, at place 3, with its two versions.
static void checkpoints(std::uint16_t port) {
    Client plain(port), client(port, std::chrono::seconds(10), FullLog::checkpointed);
    CHECK(refused(LogFull, "LogFull", {}, [&] { plain.collect(); }));
    CHECK(plain.checkpoint() == 4);
    CHECK(plain.collect().place == 5);
    CHECK(client.paint(0, 0, 2, 1).place == 6 && client.clear(1, 0, 2, 1).place == 7);
    CHECK(refused(LogFull, "LogFull", {}, [&] { plain.revert(); }));
    Change stamped = client.stamp({0, 3}, "P1\n2 1\n11");
    CHECK(stamped.place == 9 && stamped.changed == 2);
    CHECK(client.publish() == 2 && client.revert() == 11);
    CHECK(client.revert() == 13);
    CHECK(client.pin().dump() == "P1\n6 4\n100000\n001000\n000000\n110000\n");
    CHECK(refused(OutOfRange, "OutOfRange", {}, [&] { client.paint(0, 0, 7, 1); }));
    Fake others({"ERR 4 LogFull\n", "OK 9\n", "ERR 4 LogFull\n"}, false);
    Client late(others.port, std::chrono::seconds(2), FullLog::checkpointed);
    CHECK(refused(LogFull, "LogFull", {}, [&] { late.publish(); }));
    Fake used({"ERR 17 PlacesUsed\n"}, false);
    Client last(used.port, std::chrono::seconds(2));
    CHECK(refused(PlacesUsed, "PlacesUsed", {}, [&] { last.checkpoint(); }));
}

static void failures() {
    const std::chrono::milliseconds soon(200);
    {
        Fake silent({}, false);
        Client client(silent.port, soon);
        CHECK(throws<TimedOut>([&] { client.pin(); }));
        CHECK(closed(client));
    }
    std::uint16_t gone;
    {
        Fake half({"OK"}, true);
        gone = half.port;
        Client client(half.port);
        errno = EAGAIN;  // of an earlier call
        CHECK(closed(client));
    }
    CHECK(throws<ConnectionLost>([&] { Client client(gone); }));
    for (const char* answer : {"OK\n", "OK 1\n", "OK 1 2 3\n", "OK 1 x\n", "OK  1 2\n", "OK 1 4294967296\n", "NONE\n", "OK CLEAR\n", "HTTP/1.1 400 Bad Request\r\n",
                               "ERR\n", "ERR 6\n", "ERR 10 Nothing\n", "ERR 2 BlocksFull 1\n", "ERR 2 BlocksFull 1 x\n", "ERR 4 VersionsFull\n", "ERR 15 BadImage\n", "ERR 17 LogFull\n", "\n"}) {
        Fake fake({answer}, false);
        Client client(fake.port, std::chrono::seconds(2));
        CHECK(throws<WrongAnswer>([&] { client.publish(); }));
        CHECK(closed(client));
    }
    for (const char* answer : {"NONE\n", "OK 1 2 3\n", "OK\n"}) {
        Fake fake({"OK 0\n", answer}, false);
        Client client(fake.port, std::chrono::seconds(2));
        Pinned map = client.pin();
        CHECK(throws<WrongAnswer>([&] { (void)map.clear_of(1, {{0, 0}}); }));
        CHECK(closed(client));
    }
    for (const char* answer : {"OK -1 2 1\n", "OK 1 --2 1\n", "OK 1 2 -\n", "OK 1 -\n", "OK 1 2 2147483648\n", "OK 1 -2 1 0\n", "OK 1 2\n", "NONE 1 2\n"}) {
        Fake fake({"OK 0\n", answer}, false);
        Client client(fake.port, std::chrono::seconds(2));
        Pinned map = client.pin();
        CHECK(throws<WrongAnswer>([&] { map.at({0, 0}); }));
        CHECK(closed(client));
    }
    for (const char* answer : {"OK 1 4096 0 0 0\n", "OK 1 0 4294967295 0 0\n", "OK 1 2 0 0\n"}) {
        Fake fake({"OK 0\n", answer}, false);
        Client client(fake.port, std::chrono::seconds(2));
        Pinned map = client.pin();
        CHECK(throws<WrongAnswer>([&] { map.path({{0, 0}}); }) && closed(client));
    }
    Fake formless({"ERR 12 BadArguments\n"}, false);  // then its bytes are read as lines
    Client stamping(formless.port, std::chrono::seconds(2));
    CHECK(refused(BadArguments, "BadArguments", {}, [&] { stamping.stamp({0, 0}, "P1\n1 1\n1"); }));
    CHECK(closed(stamping));
    Fake endless({std::string(200, 'A')}, false);
    Client client(endless.port);
    CHECK(throws<WrongAnswer>([&] { client.pin(); }));
}

static void frames() {
    Frame frame{4, 3, 0.05, -1, -2};
    CHECK(*frame.cell(-0.975, -1.975) == (Cell{0, 2}));
    CHECK(*frame.cell(-0.81, -1.86) == (Cell{3, 0}));
    CHECK(!frame.cell(-1.01, -1.9) && !frame.cell(-0.79, -1.9) && !frame.cell(-0.9, -1.84) && !frame.cell(NAN, 0));
    CHECK(frame.metres(3) > 0.1499 && frame.metres(3) < 0.1501);
    for (int x = 0; x < 384; ++x)  // the left edge of each column belongs to it, as in decimals
        CHECK(Frame({384, 1, 0.05, -9.6, 0}).cell((-960 + 5 * x) / 100.0, 0)->x == x);
    CHECK(*Frame({384, 256, 0.05, -9.6, -6.4}).staircase({{0.5, 0.5}, {1.5, 0.8}}) == (Path{{202, 117}, {205, 117}, {205, 116}, {208, 116}, {208, 115}, {212, 115}, {212, 114}, {215, 114}, {215, 113}, {218, 113}, {218, 112}, {222, 112}, {222, 111}}));
    for (auto [radius, wanted] : {std::pair<double, std::uint32_t>{0, 2}, {0.22, 34}, {0.05, 6}, {1, 459}}) CHECK(frame.clear_distance(radius) == wanted);
    for (double radius : {-0.1, 501.0, std::nan("")}) CHECK(throws<std::invalid_argument>([&] { frame.clear_distance(radius); }));
    for (double wrong : {0.0, -0.05, std::nan("")})
        CHECK(throws<std::invalid_argument>([&] { Frame(4, 3, wrong); }));
    Frame wide{10, 10, 1, 0, 0};
    CHECK(*wide.staircase({{0.5, 0.5}, {0.6, 0.7}}) == (Path{{0, 9}}));
    CHECK(*wide.staircase({{0.5, 0.5}, {5.5, 0.5}, {5.5, 4.5}}) == (Path{{0, 9}, {5, 9}, {5, 5}}));
    CHECK(*wide.staircase({{0.5, 0.5}, {2.5, 2.5}}) == (Path{{0, 9}, {1, 9}, {1, 8}, {2, 8}, {2, 7}}));
    CHECK(*wide.staircase({{2.5, 2.5}, {0.5, 1.5}}) == (Path{{2, 7}, {1, 7}, {1, 8}, {0, 8}}));
    CHECK(*wide.staircase({{3.5, 0.5}, {1.5, 0.5}, {4.5, 0.5}}) == (Path{{3, 9}, {1, 9}, {4, 9}}));
    CHECK(!wide.staircase({}) && !wide.staircase({{0.5, 0.5}, {10, 0.5}}));
}

int main(int count, char** words) {
    if (count != 4) return 2;
    queries(static_cast<std::uint16_t>(std::atoi(words[1])));
    walls(static_cast<std::uint16_t>(std::atoi(words[3])));
    commands(static_cast<std::uint16_t>(std::atoi(words[1])));
    refusals(static_cast<std::uint16_t>(std::atoi(words[2])));
    checkpoints(static_cast<std::uint16_t>(std::atoi(words[2])));
    failures();
    frames();
    std::printf("tests of clearmap.hpp: %d, all good\n", tried.load());
    return 0;
}

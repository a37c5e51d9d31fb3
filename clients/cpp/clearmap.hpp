// A client of `clearmap serve` for planners. One header: C++17 and POSIX sockets. The server is
// proved; this file is not. It is tested against the built server and against servers that answer
// wrongly, late or not at all (test_clearmap.cpp, test_in_step.cpp).
//
//     clearmap::Client client(7400, {clearmap::Size{40, 20}});  // another map is refused
//     clearmap::Pinned map = client.pin();                       // left at its end
//     double cells;
//     if (map.is_valid(3, 4, cells)) ..                          // as OMPL's isValid(state, dist)
//     double tightest = map.clearance({{0, 0}, {30, 0}, {30, 9}});
//
//     client.paint(10, 10, 20, 12);  // a painter: columns 10 to 19 of rows 10 and 11
//     client.publish(clearmap::OldVersions::collected);
//
// Columns x and rows y count from 0 at the upper left. A distance is in cells: euclid2 is the
// square of the Euclidean one, city and chess count steps. The server listens only on the loopback
// interface.
//
// Threads. Any threads may use one client and its pins: calls take turns on the connection, each
// from its request to its last reply, so each gets its own answers. Planners that mustn't wait for
// each other need a client each. Only one thread may move, assign to or destroy an object, and only
// while no other uses it. Make no call from a signal handler, and leave none by longjmp. After
// fork() the connection stays the parent's: in the child each call throws ConnectionLost.
//
// Errors. Each call that asks the server may throw ConnectionLost, TimedOut, WrongAnswer, Refused
// and std::bad_alloc, and WrongMap when it reconnects. Whatever ends a call early, the connection
// is in step after it or closed: no later call gets a reply that belongs to this one.
#ifndef CLEARMAP_HPP
#define CLEARMAP_HPP

#if __cplusplus < 201703L
#error "clearmap's headers for C++ need C++17 or a later one: compile with -std=c++17"
#endif

#include <arpa/inet.h>
#include <netinet/in.h>
#include <netinet/tcp.h>
#include <poll.h>
#include <sys/socket.h>
#include <unistd.h>

#include <algorithm>
#include <atomic>
#include <cerrno>
#include <chrono>
#include <cmath>
#include <cstdint>
#include <cstring>
#include <iterator>
#include <limits>
#include <map>
#include <memory>
#include <mutex>
#include <optional>
#include <stdexcept>
#include <string>
#include <system_error>
#include <type_traits>
#include <utility>
#include <vector>

namespace clearmap {

// ---- what is asked and answered

namespace detail {

/// A column, a row or a number of them that a caller gives, an integer of any type. Throws
/// std::out_of_range for one that no int holds: it would become another cell. A float, which would
/// lose its fraction, doesn't compile.
class Whole {
public:
    template <class Number, class Integer = decltype(+std::declval<Number>()),
              std::enable_if_t<std::is_integral<Integer>::value, int> = 0>
    constexpr Whole(Number number) noexcept(std::is_same<Integer, int>::value)
        : number_(static_cast<int>(+number)) {
        if constexpr (!std::is_same<Integer, int>::value)
            if (!is(+number)) refuse(std::to_string(+number));
    }
    template <class Real, std::enable_if_t<std::is_floating_point<Real>::value, int> = 0>
    Whole(Real number) = delete;

    constexpr operator int() const noexcept { return number_; }

private:
    /// Whether it is the number that was given, of its sign too.
    template <class Integer>
    constexpr bool is(Integer given) const noexcept {
        const bool is_negative = std::is_signed<Integer>::value && given < Integer{};
        return static_cast<Integer>(number_) == given && (number_ < 0) == is_negative;
    }
    [[noreturn]] static void refuse(const std::string& number) {
        throw std::out_of_range(number + " is in no map, which has 4096 columns and rows at most");
    }

    int number_;
};

}  // namespace detail

/// The metric of a distance.
enum class Metric { euclid2, city, chess };

/// A column and a row, from 0 at the upper left. On the frame of a map with a wall, an obstacle
/// lies at -1, or one cell after the last. As each call that takes columns and rows, it takes
/// integers of any type, and throws std::out_of_range for one that no int holds.
struct Cell {
    int x, y;
    Cell() = default;
    constexpr Cell(detail::Whole x, detail::Whole y) noexcept : x(x), y(y) {}
    friend bool operator==(Cell a, Cell b) { return a.x == b.x && a.y == b.y; }
};

/// The columns and rows of a map, each from 1 to 4096.
struct Size {
    int width, height;
    Size() = default;
    constexpr Size(detail::Whole width, detail::Whole height) noexcept
        : width(width), height(height) {}
    friend bool operator==(Size a, Size b) { return a.width == b.width && a.height == b.height; }
};

/// 1 to 1000 points, each in the row or the column of the one before.
using Path = std::vector<Cell>;

/// A distance, and the obstacle it is to.
struct Near {
    std::uint32_t distance;
    Cell obstacle;
};

/// The cell that was found, its distance, and the obstacle it is to.
struct Tightest {
    std::uint32_t distance;
    Cell cell, obstacle;
};

/// An accepted paint, clear or stamp: its place in the log, and how many cells changed.
struct Change {
    std::uint32_t place, changed;
};

/// An accepted publish: its place in the log, and the number of its version, which it converts to.
/// The place is that of the last change and 1 more if nobody gave a command in between. `floor` is
/// the least version that is kept, where a collect followed.
struct Published {
    std::uint32_t place, version;
    std::optional<std::uint32_t> floor = std::nullopt;
    constexpr operator std::uint32_t() const noexcept { return version; }
};

/// An accepted collect: its place, the oldest version that is kept, and how many blocks were freed.
struct Collected {
    std::uint32_t place, floor, freed;
};

/// What a client does if a command of its own is answered LogFull: it throws that, or it sends a
/// checkpoint and then the command once more. **A checkpoint drops the entries of the log, those of
/// other painters too**; it changes no bitmap and no version. If others have filled the log again
/// by then, LogFull is thrown.
enum class FullLog { thrown, checkpointed };

/// What becomes of older versions when one is published: they stay until a collect, or one follows
/// at once. It keeps those that a pin holds.
enum class OldVersions { kept, collected };

/// How a client connects, and what it does later.
struct Options {
    /// The size that the map must have: otherwise WrongMap is thrown, before anything else is
    /// asked. Not checked if it isn't given.
    std::optional<Size> expected = std::nullopt;
    /// For the connection and for each wait for bytes, whatever signals come; 0 waits forever.
    std::chrono::milliseconds timeout = std::chrono::seconds(10);
    FullLog full_log = FullLog::thrown;
    /// A call of the client that finds the connection closed reconnects first, to a map of the same
    /// size. A call whose reply was lost isn't repeated. A pin of the earlier connection stays
    /// lost. The server may be another one, with versions and places that start again, and without
    /// the draft: where changes were accepted over an earlier connection that aren't published, the
    /// first `publish` over a new one throws ConnectionLost, and publishes nothing, whatever other
    /// calls and threads were told before. Then make all the changes again, and publish. A `revert`
    /// drops what was changed, so nothing is told after it.
    bool reconnect = false;
    /// For a whole call, from its turn to its last byte, with the connection that it makes; 0 sets
    /// no end.
    std::chrono::milliseconds call_timeout = std::chrono::milliseconds(0);
};

// ---- what goes wrong

/// The base of all errors.
struct Error : std::runtime_error {
    using std::runtime_error::runtime_error;
};

/// There is no server, or it went away. A command whose reply was lost may have been accepted.
struct ConnectionLost : Error {
    using Error::Error;
};

/// The server didn't answer in time; the connection is closed.
struct TimedOut : ConnectionLost {
    using ConnectionLost::ConnectionLost;
};

/// What came isn't a reply to what was asked; the connection is closed.
struct WrongAnswer : Error {
    using Error::Error;
};

/// The served map has another size than was expected; the connection is closed.
struct WrongMap : Error {
    Size served, expected;
    WrongMap(Size served, Size expected)
        : Error("the served map has " + text(served) + " cells, where " + text(expected) +
                " are expected"),
          served(served),
          expected(expected) {}

private:
    static std::string text(Size size) {
        return std::to_string(size.width) + " by " + std::to_string(size.height);
    }
};

/// The numbers of refusals, as the protocol has them.
enum Refusal {
    OutOfRange = 1, BlocksFull, VersionsFull, LogFull, Memory, NotPinned, AlreadyPinned, BadPath,
    Crooked, UnknownCommand = 11, BadArguments, LineTooLong, TooMuchData, BadImage, PlacesUsed = 17
};

/// A line that the server refused. Nothing has changed, and the connection goes on; after
/// LineTooLong and TooMuchData it ends.
struct Refused : Error {
    int number;                          ///< One of Refusal.
    std::string name;                    ///< Its name, as "Crooked".
    std::vector<std::uint32_t> numbers;  ///< BlocksFull: needed, free; Crooked: the point's index.
    std::string fault;                   ///< BadImage: the fault's name.
    Refused(int number, std::string name, std::vector<std::uint32_t> numbers, std::string fault,
            const std::string& reply)
        : Error(reply),
          number(number),
          name(std::move(name)),
          numbers(std::move(numbers)),
          fault(std::move(fault)) {}
};

namespace detail {

// ---- lines and replies as texts

constexpr std::size_t longest_line = 16384, longest_reply = 128, largest_image = 17100000;
constexpr int largest_side = 4096;

inline const char* name(Metric metric) {
    switch (metric) {
        case Metric::euclid2: return "euclid2";
        case Metric::city: return "city";
        case Metric::chess: return "chess";
    }
    throw std::invalid_argument("no such metric");
}

inline std::vector<std::string> words(const std::string& text) {
    std::vector<std::string> found(1);
    for (char c : text)
        if (c == ' ')
            found.emplace_back();
        else
            found.back() += c;
    return found;
}

/// A number of 1 to 10 digits that fits in 32 bits.
inline std::optional<std::uint32_t> number(const std::string& word) {
    auto digit = [](char c) { return '0' <= c && c <= '9'; };
    if (word.empty() || word.size() > 10 || !std::all_of(word.begin(), word.end(), digit))
        return std::nullopt;
    unsigned long long value = std::stoull(word);
    if (value > 4294967295u) return std::nullopt;
    return static_cast<std::uint32_t>(value);
}

/// A column or a row of an obstacle, which may have a sign.
inline std::optional<int> coordinate(const std::string& word) {
    bool negative = !word.empty() && word[0] == '-';
    auto value = number(word.substr(negative));
    if (!value || *value > static_cast<std::uint32_t>(std::numeric_limits<int>::max()))
        return std::nullopt;
    int size = static_cast<int>(*value);
    return negative ? -size : size;
}

/// The words for one of many cells in a refusal.
inline std::string named(std::size_t index, Cell c) {
    return "cell " + std::to_string(index) + " is (" + std::to_string(c.x) + ", " +
           std::to_string(c.y) + "): ";
}

inline std::string points(const Path& path) {
    std::string text;
    for (Cell cell : path) text += ' ' + std::to_string(cell.x) + ' ' + std::to_string(cell.y);
    return text;
}

/// A line that may be sent: the server ends the connection at a longer one.
inline std::string checked(std::string line) {
    if (line.size() > longest_line) throw std::invalid_argument("a line of over 16384 bytes");
    return line;
}

/// The name of a refusal, and how many numbers follow it.
inline std::optional<std::pair<std::string, std::size_t>> refusal(std::uint32_t number) {
    static const std::map<std::uint32_t, std::pair<std::string, std::size_t>> known = {
        {OutOfRange, {"OutOfRange", 0}},       {BlocksFull, {"BlocksFull", 2}},
        {VersionsFull, {"VersionsFull", 0}},   {LogFull, {"LogFull", 0}},
        {Memory, {"Memory", 0}},               {NotPinned, {"NotPinned", 0}},
        {AlreadyPinned, {"AlreadyPinned", 0}}, {BadPath, {"BadPath", 0}},
        {Crooked, {"Crooked", 1}},             {UnknownCommand, {"UnknownCommand", 0}},
        {BadArguments, {"BadArguments", 0}},   {LineTooLong, {"LineTooLong", 0}},
        {TooMuchData, {"TooMuchData", 0}},     {BadImage, {"BadImage", 0}},
        {PlacesUsed, {"PlacesUsed", 0}},
    };
    auto at = known.find(number);
    if (at == known.end()) return std::nullopt;
    return at->second;
}

/// What would have been taken, after the words of a refusal that don't say it. The size is the
/// map's, if it is known.
inline std::string cure(std::uint32_t refusal, const std::vector<std::string>& words,
                        const std::optional<Size>& size) {
    const std::string& last = words.back();
    switch (refusal) {
        case OutOfRange:
            if (!size) return ": Client::size has the map's columns and rows";
            return ": the map has columns 0 to " + std::to_string(size->width - 1) +
                   " and rows 0 to " + std::to_string(size->height - 1);
        case VersionsFull:
            return ": collect frees the versions that no pin holds, and"
                   " publish(OldVersions::collected) does so each time";
        case AlreadyPinned: return ": unpin the other pin";
        case BadPath: return ": a path has 1 to 1000 points";
        case Crooked:
            return ": the point " + last + " is in neither the row nor the column of the one before";
        case BadImage:
            if (last == "TooLarge") return ": an image has at most 4096 columns and 4096 rows";
            if (last == "Truncated") return ": its bytes end before its last pixel";
            if (last == "BadPixel") return ": each pixel of a plain image is 0 or 1";
            return "";
        default: return "";
    }
}

/// A reply line: its words, or its refusal.
struct Reply {
    std::vector<std::string> words;
    std::optional<Refused> refused;
};

// ---- the connection

/// One connection, its lines and their replies. Everything but `turn` and `owned` belongs to the
/// thread that has the turn.
class Wire {
public:
    Wire(std::uint16_t port, const Options& options)
        : port_(port), options_(options), owner_(::getpid()) {
        for (std::chrono::milliseconds* limit : {&options_.timeout, &options_.call_timeout}) {
            if (limit->count() < 0) throw std::invalid_argument("a time-out is 0 or more");
            *limit = std::min<std::chrono::milliseconds>(*limit, std::chrono::hours(480));
        }
        if (options.expected &&
            !(in_range(options.expected->width) && in_range(options.expected->height)))
            throw std::invalid_argument("a map has 1 to 4096 columns and rows");
        begin();
        open();
    }
    Wire(const Wire&) = delete;
    Wire& operator=(const Wire&) = delete;
    ~Wire() { close(); }

    std::mutex turn;

    /// Whether this is the process that connected, and not a child of it.
    bool owned() const noexcept { return owner_ == ::getpid(); }

    bool full_log_is_checkpointed() const { return options_.full_log == FullLog::checkpointed; }

    /// Ends the connection for good.
    void close() noexcept {
        if (socket_ >= 0 && owned() && !busy_)
            ::send(socket_, "QUIT\n", 5, MSG_NOSIGNAL | MSG_DONTWAIT);
        finished_ = true;
        drop();
    }

    /// Ends the connection for good, from any thread: whoever has the turn throws.
    void abort() noexcept {
        std::lock_guard<std::mutex> guard(socket_guard_);
        finished_ = true;
        if (socket_ >= 0) ::shutdown(socket_, SHUT_RDWR);
    }

    /// Closes the connection at once. A child closes only its own copy.
    void drop() noexcept {
        if (socket_ >= 0 && owned()) ::shutdown(socket_, SHUT_RDWR);
        const int old = set_socket(-1);
        if (old >= 0) ::close(old);
        owed_ = 0;
        pinned_ = 0;
        busy_ = answered_ = false;
        buffer_.clear();
        if (draft_ == Draft::changed) draft_ = Draft::lost;
    }

    // -- the start and the end of a call

    /// Starts the time of a call.
    void begin() {
        const auto limit = options_.call_timeout;
        until_ = limit.count() == 0 ? Clock::time_point::max() : Clock::now() + limit;
    }

    /// Makes sure that the connection is there and that no byte of an earlier call is on it.
    void ready() {
        begin();
        if (is_open()) return;
        if (finished_ || !options_.reconnect) throw ConnectionLost("the connection is closed");
        open();
    }

    /// Throws, once, if changes that are to be published may be lost with an earlier connection.
    void check_draft() {
        if (draft_ != Draft::lost) return;
        ConnectionLost told(
            "the connection was lost after changes that aren't published, and another server "
            "doesn't have them: paint again, and publish");
        draft_ = Draft::changed;  // as it may be, over this connection
        throw told;
    }

    /// Marks that a change of the draft was accepted.
    void changed() {
        if (draft_ == Draft::published) draft_ = Draft::changed;
    }

    /// Marks that the draft was published, or reverted.
    void published() { draft_ = Draft::published; }

    /// As `ready`, for calls of a pin, which no new connection has.
    void ready_for(std::uint64_t pin) {
        begin();
        if (!is_open() || pin < first_pin_)
            throw ConnectionLost("the connection is closed, and the pin with it");
        if (pin != pinned_) throw ConnectionLost("the pin was left");
    }

    /// Marks that the last byte of the last reply was taken.
    void done() {
        if (owed_ != 0 || !buffer_.empty()) wrong(buffer_.substr(0, longest_reply));
        busy_ = false;
    }

    /// Whether a call has started that isn't done.
    bool busy() const { return busy_; }

    // -- sending and receiving

    /// Sends lines that are answered by this many replies.
    void send(const std::string& lines, std::size_t replies) {
        busy_ = true;
        owed_ += replies;
        send_bytes(lines.data(), lines.size());
    }

    /// Sends bytes that belong to the line before them.
    void send_bytes(const char* data, std::size_t size) {
        while (size > 0) {
            auto deadline = next_deadline();
            ssize_t n;
            while ((n = ::send(socket_, data, size, MSG_NOSIGNAL | MSG_DONTWAIT)) < 0)
                await(POLLOUT, deadline);
            data += n;
            size -= static_cast<std::size_t>(n);
        }
    }

    /// The next reply.
    Reply reply() {
        std::size_t end;
        while ((end = buffer_.find('\n')) == std::string::npos && buffer_.size() < longest_reply)
            more();
        if (end >= longest_reply) wrong(buffer_.substr(0, longest_reply));
        std::string line = buffer_.substr(0, end);
        buffer_.erase(0, end + 1);
        if (owed_ == 0) wrong(line);
        --owed_;
        answered_ = true;
        Reply said{words(line), std::nullopt};
        if (said.words[0] == "ERR") said.refused = refused(said.words, line);
        return said;
    }

    /// The numbers of the next reply, the last one owed: OK and this many numbers. A refusal is
    /// thrown, and ends the call. If a line that counts bytes is refused for its form, the server
    /// reads these bytes as lines: the connection is closed.
    std::vector<std::uint32_t> numbers(std::size_t count, bool counts_bytes = false) {
        Reply said = reply();
        if (!said.refused) return numbers(said.words, count);
        done();
        int number = said.refused->number;
        if (counts_bytes && (number == BadArguments || number == UnknownCommand)) drop();
        throw *said.refused;
    }

    /// The numbers of a reply, which is OK and this many numbers.
    std::vector<std::uint32_t> numbers(const std::vector<std::string>& said, std::size_t count) {
        std::vector<std::uint32_t> found;
        for (std::size_t i = 1; i < said.size(); ++i)
            if (auto n = number(said[i])) found.push_back(*n);
        if (said[0] != "OK" || said.size() != count + 1 || found.size() != count) wrong(said[0]);
        return found;
    }

    /// The obstacle that the last two words of a reply name; removes them from it.
    Cell obstacle(std::vector<std::string>& said) {
        if (said.size() < 3) wrong(said[0]);
        auto x = coordinate(said[said.size() - 2]), y = coordinate(said.back());
        if (!x || !y) wrong(said[0]);
        said.resize(said.size() - 2);
        return {*x, *y};
    }

    /// A cell of the map that a reply names.
    Cell cell(std::uint32_t x, std::uint32_t y) {
        if (x >= std::uint32_t{largest_side} || y >= std::uint32_t{largest_side})
            wrong("a cell that no map has");
        return {static_cast<int>(x), static_cast<int>(y)};
    }

    /// The bytes that a reply has counted.
    std::string bytes(std::size_t count) {
        if (count > largest_image) wrong("a map of " + std::to_string(count) + " bytes");
        while (buffer_.size() < count) more();
        std::string data = buffer_.substr(0, count);
        buffer_.erase(0, count);
        return data;
    }

    [[noreturn]] void wrong(const std::string& what) {
        drop();
        throw WrongAnswer("no reply to what was asked: " + what);
    }

    // -- pins and the map's size

    /// Pins the newest version under this number, 0 for a new one: the pin's number, and the
    /// version.
    std::pair<std::uint64_t, std::uint32_t> pin(std::uint64_t pin) {
        send("PIN\n", 1);
        std::uint32_t version = numbers(1)[0];
        pinned_ = pin == 0 ? ++pins_ : pin;
        done();
        return {pinned_, version};
    }

    /// Unpins: whatever the answer, nothing is asked of the pin any more.
    void unpin() {
        pinned_ = 0;
        send("UNPIN\n", 1);
        numbers(1);
        done();
    }

    /// The map's size, found once.
    Size size() {
        if (!options_.expected) options_.expected = measured();
        return *options_.expected;
    }

private:
    using Clock = std::chrono::steady_clock;

    static bool in_range(int side) { return 1 <= side && side <= largest_side; }

    /// Connects, and checks the map.
    void open() {
        connect();
        try {
            check_map();
        } catch (...) {
            drop();
            throw;
        }
    }

    /// Sets the socket, which `abort` of another thread may read, and returns the one before.
    int set_socket(int socket) noexcept {
        std::unique_lock<std::mutex> guard(socket_guard_, std::defer_lock);
        if (owned()) guard.lock();  // in a child a thread of its parent may have it for ever
        return std::exchange(socket_, socket);
    }

    void connect() {
        set_socket(::socket(AF_INET, SOCK_STREAM | SOCK_CLOEXEC | SOCK_NONBLOCK, 0));
        if (socket_ < 0)
            throw ConnectionLost("no socket can be had: " + std::generic_category().message(errno));
        first_pin_ = pins_ + 1;
        int one = 1;
        ::setsockopt(socket_, IPPROTO_TCP, TCP_NODELAY, &one, sizeof one);
        sockaddr_in address{};
        address.sin_family = AF_INET;
        address.sin_port = htons(port_);
        address.sin_addr.s_addr = htonl(INADDR_LOOPBACK);
        int fault = 0;
        if (::connect(socket_, reinterpret_cast<sockaddr*>(&address), sizeof address) != 0)
            fault = errno;
        if (fault == EINPROGRESS || fault == EINTR) {
            socklen_t size = sizeof fault;
            const auto deadline = next_deadline();
            if (!wait(POLLOUT, deadline)) late("no connection at port " + std::to_string(port_));
            if (::getsockopt(socket_, SOL_SOCKET, SO_ERROR, &fault, &size) != 0) fault = errno;
        }
        if (finished_) lost();
        if (fault == 0) return;
        drop();
        throw ConnectionLost("no server at port " + std::to_string(port_) + ": " +
                             std::generic_category().message(fault));
    }

    /// Compares the map's size with the expected one. A new connection expects the size of the
    /// first one.
    void check_map() {
        if (!options_.expected) {
            if (options_.reconnect) size();
            return;
        }
        Size wanted = *options_.expected;
        auto on =
            on_map({{wanted.width - 1, wanted.height - 1}, {wanted.width, 0}, {0, wanted.height}});
        if (on != std::vector<bool>{true, false, false}) throw WrongMap(measured(), wanted);
    }

    /// The map's size, by two writes of 64 cells an axis: in steps of 64, and then one by one.
    Size measured() {
        Size found{0, 0};
        for (int step : {64, 1}) {
            std::vector<Cell> cells;
            for (int k = 1; k <= 64; ++k) {
                cells.push_back({found.width + k * step - 1, 0});
                cells.push_back({0, found.height + k * step - 1});
            }
            std::vector<bool> on = on_map(cells);
            for (std::size_t i = 0; i < on.size(); ++i)
                if (on[i]) (i % 2 == 0 ? found.width : found.height) += step;
        }
        if (!in_range(found.width) || !in_range(found.height)) wrong("a map of no size");
        return found;
    }

    /// Which of these cells lie on the map, by one write. Without a pin it takes its own.
    std::vector<bool> on_map(const std::vector<Cell>& cells) {
        bool pins = pinned_ == 0;
        std::string lines = pins ? "PIN\n" : "";
        for (Cell cell : cells) lines += "AT chess" + points({cell}) + '\n';
        if (pins) lines += "UNPIN\n";
        std::vector<Reply> said;
        send(lines, cells.size() + (pins ? 2 : 0));
        while (owed_ > 0) said.push_back(reply());
        done();
        if (pins) {
            for (const Reply& pin : {said.front(), said.back()}) {
                if (pin.refused) throw *pin.refused;
                numbers(pin.words, 1);
            }
            said.erase(said.begin());
            said.pop_back();
        }
        std::vector<bool> on;
        for (Reply& near : said) on.push_back(is_answered(near));
        return on;
    }

    /// Whether a cell was answered, and not refused as outside the map.
    bool is_answered(Reply& near) {
        if (near.refused && near.refused->number != OutOfRange) throw *near.refused;
        if (near.refused) return false;
        if (near.words == std::vector<std::string>{"NONE"}) return true;
        obstacle(near.words);
        numbers(near.words, 1);
        return true;
    }

    /// Whether the connection is open. One that is out of step is closed: leftover or unasked bytes
    /// would be read as the next answer.
    bool is_open() {
        if (socket_ < 0) return false;
        if (busy_ || owed_ != 0 || !buffer_.empty()) {
            drop();
            throw ConnectionLost(
                "an earlier call was left before its reply was read: the connection is closed");
        }
        char unasked[longest_reply];
        ssize_t n = ::recv(socket_, unasked, sizeof unasked, MSG_PEEK | MSG_DONTWAIT);
        if (n < 0 && (errno == EAGAIN || errno == EWOULDBLOCK || errno == EINTR)) return true;
        drop();
        if (n <= 0) return false;
        std::string said(unasked, static_cast<std::size_t>(n));
        throw ConnectionLost("the server ended the connection with what nobody asked: " +
                             said.substr(0, said.find('\n')));
    }

    /// When the next wait has to end. The call's own time mustn't be over.
    Clock::time_point next_deadline() {
        const auto now = Clock::now(), longest = Clock::time_point::max();
        if (now >= until_) late(reason());
        return std::min(until_,
                        options_.timeout.count() == 0 ? longest : now + options_.timeout);
    }

    /// Waits until the socket is ready or the time is up. Signals don't prolong it.
    bool wait(short events, Clock::time_point deadline) {
        for (;;) {
            auto left =
                std::chrono::ceil<std::chrono::milliseconds>(deadline - Clock::now()).count();
            pollfd one{socket_, events, 0};
            const bool is_endless = deadline == Clock::time_point::max();
            int ready = ::poll(
                &one, 1, is_endless ? -1 : static_cast<int>(std::max<decltype(left)>(left, 0)));
            if (ready >= 0) return ready > 0;
            if (errno != EINTR) lost();
        }
    }

    /// Waits after a failed call that can be retried.
    void await(short events, Clock::time_point deadline) {
        if (errno != EAGAIN && errno != EWOULDBLOCK && errno != EINTR) lost();
        if (!wait(events, deadline)) late(reason());
    }

    /// Receives what has come, once something has.
    void more() {
        char data[65536];
        auto deadline = next_deadline();
        ssize_t n;
        while ((n = ::recv(socket_, data, sizeof data, MSG_DONTWAIT)) < 0) await(POLLIN, deadline);
        if (n == 0) lost();
        buffer_.append(data, static_cast<std::size_t>(n));
    }

    [[noreturn]] void lost() {
        drop();
        throw ConnectionLost(finished_ ? "the connection was aborted" : "the connection is closed");
    }

    /// What didn't come in time.
    const char* reason() const {
        return answered_ ? "no reply" : "connected, but no worker has answered";
    }

    [[noreturn]] void late(const std::string& what) {
        const bool is_of_call = Clock::now() >= until_;
        auto time = (is_of_call ? options_.call_timeout : options_.timeout).count();
        std::string within = is_of_call ? " within the call's " : " within ";
        within += time % 1000 == 0 ? std::to_string(time / 1000) + " s"
                                   : std::to_string(time) + " ms";
        bool answered = answered_;
        drop();
        throw TimedOut(what + within +
                       (answered ? "" : ": are all workers of the server taken?"));
    }

    Refused refused(const std::vector<std::string>& said, const std::string& line) {
        std::uint32_t code = said.size() < 3 ? 0 : number(said[1]).value_or(0);
        auto known = refusal(code);
        bool image = code == BadImage;
        std::vector<std::uint32_t> found;
        for (std::size_t i = 3; i < said.size(); ++i)
            if (auto n = number(said[i])) found.push_back(*n);
        bool as_known = known && said[2] == known->first && found.size() == known->second;
        if (!as_known || said.size() != 3 + known->second + image) wrong(line);
        Refused refused(static_cast<int>(code), said[2], found, image ? said[3] : "",
                        line + cure(code, said, options_.expected));
        if (code == LineTooLong || code == TooMuchData) drop();
        return refused;
    }

    std::uint16_t port_;
    Options options_;  // `expected` is the size that was found, once it was
    pid_t owner_;
    std::mutex socket_guard_;  // of its writes, and of the reads of `abort`
    int socket_ = -1;
    Clock::time_point until_{};    // the end of the call's time
    std::string buffer_;           // received and not yet taken
    std::size_t owed_ = 0;         // replies still to come
    bool busy_ = false;            // a call has begun
    bool answered_ = false;        // on this connection
    std::atomic<bool> finished_{false};  // by `close` or `abort`
    /// What became of the changes that were accepted: `lost` with a connection, or published, where
    /// there are none too.
    enum class Draft { published, changed, lost };
    Draft draft_ = Draft::published;
    std::uint64_t pins_ = 0;       // made so far, on all connections
    std::uint64_t first_pin_ = 1;  // the first that this connection can have made
    std::uint64_t pinned_ = 0;     // the pin that is held, or 0
};

/// A turn on a connection for one call: its request and its replies, or several. If it ends before
/// the call is done, by any exception, the connection is closed.
class Turn {
public:
    explicit Turn(const std::shared_ptr<Wire>& wire) : wire_(own(wire)), turn_(wire_.turn) {
        wire_.ready();
    }
    Turn(const std::shared_ptr<Wire>& wire, std::uint64_t pin)
        : wire_(own(wire)), turn_(wire_.turn) {
        wire_.ready_for(pin);
    }
    Turn(const Turn&) = delete;
    Turn& operator=(const Turn&) = delete;
    ~Turn() {
        if (wire_.busy()) wire_.drop();
    }

    Wire* operator->() const { return &wire_; }
    Wire& operator*() const { return wire_; }

private:
    /// The connection, if this process may use it. A child mustn't wait for a turn that a thread of
    /// its parent has.
    static Wire& own(const std::shared_ptr<Wire>& wire) {
        if (!wire) throw ConnectionLost("it was moved, and has no connection");
        if (!wire->owned())
            throw ConnectionLost(
                "the connection belongs to the parent process: make a client after fork()");
        return *wire;
    }

    Wire& wire_;
    std::unique_lock<std::mutex> turn_;
};

/// For calls that no float may reach: it would silently lose its fraction.
template <class... Numbers>
using IfReal = std::enable_if_t<(std::is_floating_point<Numbers>::value || ...)>;

/// For distances that are integers, and those that aren't of 32 bits, which might silently lose
/// some.
template <class Number>
using IfInteger = std::enable_if_t<std::is_integral<Number>::value>;
template <class Number>
using IfOtherInteger = std::enable_if_t<std::is_integral<Number>::value &&
                                        !std::is_same<Number, std::uint32_t>::value>;

/// A port in 16 bits. Throws std::invalid_argument for one that has none there.
inline std::uint16_t port_of(int port) {
    if (port < 0 || port > 65535)
        throw std::invalid_argument("a port is 0 to 65535, and not " + std::to_string(port));
    return static_cast<std::uint16_t>(port);
}

/// A distance in 32 bits. Throws std::invalid_argument for one that has none there.
template <class Integer>
std::uint32_t in_32_bits(Integer distance) {
    const bool is_negative = std::is_signed<Integer>::value && distance < Integer{};
    if (is_negative || static_cast<std::uintmax_t>(distance) > UINT32_MAX)
        throw std::invalid_argument("a distance is 0 to 4294967295, and not " +
                                    std::to_string(distance));
    return static_cast<std::uint32_t>(distance);
}

}  // namespace detail

// ---- queries

/// Queries for Pinned::ask, which sends them together.
class Queries {
public:
    Queries& at(Cell c, Metric m = Metric::euclid2) {
        return add(Kind::at, c, "AT", m, detail::points({c}));
    }
    Queries& at(detail::Whole x, detail::Whole y, Metric m = Metric::euclid2) {
        return at(Cell{x, y}, m);
    }
    Queries& rect(detail::Whole x0, detail::Whole y0, detail::Whole x1, detail::Whole y1,
                  Metric m = Metric::euclid2) {
        return add(Kind::tightest, {}, "RECT", m, detail::points({{x0, y0}, {x1, y1}}));
    }
    Queries& path(const Path& p, Metric m = Metric::euclid2) {
        return add(Kind::tightest, {}, "PATH", m, detail::points(p));
    }
    Queries& clear_of(std::uint32_t distance, const Path& p, Metric m = Metric::euclid2) {
        return add(Kind::clear, {}, "CLEAROF", m,
                   ' ' + std::to_string(distance) + detail::points(p));
    }
    template <class Integer, class = detail::IfOtherInteger<Integer>>
    Queries& clear_of(Integer distance, const Path& p, Metric m = Metric::euclid2) {
        return clear_of(detail::in_32_bits(distance), p, m);
    }
    /// A distance is an integer: round a fraction up, or use Frame::clear_distance.
    template <class Real, class = detail::IfReal<Real>, class = void>
    Queries& clear_of(Real distance, const Path& p, Metric m = Metric::euclid2) = delete;

private:
    friend class Pinned;
    enum class Kind { at, tightest, clear };
    struct Query {
        Kind kind;
        Cell asked;
        std::string line;
    };
    Queries& add(Kind kind, Cell asked, const char* command, Metric m,
                 const std::string& arguments) {
        queries_.push_back(
            {kind, asked,
             detail::checked(std::string(command) + ' ' + detail::name(m) + arguments)});
        return *this;
    }
    std::vector<Query> queries_;
};

/// The answer to one of many queries: what was found, or neither, or a refusal.
struct Answer {
    std::optional<Tightest> found;
    std::optional<Refused> refused;
};

/// A pin of one version, which stays as it is whatever is published. Its end unpins it. It keeps
/// its connection, even after its client is gone. Any threads may ask it; if one of them renews it,
/// an answer is of the version before or of the one after. A call of a pin that was left, or whose
/// connection is closed, throws ConnectionLost and isn't sent.
class Pinned {
public:
    Pinned(Pinned&& other) noexcept
        : wire_(std::move(other.wire_)), pin_(other.pin_), version_(other.version()) {}
    /// Leaves its own pin, and takes the other's.
    Pinned& operator=(Pinned&& other) noexcept {
        Pinned taken(std::move(other));
        std::swap(wire_, taken.wire_);
        std::swap(pin_, taken.pin_);
        version_ = taken.version_.exchange(version_);
        return *this;
    }
    ~Pinned() {
        try {
            if (wire_) unpin();
        } catch (const std::exception&) {  // it was already left, or its connection is closed
        }
    }

    /// The number of the version.
    std::uint32_t version() const { return version_; }

    /// Unpins; nothing is asked of the pin any more.
    void unpin() { detail::Turn(wire_, pin_)->unpin(); }

    /// The nearest obstacle of a cell. None if the map has none. As each query, it is refused as
    /// OutOfRange outside the map, and as BadArguments below 0.
    std::optional<Near> at(Cell c, Metric m = Metric::euclid2) {
        const Answer answer = ask(Queries().at(c, m))[0];
        if (answer.refused) throw *answer.refused;
        return near(answer);
    }
    std::optional<Near> at(detail::Whole x, detail::Whole y, Metric m = Metric::euclid2) {
        return at(Cell{x, y}, m);
    }

    /// The first cell, in row-major order, with the least distance in columns x0 to x1 - 1 of rows
    /// y0 to y1 - 1.
    std::optional<Tightest> rect(detail::Whole x0, detail::Whole y0, detail::Whole x1,
                                 detail::Whole y1, Metric m = Metric::euclid2) {
        return one(Queries().rect(x0, y0, x1, y1, m));
    }

    /// The first cell along a path with the least distance. Refused as BadPath unless it has 1 to
    /// 1000 points, and as Crooked with the index of a point that is in neither the row nor the
    /// column of the one before; std::invalid_argument if its line has over 16384 bytes.
    std::optional<Tightest> path(const Path& p, Metric m = Metric::euclid2) {
        return one(Queries().path(p, m));
    }

    /// None if each cell of the path has at least this distance, otherwise the first that hasn't:
    /// `is_clear` says whether the path is clear. With euclid2 the distance is a square. With 0
    /// every path is clear, even one through obstacles.
    [[nodiscard]] std::optional<Tightest> clear_of(std::uint32_t distance, const Path& p,
                                                   Metric m = Metric::euclid2) {
        return one(Queries().clear_of(distance, p, m));
    }
    template <class Integer, class = detail::IfOtherInteger<Integer>>
    [[nodiscard]] std::optional<Tightest> clear_of(Integer distance, const Path& p,
                                                   Metric m = Metric::euclid2) {
        return clear_of(detail::in_32_bits(distance), p, m);
    }
    /// A distance is an integer: round a fraction up, or use Frame::clear_distance.
    template <class Real, class = detail::IfReal<Real>, class = void>
    std::optional<Tightest> clear_of(Real distance, const Path& p,
                                     Metric m = Metric::euclid2) = delete;

    /// Whether each cell of the path has at least this distance.
    template <class Integer, class = detail::IfInteger<Integer>>
    [[nodiscard]] bool is_clear(Integer distance, const Path& p, Metric m = Metric::euclid2) {
        return !clear_of(distance, p, m);
    }
    template <class Real, class = detail::IfReal<Real>, class = void>
    bool is_clear(Real distance, const Path& p, Metric m = Metric::euclid2) = delete;

    /// The Euclidean distance of a path's tightest cell to its nearest obstacle, in cells from
    /// centre to centre; infinite if the map has none. The path may have any number of points: one
    /// of over 1000 is asked in pieces, which share their ends.
    double clearance(const Path& p) {
        constexpr std::size_t longest = 1000;
        Queries queries;
        std::size_t start = 0;
        do {
            auto from = p.begin() + static_cast<std::ptrdiff_t>(start);
            queries.path(Path(
                from, from + static_cast<std::ptrdiff_t>(std::min(longest, p.size() - start))));
            start += longest - 1;
        } while (start + 1 < p.size());
        double least = std::numeric_limits<double>::infinity();
        for (const Answer& answer : ask(queries)) {
            if (answer.refused) throw *answer.refused;
            least = std::min(least, straight(answer));
        }
        return least;
    }

    /// Whether a cell is on the map and free, and its Euclidean distance to the nearest obstacle in
    /// cells: exact but for the root's rounding.
    /// A cell is two integers: Frame::cell gives that of a point in metres.
    [[nodiscard]] bool is_valid(detail::Whole x, detail::Whole y, double& clearance) {
        clearance = clearances({{x, y}})[0];
        return clearance > 0;
    }

    /// For each cell its Euclidean distance to the nearest obstacle, in cells: 0 for an obstacle
    /// and for a cell that isn't on the map, infinite if the map has none. Sends 64 cells per
    /// write.
    std::vector<double> clearances(const std::vector<Cell>& cells) {
        Queries queries;
        const Cell outside{detail::largest_side, detail::largest_side};
        for (Cell c : cells) queries.at(c.x < 0 || c.y < 0 ? outside : c);
        std::vector<double> found;
        for (const Answer& answer : ask(queries)) {
            if (answer.refused && answer.refused->number != OutOfRange) throw *answer.refused;
            found.push_back(answer.refused ? 0 : straight(answer));
        }
        return found;
    }

    /// `at` of each of many cells, in their order, all by one version; sends 64 cells per write.
    /// Throws the refusal of the first that is refused, with its index in the text.
    std::vector<std::optional<Near>> at_many(const std::vector<Cell>& cells,
                                             Metric m = Metric::euclid2) {
        Queries queries;
        for (Cell c : cells) queries.at(c, m);
        std::vector<std::optional<Near>> found;
        found.reserve(cells.size());
        for (const Answer& answer : ask(queries)) {
            if (answer.refused) throw of_cell(*answer.refused, found.size(), cells[found.size()]);
            found.push_back(near(answer));
        }
        return found;
    }

    /// Moves the pin to the newest version, and returns its number. Nothing else reports a publish.
    std::uint32_t renew() {
        detail::Turn turn(wire_, pin_);
        turn->unpin();
        return version_ = turn->pin(pin_).second;
    }

    /// The version as a plain PBM image.
    std::string dump() {
        detail::Turn turn(wire_, pin_);
        turn->send("DUMP\n", 1);
        std::string image = turn->bytes(turn->numbers(1)[0]);
        turn->done();
        return image;
    }

    /// The answers to many queries, all by one version; sends 64 at a time without waiting in
    /// between. A refused query has its refusal in its place.
    std::vector<Answer> ask(const Queries& queries) {
        constexpr std::size_t batch = 64;
        const std::vector<Queries::Query>& all = queries.queries_;
        std::vector<Answer> answers;
        detail::Turn turn(wire_, pin_);
        for (std::size_t start = 0; start < all.size(); start += batch) {
            std::size_t end = std::min(start + batch, all.size());
            std::string lines;
            for (std::size_t i = start; i < end; ++i) lines += all[i].line + '\n';
            turn->send(lines, end - start);
            for (std::size_t i = start; i < end; ++i) answers.push_back(read(*turn, all[i]));
        }
        turn->done();
        return answers;
    }

private:
    friend class Client;
    Pinned(const std::shared_ptr<detail::Wire>& wire,
           std::pair<std::uint64_t, std::uint32_t> pinned) noexcept
        : wire_(wire), pin_(pinned.first), version_(pinned.second) {}

    static std::optional<Near> near(const Answer& answer) {
        if (!answer.found) return std::nullopt;
        return Near{answer.found->distance, answer.found->obstacle};
    }

    /// The refusal of one of many cells, which its text names.
    static Refused of_cell(const Refused& refused, std::size_t index, Cell c) {
        return {refused.number, refused.name, refused.numbers, refused.fault,
                detail::named(index, c) + refused.what()};
    }

    static double straight(const Answer& answer) {
        return answer.found ? std::sqrt(static_cast<double>(answer.found->distance))
                            : std::numeric_limits<double>::infinity();
    }

    std::optional<Tightest> one(const Queries& query) {
        Answer answer = ask(query)[0];
        if (answer.refused) throw *answer.refused;
        return answer.found;
    }

    /// The next reply, which answers this query.
    static Answer read(detail::Wire& wire, const Queries::Query& query) {
        detail::Reply said = wire.reply();
        if (said.refused) return {std::nullopt, std::move(said.refused)};
        bool clear = query.kind == Queries::Kind::clear;
        const std::vector<std::string> none =
            clear ? std::vector<std::string>{"OK", "CLEAR"} : std::vector<std::string>{"NONE"};
        if (said.words == none) return {};
        Cell obstacle = wire.obstacle(said.words);
        if (query.kind == Queries::Kind::at)
            return {Tightest{wire.numbers(said.words, 1)[0], query.asked, obstacle}, std::nullopt};
        auto n = wire.numbers(said.words, 3);
        return {Tightest{n[0], wire.cell(n[1], n[2]), obstacle}, std::nullopt};
    }

    std::shared_ptr<detail::Wire> wire_;
    std::uint64_t pin_;  // its number on the connection
    std::atomic<std::uint32_t> version_;
};

// ---- the client

/// A connection to a server on this machine. The draft is everybody's: `publish` publishes what all
/// painters have changed by then, and `revert` drops it. So paint an obstacle's new place before
/// you clear its old one, or send one stamp of both. A client can be moved; calls of one that was
/// moved from throw ConnectionLost. At its end the connection goes to its pin, and ends with that.
class Client {
public:
    Client(Client&&) noexcept = default;
    Client& operator=(Client&&) noexcept = default;
    /// Throws WrongMap if the map doesn't have the expected size, and std::invalid_argument for an
    /// expected size that no map has, a time-out below 0, or a port that there isn't.
    explicit Client(detail::Whole port, const Options& options = {})
        : wire_(std::make_shared<detail::Wire>(detail::port_of(port), options)) {}
    Client(detail::Whole port, std::chrono::milliseconds timeout,
           FullLog full_log = FullLog::thrown)
        : Client(port, Options{std::nullopt, timeout, full_log, false}) {}

    /// Ends the connection, once the call of another thread is done; what was accepted stays
    /// accepted, and a pin is left. It may be called again, and `reconnect` of its Options doesn't
    /// undo it.
    void close() {
        if (!wire_ || !wire_->owned()) return;
        std::lock_guard<std::mutex> turn(wire_->turn);
        wire_->close();
    }

    /// Ends the connection at once, from any thread while others use the client. A call that waits
    /// throws ConnectionLost, and may have been accepted. As after `close`, nothing reconnects.
    void abort() noexcept {
        if (wire_ && wire_->owned()) wire_->abort();
    }

    /// The map's size: what was expected, or what is found by two writes at the first call.
    Size size() { return detail::Turn(wire_)->size(); }

    /// Makes columns x0 to x1 - 1 of rows y0 to y1 - 1 of the draft obstacles. Refused as
    /// BadArguments if that is no cell or a number is below 0 or over 4096, as OutOfRange, and as
    /// any command may be: LogFull, PlacesUsed, BlocksFull and Memory.
    Change paint(detail::Whole x0, detail::Whole y0, detail::Whole x1, detail::Whole y1) {
        return draw("PAINT" + detail::points({{x0, y0}, {x1, y1}}));
    }

    /// Makes these cells free; refused as a paint is.
    Change clear(detail::Whole x0, detail::Whole y0, detail::Whole x1, detail::Whole y1) {
        return draw("CLEAR" + detail::points({{x0, y0}, {x1, y1}}));
    }

    /// Sets the cells from (x, y) on to the values of a PBM image, plain or raw, of at most
    /// 17,100,000 bytes; black is an obstacle. Throws std::invalid_argument for a larger image or a
    /// cell below 0.
    Change stamp(Cell corner, const void* image, std::size_t bytes) {
        if (corner.x < 0 || corner.y < 0) throw std::invalid_argument("a cell below 0");
        if (bytes > detail::largest_image)
            throw std::invalid_argument("an image of over 17100000 bytes");
        return draw("STAMP" + detail::points({corner}) + ' ' + std::to_string(bytes),
                    static_cast<const char*>(image), bytes);
    }

    /// The same of a string, a vector, an array or a span whose elements are bytes.
    template <class Bytes, class Element = decltype(*std::data(std::declval<const Bytes&>()))>
    Change stamp(Cell corner, const Bytes& image) {
        static_assert(sizeof(Element) == 1, "an image is bytes: its elements have the size 1");
        return stamp(corner, std::data(image), std::size(image));
    }

    /// The same of a literal, without the zero that ends it.
    template <std::size_t length>
    Change stamp(Cell corner, const char (&image)[length]) {
        return stamp(corner, image, length - (image[length - 1] == '\0'));
    }

    /// Appends the draft as the next version, and returns its number, which has its place in the
    /// log too. Refused as VersionsFull too: where older versions are collected there is room again
    /// after each publish. Their floor is none if that was refused. Throws ConnectionLost, once, if
    /// changes may be lost, as `reconnect` of its Options says.
    Published publish(OldVersions old = OldVersions::kept) {
        detail::Turn turn(wire_);
        turn->check_draft();
        auto n = command(*turn, "PUBLISH", 2);
        turn->published();
        return {n[0], n[1], old == OldVersions::collected ? floor(*turn) : std::nullopt};
    }

    /// Makes the draft the newest version again, and returns the place in the log.
    std::uint32_t revert() {
        detail::Turn turn(wire_);
        std::uint32_t place = command(*turn, "REVERT", 1)[0];
        turn->published();
        return place;
    }

    /// Frees what no kept version uses: the newest is kept, and each that a pin holds.
    Collected collect() {
        detail::Turn turn(wire_);
        auto n = command(*turn, "COLLECT", 3);
        return {n[0], n[1], n[2]};
    }

    /// Drops the entries of the log that the server keeps, so that a full log goes on, and returns
    /// its own place. Places go on counting; no bitmap and no version changes.
    std::uint32_t checkpoint() { return sent(*detail::Turn(wire_), "CHECKPOINT", 1)[0]; }

    /// Pins the newest version. One at a time on a connection: a second is refused as
    /// AlreadyPinned.
    Pinned pin() { return Pinned(wire_, detail::Turn(wire_)->pin(0)); }

private:
    /// The numbers of the reply to a command's line, and the bytes that it counts.
    static std::vector<std::uint32_t> sent(detail::Wire& wire, const std::string& line,
                                           std::size_t count, const char* data = nullptr,
                                           std::size_t size = 0) {
        wire.send(line + '\n', 1);
        wire.send_bytes(data, size);
        auto numbers = wire.numbers(count, size > 0);
        wire.done();
        return numbers;
    }

    /// The same, with a checkpoint in between if the log is full and the client allows it.
    static std::vector<std::uint32_t> command(detail::Wire& wire, const std::string& line,
                                              std::size_t count, const char* data = nullptr,
                                              std::size_t size = 0) {
        try {
            return sent(wire, line, count, data, size);
        } catch (const Refused& refused) {
            if (refused.number != LogFull || !wire.full_log_is_checkpointed()) throw;
        }
        sent(wire, "CHECKPOINT", 1);
        return sent(wire, line, count, data, size);
    }

    /// The floor of a collect, or none if it is refused.
    static std::optional<std::uint32_t> floor(detail::Wire& wire) {
        try {
            return command(wire, "COLLECT", 3)[1];
        } catch (const Refused&) {
            return std::nullopt;
        }
    }

    Change draw(const std::string& line, const char* data = nullptr, std::size_t size = 0) {
        detail::Turn turn(wire_);
        auto n = command(*turn, line, 2, data, size);
        turn->changed();
        return {n[0], n[1]};
    }

    std::shared_ptr<detail::Wire> wire_;
};

// ---- metres and cells

#ifdef __has_builtin
#if __has_builtin(__builtin_bit_cast)
#define CLEARMAP_CONSTEXPR constexpr
#endif
#endif

namespace detail {

/// The bits of a double. From 0 on they are in the order of the numbers; those of negative numbers,
/// infinity and NaN are greater than those of all finite ones. So ranges are tested by them: with
/// -ffast-math compilers take it that no number is NaN, and turn `!(x >= 0)` into `x < 0`.
#ifdef CLEARMAP_CONSTEXPR
constexpr std::uint64_t bits(double number) noexcept {
    return __builtin_bit_cast(std::uint64_t, number);
}
#else  // older compilers
#define CLEARMAP_CONSTEXPR inline
inline std::uint64_t bits(double number) noexcept {
    std::uint64_t found = 0;
    std::memcpy(&found, &number, sizeof found);
    return found;
}
#endif

inline constexpr std::uint64_t sign_bit = std::uint64_t{1} << 63;
inline constexpr std::uint64_t infinite_bits = std::uint64_t{0x7ff} << 52;

CLEARMAP_CONSTEXPR bool is_finite(double number) noexcept {
    return (bits(number) & ~sign_bit) < infinite_bits;
}

/// Whether a number is above 0, and finite.
CLEARMAP_CONSTEXPR bool is_positive(double number) noexcept {
    return bits(number) != 0 && bits(number) < infinite_bits;
}

/// Whether a number is from 0 on, and below an end.
CLEARMAP_CONSTEXPR bool is_below(double number, double end) noexcept {
    return end > 0 && (bits(number) < bits(end) || bits(number) == sign_bit);
}

}  // namespace detail

/// A point in metres, y upwards.
struct Point {
    double x, y;
};

/// The position of a map in the world, as in a ROS `map.yaml`: metres per cell, and the lower left
/// corner in metres, y upwards.
struct Frame {
    int width, height;
    double resolution, origin_x, origin_y;

    Frame() = default;
    /// Throws std::invalid_argument for a resolution that isn't above 0, or for one or an origin
    /// that isn't finite.
    CLEARMAP_CONSTEXPR Frame(detail::Whole width, detail::Whole height, double resolution,
                             double origin_x = 0, double origin_y = 0)
        : width(width),
          height(height),
          resolution(resolution),
          origin_x(origin_x),
          origin_y(origin_y) {
        if (!detail::is_positive(resolution))
            throw std::invalid_argument("a resolution is above 0, and finite");
        if (!detail::is_finite(origin_x) || !detail::is_finite(origin_y))
            throw std::invalid_argument("an origin is finite");
    }

    /// The size that a client of the map can expect.
    Size size() const { return {width, height}; }

    /// The cell of a point in metres; none outside the map. A point within a billionth of a cell of
    /// an edge counts as on it.
    std::optional<Cell> cell(double x, double y) const {
        if (!detail::is_finite(x) || !detail::is_finite(y)) return std::nullopt;
        double u = std::floor(across(x)), t = std::floor(up(y));
        if (!detail::is_below(u, width) || !detail::is_below(t, height)) return std::nullopt;
        return Cell{static_cast<int>(u), height - 1 - static_cast<int>(t)};
    }

    /// The path through the cells that a plan's segments cross; at a corner it passes one of the
    /// adjacent cells. None if the plan has no points, or one outside the map. The centre of each
    /// of its cells is less than one cell from the plan.
    std::optional<Path> staircase(const std::vector<Point>& plan) const {
        Path path;
        for (std::size_t i = 0; i < plan.size(); ++i) {
            auto here = cell(plan[i].x, plan[i].y);
            if (!here) return std::nullopt;
            if (i == 0)
                path.push_back(*here);
            else
                cross(plan[i - 1], plan[i], path);
        }
        if (path.empty()) return std::nullopt;
        return corners(path);
    }

    /// A length in cells, as `clearance` answers it, in metres: from the middle of a cell to the
    /// middle of its obstacle's. Their points may be nearer: see `free_metres`.
    double metres(double cells) const { return cells * resolution; }

    /// Never more than the distance of any point of a cell from any point of its obstacle's, in
    /// metres, by its `clearance` in cells, which is Euclidean: less by sqrt(2) cells, and rounded
    /// down. 0 below that, and infinite if there is no obstacle.
    double free_metres(double cells) const {
        if (detail::bits(cells) == detail::infinite_bits) return cells;
        if (!detail::is_below(cells, std::numeric_limits<double>::max())) return 0;
        constexpr double root_two = 1.4142135623730952, down = 1 - 1e-15;
        return std::max((cells * down - root_two) * resolution * down, 0.0);
    }

    /// The `d` of `clear_of` by euclid2 for a round robot of this radius in metres, which may be
    /// anywhere in its cell: enough for it to touch no obstacle's cell, and 2 or more.
    std::uint32_t clear_distance(double radius) const {
        const double cells = detail::is_finite(radius) ? radius / resolution : -1;
        if (!detail::is_below(cells, 10000))
            throw std::invalid_argument("a radius is 0 or more, and not larger than any map");
        return static_cast<std::uint32_t>(
            std::ceil(2 + (cells + 2 * std::sqrt(2.0)) * cells *
                              (1 + 1e-12)));  // the square of cells and a diagonal
    }

private:
    /// A number of cells, snapped to an edge that only rounding separates it from: decimals such as
    /// 0.05 aren't doubles.
    static double snapped(double cells) {
        double edge = std::round(cells);
        return std::abs(cells - edge) < 1e-9 ? edge : cells;
    }

    /// A coordinate in cells from the lower left corner.
    double across(double x) const { return snapped((x - origin_x) / resolution); }
    double up(double y) const { return snapped((y - origin_y) / resolution); }

    /// A crossing of an edge: how far along the segment it is, in whole trillionths, so that
    /// rounding separates no two at one corner, and the step.
    struct Crossing {
        double along;
        int dx, dy;
    };

    /// The crossings of the edges between two coordinates in cells.
    static void edges(double from, double to, int dx, int dy, std::vector<Crossing>& found) {
        double first = std::floor(from), last = std::floor(to), step = last > first ? 1 : -1;
        for (double at = first; at != last; at += step)
            found.push_back({std::round(((step > 0 ? at + 1 : at) - from) / (to - from) * 1e12),
                             step > 0 ? dx : -dx, step > 0 ? dy : -dy});
    }

    /// Appends the cells that a segment enters after its first.
    void cross(Point start, Point end, Path& path) const {
        std::vector<Crossing> found;
        edges(across(start.x), across(end.x), 1, 0, found);
        edges(up(start.y), up(end.y), 0, -1, found);
        std::stable_sort(found.begin(), found.end(),
                         [](const Crossing& a, const Crossing& b) { return a.along < b.along; });
        for (const Crossing& crossing : found)
            path.push_back({path.back().x + crossing.dx, path.back().y + crossing.dy});
    }

    /// A path of neighbouring cells by its ends and the cells where it turns.
    static Path corners(const Path& cells) {
        Path kept = {cells.front()};
        for (std::size_t i = 1; i + 1 < cells.size(); ++i)
            if (cells[i].x - cells[i - 1].x != cells[i + 1].x - cells[i].x ||
                cells[i].y - cells[i - 1].y != cells[i + 1].y - cells[i].y)
                kept.push_back(cells[i]);
        if (cells.size() > 1) kept.push_back(cells.back());
        return kept;
    }
};

}  // namespace clearmap

#undef CLEARMAP_CONSTEXPR

#endif

// What the tests of clearmap.hpp share: checks that count, servers that say what a test wants
// them to say, and allocations that fail when they are told to.
#ifndef CLEARMAP_TESTING_HPP
#define CLEARMAP_TESTING_HPP

#include "clearmap.hpp"

#include <csignal>
#include <cstdio>
#include <cstdlib>
#include <functional>
#include <future>
#include <list>
#include <new>
#include <set>
#include <thread>

using namespace clearmap;

inline std::atomic<int> tried{0};

#define CHECK(what)                                                        \
    do {                                                                   \
        ++tried;                                                           \
        if (!(what)) {                                                     \
            std::printf("%s:%d: not so: %s\n", __FILE__, __LINE__, #what); \
            std::fflush(stdout);                                           \
            std::_Exit(1);                                                 \
        }                                                                  \
    } while (0)

/// Whether a call throws just this kind, with these words in its text.
template <class Kind, class Call>
bool throws(Call call, const std::string& text = "") {
    try {
        call();
    } catch (const Kind& thrown) {
        if (std::string(thrown.what()).find(text) != std::string::npos) return true;
        std::printf("thrown: %s\n", thrown.what());
    } catch (const std::exception& other) {
        std::printf("thrown: %s\n", other.what());
    }
    return false;
}

/// Whether a connection was closed on this side, so that nothing is sent and waited for any more.
inline bool closed(Client& client) {
    try {
        client.publish();
    } catch (const TimedOut&) {
        return false;
    } catch (const ConnectionLost& lost) {
        return std::string(lost.what()) == "the connection is closed";
    }
    return false;
}

/// Whether a call is refused with this number, name and numbers.
inline bool refused(int number, const std::string& name, std::vector<std::uint32_t> numbers,
                    const std::function<void()>& call) {
    try {
        call();
    } catch (const Refused& refusal) {
        return refusal.number == number && refusal.name == name && refusal.numbers == numbers;
    }
    return false;
}

/// Waits for what another thread does, up to 20 seconds.
template <class Holds>
void await(Holds holds) {
    for (int i = 0; i < 2000 && !holds(); ++i)
        std::this_thread::sleep_for(std::chrono::milliseconds(10));
}

/// Time for what was sent to arrive, on a busy machine too.
inline void let_arrive() { std::this_thread::sleep_for(std::chrono::milliseconds(200)); }

/// Leaves the signals to the other threads: those of a server mustn't be interrupted.
inline void without_signals() {
    sigset_t all;
    ::sigfillset(&all);
    ::pthread_sigmask(SIG_BLOCK, &all, nullptr);
}

/// A port of this machine's loopback interface on which connections are taken.
class Listener {
public:
    Listener() : socket(::socket(AF_INET, SOCK_STREAM, 0)) {
        sockaddr_in address{};
        socklen_t size = sizeof address;
        address.sin_family = AF_INET;
        address.sin_addr.s_addr = htonl(INADDR_LOOPBACK);
        if (::bind(socket, reinterpret_cast<sockaddr*>(&address), size) || ::listen(socket, 64))
            std::exit(1);
        ::getsockname(socket, reinterpret_cast<sockaddr*>(&address), &size);
        port = ntohs(address.sin_port);
    }
    Listener(const Listener&) = delete;
    ~Listener() { ::close(socket); }
    int socket;
    std::uint16_t port = 0;
};

/// A server of one connection: it answers each line with the next of these texts, and then waits
/// for the test's end or closes.
class Fake {
public:
    Fake(std::vector<std::string> answers, bool closes) : port(listener_.port) {
        thread_ = std::thread([this, answers, closes] {
            without_signals();
            int stream = ::accept(listener_.socket, nullptr, nullptr);
            for (const std::string& answer : answers) {
                char byte = 0;
                while (::recv(stream, &byte, 1, 0) == 1 && byte != '\n') {
                }
                ::send(stream, answer.data(), answer.size(), MSG_NOSIGNAL);
            }
            if (!closes) done_.get_future().wait_for(std::chrono::seconds(20));
            ::close(stream);
        });
    }
    ~Fake() {
        done_.set_value();
        thread_.join();
    }

private:
    Listener listener_;
    std::promise<void> done_;
    std::thread thread_;

public:
    const std::uint16_t port;
};

/// A server of any number of connections whose answers tell what was asked: the distance of a
/// cell is its column times 4096 and its row, and its obstacle the cell itself. A drawing is
/// answered with its count of lines and its first number, a stamp with its count of bytes.
class Telling {
public:
    explicit Telling(Size size = {64, 48})
        : width(size.width), height(size.height), port(listener_.port) {
        thread_ = std::thread([this] {
            without_signals();
            for (int stream; (stream = ::accept(listener_.socket, nullptr, nullptr)) >= 0;) {
                std::lock_guard<std::mutex> lock(mutex_);
                streams_.push_back(stream);
                serving_.emplace_back([this, stream] { serve(stream); });
            }
        });
    }
    ~Telling() {
        ::shutdown(listener_.socket, SHUT_RDWR);
        thread_.join();
        cut();
        for (std::thread& one : serving_) one.join();
        for (int stream : streams_) ::close(stream);
    }

    /// Ends all connections, as a server that is started anew: nothing of the draft is left.
    void cut() {
        std::lock_guard<std::mutex> lock(mutex_);
        for (int stream : streams_) ::shutdown(stream, SHUT_RDWR);
        draft_.clear();
    }

    /// The lines that draw, of all connections.
    std::vector<std::string> drawn() {
        std::lock_guard<std::mutex> lock(mutex_);
        return drawn_;
    }

    /// The lines that drew what is in the version that was published last.
    std::vector<std::string> published() {
        std::lock_guard<std::mutex> lock(mutex_);
        return published_;
    }

    std::atomic<int> pause{0};       ///< Microseconds before each reply, and within it.
    std::atomic<bool> loses{false};  ///< A line that draws is taken, and the connection ends.
    std::atomic<bool> adds{false};   ///< A line that draws has one reply too many, a bit later.
    std::atomic<bool> added{false};   ///< That reply was sent.
    std::atomic<int> connections{0};
    std::atomic<int> width, height;

private:
    void serve(int stream) {
        ++connections;
        std::string come;
        char data[4096];
        for (ssize_t n; (n = ::recv(stream, data, sizeof data, 0)) > 0;) {
            come.append(data, static_cast<std::size_t>(n));
            for (std::size_t end; (end = come.find('\n')) != std::string::npos;) {
                std::string line = come.substr(0, end);
                come.erase(0, end + 1);
                if (line.rfind("STAMP", 0) == 0)
                    take(stream, come, std::stoul(detail::words(line)[3]));
                if (!say(stream, reply(line)) || line == "QUIT" || (loses && draws(line))) {
                    ::shutdown(stream, SHUT_RDWR);
                    return;
                }
                if (adds && draws(line)) added = say(stream, "OK 7 7\n");
            }
        }
    }

    static bool draws(const std::string& line) {
        return line.rfind("PAINT", 0) == 0 || line.rfind("STAMP", 0) == 0;
    }

    /// The bytes that a line has counted are read.
    static void take(int stream, std::string& come, std::size_t count) {
        char data[4096];
        while (come.size() < count) {
            ssize_t n = ::recv(stream, data, sizeof data, 0);
            if (n <= 0) return;
            come.append(data, static_cast<std::size_t>(n));
        }
        come.erase(0, count);
    }

    bool say(int stream, const std::string& text) const {
        std::size_t half = pause > 0 ? text.size() / 2 : 0;
        if (pause > 0) std::this_thread::sleep_for(std::chrono::microseconds(pause));
        if (half > 0 && ::send(stream, text.data(), half, MSG_NOSIGNAL) < 0) return false;
        if (pause > 0) std::this_thread::sleep_for(std::chrono::microseconds(pause));
        return ::send(stream, text.data() + half, text.size() - half, MSG_NOSIGNAL) >= 0;
    }

    std::string reply(const std::string& line) {
        std::vector<std::string> asked = detail::words(line);
        if (asked[0] == "AT") {
            int x = std::stoi(asked[2]), y = std::stoi(asked[3]);
            if (x >= width || y >= height) return "ERR 1 OutOfRange\n";
            return "OK " + std::to_string(4096 * x + y) + detail::points({{x, y}}) + '\n';
        }
        if (asked[0] == "DUMP") return "OK 9\nP1\n1 1\n1\n";
        if (asked[0] == "QUIT") return "BYE\n";
        if (asked[0] == "COLLECT") return "OK 10 5 0\n";
        std::lock_guard<std::mutex> lock(mutex_);
        if (asked[0] == "PUBLISH") {
            published_ = draft_;
            return "OK 9 5\n";
        }
        if (asked[0] == "REVERT") draft_.clear();
        if (!draws(line)) return "OK 0\n";
        drawn_.push_back(line);
        if (!loses) draft_.push_back(line);
        if (loses) return "";
        return "OK " + std::to_string(drawn_.size()) + ' ' +
               (asked[0] == "STAMP" ? asked[3] : asked[1]) + '\n';
    }

    Listener listener_;
    std::mutex mutex_;
    std::vector<std::string> drawn_, draft_, published_;
    std::list<int> streams_;
    std::list<std::thread> serving_;
    std::thread thread_;

public:
    const std::uint16_t port;
};

#endif

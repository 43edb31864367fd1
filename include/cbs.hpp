// cbs.hpp: the executor of cbs.h for C++17. A thin wrapper over cbs.h and cbs_realtime.h, all of it
// in this header. Link with the library and with -lpthread.
//
//     cbs::Plan plan;
//     plan.admit(2, 5, cbs::Mode::Soft);         // server 0: 2 ticks in every 5
//     auto [house, clients] = plan.open(8, 8);   // a client for each server
//     cbs::Send sent = clients[0].send([](const cbs::Unit &) { /* a unit of work */ }, 3);
//     clients.clear();                           // nobody sends any more
//     cbs::Realtime realtime(house, std::chrono::milliseconds(1));
//     realtime.run();                            // returns when all is over
//
// WHAT IS WHAT. A Plan has servers that fit together. A Plan opens a House, for the serving thread,
// and a Client for each server, for the threads that send. A Job is a callable: the serving thread
// calls the job once for each of the job's units. A plain token is a number in the place of a job.
// A Realtime serves a house in real time. A Live reads figures of the servers meanwhile. A Recorder
// writes what the house did to a file, by the serving thread or by a thread of its own.
//
// WHO OWNS WHAT. Houses, clients and jobs are moved and never copied, and free themselves. A client
// that is freed ends. Every send, every end and every client that is freed wakes the house. A house
// may be freed before its clients: each later send returns Send::HouseGone.
//
// WHEN A JOB IS FREED. After the job's last unit, on the serving thread, also if that unit throws.
// With the house, if the job is not finished. By the caller, if the job was refused.
//
// ERRORS. Misuse throws Error, which has the status of cbs.h, and changes nothing. The lack of
// memory for a job and the end of the clock throw Error, too, and nothing is lost then. What a
// sender has to expect is the enum Send, and no exception. Where C++ finds no memory,
// std::bad_alloc is thrown.
//
// THREADS. A house is for one thread at a time, and a client is for one thread at a time. That
// holds of const functions, too. House::stop and a Stopper may be called from any thread. What a
// thread wrote before a send is seen by each unit of that job. The thread sanitizer knows so.
//
// NOT OPEN. A house or a client that was moved from, or made with no argument, is not open. Calls
// throw Error with CBS_CALL_NOT_OPEN then.
//
// UNITS. A tick is the time of one unit of one job. Clocks, deadlines and budgets are in ticks.
#ifndef CBS_HPP
#define CBS_HPP

#include "cbs_realtime.h"
#include "cbs_record_thread.h"
#include <algorithm>
#include <array>
#include <atomic>
#include <chrono>
#include <cstddef>
#include <cstdint>
#include <deque>
#include <functional>
#include <limits>
#include <memory>
#include <new>
#include <optional>
#include <stdexcept>
#include <string>
#include <system_error>
#include <type_traits>
#include <utility>
#include <vector>

namespace cbs {

class Client;
class House;
class Live;
class Plan;
class Realtime;
class Recorder;

// ---- Errors ----

// Returns what a status of cbs.h means, in English.
inline std::string status_text(std::uint32_t status) {
    char nowhere;
    std::string text(cbs_status_text(status, &nowhere, 0) + 1, ' ');
    cbs_status_text(status, text.data(), text.size());
    text.pop_back(); // the zero byte
    return text;
}

// A call was refused. The text is that of the status.
class Error : public std::runtime_error {
public:
    explicit Error(std::uint32_t status) : std::runtime_error(status_text(status)), own(status) {}

    // Returns the status: one of those of cbs.h, and never CBS_OK.
    std::uint32_t status() const noexcept { return own; }

private:
    std::uint32_t own;
};

// What came of a send or of an end.
enum class Send {
    Sent,      // the job or the end stands in the client's ring
    RingFull,  // nothing was sent: try again after the house has polled
    Ended,     // nothing was sent: the client has ended
    HouseGone, // nothing was sent: the house was freed
};

// Why a call that serves has returned.
enum class Ended {
    Closed,  // every client has ended or was freed, and every job is finished
    Stopped, // the house was told to stop
};

// ---- What is told of a house ----

// A tick that may need 128 bits. Ticks of the clock and of most programs fit 64.
__extension__ typedef unsigned __int128 Tick;

// A unit of a job.
struct Unit {
    std::size_t server;  // the server of the job, from 0
    std::uint64_t seq;   // the job's number among those of its server, from 0
    std::uint64_t token; // the plain token, and 0 for a job that is a callable
    bool last;           // whether this is the last unit of the job

    // Ends the job with this unit, although the job has units left: a frame that is late, say. In
    // hindsight the job had only the units that it got. Call this while the unit is done: after
    // that, and in a job's last unit, this changes nothing.
    void finish() const noexcept {
        if (ends != nullptr) {
            *ends = true;
        }
    }

    bool *ends = nullptr; // the header's: whether the job ends with this unit
};

// Does the units of plain tokens. The unit of a job that is a callable calls the job. A plain token
// whose house is served with no Work has units that do nothing.
using Work = std::function<void(const Unit &unit)>;

// What a server shows.
struct View {
    std::uint64_t budget;   // the ticks that the server may still use by its deadline
    Tick deadline;          // the tick of the deadline
    std::uint64_t accepted; // how many jobs were taken
    std::uint64_t finished; // how many of these are finished
    bool throttled;         // whether the server waits for its deadline
    bool closed;            // whether the end of its client was taken
};

// What a server was charged for units that took longer than a tick, in ticks.
struct Charges {
    std::uint64_t total; // in all
    std::uint64_t most;  // at most for one unit
};

// What a poll did.
enum class Poll : std::uint32_t {
    Nothing = CBS_POLL_NOTHING,    // no message was there, or the server is closed
    Took = CBS_POLL_TOOK,          // the next job was taken
    Closed = CBS_POLL_CLOSED,      // the end was taken: the server is closed
    Full = CBS_POLL_FULL,          // a message waits, and the backlog is full
    NoMemory = CBS_POLL_NO_MEMORY, // a message waits, and there was no memory for the message
};

// What a run did.
struct Ran {
    std::optional<Unit> unit; // the unit that was done; none if nobody was ready
    bool clock_end;           // whether the clock stands at its end, 10^12, with a job unfinished
};

// What a turn did.
struct Turn {
    std::size_t took;       // how many messages were taken, ends included
    std::uint64_t advanced; // by how many ticks the clock advanced with nobody ready
    Ran ran;                // the unit that was done
    bool out_of_memory;     // whether there was no memory for some job, which stays in its ring
    bool over;              // whether every server is closed and every job is finished
};

// What a house in real time has seen.
struct Counts {
    std::uint64_t units;              // how many units were done
    std::uint64_t overruns;           // how many of these took longer than a tick
    std::chrono::nanoseconds longest; // the longest unit
    std::uint64_t charged;            // how many ticks were charged for overruns
    std::uint64_t behind;             // how many whole ticks the house is behind the real clock
    std::uint64_t most_behind;        // the most that this was
};

// A summary of numbers, in a memory that stays the same. No number passes UINT64_MAX: it stops
// there.
class Spread {
public:
    // The summary of no numbers.
    Spread() = default;

    // Adds one more number.
    void add(std::uint64_t number) noexcept { cbs_spread_add(&own, number); }

    // Returns how many numbers there are.
    std::uint64_t count() const noexcept { return own.count; }

    // Returns the sum of the numbers.
    std::uint64_t total() const noexcept { return own.total; }

    // Returns the least of the numbers, and 0 if there is none.
    std::uint64_t least() const noexcept { return own.least; }

    // Returns the greatest of the numbers, and 0 if there is none.
    std::uint64_t greatest() const noexcept { return own.greatest; }

    // Returns the mean, rounded down, and 0 if there is no number.
    std::uint64_t mean() const noexcept { return cbs_spread_mean(&own); }

    // Returns a number such that at least so many of a thousand numbers are at most that: 990 asks
    // for 99 %. It is the least such one of 0, 1, 3, 7, 15 .., or the greatest number, if that is
    // less.
    std::uint64_t at_most(std::uint64_t per_mille) const noexcept {
        return cbs_spread_at_most(&own, per_mille);
    }

    // Returns how many numbers are of power k, 0 to 64. A 0 is of power 0. Another number is of
    // power k if the number is below 2^k and not below 2^(k - 1).
    std::uint64_t of_power(std::size_t k) const noexcept { return k < 65 ? own.powers[k] : 0; }

private:
    friend Live;
    explicit Spread(const cbs_spread &from) noexcept : own(from) {}
    cbs_spread own{};
};

// The figures of one server. No number passes UINT64_MAX: it stops there.
struct Figures {
    std::uint64_t ticks;    // by how many ticks the house's clock went on
    std::uint64_t accepted; // how many jobs were accepted
    std::uint64_t units;    // how many units have ended
    std::uint64_t charged;  // how many ticks were charged for these
    std::uint64_t share;    // how many of a thousand ticks the server took, rounded down
    std::uint64_t late;     // how many units ended after the deadline by which they were chosen
    // Of the jobs that are done, in nanoseconds: from the question that took the job from its ring
    // to the end of the job's last unit. The wait in the ring before is not in it.
    Spread responses;
    // Of the units that have ended, in ticks: by how much the house's clock, after the unit and the
    // unit's charge, was past the deadline by which the unit was chosen. 0 if it was not.
    Spread lateness;
};

// What becomes of the rest of a unit, if that rest is less than a tick.
enum class Rounding {
    Up,    // the unit pays for a whole tick
    Carry, // the rest is carried to the next unit of the unit's server
};

// What the host of a house does next. Then the host reads its clock, and asks again.
struct Next {
    enum class Kind : std::uint32_t {
        Unit = CBS_NEXT_UNIT,          // nothing more: the unit was done
        Sleep = CBS_NEXT_SLEEP,        // sleeps until the host's clock shows `until`
        Listen = CBS_NEXT_LISTEN,      // asks at once: the house listens for its bell from now on
        Wait = CBS_NEXT_WAIT,          // waits by House::wait, and until `until` at most
        Over = CBS_NEXT_OVER,          // ends: every server is closed, and every job is finished
        ClockEnd = CBS_NEXT_CLOCK_END, // ends: the clock of the house stands at its end, 10^12
        NoMemory = CBS_NEXT_NO_MEMORY, // asks later: a job stays in its ring
    };

    Kind kind;
    std::size_t taken;                             // how many messages were taken, ends included
    std::optional<std::chrono::nanoseconds> until; // of Sleep and Wait; none for no end
    std::optional<Unit> unit;                      // of Unit: the unit that was done
};

// ---- Not for programs ----

namespace detail {

inline void must(std::uint32_t status) {
    if (status != CBS_OK) {
        throw Error(status);
    }
}

inline void must_hold(bool condition, std::uint32_t otherwise) {
    must(condition ? static_cast<std::uint32_t>(CBS_OK) : otherwise);
}

inline Tick tick_of(std::uint64_t low, std::uint64_t high) {
    return static_cast<Tick>(high) << 64 | low;
}

inline std::chrono::nanoseconds time_of(std::uint64_t nanoseconds) {
    using Count = std::chrono::nanoseconds::rep;
    const auto most = static_cast<std::uint64_t>(std::numeric_limits<Count>::max());
    return std::chrono::nanoseconds(static_cast<Count>(std::min(nanoseconds, most)));
}

// Returns so much time for cbs.h, and 0 for less than none.
inline std::uint64_t nanoseconds_of(std::chrono::nanoseconds time) {
    return time.count() < 0 ? 0 : static_cast<std::uint64_t>(time.count());
}

inline Counts counts_of(const struct ::cbs_counts &seen) {
    return {seen.units,   seen.overruns, time_of(seen.longest),
            seen.charged, seen.behind,   seen.most_behind};
}

// Owns a handle of cbs.h.
class Handle {
public:
    Handle() = default;
    explicit Handle(cbs_handle &opened) noexcept : own(std::exchange(opened, cbs_handle{})) {}
    Handle(Handle &&other) noexcept : Handle(other.own) {}
    Handle &operator=(Handle &&other) noexcept {
        if (this != &other) {
            cbs_free(&own);
            own = std::exchange(other.own, cbs_handle{});
        }
        return *this;
    }
    ~Handle() { cbs_free(&own); }
    cbs_handle *get() noexcept { return &own; }

private:
    cbs_handle own{};
};

// Owns a bell of cbs_realtime.h.
class Bell {
public:
    Bell() {
        if (cbs_bell_open(&own) != 0) {
            throw Error(CBS_HOUSE_OUT_OF_MEMORY);
        }
    }
    Bell(const Bell &) = delete;
    Bell &operator=(const Bell &) = delete;
    ~Bell() { cbs_bell_close(&own); }
    cbs_bell *get() noexcept { return &own; }

    void ring() noexcept {
        // A house that is awake costs a sender no more than this load.
        if (__atomic_load_n(&own.listening, __ATOMIC_SEQ_CST)) {
            cbs_bell_ring(&own);
        }
    }

private:
    cbs_bell own;
};

// What is called at a unit.
class Callable {
public:
    Callable() = default;
    Callable(const Callable &) = delete;
    Callable &operator=(const Callable &) = delete;
    virtual ~Callable() = default;
    virtual void call(const Unit &unit) = 0;
};

template <class F>
class CallableOf final : public Callable {
public:
    template <class G>
    explicit CallableOf(G &&from) : callable(std::forward<G>(from)) {}
    void call(const Unit &unit) override { std::invoke(callable, unit); }

private:
    F callable;
};

// What a client and its house share: a place for each job that may not have begun, by the job's
// number. A plain token has an empty place. The client fills the place before the job is sent, and
// the house empties the place at the job's first unit.
class Lane {
public:
    explicit Lane(std::size_t places) : slots(places) {}

    void put(std::uint64_t seq, Callable *job) noexcept {
        at(seq).store(job, std::memory_order_release);
    }

    std::unique_ptr<Callable> take(std::uint64_t seq) noexcept {
        return std::unique_ptr<Callable>(at(seq).exchange(nullptr, std::memory_order_acq_rel));
    }

    // Notes that the job of this number was sent. Returns the job, if the house is gone and has not
    // seen that.
    std::unique_ptr<Callable> note_sent(std::uint64_t seq) noexcept {
        sent = seq + 1;
        // Either this load sees that the house is gone, or the house sees the job.
        return gone ? take(seq) : nullptr;
    }

    // Notes that the house is gone. Returns how many jobs were sent.
    std::uint64_t leave() noexcept {
        gone = true;
        return sent;
    }

    Bell room; // rung by the house when a place of the ring may be free

private:
    struct Slot {
        std::atomic<Callable *> job{nullptr};
    };

    std::atomic<Callable *> &at(std::uint64_t seq) noexcept {
        return slots[seq % slots.size()].job;
    }

    std::vector<Slot> slots;
    std::atomic<std::uint64_t> sent{0};
    std::atomic<bool> gone{false};
};

// What a house and its clients share, as long as one of these is there.
struct Shared {
    Bell bell;
    std::deque<Lane> lanes; // one for each server
    const std::vector<cbs_server> rates;
    const std::size_t backlog;

    Shared(std::vector<cbs_server> servers, std::size_t of_backlog, std::size_t places)
        : rates(std::move(servers)), backlog(of_backlog) {
        for (std::size_t server = 0; server < rates.size(); server++) {
            lanes.emplace_back(places);
        }
    }
};

// Owns the figures of cbs_realtime.h, and the names in these.
class Kept {
public:
    Kept(const Shared &of, std::vector<std::string> with) : names(std::move(with)) {
        names.resize(of.rates.size());
        for (std::size_t server = 0; server < names.size(); server++) {
            std::string &name = names[server];
            name = name.empty() ? std::to_string(server) : name;
            pointers.push_back(name.c_str());
        }
        if (cbs_live_open(&own, of.rates.data(), of.rates.size(), of.backlog, pointers.data()) !=
            0) {
            throw std::bad_alloc();
        }
    }
    Kept(const Kept &) = delete;
    Kept &operator=(const Kept &) = delete;
    ~Kept() { cbs_live_close(&own); }
    cbs_live *get() noexcept { return &own; }
    const std::vector<std::string> &all() const noexcept { return names; }

private:
    std::vector<std::string> names;
    std::vector<const char *> pointers;
    cbs_live own;
};

// Frees the handles that nobody has taken.
struct Opening {
    cbs_handle house{};
    std::array<cbs_handle, 64> clients{};

    Opening() = default;
    Opening(const Opening &) = delete;
    Opening &operator=(const Opening &) = delete;
    ~Opening() {
        cbs_free(&house);
        for (cbs_handle &client : clients) {
            cbs_free(&client);
        }
    }
};

} // namespace detail

// The pace of a house, for a loop of the program's own. House::pace begins the time.
class Pacer {
public:
    // Returns what was seen so far. A unit counts from when the unit ends.
    Counts counts() const noexcept {
        struct ::cbs_counts seen;
        ::cbs_counts(&own, &seen);
        return detail::counts_of(seen);
    }

private:
    friend House;
    Pacer() = default;
    cbs_pacer own{};
};

// ---- Jobs ----

// A job: a callable of the program's, which is called once for each unit, with the Unit. The
// callable may be one that is only moved.
class Job {
public:
    // An empty job, which cannot be sent.
    Job() = default;

    // A job of this callable.
    template <class F,
              class = std::enable_if_t<!std::is_same_v<std::decay_t<F>, Job> &&
                                       std::is_invocable_v<std::decay_t<F> &, const Unit &>>>
    Job(F &&callable)
        : own(std::make_unique<detail::CallableOf<std::decay_t<F>>>(std::forward<F>(callable))) {}

    // Returns whether the job has a callable: not after the job was sent, or moved from.
    explicit operator bool() const noexcept { return own != nullptr; }

private:
    friend Client;
    std::unique_ptr<detail::Callable> own;
};

// ---- Clients: each by one thread at a time ----

// The sender's side of one server. The destructor sends the end, unless the client has ended. The
// house then takes what was sent before, and closes the server.
class Client {
public:
    // A client that is not open.
    Client() = default;
    Client(Client &&) noexcept = default;
    Client &operator=(Client &&other) noexcept {
        if (this != &other) {
            leave();
            handle = std::move(other.handle);
            shared = std::move(other.shared);
            own_server = other.own_server;
            own_sent = other.own_sent;
        }
        return *this;
    }
    ~Client() { leave(); }

    // Returns the number of the client's server, from 0.
    std::size_t server() const noexcept { return own_server; }

    // Returns how many jobs the client has sent: the number that the next job gets.
    std::uint64_t sent() const noexcept { return own_sent; }

    // Sends a job of 1 to 1000000 units, and wakes the house. Jobs of a client are taken, run and
    // finished in the order of their sends. This never waits.
    //
    // Returns Send::Sent, and `job` is empty then. Otherwise `job` is as before: Send::RingFull,
    // Send::Ended or Send::HouseGone.
    // Throws Error, and leaves `job` as before, with CBS_TASK_EMPTY_JOB for 0 units or an empty
    // job, with CBS_TASK_TOO_LONG, and with CBS_CALL_NOT_OPEN.
    [[nodiscard]] Send send(Job &&job, std::uint32_t units) {
        detail::must_hold(job.own != nullptr, CBS_TASK_EMPTY_JOB);
        return send_own(job.own, 0, units);
    }

    // Sends a plain token, which is any number of the program's. Returns and throws as the send of
    // a job does. What the number stands for is the program's to free.
    [[nodiscard]] Send send(std::uint64_t token, std::uint32_t units) {
        std::unique_ptr<detail::Callable> none;
        return send_own(none, token, units);
    }

    // Sends a job, and waits while the ring is full. Returns and throws as send does, but never
    // returns Send::RingFull. Do not call this from the thread that serves: no place comes free.
    [[nodiscard]] Send blocking_send(Job &&job, std::uint32_t units) {
        return blocking([&] { return send(std::move(job), units); });
    }

    // Sends a plain token, and waits while the ring is full, as blocking_send of a job does.
    [[nodiscard]] Send blocking_send(std::uint64_t token, std::uint32_t units) {
        return blocking([&] { return send(token, units); });
    }

    // Sends the end, after all jobs, and wakes the house. Nothing more can be sent then. For a
    // client that is freed next no end is needed.
    //
    // Returns Send::Sent, Send::RingFull, Send::Ended if the end was sent before, or
    // Send::HouseGone.
    // Throws Error with CBS_CALL_NOT_OPEN.
    Send end() {
        const std::uint32_t status = cbs_end(handle.get());
        if (status != CBS_OK) {
            return refused(status);
        }
        shared->bell.ring();
        return Send::Sent;
    }

    // Returns how many messages stand in the client's ring. While the house polls there may be
    // fewer by now. Throws Error with CBS_CALL_NOT_OPEN.
    std::size_t waiting() const {
        std::uint64_t count = 0;
        detail::must(cbs_waiting(handle.get(), &count));
        return count;
    }

private:
    friend Plan;

    Client(cbs_handle &opened, std::shared_ptr<detail::Shared> with, std::size_t server)
        : handle(opened), shared(std::move(with)), own_server(server) {}

    void leave() noexcept {
        handle = detail::Handle();
        if (shared) {
            shared->bell.ring();
            shared.reset();
        }
    }

    // Returns what a refusal means to a sender. Throws Error if a sender does not expect that.
    static Send refused(std::uint32_t status) {
        switch (status) {
        case CBS_SEND_RING_FULL: return Send::RingFull;
        case CBS_SEND_ENDED: return Send::Ended;
        case CBS_CALL_HOUSE_GONE: return Send::HouseGone;
        default: throw Error(status);
        }
    }

    // Sends a job, or a plain token if there is no job. The job is handed back unless it was sent.
    Send send_own(std::unique_ptr<detail::Callable> &job, std::uint64_t token,
                  std::uint32_t units) {
        detail::must_hold(shared != nullptr, CBS_CALL_NOT_OPEN);
        detail::Lane &lane = shared->lanes[own_server];
        const bool callable = job != nullptr;
        std::uint64_t seq = 0;
        lane.put(own_sent, job.release());
        const std::uint32_t status = cbs_send(handle.get(), token, units, &seq);
        if (status != CBS_OK) {
            job = lane.take(own_sent);
            return refused(status);
        }
        job = lane.note_sent(own_sent);
        own_sent++;
        shared->bell.ring();
        return callable && job ? Send::HouseGone : Send::Sent;
    }

    template <class Try>
    Send blocking(const Try &tries) {
        for (;;) {
            Send sent = tries();
            if (sent != Send::RingFull) {
                return sent;
            }
            cbs_bell *room = shared->lanes[own_server].room.get();
            cbs_bell_listen(room); // and one more try, lest a place came free before
            sent = tries();
            if (sent != Send::RingFull) {
                return sent;
            }
            cbs_bell_wait(room, UINT64_MAX);
        }
    }

    mutable detail::Handle handle;
    std::shared_ptr<detail::Shared> shared;
    std::size_t own_server = 0;
    std::uint64_t own_sent = 0;
};

// ---- Houses: by the serving thread ----

// Tells a house to stop, from any thread. A stopper may be copied, and may outlive the house.
class Stopper {
public:
    // Tells the house to stop, as House::stop does.
    void stop() const noexcept { cbs_bell_stop(shared->bell.get()); }

private:
    friend House;
    explicit Stopper(std::shared_ptr<detail::Shared> with) : shared(std::move(with)) {}
    std::shared_ptr<detail::Shared> shared;
};

// Reads the figures of each server of a house, as the house runs, from any thread. House::live has
// the figures kept. A Live may be copied, and may outlive the house.
class Live {
public:
    // Returns how many servers there are, numbered from 0.
    std::size_t servers() const noexcept { return kept->all().size(); }

    // Returns the name of a server. Throws Error with CBS_HOUSE_NO_SUCH_SERVER.
    const std::string &name(std::size_t server) const {
        detail::must_hold(server < servers(), CBS_HOUSE_NO_SUCH_SERVER);
        return kept->all()[server];
    }

    // Returns the figures of a server as they stand. A lock is held for this copy.
    // Throws Error with CBS_HOUSE_NO_SUCH_SERVER.
    Figures read(std::size_t server) const {
        struct ::cbs_figures of;
        detail::must(cbs_live_read(kept->get(), server, &of));
        return {of.ticks,
                of.accepted,
                of.units,
                of.charged,
                cbs_figures_share(&of),
                of.lateness.count - of.lateness.powers[0],
                Spread(of.responses),
                Spread(of.lateness)};
    }

    // Returns a table of all servers, a line for each, as cbs_live_print prints it.
    std::string table() const {
        std::array<char, 512> line;
        cbs_live_head(line.data(), line.size());
        std::string all = std::string(line.data()) + "\n";
        for (std::size_t server = 0; server < servers(); server++) {
            cbs_live_row(kept->get(), server, line.data(), line.size());
            all += std::string(line.data()) + "\n";
        }
        return all;
    }

private:
    friend House;
    explicit Live(std::shared_ptr<detail::Kept> of) : kept(std::move(of)) {}
    std::shared_ptr<detail::Kept> kept;
};

// The serving thread's side. The destructor frees all jobs that are not finished, those in the
// rings too. A unit may look at its house, but may neither serve nor free the house.
//
// The functions that name a server throw Error with CBS_HOUSE_NO_SUCH_SERVER if the house has no
// server of that number. All but servers() throw Error with CBS_CALL_NOT_OPEN if the house is not
// open.
class House {
public:
    // A house that is not open.
    House() = default;
    House(House &&) noexcept = default;
    House &operator=(House &&other) noexcept {
        if (this != &other) {
            leave();
            handle = std::move(other.handle);
            shared = std::move(other.shared);
            served = std::move(other.served);
            kept = std::move(other.kept);
            tape_size = other.tape_size;
        }
        return *this;
    }
    ~House() { leave(); }

    // Returns how many servers the house has, numbered from 0. A house that is not open has none.
    std::size_t servers() const noexcept { return served.size(); }

    // Tells the house to stop, from any thread, as long as the house is there and is not moved. The
    // call that serves returns after the unit that is being done. If no call serves, the next one
    // returns at once.
    void stop() const { stopper().stop(); }

    // Returns what tells this house to stop, from any thread, also after the house is gone.
    Stopper stopper() const {
        detail::must_hold(shared != nullptr, CBS_CALL_NOT_OPEN);
        return Stopper(shared);
    }

    // Returns the clock of the house: 0 to 10^12 ticks.
    std::uint64_t now() const {
        std::uint64_t ticks = 0;
        detail::must(cbs_now(handle.get(), &ticks));
        return ticks;
    }

    // Returns the greatest number of ticks before whose last nobody is ready; none if somebody is
    // ready now. If no job is there, this reaches to the clock's end: do not advance by this then.
    std::optional<std::uint64_t> idle_span() const {
        std::uint64_t ticks = 0;
        detail::must(cbs_idle_span(handle.get(), &ticks));
        return ticks == UINT64_MAX ? std::nullopt : std::optional<std::uint64_t>(ticks);
    }

    // Returns what a server shows.
    View view(std::size_t server) const {
        struct ::cbs_view told;
        detail::must(::cbs_view(handle.get(), number(server), &told));
        return {told.budget,   detail::tick_of(told.deadline_low, told.deadline_high),
                told.accepted, told.finished, told.throttled, told.closed};
    }

    // Returns what a server was charged, in ticks.
    Charges charges(std::size_t server) const {
        Charges told{};
        detail::must(cbs_charges(handle.get(), number(server), &told.total, &told.most));
        return told;
    }

    // Returns the tick by which all that a server has taken is finished, whatever the others ask
    // for; none if nothing is unfinished. cbs_promised of cbs.h says when the promise is kept.
    std::optional<Tick> promised(std::size_t server) const {
        std::uint64_t low = 0, high = 0;
        detail::must(cbs_promised(handle.get(), number(server), &low, &high));
        const bool none = low == UINT64_MAX && high == UINT64_MAX;
        return none ? std::nullopt : std::optional<Tick>(detail::tick_of(low, high));
    }

    // ---- Turns by hand, with no real time ----

    // Takes a turn: polls each server once, and does one unit. If all who have a job wait for their
    // deadline, the clock advances by the idle span instead. `work` does the units of plain tokens.
    //
    // Returns what the turn did. Throws what the unit throws.
    Turn turn(const Work &work = Work()) {
        struct ::cbs_turn told;
        detail::must(::cbs_turn(handle.get(), &told));
        make_room(told.took);
        return {told.took, told.advanced, ran(told.ran, work), told.out_of_memory, told.over};
    }

    // Takes turns until every client has ended or was freed and every job is finished, or until the
    // house is told to stop. While there is nothing to do the thread sleeps. Nothing is measured.
    //
    // Returns why the serving ended. Throws what a unit throws.
    // Throws Error with CBS_HOUSE_OUT_OF_MEMORY if there is no memory for a job, and with
    // CBS_HOUSE_CLOCK_END after 10^12 ticks. Nothing is lost: this may be called again.
    Ended run_until_closed(const Work &work = Work()) {
        bool listens = false;
        while (!is_told_to_stop()) {
            const Turn told = turn(work);
            detail::must_hold(!told.ran.clock_end, CBS_HOUSE_CLOCK_END);
            detail::must_hold(!told.out_of_memory, CBS_HOUSE_OUT_OF_MEMORY);
            if (told.over) {
                return Ended::Closed;
            }
            const bool idle = told.took == 0 && told.advanced == 0 && !told.ran.unit;
            if (idle && listens) {
                cbs_bell_wait(shared->bell.get(), UINT64_MAX);
            } else if (idle) {
                // And one more turn, lest a message came before.
                cbs_bell_listen(shared->bell.get());
            }
            listens = idle && !listens;
        }
        return Ended::Stopped;
    }

    // Takes the next message of one server, if there is a message and room for the message.
    //
    // Returns what the poll did.
    Poll poll(std::size_t server) {
        std::uint32_t kind = 0;
        detail::must(cbs_poll(handle.get(), number(server), &kind));
        make_room(kind == CBS_POLL_TOOK || kind == CBS_POLL_CLOSED);
        return static_cast<Poll>(kind);
    }

    // Does one unit of the server that has the earliest deadline of those who are ready. `work`
    // does the units of plain tokens. The unit takes one tick of the clock.
    //
    // Returns what the run did. Throws what the unit throws.
    Ran run(const Work &work = Work()) {
        cbs_unit told;
        detail::must(cbs_run(handle.get(), &told));
        return ran(told, work);
    }

    // Lets ticks pass in which nothing runs. While somebody is ready no promise holds then.
    // Throws Error with CBS_HOUSE_CLOCK_END if the clock would pass 10^12.
    void advance(std::uint64_t ticks) { detail::must(cbs_advance(handle.get(), ticks)); }

    // Charges a server the ticks that its last unit took beyond the first. Charge after the unit,
    // and before the next poll.
    // Throws Error with CBS_HOUSE_NOT_RUNNING unless the server ran the last unit, and no tick has
    // passed since. Throws Error with CBS_HOUSE_CLOCK_END if the clock would pass 10^12.
    void charge(std::size_t server, std::uint64_t ticks) {
        detail::must(cbs_charge(handle.get(), number(server), ticks));
    }

    // Ends the job of a server that got the last unit, although the job has units left. This is
    // Unit::finish for a loop that is done with the unit: call this before the house is asked for
    // anything but a charge.
    // Throws Error with CBS_HOUSE_NOT_RUNNING unless the server ran the last unit, which was not
    // the last of its job; if a tick has passed since that was not charged for the unit; and if the
    // server has taken a job since.
    void finish(std::size_t server) {
        detail::must(cbs_finish(handle.get(), number(server)));
        served[server].current.reset();
    }

    // Tells each step of the house from now on to a new tape: each job that is taken, with its
    // number of units, each unit, each advance and charge of a tick or more, and each close. The
    // tape has `bytes` and 31 more bytes of memory, and no other call takes memory for it. A tape
    // that the house had is freed, with what was not taken.
    //
    // A step that finds no room is lost, with all that follow, and the tape keeps those before it.
    // A job that ends early (Unit::finish, finish) is lost so, too: no tape can tell it.
    // Throws Error with CBS_HOUSE_OUT_OF_MEMORY: the house is then as before.
    void record(std::uint32_t bytes) {
        detail::must(cbs_tape_open(handle.get(), bytes));
        tape_size = static_cast<std::size_t>(bytes) + 31;
    }

    // Appends what the tape has so far to `out`. The tape then has all its memory again, and is
    // told the steps to come. What these calls append tells the steps in order.
    // Throws Error with CBS_CALL_NO_TAPE if there is no tape; `out` is then as before.
    void take_tape(std::vector<std::uint8_t> &out) {
        const std::size_t before = out.size();
        std::size_t taken = 0;
        out.resize(before + tape_size);
        const std::uint32_t status =
            cbs_tape_take(handle.get(), out.data() + before, tape_size, &taken);
        out.resize(before + taken);
        detail::must(status);
    }

    // Returns whether the tape lost a step, so that it has only those before.
    // Throws Error with CBS_CALL_NO_TAPE if there is no tape.
    bool tape_lost() const {
        bool lost = false;
        detail::must(cbs_tape_lost(handle.get(), &lost));
        return lost;
    }

    // Appends the rest of the tape to `out`, and the mark of its end, unless it lost a step. The
    // house goes on with no tape.
    // Throws Error with CBS_CALL_NO_TAPE if there is no tape; `out` is then as before.
    void end_tape(std::vector<std::uint8_t> &out) {
        const bool lost = tape_lost();
        out.reserve(out.size() + tape_size + 1);
        take_tape(out);
        if (!lost) {
            out.push_back(CBS_TAPE_END);
        }
        tape_size = 0;
        detail::must(cbs_tape_close(handle.get()));
    }

    // Has the figures of each server kept from now on, as the house runs in real time: by Realtime,
    // or by next and done. names[i] is the name of server i; an empty one, or none, is the server's
    // number. A job that was accepted before counts from the first question on.
    //
    // Returns what reads the figures, from any thread.
    Live live(std::vector<std::string> names = {}) {
        detail::must_hold(shared != nullptr, CBS_CALL_NOT_OPEN);
        kept = std::make_shared<detail::Kept>(*shared, std::move(names));
        return Live(kept);
    }

    // ---- A loop of the program's own, in real time ----
    //
    // Readings are of any clock that the program likes. House::wait wants those of
    // std::chrono::steady_clock. Realtime is such a loop, ready made.

    // Begins the time of the house, at this reading of the host's clock. A tick is at least a
    // nanosecond long.
    //
    // Returns the pacer.
    Pacer pace(std::chrono::nanoseconds tick, Rounding rounding, std::chrono::nanoseconds time) {
        Pacer pacer;
        const bool carry = rounding == Rounding::Carry;
        detail::must(cbs_pace(handle.get(), detail::nanoseconds_of(tick), carry,
                              detail::nanoseconds_of(time), &pacer.own));
        return pacer;
    }

    // Takes a reading of the host's clock, ends and charges the unit before, and polls each server
    // once. If the tick of a unit has come, the unit is done: `work` does those of plain tokens.
    //
    // Returns what the host does next. Throws what the unit throws: then call done, or ask again.
    Next next(Pacer &pacer, std::chrono::nanoseconds time, const Work &work = Work()) {
        struct ::cbs_next told;
        detail::must(::cbs_next(handle.get(), &pacer.own, detail::nanoseconds_of(time), &told));
        note(pacer, time, told);
        return follows(told, work);
    }

    // Does what next does, but charges the unit before the time `took`, by whatever clock. More
    // than the time since the last reading is not charged.
    Next next_measured(Pacer &pacer, std::chrono::nanoseconds time, std::chrono::nanoseconds took,
                       const Work &work = Work()) {
        struct ::cbs_next told;
        detail::must(cbs_next_measured(handle.get(), &pacer.own, detail::nanoseconds_of(time),
                                       detail::nanoseconds_of(took), &told));
        note(pacer, time, told);
        return follows(told, work);
    }

    // Ends the unit before at this reading, and charges the unit. This is for a host that stops
    // asking, for now or for ever.
    void done(Pacer &pacer, std::chrono::nanoseconds time) {
        detail::must(cbs_done(handle.get(), &pacer.own, detail::nanoseconds_of(time)));
        note_done(pacer, time);
    }

    // Does what done does, but charges the time `took`, as next_measured does.
    void done_measured(Pacer &pacer, std::chrono::nanoseconds time, std::chrono::nanoseconds took) {
        detail::must(cbs_done_measured(handle.get(), &pacer.own, detail::nanoseconds_of(time),
                                       detail::nanoseconds_of(took)));
        note_done(pacer, time);
    }

    // Waits for a send, an end, a client that is freed or a stop. The wait ends when
    // std::chrono::steady_clock shows `until`, if there is an end. Call this after an answer
    // Kind::Wait alone: otherwise the house does not listen, and wakes by the clock alone.
    void wait(std::optional<std::chrono::nanoseconds> until) {
        detail::must_hold(shared != nullptr, CBS_CALL_NOT_OPEN);
        cbs_clock_wait(shared->bell.get(), until ? detail::nanoseconds_of(*until) : UINT64_MAX);
    }

    // Returns whether the house was told to stop, and forgets that. Look before each question.
    bool is_told_to_stop() {
        detail::must_hold(shared != nullptr, CBS_CALL_NOT_OPEN);
        return cbs_bell_stopped(shared->bell.get());
    }

private:
    friend Plan;
    friend Realtime;
    friend Recorder;

    // The jobs of one server, as this header sees them.
    struct Served {
        std::uint64_t begun = 0;                   // how many jobs had a unit
        std::unique_ptr<detail::Callable> current; // the job that had a unit and is not finished
    };

    House(cbs_handle &opened, std::shared_ptr<detail::Shared> with, std::size_t servers)
        : served(servers), shared(std::move(with)), handle(opened) {}

    // Returns the number of a server as cbs.h has numbers: 16 bits.
    static std::uint16_t number(std::size_t server) {
        detail::must_hold(server <= UINT16_MAX, CBS_HOUSE_NO_SUCH_SERVER);
        return static_cast<std::uint16_t>(server);
    }

    // Wakes the senders who wait for a place, if messages were taken.
    void make_room(std::uint64_t taken) noexcept {
        if (taken > 0) {
            for (detail::Lane &lane : shared->lanes) {
                lane.room.ring();
            }
        }
    }

    // Ends the job of a unit, if the unit said so, when the unit has been done or has thrown.
    class Ending {
    public:
        Ending(House &of, std::size_t server) noexcept : house(of), at(server) {}
        Ending(const Ending &) = delete;
        Ending &operator=(const Ending &) = delete;
        ~Ending() {
            if (wanted) {
                cbs_finish(house.handle.get(), static_cast<std::uint16_t>(at));
                house.served[at].current.reset();
            }
        }
        bool wanted = false;

    private:
        House &house;
        std::size_t at;
    };

    // Does a unit that cbs.h has told.
    Unit does(const cbs_unit &told, const Work &work) {
        Unit unit{told.server, told.seq, told.token, told.kind == CBS_RUN_DONE};
        Ending ending(*this, unit.server);
        unit.ends = unit.last ? nullptr : &ending.wanted;
        does_unit(unit, work);
        unit.ends = nullptr;
        return unit;
    }

    // Does a unit: calls its job, or else the work.
    void does_unit(const Unit &unit, const Work &work) {
        Served &mine = served[unit.server];
        if (!mine.current) {
            mine.current = shared->lanes[unit.server].take(unit.seq);
            mine.begun = unit.seq + 1;
        }
        detail::Callable *job = mine.current.get();
        std::unique_ptr<detail::Callable> last; // frees the job, also if the unit throws
        if (unit.last) {
            last = std::move(mine.current);
        }
        if (job != nullptr) {
            job->call(unit);
        } else if (work) {
            work(unit);
        }
    }

    cbs_live *figures() const noexcept { return kept ? kept->get() : nullptr; }

    // Notes what came of a question in the figures, if they are kept.
    void note(const Pacer &pacer, std::chrono::nanoseconds time, const struct ::cbs_next &told) {
        if (kept) {
            cbs_live_asked(figures(), handle.get(), &pacer.own, detail::nanoseconds_of(time),
                           &told);
        }
    }

    // Notes the end of the unit before in the figures, if they are kept.
    void note_done(const Pacer &pacer, std::chrono::nanoseconds time) {
        if (kept) {
            cbs_live_done(figures(), &pacer.own, detail::nanoseconds_of(time));
        }
    }

    Ran ran(const cbs_unit &told, const Work &work) {
        if (told.kind == CBS_RUN_IDLE || told.kind == CBS_RUN_CLOCK_END) {
            return {std::nullopt, told.kind == CBS_RUN_CLOCK_END};
        }
        return {does(told, work), false};
    }

    Next follows(const struct ::cbs_next &told, const Work &work) {
        make_room(told.taken);
        Next answer{static_cast<Next::Kind>(told.kind), told.taken, std::nullopt, std::nullopt};
        const bool until = answer.kind == Next::Kind::Sleep || answer.kind == Next::Kind::Wait;
        if (until && told.until != UINT64_MAX) {
            answer.until = detail::time_of(told.until);
        }
        if (answer.kind == Next::Kind::Listen) {
            cbs_bell_listen(shared->bell.get());
        }
        if (answer.kind == Next::Kind::Unit) {
            answer.unit = does(told.unit, work);
        }
        return answer;
    }

    void leave() noexcept {
        handle = detail::Handle();
        for (std::size_t server = 0; server < served.size(); server++) {
            detail::Lane &lane = shared->lanes[server];
            const std::uint64_t sent = lane.leave();
            lane.room.ring();
            served[server].current.reset();
            for (std::uint64_t seq = served[server].begun; seq < sent; seq++) {
                lane.take(seq); // and frees the job
            }
        }
        served.clear();
        shared.reset();
        kept.reset();
    }

    std::vector<Served> served;
    std::shared_ptr<detail::Shared> shared;
    std::shared_ptr<detail::Kept> kept; // none if no figures are kept
    std::size_t tape_size = 0;          // the bytes of memory of the tape
    mutable detail::Handle handle;
};

// ---- Plans ----

// What a server does after its budget is used up.
enum class Mode : std::uint32_t {
    Soft = CBS_SOFT,           // goes on at once, at a deadline one period later
    Throttled = CBS_THROTTLED, // waits until the deadline
};

// What Plan::open opens. The house is freed after the clients.
struct Opened {
    House house;
    std::vector<Client> clients; // clients[i] is of server i
};

// Servers that fit together: the sum of budget / period is at most 1, exactly. At most 64.
class Plan {
public:
    // Admits a server with a budget of ticks in every period of ticks, 1 to 1000000000.
    //
    // Returns the number of the server, from 0.
    // Throws Error with a status of CBS_RATE or CBS_ADMIT if the server does not fit.
    // greatest_budget tells before what fits.
    std::size_t admit(std::uint64_t budget, std::uint64_t period, Mode mode) {
        servers[count] = {budget, period, static_cast<std::uint32_t>(mode)};
        detail::must(cbs_admit(servers.data(), count + 1));
        return count++;
    }

    // Returns the greatest budget with which a server of this period would be admitted now, in
    // ticks; 0 if none would.
    std::uint64_t greatest_budget(std::uint64_t period) const {
        std::uint64_t budget = 0;
        detail::must(cbs_greatest_budget(servers.data(), count, period, &budget));
        return budget;
    }

    // Returns how many servers the plan has: 0 to 64.
    std::size_t size() const noexcept { return count; }

    // Opens a house with these servers, and a client for each. A server takes at most `backlog`
    // jobs that are not finished, 1 to 4096. A client's ring has places for `ring` messages, 1 to
    // 1024.
    //
    // Returns the house and the clients.
    // Throws Error with CBS_HOUSE_BAD_BACKLOG, CBS_HOUSE_BAD_RING or CBS_HOUSE_OUT_OF_MEMORY.
    Opened open(std::size_t backlog, std::size_t ring) const {
        detail::Opening opened;
        detail::must(cbs_open(servers.data(), count, backlog, ring, &opened.house,
                              opened.clients.data(), count));
        // A place is filled before the ring is known to be full, so there is one more.
        const std::vector<cbs_server> rates(servers.data(), servers.data() + count);
        const auto shared = std::make_shared<detail::Shared>(rates, backlog, backlog + ring + 1);
        Opened all{House(opened.house, shared, count), {}};
        all.clients.reserve(count);
        for (std::size_t server = 0; server < count; server++) {
            all.clients.push_back(Client(opened.clients[server], shared, server));
        }
        return all;
    }

private:
    std::array<cbs_server, 65> servers{}; // one more than fit, to have that one refused
    std::size_t count = 0;
};

// ---- Recording: by the serving thread ----

// What is told of a house beside its steps, and how the steps are written.
struct RecordSettings {
    // names[i] is the name of server i: 1 to 32 letters, digits, - and _, which no other server
    // has. A server with none is called server-I, by its number.
    std::vector<std::string> names;
    std::chrono::nanoseconds tick{0}; // how long a tick is, at most a second; 0: not told
    std::uint32_t bytes = 65536;      // so many the steps between two writes may take, to 16777184
    std::uint64_t every = 0;          // so many ticks pass at least between two writes
    // With 0 the serving thread writes, and waits for the file. Else a thread writes, from so many
    // blocks of `bytes` bytes, and the serving thread never waits: cbs_record_thread.h says how. The
    // thread has the priority and the processors of the one that makes the Recorder.
    std::uint32_t blocks = 0;
};

// Writes the steps of a house to a file, which `cbsrun replay FILE` makes again. Make it before the
// house's first step. It refers to the house, which is not moved meanwhile. An error of the file
// ends the recording, and never the house.
class Recorder {
public:
    // Opens the file, which is written anew, and has the house tell its steps.
    // Throws std::system_error with the error number: EINVAL for a wrong name or tick or too many
    // bytes, and if the house is not open or made a step before; ENOMEM, or that of the file or of
    // the thread.
    Recorder(House &house, const std::string &path, const RecordSettings &settings = {})
        : served(house) {
        const std::shared_ptr<detail::Shared> shared = house.shared;
        std::vector<const char *> names;
        int error = EINVAL;
        if (shared && settings.tick.count() >= 0) {
            for (std::size_t server = 0; server < shared->rates.size(); server++) {
                const bool named = server < settings.names.size();
                names.push_back(named ? settings.names[server].c_str() : nullptr);
            }
            error = cbs_record_open(&own, served.handle.get(), path.c_str(), shared->rates.data(),
                                    shared->rates.size(), shared->backlog, names.data(),
                                    static_cast<std::uint64_t>(settings.tick.count()),
                                    settings.bytes);
        }
        if (error == 0 && settings.blocks > 0) {
            error = cbs_record_thread_open(&thread, &own, settings.blocks);
        }
        if (error != 0) {
            cbs_record_close(&own, served.handle.get());
            throw std::system_error(error, std::generic_category(), path);
        }
        own.every = settings.every;
    }
    Recorder(const Recorder &) = delete;
    Recorder &operator=(const Recorder &) = delete;
    ~Recorder() { close(); }

    // Writes the steps that the house made since the last write, or gives the thread these steps,
    // if `every` ticks have passed. Realtime does it, if it has this recorder.
    void step() noexcept { cbs_record_step(&own, served.handle.get()); }

    // Writes the last steps, and the mark of the end, unless a step was lost. The house goes on
    // with no tape. This waits for the file, and ends the thread. The destructor does it, too.
    //
    // Returns what ended the recording, now or before; no error if nothing did.
    std::error_code close() noexcept {
        cbs_record_close(&own, served.handle.get());
        return error();
    }

    // Returns what ended the recording; no error if nothing did. A step or the close learns it of
    // the thread.
    std::error_code error() const noexcept { return {own.error, std::generic_category()}; }

    // Returns how many bytes of steps are in the file: by the last step, if a thread writes.
    std::uint64_t bytes() const noexcept { return own.bytes; }

private:
    friend Realtime;

    House &served;
    cbs_recorder own{};
    cbs_record_thread thread{};
};

// ---- Real time: by the serving thread ----

// The time that a unit is charged for.
enum class Measure {
    Time,          // that of the monotonic clock, from one question to the next
    ProcessorTime, // the serving thread's processor time in that time
};

// A house in real time. A tick has a length, units are measured and charged, and the serving thread
// sleeps while there is nothing to do. cbs_realtime.h says how.
//
// The house is neither moved nor freed, as long as the Realtime is there.
class Realtime {
public:
    // Serves this house at a tick of that length, at least a nanosecond. The time of the house
    // begins with the first step.
    Realtime(House &house, std::chrono::nanoseconds tick, Rounding rounding = Rounding::Up,
             Measure measure = Measure::Time)
        : served(house),
          shared(house.shared),
          own(cbs_realtime_of(detail::nanoseconds_of(std::max(tick, std::chrono::nanoseconds(1))),
                              shared ? shared->bell.get() : nullptr, does, this)) {
        detail::must_hold(shared != nullptr, CBS_CALL_NOT_OPEN);
        own.carry = rounding == Rounding::Carry;
        own.processor_time = measure == Measure::ProcessorTime;
    }
    Realtime(const Realtime &) = delete;
    Realtime &operator=(const Realtime &) = delete;

    // Serves until every client has ended or was freed and every job is finished, or until the
    // house is told to stop. `work` does the units of plain tokens. After a return or a throw this
    // may be called again: the house goes on at the same time, and nothing is lost.
    //
    // Returns why the serving ended.
    // Throws what a unit throws: the unit is charged and counted before. Throws Error with
    // CBS_HOUSE_OUT_OF_MEMORY if there is no memory for a job, which stays in its ring, and with
    // CBS_HOUSE_CLOCK_END after 10^12 ticks.
    Ended run(const Work &work = Work()) {
        for (;;) {
            if (const std::optional<Ended> ended = step(work)) {
                return *ended;
            }
        }
    }

    // Asks what is next, and does that: one unit, or one sleep. A sleep ends at the next deadline,
    // at a send, or when the house is told to stop. Between two steps the program may look at the
    // house and at the counts. The unit of a step is charged by the next step, or by done.
    //
    // Returns why there is nothing more to do; none if there is something.
    // Throws as run does.
    std::optional<Ended> step(const Work &work = Work()) {
        if (cbs_bell_stopped(shared->bell.get())) {
            done();
            return Ended::Stopped;
        }
        struct ::cbs_next next;
        own.live = served.figures();
        detail::must(cbs_realtime_ask(&own, served.handle.get(), &next));
        own_taken = next.taken;
        served.make_room(next.taken);
        tokens = &work;
        detail::must(cbs_realtime_follow(&own, served.handle.get(), &next));
        return own.over ? std::optional<Ended>(Ended::Closed) : std::nullopt;
    }

    // Ends the unit of the last step now, and charges its server. This is for a program that takes
    // no more steps, for now or for ever.
    void done() {
        own.live = served.figures();
        detail::must(cbs_realtime_done(&own, served.handle.get()));
    }

    // Has each step written by this recorder, of the same house. It outlives the last step.
    void record_to(Recorder &recorder) noexcept { own.recorder = &recorder.own; }

    // Returns how many messages the last step took from the rings, ends included.
    std::size_t taken() const noexcept { return own_taken; }

    // Returns what was seen so far. A unit counts from when the unit ends.
    Counts counts() const noexcept { return detail::counts_of(own.counts); }

private:
    static void does(void *context, const cbs_unit *unit) {
        Realtime *self = static_cast<Realtime *>(context);
        self->served.does(*unit, *self->tokens);
    }

    House &served;
    std::shared_ptr<detail::Shared> shared;
    const Work *tokens = nullptr;
    std::size_t own_taken = 0;
    cbs_realtime own;
};

} // namespace cbs

#endif

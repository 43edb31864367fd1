// cbs.hpp: each call of houses, clients, plans and real time; jobs that are refused, that throw, and
// that are left unfinished; senders on threads of their own.
#include "cbs.hpp"
#include "blocks.h"
#include "check.h"
#include <array>
#include <atomic>
#include <chrono>
#include <cstdio>
#include <cstdlib>
#include <fstream>
#include <functional>
#include <future>
#include <iterator>
#include <memory>
#include <optional>
#include <stdexcept>
#include <string>
#include <system_error>
#include <thread>
#include <type_traits>
#include <utility>
#include <vector>
#include <fcntl.h>
#include <sys/stat.h>
#include <unistd.h>

using namespace std::chrono_literals;

// The program's own heap, in the place of the library's, which refuses if it is told to.
extern "C" {
struct rattle_block {
    bool ok;
    void *at;
};

rattle_block rattle_alloc(std::size_t size, std::size_t align);
rattle_block rattle_realloc(void *block, std::size_t kept, std::size_t size, std::size_t align);
void rattle_dealloc(void *block);
}

static std::atomic<long> granted{-1}; // so many allocations are granted from now on; -1 for all
static char nowhere;

static rattle_block block_at(void *block, std::size_t size) {
    void *at = granted != 0 ? std::realloc(block, size) : nullptr;
    if (granted > 0) {
        granted--;
    }
    return {at != nullptr, at != nullptr ? at : &nowhere};
}

rattle_block rattle_alloc(std::size_t size, std::size_t align) {
    return block_at(nullptr, size != 0 ? size : align);
}

rattle_block rattle_realloc(void *block, std::size_t, std::size_t size, std::size_t align) {
    return block_at(block, size != 0 ? size : align);
}

void rattle_dealloc(void *block) {
    std::free(block);
}

static_assert(!std::is_copy_constructible_v<cbs::House> && std::is_nothrow_move_constructible_v<cbs::House>);
static_assert(!std::is_copy_constructible_v<cbs::Client> && std::is_nothrow_move_constructible_v<cbs::Client>);
static_assert(!std::is_copy_constructible_v<cbs::Job> && std::is_nothrow_move_constructible_v<cbs::Job>);
static_assert(std::is_nothrow_move_assignable_v<cbs::House> && std::is_nothrow_move_assignable_v<cbs::Client>);
static_assert(!std::is_constructible_v<cbs::Job, int> && !std::is_constructible_v<cbs::Job, void (*)(int)>);

// The state of a job. It tells how many of it there are.
struct State {
    static std::atomic<int> alive;
    State() { alive++; }
    State(const State &) = delete;
    State &operator=(const State &) = delete;
    ~State() { alive--; }
};

std::atomic<int> State::alive{0};

// A job with a state, that does nothing.
static cbs::Job job() {
    return [state = std::make_unique<State>()](const cbs::Unit &) {};
}

// The call is refused by this status.
template <class F>
static void throws(std::uint32_t status, F &&call) {
    try {
        call();
    } catch (const cbs::Error &error) {
        CHECK(error.status() == status && error.what() == cbs::status_text(status));
        return;
    }
    CHECK(false);
}

// A house of one server with 1 tick in 4.
static cbs::Opened open(cbs::Mode mode, std::size_t backlog, std::size_t ring) {
    cbs::Plan plan;
    CHECK(plan.admit(1, 4, mode) == 0);
    return plan.open(backlog, ring);
}

static void plans() {
    cbs::Plan plan;
    CHECK(plan.size() == 0 && plan.greatest_budget(5) == 5);
    CHECK(plan.admit(2, 5, cbs::Mode::Soft) == 0);
    throws(CBS_ADMIT_OVER_BOUND, [&] { plan.admit(4, 5, cbs::Mode::Soft); });
    throws(CBS_RATE_ZERO_BUDGET, [&] { plan.admit(0, 5, cbs::Mode::Soft); });
    CHECK(plan.size() == 1 && plan.greatest_budget(5) == 3 && plan.greatest_budget(0) == 0);
    CHECK(plan.admit(3, 5, cbs::Mode::Throttled) == 1 && plan.greatest_budget(5) == 0);
    throws(CBS_HOUSE_BAD_BACKLOG, [&] { plan.open(0, 1); });
    throws(CBS_HOUSE_BAD_RING, [&] { plan.open(1, 1025); });
    const cbs::Opened opened = plan.open(4096, 1024);
    CHECK(opened.house.servers() == 2 && opened.clients.size() == 2);
    CHECK(opened.clients[0].server() == 0 && opened.clients[1].server() == 1);
    CHECK(cbs::Plan().open(1, 1).house.turn().over);
    cbs::Plan full;
    for (std::size_t server = 0; server < 64; server++) {
        CHECK(full.admit(1, 64, cbs::Mode::Soft) == server);
    }
    throws(CBS_ADMIT_TOO_MANY_SERVERS, [&] { full.admit(1, 64, cbs::Mode::Soft); });
    CHECK(full.size() == 64 && full.open(1, 1).clients.size() == 64);
    CHECK(cbs::status_text(CBS_OK) != cbs::status_text(CBS_SEND_RING_FULL));
}

static void by_hand() {
    cbs::Plan plan;
    plan.admit(1, 4, cbs::Mode::Throttled);
    plan.admit(1, 2, cbs::Mode::Soft);
    auto [house, clients] = plan.open(1, 2);
    std::vector<std::uint64_t> done;
    const cbs::Work work = [&](const cbs::Unit &unit) { done.push_back(unit.token); };
    CHECK(house.now() == 0 && house.idle_span() && !house.promised(0) && !house.run(work).unit);
    CHECK(house.poll(0) == cbs::Poll::Nothing);
    CHECK(clients[0].sent() == 0 && clients[0].send(7, 2) == cbs::Send::Sent && clients[0].sent() == 1);
    CHECK(clients[0].send(8, 1) == cbs::Send::Sent && clients[0].waiting() == 2);
    CHECK(house.poll(0) == cbs::Poll::Took && house.poll(0) == cbs::Poll::Full && clients[0].waiting() == 1);
    CHECK(!house.idle_span() && house.promised(0) == cbs::Tick{8});
    const cbs::Ran ran = house.run(work);
    CHECK(ran.unit && !ran.clock_end && ran.unit->server == 0 && ran.unit->seq == 0 && ran.unit->token == 7);
    CHECK(!ran.unit->last && house.now() == 1);
    house.charge(0, 1);
    throws(CBS_HOUSE_NOT_RUNNING, [&house = house] { house.charge(1, 1); });
    CHECK(house.charges(0).total == 1 && house.charges(0).most == 1 && house.charges(1).total == 0);
    const cbs::View view = house.view(0);
    CHECK(view.accepted == 1 && view.finished == 0 && view.throttled && !view.closed && view.deadline == 8);
    CHECK(house.now() == 2 && house.idle_span());
    house.advance(*house.idle_span() - 1);
    throws(CBS_HOUSE_CLOCK_END, [&house = house] { house.advance(1000000000000); });
    CHECK(clients[1].send(job(), 1) == cbs::Send::Sent && State::alive == 1);
    cbs::Turn turn = house.turn(work); // the other one's, who is ready
    CHECK(turn.took == 1 && turn.advanced == 0 && turn.ran.unit->server == 1 && turn.ran.unit->last);
    CHECK(State::alive == 0 && !turn.over && !turn.out_of_memory);
    clients.clear();
    while (!turn.over) {
        turn = house.turn(work);
    }
    CHECK((done == std::vector<std::uint64_t>{7, 7, 8}) && house.view(0).closed && house.view(0).finished == 2);
    for (const std::size_t server : {std::size_t{2}, std::size_t{65536}}) {
        throws(CBS_HOUSE_NO_SUCH_SERVER, [&house = house, server] { house.view(server); });
        throws(CBS_HOUSE_NO_SUCH_SERVER, [&house = house, server] { house.poll(server); });
        throws(CBS_HOUSE_NO_SUCH_SERVER, [&house = house, server] { house.charge(server, 1); });
        throws(CBS_HOUSE_NO_SUCH_SERVER, [&house = house, server] { house.charges(server); });
        throws(CBS_HOUSE_NO_SUCH_SERVER, [&house = house, server] { house.promised(server); });
    }
}

static void the_clock_ends() {
    auto [house, clients] = open(cbs::Mode::Soft, 1, 1);
    house.advance(1000000000000);
    CHECK(clients[0].send(1, 1) == cbs::Send::Sent && house.poll(0) == cbs::Poll::Took);
    CHECK(house.run().clock_end && house.turn().ran.clock_end);
    throws(CBS_HOUSE_CLOCK_END, [&house = house] { house.run_until_closed(); });
    cbs::Realtime realtime(house, 1us);
    throws(CBS_HOUSE_CLOCK_END, [&] { realtime.run(); });
}

// Without memory no house is opened, and no job is taken. Nothing is lost, and with memory all goes on.
static void no_memory() {
    cbs::Plan plan;
    plan.admit(1, 4, cbs::Mode::Soft);
    std::optional<cbs::Opened> opened;
    for (long number = 0; !opened; number++) {
        granted = number;
        try {
            opened = plan.open(4, 4);
        } catch (const cbs::Error &error) {
            CHECK(error.status() == CBS_HOUSE_OUT_OF_MEMORY);
        }
    }
    auto [house, clients] = *std::move(opened);
    granted = 0;
    CHECK(clients[0].send(job(), 1) == cbs::Send::Sent && house.poll(0) == cbs::Poll::NoMemory);
    CHECK(house.turn().out_of_memory && clients[0].waiting() == 1);
    throws(CBS_HOUSE_OUT_OF_MEMORY, [&house = house] { house.run_until_closed(); });
    cbs::Pacer pacer = house.pace(1us, cbs::Rounding::Up, 0ns);
    CHECK(house.next(pacer, 0ns).kind == cbs::Next::Kind::NoMemory);
    cbs::Realtime realtime(house, 1us);
    throws(CBS_HOUSE_OUT_OF_MEMORY, [&] { realtime.run(); });
    granted = -1;
    clients.clear();
    CHECK(State::alive == 1 && realtime.run() == cbs::Ended::Closed && State::alive == 0);
}

// A job that is refused comes back, and is freed by its owner.
static void refused() {
    auto [house, clients] = open(cbs::Mode::Soft, 1, 1);
    cbs::Client &client = clients[0];
    cbs::Job first = job(), second = job(), none;
    CHECK(first && !none && State::alive == 2);
    throws(CBS_TASK_EMPTY_JOB, [&] { (void)client.send(std::move(first), 0); });
    throws(CBS_TASK_TOO_LONG, [&] { (void)client.send(std::move(first), 1000001); });
    throws(CBS_TASK_EMPTY_JOB, [&] { (void)client.send(std::move(none), 1); });
    throws(CBS_TASK_EMPTY_JOB, [&] { (void)client.blocking_send(7, 0); });
    CHECK(first && client.send(std::move(first), 1) == cbs::Send::Sent && !first);
    CHECK(client.send(std::move(second), 1) == cbs::Send::RingFull && second);
    CHECK(client.send(7, 1) == cbs::Send::RingFull && client.end() == cbs::Send::RingFull);
    CHECK(client.send(job(), 1) == cbs::Send::RingFull);
    CHECK(State::alive == 2); // the job of nobody is freed
    CHECK(house.turn().ran.unit->last && State::alive == 1);
    CHECK(client.end() == cbs::Send::Sent && client.end() == cbs::Send::Ended);
    CHECK(client.send(std::move(second), 1) == cbs::Send::Ended && second && client.sent() == 1);
    CHECK(client.blocking_send(std::move(second), 1) == cbs::Send::Ended && second);
    house = cbs::House();
    CHECK(client.send(std::move(second), 1) == cbs::Send::HouseGone && second);
    CHECK(client.blocking_send(7, 1) == cbs::Send::HouseGone && client.end() == cbs::Send::HouseGone);
    second = cbs::Job();
    CHECK(State::alive == 0);
}

// A house that goes away frees its jobs: one that is begun, one that is taken, and those in the ring.
static void unfinished() {
    std::optional<cbs::Opened> opened = open(cbs::Mode::Soft, 2, 2);
    cbs::Client client = std::move(opened->clients[0]);
    int units = 0;
    CHECK(client.send([&units, state = std::make_unique<State>()](cbs::Unit) { units++; }, 3) == cbs::Send::Sent);
    CHECK(client.send(job(), 1) == cbs::Send::Sent);
    CHECK(opened->house.poll(0) == cbs::Poll::Took && opened->house.poll(0) == cbs::Poll::Took);
    CHECK(opened->house.run().unit && units == 1);
    CHECK(client.send(job(), 1) == cbs::Send::Sent && client.send(job(), 1) == cbs::Send::Sent);
    CHECK(State::alive == 4);
    opened.reset();
    CHECK(State::alive == 0 && client.send(job(), 1) == cbs::Send::HouseGone);
    CHECK(State::alive == 0);
    // One whose unfinished job owns the client.
    cbs::Opened other = open(cbs::Mode::Soft, 2, 2);
    auto owned = std::make_shared<cbs::Client>(std::move(other.clients[0]));
    CHECK(owned->send([owned, state = std::make_unique<State>()](const cbs::Unit &) {}, 1) == cbs::Send::Sent);
    owned.reset();
    CHECK(State::alive == 1);
    other.house = cbs::House();
    CHECK(State::alive == 0);
}

static void moves() {
    auto [first, of_first] = open(cbs::Mode::Soft, 4, 4);
    auto [second, of_second] = open(cbs::Mode::Soft, 4, 4);
    cbs::Client client = std::move(of_first[0]);
    CHECK(client.send(job(), 1) == cbs::Send::Sent && of_second[0].send(job(), 1) == cbs::Send::Sent);
    cbs::House house = std::move(first);
    CHECK(house.turn().ran.unit && State::alive == 1);
    house = std::move(second); // the first house goes, and then the second client's job is done
    CHECK(client.send(7, 1) == cbs::Send::HouseGone && house.turn().ran.unit && State::alive == 0);
    client = std::move(of_second[0]); // the first client goes
    CHECK(client.send(job(), 1) == cbs::Send::Sent && client.sent() == 2);
    client = cbs::Client();
    CHECK(house.turn().ran.unit->last && house.turn().over);
    const cbs::House none;
    cbs::House no_house;
    CHECK(none.servers() == 0);
    throws(CBS_CALL_NOT_OPEN, [&] { none.now(); });
    throws(CBS_CALL_NOT_OPEN, [&] { none.stop(); });
    throws(CBS_CALL_NOT_OPEN, [&] { no_house.turn(); });
    throws(CBS_CALL_NOT_OPEN, [&] { cbs::Realtime(no_house, 1ms); });
    throws(CBS_CALL_NOT_OPEN, [&] { (void)client.send(7, 1); });
    throws(CBS_CALL_NOT_OPEN, [&] { (void)client.blocking_send(job(), 1); });
    throws(CBS_CALL_NOT_OPEN, [&] { client.end(); });
    throws(CBS_CALL_NOT_OPEN, [&] { client.waiting(); });
    CHECK(State::alive == 0);
}

// Units that throw are charged and counted at once. The job goes on, and is freed with its last unit.
static void a_unit_throws() {
    for (const cbs::Measure measure : {cbs::Measure::Time, cbs::Measure::ProcessorTime}) {
        auto [house, clients] = open(cbs::Mode::Soft, 4, 4);
        const bool slow = measure == cbs::Measure::Time;
        CHECK(clients[0].send([slow, state = std::make_unique<State>()](const cbs::Unit &) {
            if (slow) {
                std::this_thread::sleep_for(5ms);
            }
            throw std::runtime_error("a unit fails");
        }, 2) == cbs::Send::Sent);
        clients.clear();
        cbs::Realtime realtime(house, 1ms, cbs::Rounding::Up, measure);
        for (std::uint64_t unit = 1; unit <= 2; unit++) {
            std::string text;
            try {
                realtime.run();
            } catch (const std::runtime_error &error) {
                text = error.what();
            }
            CHECK(text == "a unit fails" && realtime.counts().units == unit);
            CHECK(State::alive == (unit == 2 ? 0 : 1));
            CHECK(!slow || (house.charges(0).most >= 4 && realtime.counts().charged >= 4 * unit));
        }
        CHECK(realtime.run() == cbs::Ended::Closed);
        CHECK(!slow || (realtime.counts().overruns == 2 && realtime.counts().longest >= 5ms));
    }
}

// Told to stop from another thread, from a unit, and before there is anything to do; each time it goes on.
static void stops() {
    auto [house, clients] = open(cbs::Mode::Soft, 4, 4);
    const cbs::Stopper stopper = house.stopper();
    cbs::Realtime realtime(house, 100us, cbs::Rounding::Carry);
    std::thread other([&stopper] {
        std::this_thread::sleep_for(5ms);
        stopper.stop();
    });
    CHECK(realtime.run() == cbs::Ended::Stopped);
    other.join();
    house.stop();
    CHECK(realtime.run() == cbs::Ended::Stopped);
    int units = 0;
    CHECK(clients[0].send([&units, stopper](const cbs::Unit &unit) {
        units++;
        if (unit.token == 0 && !unit.last) {
            stopper.stop();
        }
    }, 2) == cbs::Send::Sent);
    CHECK(realtime.run() == cbs::Ended::Stopped && units == 1 && realtime.counts().units == 1);
    clients.clear();
    CHECK(realtime.run() == cbs::Ended::Closed && units == 2);
    house.stop();
    CHECK(house.run_until_closed() == cbs::Ended::Stopped && house.run_until_closed() == cbs::Ended::Closed);
    house = cbs::House();
    stopper.stop(); // of a house that is gone
}

static void steps() {
    auto [house, clients] = open(cbs::Mode::Throttled, 4, 4);
    cbs::Realtime realtime(house, 1ms);
    CHECK(clients[0].send(7, 1) == cbs::Send::Sent && clients[0].send(job(), 1) == cbs::Send::Sent);
    std::uint64_t told = 0;
    std::size_t taken = 0;
    const cbs::Work work = [&told](const cbs::Unit &unit) { told += unit.token; };
    clients.clear();
    std::optional<cbs::Ended> ended;
    while (!(ended = realtime.step(work))) {
        taken += realtime.taken();
        // However late a step is: a tick that is charged costs the server a period of 4.
        CHECK(house.promised(0).value_or(0) <= house.now() + 12 + 4 * realtime.counts().charged);
    }
    CHECK(ended == cbs::Ended::Closed && told == 7 && taken == 3 && State::alive == 0);
    CHECK(realtime.counts().units == 2 && realtime.counts().most_behind >= realtime.counts().behind);
    CHECK(house.now() >= 4); // the second unit waited for the second period
    auto [other, others] = open(cbs::Mode::Soft, 4, 4);
    cbs::Realtime some(other, 1us);
    CHECK(others[0].send(7, 1) == cbs::Send::Sent);
    while (told < 14) {
        CHECK(!some.step(work));
    }
    CHECK(some.counts().units == 0);
    some.done(); // it takes no more steps
    CHECK(some.counts().units == 1);
}

// A loop of its own, by a clock of its own: units of 3 ms, at ticks of 1 ms.
static void a_loop_of_its_own() {
    using Kind = cbs::Next::Kind;
    auto [house, clients] = open(cbs::Mode::Throttled, 4, 4);
    std::chrono::nanoseconds now = 1s;
    cbs::Pacer pacer = house.pace(1ms, cbs::Rounding::Up, now);
    CHECK(clients[0].send([&now, state = std::make_unique<State>()](const cbs::Unit &) { now += 3ms; }, 1) == cbs::Send::Sent);
    cbs::Next next = house.next(pacer, now);
    CHECK(next.kind == Kind::Unit && next.taken == 1 && next.unit && next.unit->last && !next.until);
    CHECK(State::alive == 0 && pacer.counts().units == 0);
    house.done(pacer, now);
    CHECK(pacer.counts().units == 1 && pacer.counts().charged == 2 && pacer.counts().longest == 3ms);
    CHECK(clients[0].send(7, 1) == cbs::Send::Sent);
    next = house.next(pacer, now); // the job is taken, and its server waits for its deadline
    CHECK(next.taken == 1);
    for (; next.kind != Kind::Unit; next = house.next_measured(pacer, now, 0ms)) {
        CHECK(next.kind == Kind::Listen || next.until);
        now = next.until.value_or(now);
    }
    CHECK(next.unit->token == 7 && now == 1012ms); // three periods pay for three ticks
    house.done_measured(pacer, now + 5ms, 1ms);
    CHECK(pacer.counts().charged == 2 && pacer.counts().units == 2);
    CHECK(house.next(pacer, now).kind == Kind::Listen);
    next = house.next(pacer, now);
    CHECK(next.kind == Kind::Wait && next.until > std::chrono::hours(1)); // until the clock's end
    house.wait(std::chrono::steady_clock::now().time_since_epoch() + 1ms); // nobody rings
    CHECK(house.next(pacer, now).kind == Kind::Listen && house.next(pacer, now).kind == Kind::Wait);
    house.stop();
    house.wait(std::nullopt);
    CHECK(house.is_told_to_stop() && !house.is_told_to_stop());
    CHECK(clients[0].send([](const cbs::Unit &) { throw std::runtime_error("a unit fails"); }, 1) == cbs::Send::Sent);
    clients.clear();
    try {
        while (house.next(pacer, now += 1ms).kind != Kind::Over) {
        }
        CHECK(false);
    } catch (const std::runtime_error &) {
    }
    while (next.kind != Kind::Over) {
        next = house.next(pacer, now);
        now = next.until.value_or(now);
    }
    CHECK(pacer.counts().units == 3);
}

// A job that is a task: its future has the result, or says that the job was freed before.
static void tasks() {
    std::optional<cbs::Opened> opened = open(cbs::Mode::Soft, 4, 4);
    std::packaged_task<std::uint64_t(cbs::Unit)> task([](const cbs::Unit &unit) { return unit.seq + 42; });
    std::packaged_task<int(cbs::Unit)> other([](const cbs::Unit &) { return 1; });
    std::future<std::uint64_t> result = task.get_future();
    std::future<int> broken = other.get_future();
    CHECK(opened->clients[0].send(std::move(task), 1) == cbs::Send::Sent);
    CHECK(opened->clients[0].send(std::move(other), 1) == cbs::Send::Sent);
    CHECK(opened->house.turn().ran.unit && result.get() == 42);
    opened.reset();
    try {
        broken.get();
        CHECK(false);
    } catch (const std::future_error &error) {
        CHECK(error.code() == std::future_errc::broken_promise);
    }
}

// Two senders, one of jobs, and one of plain tokens that are pointers, over rings of one place. The
// house is served in real time, or by turns.
static void two_senders(bool by_turns) {
    constexpr std::uint32_t JOBS = 300;
    cbs::Plan plan;
    plan.admit(1, 2, cbs::Mode::Soft);
    plan.admit(1, 2, cbs::Mode::Soft);
    auto [house, clients] = plan.open(1, 1);
    std::uint64_t sums[2] = {0, 0};
    std::thread of_jobs([&sums, client = std::move(clients[0])]() mutable {
        for (std::uint32_t number = 0; number < JOBS; number++) {
            auto value = std::make_unique<std::uint32_t>(number);
            CHECK(client.blocking_send([&sums, value = std::move(value), state = std::make_unique<State>()](
                                           const cbs::Unit &unit) {
                sums[unit.server] += *value;
            }, 1 + number % 3) == cbs::Send::Sent);
        }
        const cbs::Client ends = std::move(client); // before the thread's end
    });
    std::vector<std::uint32_t> values(JOBS);
    std::thread of_tokens([&values, client = std::move(clients[1])]() mutable {
        for (std::uint32_t number = 0; number < JOBS; number++) {
            values[number] = number;
            CHECK(client.blocking_send(reinterpret_cast<std::uintptr_t>(&values[number]), 1) == cbs::Send::Sent);
        }
        const cbs::Client ends = std::move(client);
    });
    clients.clear();
    std::uint64_t units = 0;
    const cbs::Work work = [&sums, &units](const cbs::Unit &unit) {
        sums[unit.server] += *reinterpret_cast<std::uint32_t *>(static_cast<std::uintptr_t>(unit.token));
        units++;
    };
    cbs::Realtime realtime(house, 10us);
    CHECK((by_turns ? house.run_until_closed(work) : realtime.run(work)) == cbs::Ended::Closed);
    of_jobs.join();
    of_tokens.join();
    std::uint64_t wanted[2] = {0, 0};
    for (std::uint32_t number = 0; number < JOBS; number++) {
        wanted[0] += std::uint64_t{number} * (1 + number % 3);
        wanted[1] += number;
    }
    CHECK(sums[0] == wanted[0] && sums[1] == wanted[1] && State::alive == 0);
    CHECK(units == JOBS && realtime.counts().units == (by_turns ? 0 : 3 * JOBS));
}

// Houses go while two senders of each are at work, and would be for ever. Each job that does not
// come back is done or freed.
static void houses_go() {
    for (int turns = 0; turns < 40; turns++) {
        cbs::Plan plan;
        plan.admit(1, 2, cbs::Mode::Soft);
        plan.admit(1, 2, cbs::Mode::Soft);
        cbs::Opened opened = plan.open(2, 2);
        std::array<std::thread, 2> senders;
        std::atomic<int> begun{0};
        for (std::size_t server = 0; server < 2; server++) {
            senders[server] = std::thread([&begun, client = std::move(opened.clients[server])]() mutable {
                cbs::Send sent = cbs::Send::Sent;
                begun++;
                while (sent == cbs::Send::Sent) {
                    cbs::Job mine = job();
                    sent = client.blocking_send(std::move(mine), 2);
                    CHECK((sent == cbs::Send::HouseGone) == static_cast<bool>(mine));
                }
                CHECK(sent == cbs::Send::HouseGone);
            });
        }
        while (begun < 2) {
            std::this_thread::yield();
        }
        for (int turn = 0; turn < turns; turn++) {
            opened.house.turn();
        }
        opened.house = cbs::House();
        for (std::thread &sender : senders) {
            sender.join();
        }
        CHECK(State::alive == 0);
    }
}

// Figures of a house, which a thread beside it reads.
static void figures() {
    cbs::Plan plan;
    plan.admit(1, 2, cbs::Mode::Soft);
    plan.admit(1, 4, cbs::Mode::Throttled);
    auto [house, clients] = plan.open(8, 8);
    throws(CBS_CALL_NOT_OPEN, [] { cbs::House().live(); });
    const cbs::Live live = house.live({"control", "video"});
    CHECK(live.servers() == 2 && live.name(0) == "control" && live.name(1) == "video");
    throws(CBS_HOUSE_NO_SUCH_SERVER, [&] { live.read(2); });
    throws(CBS_HOUSE_NO_SUCH_SERVER, [&] { live.name(2); });
    std::atomic<bool> runs{true};
    std::thread reader([&runs, live] {
        std::uint64_t units = 0;
        while (runs) {
            const cbs::Figures now = live.read(0);
            CHECK(now.units >= units && now.units + now.charged <= now.ticks);
            units = now.units;
            std::this_thread::sleep_for(100us); // a checker runs one thread at a time
        }
    });
    for (int job = 0; job < 4; job++) {
        CHECK(clients[0].send(7, 2) == cbs::Send::Sent);
        CHECK(clients[1].send(8, 1) == cbs::Send::Sent);
    }
    clients.clear();
    cbs::Realtime(house, 100us).run();
    runs = false;
    reader.join();
    house = cbs::House();
    const cbs::Figures control = live.read(0), other = live.read(1);
    CHECK(control.accepted == 4 && control.responses.count() == 4 && control.units == 8);
    CHECK(other.accepted == 4 && other.responses.count() == 4 && other.units == 4);
    CHECK(control.lateness.count() == 8 && control.late == 8 - control.lateness.of_power(0));
    CHECK(control.responses.least() <= control.responses.mean());
    CHECK(control.responses.mean() <= control.responses.greatest());
    CHECK(control.responses.at_most(1000) == control.responses.greatest());
    CHECK(control.share + other.share <= 1000);
    CHECK(live.table().find("\ncontrol ") != std::string::npos);
}

// Figures that a loop of the program's own has kept, by readings of the test.
static void figures_of_a_loop() {
    cbs::Plan plan;
    plan.admit(2, 5, cbs::Mode::Soft);
    auto [house, clients] = plan.open(1, 8);
    const cbs::Live live = house.live();
    CHECK(live.servers() == 1 && live.name(0) == "0");
    cbs::Pacer pacer = house.pace(1us, cbs::Rounding::Up, 0ns);
    CHECK(clients[0].send(7, 2) == cbs::Send::Sent);
    CHECK(house.next(pacer, 0ns).kind == cbs::Next::Kind::Unit);
    CHECK(house.next_measured(pacer, 3000ns, 900ns).kind == cbs::Next::Kind::Unit);
    house.done(pacer, 12500ns); // it takes 9.5 ticks, and was chosen by 5
    const cbs::Figures now = live.read(0);
    CHECK(now.ticks == 11 && now.units == 2 && now.charged == 9 && now.share == 1000);
    CHECK(now.lateness.total() == 6 && now.late == 1);
    CHECK(now.responses.count() == 1 && now.responses.total() == 12500);
    house.done_measured(pacer, 12600ns, 0ns);
    CHECK(live.read(0).units == 2);
    cbs::Spread spread;
    spread.add(5);
    CHECK(spread.count() == 1 && spread.at_most(1) == 5 && spread.of_power(3) == 1);
    CHECK(spread.of_power(65) == 0);
}

// Jobs that end early: a callable is freed at once, also if its unit throws; a plain token ends, too.
static void ends_early() {
    cbs::Plan plan;
    plan.admit(2, 5, cbs::Mode::Soft);
    auto [house, clients] = plan.open(4, 4);
    const auto held = std::make_shared<int>(0);
    int units = 0;
    const auto late = [held, &units](const cbs::Unit &unit) {
        units++;
        unit.finish();
        if (unit.seq == 1) {
            throw std::runtime_error("late");
        }
    };
    CHECK(clients[0].send(late, 20) == cbs::Send::Sent);
    CHECK(clients[0].send(late, 20) == cbs::Send::Sent);
    CHECK(clients[0].send(7, 20) == cbs::Send::Sent);
    CHECK(clients[0].send(late, 1) == cbs::Send::Sent); // its last unit: nothing ends but the job
    CHECK(held.use_count() == 5);                       // here, in late, and in three jobs
    CHECK(!house.turn().ran.unit->last && units == 1);
    CHECK(held.use_count() == 4 && house.view(0).finished == 1);
    bool thrown = false;
    try {
        house.turn();
    } catch (const std::runtime_error &) {
        thrown = true;
    }
    CHECK(thrown && held.use_count() == 3 && house.view(0).finished == 2);
    const auto work = [](const cbs::Unit &unit) { unit.finish(); };
    const cbs::Turn turn = house.turn(work);
    CHECK(turn.ran.unit->token == 7 && house.view(0).finished == 3);
    turn.ran.unit->finish(); // after the unit it changes nothing
    CHECK(house.turn().ran.unit->last && units == 3 && held.use_count() == 2);
    CHECK(house.view(0).finished == 4 && house.now() == 4);
    CHECK(clients[0].send([held](const cbs::Unit &) {}, 20) == cbs::Send::Sent);
    CHECK(house.turn().ran.unit && held.use_count() == 3);
    house.finish(0); // after its unit
    CHECK(house.view(0).finished == 5 && held.use_count() == 2);
    std::uint32_t status = CBS_OK;
    try {
        house.finish(0);
    } catch (const cbs::Error &error) {
        status = error.status();
    }
    CHECK(status == CBS_HOUSE_NOT_RUNNING);
}

// A tape: its bytes by hand, in pieces; what it loses; and no memory for it.
static void tapes() {
    cbs::Plan plan;
    plan.admit(2, 5, cbs::Mode::Soft);
    plan.admit(2, 5, cbs::Mode::Throttled);
    auto [house, clients] = plan.open(4, 4);
    std::vector<std::uint8_t> tape;
    throws(CBS_CALL_NO_TAPE, [&, &open = house] { open.take_tape(tape); });
    throws(CBS_CALL_NO_TAPE, [&open = house] { open.tape_lost(); });
    throws(CBS_CALL_NO_TAPE, [&, &open = house] { open.end_tape(tape); });
    granted = 0;
    throws(CBS_HOUSE_OUT_OF_MEMORY, [&open = house] { open.record(100); });
    granted = -1;
    CHECK(tape.empty());
    house.record(100);
    CHECK(clients[0].send(7, 3) == cbs::Send::Sent && clients[1].send(8, 4) == cbs::Send::Sent);
    house.turn();
    house.charge(0, 2);
    house.take_tape(tape);
    CHECK((tape == std::vector<std::uint8_t>{0x40, 3, 0x41, 4, 0xC0, 0x80, 2}));
    cbs::House moved = std::move(house); // the tape goes with it
    moved.advance(5);
    CHECK(!moved.tape_lost());
    moved.end_tape(tape);
    CHECK((tape == std::vector<std::uint8_t>{0x40, 3, 0x41, 4, 0xC0, 0x80, 2, 2, 5, 4}));
    throws(CBS_CALL_NO_TAPE, [&] { moved.tape_lost(); });
    // 31 bytes have room for one entry.
    moved.record(0);
    moved.advance(7);
    moved.advance(7);
    CHECK(moved.tape_lost());
    tape.clear();
    moved.end_tape(tape);
    CHECK((tape == std::vector<std::uint8_t>{2, 7})); // no mark
}

static std::string file_at(const std::string &path) {
    std::ifstream file(path, std::ios::binary);
    return std::string((std::istreambuf_iterator<char>(file)), std::istreambuf_iterator<char>());
}

// Returns the steps that the blocks of a file have.
static std::vector<std::uint8_t> steps_of(const std::string &file) {
    const std::vector<std::uint8_t> bytes(file.begin(), file.end());
    std::vector<std::uint8_t> steps(bytes.size());
    steps.resize(steps_in(bytes.data(), bytes.size(), file.find('\3') + 1, steps.data()));
    return steps;
}

// The file of a recorder, which a loop in real time writes to as well; and files that there are not.
static void recorders() {
    const std::string path = "/tmp/cbs-wrapper-" + std::to_string(getpid());
    cbs::Plan plan;
    plan.admit(2, 5, cbs::Mode::Soft);
    auto [house, clients] = plan.open(4, 4);
    for (const cbs::RecordSettings &wrong : {cbs::RecordSettings{{"a b"}, 0ns}, cbs::RecordSettings{{}, 2s},
                                             cbs::RecordSettings{{}, 0ns, 16777185}}) {
        bool thrown = false;
        try {
            cbs::Recorder none(house, path, wrong);
        } catch (const std::system_error &error) {
            thrown = error.code() == std::errc::invalid_argument;
        }
        CHECK(thrown);
    }
    bool thrown = false;
    try {
        cbs::Recorder none(house, "no/such/folder");
    } catch (const std::system_error &error) {
        thrown = error.code() == std::errc::no_such_file_or_directory;
    }
    CHECK(thrown);
    throws(CBS_CALL_NO_TAPE, [&open = house] { open.tape_lost(); });
    cbs::Recorder recorder(house, path, {{"laundry"}, 1us});
    CHECK(clients[0].send(7, 3) == cbs::Send::Sent && house.turn().took == 1);
    recorder.step();
    CHECK(recorder.bytes() == 3 && !recorder.error());
    clients.clear();
    cbs::Realtime realtime(house, 1us);
    realtime.record_to(recorder);
    CHECK(realtime.run() == cbs::Ended::Closed && recorder.bytes() >= 6); // two units, and the end
    CHECK(!recorder.close() && !recorder.close());
    const std::string written = file_at(path);
    const std::string head = "record = 1\ntick = \"1000 ns\"\nbound = [1, 1]\nbacklog = 4\nserver = [\n"
                             "  { name = \"laundry\", mode = \"soft\", budget = 2, period = 5 },\n]\n\3";
    const std::vector<std::uint8_t> steps = steps_of(written);
    CHECK(written.substr(0, head.size()) == head && steps.back() == 4);
    CHECK(steps[0] == 0x40 && steps[1] == 3 && steps[2] == 0xC0);
    std::remove(path.c_str());
}

// Returns the steps that a recorder with so many blocks leaves in the file. Its close, or else its destructor, ends it.
static std::vector<std::uint8_t> recorded(const std::string &path, std::uint32_t blocks, bool closes) {
    auto [house, clients] = open(cbs::Mode::Soft, 4, 4);
    cbs::RecordSettings settings;
    settings.every = 5;
    settings.blocks = blocks;
    {
        cbs::Recorder recorder(house, path, settings);
        for (std::uint64_t job = 0; job < 300; job++) {
            CHECK(clients[0].send(job, 1) == cbs::Send::Sent && house.turn().ran.unit->last);
            recorder.step();
        }
        clients.clear();
        CHECK(house.turn().over);
        CHECK(!closes || (!recorder.close() && recorder.bytes() > 900 && !recorder.close()));
    }
    throws(CBS_CALL_NO_TAPE, [&house = house] { house.tape_lost(); });
    return steps_of(file_at(path));
}

// A thread that writes: the steps of the serving thread, more blocks than there may be, and a pipe that nobody reads any more.
static void recorders_with_a_thread() {
    const std::string path = "/tmp/cbs-wrapper-thread-" + std::to_string(getpid());
    const std::vector<std::uint8_t> wanted = recorded(path, 0, true);
    CHECK(wanted.back() == 4 && recorded(path, 1, true) == wanted);
    CHECK(recorded(path, 8, true) == wanted && recorded(path, 2, false) == wanted);
    auto [house, clients] = open(cbs::Mode::Soft, 4, 4);
    cbs::RecordSettings settings;
    settings.blocks = UINT32_MAX;
    bool thrown = false;
    try {
        cbs::Recorder none(house, path, settings);
    } catch (const std::system_error &error) {
        thrown = error.code() == std::errc::invalid_argument;
    }
    CHECK(thrown && std::remove(path.c_str()) == 0 && mkfifo(path.c_str(), 0600) == 0);
    const int end = ::open(path.c_str(), O_RDONLY | O_NONBLOCK);
    settings.blocks = 2;
    cbs::Recorder recorder(house, path, settings);
    CHECK(end >= 0 && ::close(end) == 0);
    CHECK(clients[0].send(7, 3) == cbs::Send::Sent && house.turn().took == 1);
    for (recorder.step(); !recorder.error(); recorder.step()) {
        std::this_thread::sleep_for(100us);
    }
    CHECK(house.turn().ran.unit && recorder.bytes() == 0); // the house goes on
    CHECK(recorder.close() == std::errc::broken_pipe);
    std::remove(path.c_str());
}

int main() {
    ends_early();
    tapes();
    recorders();
    recorders_with_a_thread();
    figures();
    figures_of_a_loop();
    plans();
    by_hand();
    the_clock_ends();
    no_memory();
    refused();
    unfinished();
    moves();
    a_unit_throws();
    stops();
    steps();
    a_loop_of_its_own();
    tasks();
    two_senders(false);
    two_senders(true);
    houses_go();
    std::puts("cbs.hpp: each call, and no job is lost");
}

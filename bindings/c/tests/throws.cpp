// Units that throw, by a clock of the test: each is charged and counted, and the exception passed
// on.
//
// A tick is a millisecond. Greedy has 1 tick in 10, throttled, and each of its units takes 20 ms
// and throws.
#define CBS_CLOCK_OF_ITS_OWN
#define CBS_WORKED_OF_ITS_OWN
#include <cstdint>
struct cbs_bell;
static std::uint64_t cbs_clock_now();
static void cbs_clock_sleep(std::uint64_t until);
static void cbs_clock_wait(cbs_bell *bell, std::uint64_t until);
static std::uint64_t cbs_clock_worked();
#include "cbs_realtime.h"
#include "check.h"
#include <algorithm>
#include <stdexcept>
#include <vector>

constexpr std::uint64_t MS = 1000000;
constexpr std::uint64_t LENGTH = 10000 * MS; // of each trial

enum { GREEDY, OTHER };

static struct {
    std::uint64_t now, worked;
    cbs_bell *bell;
    std::vector<std::uint64_t> began; // when each unit of greedy began, in ms
    std::uint64_t took[2];            // the units of each, in ms
} world;

static std::uint64_t cbs_clock_now() {
    return world.now;
}

static std::uint64_t cbs_clock_worked() {
    return world.worked;
}

// After ten seconds the house is told to stop.
static void cbs_clock_sleep(std::uint64_t until) {
    world.now = std::max(world.now, until);
    if (world.now >= LENGTH) {
        cbs_bell_stop(world.bell);
    }
}

static void cbs_clock_wait(cbs_bell *, std::uint64_t until) {
    cbs_clock_sleep(until);
}

// A unit: 20 ms of greedy, which work for 0.4 ms, and 1 ms of the other.
static void work(void *, const cbs_unit *unit) {
    const std::uint64_t ms = unit->server == GREEDY ? 20 : 1;
    if (unit->server == GREEDY) {
        world.began.push_back(world.now / MS);
    }
    cbs_clock_sleep(world.now + ms * MS);
    world.worked += 400000;
    world.took[unit->server] += ms;
    if (unit->server == GREEDY) {
        throw std::runtime_error("a unit fails");
    }
}

// A house whose clients have more to do than ten seconds.
struct Trial {
    setup opened{};
    cbs_bell bell{};
    cbs_realtime realtime{};
    std::uint64_t thrown = 0;

    explicit Trial(std::size_t clients) {
        static const cbs_server servers[2] = {{1, 10, CBS_THROTTLED}, {9, 10, CBS_SOFT}};
        world = {};
        world.bell = &bell;
        set_up(&opened, servers, clients, 8, 8);
        CHECK(cbs_bell_open(&bell) == 0);
        realtime = cbs_realtime_of(MS, &bell, work, nullptr);
        for (std::size_t client = 0; client < clients; client++) {
            send_job(&opened.clients[client], 0, 1000000, 0);
        }
    }

    ~Trial() {
        tear_down(&opened);
        cbs_bell_close(&bell);
    }

    // Serves until the house is told to stop. After each unit that throws it is served again.
    void serves() {
        for (bool stopped = false; !stopped;) {
            try {
                CHECK(cbs_realtime_run(&realtime, &opened.house) == CBS_OK);
                stopped = true;
            } catch (const std::runtime_error &) {
                thrown++;
                std::uint64_t total, most;
                CHECK(cbs_charges(&opened.house, GREEDY, &total, &most) == CBS_OK);
                CHECK(total == (realtime.processor_time ? 0 : 19 * thrown)); // at once
            }
        }
        CHECK(!realtime.over);
    }
};

// A unit is paid by 20 periods, so there is one each 200 ms, ten per cent of the time.
static void greedy_alone() {
    Trial trial(1);
    trial.serves();
    CHECK(trial.thrown == 50 && world.took[GREEDY] * 100 <= 12 * (world.now / MS));
    for (std::uint64_t unit = 0; unit < 50; unit++) {
        CHECK(world.began[unit] == 200 * unit);
    }
    const struct cbs_counts &counts = trial.realtime.counts;
    CHECK(counts.units == 50 && counts.overruns == 50 && counts.charged == 950);
    CHECK(counts.longest == 20 * MS && counts.most_behind == 0);
}

// Beside one that is always busy, and has 9 ticks in 10.
static void greedy_beside_a_busy_client() {
    Trial trial(2);
    trial.serves();
    const struct cbs_counts &counts = trial.realtime.counts;
    CHECK(world.took[GREEDY] * 100 <= 12 * (world.now / MS) && trial.thrown == world.began.size());
    CHECK(counts.overruns == trial.thrown && counts.charged == 19 * trial.thrown);
    CHECK(counts.units == trial.thrown + world.took[OTHER]);
    CHECK(world.took[GREEDY] + world.took[OTHER] == world.now / MS); // nobody waited
}

// By processor time the same units are 0.4 ms long, and none is charged.
static void by_processor_time() {
    Trial trial(1);
    trial.realtime.processor_time = true;
    try {
        cbs_realtime_run(&trial.realtime, &trial.opened.house);
        CHECK(false);
    } catch (const std::runtime_error &) {
    }
    const struct cbs_counts &counts = trial.realtime.counts;
    CHECK(counts.units == 1 && counts.overruns == 0 && counts.charged == 0);
    CHECK(counts.longest == 400000);
}

int main() {
    greedy_alone();
    greedy_beside_a_busy_client();
    by_processor_time();
    std::puts("units that throw: charged and counted, all as by hand");
}

/* cbs_realtime.h by a clock of the test: overruns of every length, clocks that jump, senders that never come, that die. A tick is a
 * millisecond; times are in microseconds, but for those of the clock. */
#define CBS_CLOCK_OF_ITS_OWN
#define _POSIX_C_SOURCE 200809L
#include <stdint.h>
struct cbs_bell;
static uint64_t cbs_clock_now(void);
static void cbs_clock_sleep(uint64_t until);
static void cbs_clock_wait(struct cbs_bell *bell, uint64_t until);
#include "cbs_realtime.h"
#include "check.h"
#include <string.h>

#define TICK 1000000U

/* What happens at a time. */
enum { SENDS = 1, LEAVES, STOPS };

struct event {
    uint64_t at; /* in microseconds; they come in this order */
    int what;
    unsigned client;
};

static struct {
    uint64_t now; /* in nanoseconds */
    const struct event *events;
    size_t n;
    unsigned waits, sleeps;
    uint64_t jump; /* in nanoseconds, after the second sleep */
    struct setup setup;
    struct cbs_bell bell;
    struct cbs_realtime realtime;
    const uint64_t *lengths; /* of the units */
    size_t units;
    uint64_t began[16]; /* when each unit began */
    uint64_t steps_back; /* by so much the clock steps back in the second unit */
} world;

static void happens(const struct event *event) {
    struct cbs_handle *client = &world.setup.clients[event->client];
    uint64_t seq;
    if (event->what == SENDS) {
        CHECK(cbs_send(client, event->at, 1, &seq) == CBS_OK);
        cbs_bell_ring(&world.bell);
    } else if (event->what == LEAVES) {
        cbs_free(client);
        cbs_bell_ring(&world.bell);
    } else {
        cbs_bell_stop(&world.bell);
    }
}

/* Lets the next event happen, if it comes by that time. */
static bool next_by(uint64_t until) {
    if (world.n == 0 || world.events->at * 1000 > until) {
        return false;
    }
    world.now = world.events->at * 1000 > world.now ? world.events->at * 1000 : world.now;
    world.n--;
    happens(world.events++);
    return true;
}

static uint64_t cbs_clock_now(void) {
    return world.now;
}

static void cbs_clock_sleep(uint64_t until) {
    while (next_by(until)) {
    }
    world.now = until > world.now ? until : world.now;
    world.now += ++world.sleeps == 2 ? world.jump : 0;
}

static void cbs_clock_wait(struct cbs_bell *bell, uint64_t until) {
    world.waits++;
    if (next_by(until)) {
        CHECK(bell->rung); /* nobody else would wake a house */
        cbs_bell_wait(bell, 0);
    } else {
        CHECK(until != UINT64_MAX); /* the house would wait for ever */
        world.now = until > world.now ? until : world.now;
    }
}

static void work(void *context, const struct cbs_unit *unit) {
    CHECK(context == &world && unit->kind >= CBS_RUN_UNIT);
    CHECK(world.units < 16);
    world.began[world.units] = world.now / 1000;
    world.now += world.lengths != NULL ? world.lengths[world.units] * 1000 : 0;
    world.units++;
    world.now -= world.units == 2 ? world.steps_back : 0;
}

/* A new world with these servers. */
static void make(const struct cbs_server *servers, size_t n, bool carry, const uint64_t *lengths, const struct event *events,
                 size_t events_n) {
    memset(&world, 0, sizeof world);
    set_up(&world.setup, servers, n, 8, 8);
    CHECK(cbs_bell_open(&world.bell) == 0);
    world.realtime = cbs_realtime_of(TICK, &world.bell, work, &world);
    world.realtime.carry = carry;
    world.lengths = lengths;
    world.events = events;
    world.n = events_n;
}

static void end(void) {
    tear_down(&world.setup);
    cbs_bell_close(&world.bell);
}

static void sends(unsigned client, uint32_t units) {
    uint64_t seq;
    CHECK(cbs_send(&world.setup.clients[client], 0, units, &seq) == CBS_OK);
}

/* Serves until all is over. */
static void serves(void) {
    CHECK(cbs_realtime_run(&world.realtime, &world.setup.house) == CBS_OK && world.realtime.over);
}

static uint64_t clock_of_house(void) {
    uint64_t now;
    CHECK(cbs_now(&world.setup.house, &now) == CBS_OK);
    return now;
}

static const struct cbs_server alone[1] = {{1, 1, CBS_SOFT}};

/* A unit is charged what it took beyond a tick, rounded up. The next begins with the next tick of the real clock. */
static void overruns_of_every_length(void) {
    static const uint64_t rows[][2] = {{0, 0}, {1, 0}, {300, 0}, {999, 0}, {1000, 0}, {1001, 1}, {1990, 1}, {2000, 1},
                                       {2001, 2}, {20000, 19}, {3600000000U, 3599999}};
    for (size_t row = 0; row < sizeof rows / sizeof rows[0]; row++) {
        const uint64_t lengths[2] = {rows[row][0], 10};
        uint64_t charge = rows[row][1];
        make(alone, 1, false, lengths, NULL, 0);
        sends(0, 2);
        cbs_free(&world.setup.clients[0]);
        serves();
        const struct cbs_counts *counts = &world.realtime.counts;
        CHECK(world.began[0] == 0 && world.began[1] == (charge + 1) * 1000);
        CHECK(clock_of_house() == charge + 2);
        CHECK(counts->units == 2 && counts->charged == charge && counts->overruns == (charge > 0));
        CHECK(counts->longest == (lengths[0] > 10 ? lengths[0] : 10) * 1000);
        CHECK(counts->behind == 0 && counts->most_behind == 0);
        end();
    }
}

/* Three units of 1.99 ticks: 0 are charged, then 1 of 1.98, then 1 of 1.97. */
static void what_is_carried_is_charged_later(void) {
    static const uint64_t lengths[3] = {1990, 1990, 1990};
    make(alone, 1, true, lengths, NULL, 0);
    sends(0, 3);
    cbs_free(&world.setup.clients[0]);
    serves();
    CHECK(world.began[1] == 1990 && world.began[2] == 3980);
    CHECK(clock_of_house() == 5 && world.realtime.counts.charged == 2 && world.realtime.counts.overruns == 3);
    end();
}

/* A budget of 1 tick in 10: the second unit waits for tick 10, and the third, after one of 3 ticks, for 40. */
static void throttled_servers_wait(void) {
    static const struct cbs_server servers[1] = {{1, 10, CBS_THROTTLED}};
    static const uint64_t lengths[3] = {200, 3000, 200};
    make(servers, 1, false, lengths, NULL, 0);
    sends(0, 3);
    cbs_free(&world.setup.clients[0]);
    serves();
    CHECK(world.began[0] == 0 && world.began[1] == 10000 && world.began[2] == 40000);
    CHECK(world.waits == 2 && clock_of_house() == 41);
    end();
}

/* The house sleeps until each send, and the ticks meanwhile are nobody's. The sender dies while the house sleeps. */
static void a_send_wakes_an_idle_house(void) {
    static const struct event events[4] = {{2500, SENDS, 0}, {7300, SENDS, 0}, {1000000, SENDS, 0}, {2000100, LEAVES, 0}};
    make(alone, 1, false, NULL, events, 4);
    serves();
    CHECK(world.units == 3 && world.began[0] == 2500 && world.began[1] == 7300 && world.began[2] == 1000000);
    CHECK(world.waits == 4 && clock_of_house() == 2000 && world.realtime.counts.most_behind == 0);
    end();
}

static void a_send_is_taken_while_somebody_is_throttled(void) {
    static const struct cbs_server servers[2] = {{1, 10, CBS_THROTTLED}, {1, 10, CBS_SOFT}};
    static const struct event events[2] = {{4200, SENDS, 1}, {4300, LEAVES, 1}};
    make(servers, 2, false, NULL, events, 2);
    sends(0, 2);
    cbs_free(&world.setup.clients[0]);
    serves();
    CHECK(world.units == 3 && world.began[0] == 0 && world.began[1] == 4200 && world.began[2] == 10000);
    end();
}

/* The clock jumps by three ticks while a job waits: they are caught up by units that follow each other at once. */
static void a_clock_that_jumps_ahead(void) {
    make(alone, 1, false, NULL, NULL, 0);
    world.jump = 3 * TICK;
    sends(0, 6);
    cbs_free(&world.setup.clients[0]);
    serves();
    CHECK(world.began[1] == 1000 && world.began[2] == 5000 && world.began[5] == 5000);
    CHECK(world.realtime.counts.most_behind == 3 && world.realtime.counts.behind == 0 && world.realtime.counts.charged == 0);
    end();
}

/* A step back counts as no time, and nobody waits until the old time has come again. */
static void a_clock_that_steps_back(void) {
    make(alone, 1, false, NULL, NULL, 0);
    world.now = 1000 * (uint64_t)TICK;
    world.steps_back = 600 * (uint64_t)TICK;
    sends(0, 4);
    cbs_free(&world.setup.clients[0]);
    serves();
    CHECK(world.began[1] == 1001000 && world.began[2] == 402000 && world.began[3] == 403000);
    CHECK(world.realtime.counts.overruns == 0 && clock_of_house() == 4);
    end();
}

/* Nobody ever sends: the house sleeps for an hour, until it is told to stop. Then it goes on. */
static void senders_that_never_come(void) {
    static const struct event events[2] = {{3600000000U, STOPS, 0}, {3600500000U, STOPS, 0}};
    make(alone, 1, false, NULL, events, 2);
    for (unsigned hours = 0; hours < 2; hours++) {
        CHECK(cbs_realtime_run(&world.realtime, &world.setup.house) == CBS_OK);
        CHECK(!world.realtime.over && world.waits == hours + 1);
    }
    cbs_free(&world.setup.clients[0]);
    serves();
    CHECK(world.units == 0 && clock_of_house() == 3600500);
    end();
}

static void the_clocks_end_is_told(void) {
    make(alone, 1, false, NULL, NULL, 0);
    CHECK(cbs_advance(&world.setup.house, 999999999999U) == CBS_OK);
    sends(0, 2);
    CHECK(cbs_realtime_run(&world.realtime, &world.setup.house) == CBS_HOUSE_CLOCK_END);
    CHECK(world.units == 1);
    end();
}

static void a_handle_that_is_not_open_is_told(void) {
    make(alone, 1, false, NULL, NULL, 0);
    cbs_free(&world.setup.house);
    CHECK(cbs_realtime_run(&world.realtime, &world.setup.house) == CBS_CALL_NOT_OPEN);
    CHECK(cbs_realtime_run(&world.realtime, &world.setup.clients[0]) == CBS_CALL_OTHER_KIND);
    end();
}

/* A house that was served before: a job is in progress, and one server is closed. */
static void a_house_that_was_served_before_goes_on(void) {
    static const struct cbs_server servers[2] = {{1, 2, CBS_SOFT}, {1, 2, CBS_SOFT}};
    struct cbs_turn turn;
    make(servers, 2, false, NULL, NULL, 0);
    sends(0, 3);
    cbs_free(&world.setup.clients[0]);
    cbs_free(&world.setup.clients[1]);
    CHECK(cbs_turn(&world.setup.house, &turn) == CBS_OK && turn.ran.kind == CBS_RUN_UNIT && !turn.over);
    serves();
    CHECK(world.units == 2);
    end();
}

int main(void) {
    overruns_of_every_length();
    what_is_carried_is_charged_later();
    throttled_servers_wait();
    a_send_wakes_an_idle_house();
    a_send_is_taken_while_somebody_is_throttled();
    a_clock_that_jumps_ahead();
    a_clock_that_steps_back();
    senders_that_never_come();
    the_clocks_end_is_told();
    a_handle_that_is_not_open_is_told();
    a_house_that_was_served_before_goes_on();
    printf("pacing by a clock of the test: all as by hand\n");
    return 0;
}

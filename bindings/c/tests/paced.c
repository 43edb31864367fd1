/* What a host does next, by readings that the test makes up: each answer of cbs_next, measured
 * time, loops of one's own that look at the house meanwhile, and cbs_realtime_step by a clock of
 * the test. What comes of no memory stands in memory.c.
 *
 * Readings are in nanoseconds. A tick is a microsecond, and in the loops a millisecond. */
#define CBS_CLOCK_OF_ITS_OWN
#define CBS_WORKED_OF_ITS_OWN
#define _POSIX_C_SOURCE 200809L
#include <stdint.h>
struct cbs_bell;
static uint64_t cbs_clock_now(void);
static void cbs_clock_sleep(uint64_t until);
static void cbs_clock_wait(struct cbs_bell *bell, uint64_t until);
static uint64_t cbs_clock_worked(void);
#include "cbs_realtime.h"
#include "check.h"
#include <string.h>

#define TICK 1000U
#define MS 1000000U
#define CLOCK_END 1000000000000U

static const struct cbs_server alone[1] = {{1, 1, CBS_SOFT}};
static const struct cbs_server tenth[1] = {{1, 10, CBS_THROTTLED}};

/* What each case has. */
static struct setup setup;
static struct cbs_pacer pacer;
static struct cbs_next next;

static void make(const struct cbs_server *servers, size_t n, uint64_t time) {
    set_up(&setup, servers, n, 8, 8);
    CHECK(cbs_pace(&setup.house, TICK, false, time, &pacer) == CBS_OK);
}

static void sends(unsigned client, uint64_t token, uint32_t units) {
    uint64_t seq;
    CHECK(cbs_send(&setup.clients[client], token, units, &seq) == CBS_OK);
}

/* Checks what is next, but for its unit. */
static void is_next(uint32_t kind, uint32_t taken, uint64_t until) {
    CHECK(next.kind == kind && next.taken == taken);
    CHECK((kind != CBS_NEXT_SLEEP && kind != CBS_NEXT_WAIT) || next.until == until);
}

/* Asks at this reading, and checks what is next. */
static void asks(uint64_t time, uint32_t kind, uint32_t taken, uint64_t until) {
    memset(&next, 0x5a, sizeof next);
    CHECK(cbs_next(&setup.house, &pacer, time, &next) == CBS_OK);
    is_next(kind, taken, until);
}

/* The same, if the unit before took so long by another clock. */
static void asks_measured(uint64_t time, uint64_t took, uint32_t kind, uint32_t taken) {
    memset(&next, 0x5a, sizeof next);
    CHECK(cbs_next_measured(&setup.house, &pacer, time, took, &next) == CBS_OK);
    is_next(kind, taken, 0);
}

static uint64_t clock_of_house(void) {
    uint64_t now = UNTOUCHED;
    CHECK(cbs_now(&setup.house, &now) == CBS_OK);
    return now;
}

static uint64_t promised(uint16_t server) {
    uint64_t low = UNTOUCHED, high = UNTOUCHED;
    CHECK(cbs_promised(&setup.house, server, &low, &high) == CBS_OK);
    CHECK(high == (low == UINT64_MAX ? UINT64_MAX : 0));
    return low;
}

static uint64_t charged(uint16_t server) {
    uint64_t total = UNTOUCHED, most = UNTOUCHED;
    CHECK(cbs_charges(&setup.house, server, &total, &most) == CBS_OK);
    return total;
}

static void counted(uint64_t units, uint64_t overruns, uint64_t longest, uint64_t ticks) {
    struct cbs_counts counts;
    memset(&counts, 0x5a, sizeof counts);
    cbs_counts(&pacer, &counts);
    CHECK(counts.units == units && counts.overruns == overruns);
    CHECK(counts.longest == longest && counts.charged == ticks);
}

static void lags(uint64_t behind, uint64_t most) {
    struct cbs_counts counts;
    cbs_counts(&pacer, &counts);
    CHECK(counts.behind == behind && counts.most_behind == most);
}

/* The second unit comes at 6000, a tick after the first. It takes 2.5 ticks: 2 are charged,
 * rounded up. */
static void units_and_sleeps(void) {
    make(alone, 1, 5000);
    sends(0, 7, 2);
    asks(5000, CBS_NEXT_UNIT, 1, 0);
    is_unit(&next.unit, CBS_RUN_UNIT, 0, 0, 7);
    counted(0, 0, 0, 0);
    asks(5300, CBS_NEXT_SLEEP, 0, 6000);
    counted(1, 0, 300, 0);
    asks(5999, CBS_NEXT_SLEEP, 0, 6000);
    asks(6000, CBS_NEXT_UNIT, 0, 0);
    is_unit(&next.unit, CBS_RUN_DONE, 0, 0, 7);
    asks(8500, CBS_NEXT_LISTEN, 0, 0);
    counted(2, 1, 2500, 2);
    CHECK(clock_of_house() == 4 && charged(0) == 2);
    tear_down(&setup);
}

/* Nobody has a job: it waits for a message until the clock's end. One that comes first is seen by
 * the question after. */
static void listens_and_waits(void) {
    static const struct cbs_server servers[2] = {{1, 2, CBS_SOFT}, {1, 2, CBS_SOFT}};
    make(servers, 2, 0);
    asks(0, CBS_NEXT_LISTEN, 0, 0);
    CHECK(cbs_end(&setup.clients[1]) == CBS_OK);
    asks(10, CBS_NEXT_LISTEN, 1, 0); /* the end was taken, so it looks once more */
    asks(20, CBS_NEXT_WAIT, 0, CLOCK_END * TICK);
    sends(0, 3, 1);
    asks(2500, CBS_NEXT_UNIT, 1, 0); /* two ticks have passed meanwhile */
    is_unit(&next.unit, CBS_RUN_DONE, 0, 0, 3);
    CHECK(clock_of_house() == 3);
    lags(0, 0);
    tear_down(&setup);
}

/* 1 tick in 10: the second unit waits for tick 10. A wait that ends too soon is told again. */
static void waits_for_a_budget(void) {
    make(tenth, 1, 0);
    sends(0, 3, 2);
    asks(0, CBS_NEXT_UNIT, 1, 0);
    CHECK(promised(0) == 20);
    asks(200, CBS_NEXT_LISTEN, 0, 0);
    asks(200, CBS_NEXT_WAIT, 0, 10000);
    asks(4200, CBS_NEXT_LISTEN, 0, 0);
    CHECK(clock_of_house() == 4);
    asks(4200, CBS_NEXT_WAIT, 0, 10000);
    asks(10000, CBS_NEXT_UNIT, 0, 0);
    is_unit(&next.unit, CBS_RUN_DONE, 0, 0, 3);
    tear_down(&setup);
}

static void all_is_over(void) {
    make(alone, 1, 0);
    sends(0, 3, 1);
    cbs_free(&setup.clients[0]);
    asks(0, CBS_NEXT_UNIT, 1, 0);
    asks(100, CBS_NEXT_OVER, 1, 0); /* it took the end */
    asks(5000, CBS_NEXT_OVER, 0, 0);
    counted(1, 0, 100, 0);
    tear_down(&setup);
}

/* The unit at the last tick but one takes five: one more can be charged, and then the clock is at
 * its end, for ever. */
static void the_clocks_end(void) {
    set_up(&setup, alone, 1, 8, 8);
    CHECK(cbs_advance(&setup.house, CLOCK_END - 2) == CBS_OK);
    CHECK(cbs_pace(&setup.house, TICK, false, 0, &pacer) == CBS_OK);
    sends(0, 3, 2);
    asks(0, CBS_NEXT_UNIT, 1, 0);
    asks(5000, CBS_NEXT_CLOCK_END, 0, 0);
    CHECK(clock_of_house() == CLOCK_END && charged(0) == 1);
    counted(1, 1, 5000, 1);
    asks(9000, CBS_NEXT_CLOCK_END, 0, 0);
    tear_down(&setup);
}

/* A step back is no time: the unit before took none. The second unit comes a tick after the
 * first, by the new time. */
static void a_step_back(void) {
    make(alone, 1, 90000);
    sends(0, 3, 3);
    asks(90000, CBS_NEXT_UNIT, 1, 0);
    asks(20000, CBS_NEXT_SLEEP, 0, 21000);
    asks(21000, CBS_NEXT_UNIT, 0, 0);
    counted(1, 0, 0, 0);
    tear_down(&setup);
}

/* Each unit takes three ticks by the clock and 0.4 by its own measure. So none is charged, and
 * the house is behind. More than the three ticks is not charged in any case. */
static void measured_units(void) {
    make(alone, 1, 0);
    sends(0, 3, 4);
    asks(0, CBS_NEXT_UNIT, 1, 0);
    asks_measured(3000, 400, CBS_NEXT_UNIT, 0);
    counted(1, 0, 400, 0);
    lags(2, 2);
    asks_measured(6000, 400, CBS_NEXT_UNIT, 0);
    lags(4, 4);
    asks_measured(9000, 1001, CBS_NEXT_UNIT, 0); /* 1 is charged: tick 4 of 9 */
    counted(3, 1, 1001, 1);
    lags(5, 5);
    asks_measured(12000, 99999, CBS_NEXT_LISTEN, 0); /* 2 are: tick 7, and the idle ones pass */
    counted(4, 2, 3000, 3);
    lags(0, 5);
    CHECK(clock_of_house() == 12);
    tear_down(&setup);
}

/* With carry two units of 1.6 ticks are charged one, and 0.2 is carried. Rounded up they are
 * charged one each. */
static void what_is_carried(void) {
    for (unsigned carry = 0; carry < 2; carry++) {
        set_up(&setup, alone, 1, 8, 8);
        CHECK(cbs_pace(&setup.house, TICK, carry == 1, 0, &pacer) == CBS_OK);
        sends(0, 3, 2);
        asks(0, CBS_NEXT_UNIT, 1, 0);
        asks_measured(3000, 1600, CBS_NEXT_UNIT, 0);
        CHECK(charged(0) == (carry == 1 ? 0 : 1));
        asks_measured(6000, 1600, CBS_NEXT_LISTEN, 0);
        CHECK(charged(0) == (carry == 1 ? 1 : 2));
        tear_down(&setup);
    }
}

/* A unit ends at cbs_done, once. What the host does until it asks again is nobody's. */
static void units_that_end_by_done(void) {
    make(alone, 1, 0);
    sends(0, 3, 2);
    asks(0, CBS_NEXT_UNIT, 1, 0);
    CHECK(cbs_done(&setup.house, &pacer, 2500) == CBS_OK);
    counted(1, 1, 2500, 2);
    CHECK(cbs_done(&setup.house, &pacer, 9000) == CBS_OK);
    counted(1, 1, 2500, 2);
    CHECK(clock_of_house() == 3 && charged(0) == 2);
    asks(20000, CBS_NEXT_UNIT, 0, 0);
    lags(17, 17);
    CHECK(cbs_done_measured(&setup.house, &pacer, 25000, 2000) == CBS_OK);
    counted(2, 2, 2500, 3);
    CHECK(cbs_done_measured(&setup.house, &pacer, 30000, 2000) == CBS_OK);
    counted(2, 2, 2500, 3);
    tear_down(&setup);
}

/* All bytes 0 are a pacer with a tick of a nanosecond, whose time began at 0. So is a tick of 0. */
static void a_pacer_of_zeros(void) {
    for (unsigned begun = 0; begun < 2; begun++) {
        set_up(&setup, alone, 1, 8, 8);
        memset(&pacer, 0, sizeof pacer);
        CHECK(begun == 0 || cbs_pace(&setup.house, 0, false, 0, &pacer) == CBS_OK);
        counted(0, 0, 0, 0);
        sends(0, 3, 2);
        asks(5, CBS_NEXT_UNIT, 1, 0); /* tick 5 */
        asks(8, CBS_NEXT_UNIT, 0, 0); /* which took three */
        CHECK(clock_of_house() == 9 && charged(0) == 2);
        asks(8, CBS_NEXT_LISTEN, 0, 0);
        counted(2, 1, 3, 2);
        tear_down(&setup);
    }
}

/* Each call refuses what is no open house, and writes nothing. */
static void refuses(struct cbs_handle *house, uint32_t status) {
    struct cbs_pacer before;
    memset(&next, 0x5a, sizeof next);
    memset(&pacer, 0x5a, sizeof pacer);
    CHECK(cbs_pace(house, TICK, false, 0, &pacer) == status && untouched(&pacer, sizeof pacer));
    memset(&pacer, 0, sizeof pacer);
    before = pacer;
    CHECK(cbs_next(house, &pacer, 7, &next) == status);
    CHECK(cbs_next_measured(house, &pacer, 7, 1, &next) == status);
    CHECK(cbs_done(house, &pacer, 7) == status && cbs_done_measured(house, &pacer, 7, 1) == status);
    CHECK(untouched(&next, sizeof next) && memcmp(&pacer, &before, sizeof pacer) == 0);
}

static void no_open_house(void) {
    struct cbs_handle shut = CBS_HANDLE_INIT;
    make(alone, 1, 0);
    refuses(&setup.clients[0], CBS_CALL_OTHER_KIND);
    cbs_free(&setup.house);
    refuses(&setup.house, CBS_CALL_NOT_OPEN);
    refuses(&shut, CBS_CALL_NOT_OPEN);
    tear_down(&setup);
}

/* ---- Loops, by a clock that stands unless somebody waits or works ---- */

static struct {
    uint64_t now, worked;
    uint64_t look; /* when the house is looked at next */
    unsigned looks;
} world;

static uint64_t cbs_clock_now(void) {
    return world.now;
}

static uint64_t cbs_clock_worked(void) {
    return world.worked;
}

static void cbs_clock_sleep(uint64_t until) {
    world.now = until > world.now ? until : world.now;
}

/* Nobody rings. Each wait ends when the house is looked at, too. */
static void cbs_clock_wait(struct cbs_bell *bell, uint64_t until) {
    (void)bell;
    cbs_clock_sleep(until < world.look ? until : world.look);
}

/* A unit of three ticks, of which the thread works for so long. */
static void work(void *context, const struct cbs_unit *unit) {
    CHECK(unit->kind >= CBS_RUN_UNIT);
    world.now += 3 * MS;
    world.worked += *(const uint64_t *)context;
}

/* A house with 1 tick in 10, with a job of three units and its end. */
static void make_greedy(void) {
    memset(&world, 0, sizeof world);
    world.look = 10 * MS;
    set_up(&setup, tenth, 1, 8, 8);
    sends(0, 3, 3);
    cbs_free(&setup.clients[0]);
}

/* Looks at the house each 10 ms. By hand: a unit of three ticks is paid by three periods. So the
 * units come at 0, 30 and 60. After the first the deadline is 30, and two units are left, for 50.
 * After the second it is 60, and one is left, for 70. */
static void looks(const struct cbs_counts *counts) {
    static const uint64_t rows[2][4] = {{30, 2, 50, 1}, {60, 4, 70, 2}};
    if (world.now < world.look) {
        return;
    }
    CHECK(world.looks < 6 && world.now == world.look);
    const uint64_t *row = rows[world.looks / 3]; /* three looks between two units */
    shows(&setup, 0, 0, row[0], true);
    CHECK(charged(0) == row[1] && promised(0) == row[2]);
    CHECK(counts->units == row[3] && counts->charged == row[1] && counts->longest == 3 * MS);
    CHECK(counts->behind == 0);
    world.looks++;
    world.look += 10 * MS;
}

static void all_was_seen(const struct cbs_counts *counts) {
    CHECK(world.looks == 6 && world.now == 63 * MS && clock_of_house() == 63);
    CHECK(counts->units == 3 && counts->overruns == 3 && counts->charged == 6 && charged(0) == 6);
    tear_down(&setup);
}

/* A loop over cbs_next. What is promised is asked right after the question that took the job: 10
 * for one unit, 30 for three. */
static void a_loop_of_ones_own(void) {
    const uint64_t worked = 0;
    struct cbs_counts counts;
    uint64_t told = 0;
    make_greedy();
    CHECK(cbs_pace(&setup.house, MS, false, cbs_clock_now(), &pacer) == CBS_OK);
    for (;;) {
        CHECK(cbs_next(&setup.house, &pacer, cbs_clock_now(), &next) == CBS_OK);
        CHECK(next.kind <= CBS_NEXT_OVER);
        cbs_counts(&pacer, &counts);
        told = next.taken > 0 && told == 0 ? promised(0) : told;
        if (next.kind == CBS_NEXT_UNIT) {
            work((void *)&worked, &next.unit);
        } else if (next.kind == CBS_NEXT_SLEEP || next.kind == CBS_NEXT_WAIT) {
            cbs_clock_wait(NULL, next.until);
        } else if (next.kind == CBS_NEXT_OVER) {
            break;
        }
        looks(&counts);
    }
    CHECK(told == 30);
    all_was_seen(&counts);
}

/* The same by steps. */
static void steps(void) {
    uint64_t worked = 0;
    struct cbs_bell bell;
    make_greedy();
    CHECK(cbs_bell_open(&bell) == 0);
    struct cbs_realtime realtime = cbs_realtime_of(MS, &bell, work, &worked);
    while (!realtime.over) {
        CHECK(!cbs_bell_stopped(&bell) && cbs_realtime_step(&realtime, &setup.house) == CBS_OK);
        looks(&realtime.counts);
    }
    all_was_seen(&realtime.counts);
    cbs_bell_close(&bell);
}

/* Units of three ticks of which the thread works for 0.4 or 1.5: by processor time they are
 * charged 0 or 1. The house is behind by the rest, until nobody is ready. */
static void units_by_processor_time(void) {
    static const uint64_t rows[2][3] = {{400000, 0, 4}, {1500000, 1, 2}};
    for (unsigned row = 0; row < 2; row++) {
        uint64_t worked = rows[row][0], charge = rows[row][1];
        struct cbs_bell bell;
        memset(&world, 0, sizeof world);
        world.look = UINT64_MAX;
        world.worked = 77;
        set_up(&setup, alone, 1, 8, 8);
        sends(0, 3, 3);
        cbs_free(&setup.clients[0]);
        CHECK(cbs_bell_open(&bell) == 0);
        struct cbs_realtime realtime = cbs_realtime_of(MS, &bell, work, &worked);
        realtime.processor_time = true;
        CHECK(cbs_realtime_run(&realtime, &setup.house) == CBS_OK && realtime.over);
        CHECK(world.now == 9 * MS && clock_of_house() == 9 && charged(0) == 3 * charge);
        CHECK(realtime.counts.units == 3 && realtime.counts.overruns == 3 * charge);
        CHECK(realtime.counts.charged == 3 * charge && realtime.counts.longest == worked);
        CHECK(realtime.counts.behind == 0 && realtime.counts.most_behind == rows[row][2]);
        tear_down(&setup);
        cbs_bell_close(&bell);
    }
}

int main(void) {
    units_and_sleeps();
    listens_and_waits();
    waits_for_a_budget();
    all_is_over();
    the_clocks_end();
    a_step_back();
    measured_units();
    what_is_carried();
    units_that_end_by_done();
    a_pacer_of_zeros();
    no_open_house();
    a_loop_of_ones_own();
    steps();
    units_by_processor_time();
    printf("what a host does next, by readings of the test: all as by hand\n");
    return 0;
}

/* Figures of servers, by readings that the test makes up: summaries of numbers, what is late, which
 * response is whose, cbs_realtime.h with figures by a clock of the test, the table, and a reader on
 * another thread. What is wanted was found by hand.
 *
 * Readings are in nanoseconds. A tick is a microsecond, and in the loops a millisecond. */
#define CBS_CLOCK_OF_ITS_OWN
#define _POSIX_C_SOURCE 200809L
#include <stdint.h>
struct cbs_bell;
static uint64_t cbs_clock_now(void);
static void cbs_clock_sleep(uint64_t until);
static void cbs_clock_wait(struct cbs_bell *bell, uint64_t until);
#include "cbs_realtime.h"
#include "check.h"
#include <string.h>

#define TICK 1000U
#define MS 1000000U

/* ---- Summaries ---- */

static struct cbs_spread spread_of(const uint64_t *numbers, size_t n) {
    struct cbs_spread spread;
    memset(&spread, 0, sizeof spread);
    for (size_t i = 0; i < n; i++) {
        cbs_spread_add(&spread, numbers[i]);
    }
    return spread;
}

static void no_numbers(void) {
    struct cbs_spread spread = spread_of(NULL, 0);
    CHECK(cbs_spread_mean(&spread) == 0);
    CHECK(cbs_spread_at_most(&spread, 0) == 0 && cbs_spread_at_most(&spread, 1000) == 0);
}

/* Of 8 numbers one is 125 of a thousand. */
static void some_numbers(void) {
    static const uint64_t numbers[8] = {3, 1024, 0, UINT64_MAX, 2, 1, 1023, 4};
    static const uint64_t counts[5][2] = {{0, 1}, {1, 1}, {2, 2}, {3, 1}, {12, 0}};
    static const uint64_t bounds[][2] = {{0, 0},     {125, 0},     {126, 1},     {250, 1},
                                         {500, 3},   {625, 7},     {626, 1023},  {750, 1023},
                                         {875, 2047}, {876, UINT64_MAX}, {1000, UINT64_MAX},
                                         {5000, UINT64_MAX}};
    struct cbs_spread spread = spread_of(numbers, 8);
    CHECK(spread.count == 8 && spread.total == UINT64_MAX);
    CHECK(spread.least == 0 && spread.greatest == UINT64_MAX);
    for (size_t i = 0; i < 5; i++) {
        CHECK(spread.powers[counts[i][0]] == counts[i][1]);
    }
    CHECK(spread.powers[10] == 1 && spread.powers[11] == 1 && spread.powers[64] == 1);
    CHECK(cbs_spread_mean(&spread) == UINT64_MAX / 8);
    for (size_t i = 0; i < sizeof bounds / sizeof bounds[0]; i++) {
        CHECK(cbs_spread_at_most(&spread, bounds[i][0]) == bounds[i][1]);
    }
}

/* The first number is the least, too, and no bound is above the greatest. */
static void few_numbers(void) {
    static const uint64_t numbers[3] = {5, 6, 6};
    struct cbs_spread spread = spread_of(numbers, 3);
    CHECK(spread.least == 5 && spread.greatest == 6 && spread.total == 17);
    CHECK(cbs_spread_mean(&spread) == 5);
    CHECK(cbs_spread_at_most(&spread, 1) == 6 && cbs_spread_at_most(&spread, 0) == 0);
}

/* ---- A loop of one's own ---- */

static struct setup setup;
static struct cbs_pacer pacer;
static struct cbs_next next;
static struct cbs_live live;

static void make(const struct cbs_server *server, size_t backlog, uint64_t time) {
    set_up(&setup, server, 1, backlog, 8);
    CHECK(cbs_pace(&setup.house, TICK, false, time, &pacer) == CBS_OK);
    CHECK(cbs_live_open(&live, server, 1, backlog, NULL) == 0);
}

static void unmake(void) {
    cbs_live_close(&live);
    tear_down(&setup);
}

static void asks(uint64_t time, uint32_t kind) {
    CHECK(cbs_next(&setup.house, &pacer, time, &next) == CBS_OK && next.kind == kind);
    cbs_live_asked(&live, &setup.house, &pacer, time, &next);
}

static struct cbs_figures figures(void) {
    struct cbs_figures of;
    memset(&of, 0x5a, sizeof of);
    CHECK(cbs_live_read(&live, 0, &of) == CBS_OK);
    CHECK(of.lateness.count == of.units);
    return of;
}

static void has(uint64_t ticks, uint64_t accepted, uint64_t units, uint64_t charged) {
    struct cbs_figures of = figures();
    CHECK(of.ticks == ticks && of.accepted == accepted);
    CHECK(of.units == units && of.charged == charged);
}

static void is_spread(const struct cbs_spread *spread, uint64_t count, uint64_t total,
                      uint64_t least, uint64_t greatest) {
    CHECK(spread->count == count && spread->total == total);
    CHECK(spread->least == least && spread->greatest == greatest);
}

/* 2 ticks in 5. The second unit uses the budget up, so the server shows the deadline 10 after it.
 * But it was chosen by 5. It takes 8.5 ticks, so it ends at tick 10. */
static void a_soft_server(void) {
    static const struct cbs_server server[1] = {{2, 5, CBS_SOFT}};
    struct cbs_figures of;
    make(server, 8, 5000);
    send_job(&setup.clients[0], 7, 2, 0);
    asks(5000, CBS_NEXT_UNIT);
    has(0, 1, 0, 0);
    asks(5300, CBS_NEXT_SLEEP);
    has(1, 1, 1, 0);
    asks(6000, CBS_NEXT_UNIT);
    shows(&setup, 0, 2, 10, false);
    has(1, 1, 1, 0);
    asks(14500, CBS_NEXT_LISTEN);
    has(10, 1, 2, 8);
    of = figures();
    is_spread(&of.responses, 1, 9500, 9500, 9500);
    is_spread(&of.lateness, 2, 5, 0, 5);
    CHECK(of.lateness.powers[0] == 1 && of.lateness.powers[3] == 1);
    CHECK(cbs_figures_share(&of) == 1000);
    asks(20000, CBS_NEXT_WAIT); /* five ticks pass */
    of = figures();
    CHECK(of.ticks == 15 && cbs_figures_share(&of) == 666);
    unmake();
}

/* A unit that uses the budget up: chosen by 10, the server shows 10. Chosen by 1, it is replenished
 * at the unit's end, and shows 2. */
static void throttled_servers(void) {
    static const struct cbs_server servers[2] = {{1, 10, CBS_THROTTLED}, {1, 1, CBS_THROTTLED}};
    static const uint64_t rows[2][4] = {{12500, 12, 10, 3}, {3500, 3, 2, 3}};
    for (size_t row = 0; row < 2; row++) {
        make(&servers[row], 1, 0);
        send_job(&setup.clients[0], 7, 1, 0);
        asks(0, CBS_NEXT_UNIT);
        shows(&setup, 0, row, rows[row][2], row == 0);
        asks(rows[row][0], CBS_NEXT_LISTEN);
        has(1 + rows[row][1], 1, 1, rows[row][1]);
        struct cbs_figures of = figures();
        is_spread(&of.lateness, 1, rows[row][3], rows[row][3], rows[row][3]);
        is_spread(&of.responses, 1, rows[row][0], rows[row][0], rows[row][0]);
        unmake();
    }
}

/* Two jobs at most are unfinished. Job 0 is accepted at 0, 1 at 400, and 2 at 1000. They end at
 * 400, 2600 and 3100. The unit that ends at 2600 takes 1.6 ticks. */
static void three_jobs(void) {
    static const struct cbs_server server[1] = {{1, 1, CBS_SOFT}};
    struct cbs_figures of;
    make(server, 2, 0);
    send_job(&setup.clients[0], 7, 1, 0);
    send_job(&setup.clients[0], 8, 1, 1);
    asks(0, CBS_NEXT_UNIT);
    asks(400, CBS_NEXT_SLEEP);
    of = figures();
    is_spread(&of.responses, 1, 400, 400, 400);
    send_job(&setup.clients[0], 9, 1, 2);
    asks(1000, CBS_NEXT_UNIT);
    has(1, 3, 1, 0);
    asks(2600, CBS_NEXT_SLEEP);
    has(3, 3, 2, 1);
    asks(3000, CBS_NEXT_UNIT);
    asks(3100, CBS_NEXT_LISTEN);
    has(4, 3, 3, 1);
    of = figures();
    is_spread(&of.responses, 3, 4700, 400, 2200);
    is_spread(&of.lateness, 3, 1, 0, 1);
    CHECK(cbs_spread_mean(&of.responses) == 1566);
    CHECK(cbs_spread_at_most(&of.responses, 333) == 511);
    CHECK(cbs_spread_at_most(&of.responses, 990) == 2200);
    unmake();
}

/* A unit that is ended by cbs_done. A job that was accepted before the first question counts from
 * there. */
static void a_unit_that_is_done(void) {
    static const struct cbs_server server[1] = {{1, 2, CBS_SOFT}};
    struct cbs_figures of;
    make(server, 1, 0);
    submit(&setup, 0, 7, 1, 0);
    CHECK(cbs_advance(&setup.house, 1) == CBS_OK);
    asks(5000, CBS_NEXT_UNIT);
    has(0, 1, 0, 0);
    CHECK(cbs_done(&setup.house, &pacer, 5700) == CBS_OK);
    cbs_live_done(&live, &pacer, 5700);
    has(1, 1, 1, 0);
    cbs_live_done(&live, &pacer, 5800); /* no unit is being done */
    has(1, 1, 1, 0);
    of = figures();
    is_spread(&of.responses, 1, 700, 700, 700);
    unmake();
}

/* Of three jobs the ring has the times of two alone: those of the last two. */
static void a_ring_that_is_too_small(void) {
    uint64_t came[2] = {0, 0};
    struct cbs_figures of;
    struct cbs_unit unit = {CBS_RUN_DONE, 0, 0, 7};
    memset(&of, 0, sizeof of);
    cbs_figures_accepted(&of, came, 2, 1, 100);
    cbs_figures_accepted(&of, came, 2, 3, 200);
    cbs_figures_accepted(&of, came, 2, 2, 300); /* they were noted before */
    CHECK(of.accepted == 3 && came[0] == 200 && came[1] == 200);
    for (unit.seq = 0; unit.seq < 4; unit.seq++) {
        cbs_figures_ended(&of, came, 2, &unit, 250 + unit.seq, 1, 0);
    }
    unit.kind = CBS_RUN_UNIT;
    unit.seq = 1;
    cbs_figures_ended(&of, came, 2, &unit, 290, 1, 9);
    is_spread(&of.responses, 2, 51 + 52, 51, 52);
    CHECK(of.units == 5 && of.charged == 5 && of.lateness.greatest == 9);
    cbs_figures_accepted(&of, came, 0, 9, 400); /* of no place */
    cbs_figures_ended(&of, came, 0, &unit, 290, 1, 9);
    CHECK(of.accepted == 9 && of.units == 6 && of.responses.count == 2 && came[0] == 200);
}

/* ---- cbs_realtime.h ---- */

static struct {
    uint64_t now;
    uint64_t lengths[2]; /* of the units of each server */
} world;

static uint64_t cbs_clock_now(void) {
    return world.now;
}

static void cbs_clock_sleep(uint64_t until) {
    world.now = until;
}

static void cbs_clock_wait(struct cbs_bell *bell, uint64_t until) {
    (void)bell;
    world.now = until;
}

static void work(void *context, const struct cbs_unit *unit) {
    (void)context;
    world.now += world.lengths[unit->server];
}

/* Prints the table, and checks it. */
static void prints(struct cbs_live *of, const char *wanted) {
    char text[2048] = {0};
    FILE *file = tmpfile();
    CHECK(file != NULL);
    cbs_live_print(of, file);
    rewind(file);
    CHECK(fread(text, 1, sizeof text - 1, file) == strlen(wanted));
    CHECK(strcmp(text, wanted) == 0);
    fclose(file);
}

static const struct cbs_server two[2] = {{2, 5, CBS_SOFT}, {1, 10, CBS_THROTTLED}};

#define HEAD \
    "server         jobs done   share   least ms    mean ms    99 %" \
    " ms greatest ms late units most ticks\n"

/* Three units of a millisecond each, and one of two and a half, from 3 to 5.5 ms: it takes three
 * ticks. */
static void a_house_with_names(void) {
    static const char *const names[2] = {"control", NULL};
    struct cbs_bell bell;
    struct cbs_figures of;
    memset(&world, 0, sizeof world);
    memset(&of, 0x5a, sizeof of);
    world.lengths[0] = MS;
    world.lengths[1] = 5 * MS / 2;
    set_up(&setup, two, 2, 8, 8);
    CHECK(cbs_bell_open(&bell) == 0 && cbs_live_open(&live, two, 2, 8, names) == 0);
    prints(&live, HEAD
           "control                0    0.0 %     0.000      0.000      0."
           "000       0.000          0          0\n"
           "1                      0    0.0 %     0.000      0.000      0."
           "000       0.000          0          0\n");
    send_job(&setup.clients[0], 7, 3, 0);
    send_job(&setup.clients[1], 8, 1, 0);
    cbs_free(&setup.clients[0]);
    cbs_free(&setup.clients[1]);
    struct cbs_realtime realtime = cbs_realtime_of(MS, &bell, work, NULL);
    realtime.live = &live;
    CHECK(cbs_realtime_run(&realtime, &setup.house) == CBS_OK && realtime.over);
    prints(&live, HEAD
           "control                1   50.0 %     3.000      3.000      3."
           "000       3.000          0          0\n"
           "1                      1   50.0 %     5.500      5.500      5."
           "500       5.500          0          0\n");
    CHECK(cbs_live_row(&live, 2, NULL, 0) == -1);
    CHECK(cbs_live_read(&live, 2, &of) == CBS_HOUSE_NO_SUCH_SERVER && untouched(&of, sizeof of));
    cbs_live_close(&live);
    cbs_bell_close(&bell);
    tear_down(&setup);
}

/* A house that is told to stop: the unit that was done has ended. */
static void a_house_that_stops(void) {
    struct cbs_bell bell;
    memset(&world, 0, sizeof world);
    world.lengths[0] = 3 * MS;
    set_up(&setup, two, 1, 8, 8);
    CHECK(cbs_bell_open(&bell) == 0 && cbs_live_open(&live, two, 1, 8, NULL) == 0);
    struct cbs_realtime realtime = cbs_realtime_of(MS, &bell, work, NULL);
    realtime.live = &live;
    send_job(&setup.clients[0], 7, 2, 0);
    CHECK(cbs_realtime_step(&realtime, &setup.house) == CBS_OK);
    has(0, 1, 0, 0);
    cbs_bell_stop(&bell);
    CHECK(cbs_realtime_run(&realtime, &setup.house) == CBS_OK && !realtime.over);
    has(3, 1, 1, 2);
    cbs_live_close(&live);
    cbs_bell_close(&bell);
    tear_down(&setup);
}

/* ---- A reader on another thread ---- */

static bool reads_on; /* atomic */

static void *reads(void *of) {
    uint64_t *times = CBS_CAST(uint64_t *, of), units = 0;
    do {
        struct cbs_figures now = figures();
        CHECK(now.units >= units && now.responses.count <= now.accepted);
        CHECK(now.units + now.charged <= now.ticks);
        units = now.units;
        (*times)++;
    } while (__atomic_load_n(&reads_on, __ATOMIC_SEQ_CST));
    return NULL;
}

static void a_reader_beside_the_house(void) {
    uint64_t times = 0;
    struct cbs_bell bell;
    pthread_t reader;
    memset(&world, 0, sizeof world);
    world.lengths[0] = MS;
    set_up(&setup, two, 1, 8, 8);
    CHECK(cbs_bell_open(&bell) == 0 && cbs_live_open(&live, two, 1, 8, NULL) == 0);
    struct cbs_realtime realtime = cbs_realtime_of(MS, &bell, work, NULL);
    realtime.live = &live;
    reads_on = true;
    CHECK(pthread_create(&reader, NULL, reads, &times) == 0);
    for (uint64_t job = 0; job < 20000; job++) {
        send_job(&setup.clients[0], job, 1, job);
        CHECK(cbs_realtime_step(&realtime, &setup.house) == CBS_OK);
        while (realtime.counts.units <= job) {
            CHECK(cbs_realtime_step(&realtime, &setup.house) == CBS_OK);
        }
    }
    __atomic_store_n(&reads_on, false, __ATOMIC_SEQ_CST);
    CHECK(pthread_join(reader, NULL) == 0 && times > 0);
    struct cbs_figures of = figures();
    is_spread(&of.responses, 20000, UINT64_C(20000) * MS, MS, MS);
    cbs_live_close(&live);
    cbs_bell_close(&bell);
    tear_down(&setup);
}

int main(void) {
    no_numbers();
    some_numbers();
    few_numbers();
    a_soft_server();
    throttled_servers();
    three_jobs();
    a_unit_that_is_done();
    a_ring_that_is_too_small();
    a_house_with_names();
    a_house_that_stops();
    a_reader_beside_the_house();
    printf("figures of servers: all as by hand\n");
    return 0;
}

/* What charges are for, tried in real time: a client whose units take twenty times as long as they should, beside one that needs
 * 2 ms in every 10.
 *
 * A tick is a millisecond. Control has 2 ticks in 10 and sends a job of one unit, 0.3 ms long, each 10 ms. Greedy has 1 tick in
 * 10, always has a job, and each of its units takes 20 ms. Each unit is measured and its server charged. Greedy is first soft,
 * and then throttled; with the word 'uncharged' nothing is charged, which shows what happens without.
 *
 * Checked after each tick, with status 1 if it does not hold: a server that has a job is not as late as the most that the other was
 * charged for a unit, and the deadline of greedy pays for its units and charges. Printed only, since the host may take its processor
 * away: what the wall clock says.
 *
 *     overruns [SECONDS] [uncharged] */
#define _POSIX_C_SOURCE 199309L
#include "check.h"
#include <string.h>
#include <time.h>

#define TICK 1000000 /* in nanoseconds */
#define PERIOD 10    /* of both, in ticks */

enum { CONTROL, GREEDY };

static const uint64_t lengths[] = {300000, 20000000}; /* of a unit of each, in nanoseconds */

/* What one trial saw. */
struct trial {
    struct setup setup;
    bool charges;
    uint64_t start;                /* on the wall clock, as all times are, in nanoseconds */
    uint64_t released, done;       /* jobs of control */
    uint64_t worst;                /* response of one of them */
    uint64_t took[2], units[2];
};

static uint64_t wall(void) {
    struct timespec at;
    clock_gettime(CLOCK_MONOTONIC, &at);
    return (uint64_t)at.tv_sec * 1000000000U + (uint64_t)at.tv_nsec;
}

static uint64_t now_of(struct trial *trial) {
    uint64_t now;
    CHECK(cbs_now(&trial->setup.house, &now) == CBS_OK);
    return now;
}

static void sleep_until(uint64_t time) {
    uint64_t now = wall();
    if (now < time) {
        struct timespec span = {0, 0};
        span.tv_sec = (time_t)((time - now) / 1000000000U);
        span.tv_nsec = (long)((time - now) % 1000000000U);
        nanosleep(&span, NULL);
    }
}

/* Sends what is due, a job of control each period and jobs of greedy while there is room, and takes it. */
static void send(struct trial *trial) {
    uint64_t seq;
    while (trial->released * PERIOD * TICK <= wall() - trial->start) {
        CHECK(cbs_send(&trial->setup.clients[CONTROL], 0, 1, &seq) == CBS_OK);
        trial->released++;
    }
    while (cbs_send(&trial->setup.clients[GREEDY], 0, 1, &seq) == CBS_OK) {
    }
    for (uint16_t server = 0; server < 2; server++) {
        uint32_t kind;
        do {
            CHECK(cbs_poll(&trial->setup.house, server, &kind) == CBS_OK);
        } while (kind == CBS_POLL_TOOK);
    }
}

/* A unit is done: so much work, measured, and its server charged the ticks beyond the first, rounded up. */
static void work(struct trial *trial, const struct cbs_unit *unit) {
    uint64_t began = wall(), took;
    while (wall() - began < lengths[unit->server]) {
    }
    took = wall() - began;
    if (trial->charges) {
        CHECK(cbs_charge(&trial->setup.house, unit->server, (took - 1) / TICK) == CBS_OK);
    }
    trial->took[unit->server] += took;
    trial->units[unit->server]++;
    if (unit->server == CONTROL) {
        uint64_t response = wall() - trial->start - trial->done * PERIOD * TICK;
        trial->worst = response > trial->worst ? response : trial->worst;
        trial->done++;
    }
}

/* One tick of the house, once its time has come on the wall clock. If a unit took longer the clock is behind, and ticks follow
 * each other at once. */
static void tick(struct trial *trial) {
    struct cbs_unit unit;
    sleep_until(trial->start + now_of(trial) * TICK);
    send(trial);
    CHECK(cbs_run(&trial->setup.house, &unit) == CBS_OK && unit.kind != CBS_RUN_CLOCK_END);
    if (unit.kind == CBS_RUN_IDLE) {
        CHECK(cbs_advance(&trial->setup.house, 1) == CBS_OK);
    } else {
        work(trial, &unit);
    }
}

/* The laws, by what the house shows. An overrun is less than a budget, and greedy has 1 tick, so it has none. */
static void hold(struct trial *trial) {
    uint64_t total, most[2], now = now_of(trial);
    struct cbs_view views[2];
    for (uint16_t server = 0; server < 2; server++) {
        CHECK(cbs_view(&trial->setup.house, server, &views[server]) == CBS_OK && views[server].deadline_high == 0);
        CHECK(cbs_charges(&trial->setup.house, server, &total, &most[server]) == CBS_OK);
    }
    for (int server = 0; server < 2; server++) {
        bool ready = views[server].finished < views[server].accepted && !views[server].throttled;
        CHECK(!ready || now < views[server].deadline_low + most[1 - server]);
    }
    CHECK((trial->units[GREEDY] + total + views[GREEDY].budget) * PERIOD <= views[GREEDY].deadline_low);
}

static void run_trial(uint32_t mode, double seconds, bool charges) {
    struct cbs_server servers[2] = {{2, PERIOD, CBS_SOFT}, {1, PERIOD, mode}};
    struct trial trial;
    uint64_t length;
    memset(&trial, 0, sizeof trial);
    set_up(&trial.setup, servers, 2, 256, 256);
    trial.charges = charges;
    trial.start = wall();
    while (wall() - trial.start < (uint64_t)(seconds * 1e9)) {
        tick(&trial);
        hold(&trial);
    }
    length = wall() - trial.start;
    printf("greedy %s, %s: control finished %llu of %llu jobs, the worst after %.1f ms; greedy took %.1f %% of the time\n",
           mode == CBS_SOFT ? "soft" : "throttled", charges ? "charged" : "not charged", (unsigned long long)trial.done,
           (unsigned long long)trial.released, (double)trial.worst * 1e-6,
           100.0 * (double)trial.took[GREEDY] / (double)length);
    tear_down(&trial.setup);
}

int main(int count, char **words) {
    double seconds = count > 1 ? atof(words[1]) : 2.0;
    bool charges = count < 3 || strcmp(words[2], "uncharged") != 0;
    run_trial(CBS_SOFT, seconds, charges);
    run_trial(CBS_THROTTLED, seconds, charges);
    return 0;
}

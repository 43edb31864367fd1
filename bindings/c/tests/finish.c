/* Jobs that end early: rows by hand, each refusal, and two houses side by side, in one of which the jobs are short from the
 * start. And tokens that come back with a house that is freed. */
#include "cbs_realtime.h"
#include "check.h"

static const struct cbs_server servers[3] = {{2, 5, CBS_SOFT}, {1, 10, CBS_THROTTLED}, {1, 4, CBS_SOFT}};

static uint64_t now(struct setup *setup) {
    uint64_t ticks = UNTOUCHED;
    CHECK(cbs_now(&setup->house, &ticks) == CBS_OK);
    return ticks;
}

static void counts(struct setup *setup, uint16_t server, uint64_t accepted, uint64_t finished) {
    struct cbs_view view;
    CHECK(cbs_view(&setup->house, server, &view) == CBS_OK);
    CHECK(view.accepted == accepted && view.finished == finished);
}

/* A job of five units ends after two. Then it is charged three ticks, and the next job is run. */
static void ends_after_two_units(void) {
    struct setup setup;
    set_up(&setup, servers, 3, 4, 4);
    submit(&setup, 0, 7, 5, 0);
    runs(&setup, CBS_RUN_UNIT, 0, 0, 7);
    shows(&setup, 0, 1, 5, false);
    runs(&setup, CBS_RUN_UNIT, 0, 0, 7);
    shows(&setup, 0, 2, 10, false);
    CHECK(cbs_finish(&setup.house, 0) == CBS_OK);
    shows(&setup, 0, 2, 10, false);
    counts(&setup, 0, 1, 1);
    CHECK(now(&setup) == 2);
    CHECK(cbs_finish(&setup.house, 0) == CBS_HOUSE_NOT_RUNNING); /* it has ended */
    CHECK(cbs_charge(&setup.house, 0, 3) == CBS_OK);
    shows(&setup, 0, 1, 15, false);
    runs(&setup, CBS_RUN_IDLE, 0, 0, 0);
    submit(&setup, 0, 8, 2, 1);
    runs(&setup, CBS_RUN_UNIT, 0, 1, 8);
    runs(&setup, CBS_RUN_DONE, 0, 1, 8);
    counts(&setup, 0, 2, 2);
    tear_down(&setup);
}

static void is_refused(void) {
    struct setup setup;
    struct cbs_handle shut = CBS_HANDLE_INIT;
    set_up(&setup, servers, 3, 4, 4);
    CHECK(cbs_finish(&shut, 0) == CBS_CALL_NOT_OPEN);
    CHECK(cbs_finish(&setup.clients[0], 0) == CBS_CALL_OTHER_KIND);
    CHECK(cbs_finish(&setup.house, 3) == CBS_HOUSE_NO_SUCH_SERVER);
    CHECK(cbs_finish(&setup.house, 0) == CBS_HOUSE_NOT_RUNNING); /* nothing ran */
    submit(&setup, 0, 1, 9, 0);
    CHECK(cbs_finish(&setup.house, 0) == CBS_HOUSE_NOT_RUNNING); /* not begun */
    submit(&setup, 1, 2, 9, 0);
    runs(&setup, CBS_RUN_UNIT, 0, 0, 1);
    CHECK(cbs_finish(&setup.house, 1) == CBS_HOUSE_NOT_RUNNING); /* another server ran */
    CHECK(cbs_advance(&setup.house, 1) == CBS_OK);
    CHECK(cbs_finish(&setup.house, 0) == CBS_HOUSE_NOT_RUNNING); /* a tick has passed */
    runs(&setup, CBS_RUN_UNIT, 0, 0, 1);
    submit(&setup, 2, 3, 1, 0);
    submit(&setup, 0, 4, 9, 1);
    CHECK(cbs_finish(&setup.house, 0) == CBS_HOUSE_NOT_RUNNING); /* it took a job since */
    counts(&setup, 0, 2, 0);
    runs(&setup, CBS_RUN_DONE, 2, 0, 3);
    CHECK(cbs_finish(&setup.house, 2) == CBS_HOUSE_NOT_RUNNING); /* that was the last unit */
    tear_down(&setup);
}

/* A number below `end`, by a generator with a fixed seed. */
static uint64_t below(uint64_t end) {
    static uint64_t state = 1;
    state = state * 6364136223846793005U + 1442695040888963407U;
    return (state >> 33) % end;
}

static void same(struct setup *cut, struct setup *whole) {
    CHECK(now(cut) == now(whole));
    for (uint16_t server = 0; server < 3; server++) {
        struct cbs_view one, other;
        uint64_t tick[2], high[2], total[2], most[2];
        CHECK(cbs_view(&cut->house, server, &one) == CBS_OK && cbs_view(&whole->house, server, &other) == CBS_OK);
        CHECK(one.budget == other.budget && one.deadline_low == other.deadline_low);
        CHECK(one.throttled == other.throttled && one.accepted == other.accepted && one.finished == other.finished);
        CHECK(cbs_charges(&cut->house, server, &total[0], &most[0]) == CBS_OK);
        CHECK(cbs_charges(&whole->house, server, &total[1], &most[1]) == CBS_OK);
        CHECK(total[0] == total[1] && most[0] == most[1]);
        /* what is promised with the greater number of units is no earlier */
        CHECK(cbs_promised(&cut->house, server, &tick[0], &high[0]) == CBS_OK);
        CHECK(cbs_promised(&whole->house, server, &tick[1], &high[1]) == CBS_OK);
        CHECK(high[0] == high[1] && tick[0] >= tick[1]);
    }
}

/* One step of both houses: jobs of the first have more units than those of the second, and end when those do. */
static void step(struct setup *cut, struct setup *whole) {
    uint16_t server = (uint16_t)below(3);
    uint32_t units = (uint32_t)below(4) + 1, kind[2];
    struct cbs_unit unit[2];
    uint64_t seq[2];
    switch (below(8)) {
    case 0: case 1: case 2:
        seq[0] = seq[1] = 0;
        CHECK(cbs_send(&cut->clients[server], units, units + (uint32_t)below(3), &seq[0]) ==
              cbs_send(&whole->clients[server], units, units, &seq[1]));
        CHECK(seq[0] == seq[1]);
        CHECK(cbs_poll(&cut->house, server, &kind[0]) == CBS_OK && cbs_poll(&whole->house, server, &kind[1]) == CBS_OK);
        CHECK(kind[0] == kind[1]);
        break;
    case 3:
        CHECK(cbs_advance(&cut->house, units) == CBS_OK && cbs_advance(&whole->house, units) == CBS_OK);
        break;
    default:
        CHECK(cbs_run(&cut->house, &unit[0]) == CBS_OK && cbs_run(&whole->house, &unit[1]) == CBS_OK);
        CHECK(unit[0].server == unit[1].server && unit[0].seq == unit[1].seq && unit[0].token == unit[1].token);
        if (below(3) == 0 && unit[0].kind >= CBS_RUN_UNIT) { /* charged before it ends, or after */
            CHECK(cbs_charge(&cut->house, unit[0].server, units) == CBS_OK);
            CHECK(cbs_charge(&whole->house, unit[1].server, units) == CBS_OK);
        }
        if (unit[0].kind != unit[1].kind) {
            CHECK(unit[0].kind == CBS_RUN_UNIT && unit[1].kind == CBS_RUN_DONE);
            CHECK(cbs_finish(&cut->house, unit[0].server) == CBS_OK);
        }
        if (below(3) == 0 && unit[0].kind >= CBS_RUN_UNIT) {
            CHECK(cbs_charge(&cut->house, unit[0].server, 1) == CBS_OK);
            CHECK(cbs_charge(&whole->house, unit[1].server, 1) == CBS_OK);
        }
        break;
    }
    same(cut, whole);
}

static void is_as_if_it_had_been_short(void) {
    for (int round = 0; round < 200; round++) {
        struct setup cut, whole;
        set_up(&cut, servers, 3, 4, 2);
        set_up(&whole, servers, 3, 4, 2);
        for (int steps = 0; steps < 300; steps++) {
            step(&cut, &whole);
        }
        tear_down(&cut);
        tear_down(&whole);
    }
}

/* In real time: a job ends with its first unit, in the unit. Its response is that of no finished job. */
static void ends(void *house, const struct cbs_unit *unit) {
    if (unit->token == 1) {
        CHECK(cbs_finish(CBS_CAST(struct cbs_handle *, house), unit->server) == CBS_OK);
    }
}

static void ends_in_real_time(void) {
    struct setup setup;
    struct cbs_bell bell;
    struct cbs_live live;
    struct cbs_figures figures;
    set_up(&setup, servers, 1, 4, 4);
    CHECK(cbs_bell_open(&bell) == 0 && cbs_live_open(&live, servers, 1, 4, NULL) == 0);
    struct cbs_realtime realtime = cbs_realtime_of(100000, &bell, ends, &setup.house);
    realtime.live = &live;
    send_job(&setup.clients[0], 1, 20, 0);
    send_job(&setup.clients[0], 2, 3, 1);
    cbs_realtime_free(&bell, &setup.clients[0]);
    CHECK(cbs_realtime_run(&realtime, &setup.house) == CBS_OK && realtime.over);
    CHECK(realtime.counts.units == 4);
    CHECK(cbs_live_read(&live, 0, &figures) == CBS_OK);
    CHECK(figures.accepted == 2 && figures.units == 4 && figures.responses.count == 1);
    tear_down(&setup);
    cbs_live_close(&live);
    cbs_bell_close(&bell);
}

/* The sum of the tokens that came back of each server. */
static void comes_back(void *sums, uint16_t server, uint64_t token) {
    CBS_CAST(uint64_t *, sums)[server] += token;
}

static void tokens_come_back(void) {
    struct setup setup;
    uint64_t sums[3] = {0, 0, 0};
    set_up(&setup, servers, 3, 2, 4);
    submit(&setup, 0, 1, 1000000, 0);
    submit(&setup, 0, 2, 1000000, 1);
    runs(&setup, CBS_RUN_UNIT, 0, 0, 1); /* begun, and not finished */
    send_job(&setup.clients[0], 4, 1000000, 2);
    send_job(&setup.clients[0], 8, 1, 3);
    send_job(&setup.clients[1], 16, 5, 0);
    send_job(&setup.clients[1], 32, 5, 1);
    CHECK(cbs_free_unfinished(&setup.clients[0], comes_back, sums) == CBS_CALL_OTHER_KIND);
    CHECK(cbs_free_unfinished(&setup.house, comes_back, sums) == CBS_OK);
    CHECK(sums[0] == 15 && sums[1] == 48 && sums[2] == 0);
    CHECK(cbs_free_unfinished(&setup.house, comes_back, sums) == CBS_CALL_NOT_OPEN);
    tear_down(&setup);
}

int main(void) {
    ends_after_two_units();
    is_refused();
    is_as_if_it_had_been_short();
    ends_in_real_time();
    tokens_come_back();
    puts("jobs that end early: as if they had been short, and every refusal");
    return 0;
}

/* What a call costs from C, in nanoseconds: the least of so many rounds, for 1, 8 and 64 servers. Or, for a tool that counts
 * instructions, so many calls of one case.
 *
 *     bench [ROUNDS]                200 if no number is given
 *     bench CASE SERVERS CALLS */
#define _POSIX_C_SOURCE 199309L
#include "cbs.h"
#include <stdio.h>
#include <stdlib.h>
#include <string.h>
#include <time.h>

#define CALLS 2000
#define TICK 1000 /* of the cases in real time, in nanoseconds */
#define MUST(condition)                                          \
    do {                                                         \
        if (!(condition)) {                                      \
            fprintf(stderr, "bench: not so: %s\n", #condition);  \
            exit(1);                                             \
        }                                                        \
    } while (0)

/* Those up to JOB are timed. */
enum {
    NOW, RUN_IDLE, RUN_UNIT, TURN_UNIT, POLL_NOTHING, IDLE_SPAN, NEXT_IDLE, NEXT_UNIT, JOB,
    TURN_IDLE, RUN_TAPED, JOB_TAPED, CASES
};
static const char *const names[CASES] = {"now", "run, idle", "run, a unit", "turn, a unit", "poll, nothing", "idle_span",
                                         "next, nobody ready", "next, a unit",
                                         "send, poll and run a job of one unit", "turn, idle",
                                         "run, a unit, with a tape",
                                         "send, poll and run a job of one unit, with a tape"};

struct bench {
    struct cbs_handle house;
    struct cbs_handle clients[64];
    size_t n;
    struct cbs_pacer pacer;
    uint64_t time; /* the reading of the cases in real time */
    double least[JOB + 1];
};

static double nanoseconds(void) {
    struct timespec at;
    clock_gettime(CLOCK_MONOTONIC, &at);
    return (double)at.tv_sec * 1e9 + (double)at.tv_nsec;
}

static void call(struct bench *bench, int which, uint16_t server, uint64_t number) {
    struct cbs_unit unit;
    struct cbs_turn turn;
    struct cbs_next next;
    uint64_t out;
    uint32_t kind;
    switch (which) {
    case NOW: MUST(cbs_now(&bench->house, &out) == CBS_OK); break;
    case RUN_IDLE: MUST(cbs_run(&bench->house, &unit) == CBS_OK && unit.kind == CBS_RUN_IDLE); break;
    case RUN_TAPED:
    case RUN_UNIT: MUST(cbs_run(&bench->house, &unit) == CBS_OK && unit.kind == CBS_RUN_UNIT); break;
    case TURN_IDLE: MUST(cbs_turn(&bench->house, &turn) == CBS_OK && turn.ran.kind == CBS_RUN_IDLE); break;
    case TURN_UNIT: MUST(cbs_turn(&bench->house, &turn) == CBS_OK && turn.ran.kind == CBS_RUN_UNIT); break;
    case POLL_NOTHING: MUST(cbs_poll(&bench->house, server, &kind) == CBS_OK && kind == CBS_POLL_NOTHING); break;
    case IDLE_SPAN: MUST(cbs_idle_span(&bench->house, &out) == CBS_OK); break;
    case NEXT_IDLE:
    case NEXT_UNIT:
        MUST(cbs_next(&bench->house, &bench->pacer, bench->time += TICK, &next) == CBS_OK);
        MUST((next.kind == CBS_NEXT_UNIT) == (which == NEXT_UNIT));
        break;
    default:
        MUST(cbs_send(&bench->clients[server], number, 1, &out) == CBS_OK);
        MUST(cbs_poll(&bench->house, server, &kind) == CBS_OK && kind == CBS_POLL_TOOK);
        MUST(cbs_run(&bench->house, &unit) == CBS_OK && unit.kind == CBS_RUN_DONE && unit.token == number);
    }
}

/* Calls with the servers in turn. Nothing is divided here: that would be measured. */
static void calls(struct bench *bench, int which, uint64_t count) {
    uint16_t server = 0;
    bench->time = 0;
    MUST(cbs_pace(&bench->house, TICK, false, 0, &bench->pacer) == CBS_OK);
    for (uint64_t number = 0; number < count; number++) {
        call(bench, which, server, number);
        server++;
        if (server == bench->n) {
            server = 0;
        }
    }
}

static void measure(struct bench *bench, int which) {
    double start = nanoseconds();
    calls(bench, which, CALLS);
    double each = (nanoseconds() - start) / CALLS;
    if (each < bench->least[which]) {
        bench->least[which] = each;
    }
}

/* Gives each server a job that is longer than what is measured. */
static void load(struct bench *bench) {
    for (size_t i = 0; i < bench->n; i++) {
        uint64_t seq;
        uint32_t kind;
        MUST(cbs_send(&bench->clients[i], 7, 1000000, &seq) == CBS_OK);
        MUST(cbs_poll(&bench->house, (uint16_t)i, &kind) == CBS_OK && kind == CBS_POLL_TOOK);
    }
}

static void open_house(struct bench *bench, size_t n) {
    static const struct cbs_handle shut = CBS_HANDLE_INIT;
    struct cbs_server servers[64];
    bench->n = n;
    bench->house = shut;
    for (size_t i = 0; i < 64; i++) {
        bench->clients[i] = shut;
    }
    for (size_t i = 0; i < n; i++) {
        servers[i].budget = 1 + i % 4;
        servers[i].period = 256;
        servers[i].mode = CBS_SOFT;
    }
    MUST(cbs_open(servers, n, 4096, 1024, &bench->house, bench->clients, n) == CBS_OK);
}

static void free_house(struct bench *bench) {
    for (size_t i = 0; i < bench->n; i++) {
        cbs_free(&bench->clients[i]);
    }
    cbs_free(&bench->house);
}

static void round_of(struct bench *bench, size_t n) {
    static const int unloaded[] = {NOW, RUN_IDLE, POLL_NOTHING, IDLE_SPAN, NEXT_IDLE, JOB};
    open_house(bench, n);
    for (size_t i = 0; i < sizeof unloaded / sizeof unloaded[0]; i++) {
        measure(bench, unloaded[i]);
    }
    load(bench);
    measure(bench, RUN_UNIT);
    measure(bench, TURN_UNIT);
    measure(bench, NEXT_UNIT);
    free_house(bench);
}

static void one_case(const char *name, size_t n, uint64_t count) {
    struct bench bench;
    int which = 0;
    while (strcmp(names[which], name) != 0) {
        which++;
        MUST(which < CASES);
    }
    open_house(&bench, n);
    if (which == RUN_UNIT || which == TURN_UNIT || which == NEXT_UNIT || which == RUN_TAPED) {
        load(&bench);
    }
    if (which == RUN_TAPED || which == JOB_TAPED) {
        MUST(cbs_tape_open(&bench.house, 1 << 24) == CBS_OK); /* more than the calls tell */
    }
    calls(&bench, which, count);
    free_house(&bench);
}

int main(int count, char **words) {
    int rounds = count > 1 ? atoi(words[1]) : 200;
    if (count == 4) {
        one_case(words[1], (size_t)atoi(words[2]), (uint64_t)atol(words[3]));
        return 0;
    }
    for (size_t n = 1; n <= 64; n *= 8) {
        struct bench bench;
        for (int which = 0; which <= JOB; which++) {
            bench.least[which] = 1e12;
        }
        for (int round = 0; round < rounds; round++) {
            round_of(&bench, n);
        }
        for (int which = 0; which <= JOB; which++) {
            printf("%2zu servers: %5.1f ns %s\n", n, bench.least[which], names[which]);
        }
    }
    return 0;
}

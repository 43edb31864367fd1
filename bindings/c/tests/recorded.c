/* A house with random servers in real time, whose clients send random jobs from threads of their own, by a clock that goes on by
 * random steps, and jumps. It is recorded to a file. Prints what the house shows at its end: the clock, and for each server its
 * budget, its deadline, whether it is throttled and closed, its accepted and finished jobs, and the ticks that it was charged.
 *
 *     recorded SEED FILE */
#define CBS_CLOCK_OF_ITS_OWN
#define _POSIX_C_SOURCE 200809L
#include <stdint.h>
struct cbs_bell;
static uint64_t cbs_clock_now(void);
static void cbs_clock_sleep(uint64_t until);
static void cbs_clock_wait(struct cbs_bell *bell, uint64_t until);
#include "cbs_realtime.h"
#include "check.h"
#include <sched.h>

#define TICK 1000U
#define SERVERS 4

static uint64_t state; /* of the serving thread's numbers */
static uint64_t now;   /* in nanoseconds */

/* The next number of these, below n. */
static uint64_t draw(uint64_t *from, uint64_t n) {
    *from = *from * 6364136223846793005U + 1442695040888963407U;
    return (*from >> 33) % n;
}

/* It goes on at each look, mostly by less than a tick; now and then it jumps, and once in a while it steps back. */
static uint64_t cbs_clock_now(void) {
    uint64_t kind = draw(&state, 100);
    if (kind == 0) {
        now += draw(&state, 20 * TICK);
    } else if (kind == 1 && now > TICK) {
        now -= draw(&state, TICK);
    } else {
        now += draw(&state, TICK / 2);
    }
    return now;
}

static void cbs_clock_sleep(uint64_t until) {
    now = until > now ? until : now;
}

/* Waits for a client if nobody has a job. Else the clock may come to the end of the wait before a client sends. */
static void cbs_clock_wait(struct cbs_bell *bell, uint64_t until) {
    sched_yield();
    if (until > now + 1000 * TICK) {
        cbs_bell_wait(bell, UINT64_MAX);
    } else if (draw(&state, 2) == 0) {
        now = until > now ? until : now;
    }
}

static void works(void *context, const struct cbs_unit *unit) {
    (void)context;
    (void)unit;
    now += draw(&state, 10) == 0 ? draw(&state, 5 * TICK) : 0;
}

struct sender {
    struct cbs_handle client;
    struct cbs_bell *bell;
    uint64_t state;
};

/* Sends jobs, with pauses, and then the end. */
static void *sends(void *of) {
    struct sender *me = CBS_CAST(struct sender *, of);
    for (uint64_t left = draw(&me->state, 60); left > 0; left--) {
        uint64_t seq;
        uint32_t units = CBS_CAST(uint32_t, 1 + draw(&me->state, 90));
        uint32_t status = cbs_realtime_send(me->bell, &me->client, left, units, &seq);
        CHECK(status == CBS_OK || status == CBS_SEND_RING_FULL);
        if (draw(&me->state, 3) == 0) {
            sched_yield();
        }
    }
    cbs_realtime_free(me->bell, &me->client);
    return NULL;
}

int main(int argc, char **argv) {
    struct cbs_server servers[SERVERS];
    struct cbs_handle house = CBS_HANDLE_INIT, clients[SERVERS];
    struct sender senders[SERVERS];
    pthread_t threads[SERVERS];
    struct cbs_bell bell;
    struct cbs_recorder recorder;
    CHECK(argc == 3);
    state = CBS_CAST(uint64_t, atoll(argv[1]));
    size_t n = 1 + draw(&state, SERVERS);
    for (size_t i = 0; i < n; i++) {
        servers[i].period = 4 + draw(&state, 3) * 4;
        servers[i].budget = 1 + draw(&state, servers[i].period / SERVERS);
        servers[i].mode = draw(&state, 2) == 0 ? CBS_SOFT : CBS_THROTTLED;
        clients[i] = SHUT;
    }
    size_t backlog = 1 + draw(&state, 8);
    CHECK(cbs_open(servers, n, backlog, 1 + draw(&state, 8), &house, clients, n) == CBS_OK && cbs_bell_open(&bell) == 0);
    CHECK(cbs_record_open(&recorder, &house, argv[2], servers, n, backlog, NULL, TICK, 4096) == 0);
    recorder.every = draw(&state, 50);
    struct cbs_realtime realtime = cbs_realtime_of(TICK, &bell, works, NULL);
    realtime.carry = draw(&state, 2) == 0;
    realtime.recorder = &recorder;
    for (size_t i = 0; i < n; i++) {
        senders[i].client = clients[i];
        senders[i].bell = &bell;
        senders[i].state = draw(&state, UINT32_MAX);
        CHECK(pthread_create(&threads[i], NULL, sends, &senders[i]) == 0);
    }
    CHECK(cbs_realtime_run(&realtime, &house) == CBS_OK && realtime.over);
    CHECK(cbs_record_close(&recorder, &house) == 0 && !recorder.lost);
    uint64_t clock;
    CHECK(cbs_now(&house, &clock) == CBS_OK);
    printf("%" PRIu64 "\n", clock);
    for (size_t i = 0; i < n; i++) {
        struct cbs_view view;
        uint64_t total, most;
        CHECK(pthread_join(threads[i], NULL) == 0);
        CHECK(cbs_view(&house, CBS_CAST(uint16_t, i), &view) == CBS_OK && view.deadline_high == 0);
        CHECK(cbs_charges(&house, CBS_CAST(uint16_t, i), &total, &most) == CBS_OK);
        printf("%" PRIu64 " %" PRIu64 " %d %d %" PRIu64 " %" PRIu64 " %" PRIu64 "\n", view.budget, view.deadline_low, view.throttled,
               view.closed, view.accepted, view.finished, total);
    }
    cbs_free(&house);
    cbs_bell_close(&bell);
    return 0;
}

/* Four clients on threads of their own, through full rings; the house polls and runs meanwhile. Each job is done once, in the
 * order of its sends, and what a sender wrote before a send is seen when the unit is done. */
#include "check.h"
#include <pthread.h>
#include <sched.h>

#define CLIENTS 4
#define JOBS 5000

struct work {
    uint32_t units; /* written by the sender, before the send */
    uint32_t done;  /* counted by the serving thread */
};

static struct work works[CLIENTS][JOBS];

struct sender {
    struct cbs_handle client; /* moved here before the thread starts, and freed by it */
    unsigned number;
};

static void *sends(void *of) {
    struct sender *sender = (struct sender *)of;
    for (unsigned i = 0; i < JOBS; i++) {
        struct work *work = &works[sender->number][i];
        uint64_t seq = UNTOUCHED;
        uint32_t status;
        work->units = 1 + (i + sender->number) % 4;
        CBS_TSAN_RELEASE(work);
        while ((status = cbs_send(&sender->client, (uintptr_t)work, work->units, &seq)) == CBS_SEND_RING_FULL) {
            sched_yield();
        }
        CHECK(status == CBS_OK && seq == i);
    }
    uint32_t status;
    while ((status = cbs_end(&sender->client)) == CBS_SEND_RING_FULL) {
        sched_yield();
    }
    CHECK(status == CBS_OK);
    cbs_free(&sender->client);
    return NULL;
}

/* Does a unit of the work to which its token points. */
static void does(const struct cbs_unit *unit, uint64_t finished[CLIENTS]) {
    CHECK(unit->server < CLIENTS && unit->seq == finished[unit->server]);
    struct work *work = (struct work *)(uintptr_t)unit->token;
    CHECK(work == &works[unit->server][unit->seq]);
    CBS_TSAN_ACQUIRE(work);
    work->done++;
    CHECK((unit->kind == CBS_RUN_DONE) == (work->done == work->units));
    finished[unit->server] += unit->kind == CBS_RUN_DONE;
}

int main(void) {
    static const struct cbs_server servers[CLIENTS] = {
        {2, 5, CBS_SOFT}, {1, 5, CBS_THROTTLED}, {1, 10, CBS_SOFT}, {3, 10, CBS_THROTTLED}};
    struct setup setup;
    struct cbs_turn turn;
    struct sender senders[CLIENTS];
    pthread_t threads[CLIENTS];
    uint64_t finished[CLIENTS] = {0, 0, 0, 0};
    set_up(&setup, servers, CLIENTS, 4, 4);
    for (unsigned i = 0; i < CLIENTS; i++) {
        senders[i].client = setup.clients[i];
        senders[i].number = i;
        CHECK(pthread_create(&threads[i], NULL, sends, &senders[i]) == 0);
    }
    do {
        CHECK(cbs_turn(&setup.house, &turn) == CBS_OK);
        CHECK(turn.ran.kind != CBS_RUN_CLOCK_END);
        if (turn.ran.kind >= CBS_RUN_UNIT) {
            does(&turn.ran, finished);
        } else if (turn.took == 0 && turn.advanced == 0) {
            sched_yield();
        }
    } while (!turn.over);
    for (unsigned i = 0; i < CLIENTS; i++) {
        CHECK(pthread_join(threads[i], NULL) == 0);
        CHECK(finished[i] == JOBS);
    }
    cbs_free(&setup.house);
    printf("%d jobs of each of %d clients, each once and in order\n", JOBS, CLIENTS);
    return 0;
}

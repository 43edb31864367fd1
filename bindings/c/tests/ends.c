/* One side goes away. A client that is freed has sent its end, so its server closes; a client of a house that was freed
 * gets CBS_CALL_HOUSE_GONE. So each of these ends, and none leaves a thread that waits for ever.
 *
 *     ends [NAME]      all if no name is given */
#include "check.h"
#include <pthread.h>
#include <sched.h>
#include <string.h>

#define HOUSES 8
#define CLIENTS 4

struct sender {
    struct cbs_handle client; /* freed by its thread */
    uint32_t units;           /* of each job */
    uint32_t jobs;            /* how many it sends before it leaves, without an end */
    uint32_t status;          /* of its last send */
    pthread_t thread;
};

/* Sends until a send is refused or all is sent, and leaves. */
static void *sends(void *of) {
    struct sender *me = (struct sender *)of;
    for (uint32_t i = 0; i < me->jobs && me->status == CBS_OK; i++) {
        uint64_t seq;
        while ((me->status = cbs_send(&me->client, i, me->units, &seq)) == CBS_SEND_RING_FULL) {
            sched_yield();
        }
    }
    cbs_free(&me->client);
    return NULL;
}

static void starts(struct sender *sender, struct cbs_handle client, uint32_t units, uint32_t jobs) {
    sender->client = client; /* moved */
    sender->units = units;
    sender->jobs = jobs;
    sender->status = CBS_OK;
    CHECK(pthread_create(&sender->thread, NULL, sends, sender) == 0);
}

/* Takes turns until all is over, as a turn tells it and the servers show it, and checks how many jobs were finished in all. */
static void serves(struct setup *setup, uint64_t jobs) {
    uint64_t finished = 0;
    for (bool over = false; !over;) {
        struct cbs_turn turn;
        size_t closed = 0;
        CHECK(cbs_turn(&setup->house, &turn) == CBS_OK);
        CHECK(turn.ran.kind != CBS_RUN_CLOCK_END && !turn.out_of_memory);
        if (turn.ran.kind == CBS_RUN_IDLE && turn.took == 0 && turn.advanced == 0) {
            sched_yield();
        }
        finished = 0;
        for (uint16_t server = 0; server < setup->n; server++) {
            struct cbs_view view;
            CHECK(cbs_view(&setup->house, server, &view) == CBS_OK);
            closed += view.closed && view.finished == view.accepted;
            finished += view.finished;
        }
        over = turn.over;
        CHECK(over == (closed == setup->n));
    }
    CHECK(finished == jobs);
}

static const struct cbs_server servers[CLIENTS] = {
    {1, 4, CBS_SOFT}, {1, 4, CBS_SOFT}, {1, 4, CBS_THROTTLED}, {1, 4, CBS_SOFT}};

/* Its job has no unit, so its first send is refused. */
static void fails_at_its_first_job(void) {
    struct setup setup;
    struct sender sender;
    set_up(&setup, servers, 1, 4, 4);
    starts(&sender, setup.clients[0], 0, 10);
    serves(&setup, 0);
    CHECK(pthread_join(sender.thread, NULL) == 0 && sender.status == CBS_TASK_EMPTY_JOB);
    cbs_free(&setup.house);
}

/* It sends three jobs and returns, with no end. */
static void returns_early(void) {
    struct setup setup;
    struct sender sender;
    set_up(&setup, servers, 1, 4, 4);
    starts(&sender, setup.clients[0], 2, 3);
    serves(&setup, 3);
    CHECK(pthread_join(sender.thread, NULL) == 0 && sender.status == CBS_OK);
    cbs_free(&setup.house);
}

/* The thread of the second sender is not created, since no memory has room for such a stack. */
static void never_starts(void) {
    struct setup setup;
    struct sender sender;
    pthread_attr_t huge;
    pthread_t thread;
    set_up(&setup, servers, 2, 4, 4);
    starts(&sender, setup.clients[0], 1, 5);
    CHECK(pthread_attr_init(&huge) == 0 && pthread_attr_setstacksize(&huge, (size_t)1 << 47) == 0);
    CHECK(pthread_create(&thread, &huge, sends, NULL) != 0);
    pthread_attr_destroy(&huge);
    cbs_free(&setup.clients[1]);
    serves(&setup, 5);
    CHECK(pthread_join(sender.thread, NULL) == 0);
    cbs_free(&setup.house);
}

/* The ring has no place for an end. The jobs in it are taken, and then the server is closed. */
static void leaves_a_full_ring(void) {
    struct setup setup;
    uint64_t seq;
    set_up(&setup, servers, 1, 4, 2);
    CHECK(cbs_send(&setup.clients[0], 1, 3, &seq) == CBS_OK);
    CHECK(cbs_send(&setup.clients[0], 2, 1, &seq) == CBS_OK);
    CHECK(cbs_end(&setup.clients[0]) == CBS_SEND_RING_FULL);
    cbs_free(&setup.clients[0]);
    serves(&setup, 2);
    cbs_free(&setup.house);
}

/* Eight houses are freed one after another, while four senders of each are at work and would be for ever. */
static void houses_go(void) {
    static struct setup setups[HOUSES];
    static struct sender senders[HOUSES][CLIENTS];
    for (size_t house = 0; house < HOUSES; house++) {
        set_up(&setups[house], servers, CLIENTS, 4, 2);
        for (size_t i = 0; i < CLIENTS; i++) {
            starts(&senders[house][i], setups[house].clients[i], 1, UINT32_MAX);
        }
    }
    for (size_t house = 0; house < HOUSES; house++) {
        for (size_t i = 0; i < 100 * house; i++) {
            struct cbs_turn turn;
            CHECK(cbs_turn(&setups[house].house, &turn) == CBS_OK);
        }
        cbs_free(&setups[house].house);
    }
    for (size_t house = 0; house < HOUSES; house++) {
        for (size_t i = 0; i < CLIENTS; i++) {
            CHECK(pthread_join(senders[house][i].thread, NULL) == 0);
            CHECK(senders[house][i].status == CBS_CALL_HOUSE_GONE);
        }
    }
}

int main(int count, char **words) {
    static const struct {
        const char *name;
        void (*run)(void);
    } cases[] = {{"fails_at_its_first_job", fails_at_its_first_job},
                 {"returns_early", returns_early},
                 {"never_starts", never_starts},
                 {"leaves_a_full_ring", leaves_a_full_ring},
                 {"houses_go", houses_go}};
    int ran = 0;
    for (size_t i = 0; i < sizeof cases / sizeof cases[0]; i++) {
        if (count < 2 || strcmp(words[1], cases[i].name) == 0) {
            cases[i].run();
            printf("%s: ended\n", cases[i].name);
            ran++;
        }
    }
    CHECK(ran > 0);
    return 0;
}

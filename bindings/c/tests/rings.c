/* The bell of cbs_realtime.h: calls that send and ring, threads that are cancelled while they wait, a signal that stops the house, and
 * what a client did before its end.
 *
 *     rings [NAME]      all if no name is given */
#include "cbs_realtime.h"
#include "check.h"
#include <signal.h>
#include <string.h>
#include <unistd.h>

#define TICK 100000 /* in nanoseconds */

static const struct cbs_server servers[2] = {{1, 4, CBS_SOFT}, {1, 4, CBS_THROTTLED}};

/* A house that its own thread serves. */
static struct {
    struct setup setup;
    struct cbs_bell bell;
    struct cbs_realtime realtime;
    uint32_t status; /* of the loop */
    pthread_t thread;
    uint64_t units; /* atomic */
    uint64_t tokens[4];
} served;

static void does(void *context, const struct cbs_unit *unit) {
    (void)context;
    CHECK(served.units < 4);
    served.tokens[served.units] = unit->token;
    __atomic_fetch_add(&served.units, 1, __ATOMIC_SEQ_CST);
}

static void *serves(void *of) {
    (void)of;
    served.status = cbs_realtime_run(&served.realtime, &served.setup.house);
    return NULL;
}

static void begins_to_serve(void) {
    CHECK(pthread_create(&served.thread, NULL, serves, NULL) == 0);
}

static void opens(size_t n, uint64_t ring) {
    memset(&served, 0, sizeof served);
    set_up(&served.setup, servers, n, 4, ring);
    CHECK(cbs_bell_open(&served.bell) == 0);
    served.realtime = cbs_realtime_of(TICK, &served.bell, does, NULL);
}

/* Waits until the serving thread sleeps: it listens, and has had the time to lie down. */
static void sleeps(void) {
    while (!__atomic_load_n(&served.bell.listening, __ATOMIC_SEQ_CST)) {
        cbs_clock_sleep(cbs_clock_now() + TICK);
    }
    cbs_clock_sleep(cbs_clock_now() + 20000000);
}

/* Waits until so many units are done. */
static void has_done(uint64_t units) {
    while (__atomic_load_n(&served.units, __ATOMIC_SEQ_CST) < units) {
        cbs_clock_sleep(cbs_clock_now() + TICK);
    }
}

/* Waits until the loop says that all is over. */
static void is_over(void) {
    CHECK(pthread_join(served.thread, NULL) == 0);
    CHECK(served.status == CBS_OK && served.realtime.over);
}

static void closes(void) {
    tear_down(&served.setup);
    cbs_bell_close(&served.bell);
}

/* Each send, end and free wakes a house that sleeps for ever otherwise. */
static void sends_and_rings(void) {
    struct cbs_handle *clients = served.setup.clients;
    uint64_t seq = UNTOUCHED;
    opens(2, 4);
    begins_to_serve();
    for (uint64_t i = 0; i < 3; i++) {
        sleeps();
        CHECK(cbs_realtime_send(&served.bell, &clients[i == 1], 7 + i, 1, &seq) == CBS_OK);
        CHECK(seq == i / 2);
        has_done(i + 1);
    }
    sleeps();
    CHECK(cbs_realtime_end(&served.bell, &clients[0]) == CBS_OK);
    sleeps();
    cbs_realtime_free(&served.bell, &clients[1]);
    is_over();
    CHECK(served.units == 3 && served.tokens[0] == 7 && served.tokens[1] == 8 && served.tokens[2] == 9);
    closes();
}

/* A refusal is that of the call, and writes nothing. */
static void is_refused(void) {
    struct cbs_handle *client = served.setup.clients;
    uint64_t seq = UNTOUCHED;
    opens(1, 1);
    CHECK(cbs_realtime_send(&served.bell, client, 7, 0, &seq) == CBS_TASK_EMPTY_JOB);
    CHECK(seq == UNTOUCHED);
    CHECK(cbs_realtime_send(&served.bell, client, 7, 1, &seq) == CBS_OK && seq == 0);
    CHECK(cbs_realtime_send(&served.bell, client, 8, 1, &seq) == CBS_SEND_RING_FULL && seq == 0);
    CHECK(cbs_realtime_end(&served.bell, client) == CBS_SEND_RING_FULL);
    cbs_free(&served.setup.house);
    CHECK(cbs_realtime_send(&served.bell, client, 8, 1, &seq) == CBS_CALL_HOUSE_GONE && seq == 0);
    CHECK(cbs_realtime_end(&served.bell, client) == CBS_CALL_HOUSE_GONE);
    cbs_realtime_free(&served.bell, client);
    cbs_realtime_free(&served.bell, client); /* a second one does nothing but ring */
    CHECK(cbs_realtime_send(&served.bell, client, 8, 1, &seq) == CBS_CALL_NOT_OPEN);
    closes();
}

/* The serving thread is cancelled while it waits: for ever in the first row, until a deadline in the second. It leaves no lock, so
 * another thread rings, and serves to the end. */
static void is_cancelled(void) {
    for (int row = 0; row < 2; row++) {
        struct cbs_handle *client = served.setup.clients;
        void *left = NULL;
        uint64_t seq;
        opens(2, 4);
        served.realtime.tick = row == 0 ? TICK : 1000000000000U;
        if (row == 1) { /* throttled after a unit, until a deadline that nobody waits for */
            client = &served.setup.clients[1];
            CHECK(cbs_send(client, 1, 2, &seq) == CBS_OK);
        }
        begins_to_serve();
        has_done((uint64_t)row);
        sleeps();
        CHECK(pthread_cancel(served.thread) == 0);
        CHECK(pthread_join(served.thread, &left) == 0 && left == PTHREAD_CANCELED);
        CHECK(!served.bell.listening);
        CHECK(pthread_mutex_trylock(&served.bell.lock) == 0 && pthread_mutex_unlock(&served.bell.lock) == 0);
        if (row == 0) {
            CHECK(cbs_realtime_send(&served.bell, client, 2, 1, &seq) == CBS_OK);
            begins_to_serve();
            has_done(1);
            sleeps();
            for (size_t i = 0; i < 2; i++) {
                cbs_realtime_free(&served.bell, &served.setup.clients[i]);
            }
            is_over();
            CHECK(served.tokens[0] == 2);
        }
        closes();
    }
}

/* A signal stops a house that sleeps, and another thread waits for it: every thread blocks it, as docs/EMBEDDING.md says. */
static void *stops_at_a_signal(void *bell) {
    sigset_t signals;
    int signal;
    sigemptyset(&signals);
    sigaddset(&signals, SIGINT);
    CHECK(sigwait(&signals, &signal) == 0 && signal == SIGINT);
    cbs_bell_stop((struct cbs_bell *)bell);
    return NULL;
}

static void is_interrupted(void) {
    pthread_t waiter;
    sigset_t signals;
    opens(1, 4);
    sigemptyset(&signals);
    sigaddset(&signals, SIGINT);
    CHECK(pthread_sigmask(SIG_BLOCK, &signals, NULL) == 0);
    CHECK(pthread_create(&waiter, NULL, stops_at_a_signal, &served.bell) == 0);
    begins_to_serve();
    sleeps();
    CHECK(kill(getpid(), SIGINT) == 0);
    CHECK(pthread_join(served.thread, NULL) == 0 && pthread_join(waiter, NULL) == 0);
    CHECK(served.status == CBS_OK && !served.realtime.over);
    closes();
}

/* What a client's thread writes before its end, and the serving thread reads once all is over. No thread is joined before. */
static struct {
    struct cbs_handle client;
    bool frees; /* or else it ends */
    int written;
} writers[2];

static void *writes(void *of) {
    size_t i = (size_t)(uintptr_t)of;
    writers[i].written = 3 + (int)i;
    if (writers[i].frees) {
        cbs_realtime_free(&served.bell, &writers[i].client);
    } else {
        CHECK(cbs_realtime_end(&served.bell, &writers[i].client) == CBS_OK);
    }
    return NULL;
}

static void knows_what_was_before_the_end(void) {
    pthread_t threads[2];
    opens(2, 4);
    for (size_t i = 0; i < 2; i++) {
        writers[i].client = served.setup.clients[i]; /* moved */
        served.setup.clients[i] = SHUT;
        writers[i].frees = i == 1;
        writers[i].written = 0;
        CHECK(pthread_create(&threads[i], NULL, writes, (void *)(uintptr_t)i) == 0);
    }
    CHECK(cbs_realtime_run(&served.realtime, &served.setup.house) == CBS_OK && served.realtime.over);
    CHECK(writers[0].written == 3 && writers[1].written == 4);
    for (size_t i = 0; i < 2; i++) {
        CHECK(pthread_join(threads[i], NULL) == 0);
        cbs_free(&writers[i].client);
    }
    closes();
}

/* The same by turns, with no bell: the program tells the thread sanitizer itself, by an address that both threads have. */
static void *writes_by_turns(void *of) {
    size_t i = (size_t)(uintptr_t)of;
    writers[i].written = 3 + (int)i;
    CBS_TSAN_END(&served.setup);
    if (writers[i].frees) {
        cbs_free(&writers[i].client);
    } else {
        CHECK(cbs_end(&writers[i].client) == CBS_OK);
    }
    return NULL;
}

static void knows_what_was_before_the_end_by_turns(void) {
    pthread_t threads[2];
    struct cbs_turn turn;
    opens(2, 4);
    for (size_t i = 0; i < 2; i++) {
        writers[i].client = served.setup.clients[i]; /* moved */
        served.setup.clients[i] = SHUT;
        writers[i].frees = i == 1;
        writers[i].written = 0;
        CHECK(pthread_create(&threads[i], NULL, writes_by_turns, (void *)(uintptr_t)i) == 0);
    }
    do {
        CHECK(cbs_turn(&served.setup.house, &turn) == CBS_OK);
        cbs_clock_sleep(cbs_clock_now() + TICK);
    } while (!turn.over);
    CBS_TSAN_OVER(&served.setup);
    CHECK(writers[0].written == 3 && writers[1].written == 4);
    for (size_t i = 0; i < 2; i++) {
        CHECK(pthread_join(threads[i], NULL) == 0);
        cbs_free(&writers[i].client);
    }
    closes();
}

int main(int count, char **words) {
    static const struct {
        const char *name;
        void (*run)(void);
    } cases[] = {{"sends_and_rings", sends_and_rings},
                 {"is_refused", is_refused},
                 {"is_cancelled", is_cancelled},
                 {"is_interrupted", is_interrupted},
                 {"knows_what_was_before_the_end", knows_what_was_before_the_end},
                 {"knows_what_was_before_the_end_by_turns", knows_what_was_before_the_end_by_turns}};
    int ran = 0;
    for (size_t i = 0; i < sizeof cases / sizeof cases[0]; i++) {
        if (count < 2 || strcmp(words[1], cases[i].name) == 0) {
            cases[i].run();
            printf("%s: ended\n", cases[i].name);
            ran++;
        }
    }
    CHECK(ran > 0);
    return 0;
}

/* The same clients once in a house, once as threads that the kernel reserves time for (SCHED_DEADLINE), and once as plain
 * threads: what scripts/against_kernel prints, one row for each run of this program.
 *
 * Work is processor time: a unit that is preempted goes on later, and is no shorter for it. A client sends a job at each
 * of its releases, or, if it is greedy, the next one from the last unit of the one before. In the house one thread does
 * all units, and each client that is not greedy has a thread that sleeps, sends and sleeps. Of the kernel each client is
 * one thread, with the same budget and period, which sleeps until its release and does the units itself.
 *
 *     against_kernel overrun|robot house|kernel|threads SECONDS */
#define _GNU_SOURCE
#include "cbs_realtime.h"
#include <sched.h>
#include <stdio.h>
#include <stdlib.h>
#include <sys/resource.h>
#include <sys/syscall.h>
#include <unistd.h>

#define MOST 200000 /* responses are kept */

/* What a client wants: 'budget' ticks in each 'period', a job of so many units each 'every' nanoseconds, 0 if greedy. A
 * unit takes 'unit' nanoseconds, and each 'nth' one 'long_unit'. */
struct client {
    const char *name;
    uint64_t budget, period, every;
    uint32_t units;
    uint64_t unit, nth, long_unit;
};

struct load {
    const char *name;
    uint64_t tick; /* in nanoseconds */
    size_t n;
    struct client clients[3]; /* control is the first, and the greedy one the last */
};

static const struct load loads[] = {
    {"overrun", 1000000, 2, {{"control", 2, 10, 10000000, 2, 300000, 0, 0}, {"greedy", 1, 10, 0, 1, 20000000, 0, 0}}},
    {"robot", 100000, 3, {{"control", 3, 10, 1000000, 2, 80000, 0, 0},
                          {"vision", 100, 330, 33000000, 90, 80000, 0, 0},
                          {"log", 1, 10, 0, 1, 80000, 20, 20000000}}},
};

static struct {
    const struct load *load;
    uint64_t start, end;
    uint64_t took[3], did[3]; /* processor time of the units of each client, and their number */
    uint64_t released, dropped, n, responses[MOST]; /* of control */
    struct cbs_bell bell;
    struct cbs_handle clients[3];
} trial;

static void need(bool holds, const char *what) {
    if (!holds) {
        fprintf(stderr, "against_kernel: %s\n", what);
        exit(1);
    }
}

/* One unit of a client. */
static void work(size_t of) {
    const struct client *client = &trial.load->clients[of];
    uint64_t began = cbs_clock_worked(), took = 0;
    bool is_long = client->nth != 0 && ++trial.did[of] % client->nth == 0;
    while (took < (is_long ? client->long_unit : client->unit)) {
        took = cbs_clock_worked() - began;
    }
    trial.took[of] += took;
}

/* A job of a client, released at that time, has ended. */
static void ended(size_t of, uint64_t release) {
    if (of == 0 && trial.n < MOST) {
        trial.responses[trial.n++] = cbs_clock_now() - release;
    }
}

/* ---- In the house ---- */

static void sends_next(size_t of, uint64_t release) {
    uint64_t seq;
    uint32_t status = cbs_realtime_send(&trial.bell, &trial.clients[of], release, trial.load->clients[of].units, &seq);
    if (of == 0) {
        trial.released++;
        trial.dropped += status != CBS_OK;
    }
}

static void house_works(void *context, const struct cbs_unit *unit) {
    (void)context;
    work(unit->server);
    if (unit->kind == CBS_RUN_DONE) {
        ended(unit->server, unit->token);
        if (trial.load->clients[unit->server].every == 0) {
            if (cbs_clock_now() < trial.end) {
                sends_next(unit->server, 0);
            } else {
                cbs_realtime_free(&trial.bell, &trial.clients[unit->server]);
            }
        }
    }
}

static void *sender(void *of) {
    size_t self = (size_t)of;
    for (uint64_t at = trial.start; at < trial.end; at += trial.load->clients[self].every) {
        cbs_clock_sleep(at);
        sends_next(self, at);
    }
    cbs_realtime_free(&trial.bell, &trial.clients[self]);
    return NULL;
}

/* Begins the thread of a client: above the serving thread, if that has a priority of real time. */
static pthread_t begin(void *(*does)(void *), size_t of) {
    struct sched_param own;
    pthread_t thread;
    int policy;
    need(pthread_create(&thread, NULL, does, (void *)of) == 0, "no thread");
    if (pthread_getschedparam(pthread_self(), &policy, &own) == 0 && policy == SCHED_FIFO) {
        own.sched_priority++;
        need(pthread_setschedparam(thread, policy, &own) == 0, "no priority");
    }
    return thread;
}

static void serve(void) {
    struct cbs_handle house = CBS_HANDLE_INIT;
    struct cbs_realtime realtime = cbs_realtime_of(trial.load->tick, &trial.bell, house_works, NULL);
    struct cbs_server servers[3];
    pthread_t threads[3];
    realtime.carry = true;
    for (size_t i = 0; i < trial.load->n; i++) {
        const struct client *client = &trial.load->clients[i];
        servers[i] = (struct cbs_server){client->budget, client->period, client->every == 0 ? CBS_THROTTLED : CBS_SOFT};
        trial.clients[i] = (struct cbs_handle)CBS_HANDLE_INIT;
    }
    need(cbs_bell_open(&trial.bell) == 0, "no bell");
    need(cbs_open(servers, trial.load->n, 1024, 1024, &house, trial.clients, trial.load->n) == CBS_OK, "no house");
    for (size_t i = 0; i + 1 < trial.load->n; i++) {
        threads[i] = begin(sender, i);
    }
    sends_next(trial.load->n - 1, 0);
    need(cbs_realtime_run(&realtime, &house) == CBS_OK, "the house refuses");
    for (size_t i = 0; i + 1 < trial.load->n; i++) {
        pthread_join(threads[i], NULL);
    }
    cbs_free(&house);
}

/* ---- Threads, with and without a reservation of the kernel ---- */

/* What sched_setattr takes, which no header of C names. */
struct attributes {
    uint32_t size, policy;
    uint64_t flags;
    int32_t nice;
    uint32_t priority;
    uint64_t runtime, deadline, period; /* in nanoseconds */
};

static void reserve(const struct client *client) {
    struct attributes attributes = {.size = sizeof attributes, .policy = 6 /* SCHED_DEADLINE */};
    attributes.runtime = client->budget * trial.load->tick;
    attributes.deadline = attributes.period = client->period * trial.load->tick;
    need(syscall(SYS_sched_setattr, 0, &attributes, 0) == 0, "the kernel refuses SCHED_DEADLINE");
}

static void *does(void *of) {
    size_t self = (size_t)of;
    const struct client *client = &trial.load->clients[self];
    for (uint64_t at = trial.start; at < trial.end && cbs_clock_now() < trial.end; at += client->every) {
        if (client->every != 0) {
            cbs_clock_sleep(at);
        }
        trial.released += self == 0;
        for (uint32_t unit = 0; unit < client->units; unit++) {
            work(self);
        }
        ended(self, at);
    }
    return NULL;
}

static void *does_reserved(void *of) {
    reserve(&trial.load->clients[(size_t)of]);
    return does(of);
}

static void run_threads(void *(*each)(void *)) {
    pthread_t threads[3];
    for (size_t i = 0; i < trial.load->n; i++) {
        threads[i] = begin(each, i);
    }
    for (size_t i = 0; i < trial.load->n; i++) {
        pthread_join(threads[i], NULL);
    }
}

/* ---- What is told ---- */

static int by_size(const void *left, const void *right) {
    const uint64_t *a = left, *b = right;
    return (*a > *b) - (*a < *b);
}

static double seconds_of(struct timeval time) {
    return (double)time.tv_sec + (double)time.tv_usec * 1e-6;
}

static void tell(const char *how) {
    double length = (double)(cbs_clock_now() - trial.start);
    uint64_t late = trial.dropped, period = trial.load->clients[0].period * trial.load->tick;
    struct rusage used;
    need(trial.n > 0 && getrusage(RUSAGE_SELF, &used) == 0, "no job of control has ended");
    qsort(trial.responses, trial.n, sizeof trial.responses[0], by_size);
    for (uint64_t i = 0; i < trial.n; i++) {
        late += trial.responses[i] > period;
    }
    printf("| %s, %s | %.1f %% | %llu of %llu | %.2f | %.2f | %ld + %ld | %.1f %% |\n", trial.load->name, how,
           100.0 * (double)trial.took[trial.load->n - 1] / length, (unsigned long long)late,
           (unsigned long long)trial.released, (double)trial.responses[trial.n * 99 / 100] * 1e-6,
           (double)trial.responses[trial.n - 1] * 1e-6, used.ru_nvcsw, used.ru_nivcsw,
           100.0 * 1e9 * (seconds_of(used.ru_utime) + seconds_of(used.ru_stime)) / length);
}

int main(int count, char **words) {
    need(count == 4, "against_kernel overrun|robot house|kernel|threads SECONDS");
    for (size_t i = 0; i < sizeof loads / sizeof loads[0]; i++) {
        trial.load = strcmp(words[1], loads[i].name) == 0 ? &loads[i] : trial.load;
    }
    need(trial.load != NULL, "no such load");
    trial.start = cbs_clock_now();
    trial.end = trial.start + (uint64_t)(atof(words[3]) * 1e9);
    if (strcmp(words[2], "house") == 0) {
        serve();
    } else {
        run_threads(strcmp(words[2], "kernel") == 0 ? does_reserved : does);
    }
    tell(words[2]);
    return 0;
}

/* cbs_realtime: a house of cbs.h in real time. Ticks have a length, units are measured by the monotonic clock and charged, and
 * the serving thread sleeps while there is nothing to do. All of it stands in this header, over POSIX: link with -lpthread.
 *
 *     struct cbs_bell bell;        the clients of the house ring it
 *     cbs_bell_open(&bell);        work(context, unit) does a unit; a tick is 1 ms:
 *     struct cbs_realtime realtime = cbs_realtime_of(1000000, &bell, work, context);
 *     uint32_t status = cbs_realtime_run(&realtime, &house);         returns when all is over
 *
 * It is a loop over cbs_next of cbs.h, which decides. In each tick it takes the messages that came,
 * at most one of each server, and does at most one unit. A unit that takes longer is charged to its server, never rounded down.
 * While nobody is ready ticks pass, and the loop sleeps until the next deadline of somebody who
 * waits, or until a client rings; so throttled servers wait in real time. The house's clock is
 * ahead of the real one by at most a tick, and no unit begins before its tick. If it is late, units
 * follow each other at once.
 *
 * A program that wants to look at the house meanwhile calls cbs_realtime_step in a loop of its own.
 *
 * Include this header first, or define _POSIX_C_SOURCE as 200809L before. It wants gcc or clang, in C99 or C++17. */
#ifndef CBS_REALTIME_H
#define CBS_REALTIME_H

#if defined(__STRICT_ANSI__) && !defined(_POSIX_C_SOURCE) && !defined(_GNU_SOURCE)
#define _POSIX_C_SOURCE 200809L
#endif
#include "cbs.h"
#include "cbs_record.h"
#include <errno.h>
#include <inttypes.h>
#include <pthread.h>
#include <stdio.h>
#include <stdlib.h>
#include <string.h>
#include <time.h>
#ifndef TIMER_ABSTIME
#error "include cbs_realtime.h first, or define _POSIX_C_SOURCE as 200809L"
#endif

/* ---- The bell, by which clients wake a house that sleeps ---- */

/* The fields are the header's. It stays where it is, and lives longer than whoever rings it. */
struct cbs_bell {
    pthread_mutex_t lock;
    pthread_cond_t rings;
    bool rung;
    bool listening; /* atomic: whether somebody sleeps, or is about to */
    bool stop;      /* atomic */
};

/* Makes a bell. Returns 0, or the error number of the pthread call that failed. */
static inline int cbs_bell_open(struct cbs_bell *bell) {
    pthread_condattr_t monotonic;
    int error = pthread_condattr_init(&monotonic);
    bell->rung = bell->listening = bell->stop = false;
    if (error == 0) {
        pthread_condattr_setclock(&monotonic, CLOCK_MONOTONIC);
        error = pthread_cond_init(&bell->rings, &monotonic);
        pthread_condattr_destroy(&monotonic);
    }
    return error == 0 ? pthread_mutex_init(&bell->lock, NULL) : error;
}

/* Frees a bell that nobody rings any more. */
static inline void cbs_bell_close(struct cbs_bell *bell) {
    pthread_mutex_destroy(&bell->lock);
    pthread_cond_destroy(&bell->rings);
}

/* Wakes the house, if it sleeps: after a cbs_send or cbs_end that succeeded, and after a client was freed. From any thread.
 * cbs_realtime_send, cbs_realtime_end and cbs_realtime_free below do both. */
static inline void cbs_bell_ring(struct cbs_bell *bell) {
    /* The library's rings and marks are seq_cst, too: either this sees that the house listens, or the house sees what was sent. */
    if (__atomic_exchange_n(&bell->listening, false, __ATOMIC_SEQ_CST)) {
        pthread_mutex_lock(&bell->lock);
        bell->rung = true;
        pthread_cond_signal(&bell->rings);
        pthread_mutex_unlock(&bell->lock);
    }
}

/* Tells the house to stop: the loop returns after the unit that is being done. From any thread. */
static inline void cbs_bell_stop(struct cbs_bell *bell) {
    __atomic_store_n(&bell->stop, true, __ATOMIC_SEQ_CST);
    cbs_bell_ring(bell);
}

/* Returns whether the house was told to stop, and forgets it. */
static inline bool cbs_bell_stopped(struct cbs_bell *bell) {
    return __atomic_exchange_n(&bell->stop, false, __ATOMIC_SEQ_CST);
}

/* Listens from now on. Who then sees nothing to do may wait: no ring is missed. */
static inline void cbs_bell_listen(struct cbs_bell *bell) {
    pthread_mutex_lock(&bell->lock);
    bell->rung = false;
    pthread_mutex_unlock(&bell->lock);
    __atomic_store_n(&bell->listening, true, __ATOMIC_SEQ_CST);
}

static inline struct timespec cbs_clock_timespec(uint64_t time) {
    struct timespec at;
    at.tv_sec = CBS_CAST(time_t, time / 1000000000U);
    at.tv_nsec = CBS_CAST(long, time % 1000000000U);
    return at;
}

/* Waits, with the lock, until the bell is rung, and until that time at most. */
static inline void cbs_bell_wait_locked(struct cbs_bell *bell, uint64_t until) {
    struct timespec at = cbs_clock_timespec(until);
    int late = 0;
    while (!bell->rung && late != ETIMEDOUT) {
        late = until == UINT64_MAX ? pthread_cond_wait(&bell->rings, &bell->lock)
                                   : pthread_cond_timedwait(&bell->rings, &bell->lock, &at);
    }
}

/* Waits no more: gives the lock back, and does not listen. Of a bell. */
static inline void cbs_bell_leave(void *of) {
#ifdef __cplusplus
    struct cbs_bell *bell = static_cast<struct cbs_bell *>(of);
#else
    struct cbs_bell *bell = of;
#endif
    pthread_mutex_unlock(&bell->lock);
    __atomic_store_n(&bell->listening, false, __ATOMIC_SEQ_CST);
}

/* Waits until the bell is rung, and until that time of the monotonic clock at most; UINT64_MAX for no end. A thread that
 * is cancelled meanwhile (pthread_cancel) leaves the bell as one that comes back: another may serve, and it may be closed. */
static inline void cbs_bell_wait(struct cbs_bell *bell, uint64_t until) {
    pthread_mutex_lock(&bell->lock);
    pthread_cleanup_push(cbs_bell_leave, bell);
    cbs_bell_wait_locked(bell, until);
    pthread_cleanup_pop(1);
}

/* ---- A client's calls, each with the ring that wakes its house ---- */

/* Sends a job, as cbs_send does, and wakes the house. Returns what cbs_send returns. */
static inline uint32_t cbs_realtime_send(struct cbs_bell *bell, struct cbs_handle *client, uint64_t token,
                                         uint32_t units, uint64_t *seq) {
    uint32_t status = cbs_send(client, token, units, seq);
    if (status == CBS_OK) {
        cbs_bell_ring(bell);
    }
    return status;
}

/* Sends the end, as cbs_end does, and wakes the house. Returns what cbs_end returns. What this thread did before is seen
 * by whoever saw that all is over; the thread sanitizer is told so. */
static inline uint32_t cbs_realtime_end(struct cbs_bell *bell, struct cbs_handle *client) {
    CBS_TSAN_END(&bell->rung);
    uint32_t status = cbs_end(client);
    if (status == CBS_OK) {
        cbs_bell_ring(bell);
    }
    return status;
}

/* Frees a client, as cbs_free does, and wakes the house. The client sends its end, if it has not ended. The thread
 * sanitizer is told as by cbs_realtime_end. */
static inline void cbs_realtime_free(struct cbs_bell *bell, struct cbs_handle *client) {
    CBS_TSAN_END(&bell->rung);
    cbs_free(client);
    cbs_bell_ring(bell);
}

/* ---- The clocks, in nanoseconds ---- */

/* That of the ticks is monotonic. Tests declare these three themselves, and define
 * CBS_CLOCK_OF_ITS_OWN. */
#ifndef CBS_CLOCK_OF_ITS_OWN
static inline uint64_t cbs_clock_now(void) {
    struct timespec at;
    clock_gettime(CLOCK_MONOTONIC, &at);
    return CBS_CAST(uint64_t, at.tv_sec) * 1000000000U + CBS_CAST(uint64_t, at.tv_nsec);
}

static inline void cbs_clock_sleep(uint64_t until) {
    struct timespec at = cbs_clock_timespec(until);
    while (clock_nanosleep(CLOCK_MONOTONIC, TIMER_ABSTIME, &at, NULL) == EINTR) {
    }
}

static inline void cbs_clock_wait(struct cbs_bell *bell, uint64_t until) {
    cbs_bell_wait(bell, until);
}
#endif

/* The processor time of the calling thread, by which units are charged if processor_time is true.
 * Whoever charges by another clock declares this one, and defines CBS_WORKED_OF_ITS_OWN. */
#ifndef CBS_WORKED_OF_ITS_OWN
static inline uint64_t cbs_clock_worked(void) {
    struct timespec at;
    clock_gettime(CLOCK_THREAD_CPUTIME_ID, &at);
    return CBS_CAST(uint64_t, at.tv_sec) * 1000000000U + CBS_CAST(uint64_t, at.tv_nsec);
}
#endif

/* ---- Live figures ----
 *
 *     struct cbs_live live;
 *     cbs_live_open(&live, servers, 2, 16, names);   of the servers and the backlog of the house
 *     realtime.live = &live;
 *     cbs_live_print(&live, stdout);                  from any thread, while the house runs
 */

/* The figures of each server of a house. The fields are the header's. It stays where it is, and
 * lives longer than whoever serves the house and whoever reads. */
struct cbs_live {
    size_t servers;           /* how many there are */
    size_t backlog;           /* how many of their jobs are unfinished at most */
    const char *const *names;
    struct cbs_server *rates; /* their reservations */
    pthread_mutex_t lock;     /* held to read or write what follows */
    struct cbs_figures *figures;
    uint64_t *came;           /* when each unfinished job was accepted: a ring for each server */
    uint64_t ticks;           /* by how many the house's clock went on */
    /* The serving thread's alone: */
    bool begun;
    bool doing;            /* whether a unit is being done: the one below */
    struct cbs_unit unit;
    struct cbs_view view;  /* of its server, after it was told */
    uint64_t clock;        /* what the house's clock showed then */
    uint64_t first;        /* what it showed when the figures began */
    uint64_t charged;      /* what was charged in all, as seen last */
};

/* Makes the lock of figures. A reader that the serving thread waits for inherits its priority. */
static inline int cbs_live_lock(pthread_mutex_t *lock) {
    pthread_mutexattr_t inherits;
    int error = pthread_mutexattr_init(&inherits);
    if (error == 0) {
        pthread_mutexattr_setprotocol(&inherits, PTHREAD_PRIO_INHERIT);
        error = pthread_mutex_init(lock, &inherits);
        pthread_mutexattr_destroy(&inherits);
    }
    return error;
}

/* Makes the figures of a house with these n servers and this backlog. names[i] is the name of
 * server i. The names stay the program's, and stay there. Where there is none (NULL, also for all
 * of them) the number of the server stands for it. Returns 0, ENOMEM, or the error number of the
 * pthread call that failed. */
static inline int cbs_live_open(struct cbs_live *live, const struct cbs_server *servers, size_t n,
                                size_t backlog, const char *const *names) {
    memset(live, 0, sizeof *live);
    live->servers = n;
    live->backlog = backlog;
    live->names = names;
    live->rates = CBS_CAST(struct cbs_server *, calloc(n + 1, sizeof *live->rates));
    live->figures = CBS_CAST(struct cbs_figures *, calloc(n + 1, sizeof *live->figures));
    live->came = CBS_CAST(uint64_t *, calloc(n * backlog + 1, sizeof *live->came));
    int error = ENOMEM;
    if (live->rates != NULL && live->figures != NULL && live->came != NULL) {
        memcpy(live->rates, servers, n * sizeof *servers);
        error = cbs_live_lock(&live->lock);
    }
    if (error != 0) {
        free(live->rates);
        free(live->figures);
        free(live->came);
    }
    return error;
}

/* Frees figures that nobody keeps or reads any more. */
static inline void cbs_live_close(struct cbs_live *live) {
    pthread_mutex_destroy(&live->lock);
    free(live->rates);
    free(live->figures);
    free(live->came);
}

/* Writes the figures of a server as they stand: of units that have ended. From any thread; the lock
 * is held for this copy. Refuses by CBS_HOUSE_NO_SUCH_SERVER. */
static inline uint32_t cbs_live_read(struct cbs_live *live, size_t server,
                                     struct cbs_figures *figures) {
    if (server >= live->servers) {
        return CBS_HOUSE_NO_SUCH_SERVER;
    }
    pthread_mutex_lock(&live->lock);
    *figures = live->figures[server];
    figures->ticks = live->ticks;
    pthread_mutex_unlock(&live->lock);
    return CBS_OK;
}

/* Writes the head of the table, with no end of line: at most n bytes, as snprintf does. Returns
 * what snprintf returns. */
static inline int cbs_live_head(char *out, size_t n) {
    return snprintf(out, n, "%-14s %9s %7s %10s %10s %10s %11s %10s %10s", "server", "jobs done",
                    "share", "least ms", "mean ms", "99 % ms", "greatest ms", "late units",
                    "most ticks");
}

/* Writes the row of a server in the same way. Returns -1, and writes nothing, if there is no such
 * server. */
static inline int cbs_live_row(struct cbs_live *live, size_t server, char *out, size_t n) {
    struct cbs_figures of;
    char number[24];
    if (cbs_live_read(live, server, &of) != CBS_OK) {
        return -1;
    }
    const char *name = live->names == NULL ? NULL : live->names[server];
    snprintf(number, sizeof number, "%lu", CBS_CAST(unsigned long, server));
    uint64_t share = cbs_figures_share(&of);
    return snprintf(out, n,
                    "%-14s %9" PRIu64 " %4" PRIu64 ".%" PRIu64
                    " %% %9.3f %10.3f %10.3f %11.3f %10" PRIu64 " %10" PRIu64,
                    name == NULL ? number : name, of.responses.count, share / 10, share % 10,
                    CBS_CAST(double, of.responses.least) / 1e6,
                    CBS_CAST(double, cbs_spread_mean(&of.responses)) / 1e6,
                    CBS_CAST(double, cbs_spread_at_most(&of.responses, 990)) / 1e6,
                    CBS_CAST(double, of.responses.greatest) / 1e6,
                    of.lateness.count - of.lateness.powers[0], of.lateness.greatest);
}

/* Prints a table of all servers: the jobs that are done, the share of the house's ticks, the least,
 * the mean and the greatest response, and a bound that 99 % of the responses keep, in milliseconds;
 * how many units were late, and by how many ticks at most. From any thread. */
static inline void cbs_live_print(struct cbs_live *live, FILE *to) {
    char line[256];
    cbs_live_head(line, sizeof line);
    fprintf(to, "%s\n", line);
    for (size_t server = 0; server < live->servers; server++) {
        cbs_live_row(live, server, line, sizeof line);
        fprintf(to, "%s\n", line);
    }
}

/* Notes the end of the unit that was being done, if one was. */
static inline void cbs_live_end(struct cbs_live *live, uint64_t time, uint64_t charged) {
    if (live->doing) {
        size_t server = live->unit.server;
        uint64_t ticks = charged > live->charged ? charged - live->charged : 0;
        uint64_t late = cbs_lateness(&live->rates[server], &live->view, live->clock, ticks);
        cbs_figures_ended(&live->figures[server], &live->came[server * live->backlog],
                          live->backlog, &live->unit, time, ticks, late);
        live->ticks = live->clock + ticks - live->first;
    }
    live->doing = false;
    live->charged = charged;
}

/* Notes which jobs were accepted by a question at this time. */
static inline void cbs_live_accepted(struct cbs_live *live, struct cbs_handle *house,
                                     uint64_t time) {
    struct cbs_view view;
    for (size_t server = 0; server < live->servers; server++) {
        if (cbs_view(house, CBS_CAST(uint16_t, server), &view) == CBS_OK) {
            cbs_figures_accepted(&live->figures[server], &live->came[server * live->backlog],
                                 live->backlog, view.accepted, time);
        }
    }
}

/* Notes the unit that was told, if one was, and how far the house's clock went on. */
static inline void cbs_live_told(struct cbs_live *live, struct cbs_handle *house,
                                 const struct cbs_next *next) {
    uint64_t told = next->kind == CBS_NEXT_UNIT ? 1 : 0;
    if (cbs_now(house, &live->clock) != CBS_OK) {
        return;
    }
    if (!live->begun) {
        live->begun = true;
        live->first = live->clock - told;
    }
    live->ticks = live->clock - told - live->first; /* without the unit that is being done */
    live->unit = next->unit;
    live->doing = told == 1 && next->unit.server < live->servers &&
                  cbs_view(house, next->unit.server, &live->view) == CBS_OK;
}

/* Notes what came of a question: of cbs_next at this time, or cbs_next_measured, by this pacer.
 * For a loop of the program's own, after each question. cbs_realtime_ask does it. */
static inline void cbs_live_asked(struct cbs_live *live, struct cbs_handle *house,
                                  const struct cbs_pacer *pacer, uint64_t time,
                                  const struct cbs_next *next) {
    struct cbs_counts counts;
    cbs_counts(pacer, &counts);
    pthread_mutex_lock(&live->lock);
    cbs_live_end(live, time, counts.charged);
    if (next->taken > 0 || !live->begun) {
        cbs_live_accepted(live, house, time);
    }
    cbs_live_told(live, house, next);
    pthread_mutex_unlock(&live->lock);
}

/* Notes what came of cbs_done or cbs_done_measured at this time, by this pacer. cbs_realtime_done
 * does it. */
static inline void cbs_live_done(struct cbs_live *live, const struct cbs_pacer *pacer,
                                 uint64_t time) {
    struct cbs_counts counts;
    cbs_counts(pacer, &counts);
    pthread_mutex_lock(&live->lock);
    cbs_live_end(live, time, counts.charged);
    pthread_mutex_unlock(&live->lock);
}

/* ---- The loop ---- */

/* A house in real time. */
struct cbs_realtime {
    uint64_t tick; /* its length in nanoseconds, at least 1 */
    struct cbs_bell *bell;
    void (*work)(void *context, const struct cbs_unit *unit); /* does a unit, by the serving thread */
    void *context;                                            /* given to work */
    bool carry; /* true: less than a tick is carried to the server's next unit; else rounded up */
    /* False: a unit is charged for the time from the question that told it to the next one. So it
     * pays for whatever took the processor away meanwhile, too.
     * True: a unit is charged for the processor time that the serving thread took in that time, so
     * each unit pays for itself alone. The house's clock falls behind by the rest of the time,
     * which counts.behind shows, until idle ticks make up for it. What is promised in ticks is
     * kept, and comes later by as much. Work that sleeps, or waits for other threads, does not pay
     * for that. */
    bool processor_time;
    struct cbs_live *live;    /* where figures are kept, for any thread to read; NULL for none */
    struct cbs_recorder *recorder; /* where the steps go: see cbs_record.h; NULL for none */
    struct cbs_counts counts; /* for the serving thread to read at any time */
    bool over;                /* whether every server is closed and every job is finished */
    /* The header's own: */
    bool begun;
    uint64_t worked; /* the processor time, as it was read last */
    struct cbs_pacer pacer;
};

/* Returns a house in real time that has not begun. Its carry and its processor_time are false, no
 * figures are kept, and nothing is recorded. */
static inline struct cbs_realtime cbs_realtime_of(
    uint64_t tick, struct cbs_bell *bell,
    void (*work)(void *context, const struct cbs_unit *unit), void *context) {
    struct cbs_realtime self;
    memset(&self, 0, sizeof self);
    self.tick = tick;
    self.bell = bell;
    self.work = work;
    self.context = context;
    return self;
}

/* Returns the processor time since this was called last. */
static inline uint64_t cbs_realtime_took(struct cbs_realtime *self) {
    uint64_t before = self->worked;
    self->worked = cbs_clock_worked();
    return self->worked - before;
}

/* Asks what is next. The unit before is charged. */
static inline uint32_t cbs_realtime_ask(struct cbs_realtime *self, struct cbs_handle *house,
                                        struct cbs_next *next) {
    uint64_t now = cbs_clock_now();
    uint32_t status = CBS_OK;
    if (!self->begun) {
        status = cbs_pace(house, self->tick, self->carry, now, &self->pacer);
        self->begun = status == CBS_OK;
    }
    if (status == CBS_OK) {
        status = self->processor_time
                     ? cbs_next_measured(house, &self->pacer, now, cbs_realtime_took(self), next)
                     : cbs_next(house, &self->pacer, now, next);
        cbs_counts(&self->pacer, &self->counts);
    }
    if (status == CBS_OK && self->live != NULL) {
        cbs_live_asked(self->live, house, &self->pacer, now, next);
    }
    if (self->recorder != NULL) {
        cbs_record_step(self->recorder, house);
    }
    return status;
}

/* Asks nothing more for now. The unit before is charged. */
static inline uint32_t cbs_realtime_done(struct cbs_realtime *self, struct cbs_handle *house) {
    uint64_t now = cbs_clock_now();
    uint32_t status = self->processor_time
                          ? cbs_done_measured(house, &self->pacer, now, cbs_realtime_took(self))
                          : cbs_done(house, &self->pacer, now);
    cbs_counts(&self->pacer, &self->counts);
    if (self->live != NULL) {
        cbs_live_done(self->live, &self->pacer, now);
    }
    if (self->recorder != NULL) {
        cbs_record_step(self->recorder, house);
    }
    return status;
}

/* Does a unit. In C++ one that throws is charged and counted at once, and then throws on. */
static inline void cbs_realtime_work(struct cbs_realtime *self, struct cbs_handle *house,
                                     const struct cbs_unit *unit) {
#if defined(__cplusplus) && defined(__cpp_exceptions)
    try {
        self->work(self->context, unit);
    } catch (...) {
        cbs_realtime_done(self, house);
        throw;
    }
#else
    (void)house;
    self->work(self->context, unit);
#endif
}

/* Does what follows from an answer of cbs_realtime_ask: a unit, a sleep, or that all is over (over
 * is true then). Refuses and throws as cbs_realtime_run does. */
static inline uint32_t cbs_realtime_follow(struct cbs_realtime *self, struct cbs_handle *house,
                                           const struct cbs_next *next) {
    self->over = next->kind == CBS_NEXT_OVER;
    if (self->over) {
        CBS_TSAN_OVER(&self->bell->rung);
    }
    switch (next->kind) {
    case CBS_NEXT_UNIT: cbs_realtime_work(self, house, &next->unit); break;
    case CBS_NEXT_SLEEP: cbs_clock_sleep(next->until); break;
    case CBS_NEXT_LISTEN: cbs_bell_listen(self->bell); break;
    case CBS_NEXT_WAIT: cbs_clock_wait(self->bell, next->until); break;
    case CBS_NEXT_CLOCK_END: return CBS_HOUSE_CLOCK_END;
    case CBS_NEXT_NO_MEMORY: return CBS_HOUSE_OUT_OF_MEMORY;
    default: break;
    }
    return CBS_OK;
}

/* Asks one question, and does what follows from it. Between two steps the program may look at the
 * house, at cbs_bell_stopped, and at counts. If it asks no more for now, cbs_realtime_done charges
 * the last unit. Refuses and throws as cbs_realtime_run does. */
static inline uint32_t cbs_realtime_step(struct cbs_realtime *self, struct cbs_handle *house) {
    struct cbs_next next;
    uint32_t status = cbs_realtime_ask(self, house, &next);
    return status == CBS_OK ? cbs_realtime_follow(self, house, &next) : status;
}

/* Serves until every client has ended or was freed and all jobs are finished (over is true then),
 * or until it is told to stop. Refuses by CBS_HOUSE_OUT_OF_MEMORY, CBS_HOUSE_CLOCK_END, and as
 * cbs_now does. In C++ it throws what work throws. It may be called again, for the same house: it
 * goes on at the same time, and nothing is lost. */
static inline uint32_t cbs_realtime_run(struct cbs_realtime *self, struct cbs_handle *house) {
    uint32_t status = CBS_OK;
    self->over = false;
    while (status == CBS_OK && !self->over) {
        if (cbs_bell_stopped(self->bell)) {
            return cbs_realtime_done(self, house);
        }
        status = cbs_realtime_step(self, house);
    }
    return status;
}

#endif

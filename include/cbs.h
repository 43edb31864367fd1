/* cbs: an executor that divides one serving thread among clients by Constant Bandwidth Servers under earliest deadline
 * first, for programs that own their threads, their clock and their work.
 *
 * The library decides, the program does. A client sends jobs: a token, which is any number of the program's, and how
 * many units the job has. cbs_run and cbs_turn tell which unit of which job is next, and the program does it.
 * A unit takes one tick of the house's clock; nothing is measured, nothing is interrupted. A program whose unit took
 * longer charges its server the ticks beyond the first (cbs_charge), so that a unit takes no other server's share.
 * In real time a pacer does so (cbs_next), by the readings of the program's clock. cbs_realtime.h,
 * beside this header, is a loop over it: it serves a house in real time. cbs.hpp has both for C++.
 *
 *     struct cbs_server servers[2] = {{2, 5, CBS_SOFT}, {1, 10, CBS_THROTTLED}};
 *     struct cbs_handle house = CBS_HANDLE_INIT, clients[2] = {CBS_HANDLE_INIT, CBS_HANDLE_INIT};
 *     uint32_t status = cbs_open(servers, 2, 16, 16, &house, clients, 2);
 *
 * WHAT THE PROGRAM OWES; nothing checks it:
 * - A handle is CBS_HANDLE_INIT or open. Its fields are neither read nor written. An open handle is never copied: it may
 *   be moved, and the old bytes are then no handle any more.
 * - A handle is given to one call at a time. It may go to another thread, if that is ordered by the start or the join of
 *   a thread, by a lock, or by a seq_cst atomic. Different handles may be in calls at the same time, those of a house and
 *   of its clients too.
 * - Pointers are aligned, not null, and point to what their type says, also if n is 0. What a call writes to
 *   overlaps nothing else that it is given.
 * - The heap: heap.c beside the library, over malloc, realloc and free, or three functions of the program's own with the
 *   same contract (there).
 * - No call from a signal handler, nor in the forked child of a process that has threads.
 *
 * WHAT HOLDS OF EVERY CALL. It returns; it never blocks, never aborts, and calls nothing but the heap. Each status is 0
 * or names why it refused; a call that refuses changes nothing, and writes nothing to its out parameters. A handle that
 * is not open is refused by CBS_CALL_NOT_OPEN, and a client's in the place of a house's, or the other way round, by
 * CBS_CALL_OTHER_KIND. Memory is taken by cbs_open, and by cbs_poll, cbs_turn, cbs_next and
 * cbs_next_measured when they take a job; by no other.
 */
#ifndef CBS_H
#define CBS_H

#include <stdbool.h>
#include <stddef.h>
#include <stdint.h>

/* cbs_turn, cbs_view, cbs_next and cbs_counts name a struct and a call each, so C++ says struct for
 * the first, as C does. g++ -Wshadow would warn. */
#ifdef __cplusplus
#ifdef __GNUC__
#pragma GCC diagnostic push
#pragma GCC diagnostic ignored "-Wshadow"
#endif
extern "C" {
#endif

/* The version of this header. cbs_version returns that of the library. */
#define CBS_VERSION_MAJOR 0
#define CBS_VERSION_MINOR 1
#define CBS_VERSION_PATCH 0
#define CBS_VERSION (CBS_VERSION_MAJOR * 10000 + CBS_VERSION_MINOR * 100 + CBS_VERSION_PATCH)

/* The thread sanitizer does not see into the library, so it does not know that a send comes before the unit that has its
 * token. A program whose tokens are pointers tells it: CBS_TSAN_RELEASE(p) before the token p is sent, and
 * CBS_TSAN_ACQUIRE(p) before the unit uses p.
 * Nor does it know that what a client's thread did before its end comes before the house tells that all is over. A
 * program that relies on it tells that, too: CBS_TSAN_END(p) before the cbs_end or cbs_free of each client, and
 * CBS_TSAN_OVER(p) once the house has told it. p is then an address that both threads have, of no lock and no atomic.
 * If the program is not compiled with -fsanitize=thread they all do nothing. */
#if defined(__has_feature)
#if __has_feature(thread_sanitizer)
#define CBS_TSAN
#endif
#endif
#if defined(__SANITIZE_THREAD__) && !defined(CBS_TSAN)
#define CBS_TSAN
#endif
/* A cast. C++ has one of its own, of which -Wold-style-cast does not warn. */
#ifdef __cplusplus
#define CBS_CAST(type, value) static_cast<type>(value)
#define CBS_ADDRESS(p) const_cast<void *>(static_cast<const volatile void *>(p))
#else
#define CBS_CAST(type, value) ((type)(value))
#define CBS_ADDRESS(p) ((void *)(p))
#endif

#ifdef CBS_TSAN
void __tsan_release(void *address);
void __tsan_acquire(void *address);
#define CBS_TSAN_RELEASE(p) __tsan_release(CBS_ADDRESS(p))
#define CBS_TSAN_ACQUIRE(p) __tsan_acquire(CBS_ADDRESS(p))
#else
#define CBS_TSAN_RELEASE(p) CBS_CAST(void, p)
#define CBS_TSAN_ACQUIRE(p) CBS_CAST(void, p)
#endif
#define CBS_TSAN_END(p) CBS_TSAN_RELEASE(p)
#define CBS_TSAN_OVER(p) CBS_TSAN_ACQUIRE(p)

/* Of a house or of a client. The fields are the library's. */
struct cbs_handle {
    bool full;
    void *at;
};

/* A handle that is not open. All bytes 0 are one, too. */
#define CBS_HANDLE_INIT { false, 0 }

/* The mode of a server. */
enum {
    /* After its budget is used up it goes on at once, at a deadline one period later. It may use idle time. */
    CBS_SOFT = 0,
    /* After its budget is used up it waits until its deadline. */
    CBS_THROTTLED = 1
};

/* A server: a budget in ticks for every period in ticks, 1 <= budget <= period <= 1000000000, and its mode. */
struct cbs_server {
    uint64_t budget;
    uint64_t period;
    uint32_t mode;
};

/* The kinds of struct cbs_unit. */
enum {
    CBS_RUN_IDLE = 0,      /* nobody was ready; the clock stays */
    CBS_RUN_CLOCK_END = 1, /* the clock stands at its end, 10^12, with somebody ready (of a turn: with a job unfinished) */
    CBS_RUN_UNIT = 2,      /* the program does one unit of the job; more are left */
    CBS_RUN_DONE = 3       /* the program does the last unit of the job */
};

/* The unit that is to be done, or why there is none. Of the last two kinds alone: */
struct cbs_unit {
    uint32_t kind;
    uint16_t server; /* the server of the job, from 0 */
    uint64_t seq;    /* the job's number among those of its server, from 0, as cbs_send wrote it */
    uint64_t token;  /* what was sent with it */
};

/* What a turn did. */
struct cbs_turn {
    uint64_t took;        /* how many messages it took, ends included: at most one of each server */
    uint64_t advanced;    /* by how many ticks it advanced, with nobody ready; the tick of a unit is not counted */
    struct cbs_unit ran;  /* the unit that is to be done now */
    bool out_of_memory;   /* whether there was no memory for some job, which stays in its ring */
    bool over;            /* whether every server is closed and no job is held: all is over, after the unit that is to be done now */
};

/* What the host of a house does next: the kinds of struct cbs_next. */
enum {
    CBS_NEXT_UNIT = 0,      /* it does the unit, whose tick has come */
    CBS_NEXT_SLEEP = 1,     /* it sleeps until its clock shows `until`: the tick of a unit */
    CBS_NEXT_LISTEN = 2,    /* it listens for its bell, and asks at once: a message may have come */
    CBS_NEXT_WAIT = 3,      /* it sleeps until its bell rings, or its clock shows `until` */
    CBS_NEXT_OVER = 4,      /* nothing: every server is closed, and every job is finished */
    CBS_NEXT_CLOCK_END = 5, /* nothing: the clock of the house stands at its end, 10^12 */
    CBS_NEXT_NO_MEMORY = 6  /* nothing: there was no memory for a job, which stays in its ring */
};

/* What the host of a house does next. Then it reads its clock, and asks again. */
struct cbs_next {
    uint32_t kind;
    uint32_t taken;       /* how many messages this question took from rings, ends included */
    uint64_t until;       /* of CBS_NEXT_SLEEP and CBS_NEXT_WAIT alone; UINT64_MAX for no end */
    struct cbs_unit unit; /* of CBS_NEXT_UNIT alone */
};

/* The pace of a house: what cbs_pace wrote, or all bytes 0, whose tick is a nanosecond. The
 * fields are the library's, neither read nor written. It is plain data: it may be moved, and
 * nothing is freed. */
struct cbs_pacer {
    uint64_t own[76];
};

/* What a pacer has seen. Times are in nanoseconds. No number passes UINT64_MAX. */
struct cbs_counts {
    uint64_t units;       /* how many units were done */
    uint64_t overruns;    /* how many of them took longer than a tick */
    uint64_t longest;     /* the longest unit */
    uint64_t charged;     /* how many ticks were charged for overruns */
    uint64_t behind;      /* how many whole ticks the house is behind the clock, as last seen */
    uint64_t most_behind; /* the most that this was */
};

/* A summary of numbers, in a memory that stays the same. No number passes UINT64_MAX: it stops
 * there. All bytes 0 are the summary of no numbers. */
struct cbs_spread {
    uint64_t count;    /* how many numbers there are */
    uint64_t total;    /* their sum */
    uint64_t least;    /* the least of them, 0 if there is none */
    uint64_t greatest; /* the greatest of them, 0 if there is none */
    /* How many of them are of each power. A 0 is of power 0. Another number is of power k if it is
     * below 2^k and not below 2^(k - 1). */
    uint64_t powers[65];
};

/* The figures of one server. No number passes UINT64_MAX: it stops there. All bytes 0 are the
 * figures of a server that did nothing. */
struct cbs_figures {
    uint64_t ticks;    /* by how many ticks the house's clock went on: who keeps figures sets it */
    uint64_t accepted; /* how many jobs were accepted */
    uint64_t units;    /* how many units have ended */
    uint64_t charged;  /* how many ticks were charged for them */
    /* Of the jobs that are done, in nanoseconds: from the question (cbs_next) that took the job
     * from its ring to the end of its last unit. What it waited in its ring before is not in it. */
    struct cbs_spread responses;
    /* Of the units that have ended, in ticks: by how much the house's clock, after the unit and its
     * charge, was past the deadline by which the unit was chosen. 0 if it was not. */
    struct cbs_spread lateness;
};

/* What a poll did. */
enum {
    CBS_POLL_NOTHING = 0,  /* no message was there, or the server is closed */
    CBS_POLL_TOOK = 1,     /* the next job was taken */
    CBS_POLL_CLOSED = 2,   /* the end was taken: the server is closed */
    CBS_POLL_FULL = 3,     /* a message waits, and the backlog is full: run first */
    CBS_POLL_NO_MEMORY = 4 /* a message waits, and there was no memory for it */
};

/* What a server shows. */
struct cbs_view {
    uint64_t budget;        /* the ticks that it may still use by its deadline */
    uint64_t deadline_low;  /* the deadline has 128 bits: the lower 64 */
    uint64_t deadline_high; /* and the upper, 0 for most programs' whole life */
    uint64_t accepted;      /* how many jobs were taken */
    uint64_t finished;      /* how many of them are finished */
    bool throttled;         /* whether it waits for its deadline */
    bool closed;            /* whether its client's end was taken */
};

/* A status is CBS_OK, or a kind and the number of an error of that kind. */
enum {
    CBS_OK = 0,
    CBS_RATE = 0x100,  /* of a server's budget and period */
    CBS_ADMIT = 0x200, /* of the servers together */
    CBS_HOUSE = 0x300, /* of the house */
    CBS_TASK = 0x400,  /* of a job */
    CBS_SEND = 0x500,  /* of sending */
    CBS_CALL = 0x600   /* of the call itself */
};

enum {
    CBS_RATE_ZERO_BUDGET = CBS_RATE | 1,
    CBS_RATE_PERIOD_TOO_LONG = CBS_RATE | 2,      /* longer than 1000000000 ticks */
    CBS_RATE_BUDGET_OVER_PERIOD = CBS_RATE | 3,
    CBS_RATE_BAD_BOUND = CBS_RATE | 4,            /* no call returns it: the bound is always 1 */

    CBS_ADMIT_TOO_MANY_SERVERS = CBS_ADMIT | 1,   /* more than 64 */
    CBS_ADMIT_PERIODS_TOO_FINE = CBS_ADMIT | 2,   /* the least common multiple of the periods is over 10^18 */
    CBS_ADMIT_OVER_BOUND = CBS_ADMIT | 3,         /* the sum of budget / period is over 1 */

    CBS_HOUSE_BAD_BACKLOG = CBS_HOUSE | 1,        /* not 1 to 4096 */
    CBS_HOUSE_BAD_RING = CBS_HOUSE | 2,           /* not 1 to 1024 */
    CBS_HOUSE_OUT_OF_MEMORY = CBS_HOUSE | 3,
    CBS_HOUSE_NO_SUCH_SERVER = CBS_HOUSE | 4,
    CBS_HOUSE_CLOCK_END = CBS_HOUSE | 5,          /* the clock would pass its end, 10^12 */
    CBS_HOUSE_STALLED = CBS_HOUSE | 6,            /* no call returns it */
    CBS_HOUSE_NOT_RUNNING = CBS_HOUSE | 7,        /* a charge or a finish of a server that did not run the last unit, or too late */

    CBS_TASK_EMPTY_JOB = CBS_TASK | 1,            /* 0 units */
    CBS_TASK_TOO_LONG = CBS_TASK | 2,             /* more than 1000000 units */

    CBS_SEND_ENDED = CBS_SEND | 1,                /* the client has ended */
    CBS_SEND_RING_FULL = CBS_SEND | 2,            /* try again after the house has polled */

    CBS_CALL_NOT_OPEN = CBS_CALL | 1,             /* the handle is not open: never, or not any more */
    CBS_CALL_OTHER_KIND = CBS_CALL | 2,           /* a house's handle in the place of a client's, or the other way round */
    CBS_CALL_WRONG_COUNT = CBS_CALL | 3,          /* not as many clients as servers */
    CBS_CALL_BAD_MODE = CBS_CALL | 4,             /* neither CBS_SOFT nor CBS_THROTTLED */
    CBS_CALL_HOUSE_GONE = CBS_CALL | 5,           /* the client's house was freed */
    CBS_CALL_NO_TAPE = CBS_CALL | 6               /* the house has no tape, or the place for its bytes is too short */
};

/* ---- From any thread ---- */

/* Opens a house with n servers, and a client for each: clients[i] is of servers[i]. A server takes at most backlog jobs
 * that are not finished, and a client's ring has places for ring messages. The servers are admitted one after another,
 * exactly if the sum of budget / period stays within 1.
 *
 * clients_n has to be n. What the handles held is freed, if the call succeeds.
 * Refuses by the first server that does not fit, with the statuses of CBS_RATE and CBS_ADMIT and CBS_CALL_BAD_MODE; by
 * CBS_CALL_WRONG_COUNT, CBS_HOUSE_BAD_BACKLOG, CBS_HOUSE_BAD_RING, and CBS_HOUSE_OUT_OF_MEMORY. The handles are then as
 * they were. */
uint32_t cbs_open(const struct cbs_server *servers, size_t n, uint64_t backlog, uint64_t ring,
                  struct cbs_handle *house, struct cbs_handle *clients, size_t clients_n);

/* Frees what the handle holds, a house or a client, and leaves it not open. It does nothing if the handle is not open, so
 * a second free is none. House and clients may be freed in any order.
 * A client that is freed ends, unless it has ended: its server closes once all that the client sent is taken. That end
 * is sent at a full ring, too. With a freed house everything is lost that it has not told as done: the jobs that it had
 * taken, and those that stand in the rings of its clients. cbs_free_unfinished gives their tokens back. */
void cbs_free(struct cbs_handle *handle);

/* Looks whether these n servers would be opened together, and opens nothing.
 * Refuses exactly as cbs_open does by its servers: by the first that does not fit. */
uint32_t cbs_admit(const struct cbs_server *servers, size_t n);

/* Writes the greatest budget with which a server of this period would still be admitted after these n servers; 0 if none
 * would, whatever the reason: a period of 0 or of more than 1000000000 ticks, 64 servers, too fine periods, no bandwidth.
 * Refuses exactly if these servers are refused themselves, as cbs_open does. */
uint32_t cbs_greatest_budget(const struct cbs_server *servers, size_t n, uint64_t period, uint64_t *out);

/* Returns the version of the library, as CBS_VERSION is that of this header: 10000 * major + 100 * minor + patch. A header
 * and a library fit if they agree in the first two of these. */
uint32_t cbs_version(void);

/* Writes the text of a status, in English, ASCII, and a zero byte after it: at most n bytes, so of a longer text the
 * first n - 1; nothing if n is 0. Returns the length of the whole text, without the zero byte, as snprintf does. A number
 * that is no status has a text, too. */
size_t cbs_status_text(uint32_t status, char *out, size_t n);

/* ---- Of the house: by the serving thread, one call at a time ---- */

/* Takes a turn: polls each server once, in their order, and then runs one unit. If nobody is ready and a job is not
 * finished (all who have one wait for their deadline), it advances the clock by the idle span instead; if no job is
 * there, or the clock stands at its end, it leaves the clock alone. No turn takes anybody's time. It tells when all is over. */
uint32_t cbs_turn(struct cbs_handle *house, struct cbs_turn *out);

/* Takes the next message of one server, if there is one and room for it, and writes what it did to *kind (CBS_POLL_..).
 * A message that is not taken stays in its ring. Refuses by CBS_HOUSE_NO_SUCH_SERVER. */
uint32_t cbs_poll(struct cbs_handle *house, uint16_t server, uint32_t *kind);

/* Runs: of the servers that are ready, that with the earliest deadline gets a tick; of several, the one with the
 * lowest number. The unit is the next of its first job; the program does it after the call. */
uint32_t cbs_run(struct cbs_handle *house, struct cbs_unit *out);

/* Lets ticks pass in which nothing runs. While somebody is ready that takes the time from the one who is: no promise
 * holds then. Refuses by CBS_HOUSE_CLOCK_END if the clock would pass 10^12. */
uint32_t cbs_advance(struct cbs_handle *house, uint64_t ticks);

/* Charges a server the ticks that its last unit took beyond the first: as many pass, and the server pays for them from
 * its budgets. Round up: of a unit that took `took` nanoseconds these are (took - 1) / tick. Charge after the unit and
 * before the next poll; a job that comes between may renew the server, and the new budget pays then. A charge of 0 ticks
 * changes nothing, and several charges of one unit are one charge of their sum.
 * Refuses, in this order, by CBS_HOUSE_NO_SUCH_SERVER; by CBS_HOUSE_NOT_RUNNING unless the server ran the last unit, and
 * no tick has passed since but what it was charged for that; and by CBS_HOUSE_CLOCK_END if the clock would pass 10^12. */
uint32_t cbs_charge(struct cbs_handle *house, uint16_t server, uint64_t ticks);

/* Ends the job that got the last unit of all, although it has units left: a frame that is late, say.
 * The job leaves its queue, and counts as finished. In hindsight it had only the units that it got,
 * from its send on: no clock, budget or deadline changes, and the server may still be charged for the
 * unit. Call this in the unit, or after it and before the house is asked for anything but a charge.
 * The job's token is the program's: no call tells it again.
 * Refuses, in this order, by CBS_HOUSE_NO_SUCH_SERVER; and by CBS_HOUSE_NOT_RUNNING unless the server
 * ran the last unit, which was not the last of its job, and no tick has passed since but what it was
 * charged, and no job of this server was taken since. */
uint32_t cbs_finish(struct cbs_handle *house, uint16_t server);

/* The byte that ends a tape which has each step. */
#define CBS_TAPE_END 4

/* Tells each step of the house from now on to a new tape: each job that is taken, with its number of units, each unit, each
 * advance and each charge of a tick or more, and each close. The tape has bytes + 31 bytes of memory, which this call takes;
 * no other call takes memory for it, and none waits. A step that finds no room is lost, with all that follow, and the tape
 * keeps those before it. A job that ends early (cbs_finish, cbs_free_unfinished) is lost so, too: no tape can tell it.
 * A tape that the house had is freed, with what was not taken.
 * Refuses by CBS_HOUSE_OUT_OF_MEMORY: the house is then as before. */
uint32_t cbs_tape_open(struct cbs_handle *house, uint32_t bytes);

/* Moves what the tape has so far to the n bytes at out, and writes how many bytes it is. The tape then has all its memory
 * again, and is told the steps to come. What these calls move, one after another, tells the steps in order. If nothing was
 * lost, the byte CBS_TAPE_END after the last of it says so.
 * Refuses by CBS_CALL_NO_TAPE if the house has no tape, or if n is less than the tape's memory. Nothing changes then. */
uint32_t cbs_tape_take(struct cbs_handle *house, uint8_t *out, size_t n, size_t *length);

/* Writes whether the tape lost a step, so that it has only those before. Refuses by CBS_CALL_NO_TAPE if there is no tape. */
uint32_t cbs_tape_lost(struct cbs_handle *house, bool *lost);

/* Frees the tape, with what was not taken. The house goes on with none. Refuses by CBS_CALL_NO_TAPE if there is none. */
uint32_t cbs_tape_close(struct cbs_handle *house);

/* Writes how many ticks a server was charged, in all, and at most for one unit. Refuses by CBS_HOUSE_NO_SUCH_SERVER. */
uint32_t cbs_charges(struct cbs_handle *house, uint16_t server, uint64_t *total, uint64_t *most);

/* Writes the clock: 0 to 10^12 ticks. */
uint32_t cbs_now(struct cbs_handle *house, uint64_t *out);

/* Writes the greatest number of ticks before whose last nobody is ready, and UINT64_MAX if somebody is ready now. If no
 * job is there it reaches to the clock's end, so do not advance by it then. */
uint32_t cbs_idle_span(struct cbs_handle *house, uint64_t *out);

/* Writes what a server shows. Refuses by CBS_HOUSE_NO_SUCH_SERVER. */
uint32_t cbs_view(struct cbs_handle *house, uint16_t server, struct cbs_view *out);

/* Writes the tick by which all that a server has taken is finished, whatever the others ask for: 128 bits. It is kept if no
 * advance took anybody's time, before the call or after it, and nothing was charged. An advance while somebody is ready takes
 * time: the tick may then have passed already. With charges it is kept later: by a period of the server for each budget's ticks
 * that the server is charged after the call, and by the most that each other server was charged for one unit, added up.
 * Both halves are UINT64_MAX if nothing is unfinished. Refuses by CBS_HOUSE_NO_SUCH_SERVER. */
uint32_t cbs_promised(struct cbs_handle *house, uint16_t server, uint64_t *low, uint64_t *high);

/* ---- Of the house in real time: by the serving thread, too ----
 *
 * The host reads a clock, asks what is next, does it, reads the clock, and asks again:
 *
 *     cbs_pace(house, 1000000, false, reading(), &pacer);             a tick is a millisecond
 *     while (cbs_next(house, &pacer, reading(), &next) == CBS_OK && next.kind < CBS_NEXT_OVER) {
 *         do what next.kind says
 *     }
 *
 * A unit lasts from the question that told it to the next call of cbs_next or cbs_done. Times and
 * readings are in nanoseconds, of any clock. A step back of it counts as no time. No call here
 * reads a clock, and none sleeps. No unit begins before its tick, so the house is ahead of that
 * clock by at most a tick. If the house is behind, units follow each other at once. */

/* Begins the time of a house, at this reading of the host's clock, and writes its pacer. A tick
 * is as long as `tick` says, and 0 counts as 1. What a unit takes beyond a tick is rounded up to
 * whole ticks and charged. If `carry`, what is less than a tick is carried to the server's next
 * unit. */
uint32_t cbs_pace(struct cbs_handle *house, uint64_t tick, bool carry, uint64_t time,
                  struct cbs_pacer *pacer);

/* Takes a reading of the host's clock, and writes what the host does next. In this order:
 * - The unit that was being done ends. Its server is charged for the time since the last reading.
 *   A charge that would pass the clock's end is cut to what is left. There is none if the program
 *   has run or advanced the house by hand since the unit was told.
 * - If nobody is ready the ticks pass that are over.
 * - Each server is polled once. `taken` tells how many messages came. cbs_promised may be asked
 *   then.
 * - If somebody is ready and the tick of the unit has come, the unit is run.
 * That all is over, the clock's end and a lack of memory are kinds: the status is CBS_OK. */
uint32_t cbs_next(struct cbs_handle *house, struct cbs_pacer *pacer, uint64_t time,
                  struct cbs_next *next);

/* Does what cbs_next does, but charges the unit that was being done the time `took`, by whatever
 * clock the host took it. More than the time since the last reading is not charged. What is not
 * charged of that time is nobody's, and the house falls behind by it. */
uint32_t cbs_next_measured(struct cbs_handle *house, struct cbs_pacer *pacer, uint64_t time,
                           uint64_t took, struct cbs_next *next);

/* Ends the unit that was being done, at this reading, and charges it as cbs_next does. It is for
 * a host that stops asking, for now or for ever. If no unit was being done, it takes the reading
 * alone. */
uint32_t cbs_done(struct cbs_handle *house, struct cbs_pacer *pacer, uint64_t time);

/* Does what cbs_done does, but charges the time `took`, as cbs_next_measured does. */
uint32_t cbs_done_measured(struct cbs_handle *house, struct cbs_pacer *pacer, uint64_t time,
                           uint64_t took);

/* Writes what a pacer has seen so far. A unit counts from when it ends. */
void cbs_counts(const struct cbs_pacer *pacer, struct cbs_counts *counts);

/* Returns sizeof(struct cbs_pacer), as the library has it. */
size_t cbs_pacer_size(void);

/* ---- Figures of servers: plain data, by one thread at a time ----
 *
 * struct cbs_live of cbs_realtime.h keeps those of each server of a house, and is read from any
 * thread. A program with a loop of its own may make these calls itself. */

/* Adds one more number. */
void cbs_spread_add(struct cbs_spread *spread, uint64_t number);

/* Returns the mean, rounded down, and 0 if there is no number. */
uint64_t cbs_spread_mean(const struct cbs_spread *spread);

/* Returns a number such that at least so many of a thousand numbers are at most it: 990 asks for
 * that of 99 %. It is the least such one of 0, 1, 3, 7, 15 .., or the greatest number, if that is
 * less. More than 1000 count as 1000. */
uint64_t cbs_spread_at_most(const struct cbs_spread *spread, uint64_t per_mille);

/* Notes that so many jobs of a server are accepted in all, as cbs_view tells after a question that
 * took messages. Those that were not noted before were accepted at this time.
 * `came` is a ring of n times, which is the program's: n is the backlog of the house, or more. */
void cbs_figures_accepted(struct cbs_figures *figures, uint64_t *came, size_t n, uint64_t accepted,
                          uint64_t time);

/* Notes that a unit of the server ended at this time, was charged so many ticks, and has this
 * lateness. If it was the last of its job, the response of the job is added, unless more jobs were
 * accepted since than `came` has places. */
void cbs_figures_ended(struct cbs_figures *figures, const uint64_t *came, size_t n,
                       const struct cbs_unit *unit, uint64_t time, uint64_t charged,
                       uint64_t lateness);

/* Returns the share of the server: how many of a thousand ticks of the house's clock were those of
 * its units or charged for these. It is rounded down, and 0 if there is no tick. */
uint64_t cbs_figures_share(const struct cbs_figures *figures);

/* Returns by how many ticks a unit of a server ended after the deadline by which it was chosen, and
 * 0 if it did not. The view is that of the server, and `clock` what cbs_now tells, both right after
 * the call that told the unit. `charged` are the ticks that the unit was then charged. */
uint64_t cbs_lateness(const struct cbs_server *server, const struct cbs_view *view, uint64_t clock,
                      uint64_t charged);

/* ---- Of a client: by one thread at a time, beside calls on the house and on other clients ---- */

/* Sends a job of 1 to 1000000 units, and writes its number among the jobs of this client, from 0. Jobs of a client are
 * taken, run and finished in the order of their sends. What the thread wrote before the send is seen by the thread that
 * is told the token, so a token may be a pointer (the thread sanitizer wants CBS_TSAN_RELEASE and CBS_TSAN_ACQUIRE).
 * Refuses, in this order, by CBS_TASK_EMPTY_JOB and CBS_TASK_TOO_LONG, by CBS_CALL_HOUSE_GONE if its house was freed, by
 * CBS_SEND_ENDED after an end, and by CBS_SEND_RING_FULL: nothing was sent then, the number is not used, and the token is
 * still the caller's. A send while the house is being freed may return CBS_OK; that job is lost with the house. */
uint32_t cbs_send(struct cbs_handle *client, uint64_t token, uint32_t units, uint64_t *seq);

/* Sends the end, after all jobs: nothing more can be sent, and the server closes when the end is taken.
 * Refuses by CBS_CALL_HOUSE_GONE if its house was freed, by CBS_SEND_RING_FULL (send it again later), and by
 * CBS_SEND_ENDED if it was sent before. */
uint32_t cbs_end(struct cbs_handle *client);

/* Writes how many messages of this client stand in its ring, not taken yet. While the house polls there may be fewer when
 * the call is over. */
uint32_t cbs_waiting(struct cbs_handle *client, uint64_t *out);

/* ---- At the end, by the serving thread ---- */

/* Gives the token of each job that is not finished back, those in the rings too, and frees the house: `back` is called
 * with the context, the job's server and its token. The units of these jobs are not done. The clients have ended, or
 * were freed, or send nothing more: whoever sends on may keep this going.
 * Refuses by CBS_HOUSE_OUT_OF_MEMORY, if there was no memory to take a job, and by CBS_HOUSE_CLOCK_END, if the clock of
 * the house stands at its end. The house is not freed then, and this may be called again. */
static inline uint32_t cbs_free_unfinished(struct cbs_handle *house,
                                           void (*back)(void *context, uint16_t server, uint64_t token),
                                           void *context) {
    struct cbs_turn turn;
    uint32_t status;
    do {
        status = cbs_turn(house, &turn);
        if (status != CBS_OK) {
            return status;
        }
        if (turn.ran.kind == CBS_RUN_UNIT) {
            status = cbs_finish(house, turn.ran.server);
        }
        if (turn.ran.kind == CBS_RUN_UNIT || turn.ran.kind == CBS_RUN_DONE) {
            back(context, turn.ran.server, turn.ran.token);
        } else if (turn.ran.kind == CBS_RUN_CLOCK_END) {
            return CBS_HOUSE_CLOCK_END;
        } else if (turn.out_of_memory) {
            return CBS_HOUSE_OUT_OF_MEMORY;
        }
    } while (turn.took > 0 || turn.advanced > 0 || turn.ran.kind != CBS_RUN_IDLE);
    cbs_free(house);
    return status;
}

#ifdef __cplusplus
}
#ifdef __GNUC__
#pragma GCC diagnostic pop
#endif
#endif
#endif

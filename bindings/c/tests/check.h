/* What the tests share: a check that tells where it failed, and the opening of a small house. */
#ifndef CHECK_H
#define CHECK_H

#include "cbs.h"
#include <stdio.h>
#include <stdlib.h>

#define CHECK(condition)                                                                \
    do {                                                                                \
        if (!(condition)) {                                                             \
            fprintf(stderr, "%s:%d: not so: %s\n", __FILE__, __LINE__, #condition);      \
            exit(1);                                                                    \
        }                                                                               \
    } while (0)

/* What stands in an out parameter before a call, to see that a refusal leaves it. */
#define UNTOUCHED 0x5a5a5a5a5a5a5a5aU

static inline bool untouched(const void *at, size_t n) {
    const unsigned char *bytes = CBS_CAST(const unsigned char *, at);
    for (size_t i = 0; i < n; i++) {
        if (bytes[i] != 0x5a) {
            return false;
        }
    }
    return true;
}

/* A house of up to four servers with its clients. */
struct setup {
    struct cbs_handle house;
    struct cbs_handle clients[4];
    size_t n;
};

static const struct cbs_handle SHUT = CBS_HANDLE_INIT;

static inline void set_up(struct setup *setup, const struct cbs_server *servers, size_t n, uint64_t backlog, uint64_t ring) {
    setup->house = SHUT;
    for (size_t i = 0; i < 4; i++) {
        setup->clients[i] = SHUT;
    }
    setup->n = n;
    CHECK(cbs_open(servers, n, backlog, ring, &setup->house, setup->clients, n) == CBS_OK);
}

static inline void tear_down(struct setup *setup) {
    for (size_t i = 0; i < setup->n; i++) {
        cbs_free(&setup->clients[i]);
    }
    cbs_free(&setup->house);
}

/* Sends a job, which has to get this number. */
static inline void send_job(struct cbs_handle *client, uint64_t token, uint32_t units, uint64_t number) {
    uint64_t seq = UNTOUCHED;
    CHECK(cbs_send(client, token, units, &seq) == CBS_OK);
    CHECK(seq == number);
}

/* Sends a job, which has to get this number, and has the house take it. */
static inline void submit(struct setup *setup, uint16_t server, uint64_t token, uint32_t units, uint64_t number) {
    uint32_t kind = UINT32_MAX;
    send_job(&setup->clients[server], token, units, number);
    CHECK(cbs_poll(&setup->house, server, &kind) == CBS_OK);
    CHECK(kind == CBS_POLL_TOOK);
}

/* Checks what is told of a unit; if there is none, all that stands beside the kind is 0. */
static inline void is_unit(const struct cbs_unit *unit, uint32_t kind, uint16_t server, uint64_t seq, uint64_t token) {
    CHECK(unit->kind == kind && unit->server == server && unit->seq == seq && unit->token == token);
}

/* Runs, and checks the unit that is told. */
static inline void runs(struct setup *setup, uint32_t kind, uint16_t server, uint64_t seq, uint64_t token) {
    struct cbs_unit unit;
    CHECK(cbs_run(&setup->house, &unit) == CBS_OK);
    is_unit(&unit, kind, server, seq, token);
}

/* Checks what a server shows of its budget. */
static inline void shows(struct setup *setup, uint16_t server, uint64_t budget, uint64_t deadline, bool throttled) {
    struct cbs_view view;
    CHECK(cbs_view(&setup->house, server, &view) == CBS_OK);
    CHECK(view.budget == budget && view.deadline_low == deadline && view.deadline_high == 0);
    CHECK(view.throttled == throttled);
}

#endif

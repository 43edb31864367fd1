/* Refuses each allocation in turn, one alone and all from one on: the status says so, all is as it was, nothing leaks, and
 * the call made again with memory succeeds. And a house that serves for long holds no more than at first. The program's own heap
 * stands in the place of heap.c. */
#include "check.h"
#include <malloc.h>
#include <string.h>

#ifdef __cplusplus
extern "C" {
#endif

struct rattle_block {
    bool ok;
    void *at;
};

struct rattle_block rattle_alloc(size_t size, size_t align);
struct rattle_block rattle_realloc(void *block, size_t kept, size_t size, size_t align);
void rattle_dealloc(void *block);

#ifdef __cplusplus
}
#endif

static char nowhere;
static long asked;       /* how often memory was asked for */
static long refused_at;  /* the first that is refused, from 0; -1 for none */
static bool all_after;  /* whether all after it are refused, too */
static long live;        /* how many blocks are out */
static size_t held;      /* and how many bytes these have */

static bool grants(void) {
    long number = asked++;
    return refused_at < 0 || (all_after ? number < refused_at : number != refused_at);
}

static struct rattle_block block_at(void *at) {
    struct rattle_block block;
    block.ok = at != NULL;
    block.at = at != NULL ? at : (void *)&nowhere;
    return block;
}

struct rattle_block rattle_alloc(size_t size, size_t align) {
    void *at = grants() ? malloc(size != 0 ? size : align) : NULL;
    live += at != NULL;
    held += malloc_usable_size(at);
    return block_at(at);
}

struct rattle_block rattle_realloc(void *block, size_t kept, size_t size, size_t align) {
    (void)kept;
    size_t before = malloc_usable_size(block);
    void *at = grants() ? realloc(block, size != 0 ? size : align) : NULL;
    if (at != NULL) {
        held += malloc_usable_size(at) - before;
    }
    return block_at(at);
}

void rattle_dealloc(void *block) {
    live--;
    held -= malloc_usable_size(block);
    free(block);
}

static void refuse(long at, bool all) {
    asked = 0;
    refused_at = at;
    all_after = all;
}

#define SERVERS 3
static const struct cbs_server servers[SERVERS] = {{1, 5, CBS_SOFT}, {1, 5, CBS_THROTTLED}, {1, 5, CBS_SOFT}};

/* Opens with this allocation refused; if that is met, again with memory. Returns whether it was met. */
static bool opens(struct setup *setup, long at, bool all) {
    setup->n = SERVERS;
    setup->house = SHUT;
    for (size_t i = 0; i < SERVERS; i++) {
        setup->clients[i] = SHUT;
    }
    refuse(at, all);
    uint32_t status = cbs_open(servers, SERVERS, 4, 4, &setup->house, setup->clients, SERVERS);
    bool met = asked > at;
    CHECK(status == (met ? (uint32_t)CBS_HOUSE_OUT_OF_MEMORY : (uint32_t)CBS_OK));
    if (met) {
        CHECK(live == 0 && !setup->house.full);
        CHECK(!setup->clients[0].full && !setup->clients[1].full && !setup->clients[2].full);
        refuse(-1, false);
        CHECK(cbs_open(servers, SERVERS, 4, 4, &setup->house, setup->clients, SERVERS) == CBS_OK);
    }
    return met;
}

/* Sends a job of one unit with memory, and has the house take it with this allocation refused, by a poll or by a turn.
 * Whether it was met; then the job stayed in its ring, and is taken with memory. */
static bool takes(struct setup *setup, uint64_t token, bool by_turn, long at, bool all) {
    struct cbs_turn turn;
    uint64_t seq, waiting = 9;
    uint32_t kind = 99;
    refuse(0, true); /* a send asks for no memory */
    CHECK(cbs_send(&setup->clients[1], token, 1, &seq) == CBS_OK && asked == 0);
    refuse(at, all);
    if (by_turn) {
        CHECK(cbs_turn(&setup->house, &turn) == CBS_OK);
        kind = turn.out_of_memory ? CBS_POLL_NO_MEMORY : CBS_POLL_TOOK;
        CHECK(turn.took == !turn.out_of_memory && turn.ran.kind == (turn.took == 1 ? CBS_RUN_DONE : CBS_RUN_IDLE));
    } else {
        CHECK(cbs_poll(&setup->house, 1, &kind) == CBS_OK);
    }
    bool met = asked > at;
    CHECK(kind == (met ? CBS_POLL_NO_MEMORY : CBS_POLL_TOOK));
    CHECK(cbs_waiting(&setup->clients[1], &waiting) == CBS_OK && waiting == met);
    if (met) {
        refuse(-1, false);
        CHECK(cbs_poll(&setup->house, 1, &kind) == CBS_OK && kind == CBS_POLL_TOOK);
    }
    refuse(0, true); /* nor does a run */
    if (met || !by_turn) {
        runs(setup, CBS_RUN_DONE, 1, seq, token);
    }
    CHECK(asked == 0);
    return met;
}

/* The other calls, with no memory at all. */
static void need_none(struct setup *setup) {
    struct cbs_view view;
    uint64_t number, other;
    refuse(0, true);
    CHECK(cbs_now(&setup->house, &number) == CBS_OK);
    CHECK(cbs_idle_span(&setup->house, &number) == CBS_OK);
    CHECK(cbs_view(&setup->house, 1, &view) == CBS_OK);
    CHECK(cbs_promised(&setup->house, 1, &number, &other) == CBS_OK);
    CHECK(cbs_advance(&setup->house, 20) == CBS_OK);
    CHECK(cbs_greatest_budget(servers, SERVERS, 10, &number) == CBS_OK && number == 4);
    CHECK(cbs_end(&setup->clients[1]) == CBS_OK);
    CHECK(asked == 0);
    cbs_free(&setup->clients[0]);
    CHECK(asked == 0);
}

/* A house in real time: a job for which there is no memory stays in its ring, and is taken when
 * there is some. All else of a pacer needs none. */
static void paces(void) {
    struct setup setup;
    struct cbs_pacer pacer;
    struct cbs_next next;
    struct cbs_counts counts;
    uint64_t seq, waiting = 9;
    refuse(-1, false);
    set_up(&setup, servers, SERVERS, 4, 4);
    CHECK(cbs_send(&setup.clients[1], 7, 2, &seq) == CBS_OK);
    refuse(0, true);
    CHECK(cbs_pace(&setup.house, 1000, false, 0, &pacer) == CBS_OK && asked == 0);
    for (uint64_t time = 0; time < 3; time++) {
        CHECK(cbs_next(&setup.house, &pacer, time, &next) == CBS_OK && asked > 0);
        CHECK(next.kind == CBS_NEXT_NO_MEMORY && next.taken == 0);
        CHECK(cbs_waiting(&setup.clients[1], &waiting) == CBS_OK && waiting == 1);
    }
    refuse(-1, false);
    CHECK(cbs_next(&setup.house, &pacer, 3, &next) == CBS_OK);
    CHECK(next.kind == CBS_NEXT_UNIT && next.taken == 1);
    refuse(0, true);
    CHECK(cbs_done(&setup.house, &pacer, 9000) == CBS_OK);
    CHECK(cbs_next(&setup.house, &pacer, 60000, &next) == CBS_OK && next.kind == CBS_NEXT_UNIT);
    is_unit(&next.unit, CBS_RUN_DONE, 1, seq, 7);
    cbs_counts(&pacer, &counts);
    CHECK(counts.units == 1 && asked == 0);
    tear_down(&setup);
    CHECK(live == 0);
}

/* A tape for which there is no memory changes nothing, and takes none after its beginning. */
static void records(void) {
    static const uint8_t steps[] = {0x41, 0x01, 0xC0, 0x02, 0x05, CBS_TAPE_END};
    struct setup setup;
    uint8_t bytes[132];
    size_t length;
    uint64_t seq;
    bool lost;
    refuse(-1, false);
    set_up(&setup, servers, SERVERS, 4, 4);
    CHECK(cbs_send(&setup.clients[1], 7, 1, &seq) == CBS_OK);
    long before = live, refusals = 0;
    for (;; refusals++) {
        refuse(refusals, false);
        if (cbs_tape_open(&setup.house, 100) == CBS_OK) {
            break;
        }
        CHECK(cbs_tape_lost(&setup.house, &lost) == CBS_CALL_NO_TAPE && live == before);
    }
    CHECK(refusals == 2 && live == before + 2); /* the box and the bytes of the tape */
    refuse(0, false);
    CHECK(cbs_tape_open(&setup.house, 100) == CBS_HOUSE_OUT_OF_MEMORY);
    CHECK(cbs_tape_lost(&setup.house, &lost) == CBS_OK && !lost && live == before + 2); /* the tape of before */
    refuse(-1, false);
    uint32_t kind = 99;
    CHECK(cbs_poll(&setup.house, 1, &kind) == CBS_OK && kind == CBS_POLL_TOOK);
    refuse(0, true);
    runs(&setup, CBS_RUN_DONE, 1, seq, 7);
    CHECK(cbs_advance(&setup.house, 5) == CBS_OK);
    CHECK(cbs_tape_take(&setup.house, bytes, 131, &length) == CBS_OK && length == 5);
    bytes[length] = CBS_TAPE_END;
    CHECK(memcmp(bytes, steps, sizeof steps) == 0);
    CHECK(cbs_tape_close(&setup.house) == CBS_OK && asked == 0);
    tear_down(&setup);
    CHECK(live == 0);
}

/* Serves so many jobs of one unit of each server. */
static void serves(struct setup *setup, long jobs) {
    for (long job = 0; job < jobs; job++) {
        for (size_t server = 0; server < SERVERS; server++) {
            uint64_t seq;
            CHECK(cbs_send(&setup->clients[server], 7, 1, &seq) == CBS_OK);
        }
        for (size_t done = 0; done < SERVERS;) {
            struct cbs_turn turn;
            CHECK(cbs_turn(&setup->house, &turn) == CBS_OK && turn.ran.kind != CBS_RUN_CLOCK_END && !turn.out_of_memory);
            done += turn.ran.kind == CBS_RUN_DONE;
        }
    }
}

static void serves_for_long(void) {
    struct setup setup;
    refuse(-1, false);
    set_up(&setup, servers, SERVERS, 4, 4);
    serves(&setup, 1000);
    size_t before = held;
    serves(&setup, 20000);
    CHECK(held == before);
    tear_down(&setup);
    CHECK(live == 0 && held == 0);
}

int main(void) {
    long in_open = 0, in_poll = 0, in_turn = 0;
    for (int all = 0; all < 2; all++) {
        struct setup setup;
        for (long at = 0; opens(&setup, at, all == 1); at++) {
            in_open = at + 1;
            tear_down(&setup);
            CHECK(live == 0);
        }
        tear_down(&setup);
        for (int by_turn = 0; by_turn < 2; by_turn++) {
            bool met = true;
            for (long at = 0; met; at++) {
                opens(&setup, 1000, false);
                met = takes(&setup, 7, by_turn == 1, at, all == 1);
                *(by_turn == 1 ? &in_turn : &in_poll) = at;
                need_none(&setup);
                tear_down(&setup);
                CHECK(live == 0);
            }
        }
    }
    paces();
    records();
    serves_for_long();
    printf("allocations, each refused in turn: %ld of cbs_open, %ld of cbs_poll, %ld of cbs_turn\n", in_open, in_poll, in_turn);
    return 0;
}

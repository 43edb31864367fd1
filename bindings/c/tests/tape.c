/* Tapes: what a house tells one, in bytes by hand, in pieces, and what is lost. */
#include "check.h"
#include <string.h>

static const struct cbs_server servers[2] = {{2, 5, CBS_SOFT}, {2, 5, CBS_THROTTLED}};

/* Takes what the tape has, which has to be these bytes. */
static void takes(struct setup *setup, const uint8_t *wanted, size_t n) {
    uint8_t bytes[131];
    size_t length = SIZE_MAX;
    memset(bytes, 0x5a, sizeof bytes);
    CHECK(cbs_tape_take(&setup->house, bytes, sizeof bytes, &length) == CBS_OK);
    CHECK(length == n && memcmp(bytes, wanted, n) == 0);
    CHECK(untouched(bytes + n, sizeof bytes - n));
}

/* Checks whether the tape lost a step. */
static void loses(struct setup *setup, bool wanted) {
    bool lost = !wanted;
    CHECK(cbs_tape_lost(&setup->house, &lost) == CBS_OK);
    CHECK(lost == wanted);
}

static void tells_each_step(void) {
    static const uint8_t first[] = {0x40, 0x03, 0x41, 0x04, 0xC0, 0x80, 0x02, 0xC1};
    static const uint8_t second[] = {0xC0, 0x02, 0x05, 0x03, 0x01};
    struct setup setup;
    uint32_t kind = UINT32_MAX;
    set_up(&setup, servers, 2, 4, 4);
    CHECK(cbs_tape_open(&setup.house, 100) == CBS_OK);
    takes(&setup, first, 0);
    submit(&setup, 0, 7, 3, 0);
    submit(&setup, 1, 8, 4, 0);
    runs(&setup, CBS_RUN_UNIT, 0, 0, 7);
    CHECK(cbs_charge(&setup.house, 0, 2) == CBS_OK);
    /* Server 0 has 1 left of its second budget, with the deadline 10; that of server 1 is 5. */
    runs(&setup, CBS_RUN_UNIT, 1, 0, 8);
    CHECK(cbs_charge(&setup.house, 1, 0) == CBS_OK);
    runs(&setup, CBS_RUN_UNIT, 1, 0, 8);
    takes(&setup, first, sizeof first);
    runs(&setup, CBS_RUN_UNIT, 0, 0, 7);
    CHECK(cbs_advance(&setup.house, 5) == CBS_OK);
    CHECK(cbs_advance(&setup.house, 0) == CBS_OK);
    CHECK(cbs_end(&setup.clients[1]) == CBS_OK);
    CHECK(cbs_poll(&setup.house, 1, &kind) == CBS_OK && kind == CBS_POLL_CLOSED);
    CHECK(cbs_poll(&setup.house, 1, &kind) == CBS_OK && kind == CBS_POLL_NOTHING);
    takes(&setup, second, sizeof second);
    takes(&setup, second, 0);
    loses(&setup, false);
    CHECK(cbs_tape_close(&setup.house) == CBS_OK);
    CHECK(cbs_tape_close(&setup.house) == CBS_CALL_NO_TAPE);
    tear_down(&setup);
}

/* A tape of 31 bytes has room for one entry, and again after each piece. */
static void loses_what_finds_no_room(void) {
    static const uint8_t ticks[] = {0x02, 0x07};
    struct setup setup;
    uint8_t bytes[31];
    size_t length = 99;
    set_up(&setup, servers, 2, 4, 4);
    CHECK(cbs_tape_open(&setup.house, 0) == CBS_OK);
    memset(bytes, 0x5a, sizeof bytes);
    for (int piece = 0; piece < 100; piece++) {
        CHECK(cbs_advance(&setup.house, 7) == CBS_OK);
        CHECK(cbs_tape_take(&setup.house, bytes, 30, &length) == CBS_CALL_NO_TAPE && length == 99 && untouched(bytes, 31));
        CHECK(cbs_tape_take(&setup.house, bytes, 31, &length) == CBS_OK && length == 2 && memcmp(bytes, ticks, 2) == 0);
        length = 99;
        memset(bytes, 0x5a, sizeof bytes);
    }
    CHECK(cbs_advance(&setup.house, 7) == CBS_OK);
    loses(&setup, false);
    CHECK(cbs_advance(&setup.house, 7) == CBS_OK);
    loses(&setup, true);
    takes(&setup, ticks, sizeof ticks);
    CHECK(cbs_advance(&setup.house, 7) == CBS_OK);
    takes(&setup, ticks, 0);
    loses(&setup, true);
    /* A new tape has what comes from then on. */
    CHECK(cbs_tape_open(&setup.house, 100) == CBS_OK);
    loses(&setup, false);
    CHECK(cbs_advance(&setup.house, 7) == CBS_OK);
    takes(&setup, ticks, sizeof ticks);
    tear_down(&setup);
}

static void loses_an_early_end(void) {
    static const uint8_t before[] = {0x40, 0x03, 0xC0};
    struct setup setup;
    set_up(&setup, servers, 2, 4, 4);
    CHECK(cbs_tape_open(&setup.house, 100) == CBS_OK);
    submit(&setup, 0, 7, 3, 0);
    runs(&setup, CBS_RUN_UNIT, 0, 0, 7);
    CHECK(cbs_finish(&setup.house, 1) == CBS_HOUSE_NOT_RUNNING);
    loses(&setup, false);
    CHECK(cbs_finish(&setup.house, 0) == CBS_OK);
    loses(&setup, true);
    takes(&setup, before, sizeof before);
    tear_down(&setup);
}

static void is_refused(void) {
    struct setup setup;
    uint8_t bytes[64];
    size_t length = 99;
    bool lost = true;
    set_up(&setup, servers, 2, 4, 4);
    memset(bytes, 0x5a, sizeof bytes);
    CHECK(cbs_tape_take(&setup.house, bytes, sizeof bytes, &length) == CBS_CALL_NO_TAPE && length == 99);
    CHECK(untouched(bytes, sizeof bytes));
    CHECK(cbs_tape_lost(&setup.house, &lost) == CBS_CALL_NO_TAPE && lost);
    CHECK(cbs_tape_close(&setup.house) == CBS_CALL_NO_TAPE);
    tear_down(&setup);
}

int main(void) {
    tells_each_step();
    loses_what_finds_no_room();
    loses_an_early_end();
    is_refused();
    puts("tape: all as expected");
    return 0;
}

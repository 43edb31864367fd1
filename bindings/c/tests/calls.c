/* Every call of the library, with every status that it can return but out of memory (memory.c). The texts are in texts.c,
 * and what the structs look like in layouts.c. */
#include "check.h"
#include <string.h>

static const struct cbs_server soft_and_throttled[2] = {{2, 5, CBS_SOFT}, {1, 10, CBS_THROTTLED}};

static uint32_t opened(const struct cbs_server *servers, size_t n, uint64_t backlog, uint64_t ring, size_t clients_n) {
    struct cbs_handle house = CBS_HANDLE_INIT;
    struct cbs_handle clients[65];
    for (size_t i = 0; i < 65; i++) {
        clients[i] = SHUT;
    }
    uint32_t status = cbs_open(servers, n, backlog, ring, &house, clients, clients_n);
    CHECK(house.full == (status == CBS_OK));
    CHECK(cbs_end(&house) == (status == CBS_OK ? CBS_CALL_OTHER_KIND : CBS_CALL_NOT_OPEN));
    for (size_t i = 0; i < 65; i++) {
        CHECK(clients[i].full == (status == CBS_OK && i < n));
        cbs_free(&clients[i]);
    }
    cbs_free(&house);
    return status;
}

static uint32_t one(uint64_t budget, uint64_t period, uint32_t mode) {
    struct cbs_server server = {budget, period, mode};
    return opened(&server, 1, 4, 4, 1);
}

static void open_refuses_a_server(void) {
    CHECK(one(1, 1, CBS_SOFT) == CBS_OK);
    CHECK(one(1000000000, 1000000000, CBS_THROTTLED) == CBS_OK);
    CHECK(one(0, 5, CBS_SOFT) == CBS_RATE_ZERO_BUDGET);
    CHECK(one(1, 1000000001, CBS_SOFT) == CBS_RATE_PERIOD_TOO_LONG);
    CHECK(one(6, 5, CBS_SOFT) == CBS_RATE_BUDGET_OVER_PERIOD);
    CHECK(one(1, 5, 2) == CBS_CALL_BAD_MODE);
}

/* The first that does not fit is told, also if it is the second. */
static void open_refuses_the_second_server(void) {
    struct cbs_server servers[2] = {{2, 5, CBS_SOFT}, {0, 5, CBS_SOFT}};
    CHECK(opened(servers, 2, 4, 4, 2) == CBS_RATE_ZERO_BUDGET);
    servers[1].budget = 4;
    CHECK(opened(servers, 2, 4, 4, 2) == CBS_ADMIT_OVER_BOUND);
    servers[1].budget = 2;
    servers[1].mode = 2;
    CHECK(opened(servers, 2, 4, 4, 2) == CBS_CALL_BAD_MODE);
    servers[1].mode = CBS_SOFT;
    CHECK(opened(servers, 2, 4, 4, 2) == CBS_OK);
}

/* So many servers with one tick in every period each. */
static void alike(struct cbs_server *servers, size_t n, uint64_t period) {
    for (size_t i = 0; i < n; i++) {
        servers[i].budget = 1;
        servers[i].period = period;
        servers[i].mode = CBS_SOFT;
    }
}

static void open_refuses_a_plan(void) {
    /* 999999937 is a prime: with 10^9 the common multiple is just below 10^18, and with a third it is far above. */
    struct cbs_server fine[3] = {{1, 999999937, CBS_SOFT}, {1, 1000000000, CBS_SOFT}, {1, 999999929, CBS_SOFT}};
    CHECK(opened(fine, 2, 4, 4, 2) == CBS_OK);
    CHECK(opened(fine, 3, 4, 4, 3) == CBS_ADMIT_PERIODS_TOO_FINE);
    struct cbs_server over[2] = {{2, 5, CBS_SOFT}, {4, 5, CBS_THROTTLED}};
    CHECK(opened(over, 2, 4, 4, 2) == CBS_ADMIT_OVER_BOUND);
    over[1].budget = 3;
    CHECK(opened(over, 2, 4, 4, 2) == CBS_OK);
    struct cbs_server many[65];
    alike(many, 65, 100);
    CHECK(opened(many, 64, 4, 4, 64) == CBS_OK);
    CHECK(opened(many, 65, 4, 4, 65) == CBS_ADMIT_TOO_MANY_SERVERS);
    CHECK(opened(many, 0, 4, 4, 0) == CBS_OK);
}

static void open_refuses_its_sizes(void) {
    struct cbs_server servers[2] = {{2, 5, CBS_SOFT}, {3, 5, CBS_SOFT}};
    CHECK(opened(servers, 2, 0, 4, 2) == CBS_HOUSE_BAD_BACKLOG);
    CHECK(opened(servers, 2, 4097, 4, 2) == CBS_HOUSE_BAD_BACKLOG);
    CHECK(opened(servers, 2, 4096, 4, 2) == CBS_OK);
    CHECK(opened(servers, 2, 4, 0, 2) == CBS_HOUSE_BAD_RING);
    CHECK(opened(servers, 2, 4, 1025, 2) == CBS_HOUSE_BAD_RING);
    CHECK(opened(servers, 2, 4, 1024, 2) == CBS_OK);
    CHECK(opened(servers, 2, 4, 4, 1) == CBS_CALL_WRONG_COUNT);
    CHECK(opened(servers, 2, 4, 4, 3) == CBS_CALL_WRONG_COUNT);
}

/* An open over open handles frees what they held; a refused one leaves them. */
static void open_again(void) {
    struct cbs_server servers[2] = {{2, 5, CBS_SOFT}, {3, 5, CBS_SOFT}};
    struct setup setup;
    set_up(&setup, servers, 2, 4, 4);
    submit(&setup, 1, 7, 1, 0);
    CHECK(cbs_open(servers, 2, 0, 4, &setup.house, setup.clients, 2) == CBS_HOUSE_BAD_BACKLOG);
    runs(&setup, CBS_RUN_DONE, 1, 0, 7);
    CHECK(cbs_open(servers, 2, 4, 4, &setup.house, setup.clients, 2) == CBS_OK);
    runs(&setup, CBS_RUN_IDLE, 0, 0, 0);
    submit(&setup, 1, 8, 1, 0);
    runs(&setup, CBS_RUN_DONE, 1, 0, 8);
    tear_down(&setup);
}

/* Every call of a house returns this for the handle, and writes nothing. */
static void no_house(struct cbs_handle *handle, uint32_t status) {
    uint64_t number = UNTOUCHED, other = UNTOUCHED;
    uint32_t kind = 99;
    uint8_t bytes[64];
    size_t length = 99;
    bool lost = true;
    struct cbs_unit unit;
    struct cbs_turn turn;
    struct cbs_view view;
    memset(bytes, 0x5a, sizeof bytes);
    memset(&unit, 0x5a, sizeof unit);
    memset(&turn, 0x5a, sizeof turn);
    memset(&view, 0x5a, sizeof view);
    CHECK(cbs_poll(handle, 0, &kind) == status && kind == 99);
    CHECK(cbs_run(handle, &unit) == status && untouched(&unit, sizeof unit));
    CHECK(cbs_turn(handle, &turn) == status && untouched(&turn, sizeof turn));
    CHECK(cbs_advance(handle, 1) == status);
    CHECK(cbs_charge(handle, 0, 1) == status);
    CHECK(cbs_finish(handle, 0) == status);
    CHECK(cbs_tape_open(handle, 1) == status);
    CHECK(cbs_tape_take(handle, bytes, sizeof bytes, &length) == status && length == 99 && untouched(bytes, sizeof bytes));
    CHECK(cbs_tape_lost(handle, &lost) == status && lost);
    CHECK(cbs_tape_close(handle) == status);
    CHECK(cbs_charges(handle, 0, &number, &other) == status && number == UNTOUCHED && other == UNTOUCHED);
    CHECK(cbs_now(handle, &number) == status && number == UNTOUCHED);
    CHECK(cbs_idle_span(handle, &number) == status && number == UNTOUCHED);
    CHECK(cbs_view(handle, 0, &view) == status && untouched(&view, sizeof view));
    CHECK(cbs_promised(handle, 0, &number, &other) == status && number == UNTOUCHED && other == UNTOUCHED);
}

/* Every call that names a server refuses one that is not there, and writes nothing. */
static void no_server(struct cbs_handle *house, uint16_t server) {
    uint64_t low = UNTOUCHED, high = UNTOUCHED;
    uint32_t kind = 99;
    struct cbs_view view;
    memset(&view, 0x5a, sizeof view);
    CHECK(cbs_poll(house, server, &kind) == CBS_HOUSE_NO_SUCH_SERVER && kind == 99);
    CHECK(cbs_view(house, server, &view) == CBS_HOUSE_NO_SUCH_SERVER && untouched(&view, sizeof view));
    CHECK(cbs_promised(house, server, &low, &high) == CBS_HOUSE_NO_SUCH_SERVER && low == UNTOUCHED && high == UNTOUCHED);
    CHECK(cbs_charge(house, server, 0) == CBS_HOUSE_NO_SUCH_SERVER);
    CHECK(cbs_finish(house, server) == CBS_HOUSE_NO_SUCH_SERVER);
    CHECK(cbs_charges(house, server, &low, &high) == CBS_HOUSE_NO_SUCH_SERVER && low == UNTOUCHED && high == UNTOUCHED);
}

/* Every call of a client returns this for the handle, and writes nothing. */
static void no_client(struct cbs_handle *handle, uint32_t status) {
    uint64_t number = UNTOUCHED;
    CHECK(cbs_send(handle, 1, 1, &number) == status && number == UNTOUCHED);
    CHECK(cbs_end(handle) == status);
    CHECK(cbs_waiting(handle, &number) == status && number == UNTOUCHED);
}

static void handles(void) {
    struct cbs_server server = {2, 5, CBS_SOFT};
    struct setup setup;
    struct cbs_handle shut = CBS_HANDLE_INIT, zero;
    memset(&zero, 0, sizeof zero);
    no_house(&shut, CBS_CALL_NOT_OPEN);
    no_client(&shut, CBS_CALL_NOT_OPEN);
    no_house(&zero, CBS_CALL_NOT_OPEN);
    set_up(&setup, &server, 1, 4, 4);
    no_house(&setup.clients[0], CBS_CALL_OTHER_KIND);
    no_client(&setup.house, CBS_CALL_OTHER_KIND);
    submit(&setup, 0, 7, 1, 0); /* both are as they were */
    runs(&setup, CBS_RUN_DONE, 0, 0, 7);
    tear_down(&setup);
    no_house(&setup.house, CBS_CALL_NOT_OPEN);
    no_client(&setup.clients[0], CBS_CALL_NOT_OPEN);
    tear_down(&setup); /* a second free is none */
}

/* Checks how many messages of a client wait in its ring. */
static void waits(struct cbs_handle *client, uint64_t wanted) {
    uint64_t waiting = UNTOUCHED;
    CHECK(cbs_waiting(client, &waiting) == CBS_OK && waiting == wanted);
}

static void sending(void) {
    struct cbs_server server = {2, 5, CBS_SOFT};
    struct setup setup;
    uint64_t seq = UNTOUCHED, waiting = UNTOUCHED;
    set_up(&setup, &server, 1, 4, 2);
    struct cbs_handle *client = &setup.clients[0];
    CHECK(cbs_send(client, 1, 0, &seq) == CBS_TASK_EMPTY_JOB && seq == UNTOUCHED);
    CHECK(cbs_send(client, 1, 1000001, &seq) == CBS_TASK_TOO_LONG && seq == UNTOUCHED);
    CHECK(cbs_waiting(client, &waiting) == CBS_OK && waiting == 0);
    CHECK(cbs_send(client, 1, 1000000, &seq) == CBS_OK && seq == 0);
    CHECK(cbs_send(client, 2, 1, &seq) == CBS_OK && seq == 1);
    CHECK(cbs_waiting(client, &waiting) == CBS_OK && waiting == 2);
    CHECK(cbs_send(client, 3, 1, &seq) == CBS_SEND_RING_FULL && seq == 1);
    CHECK(cbs_end(client) == CBS_SEND_RING_FULL);
    uint32_t kind;
    CHECK(cbs_poll(&setup.house, 0, &kind) == CBS_OK && kind == CBS_POLL_TOOK);
    CHECK(cbs_waiting(client, &waiting) == CBS_OK && waiting == 1);
    CHECK(cbs_end(client) == CBS_OK);
    CHECK(cbs_end(client) == CBS_SEND_ENDED);
    CHECK(cbs_send(client, 3, 1, &seq) == CBS_SEND_ENDED && seq == 1);
    CHECK(cbs_waiting(client, &waiting) == CBS_OK && waiting == 2);
    tear_down(&setup);
}

static void polls(struct setup *setup, uint16_t server, uint32_t wanted) {
    uint32_t kind = 99;
    CHECK(cbs_poll(&setup->house, server, &kind) == CBS_OK);
    CHECK(kind == wanted);
}

/* A client sees what was taken of its ring, and of no other. */
static void taking(void) {
    struct setup setup;
    set_up(&setup, soft_and_throttled, 2, 4, 4);
    send_job(&setup.clients[0], 7, 1, 0);
    send_job(&setup.clients[0], 8, 1, 1);
    waits(&setup.clients[0], 2);
    polls(&setup, 0, CBS_POLL_TOOK);
    waits(&setup.clients[0], 1);
    polls(&setup, 0, CBS_POLL_TOOK);
    waits(&setup.clients[0], 0);
    waits(&setup.clients[1], 0);
    tear_down(&setup);
}

/* A client of a freed house is told so, after its units were looked at, whether its ring is full and whether it has ended. */
static void house_is_gone(void) {
    struct cbs_server servers[3] = {{1, 5, CBS_SOFT}, {1, 5, CBS_SOFT}, {1, 5, CBS_SOFT}};
    struct setup setup;
    uint64_t seq;
    set_up(&setup, servers, 3, 4, 1);
    CHECK(cbs_send(&setup.clients[1], 1, 1, &seq) == CBS_OK);
    CHECK(cbs_end(&setup.clients[2]) == CBS_OK);
    cbs_free(&setup.house);
    for (size_t i = 0; i < 3; i++) {
        seq = UNTOUCHED;
        CHECK(cbs_send(&setup.clients[i], 2, 0, &seq) == CBS_TASK_EMPTY_JOB && seq == UNTOUCHED);
        CHECK(cbs_send(&setup.clients[i], 2, 1, &seq) == CBS_CALL_HOUSE_GONE && seq == UNTOUCHED);
        CHECK(cbs_end(&setup.clients[i]) == CBS_CALL_HOUSE_GONE);
        waits(&setup.clients[i], i == 0 ? 0 : 1); /* what it had sent, an end too */
    }
    tear_down(&setup);
}

/* The server of a client that was freed closes after the jobs in its ring, with and without a free place, once. */
static void client_is_gone(void) {
    struct cbs_server servers[3] = {{1, 5, CBS_SOFT}, {1, 5, CBS_SOFT}, {1, 5, CBS_SOFT}};
    struct setup setup;
    uint64_t seq;
    set_up(&setup, servers, 3, 4, 1);
    CHECK(cbs_send(&setup.clients[1], 9, 1, &seq) == CBS_OK);
    CHECK(cbs_end(&setup.clients[2]) == CBS_OK);
    for (size_t i = 0; i < 3; i++) {
        cbs_free(&setup.clients[i]);
    }
    polls(&setup, 0, CBS_POLL_CLOSED);
    polls(&setup, 1, CBS_POLL_TOOK);
    polls(&setup, 1, CBS_POLL_CLOSED);
    polls(&setup, 2, CBS_POLL_CLOSED);
    for (uint16_t i = 0; i < 3; i++) {
        struct cbs_view view;
        polls(&setup, i, CBS_POLL_NOTHING);
        CHECK(cbs_view(&setup.house, i, &view) == CBS_OK && view.accepted == (i == 1) && view.closed);
    }
    runs(&setup, CBS_RUN_DONE, 1, 0, 9);
    runs(&setup, CBS_RUN_IDLE, 0, 0, 0);
    tear_down(&setup);
}

/* Numbers that no server has, with a message in the ring of one that is there. */
static void no_such_servers(void) {
    struct setup setup;
    set_up(&setup, soft_and_throttled, 2, 4, 1);
    send_job(&setup.clients[0], 7, 1, 0);
    no_server(&setup.house, 2);
    no_server(&setup.house, 63);
    no_server(&setup.house, 64);
    no_server(&setup.house, 65535);
    polls(&setup, 0, CBS_POLL_TOOK);
    polls(&setup, 1, CBS_POLL_NOTHING);
    tear_down(&setup);
}

static void polling(void) {
    struct cbs_server server = {2, 5, CBS_SOFT};
    struct setup setup;
    uint64_t seq;
    set_up(&setup, &server, 1, 1, 4);
    polls(&setup, 0, CBS_POLL_NOTHING);
    no_server(&setup.house, 1);
    no_server(&setup.house, 65535);
    CHECK(cbs_send(&setup.clients[0], 11, 1, &seq) == CBS_OK);
    CHECK(cbs_send(&setup.clients[0], 12, 1, &seq) == CBS_OK);
    CHECK(cbs_end(&setup.clients[0]) == CBS_OK);
    polls(&setup, 0, CBS_POLL_TOOK);
    polls(&setup, 0, CBS_POLL_FULL);
    runs(&setup, CBS_RUN_DONE, 0, 0, 11);
    polls(&setup, 0, CBS_POLL_TOOK);
    polls(&setup, 0, CBS_POLL_FULL); /* the end waits, too */
    runs(&setup, CBS_RUN_DONE, 0, 1, 12);
    polls(&setup, 0, CBS_POLL_CLOSED);
    polls(&setup, 0, CBS_POLL_NOTHING);
    struct cbs_view view;
    CHECK(cbs_view(&setup.house, 0, &view) == CBS_OK);
    CHECK(view.accepted == 2 && view.finished == 2 && view.closed && !view.throttled);
    tear_down(&setup);
}

/* Takes a turn that tells of this unit, with something left to do. */
static void turns(struct cbs_handle *house, uint64_t took, uint64_t advanced, uint32_t kind, uint16_t server, uint64_t seq, uint64_t token) {
    struct cbs_turn turn;
    memset(&turn, 0x5a, sizeof turn);
    CHECK(cbs_turn(house, &turn) == CBS_OK);
    CHECK(turn.took == took && turn.advanced == advanced && !turn.out_of_memory && !turn.over);
    is_unit(&turn.ran, kind, server, seq, token);
}

/* Checks for how many ticks no server will be ready. */
static void rests_for(struct setup *setup, uint64_t ticks) {
    uint64_t span = UNTOUCHED;
    CHECK(cbs_idle_span(&setup->house, &span) == CBS_OK && span == ticks);
}

static void stands_at(struct setup *setup, uint64_t tick) {
    uint64_t now = UNTOUCHED;
    CHECK(cbs_now(&setup->house, &now) == CBS_OK && now == tick);
}

/* Checks the tick by which server 0 promises to be done. */
static void promises(struct setup *setup, uint64_t low, uint64_t high) {
    uint64_t lower = UNTOUCHED, upper = UNTOUCHED;
    CHECK(cbs_promised(&setup->house, 0, &lower, &upper) == CBS_OK && lower == low && upper == high);
}

/* Both servers, from the sends to the end, by turns and by runs. */
static void serving(void) {
    struct setup setup;
    struct cbs_view view;
    set_up(&setup, soft_and_throttled, 2, 4, 4);
    promises(&setup, UINT64_MAX, UINT64_MAX);
    send_job(&setup.clients[0], 7, 3, 0);
    send_job(&setup.clients[1], 9, 2, 0);
    CHECK(cbs_end(&setup.clients[1]) == CBS_OK);
    waits(&setup.clients[1], 2);
    polls(&setup, 0, CBS_POLL_TOOK);
    promises(&setup, 10, 0); /* three units with 2 ticks in 5: the third waits for the second budget */
    rests_for(&setup, UINT64_MAX);
    turns(&setup.house, 1, 0, CBS_RUN_UNIT, 0, 0, 7);
    runs(&setup, CBS_RUN_UNIT, 0, 0, 7);
    CHECK(cbs_view(&setup.house, 0, &view) == CBS_OK);
    CHECK(view.budget == 2 && view.deadline_low == 10 && view.deadline_high == 0);
    CHECK(view.accepted == 1 && view.finished == 0 && !view.throttled && !view.closed);
    runs(&setup, CBS_RUN_DONE, 0, 0, 7);
    turns(&setup.house, 1, 0, CBS_RUN_UNIT, 1, 0, 9);
    rests_for(&setup, 6); /* server 1 has used its budget up at tick 4, and waits until 10 */
    turns(&setup.house, 0, 6, CBS_RUN_IDLE, 0, 0, 0);
    runs(&setup, CBS_RUN_DONE, 1, 0, 9);
    CHECK(cbs_advance(&setup.house, 1) == CBS_OK);
    stands_at(&setup, 12);
    runs(&setup, CBS_RUN_IDLE, 0, 0, 0);
    tear_down(&setup);
}

/* 64 servers take the whole processor. All deadlines are 64, so the server with the lowest number is first. */
static void widest(void) {
    struct cbs_server servers[65];
    struct cbs_handle house = CBS_HANDLE_INIT, clients[64];
    uint64_t budget = UNTOUCHED;
    alike(servers, 64, 64);
    for (size_t i = 0; i < 64; i++) {
        clients[i] = SHUT;
    }
    CHECK(cbs_open(servers, 64, 1, 1, &house, clients, 64) == CBS_OK);
    for (size_t i = 0; i < 64; i++) {
        send_job(&clients[i], 1000 + i, 1, 0);
    }
    turns(&house, 64, 0, CBS_RUN_DONE, 0, 0, 1000);
    for (uint16_t i = 1; i < 64; i++) {
        turns(&house, 0, 0, CBS_RUN_DONE, i, 0, 1000U + i);
    }
    turns(&house, 0, 0, CBS_RUN_IDLE, 0, 0, 0);
    for (size_t i = 0; i < 64; i++) {
        cbs_free(&clients[i]);
    }
    cbs_free(&house);
    alike(servers, 65, 65);
    CHECK(opened(servers, 65, 1, 1, 65) == CBS_ADMIT_TOO_MANY_SERVERS);
    CHECK(cbs_greatest_budget(servers, 64, 65, &budget) == CBS_OK && budget == 0);
}

/* A soft server with 2 ticks in every 5, and a job of three units. */
static void running(void) {
    struct cbs_server server = {2, 5, CBS_SOFT};
    struct setup setup;
    uint64_t low = 0, high = 0, now = UNTOUCHED;
    set_up(&setup, &server, 1, 4, 4);
    shows(&setup, 0, 0, 0, false);
    runs(&setup, CBS_RUN_IDLE, 0, 0, 0);
    CHECK(cbs_promised(&setup.house, 0, &low, &high) == CBS_OK && low == UINT64_MAX && high == UINT64_MAX);
    submit(&setup, 0, UINT64_MAX, 3, 0);
    shows(&setup, 0, 2, 5, false);
    CHECK(cbs_promised(&setup.house, 0, &low, &high) == CBS_OK && low == 10 && high == 0);
    runs(&setup, CBS_RUN_UNIT, 0, 0, UINT64_MAX);
    shows(&setup, 0, 1, 5, false);
    runs(&setup, CBS_RUN_UNIT, 0, 0, UINT64_MAX);
    shows(&setup, 0, 2, 10, false);
    runs(&setup, CBS_RUN_DONE, 0, 0, UINT64_MAX);
    shows(&setup, 0, 1, 10, false);
    runs(&setup, CBS_RUN_IDLE, 0, 0, 0);
    CHECK(cbs_now(&setup.house, &now) == CBS_OK && now == 3);
    tear_down(&setup);
}

/* Two throttled servers with 2 ticks in every 5: the first has four units to do, the second two. */
static void throttling(void) {
    struct cbs_server servers[2] = {{2, 5, CBS_THROTTLED}, {2, 5, CBS_THROTTLED}};
    struct setup setup;
    uint64_t span = 0;
    set_up(&setup, servers, 2, 4, 4);
    submit(&setup, 0, 100, 4, 0);
    submit(&setup, 1, 200, 2, 0);
    CHECK(cbs_idle_span(&setup.house, &span) == CBS_OK && span == UINT64_MAX);
    runs(&setup, CBS_RUN_UNIT, 0, 0, 100);
    runs(&setup, CBS_RUN_UNIT, 0, 0, 100);
    shows(&setup, 0, 0, 5, true);
    runs(&setup, CBS_RUN_UNIT, 1, 0, 200);
    runs(&setup, CBS_RUN_DONE, 1, 0, 200);
    runs(&setup, CBS_RUN_IDLE, 0, 0, 0);
    CHECK(cbs_idle_span(&setup.house, &span) == CBS_OK && span == 1);
    CHECK(cbs_advance(&setup.house, 1) == CBS_OK);
    shows(&setup, 0, 2, 10, false);
    runs(&setup, CBS_RUN_UNIT, 0, 0, 100);
    runs(&setup, CBS_RUN_DONE, 0, 0, 100);
    shows(&setup, 0, 0, 10, true);
    tear_down(&setup);
}

static void charged(struct setup *setup, uint16_t server, uint64_t total, uint64_t most) {
    uint64_t all = UNTOUCHED, one = UNTOUCHED;
    CHECK(cbs_charges(&setup->house, server, &all, &one) == CBS_OK && all == total && one == most);
}

/* A throttled and a soft server with 1 tick in every 10 each, and a unit of each that took longer than its tick. */
static void charging(void) {
    struct cbs_server servers[2] = {{1, 10, CBS_THROTTLED}, {1, 10, CBS_SOFT}};
    struct setup setup;
    uint64_t now = 0, span = 0;
    set_up(&setup, servers, 2, 4, 4);
    submit(&setup, 0, 100, 2, 0);
    submit(&setup, 1, 200, 2, 0);
    CHECK(cbs_charge(&setup.house, 0, 1) == CBS_HOUSE_NOT_RUNNING); /* nobody ran */
    runs(&setup, CBS_RUN_UNIT, 0, 0, 100);
    shows(&setup, 0, 0, 10, true);
    CHECK(cbs_charge(&setup.house, 1, 1) == CBS_HOUSE_NOT_RUNNING); /* the other ran */
    CHECK(cbs_charge(&setup.house, 0, UINT64_MAX) == CBS_HOUSE_CLOCK_END);
    CHECK(cbs_charge(&setup.house, 0, 0) == CBS_OK);
    shows(&setup, 0, 0, 10, true);
    CHECK(cbs_charge(&setup.house, 0, 1) == CBS_OK);
    shows(&setup, 0, 0, 20, true); /* a period pays for the tick */
    CHECK(cbs_charge(&setup.house, 0, 2) == CBS_OK);
    shows(&setup, 0, 0, 40, true);
    charged(&setup, 0, 3, 3);
    runs(&setup, CBS_RUN_UNIT, 1, 0, 200); /* tick 5 */
    shows(&setup, 1, 1, 20, false);
    CHECK(cbs_charge(&setup.house, 0, 1) == CBS_HOUSE_NOT_RUNNING); /* too late */
    CHECK(cbs_charge(&setup.house, 1, 3) == CBS_OK);
    shows(&setup, 1, 1, 50, false);
    charged(&setup, 1, 3, 3);
    CHECK(cbs_now(&setup.house, &now) == CBS_OK && now == 8);
    runs(&setup, CBS_RUN_DONE, 1, 0, 200);
    CHECK(cbs_idle_span(&setup.house, &span) == CBS_OK && span == 31); /* of tick 9, until 40 */
    CHECK(cbs_advance(&setup.house, 1) == CBS_OK);
    CHECK(cbs_charge(&setup.house, 1, 1) == CBS_HOUSE_NOT_RUNNING); /* a tick has passed */
    charged(&setup, 1, 3, 3);
    tear_down(&setup);
}

/* A job that ends after one of its five units, and one after it. */
static void ending_early(void) {
    struct cbs_server servers[2] = {{2, 4, CBS_SOFT}, {1, 8, CBS_SOFT}};
    struct setup setup;
    set_up(&setup, servers, 2, 4, 4);
    submit(&setup, 0, 100, 5, 0);
    submit(&setup, 0, 101, 1, 1);
    CHECK(cbs_finish(&setup.house, 0) == CBS_HOUSE_NOT_RUNNING); /* nobody ran */
    runs(&setup, CBS_RUN_UNIT, 0, 0, 100);
    CHECK(cbs_finish(&setup.house, 1) == CBS_HOUSE_NOT_RUNNING); /* the other ran */
    shows(&setup, 0, 1, 4, false);
    CHECK(cbs_finish(&setup.house, 0) == CBS_OK);
    shows(&setup, 0, 1, 4, false);
    CHECK(cbs_finish(&setup.house, 0) == CBS_HOUSE_NOT_RUNNING); /* it has ended */
    CHECK(cbs_charge(&setup.house, 0, 2) == CBS_OK);             /* its unit took three ticks */
    charged(&setup, 0, 2, 2);
    runs(&setup, CBS_RUN_DONE, 0, 1, 101);
    CHECK(cbs_finish(&setup.house, 0) == CBS_HOUSE_NOT_RUNNING); /* that was the last unit */
    tear_down(&setup);
}

/* What is charged before a unit, and of another server; and periods of 10 that pay for three ticks. */
static void charging_by_name(void) {
    struct setup setup;
    set_up(&setup, soft_and_throttled, 2, 4, 4);
    send_job(&setup.clients[1], 9, 2, 0);
    CHECK(cbs_charge(&setup.house, 1, 1) == CBS_HOUSE_NOT_RUNNING);
    turns(&setup.house, 1, 0, CBS_RUN_UNIT, 1, 0, 9);
    CHECK(cbs_charge(&setup.house, 2, 1) == CBS_HOUSE_NO_SUCH_SERVER);
    CHECK(cbs_charge(&setup.house, 0, 1) == CBS_HOUSE_NOT_RUNNING);
    CHECK(cbs_charge(&setup.house, 1, UINT64_MAX) == CBS_HOUSE_CLOCK_END);
    CHECK(cbs_charge(&setup.house, 1, 2) == CBS_OK);
    CHECK(cbs_charge(&setup.house, 1, 1) == CBS_OK);
    stands_at(&setup, 4);
    rests_for(&setup, 36); /* throttled at tick 1 until 10, and then for three periods more */
    charged(&setup, 1, 3, 3);
    charged(&setup, 0, 0, 0);
    no_server(&setup.house, 2);
    CHECK(cbs_charge(&setup.clients[0], 0, 1) == CBS_CALL_OTHER_KIND);
    charged(&setup, 1, 3, 3);
    tear_down(&setup);
}

/* A deadline and a promise of more than 64 bits. Each tick moves the deadline by a period of 10^9, and nearly all ticks are
 * charged to one unit: 10^21 is 54 * 2^64 + 3875820019684212736. */
static void halves(void) {
    struct cbs_server server = {1, 1000000000, CBS_SOFT};
    struct setup setup;
    struct cbs_view view;
    set_up(&setup, &server, 1, 4, 4);
    submit(&setup, 0, 11, 1, 0);
    submit(&setup, 0, 12, 1, 1);
    submit(&setup, 0, 13, 2, 2);
    CHECK(cbs_end(&setup.clients[0]) == CBS_OK);
    polls(&setup, 0, CBS_POLL_CLOSED);
    runs(&setup, CBS_RUN_DONE, 0, 0, 11);
    runs(&setup, CBS_RUN_DONE, 0, 1, 12);
    runs(&setup, CBS_RUN_UNIT, 0, 2, 13); /* tick 3, deadline 4 * 10^9 */
    CHECK(cbs_charge(&setup.house, 0, 999999999996) == CBS_OK);
    stands_at(&setup, 999999999999);
    memset(&view, 0x5a, sizeof view);
    CHECK(cbs_view(&setup.house, 0, &view) == CBS_OK);
    CHECK(view.budget == 1 && view.deadline_low == 3875820019684212736 && view.deadline_high == 54);
    CHECK(view.accepted == 3 && view.finished == 2 && !view.throttled && view.closed);
    promises(&setup, 3875820019684212736, 54);
    runs(&setup, CBS_RUN_DONE, 0, 2, 13);
    tear_down(&setup);
}

static bool is_over(struct setup *setup) {
    struct cbs_turn turn;
    CHECK(cbs_turn(&setup->house, &turn) == CBS_OK);
    return turn.over;
}

/* All is over with the turn that tells of the last unit, if the servers are closed by then; and with that which closes the last. */
static void ending(void) {
    struct cbs_server servers[2] = {{1, 10, CBS_THROTTLED}, {1, 2, CBS_SOFT}};
    struct setup setup;
    uint64_t seq;
    set_up(&setup, servers, 2, 4, 4);
    CHECK(cbs_send(&setup.clients[1], 6, 3, &seq) == CBS_OK);
    cbs_free(&setup.clients[1]);
    CHECK(cbs_end(&setup.clients[0]) == CBS_OK);
    CHECK(!is_over(&setup)); /* server 0 is closed */
    CHECK(!is_over(&setup)); /* so is server 1; a unit is left */
    CHECK(is_over(&setup) && is_over(&setup));
    tear_down(&setup);
    set_up(&setup, servers, 2, 4, 4);
    CHECK(cbs_send(&setup.clients[1], 6, 1, &seq) == CBS_OK);
    cbs_free(&setup.clients[1]);
    CHECK(!is_over(&setup) && !is_over(&setup) && !is_over(&setup)); /* server 0 is open */
    cbs_free(&setup.clients[0]);
    CHECK(is_over(&setup));
    tear_down(&setup);
    set_up(&setup, soft_and_throttled, 2, 4, 4);
    CHECK(!is_over(&setup)); /* nothing was sent, and both are open */
    send_job(&setup.clients[0], 7, 3, 0);
    cbs_free(&setup.clients[1]);
    CHECK(!is_over(&setup));
    cbs_free(&setup.clients[0]);
    CHECK(!is_over(&setup)); /* the second unit of three */
    CHECK(is_over(&setup) && is_over(&setup));
    tear_down(&setup);
}

/* A throttled server with 1 tick in every 10, and a soft one with 1 in every 2. */
static void turning(void) {
    struct cbs_server servers[2] = {{1, 10, CBS_THROTTLED}, {1, 2, CBS_SOFT}};
    struct setup setup;
    uint64_t seq, now = 0;
    set_up(&setup, servers, 2, 4, 4);
    turns(&setup.house, 0, 0, CBS_RUN_IDLE, 0, 0, 0);
    CHECK(cbs_send(&setup.clients[0], 5, 2, &seq) == CBS_OK);
    CHECK(cbs_send(&setup.clients[1], 6, 1, &seq) == CBS_OK);
    CHECK(cbs_end(&setup.clients[1]) == CBS_OK);
    turns(&setup.house, 2, 0, CBS_RUN_DONE, 1, 0, 6); /* tick 1: deadline 2 before 10 */
    turns(&setup.house, 1, 0, CBS_RUN_UNIT, 0, 0, 5); /* tick 2: the end is taken, and server 0 is throttled */
    turns(&setup.house, 0, 8, CBS_RUN_IDLE, 0, 0, 0); /* tick 10 */
    turns(&setup.house, 0, 0, CBS_RUN_DONE, 0, 0, 5); /* tick 11 */
    turns(&setup.house, 0, 0, CBS_RUN_IDLE, 0, 0, 0);
    CHECK(cbs_now(&setup.house, &now) == CBS_OK && now == 11);
    tear_down(&setup);
}

static void clock_ends(void) {
    struct cbs_server server = {2, 5, CBS_SOFT};
    struct setup setup;
    struct cbs_turn turn;
    uint64_t now = 0, span = UNTOUCHED;
    set_up(&setup, &server, 1, 4, 4);
    CHECK(cbs_idle_span(&setup.house, &span) == CBS_OK && span == 1000000000000);
    CHECK(cbs_advance(&setup.house, 0) == CBS_OK);
    CHECK(cbs_advance(&setup.house, 1000000000001) == CBS_HOUSE_CLOCK_END);
    CHECK(cbs_now(&setup.house, &now) == CBS_OK && now == 0);
    CHECK(cbs_advance(&setup.house, 1000000000000) == CBS_OK);
    CHECK(cbs_advance(&setup.house, 1) == CBS_HOUSE_CLOCK_END);
    CHECK(cbs_advance(&setup.house, UINT64_MAX) == CBS_HOUSE_CLOCK_END);
    CHECK(cbs_now(&setup.house, &now) == CBS_OK && now == 1000000000000);
    submit(&setup, 0, 7, 1, 0);
    runs(&setup, CBS_RUN_CLOCK_END, 0, 0, 0);
    CHECK(cbs_turn(&setup.house, &turn) == CBS_OK);
    CHECK(turn.ran.kind == CBS_RUN_CLOCK_END && turn.took == 0 && turn.advanced == 0);
    tear_down(&setup);
}

static void greatest_budgets_of_none(void) {
    struct cbs_server many[64];
    uint64_t budget = UNTOUCHED;
    alike(many, 64, 100);
    CHECK(cbs_greatest_budget(many, 63, 100, &budget) == CBS_OK && budget == 37);
    CHECK(cbs_greatest_budget(many, 64, 100, &budget) == CBS_OK && budget == 0);
    CHECK(cbs_greatest_budget(many, 1, 1000000000, &budget) == CBS_OK && budget == 990000000);
    CHECK(cbs_greatest_budget(many, 1, 1000000001, &budget) == CBS_OK && budget == 0);
    CHECK(cbs_greatest_budget(many, 1, 0, &budget) == CBS_OK && budget == 0);
    struct cbs_server fine[2] = {{1, 999999937, CBS_SOFT}, {1, 1000000000, CBS_SOFT}};
    CHECK(cbs_greatest_budget(fine, 2, 999999929, &budget) == CBS_OK && budget == 0);
}

static void greatest_budgets(void) {
    struct cbs_server servers[2] = {{2, 5, CBS_SOFT}, {1, 4, CBS_THROTTLED}};
    uint64_t budget = UNTOUCHED;
    CHECK(cbs_admit(servers, 0) == CBS_OK && cbs_admit(servers, 2) == CBS_OK);
    CHECK(cbs_greatest_budget(servers, 0, 7, &budget) == CBS_OK && budget == 7);
    CHECK(cbs_greatest_budget(servers, 1, 10, &budget) == CBS_OK && budget == 6);
    CHECK(cbs_greatest_budget(servers, 2, 10, &budget) == CBS_OK && budget == 3); /* 7 of 20 are left: 3.5 of 10 */
    CHECK(cbs_greatest_budget(servers, 2, 2, &budget) == CBS_OK && budget == 0);
    servers[1].budget = 5;
    budget = UNTOUCHED;
    CHECK(cbs_greatest_budget(servers, 2, 10, &budget) == CBS_RATE_BUDGET_OVER_PERIOD && budget == UNTOUCHED);
    servers[1].budget = 3;
    CHECK(cbs_greatest_budget(servers, 2, 10, &budget) == CBS_ADMIT_OVER_BOUND && budget == UNTOUCHED);
    CHECK(cbs_admit(servers, 2) == CBS_ADMIT_OVER_BOUND && cbs_admit(servers, 1) == CBS_OK);
    servers[0].mode = 2;
    CHECK(cbs_greatest_budget(servers, 1, 10, &budget) == CBS_CALL_BAD_MODE && budget == UNTOUCHED);
    CHECK(cbs_admit(servers, 1) == CBS_CALL_BAD_MODE);
    CHECK(cbs_admit(soft_and_throttled, 2) == CBS_OK);
    CHECK(cbs_greatest_budget(soft_and_throttled, 2, 10, &budget) == CBS_OK && budget == 5); /* 5 in 10 are left, */
    CHECK(cbs_greatest_budget(soft_and_throttled, 2, 4, &budget) == CBS_OK && budget == 2);  /* and so 2 in 4 */
}

/* The header and the library are of one version. */
static void versions(void) {
    CHECK(cbs_version() == CBS_VERSION);
    CHECK(CBS_VERSION == CBS_VERSION_MAJOR * 10000 + CBS_VERSION_MINOR * 100 + CBS_VERSION_PATCH);
}

int main(void) {
    open_refuses_a_server();
    open_refuses_the_second_server();
    open_refuses_a_plan();
    open_refuses_its_sizes();
    open_again();
    handles();
    sending();
    taking();
    house_is_gone();
    client_is_gone();
    polling();
    no_such_servers();
    serving();
    widest();
    running();
    throttling();
    charging();
    ending_early();
    charging_by_name();
    halves();
    turning();
    ending();
    clock_ends();
    greatest_budgets();
    greatest_budgets_of_none();
    versions();
    puts("every call and every status: as it should be");
    return 0;
}

/* That the header and the library have the same layouts. */
#include "check.h"
#include <stddef.h>
#include <string.h>

/* Where a field stands, and how long it is. */
#define FIELD(type, field, at, size) CHECK(offsetof(struct type, field) == (at) && sizeof(((struct type *)0)->field) == (size))

/* What the calls write to or read, between bytes that they leave alone. The first byte shows how each type is aligned. */
struct guarded_house { char before; struct cbs_handle it; char after[8]; };
struct guarded_clients { char before; struct cbs_handle it[2]; char after[8]; };
struct guarded_server { char before; struct cbs_server it; char after[8]; };
struct guarded_unit { char before; struct cbs_unit it; char after[8]; };
struct guarded_turn { char before; struct cbs_turn it; char after[8]; };
struct guarded_view { char before; struct cbs_view it; char after[8]; };
struct guarded_next { char before; struct cbs_next it; char after[8]; };
struct guarded_pacer { char before; struct cbs_pacer it; char after[8]; };
struct guarded_counts { char before; struct cbs_counts it; char after[8]; };
struct guarded_figures { char before; struct cbs_figures it; char after[8]; };

/* What the declarations of other languages count on. */
static void layouts(void) {
    CHECK(sizeof(struct cbs_handle) == 16 && sizeof(struct cbs_server) == 24 && sizeof(struct cbs_unit) == 24);
    CHECK(sizeof(struct cbs_turn) == 48 && sizeof(struct cbs_view) == 48);
    CHECK(offsetof(struct guarded_house, it) == 8 && offsetof(struct guarded_server, it) == 8 && offsetof(struct guarded_unit, it) == 8);
    CHECK(offsetof(struct guarded_turn, it) == 8 && offsetof(struct guarded_view, it) == 8);
    FIELD(cbs_server, budget, 0, 8);
    FIELD(cbs_server, period, 8, 8);
    FIELD(cbs_server, mode, 16, 4);
    FIELD(cbs_unit, kind, 0, 4);
    FIELD(cbs_unit, server, 4, 2);
    FIELD(cbs_unit, seq, 8, 8);
    FIELD(cbs_unit, token, 16, 8);
    FIELD(cbs_turn, took, 0, 8);
    FIELD(cbs_turn, advanced, 8, 8);
    FIELD(cbs_turn, ran, 16, 24);
    FIELD(cbs_turn, out_of_memory, 40, 1);
    FIELD(cbs_turn, over, 41, 1);
    FIELD(cbs_view, budget, 0, 8);
    FIELD(cbs_view, deadline_low, 8, 8);
    FIELD(cbs_view, deadline_high, 16, 8);
    FIELD(cbs_view, accepted, 24, 8);
    FIELD(cbs_view, finished, 32, 8);
    FIELD(cbs_view, throttled, 40, 1);
    FIELD(cbs_view, closed, 41, 1);
}

/* Of real time. */
static void layouts_of_pacing(void) {
    CHECK(sizeof(struct cbs_next) == 40 && sizeof(struct cbs_counts) == 48);
    CHECK(sizeof(struct cbs_pacer) == 608 && cbs_pacer_size() == 608);
    CHECK(offsetof(struct guarded_next, it) == 8 && offsetof(struct guarded_pacer, it) == 8);
    CHECK(offsetof(struct guarded_counts, it) == 8);
    FIELD(cbs_next, kind, 0, 4);
    FIELD(cbs_next, taken, 4, 4);
    FIELD(cbs_next, until, 8, 8);
    FIELD(cbs_next, unit, 16, 24);
    FIELD(cbs_counts, units, 0, 8);
    FIELD(cbs_counts, overruns, 8, 8);
    FIELD(cbs_counts, longest, 16, 8);
    FIELD(cbs_counts, charged, 24, 8);
    FIELD(cbs_counts, behind, 32, 8);
    FIELD(cbs_counts, most_behind, 40, 8);
}

/* Of figures. */
static void layouts_of_figures(void) {
    CHECK(sizeof(struct cbs_spread) == 552 && sizeof(struct cbs_figures) == 1136);
    CHECK(offsetof(struct guarded_figures, it) == 8);
    FIELD(cbs_spread, count, 0, 8);
    FIELD(cbs_spread, total, 8, 8);
    FIELD(cbs_spread, least, 16, 8);
    FIELD(cbs_spread, greatest, 24, 8);
    FIELD(cbs_spread, powers, 32, 520);
    FIELD(cbs_figures, ticks, 0, 8);
    FIELD(cbs_figures, accepted, 8, 8);
    FIELD(cbs_figures, units, 16, 8);
    FIELD(cbs_figures, charged, 24, 8);
    FIELD(cbs_figures, responses, 32, 552);
    FIELD(cbs_figures, lateness, 584, 552);
}

/* The library has these layouts, too: it writes each field, and nothing beside the struct, and reads nothing between fields. */
static void fields(void) {
    struct guarded_house house;
    struct guarded_clients clients;
    struct guarded_unit unit;
    struct guarded_turn turn;
    struct guarded_view view;
    struct cbs_server servers[2];
    memset(&house, 0x5a, sizeof house);
    memset(&clients, 0x5a, sizeof clients);
    memset(&unit, 0x5a, sizeof unit);
    memset(&turn, 0x5a, sizeof turn);
    memset(&view, 0x5a, sizeof view);
    memset(servers, 0x5a, sizeof servers);
    house.it = clients.it[0] = clients.it[1] = SHUT;
    servers[0].budget = 3;
    servers[0].period = 10;
    servers[0].mode = CBS_THROTTLED;
    servers[1].budget = 7;
    servers[1].period = 10;
    servers[1].mode = CBS_SOFT;
    CHECK(cbs_open(servers, 2, 4, 4, &house.it, clients.it, 2) == CBS_OK);
    send_job(&clients.it[1], 8, 1, 0);
    send_job(&clients.it[1], 9, 1, 1);
    CHECK(cbs_turn(&house.it, &turn.it) == CBS_OK);
    CHECK(cbs_turn(&house.it, &turn.it) == CBS_OK);
    CHECK(turn.it.took == 1 && turn.it.advanced == 0 && !turn.it.out_of_memory && !turn.it.over);
    is_unit(&turn.it.ran, CBS_RUN_DONE, 1, 1, 9);
    CHECK(cbs_view(&house.it, 1, &view.it) == CBS_OK);
    CHECK(view.it.budget == 5 && view.it.deadline_low == 10 && view.it.deadline_high == 0);
    CHECK(view.it.accepted == 2 && view.it.finished == 2 && !view.it.throttled && !view.it.closed);
    send_job(&clients.it[0], 11, 4, 0);
    for (int i = 0; i < 3; i++) {
        CHECK(cbs_turn(&house.it, &turn.it) == CBS_OK);
    }
    is_unit(&turn.it.ran, CBS_RUN_UNIT, 0, 0, 11);
    CHECK(cbs_view(&house.it, 0, &view.it) == CBS_OK);
    CHECK(view.it.budget == 0 && view.it.deadline_low == 12 && view.it.deadline_high == 0);
    CHECK(view.it.accepted == 1 && view.it.finished == 0 && view.it.throttled && !view.it.closed);
    CHECK(cbs_end(&clients.it[0]) == CBS_OK && cbs_end(&clients.it[1]) == CBS_OK);
    CHECK(cbs_turn(&house.it, &turn.it) == CBS_OK); /* tick 5, and server 0 waits until 12 */
    CHECK(turn.it.took == 2 && turn.it.advanced == 7 && !turn.it.out_of_memory && !turn.it.over);
    is_unit(&turn.it.ran, CBS_RUN_IDLE, 0, 0, 0);
    CHECK(cbs_turn(&house.it, &turn.it) == CBS_OK);
    CHECK(turn.it.took == 0 && turn.it.advanced == 0 && !turn.it.out_of_memory && turn.it.over);
    is_unit(&turn.it.ran, CBS_RUN_DONE, 0, 0, 11);
    CHECK(cbs_run(&house.it, &unit.it) == CBS_OK);
    is_unit(&unit.it, CBS_RUN_IDLE, 0, 0, 0);
    CHECK(untouched(&house.before, 1) && untouched(house.after, 8) && untouched(&clients.before, 1) && untouched(clients.after, 8));
    CHECK(untouched(&unit.before, 1) && untouched(unit.after, 8));
    CHECK(untouched(&turn.before, 1) && untouched(turn.after, 8));
    CHECK(untouched(&view.before, 1) && untouched(view.after, 8));
    cbs_free(&clients.it[0]);
    cbs_free(&clients.it[1]);
    cbs_free(&house.it);
    CHECK(untouched(house.after, 8) && untouched(&clients.before, 1) && untouched(clients.after, 8));
}

/* The same in real time. A tick is 1000. At 7100 seven ticks are over, and the clock stands at 4:
 * after two units, and the 2 that one of 3.5 ticks is charged, with 0.5 carried. */
static void fields_of_pacing(void) {
    const struct cbs_server server[1] = {{1, 1, CBS_SOFT}};
    struct guarded_next next;
    struct guarded_pacer pacer;
    struct guarded_counts counts;
    struct setup setup;
    memset(&next, 0x5a, sizeof next);
    memset(&pacer, 0x5a, sizeof pacer);
    memset(&counts, 0x5a, sizeof counts);
    set_up(&setup, server, 1, 4, 4);
    send_job(&setup.clients[0], 11, 4, 0);
    CHECK(cbs_pace(&setup.house, 1000, true, 0, &pacer.it) == CBS_OK);
    CHECK(cbs_next(&setup.house, &pacer.it, 0, &next.it) == CBS_OK);
    CHECK(next.it.kind == CBS_NEXT_UNIT && next.it.taken == 1);
    is_unit(&next.it.unit, CBS_RUN_UNIT, 0, 0, 11);
    CHECK(cbs_next_measured(&setup.house, &pacer.it, 300, 200, &next.it) == CBS_OK);
    CHECK(next.it.kind == CBS_NEXT_SLEEP && next.it.taken == 0 && next.it.until == 1000);
    CHECK(cbs_next(&setup.house, &pacer.it, 1000, &next.it) == CBS_OK);
    CHECK(next.it.kind == CBS_NEXT_UNIT);
    CHECK(cbs_done(&setup.house, &pacer.it, 4500) == CBS_OK);
    CHECK(cbs_next(&setup.house, &pacer.it, 7100, &next.it) == CBS_OK);
    CHECK(next.it.kind == CBS_NEXT_UNIT);
    CHECK(cbs_done_measured(&setup.house, &pacer.it, 7200, 50) == CBS_OK);
    cbs_counts(&pacer.it, &counts.it);
    CHECK(counts.it.units == 3 && counts.it.overruns == 1);
    CHECK(counts.it.longest == 3500 && counts.it.charged == 2);
    CHECK(counts.it.behind == 3 && counts.it.most_behind == 3);
    CHECK(untouched(&next.before, 1) && untouched(next.after, 8));
    CHECK(untouched(&pacer.before, 1) && untouched(pacer.after, 8));
    CHECK(untouched(&counts.before, 1) && untouched(counts.after, 8));
    tear_down(&setup);
}

/* The same of figures. A response of 700 is of power 10, and a lateness of 2^63 of power 64. */
static void fields_of_figures(void) {
    uint64_t came[3] = {0x5a, 0, 0x5a};
    struct cbs_unit unit = {CBS_RUN_DONE, 0, 0, 7};
    struct guarded_figures figures;
    memset(&figures, 0x5a, sizeof figures);
    memset(&figures.it, 0, sizeof figures.it);
    figures.it.ticks = 9;
    cbs_figures_accepted(&figures.it, &came[1], 1, 1, 300);
    cbs_figures_ended(&figures.it, &came[1], 1, &unit, 1000, 5, (uint64_t)1 << 63);
    CHECK(figures.it.ticks == 9 && figures.it.accepted == 1);
    CHECK(figures.it.units == 1 && figures.it.charged == 5);
    const struct cbs_spread *responses = &figures.it.responses, *lateness = &figures.it.lateness;
    CHECK(responses->count == 1 && responses->total == 700 && responses->powers[10] == 1);
    CHECK(responses->least == 700 && responses->greatest == 700);
    CHECK(lateness->count == 1 && lateness->powers[64] == 1 && lateness->powers[10] == 0);
    CHECK(cbs_figures_share(&figures.it) == 666);
    CHECK(came[0] == 0x5a && came[1] == 300 && came[2] == 0x5a);
    CHECK(untouched(&figures.before, 1) && untouched(figures.after, 8));
}

/* A server's budget, its period and both halves of its deadline are read. */
static void fields_of_lateness(void) {
    struct cbs_server server;
    struct cbs_view view;
    memset(&server, 0x5a, sizeof server);
    memset(&view, 0x5a, sizeof view);
    server.budget = 3;
    server.period = 10;
    view.budget = 2;
    view.deadline_low = 30;
    view.deadline_high = 0;
    CHECK(cbs_lateness(&server, &view, 30, 2) == 2);
    view.budget = 3;
    CHECK(cbs_lateness(&server, &view, 30, 2) == 12);
    view.deadline_high = 1;
    CHECK(cbs_lateness(&server, &view, 30, 2) == 0);
}

int main(void) {
    layouts();
    layouts_of_pacing();
    layouts_of_figures();
    fields();
    fields_of_pacing();
    fields_of_figures();
    fields_of_lateness();
    puts("the layouts of all structs: as they should be");
    return 0;
}

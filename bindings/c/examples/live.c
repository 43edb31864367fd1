#include <cbs_realtime.h>
#include <stdio.h>

/* 2 ticks in every 5, and 1 in every 10. A tick is a millisecond. */
static const struct cbs_server servers[2] = {{2, 5, CBS_SOFT}, {1, 10, CBS_THROTTLED}};
static const char *const names[2] = {"control", "video"};

static void work(void *context, const struct cbs_unit *unit) {
    (void)context;
    (void)unit; /* here the program does a unit of the job unit->token */
}

int main(void) {
    struct cbs_handle house = CBS_HANDLE_INIT, clients[2] = {CBS_HANDLE_INIT, CBS_HANDLE_INIT};
    struct cbs_bell bell;
    struct cbs_live live;
    uint64_t number;
    if (cbs_bell_open(&bell) != 0 || cbs_live_open(&live, servers, 2, 8, names) != 0 ||
        cbs_open(servers, 2, 8, 8, &house, clients, 2) != CBS_OK ||
        cbs_send(&clients[0], 7, 4, &number) != CBS_OK ||
        cbs_send(&clients[0], 8, 4, &number) != CBS_OK ||
        cbs_send(&clients[1], 9, 3, &number) != CBS_OK) {
        return 1;
    }
    cbs_free(&clients[0]); /* they send no more */
    cbs_free(&clients[1]);
    struct cbs_realtime realtime = cbs_realtime_of(1000000, &bell, work, NULL);
    realtime.live = &live;
    uint32_t status = cbs_realtime_run(&realtime, &house);
    cbs_live_print(&live, stdout); /* from any thread, also while the house runs */
    cbs_free(&house);
    cbs_live_close(&live);
    cbs_bell_close(&bell);
    return status != CBS_OK;
}

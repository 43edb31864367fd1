#include <cbs_realtime.h>
#include <stdio.h>

/* 2 ticks in every 5. A tick is a millisecond. */
static const struct cbs_server servers[1] = {{2, 5, CBS_THROTTLED}};

/* Does one unit. Returns whether it was the last of its job. */
static bool does(const struct cbs_unit *unit) {
    printf("a unit of job %llu\n", (unsigned long long)unit->token);
    return unit->kind == CBS_RUN_DONE;
}

int main(void) {
    struct cbs_handle house = CBS_HANDLE_INIT, client = CBS_HANDLE_INIT;
    struct cbs_bell bell; /* a sender on another thread rings it */
    struct cbs_pacer pacer;
    struct cbs_next next = {CBS_NEXT_LISTEN, 0, 0, {CBS_RUN_IDLE, 0, 0, 0}};
    struct cbs_counts counts;
    uint64_t number, tick, high, now = cbs_clock_now();
    if (cbs_bell_open(&bell) != 0 || cbs_open(servers, 1, 8, 8, &house, &client, 1) != CBS_OK ||
        cbs_send(&client, 7, 3, &number) != CBS_OK) {
        return 1;
    }
    uint32_t status = cbs_pace(&house, 1000000, false, now, &pacer);
    while (next.kind < CBS_NEXT_OVER && status == CBS_OK) {
        status = cbs_next(&house, &pacer, now, &next);
        if (next.taken > 0 && cbs_promised(&house, 0, &tick, &high) == CBS_OK && high == 0) {
            printf("promised by tick %llu\n", (unsigned long long)tick);
        }
        if (next.kind == CBS_NEXT_UNIT && does(&next.unit)) {
            cbs_free(&client); /* it sends no more */
        } else if (next.kind == CBS_NEXT_SLEEP) {
            cbs_clock_sleep(next.until);
        } else if (next.kind == CBS_NEXT_LISTEN) {
            cbs_bell_listen(&bell);
        } else if (next.kind == CBS_NEXT_WAIT) {
            cbs_clock_wait(&bell, next.until);
        }
        now = cbs_clock_now(); /* before that the program looks at what it likes */
    }
    cbs_counts(&pacer, &counts);
    printf("%llu units are done\n", (unsigned long long)counts.units);
    cbs_free(&house);
    cbs_bell_close(&bell);
    return status != CBS_OK || next.kind != CBS_NEXT_OVER;
}
